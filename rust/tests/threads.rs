//! Boards on several threads, over one shared image, do not meet.

mod common;

use std::sync::Arc;
use std::thread;

use biekkarul::{Board, Mode};
use common::{image, kept, Kept, MMC3};

fn played(bytes: Arc<[u8]>) -> (Vec<u8>, Kept) {
    let mut board = Board::load(bytes, Mode::Board).unwrap();
    let mut answers = Vec::new();
    for address in (0..=0xFFFF).step_by(3) {
        board.write(address, (address >> 4) as u8).unwrap();
        answers.push(board.read(!address).unwrap());
        answers.push(board.clock().unwrap().into());
    }
    (answers, kept(&board))
}

#[test]
fn every_thread_gets_the_same_answers() {
    let bytes: Arc<[u8]> = image(MMC3, 4, 4).into();
    let expected = played(Arc::clone(&bytes));
    let threads: Vec<_> = (0..4)
        .map(|_| {
            let bytes = Arc::clone(&bytes);
            thread::spawn(move || played(bytes))
        })
        .collect();
    for thread in threads {
        assert!(thread.join().unwrap() == expected);
    }
}
