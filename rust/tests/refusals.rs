//! Each refusal, its place in the order, and that it leaves everything as it was.

mod common;

use std::sync::Arc;

use biekkarul::{Board, Mirroring, Mode, Refusal};
use common::{data, image, kept, load, marked, Shifting, BOTH_MODES, NO_RAM, PRG_BLOCK, RAM_8K};
use common::{CNROM, MMC1, MMC3, NROM, UXROM};

/// Gives both RAMs and some registers bytes that a slip would show in.
fn stir(board: &mut Board) {
    for (place, byte) in board.prg_ram_mut().iter_mut().enumerate() {
        *byte = data(place) ^ 0x5A;
    }
    for address in [0x0000, 0x1FFF, 0x8001] {
        let _ = board.write(address, 0x01);
    }
}

fn refused_read(mut board: Board, address: u16, refusal: Refusal) {
    stir(&mut board);
    let before = kept(&board);
    assert_eq!(board.read(address), Err(refusal));
    assert!(kept(&board) == before, "a refused read left traces");
    assert_eq!(board.clock(), Ok(false), "the board is still served");
}

fn refused_write(mut board: Board, address: u16, value: u8, refusal: Refusal) {
    let before = kept(&board);
    assert_eq!(board.write(address, value), Err(refusal));
    assert!(kept(&board) == before, "a refused write left traces");
    assert!(board.clock().is_ok(), "the board is still served");
}

/// An image with one fault at each of the load's steps, mended one by one: the order is 3, 4, 5, 6, 7, 8.
#[test]
fn the_loads_order() {
    let mut bytes = image(NROM, 3, 3);
    bytes.truncate(16_400);
    bytes[0] = 0;
    bytes[6] = 0x5C;
    let mut expect = |change: &dyn Fn(&mut Vec<u8>), house: u8, board: u8| {
        let number = |mode| Board::load(&bytes[..], mode).map_or_else(|r| r.number(), |_| 0);
        assert_eq!((number(Mode::House), number(Mode::Board)), (house, board));
        change(&mut bytes);
    };
    expect(&|bytes| bytes[0] = 0x4E, 3, 3);
    expect(&|bytes| bytes[6] = 0x0C, 4, 4);
    expect(&|bytes| bytes[6] = 0x08, 5, 5);
    expect(&|bytes| bytes[6] = 0x00, 5, 5);
    expect(&|bytes| bytes[6] = 0x40, 6, 6);
    expect(
        &|bytes| bytes.resize(16 + 3 * PRG_BLOCK + 3 * 8_192, 0),
        7,
        7,
    );
    expect(&|bytes| bytes[4] = 2, 0, 8);
    expect(&|bytes| bytes[5] = 0, 0, 8);
    expect(&|_| (), 0, 0);
}

/// The same with NES 2.0: 16 stands behind 5 and before 6, in board mode only.
#[test]
fn the_loads_order_under_the_mark() {
    let mut bytes = marked(NROM, 3, 3, RAM_8K);
    bytes.truncate(16_400);
    for (place, byte) in [
        (0, 0),
        (6, 0x0C),
        (8, 0x11),
        (9, 0xFF),
        (10, 0x77),
        (11, 0x77),
    ] {
        bytes[place] = byte;
    }
    let mut expect = |change: &dyn Fn(&mut Vec<u8>), house: u8, board: u8| {
        let number = |mode| Board::load(&bytes[..], mode).map_or_else(|r| r.number(), |_| 0);
        assert_eq!((number(Mode::House), number(Mode::Board)), (house, board));
        change(&mut bytes);
    };
    expect(&|bytes| bytes[0] = 0x4E, 3, 3);
    expect(&|bytes| bytes[8] = 0x10, 5, 4);
    expect(&|bytes| bytes[6] = 0x00, 5, 5);
    expect(&|bytes| bytes[8] = 0x00, 6, 16);
    expect(&|bytes| bytes[9] = 0xF0, 6, 16);
    expect(&|bytes| bytes[9] = 0x00, 6, 16);
    expect(&|bytes| bytes[10] = 0x00, 6, 16);
    expect(&|bytes| bytes[11] = 0x70, 6, 16);
    expect(&|bytes| bytes[11] = 0x00, 6, 16);
    expect(&|bytes| bytes[6] = 0x40, 6, 6);
    expect(
        &|bytes| bytes.resize(16 + 3 * PRG_BLOCK + 3 * 8_192, 0),
        7,
        7,
    );
    expect(&|bytes| bytes[4] = 2, 0, 8);
    expect(&|bytes| bytes[5] = 2, 0, 8);
    expect(&|_| (), 0, 0);
}

#[test]
fn prg_count_0() {
    for mapper in [NROM, MMC1, UXROM, CNROM, MMC3] {
        let mut bytes = image(mapper, 1, 0);
        bytes[4] = 0;
        for mode in BOTH_MODES {
            let refusal = Board::load(&bytes[..], mode).unwrap_err();
            assert_eq!(refusal, Refusal::PrgCountNotTaken);
        }
    }
}

#[test]
fn refusal_11() {
    for (byte6, chr, writes, address) in [
        (UXROM, 0, &[(0x8000, 2)][..], 0x8000),
        (MMC3, 1, &[(0x8000, 6), (0x8001, 4)], 0x8000),
        (CNROM, 1, &[(0x8000, 1)], 0x0000),
    ] {
        let mut board = load(byte6, 2, chr, Mode::House);
        for &(address, value) in writes {
            board.write(address, value).unwrap();
        }
        let before = kept(&board);
        assert_eq!(board.read(address), Err(Refusal::BankPastData));
        assert!(kept(&board) == before);
    }
}

#[test]
fn refusal_12() {
    for mapper in [NROM, MMC1, UXROM] {
        refused_write(
            load(mapper, 2, 1, Mode::House),
            0x1FFF,
            7,
            Refusal::NoChrRam,
        );
        assert_eq!(load(mapper, 2, 0, Mode::House).write(0x1FFF, 7), Ok(None));
        assert_eq!(load(mapper, 2, 1, Mode::Board).write(0x1FFF, 7), Ok(None));
    }
}

#[test]
fn refusal_13() {
    for address in [0x2000, 0x7FFF] {
        refused_read(
            load(CNROM, 2, 1, Mode::House),
            address,
            Refusal::NoSuchPlace,
        );
        refused_write(
            load(CNROM, 2, 1, Mode::House),
            address,
            7,
            Refusal::NoSuchPlace,
        );
    }
    for address in [0x8000, 0xBFFF] {
        refused_read(
            load(CNROM, 1, 1, Mode::House),
            address,
            Refusal::NoSuchPlace,
        );
    }
    assert_eq!(load(CNROM, 1, 1, Mode::House).read(0xC000), Ok(data(0)));
}

#[test]
fn refusal_14() {
    let enabled = || {
        let mut board = load(MMC3, 1, 1, Mode::House);
        board.write(0xE001, 0).unwrap();
        board
    };
    refused_write(enabled(), 0xE000, 0, Refusal::IrqPending);
    refused_write(enabled(), 0xFFFE, 0, Refusal::IrqPending);
    let mut counting = enabled();
    counting.write(0xC000, 2).unwrap();
    counting.write(0xC001, 0).unwrap();
    counting.clock().unwrap();
    assert_eq!(counting.clone().write(0xE000, 0), Ok(None), "counter 2");
    counting.clock().unwrap();
    refused_write(counting, 0xE000, 0, Refusal::IrqPending);
}

/// Board mode has none of 11 to 14, at any address, after any single write.
#[test]
fn board_mode_refuses_no_call() {
    for mapper in [NROM, MMC1, UXROM, CNROM, MMC3] {
        for chr in [0, 1] {
            let mut board = load(mapper, 1, chr, Mode::Board);
            for address in 0..=0xFFFF {
                assert!(board.write(address, (address >> 3) as u8).is_ok());
                assert!(board.read(address).is_ok());
            }
            assert!(board.clock().is_ok());
        }
    }
    for mapper in [MMC1, MMC3] {
        let mut board = Board::load(marked(mapper, 1, 1, NO_RAM), Mode::Board).unwrap();
        for address in 0..=0xFFFF {
            assert!(board.write(address, (address >> 3) as u8).is_ok());
            assert!(board.read(address).is_ok());
        }
    }
}

/// House notices compare with the header's mirroring, board mode's with the current one.
#[test]
fn notices() {
    let answers = |mode| {
        let mut board = load(MMC3, 1, 1, mode);
        let answers: Vec<_> = [0, 0, 1, 1, 0]
            .iter()
            .map(|&value| board.write(0xA000, value).unwrap())
            .collect();
        (answers, board.mirroring())
    };
    let (h, v) = (Some(Mirroring::Horizontal), Some(Mirroring::Vertical));
    let house = (vec![v, v, None, None, v], Mirroring::Horizontal);
    assert_eq!(answers(Mode::House), house);
    let board = (vec![v, None, h, None, v], Mirroring::Vertical);
    assert_eq!(answers(Mode::Board), board);
}

#[test]
fn an_image_is_owned_lent_or_shared() {
    let bytes = image(NROM, 1, 0);
    let lent = Board::load(&bytes[..], Mode::House).unwrap();
    let shared: Arc<[u8]> = bytes.clone().into();
    let first = Board::load(Arc::clone(&shared), Mode::House).unwrap();
    let second = Board::load(shared, Mode::House).unwrap();
    let owned = Board::load(bytes.clone(), Mode::House).unwrap();
    for address in [0x8000, 0xBFFF, 0xC000, 0xFFFF] {
        let expected = Ok(bytes[16 + usize::from(address) % PRG_BLOCK]);
        assert_eq!(lent.read(address), expected);
        assert_eq!(first.read(address), expected);
        assert_eq!(second.read(address), expected);
        assert_eq!(owned.read(address), expected);
    }
    assert_eq!(owned.image(), bytes);
    assert_eq!(owned.into_image(), bytes);
}

#[test]
fn an_image_of_another_length_is_refused() {
    let mut bytes = image(UXROM, 3, 0);
    bytes[4] = 2;
    let shifting = Shifting::new(bytes);
    shifting.length.set(16 + 2 * PRG_BLOCK);
    let mut board = Board::load(&shifting, Mode::House).unwrap();
    assert_eq!(board.read(0x8000), Ok(data(0)));
    for length in [0, 16, 16 + 2 * PRG_BLOCK - 1, 16 + 3 * PRG_BLOCK] {
        shifting.length.set(length);
        let before = kept(&board);
        assert_eq!(board.read(0x8000), Err(Refusal::StateOutOfRange));
        assert_eq!(board.write(0x8000, 1), Err(Refusal::StateOutOfRange));
        assert!(kept(&board) == before);
    }
    shifting.length.set(16 + 2 * PRG_BLOCK);
    assert_eq!(board.read(0x8000), Ok(data(0)));
}
