//! The second reading of document 01, trials/model.h in C, as the program trials/play.c; and random histories
//! to be played on it and on a board.

use std::fs;
use std::io::Write;
use std::path::{Path, PathBuf};
use std::process::{Command, Stdio};
use std::sync::Once;

use biekkarul::{Board, Mode, Refusal, DIGITS, RAM_LENGTH};

use super::Numbers;

/// A call as the program takes it: kind, address (2), value.
pub type Call = [u8; 4];

pub const READ: u8 = 0;
pub const WRITE: u8 = 1;
pub const CLOCK: u8 = 2;

/// The second reading as a program, compiled by the C compiler that cargo links with.
fn program() -> PathBuf {
    static COMPILED: Once = Once::new();
    let program = Path::new(env!("CARGO_TARGET_TMPDIR")).join("second_reading");
    COMPILED.call_once(|| {
        let root = Path::new(env!("CARGO_MANIFEST_DIR")).join("..");
        fs::create_dir_all(env!("CARGO_TARGET_TMPDIR")).expect("a folder for the program");
        let compiled = Command::new("cc")
            .args(["-O1", "-std=c11", "-Wall", "-Wextra", "-Werror", "-I"])
            .args([root.join("include"), root.join("trials/play.c")])
            .arg("-o")
            .arg(&program)
            .status();
        assert!(compiled.expect("a C compiler").success());
    });
    program
}

/// What the second reading says of a history.
pub struct Expected {
    pub answers: Vec<u16>,
    pub digits: Vec<u64>,
    pub rams: Vec<u8>,
}

fn number(bytes: &[u8]) -> u64 {
    bytes
        .iter()
        .fold(0, |number, &byte| number << 8 | u64::from(byte))
}

/// What it says of a history on an image that it takes.
pub fn expected(image: &[u8], mode: Mode, calls: &[Call]) -> Expected {
    said(image, mode, calls).expect("the second reading takes the image")
}

/// What it says, or what the load answers where it refuses the image.
pub fn said(image: &[u8], mode: Mode, calls: &[Call]) -> Result<Expected, u16> {
    let mut told = vec![u8::from(mode == Mode::Board)];
    told.extend((image.len() as u32).to_be_bytes());
    told.extend(image);
    told.extend(calls.concat());
    let mut child = Command::new(program())
        .stdin(Stdio::piped())
        .stdout(Stdio::piped())
        .spawn()
        .expect("the second reading runs");
    let mut input = child.stdin.take().expect("its standard input");
    input.write_all(&told).expect("it reads all of it");
    drop(input);
    let output = child.wait_with_output().expect("it comes to its end");
    assert!(output.status.success());
    let said = output.stdout;
    let answer = number(&said[..2]) as u16;
    if answer != 0 {
        assert_eq!(said.len(), 2, "nothing is said of a board that is none");
        return Err(answer);
    }
    let (answers, rest) = said.split_at(2 + 2 * calls.len());
    let (digits, rams) = rest.split_at(8 * DIGITS);
    assert_eq!(rams.len(), 2 * RAM_LENGTH);
    Ok(Expected {
        answers: answers[2..]
            .chunks(2)
            .map(|pair| number(pair) as u16)
            .collect(),
        digits: digits.chunks(8).map(number).collect(),
        rams: rams.to_vec(),
    })
}

/// The number that the exported function answers.
fn answer<T>(answer: Result<T, Refusal>, as_number: impl Fn(T) -> u16) -> u16 {
    answer.map_or_else(|refusal| 256 + u16::from(refusal.number()), as_number)
}

pub fn make(board: &mut Board<&[u8]>, [kind, high, low, value]: Call) -> u16 {
    let address = u16::from_be_bytes([high, low]);
    match kind {
        READ => answer(board.read(address), u16::from),
        WRITE => answer(board.write(address, value), |notice| {
            notice.map_or(0, |mirroring| mirroring.letter() as u16)
        }),
        _ => answer(board.clock(), u16::from),
    }
}

/// An address, often at the edge of a window, and a byte, often a small one, at times one at a limit: a power of two,
/// or one less.
pub fn address(numbers: &mut Numbers) -> u16 {
    let any = numbers.next() as u16;
    match numbers.next() % 4 {
        0 => any & 0xE001,
        1 => any | 0x03FE,
        2 => any | 0x8000,
        _ => any,
    }
}

pub fn byte(numbers: &mut Numbers) -> u8 {
    let any = numbers.next() as u8;
    match numbers.next() % 8 {
        0 | 1 => any,
        2 | 3 => any & 0xC7,
        4 => 0x80 >> (any % 8),
        5 => 0xFF >> (any % 8),
        _ => any & 0x07,
    }
}

/// So many calls, and at their end reads from everywhere.
pub fn history(numbers: &mut Numbers, count: usize) -> Vec<Call> {
    let mut any = || {
        let ([high, low], value) = (address(numbers).to_be_bytes(), byte(numbers));
        match numbers.next() % 8 {
            0..=2 => [READ, high, low, 0],
            3..=6 => [WRITE, high, low, value],
            _ => [CLOCK, 0, 0, 0],
        }
    };
    let mut calls: Vec<Call> = (0..count).map(|_| any()).collect();
    calls.extend((0..=0xFFFF_u16).step_by(11).map(|at| {
        let [high, low] = at.to_be_bytes();
        [READ, high, low, 0]
    }));
    calls
}
