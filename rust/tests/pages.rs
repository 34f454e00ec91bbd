//! Boards read and store through their pages. What comes of it is held to the second reading of document 01,
//! which knows of no pages, also where the board has been copied, restored or switched off in between.

mod common;

use std::cell::Cell;
use std::ops::Range;
use std::sync::{Arc, Barrier};
use std::thread;

use biekkarul::{Board, Digit, Digits, Mode, Moved, Page, Refusal, PAGES, PAGE_LENGTH, RAM_LENGTH};
use common::reading::{address, byte, expected, history, make, Call, Expected, READ, WRITE};
use common::{data, image, kept, load, marked, serial, Numbers};
use common::{BATTERY_RAM_8K, BOTH_MODES, HEADER, NO_RAM, PRG_BLOCK, RAM_8K};
use common::{CNROM, MMC1, MMC3, NROM, UXROM};

/// Byte 6 and the counts: CHR RAM and CHR ROM, one PRG block and more, and fewer banks than registers can say.
const CARTRIDGES: [(u8, u8, u8); 13] = [
    (NROM, 1, 0),
    (NROM, 2, 1),
    (MMC1, 1, 0),
    (MMC1, 2, 1),
    (MMC1, 16, 8),
    (UXROM, 1, 1),
    (UXROM, 4, 0),
    (CNROM, 1, 2),
    (CNROM, 2, 0),
    (CNROM, 2, 4),
    (MMC3, 1, 0),
    (MMC3, 2, 1),
    (MMC3, 32, 32),
];

/// Of cartridges that are marked NES 2.0, without PRG RAM in board mode.
const MARKED: [(u8, usize, usize); 3] = [(MMC1, 4, 0), (MMC3, 4, 2), (CNROM, 2, 4)];

/// Every cartridge in both modes.
fn images() -> impl Iterator<Item = (Vec<u8>, Mode)> {
    let ines = CARTRIDGES
        .iter()
        .map(|&(byte6, prg, chr)| image(byte6, prg, chr));
    let nes2 = MARKED
        .iter()
        .map(|&(byte6, prg, chr)| marked(byte6, prg, chr, NO_RAM));
    ines.chain(nes2)
        .flat_map(|bytes| BOTH_MODES.map(|mode| (bytes.clone(), mode)))
}

fn name(bytes: &[u8], mode: Mode) -> String {
    format!("header {:02X?}, {mode:?}", &bytes[..HEADER])
}

fn as_expected(board: &Board<&[u8]>, expected: &Expected, name: &str) {
    assert_eq!(board.digits().all()[..], expected.digits, "{name}");
    let rams = [&board.prg_ram()[..], &board.chr_ram()[..]].concat();
    assert!(rams == expected.rams, "{name}: a RAM");
}

/// Makes each call by a function of the test, and holds all that comes of it to the second reading.
fn play(
    bytes: &[u8],
    mode: Mode,
    calls: &[Call],
    board: &mut Board<&[u8]>,
    mut made: impl FnMut(&mut Board<&[u8]>, Call) -> u16,
) {
    let expected = expected(bytes, mode, calls);
    let name = name(bytes, mode);
    for (place, (&call, wanted)) in calls.iter().zip(&expected.answers).enumerate() {
        assert_eq!(made(board, call), *wanted, "{name}, {place}: {call:02X?}");
    }
    as_expected(board, &expected, &name);
}

/// Writes that move banks, each with reads from all pages after it.
fn moves(numbers: &mut Numbers, count: usize) -> Vec<Call> {
    let mut calls = Vec::new();
    for _ in 0..count {
        let [high, low] = (address(numbers) | 0x8000).to_be_bytes();
        calls.push([WRITE, high, low, byte(numbers)]);
        for page in 0..PAGES {
            let within = numbers.next() as usize % PAGE_LENGTH;
            let [high, low] = ((page * PAGE_LENGTH + within) as u16).to_be_bytes();
            calls.push([READ, high, low, 0]);
        }
    }
    calls
}

#[test]
fn long_histories() {
    let mut numbers = Numbers(21);
    for (bytes, mode) in images() {
        let calls = history(&mut numbers, 20_000);
        let mut board = Board::load(&bytes[..], mode).unwrap();
        play(&bytes, mode, &calls, &mut board, make);
    }
}

#[test]
fn all_pages_after_each_move() {
    let mut numbers = Numbers(22);
    for (bytes, mode) in images() {
        let calls = moves(&mut numbers, 400);
        let mut board = Board::load(&bytes[..], mode).unwrap();
        play(&bytes, mode, &calls, &mut board, make);
    }
}

/// Calls that the second reading is not told of; what they did must be gone.
fn stray(board: &mut Board<&[u8]>, numbers: &mut Numbers) {
    for call in moves(numbers, 4).into_iter().chain(history(numbers, 20)) {
        make(board, call);
    }
}

/// Leaves for other banks and comes back, on one of the ways that there are.
fn detour(board: &mut Board<&[u8]>, mode: Mode, numbers: &mut Numbers) {
    let snapshot = board.snapshot();
    match numbers.next() % 4 {
        0 => {
            stray(board, numbers);
            board.restore(&snapshot).unwrap();
        }
        1 => {
            board.power_cycle().unwrap();
            stray(board, numbers);
            board.restore(&snapshot).unwrap();
        }
        2 => {
            let copy = board.clone();
            stray(board, numbers);
            *board = copy;
        }
        _ => {
            let image = board.clone().into_image();
            *board = Board::from_snapshot(image, mode, &snapshot).unwrap();
        }
    }
}

#[test]
fn histories_with_detours() {
    let mut numbers = Numbers(23);
    let mut others = Numbers(24);
    for (bytes, mode) in images() {
        let calls = [moves(&mut numbers, 20), history(&mut numbers, 2_000)].concat();
        let mut board = Board::load(&bytes[..], mode).unwrap();
        play(&bytes, mode, &calls, &mut board, |board, call| {
            if others.next() % 64 == 0 {
                detour(board, mode, &mut others);
            }
            make(board, call)
        });
    }
}

/// A switched-off board goes on as one that was just loaded, but for PRG RAM.
#[test]
fn a_power_cycle_makes_all_pages_anew() {
    let mut numbers = Numbers(25);
    for (bytes, mode) in images() {
        let mut board = Board::load(&bytes[..], mode).unwrap();
        stray(&mut board, &mut numbers);
        board.power_cycle().unwrap();
        board.prg_ram_mut().fill(0);
        let calls = moves(&mut numbers, 10);
        play(&bytes, mode, &calls, &mut board, make);
    }
}

/// A byte that is put into a RAM is read through the pages, and a stored one is seen in the RAM.
#[test]
fn rams_are_the_same_from_both_sides() {
    let mut numbers = Numbers(26);
    for (bytes, mode) in images() {
        let calls = history(&mut numbers, 4_000);
        let mut board = Board::load(&bytes[..], mode).unwrap();
        play(&bytes, mode, &calls, &mut board, |board, call| {
            let at = u16::from_be_bytes([call[1], call[2]]);
            let within = usize::from(at) % PAGE_LENGTH;
            let page = board.write_pages()[usize::from(at) / PAGE_LENGTH];
            match page {
                Page::PrgRam(start) if call[0] == WRITE && call[3] % 2 == 0 => {
                    board.prg_ram_mut()[start + within] = call[3];
                    0
                }
                Page::ChrRam(start) if call[0] == WRITE && call[3] % 2 == 0 => {
                    board.chr_ram_mut()[start + within] = call[3];
                    0
                }
                _ => made_as_the_page_says(board, call, page, within),
            }
        });
    }
}

/// What a write to a page of each kind does to the RAMs, and what it answers.
fn made_as_the_page_says(board: &mut Board<&[u8]>, call: Call, page: Page, within: usize) -> u16 {
    let mut wanted = kept(board);
    let answer = make(board, call);
    if call[0] != WRITE {
        return answer;
    }
    match page {
        Page::PrgRam(start) => wanted.prg_ram[start + within] = call[3],
        Page::ChrRam(start) => wanted.chr_ram[start + within] = call[3],
        Page::Nowhere => (),
        Page::Refused(refusal) => assert_eq!(answer, 256 + u16::from(refusal.number())),
        Page::Call => wanted.state = board.state(),
        Page::Image(_) => panic!("a write goes to the image"),
    }
    assert!(kept(board) == wanted, "{call:02X?}: {page:?}");
    answer
}

/// The answer of a read, by the pages that a board shows.
fn through_pages(board: &Board<&[u8]>, at: u16) -> Result<u8, Refusal> {
    let within = usize::from(at) % PAGE_LENGTH;
    match board.read_pages()[usize::from(at) / PAGE_LENGTH] {
        Page::Image(start) => Ok(board.image()[start + within]),
        Page::PrgRam(start) => Ok(board.prg_ram()[start + within]),
        Page::ChrRam(start) => Ok(board.chr_ram()[start + within]),
        Page::Nowhere => Ok(0),
        Page::Refused(refusal) => Err(refusal),
        Page::Call => panic!("a read has to be called"),
    }
}

#[test]
fn the_pages_that_are_shown() {
    let mut numbers = Numbers(27);
    for (bytes, mode) in images() {
        let calls = moves(&mut numbers, 40);
        let mut board = Board::load(&bytes[..], mode).unwrap();
        play(&bytes, mode, &calls, &mut board, |board, call| {
            if call[0] != READ {
                return make(board, call);
            }
            through_pages(board, u16::from_be_bytes([call[1], call[2]]))
                .map_or_else(|refusal| 256 + u16::from(refusal.number()), u16::from)
        });
    }
}

/// What each part hangs on.
const OF_CHR: [Digit; 11] = [
    Digit::CnromBank,
    Digit::Mmc1ChrMode,
    Digit::Mmc1Chr0,
    Digit::Mmc1Chr1,
    Digit::Mmc3R0,
    Digit::Mmc3R1,
    Digit::Mmc3R2,
    Digit::Mmc3R3,
    Digit::Mmc3R4,
    Digit::Mmc3R5,
    Digit::Mmc3ChrMode,
];
const OF_PRG: [Digit; 6] = [
    Digit::UxromBank,
    Digit::Mmc1PrgMode,
    Digit::Mmc1Prg,
    Digit::Mmc3R6,
    Digit::Mmc3R7,
    Digit::Mmc3PrgMode,
];

const OF_RAM: [Digit; 2] = [Digit::RamEnabled, Digit::RamWritesDenied];

fn other(digits: &[Digit], before: &Digits, after: &Digits) -> bool {
    digits.iter().any(|&digit| before[digit] != after[digit])
}

/// The pages of reads, and those of writes.
type Pages = ([Page; PAGES], [Page; PAGES]);

fn pages<I>(board: &Board<I>) -> Pages {
    (board.read_pages(), board.write_pages())
}

/// A part that has not moved is as it was. Pages 8 to 23, and of writes those from 32 on, always are.
fn rest_is_the_same(moved: Moved, before: &Pages, after: &Pages) {
    let same_reads = |part: Range<usize>| before.0[part.clone()] == after.0[part];
    let same_writes = |part: Range<usize>| before.1[part.clone()] == after.1[part];
    assert!(moved.chr || same_reads(0..8) && same_writes(0..8));
    assert!(moved.ram || same_reads(24..32) && same_writes(24..32));
    assert!(moved.prg || same_reads(32..PAGES));
    assert!(same_reads(8..24) && same_writes(8..24) && same_writes(32..PAGES));
}

/// A write says that a part has moved exactly where a register of the part holds another value; else the
/// part's pages are the same.
#[test]
fn what_a_write_has_moved() {
    let mut numbers = Numbers(28);
    let (mut chr_moved, mut prg_moved, mut ram_moved) = (0, 0, 0);
    for (bytes, mode) in images() {
        let mut board = Board::load(&bytes[..], mode).unwrap();
        for _ in 0..2_000 {
            let (at, value) = (address(&mut numbers), byte(&mut numbers));
            let (before, digits) = (pages(&board), board.digits());
            let mut twin = board.clone();
            let answer = board.write_moved(at, value);
            assert_eq!(twin.write(at, value), answer.map(|(notice, _)| notice));
            assert_eq!(twin, board);
            let moved = answer.map_or(Moved::default(), |(_, moved)| moved);
            assert_eq!(moved.chr, other(&OF_CHR, &digits, &board.digits()));
            assert_eq!(moved.prg, other(&OF_PRG, &digits, &board.digits()));
            assert_eq!(moved.ram, other(&OF_RAM, &digits, &board.digits()));
            rest_is_the_same(moved, &before, &pages(&board));
            chr_moved += u32::from(moved.chr);
            prg_moved += u32::from(moved.prg);
            ram_moved += u32::from(moved.ram);
        }
    }
    assert!(
        chr_moved > 1_000 && prg_moved > 1_000 && ram_moved > 100,
        "{chr_moved} {prg_moved} {ram_moved}"
    );
}

/// Two copies that part keep their own banks.
#[test]
fn a_copy_keeps_its_banks() {
    let mut board = load(UXROM, 4, 0, Mode::Board);
    board.write(0x8000, 1).unwrap();
    assert_eq!(board.read(0x8000), Ok(data(PRG_BLOCK)));
    let mut copy = board.clone();
    board.write(0x8000, 2).unwrap();
    assert_eq!(copy.read(0x8000), Ok(data(PRG_BLOCK)));
    assert_eq!(board.read(0x8000), Ok(data(2 * PRG_BLOCK)));
    copy.write(0x0000, 7).unwrap();
    assert_eq!((board.read(0x0000), copy.read(0x0000)), (Ok(0), Ok(7)));
}

/// The pages are no part of what a board is.
#[test]
fn pages_that_were_learnt_do_not_show() {
    let fresh = load(MMC1, 2, 0, Mode::House);
    let used = fresh.clone();
    for address in (0..=0xFFFF).step_by(PAGE_LENGTH) {
        let _ = used.read(address);
    }
    assert_eq!(used, fresh);
    assert_eq!(format!("{used:?}"), format!("{fresh:?}"));
    assert!(used.snapshot() == fresh.snapshot());
}

/// Pages 24 to 31 are those of 6000-7FFF.
#[test]
fn no_page_of_prg_ram_where_there_is_none() {
    let of_prg_ram: Vec<Page> = (0..8)
        .map(|page| Page::PrgRam(page * PAGE_LENGTH))
        .collect();
    for byte6 in [MMC1, MMC3] {
        for (byte10, mode, wanted) in [
            (NO_RAM, Mode::Board, &[Page::Nowhere; 8][..]),
            (RAM_8K, Mode::Board, &of_prg_ram),
            (BATTERY_RAM_8K, Mode::Board, &of_prg_ram),
            (NO_RAM, Mode::House, &of_prg_ram),
        ] {
            let board = Board::load(marked(byte6, 2, 1, byte10), mode).unwrap();
            assert_eq!(board.read_pages()[24..32], *wanted);
            assert_eq!(board.write_pages()[24..32], *wanted);
        }
    }
}

/// Offsets of more than 22 bits: 512 PRG blocks come before CHR.
#[test]
fn pages_far_in_the_image() {
    let board = Board::load(marked(MMC1, 512, 1, NO_RAM), Mode::Board).unwrap();
    let pages = board.read_pages();
    assert_eq!(pages[0], Page::Image(HEADER + 512 * PRG_BLOCK));
    assert_eq!(pages[48], Page::Image(HEADER + 511 * PRG_BLOCK));
    assert_eq!(board.read(0x0000), Ok(data(512 * PRG_BLOCK)));
    assert_eq!(board.read(0xFFFF), Ok(data(512 * PRG_BLOCK - 1)));
}

/// A write to nowhere leaves zeros there, on every board.
#[test]
fn nowhere_stays_zero() {
    for (bytes, mode) in images() {
        let mut board = Board::load(&bytes[..], mode).unwrap();
        let (reads, writes) = (board.read_pages(), board.write_pages());
        for at in (0..0x8000_u16).step_by(3) {
            let page = usize::from(at) / PAGE_LENGTH;
            if (reads[page], writes[page]) == (Page::Nowhere, Page::Nowhere) {
                assert_eq!(board.write(at, 0xFF), Ok(None));
                assert_eq!(board.read(at), Ok(0));
            }
        }
        assert!(board.prg_ram() == &[0; RAM_LENGTH] && board.chr_ram() == &[0; RAM_LENGTH]);
    }
}

/// Threads that share one board, which has yet to learn its pages, learn them at once.
#[test]
fn one_board_is_read_by_many_threads() {
    let bytes: Arc<[u8]> = image(MMC3, 8, 8).into();
    let wanted: Vec<_> = {
        let board = Board::load(Arc::clone(&bytes), Mode::House).unwrap();
        (0..=0xFFFF).map(|address| board.read(address)).collect()
    };
    for _ in 0..50 {
        let board = Arc::new(Board::load(Arc::clone(&bytes), Mode::House).unwrap());
        let start = Arc::new(Barrier::new(4));
        let threads: Vec<_> = (0..4_u16)
            .map(|turn| {
                let (board, start) = (Arc::clone(&board), Arc::clone(&start));
                thread::spawn(move || {
                    start.wait();
                    let from = turn.wrapping_mul(0x4000);
                    (0..=0xFFFF_u16)
                        .step_by(97)
                        .map(|step| from.wrapping_add(step))
                        .map(|address| (address, board.read(address)))
                        .collect::<Vec<_>>()
                })
            })
            .collect();
        for thread in threads {
            for (address, answer) in thread.join().unwrap() {
                assert_eq!(answer, wanted[usize::from(address)], "{address:04X}");
            }
        }
    }
}

/// Bytes that another length, or other bytes, are given of while the board has them.
struct Shifting {
    bytes: [Vec<u8>; 2],
    chosen: Cell<usize>,
    length: Cell<usize>,
}

impl Shifting {
    fn over(first: Vec<u8>, second: Vec<u8>) -> Shifting {
        let length = Cell::new(first.len());
        Shifting {
            bytes: [first, second],
            chosen: Cell::new(0),
            length,
        }
    }
}

impl AsRef<[u8]> for Shifting {
    fn as_ref(&self) -> &[u8] {
        &self.bytes[self.chosen.get()][..self.length.get()]
    }
}

/// Each page is refused, also one in a RAM or nowhere, and also once it is known.
#[test]
fn an_image_of_another_length_is_refused_at_every_page() {
    for mode in BOTH_MODES {
        let (first, mut longer) = (image(MMC1, 2, 0), image(MMC1, 2, 0));
        longer.push(0);
        let length = first.len();
        let shifting = Shifting::over(first, longer);
        let mut board = Board::load(&shifting, mode).unwrap();
        for known in [false, true] {
            if known {
                for at in (0..=0xFFFF).step_by(PAGE_LENGTH) {
                    assert!(board.read(at).is_ok() && board.write(at, 0).is_ok());
                }
            }
            let before = kept(&board);
            for (chosen, other) in [(0, length - 1), (0, 0), (1, length + 1)] {
                shifting.chosen.set(chosen);
                shifting.length.set(other);
                for at in (0..=0xFFFF).step_by(PAGE_LENGTH) {
                    assert_eq!(board.read(at), Err(Refusal::StateOutOfRange));
                    assert_eq!(board.write(at, 1), Err(Refusal::StateOutOfRange));
                }
                assert!(kept(&board) == before);
            }
            shifting.chosen.set(0);
            shifting.length.set(length);
            assert_eq!(board.read(0x8000), Ok(data(0)));
        }
    }
}

/// A power cycle loads the image as it now is: also a longer one, whose length then counts.
#[test]
fn a_power_cycle_takes_up_the_length() {
    let (first, mut longer) = (image(UXROM, 2, 0), image(UXROM, 2, 0));
    longer.push(0);
    let (length, other) = (first.len(), longer.len());
    let shifting = Shifting::over(first, longer);
    let mut board = Board::load(&shifting, Mode::House).unwrap();
    assert_eq!(board.read(0x8000), Ok(data(0)));
    shifting.chosen.set(1);
    shifting.length.set(other);
    assert_eq!(board.read(0x8000), Err(Refusal::StateOutOfRange));
    board.power_cycle().unwrap();
    assert_eq!(board.read(0x8000), Ok(data(0)));
    assert_eq!(board.write(0x0000, 5), Ok(None));
    shifting.length.set(length);
    assert_eq!(board.read(0x8000), Err(Refusal::StateOutOfRange));
    assert_eq!(board.write(0x0000, 6), Err(Refusal::StateOutOfRange));
    assert_eq!(board.chr_ram()[0], 5);
}

/// A refused power cycle leaves the banks, and the pages still lead to them.
#[test]
fn a_refused_power_cycle_leaves_the_banks() {
    let mut broken = image(UXROM, 4, 0);
    broken[0] = 0;
    let shifting = Shifting::over(image(UXROM, 4, 0), broken);
    let mut board = Board::load(&shifting, Mode::House).unwrap();
    board.write(0x8000, 2).unwrap();
    board.write(0x0000, 9).unwrap();
    let before = kept(&board);
    shifting.chosen.set(1);
    assert_eq!(board.power_cycle(), Err(Refusal::ImageNotInes));
    assert!(kept(&board) == before);
    shifting.chosen.set(0);
    assert_eq!(board.read(0x8000), Ok(data(2 * PRG_BLOCK)));
    assert_eq!(board.read(0x0000), Ok(9));
}

/// The bytes are asked for anew at each read, so other bytes of the same length are those that are read.
#[test]
fn the_image_is_looked_at_in_each_read() {
    let mut second = image(NROM, 1, 0);
    second[16] ^= 0xFF;
    let shifting = Shifting::over(image(NROM, 1, 0), second);
    let board = Board::load(&shifting, Mode::Board).unwrap();
    assert_eq!(board.read(0x8000), Ok(data(0)));
    shifting.chosen.set(1);
    assert_eq!(board.read(0x8000), Ok(data(0) ^ 0xFF));
}

/// A bank that goes past the data is refused, and served again once another one is chosen.
#[test]
fn a_refused_page_is_served_again() {
    let mut board = load(MMC1, 2, 1, Mode::House);
    for (bank, wanted) in [(5, Err(Refusal::BankPastData)), (1, Ok(data(PRG_BLOCK)))] {
        serial(&mut board, 0xE000, bank).unwrap();
        for _ in 0..2 {
            assert_eq!(board.read(0x8000), wanted);
        }
    }
}
