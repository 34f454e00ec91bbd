//! MMC3's protection of PRG RAM, as M-111 of document 02 has it: in board mode an odd write to A000-BFFF sets two marks,
//! RAM enabled and writes denied. In house mode, and on other boards, PRG RAM is always enabled and writable.

mod common;

use biekkarul::bus::BusBoard;
use biekkarul::trace::{Event, Trace};
use biekkarul::{Board, Digit, Digits, Mode, Moved, Page, Refusal, Registers, Snapshot};
use biekkarul::{DIGITS, PAGES, PAGE_LENGTH, RAM_LENGTH};
use common::reading::{address, byte};
use common::{data, image, kept, load, marked, packed, Numbers, BATTERY_RAM_8K, BOTH_MODES};
use common::{CNROM, MMC1, MMC3, NO_RAM, NROM, RAM_8K, UXROM, VERTICAL};

/// Both marks: the tests' own reading of M-111.
#[derive(Clone, Copy, Debug, PartialEq)]
struct Marks {
    enabled: bool,
    denied: bool,
}

const fn marks(enabled: bool, denied: bool) -> Marks {
    Marks { enabled, denied }
}

/// "We start it enabled and writable."
const START: Marks = marks(true, false);

const SETTINGS: [Marks; 4] = [
    START,
    marks(true, true),
    marks(false, false),
    marks(false, true),
];

impl Marks {
    /// "sets bit 7, RAM enabled, and bit 6, writes denied"
    fn set_by(value: u8) -> Marks {
        marks(value >= 0x80, value % 0x80 >= 0x40)
    }

    /// A byte that sets these, among bits that say nothing.
    fn byte(self) -> u8 {
        [0x15, 0x55, 0x95, 0xD5][usize::from(self.enabled) * 2 + usize::from(self.denied)]
    }

    /// Those of a board, which its registers tell as its digits do.
    fn of<I>(board: &Board<I>) -> Marks {
        let digits = board.digits();
        let found = [Digit::RamEnabled, Digit::RamWritesDenied].map(|digit| digits[digit] == 1);
        if let Registers::Mmc3(mmc3) = board.registers() {
            assert_eq!([mmc3.ram_enabled, mmc3.ram_writes_denied], found);
        }
        marks(found[0], found[1])
    }

    /// The digits with these marks.
    fn put(self, digits: Digits) -> [u64; DIGITS] {
        let mut changed = *digits.all();
        changed[Digit::RamEnabled as usize] = self.enabled.into();
        changed[Digit::RamWritesDenied as usize] = self.denied.into();
        changed
    }
}

/// What 6000-7FFF of MMC3 is in board mode: the tests' own reading of M-111, and of M-100 where there is no PRG RAM.
#[derive(Clone)]
struct Ram {
    is_there: bool,
    marks: Marks,
    bytes: [u8; RAM_LENGTH],
}

impl Ram {
    fn of<I>(board: &Board<I>) -> Ram {
        Ram {
            is_there: board.has_prg_ram(),
            marks: Marks::of(board),
            bytes: *board.prg_ram(),
        }
    }

    fn read(&self, address: u16) -> u8 {
        if self.is_there && self.marks.enabled {
            self.bytes[usize::from(address) - 0x6000]
        } else {
            0
        }
    }

    /// A write to any address of the board.
    fn write(&mut self, address: u16, value: u8) {
        let is_writable = self.is_there && self.marks.enabled && !self.marks.denied;
        match address {
            0x6000..=0x7FFF if is_writable => self.bytes[usize::from(address) - 0x6000] = value,
            0xA000..=0xBFFF if address % 2 == 1 => self.marks = Marks::set_by(value),
            _ => {}
        }
    }

    fn is_of<I>(&self, board: &Board<I>) -> bool {
        self.marks == Marks::of(board) && &self.bytes == board.prg_ram()
    }
}

/// What a game saved: no byte of it is 0, which disabled RAM would read as well.
fn saved() -> [u8; RAM_LENGTH] {
    std::array::from_fn(|place| data(place).max(1))
}

/// A board of these digits with the saved game, or the refusal of its state.
fn taken_up<'a>(
    image: &'a [u8],
    mode: Mode,
    digits: &[u64; DIGITS],
) -> Result<Board<&'a [u8]>, Refusal> {
    let state = packed(digits);
    let made = Board::from_parts(image, mode, &state, &saved(), &[0; RAM_LENGTH]);
    assert_eq!(Digits::of(&state).err(), made.as_ref().err().copied());
    made
}

/// A board of MMC3 in board mode with these marks and the saved game, else as a load leaves it.
fn with_marks(image: &[u8], marks: Marks) -> Board<&[u8]> {
    let fresh = Board::load(image, Mode::Board).unwrap();
    let digits = marks.put(fresh.digits());
    taken_up(image, Mode::Board, &digits).expect("every setting is in range")
}

/// One of MMC3 in board mode with any registers that it may have, and any marks.
fn any_board<'a>(image: &'a [u8], numbers: &mut Numbers) -> Board<&'a [u8]> {
    let mut digits = *Board::load(image, Mode::Board).unwrap().digits().all();
    let mut put = |digit: Digit, below: u64, step: u64| {
        digits[digit as usize] = numbers.next() % below * step;
    };
    put(Digit::Mirroring, 2, 1);
    for pair in [Digit::Mmc3R0, Digit::Mmc3R1] {
        put(pair, 128, 2);
    }
    for byte in [
        Digit::Mmc3R2,
        Digit::Mmc3R3,
        Digit::Mmc3R4,
        Digit::Mmc3R5,
        Digit::Mmc3Latch,
        Digit::Mmc3Counter,
    ] {
        put(byte, 256, 1);
    }
    for bank in [Digit::Mmc3R6, Digit::Mmc3R7] {
        put(bank, 64, 1);
    }
    put(Digit::Mmc3Select, 8, 1);
    for flag in [
        Digit::Mmc3PrgMode,
        Digit::Mmc3ChrMode,
        Digit::Mmc3IrqEnabled,
        Digit::Mmc3Reload,
        Digit::Mmc3IrqLine,
        Digit::RamEnabled,
        Digit::RamWritesDenied,
    ] {
        put(flag, 2, 1);
    }
    taken_up(image, Mode::Board, &digits).expect("a state in range")
}

/// Images of MMC3 with PRG RAM.
fn with_ram() -> [Vec<u8>; 3] {
    [
        image(MMC3, 2, 1),
        marked(MMC3, 2, 0, RAM_8K),
        marked(MMC3 | VERTICAL, 2, 1, BATTERY_RAM_8K),
    ]
}

/// An image of MMC3 without, which only board mode reads so.
fn without_ram() -> Vec<u8> {
    marked(MMC3, 2, 1, NO_RAM)
}

/// Images of every board, marked and not.
fn images() -> impl Iterator<Item = Vec<u8>> {
    [NROM, MMC1, UXROM, CNROM, MMC3]
        .into_iter()
        .flat_map(|mapper| {
            [
                image(mapper, 2, 1),
                marked(mapper, 2, 0, RAM_8K),
                marked(mapper, 2, 1, NO_RAM),
            ]
        })
}

/// Loaded boards whose PRG RAM is never locked: of every kind in house mode, of all but MMC3 in board mode.
fn without_marks() -> impl Iterator<Item = Board> {
    images()
        .flat_map(|image| BOTH_MODES.map(|mode| Board::load(image.clone(), mode).unwrap()))
        .filter(|board| board.mapper() != 4 || board.mode() == Mode::House)
}

#[test]
fn at_a_load() {
    for (image, mode) in images().flat_map(|image| BOTH_MODES.map(|mode| (image.clone(), mode))) {
        assert_eq!(Marks::of(&Board::load(image, mode).unwrap()), START);
    }
}

/// Every byte, from each setting, at the ends of A000-BFFF and within: it sets both marks and moves nothing else.
#[test]
fn every_byte_at_an_odd_address() {
    let (image, game) = (image(MMC3, 1, 0), saved());
    for before in SETTINGS {
        let mut board = with_marks(&image, before);
        // No other register is at 0, so that one which is cleared is seen.
        for (at, value) in [(0x8000, 0xC5), (0x8001, 6), (0xC000, 9), (0xC001, 0)] {
            board.write(at, value).unwrap();
        }
        let untouched = board.clone();
        for (value, at) in (0..=255).flat_map(|value| {
            [0xA001, 0xA003, 0xAFFF, 0xB001, 0xBFFD, 0xBFFF].map(|at| (value, at))
        }) {
            assert_eq!(board.write(at, value), Ok(None), "{at:04X}={value:02X}");
            assert_eq!(
                Marks::of(&board),
                Marks::set_by(value),
                "{at:04X}={value:02X}"
            );
            let digits = before.put(board.digits());
            assert_eq!(&digits, untouched.digits().all(), "{at:04X}={value:02X}");
            assert_eq!(board.last_notice(), None);
            assert!(board.prg_ram() == &game && board.chr_ram() == &[0; RAM_LENGTH]);
        }
    }
}

/// An even write is the mirroring's, and leaves the marks.
#[test]
fn every_byte_at_an_even_address() {
    let image = image(MMC3, 1, 0);
    for before in SETTINGS {
        let mut board = with_marks(&image, before);
        let mut unlocked = with_marks(&image, START);
        for (value, at) in
            (0..=255).flat_map(|value| [0xA000, 0xA002, 0xB000, 0xBFFE].map(|at| (value, at)))
        {
            assert_eq!(board.write(at, value), unlocked.write(at, value));
            assert_eq!(Marks::of(&board), before, "{at:04X}={value:02X}");
            assert_eq!(START.put(board.digits()), *unlocked.digits().all());
        }
        assert!(board.prg_ram() == &saved());
    }
}

#[test]
fn every_address_of_a000_bfff() {
    let image = image(MMC3, 1, 1);
    let mut board = with_marks(&image, START);
    for (at, value) in (0xA000..=0xBFFF)
        .flat_map(|at| [0x00, 0x41, 0x80, 0xFF, 0x3F, 0xC1, 0x7F, 0xBE].map(|value| (at, value)))
    {
        let before = Marks::of(&board);
        assert!(board.write(at, value).is_ok());
        let wanted = match at % 2 {
            0 => before,
            _ => Marks::set_by(value),
        };
        assert_eq!(Marks::of(&board), wanted, "{at:04X}={value:02X}");
    }
}

/// In house mode an odd write there moves nothing at all; on other boards it is that board's own matter, and the marks
/// stay.
#[test]
fn no_byte_sets_them_elsewhere() {
    for mut board in without_marks() {
        for (value, at) in (0..=255).flat_map(|value| {
            [0xA000, 0xA001, 0xAFFF, 0xB000, 0xBFFE, 0xBFFF].map(|at| (value, at))
        }) {
            let before = kept(&board);
            let answer = board.write_moved(at, value);
            assert_eq!(Marks::of(&board), START, "{at:04X}={value:02X}: {board:?}");
            assert!(answer.map_or(true, |(_, moved)| !moved.ram));
            if board.mapper() == 4 && at % 2 == 1 {
                assert_eq!(answer, Ok((None, Moved::default())));
                assert!(kept(&board) == before);
            }
        }
    }
}

/// Any writes and clocks, and then PRG RAM is taken and read as ever where the board shows it.
#[test]
fn never_locked_elsewhere() {
    let mut numbers = Numbers(11);
    for mut board in without_marks() {
        for _ in 0..2_000 {
            let _ = board.write(address(&mut numbers), byte(&mut numbers));
            let _ = board.clock();
            assert_eq!(Marks::of(&board), START, "{board:?}");
        }
        if [1, 4].contains(&board.mapper()) && board.has_prg_ram() {
            for at in [0x6000, 0x7FFF] {
                assert_eq!(board.write(at, 0x2A), Ok(None));
                assert_eq!(board.read(at), Ok(0x2A));
            }
        }
    }
}

/// What each setting reads of a byte 2A, and what that byte is after a write of 2B.
#[test]
fn the_four_settings() {
    for image in with_ram() {
        for (marks, read, after) in [
            (marks(true, false), 0x2A, 0x2B),
            (marks(true, true), 0x2A, 0x2A),
            (marks(false, false), 0x00, 0x2A),
            (marks(false, true), 0x00, 0x2A),
        ] {
            for at in [0x6000, 0x6001, 0x63FF, 0x6400, 0x7BFF, 0x7FFE, 0x7FFF_u16] {
                let mut board = with_marks(&image, marks);
                let place = usize::from(at) - 0x6000;
                board.prg_ram_mut()[place] = 0x2A;
                let mut wanted = kept(&board);
                wanted.prg_ram[place] = after;
                assert_eq!(board.read(at), Ok(read), "{marks:?}, {at:04X}");
                assert_eq!(board.write(at, 0x2B), Ok(None), "{marks:?}, {at:04X}");
                assert!(kept(&board) == wanted, "{marks:?}, {at:04X}");
                let read_again = if marks.enabled { after } else { 0 };
                assert_eq!(board.read(at), Ok(read_again), "{marks:?}, {at:04X}");
            }
        }
    }
}

/// The game locks its RAM, writes all over it, and unlocks it: every byte is as it was, and can be written again.
#[test]
fn bytes_are_kept_while_locked() {
    for (image, locked) in with_ram()
        .iter()
        .flat_map(|image| SETTINGS[1..].iter().map(move |locked| (image, *locked)))
    {
        let mut board = Board::load(&image[..], Mode::Board).unwrap();
        for (at, byte) in (0x6000..).zip(saved()) {
            assert_eq!(board.write(at, byte), Ok(None));
        }
        assert_eq!(board.write(0xA001, locked.byte()), Ok(None));
        for (at, byte) in (0x6000..).zip(saved()) {
            assert_eq!(board.write(at, !byte), Ok(None));
            let wanted = if locked.enabled { byte } else { 0 };
            assert_eq!(board.read(at), Ok(wanted), "{locked:?}, {at:04X}");
        }
        assert!(board.prg_ram() == &saved(), "{locked:?}");
        assert_eq!(board.write(0xA001, START.byte()), Ok(None));
        for (at, byte) in (0x6000..).zip(saved()) {
            assert_eq!(board.read(at), Ok(byte), "{locked:?}, {at:04X}");
            assert_eq!(board.write(at, !byte), Ok(None));
            assert_eq!(board.read(at), Ok(!byte), "{locked:?}, {at:04X}");
        }
    }
}

/// At every other address, 5FFF and 8000 among them, a locked board answers as one that is not; CHR RAM too, and clocks.
#[test]
fn no_other_address_is_concerned() {
    let image = image(MMC3, 2, 0);
    for locked in SETTINGS {
        let mut board = with_marks(&image, locked);
        let mut unlocked = with_marks(&image, START);
        for at in (0..=0xFFFF).filter(|at| !(0x6000..=0x7FFF).contains(at)) {
            assert_eq!(board.read(at), unlocked.read(at), "{at:04X}");
            if (0xA000..=0xBFFF).contains(&at) && at % 2 == 1 {
                continue;
            }
            let value = (at >> 3) as u8 | 1;
            assert_eq!(
                board.write(at, value),
                unlocked.write(at, value),
                "{at:04X}"
            );
            assert_eq!(board.read(at), unlocked.read(at), "{at:04X}");
            assert_eq!(board.clock(), unlocked.clock(), "{at:04X}");
            assert_eq!(START.put(board.digits()), *unlocked.digits().all());
        }
        assert_eq!(Marks::of(&board), locked);
        assert!(board.chr_ram() == unlocked.chr_ram() && board.chr_ram() != &[0; RAM_LENGTH]);
        assert!(board.prg_ram() == &saved());
        assert_eq!(board.read_pages()[..24], unlocked.read_pages()[..24]);
        assert_eq!(board.write_pages()[..24], unlocked.write_pages()[..24]);
        assert_eq!(board.read_pages()[32..], unlocked.read_pages()[32..]);
        assert_eq!(board.write_pages()[32..], unlocked.write_pages()[32..]);
    }
}

/// "Where M-100 says that no PRG RAM exists, these marks change nothing": they are kept, and it reads 0 as before.
#[test]
fn without_prg_ram() {
    let image = without_ram();
    let mut board = Board::load(&image[..], Mode::Board).unwrap();
    *board.prg_ram_mut() = saved();
    let pages = (board.read_pages(), board.write_pages());
    for (before, after) in SETTINGS
        .iter()
        .flat_map(|&before| SETTINGS.map(|after| (before, after)))
    {
        board.write(0xA001, before.byte()).unwrap();
        let moved = Moved {
            ram: before != after,
            ..Moved::default()
        };
        assert_eq!(board.write_moved(0xBFFF, after.byte()), Ok((None, moved)));
        assert_eq!(Marks::of(&board), after);
        assert_eq!((board.read_pages(), board.write_pages()), pages);
        for at in [0x6000, 0x7FFF] {
            assert_eq!(board.write(at, 0x2B), Ok(None));
            assert_eq!(board.read(at), Ok(0));
        }
        assert!(!board.has_prg_ram() && board.prg_ram() == &saved());
    }
}

/// House mode reads the same image with PRG RAM, and never locks it.
#[test]
fn the_same_image_in_house_mode() {
    let mut board = Board::load(without_ram(), Mode::House).unwrap();
    board.write(0xA001, 0x40).unwrap();
    assert_eq!(board.write(0x6000, 0x2A), Ok(None));
    assert_eq!((board.read(0x6000), Marks::of(&board)), (Ok(0x2A), START));
}

#[test]
fn a_power_cycle_unlocks_it_and_keeps_its_bytes() {
    for image in with_ram().iter().chain([&without_ram()]) {
        let fresh = Board::load(&image[..], Mode::Board).unwrap();
        for locked in SETTINGS {
            let mut board = with_marks(image, locked);
            let _ = (board.read(0x6000), board.write(0x7FFF, 1)); // both pages are known
            let bytes = *board.prg_ram();
            board.power_cycle().unwrap();
            assert_eq!(board.state(), fresh.state(), "{locked:?}");
            assert!(board.prg_ram() == &bytes, "{locked:?}");
            let mut ram = Ram::of(&board);
            assert_eq!(ram.marks, START);
            for at in [0x6000, 0x7FFF] {
                assert_eq!(board.read(at), Ok(ram.read(at)), "{locked:?}");
                assert_eq!(board.write(at, 0x2A), Ok(None));
                ram.write(at, 0x2A);
                assert!(ram.is_of(&board), "{locked:?}");
            }
        }
    }
}

/// "on the other boards and in house mode they stay at enabled and writable, and any other setting is out of range"
#[test]
fn states_with_other_marks() {
    for (image, mode) in images().flat_map(|image| BOTH_MODES.map(|mode| (image.clone(), mode))) {
        let fresh = Board::load(&image[..], mode).unwrap();
        let has_marks = fresh.mapper() == 4 && mode == Mode::Board;
        for setting in SETTINGS {
            let wanted = if has_marks || setting == START {
                Ok(setting)
            } else {
                Err(Refusal::StateOutOfRange)
            };
            let made = taken_up(&image, mode, &setting.put(fresh.digits()));
            assert_eq!(made.map(|board| Marks::of(&board)), wanted, "{fresh:?}");
        }
    }
}

/// The state that a library of version 4 left of an image after these calls, one of which now locks PRG RAM. It is taken
/// up as it was kept, and the same calls without that one lead to the same forty bytes.
#[test]
fn a_state_that_was_kept_before() {
    const KEPT: [u8; 40] = [
        0x01, 0x04, 0x51, 0x02, 0, 0, 0, 0, 0x10, 0x80, 0, 0, 0, 0, 0, 0, 0, 0, 0, 0, 0, 0, 0, 0,
        0, 0, 0, 0, 0, 0, 0x03, 0, 0x09, 0x00, 0xAE, 0x01, 0, 0, 0, 0,
    ];
    let image = image(MMC3, 2, 0);
    let ram = saved();
    let board = Board::from_parts(&image[..], Mode::Board, &KEPT, &ram, &ram).unwrap();
    assert_eq!((Marks::of(&board), board.state()), (START, KEPT));
    assert!(board.irq_line());
    assert_eq!(board.read(0x7FFF), Ok(ram[0x1FFF]));

    let mut again = Board::load(&image[..], Mode::Board).unwrap();
    let play = |board: &mut Board<&[u8]>, calls: &[(u16, u8)]| {
        for &(address, value) in calls {
            board.write(address, value).unwrap();
        }
    };
    let before = [(0x8000, 0x46), (0x8001, 0x03), (0xA000, 0)];
    let after = [(0xC001, 0), (0xE001, 0)];
    play(&mut again, &[&before[..], &after[..]].concat());
    again.clock().unwrap();
    play(&mut again, &[(0xC000, 9)]);
    assert_eq!(again.state(), KEPT);
    play(&mut again, &[(0xA001, 0x00)]);
    let mut locked = KEPT;
    locked[35] = 0x00;
    assert_eq!(again.state(), locked);
}

/// Addresses that are mostly of PRG RAM or of the marks, and often at the ends of both.
fn near_the_ram(numbers: &mut Numbers) -> u16 {
    let within = numbers.next() as u16 % 0x2000;
    let ends = [0x0000, 0x0001, 0x1FFE, 0x1FFF];
    let place = match numbers.next() % 2 {
        0 => ends[usize::from(within) % ends.len()],
        _ => within,
    };
    match numbers.next() % 8 {
        0..=2 => 0x6000 + place,
        3 | 4 => 0xA000 + place,
        5 => [0x5FFF, 0x8000, 0x9FFF, 0xC000][usize::from(within) % 4],
        _ => address(numbers),
    }
}

/// Any calls from any state: the bytes, the marks and the answers are those of the tests' own reading.
#[test]
fn any_calls_from_any_state() {
    let mut numbers = Numbers(12);
    let (mut zeros, mut denials) = (0, 0);
    let images = [image(MMC3, 2, 1), marked(MMC3, 2, 0, RAM_8K), without_ram()];
    for image in (0..80).flat_map(|_| &images) {
        let mut board = any_board(image, &mut numbers);
        let mut ram = Ram::of(&board);
        for _ in 0..200 {
            let (at, value) = (near_the_ram(&mut numbers), byte(&mut numbers));
            match (numbers.next() % 8, at) {
                (0..=3, 0x6000..=0x7FFF) => {
                    assert_eq!(board.read(at), Ok(ram.read(at)), "{at:04X}");
                    zeros += u32::from(ram.is_there && !ram.marks.enabled);
                }
                (0..=3, _) => assert!(board.read(at).is_ok()),
                (4..=6, 0x6000..=0x7FFF) => {
                    assert_eq!(board.write(at, value), Ok(None), "{at:04X}={value:02X}");
                    ram.write(at, value);
                    denials += u32::from(ram.is_there && ram.marks == marks(true, true));
                }
                (4..=6, _) => {
                    assert!(board.write(at, value).is_ok());
                    ram.write(at, value);
                }
                _ => assert!(board.clock().is_ok()),
            }
            assert!(ram.is_of(&board), "{at:04X}={value:02X}");
        }
    }
    assert!(zeros > 500 && denials > 500, "{zeros} {denials}");
}

/// A caller's own map of the pages, of which it asks again for what a write says it has moved, and for nothing else.
struct Map {
    reads: [Page; PAGES],
    writes: [Page; PAGES],
}

impl Map {
    fn of<I>(board: &Board<I>) -> Map {
        Map {
            reads: board.read_pages(),
            writes: board.write_pages(),
        }
    }

    fn follow<I>(&mut self, moved: Moved, board: &Board<I>) {
        let now = Map::of(board);
        for (has_moved, reads, writes) in [
            (moved.chr, 0..8, 0..8),
            (moved.prg, 32..PAGES, 0..0),
            (moved.ram, 24..32, 24..32),
        ] {
            if has_moved {
                self.reads[reads.clone()].copy_from_slice(&now.reads[reads]);
                self.writes[writes.clone()].copy_from_slice(&now.writes[writes]);
            }
        }
        assert_eq!((self.reads, self.writes), (now.reads, now.writes));
    }

    fn read<I: AsRef<[u8]>>(&self, board: &Board<I>, at: u16) -> u8 {
        let within = usize::from(at) % PAGE_LENGTH;
        match self.reads[usize::from(at) / PAGE_LENGTH] {
            Page::Image(start) => board.image()[start + within],
            Page::PrgRam(start) => board.prg_ram()[start + within],
            Page::ChrRam(start) => board.chr_ram()[start + within],
            Page::Nowhere => 0,
            other => panic!("{at:04X}: {other:?}"),
        }
    }

    fn write<I: AsRef<[u8]>>(&mut self, board: &mut Board<I>, at: u16, value: u8) {
        let within = usize::from(at) % PAGE_LENGTH;
        match self.writes[usize::from(at) / PAGE_LENGTH] {
            Page::PrgRam(start) => board.prg_ram_mut()[start + within] = value,
            Page::ChrRam(start) => board.chr_ram_mut()[start + within] = value,
            Page::Nowhere => (),
            Page::Call => {
                let (_, moved) = board.write_moved(at, value).unwrap();
                self.follow(moved, board);
            }
            other => panic!("{at:04X}: {other:?}"),
        }
    }
}

/// Any calls from any state, once as they are and once through such a map: the same bytes and the same boards.
#[test]
fn through_a_callers_map() {
    let mut numbers = Numbers(13);
    let images = [image(MMC3, 4, 2), marked(MMC3, 2, 0, RAM_8K), without_ram()];
    for image in (0..40).flat_map(|_| &images) {
        let mut called = any_board(image, &mut numbers);
        let mut mapped = called.clone();
        let mut map = Map::of(&mapped);
        for _ in 0..200 {
            let (at, value) = (near_the_ram(&mut numbers), byte(&mut numbers));
            if numbers.next() % 2 == 0 {
                assert_eq!(called.read(at), Ok(map.read(&mapped, at)), "{at:04X}");
            } else {
                called.write(at, value).unwrap();
                map.write(&mut mapped, at, value);
            }
            assert!(kept(&called) == kept(&mapped), "{at:04X}={value:02X}");
        }
    }
}

/// The pages of 6000-7FFF in each setting, of reads and of writes.
#[test]
fn the_pages_of_each_setting() {
    let of_ram: Vec<Page> = (0..8)
        .map(|page| Page::PrgRam(page * PAGE_LENGTH))
        .collect();
    let nowhere = vec![Page::Nowhere; 8];
    for image in with_ram() {
        for (marks, reads, writes) in [
            (marks(true, false), &of_ram, &of_ram),
            (marks(true, true), &of_ram, &nowhere),
            (marks(false, false), &nowhere, &nowhere),
            (marks(false, true), &nowhere, &nowhere),
        ] {
            let board = with_marks(&image, marks);
            assert_eq!(&board.read_pages()[24..32], reads, "{marks:?}");
            assert_eq!(&board.write_pages()[24..32], writes, "{marks:?}");
        }
    }
    for marks in SETTINGS {
        let image = without_ram();
        let board = with_marks(&image, marks);
        assert_eq!(board.read_pages()[24..32], nowhere);
        assert_eq!(board.write_pages()[24..32], nowhere);
    }
}

/// A write says that those pages have moved just where a mark holds another value than before.
#[test]
fn what_a_write_has_moved() {
    for (image, before) in with_ram()
        .iter()
        .chain([&without_ram()])
        .flat_map(|image| SETTINGS.map(|before| (image.clone(), before)))
    {
        let locked = with_marks(&image, before);
        for value in 0..=255 {
            for at in [0xA001, 0xBFFF] {
                let moved = Moved {
                    ram: Marks::set_by(value) != before,
                    ..Moved::default()
                };
                let answer = locked.clone().write_moved(at, value);
                assert_eq!(
                    answer,
                    Ok((None, moved)),
                    "{before:?}, {at:04X}={value:02X}"
                );
            }
        }
        let mut board = locked;
        for at in (0x0000..=0xFFFF).filter(|at| !(0xA000..=0xBFFF).contains(at) || at % 2 == 0) {
            let (_, moved) = board.write_moved(at, (at >> 4) as u8).unwrap();
            assert!(!moved.ram, "{before:?}, {at:04X}");
            assert!(
                at < 0xA000 || moved == Moved::default(),
                "{before:?}, {at:04X}"
            );
        }
    }
}

/// The bytes are the caller's: a game that is locked is kept, and one is put back, as ever.
#[test]
fn a_saved_game_of_a_locked_board() {
    for image in with_ram() {
        for locked in SETTINGS {
            let mut board = with_marks(&image, locked);
            assert!(board.prg_ram() == &saved());
            assert!(board.snapshot().prg_ram() == &saved());

            board.prg_ram_mut()[0x1FFF] = 0x2A;
            let mut unlocked = board.clone();
            unlocked.write(0xA001, START.byte()).unwrap();
            assert_eq!(unlocked.read(0x7FFF), Ok(0x2A));

            let mut next = Board::load(&image[..], Mode::Board).unwrap();
            *next.prg_ram_mut() = *board.prg_ram();
            assert_eq!(next.read(0x6000), Ok(saved()[0]));
            assert_eq!(next.read(0x7FFF), Ok(0x2A));
        }
    }
}

/// In the byte that docs/ABI.md says, and in a board that has learnt the pages of another setting.
#[test]
fn a_snapshot_keeps_the_marks() {
    const MARKS_BYTE: usize = 20 + 35;
    let image = image(MMC3, 2, 1);
    for (setting, other) in SETTINGS
        .iter()
        .flat_map(|&setting| SETTINGS.map(|other| (setting, other)))
    {
        let board = with_marks(&image, setting);
        let bytes = board.snapshot().to_bytes();
        let bits = u8::from(setting.enabled) + 2 * u8::from(setting.denied);
        assert_eq!(bytes[MARKS_BYTE], bits);
        let snapshot = Snapshot::from_bytes(&bytes).unwrap();
        let mut in_place = with_marks(&image, other);
        let _ = (in_place.read(0x6000), in_place.write(0x6000, 0xFF));
        in_place.restore(&snapshot).unwrap();
        let anew = Board::from_snapshot(&image[..], Mode::Board, &snapshot).unwrap();
        for mut taken_up in [in_place, anew] {
            assert_eq!(taken_up, board);
            let mut ram = Ram::of(&board);
            for at in [0x6000, 0x7FFF] {
                assert_eq!(taken_up.read(at), Ok(ram.read(at)), "{setting:?}");
                assert_eq!(taken_up.write(at, 0x2A), Ok(None));
                ram.write(at, 0x2A);
            }
            assert!(ram.is_of(&taken_up), "{setting:?}");
        }
    }
}

/// Two copies that part: one locks its RAM, also where both have learnt the pages.
#[test]
fn a_copy_is_not_locked() {
    let mut board = load(MMC3, 2, 1, Mode::Board);
    board.write(0x6000, 0x2A).unwrap();
    assert_eq!(board.read(0x6000), Ok(0x2A));
    let mut copy = board.clone();
    board.write(0xA001, 0x00).unwrap();
    copy.write(0x6000, 0x2B).unwrap();
    board.write(0x6000, 0x2C).unwrap();
    assert_eq!((board.read(0x6000), copy.read(0x6000)), (Ok(0), Ok(0x2B)));
    assert_eq!((board.prg_ram()[0], copy.prg_ram()[0]), (0x2A, 0x2B));
    assert_ne!(board, copy);
}

/// Boards that differ in a mark alone are not equal: the same calls get other answers.
#[test]
fn marks_are_a_part_of_a_board() {
    let image = image(MMC3, 2, 1);
    for (one, other) in SETTINGS
        .iter()
        .flat_map(|&one| SETTINGS.map(|other| (one, other)))
    {
        assert_eq!(
            with_marks(&image, one) == with_marks(&image, other),
            one == other
        );
    }
}

#[test]
fn on_the_bus() {
    for (mode, disabled, denied) in [(Mode::House, 0x2B, 0x2C), (Mode::Board, 0, 0x2A)] {
        let mut cartridge = BusBoard::new(load(MMC3, 1, 1, mode));
        cartridge.write8(0x2A, 0x6000);
        cartridge.write8(0x00, 0xA001);
        cartridge.write8(0x2B, 0x6000);
        assert_eq!(cartridge.read8(0x6000), disabled, "{mode}");
        cartridge.write8(0xC0, 0xA001);
        cartridge.write8(0x2C, 0x6000);
        assert_eq!(cartridge.read8(0x6000), denied, "{mode}");
        let locked = cartridge.snapshot().unwrap();
        cartridge.power_cycle().unwrap();
        cartridge.write8(0x2D, 0x6000);
        assert_eq!(cartridge.read8(0x6000), 0x2D, "{mode}");
        cartridge.restore(&locked).unwrap();
        assert_eq!(cartridge.read8(0x6000), denied, "{mode}");
        assert_eq!(cartridge.refusal(), None);
    }
}

/// As `tracerun` prints it, in both modes.
#[test]
fn in_a_trace() {
    let image = image(MMC3, 1, 1);
    let mut trace = Trace::new(Mode::Board, &image).unwrap();
    let (write, read) = (
        |address, value| Event::Write { address, value },
        |address| Event::Read { address },
    );
    for event in [
        write(0x7FFF, 0x2A),
        write(0xBFFF, 0x40),
        read(0x7FFF),
        write(0x7FFF, 0x2B),
        write(0xBFFF, 0xC0),
        write(0x7FFF, 0x2C),
        read(0x7FFF),
        write(0xBFFF, 0x80),
        read(0x7FFF),
    ] {
        trace.push(event).unwrap();
    }
    let text = |mode| trace.in_mode(mode).play().unwrap();
    assert_eq!(
        text(Mode::Board),
        "load 4 H 1 1\n0 W -\n1 W -\n2 R 00\n3 W -\n4 W -\n5 W -\n6 R 2A\n7 W -\n8 R 2A\n"
    );
    assert_eq!(
        text(Mode::House),
        "load 4 H 1 1\n0 W -\n1 W -\n2 R 2A\n3 W -\n4 W -\n5 W -\n6 R 2C\n7 W -\n8 R 2C\n"
    );
}
