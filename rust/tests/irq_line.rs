//! MMC3's interrupt line, as M-101 of document 02 has it: in board mode a clock raises it, and it stays up until an
//! even write to E000-FFFF acknowledges it. In house mode and on other boards it is always low.

mod common;

use biekkarul::{Board, Digit, Digits, Mode, Refusal, Registers, Snapshot, DIGITS, RAM_LENGTH};
use common::reading::{address, byte};
use common::{image, load, marked, packed, with, Numbers, BOTH_MODES, NO_RAM, RAM_8K};
use common::{CNROM, MMC1, MMC3, NROM, UXROM};

/// The interrupt unit of board mode with its line: the tests' own reading of document 01 and M-101.
#[derive(Clone, Copy, Debug, PartialEq)]
struct Unit {
    latch: u8,
    counter: u8,
    enabled: bool,
    reload: bool,
    line: bool,
}

impl Unit {
    /// With this latch, the reload mark and IRQ enabled.
    fn counting(latch: u8) -> Unit {
        Unit {
            latch,
            counter: 0,
            enabled: true,
            reload: true,
            line: false,
        }
    }

    fn write(&mut self, address: u16, value: u8) {
        match (address, address % 2) {
            (0xC000..=0xDFFF, 0) => self.latch = value,
            (0xC000..=0xDFFF, _) => self.reload = true,
            (0xE000..=0xFFFF, 0) => {
                self.enabled = false;
                self.line = false;
            }
            (0xE000..=0xFFFF, _) => self.enabled = true,
            _ => {}
        }
    }

    /// One clock, and whether it raises the line, be it up already or not.
    fn clock(&mut self) -> bool {
        self.counter = if self.reload || self.counter == 0 {
            self.latch
        } else {
            self.counter - 1
        };
        self.reload = false;
        let raises = self.enabled && self.counter == 0;
        self.line |= raises;
        raises
    }

    /// A board that has this unit, taken up from a state.
    fn board(self) -> Board {
        let mut digits = *load(MMC3, 1, 1, Mode::Board).digits().all();
        for (digit, value) in [
            (Digit::Mmc3Latch, self.latch),
            (Digit::Mmc3Counter, self.counter),
            (Digit::Mmc3IrqEnabled, self.enabled.into()),
            (Digit::Mmc3Reload, self.reload.into()),
            (Digit::Mmc3IrqLine, self.line.into()),
        ] {
            digits[digit as usize] = value.into();
        }
        taken_up(image(MMC3, 1, 1), Mode::Board, &digits).expect("a state in range")
    }

    /// The unit that a board has.
    fn of(board: &Board) -> Unit {
        match board.registers() {
            Registers::Mmc3(mmc3) => Unit {
                latch: mmc3.latch,
                counter: mmc3.counter,
                enabled: mmc3.irq_enabled,
                reload: mmc3.reload,
                line: mmc3.irq_line,
            },
            others => panic!("{others:?}"),
        }
    }
}

fn taken_up(image: Vec<u8>, mode: Mode, digits: &[u64; DIGITS]) -> Result<Board, Refusal> {
    let ram = [0; RAM_LENGTH];
    Board::from_parts(image, mode, &packed(digits), &ram, &ram)
}

/// MMC3 with this latch, the reload mark and IRQ enabled, by calls from a load.
fn counting(latch: u8, mode: Mode) -> Board {
    let mut board = load(MMC3, 1, 1, mode);
    for (address, value) in [(0xC000, latch), (0xC001, 0), (0xE001, 0)] {
        assert_eq!(board.write(address, value), Ok(None));
    }
    board
}

/// A fresh board with the line raised: its latch is 0.
fn raised(mut board: Board) -> Board {
    assert_eq!(board.write(0xE001, 0), Ok(None));
    assert_eq!(board.clock(), Ok(true));
    board
}

/// What a game's handler does: an even write acknowledges and disables, an odd one enables again.
fn acknowledge(board: &mut Board) {
    for address in [0xE000, 0xE001] {
        assert_eq!(board.write(address, 0), Ok(None));
    }
}

/// The recipe of `Board::clock` for an emulator that counts IRQs.
fn edge(board: &mut Board) -> bool {
    let was_up = board.irq_line();
    board.clock().unwrap() && !was_up
}

#[test]
fn it_is_low_at_a_load() {
    for mapper in [NROM, MMC1, UXROM, CNROM, MMC3] {
        for mode in BOTH_MODES {
            assert!(!load(mapper, 2, 1, mode).irq_line());
        }
    }
}

/// With latch 3 the counter is 3, 2, 1, 0 and again 3, 2, 1.
#[test]
fn it_stays_up_over_clocks_that_raise_nothing() {
    let mut board = counting(3, Mode::Board);
    for clock in 1..=7 {
        assert_eq!(board.clock(), Ok(clock >= 4), "clock {clock}");
        assert_eq!(board.irq_line(), clock >= 4, "clock {clock}");
    }
    assert_eq!(board.digits()[Digit::Mmc3IrqLine], 1);
}

/// Every read, and every write but an even one to E000-FFFF, leaves the line as it is.
#[test]
fn no_other_call_moves_it() {
    let without_prg_ram = Board::load(marked(MMC3, 1, 0, NO_RAM), Mode::Board).unwrap();
    for (mut board, is_up) in [
        (raised(load(MMC3, 1, 1, Mode::Board)), true),
        (raised(without_prg_ram), true),
        (counting(0, Mode::Board), false),
        (load(MMC3, 1, 0, Mode::Board), false),
    ] {
        for address in 0..=0xFFFF {
            assert!(board.read(address).is_ok());
            assert_eq!(board.irq_line(), is_up, "read {address:04X}");
            if address >= 0xE000 && address % 2 == 0 {
                continue;
            }
            for value in [0x00, 0x01, 0xFE, 0xFF] {
                assert!(board.write(address, value).is_ok());
                assert_eq!(board.irq_line(), is_up, "write {address:04X}={value:02X}");
            }
        }
    }
}

#[test]
fn every_even_write_to_e000_ffff_lowers_it_and_disables() {
    let mut board = load(MMC3, 1, 1, Mode::Board);
    let even = (0xE000..=0xFFFE_u16).step_by(2);
    for (address, value) in even.flat_map(|address| [(address, 0x00), (address, 0xFF)]) {
        board.write(0xE001, 0).unwrap();
        assert_eq!(board.clock(), Ok(true), "latch 0 raises it at each clock");
        assert_eq!(board.write(address, value), Ok(None));
        assert!(!board.irq_line(), "{address:04X}");
        assert!(!Unit::of(&board).enabled, "{address:04X}");
        assert_eq!(board.clock(), Ok(false), "a disabled unit raises nothing");
    }
}

/// From a unit that is disabled, with the line low and with it up.
#[test]
fn an_odd_write_to_e000_ffff_enables_and_leaves_it() {
    for line in [false, true] {
        let disabled = Unit {
            enabled: false,
            line,
            ..Unit::counting(5)
        };
        for address in [0xE001, 0xE003, 0xF00F, 0xFFFD, 0xFFFF] {
            let mut board = disabled.board();
            assert_eq!(board.write(address, 0), Ok(None));
            let enabled = Unit {
                enabled: true,
                ..disabled
            };
            assert_eq!(Unit::of(&board), enabled, "{address:04X}");
        }
    }
}

/// No calls from a load lead there, but such a state is in range.
#[test]
fn up_while_disabled() {
    let mut board = Unit {
        enabled: false,
        line: true,
        ..Unit::counting(2)
    }
    .board();
    for counter in [2, 1, 0, 2, 1, 0] {
        assert_eq!(board.clock(), Ok(true));
        assert_eq!(Unit::of(&board).counter, counter);
    }
    assert_eq!(board.write(0xE000, 0), Ok(None));
    assert!(!board.irq_line());
    for _ in 0..6 {
        assert_eq!(board.clock(), Ok(false));
    }
}

/// "always low in house mode and on other boards": such a state is no board's.
#[test]
fn a_state_with_the_line_up_is_a_boards_on_mmc3_in_board_mode_only() {
    for mapper in [NROM, MMC1, UXROM, CNROM, MMC3] {
        for image in [image(mapper, 2, 1), marked(mapper, 2, 1, RAM_8K)] {
            for mode in BOTH_MODES {
                let board = Board::load(image.clone(), mode).unwrap();
                let up = with(board.digits(), Digit::Mmc3IrqLine, 1);
                let wanted = if mapper == MMC3 && mode == Mode::Board {
                    Ok(true)
                } else {
                    Err(Refusal::StateOutOfRange)
                };
                let line = taken_up(image.clone(), mode, &up).map(|board| board.irq_line());
                assert_eq!(line, wanted, "mapper {mapper:02X}, {mode}");
                let digit = Digits::of(&packed(&up)).map(|digits| digits[Digit::Mmc3IrqLine] == 1);
                assert_eq!(digit, wanted, "mapper {mapper:02X}, {mode}");
            }
        }
    }
}

/// In the byte that docs/ABI.md says, and in a board whose own line is the other way.
#[test]
fn a_snapshot_keeps_it() {
    const LINE_BYTE: usize = 20 + 34;
    let up = raised(load(MMC3, 1, 1, Mode::Board));
    let mut low = up.clone();
    acknowledge(&mut low);
    for (kept, other, is_up) in [(&up, &low, true), (&low, &up, false)] {
        assert_ne!(kept, other, "they differ in the line alone");
        let bytes = kept.snapshot().to_bytes();
        assert_eq!(bytes[LINE_BYTE] >> 7, u8::from(is_up));
        let snapshot = Snapshot::from_bytes(&bytes).unwrap();
        let mut in_place = other.clone();
        in_place.restore(&snapshot).unwrap();
        let image = kept.image().to_vec();
        let anew = Board::from_snapshot(image, Mode::Board, &snapshot).unwrap();
        for mut board in [in_place, anew] {
            assert_eq!((&board, board.irq_line()), (kept, is_up));
            board.write(0xC000, 9).unwrap();
            assert_eq!(board.clock(), Ok(is_up), "counter 9");
        }
    }
}

#[test]
fn a_power_cycle_lowers_it() {
    let mut board = raised(load(MMC3, 1, 1, Mode::Board));
    board.power_cycle().unwrap();
    assert!(!board.irq_line());
    assert_eq!(board.clock(), Ok(false));
}

/// Where each raise is acknowledged at once, raises come at the multiples of n + 1, each as a yes and as an edge.
#[test]
fn the_raises_of_every_latch() {
    for latch in 0..=255 {
        let mut board = counting(latch, Mode::Board);
        let mut counting_edges = board.clone();
        for clock in 1..=600 {
            let raises = clock % (u32::from(latch) + 1) == 0;
            assert_eq!(board.clock(), Ok(raises), "latch {latch}, {clock}");
            assert_eq!(edge(&mut counting_edges), raises, "latch {latch}, {clock}");
            if raises {
                acknowledge(&mut board);
                acknowledge(&mut counting_edges);
            }
        }
    }
}

/// A handler that comes late: raises that come before it does are no edges.
#[test]
fn edges_are_raises_of_a_line_that_is_low() {
    let mut numbers = Numbers(8);
    let (mut edges, mut raises) = (0, 0);
    for latch in 0..=255 {
        let mut board = counting(latch, Mode::Board);
        let mut unit = Unit::counting(latch);
        for clock in 1..=600 {
            let was_low = !unit.line;
            let is_raised = unit.clock();
            let is_edge = is_raised && was_low;
            assert_eq!(edge(&mut board), is_edge, "latch {latch}, {clock}");
            edges += u32::from(is_edge);
            raises += u32::from(is_raised);
            if numbers.next() % 8 == 0 {
                acknowledge(&mut board);
                unit.line = false;
            }
        }
    }
    assert!(0 < edges && edges < raises, "{edges} of {raises}");
}

/// Any unit, whether calls lead to it or not; its counter is often near its end.
fn any_unit(numbers: &mut Numbers) -> Unit {
    let flags = numbers.next();
    Unit {
        latch: byte(numbers),
        counter: byte(numbers),
        enabled: flags & 1 != 0,
        reload: flags & 2 != 0,
        line: flags & 4 != 0,
    }
}

/// Any calls from any state: the level, and the whole unit, are those of the tests' own reading.
#[test]
fn any_calls_from_any_state() {
    let mut numbers = Numbers(9);
    let (mut ups, mut lows) = (0, 0);
    for _ in 0..500 {
        let mut unit = any_unit(&mut numbers);
        let mut board = unit.board();
        for _ in 0..60 {
            let (address, value) = (address(&mut numbers), byte(&mut numbers));
            match numbers.next() % 4 {
                0 => assert!(board.read(address).is_ok()),
                1 => {
                    assert!(board.write(address, value).is_ok());
                    unit.write(address, value);
                }
                _ => {
                    unit.clock();
                    assert_eq!(board.clock(), Ok(unit.line));
                }
            }
            assert_eq!(Unit::of(&board), unit);
            assert_eq!(board.irq_line(), unit.line);
            ups += u32::from(unit.line);
            lows += u32::from(!unit.line);
        }
    }
    assert!(ups > 1_000 && lows > 1_000, "{ups} times up, {lows} low");
}

/// In house mode, whatever its clocks answer, so that an edge there is the answer; and on other boards in both modes.
#[test]
fn always_low_elsewhere() {
    let mut numbers = Numbers(10);
    let mut irqs = 0;
    let others = [NROM, MMC1, UXROM, CNROM].map(|mapper| (mapper, Mode::Board));
    let house = [NROM, MMC1, UXROM, CNROM, MMC3].map(|mapper| (mapper, Mode::House));
    for (mapper, mode) in others.into_iter().chain(house) {
        let mut board = load(mapper, 2, 1, mode);
        for _ in 0..4_000 {
            let _ = board.write(address(&mut numbers), byte(&mut numbers));
            let mut counting_edges = board.clone();
            let answer = board.clock();
            assert_eq!(Ok(edge(&mut counting_edges)), answer);
            assert!(!board.irq_line(), "mapper {mapper:02X}, {mode}");
            assert_eq!(board.digits()[Digit::Mmc3IrqLine], 0);
            irqs += u32::from(answer == Ok(true));
        }
    }
    assert!(irqs > 100, "only {irqs} IRQs in house mode");
}
