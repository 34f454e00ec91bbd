//! Keeping a board and taking it up again.

mod common;

use biekkarul::{Board, Digit, Digits, Mode, Refusal, DIGITS, RAM_LENGTH, STATE_LENGTH};
use common::{image, kept, load, marked, packed, with, Numbers, BOTH_MODES, NO_RAM, RAM_8K};
use common::{CNROM, MMC1, MMC3, NROM, UXROM};

const RAM: [u8; RAM_LENGTH] = [0; RAM_LENGTH];

/// Whether a board is made of this state, in this mode.
fn from_state(bytes: &[u8], mode: Mode, state: &[u8]) -> Result<(), Refusal> {
    Board::from_parts(bytes, mode, state, &RAM, &RAM).map(|_| ())
}

#[test]
fn a_board_made_of_its_parts_goes_on_as_the_first() {
    let mut numbers = Numbers(4);
    for (mapper, prg, chr) in [
        (NROM, 2, 0),
        (MMC1, 4, 0),
        (MMC1, 2, 2),
        (UXROM, 4, 0),
        (CNROM, 2, 4),
        (MMC3, 4, 2),
    ] {
        for mode in BOTH_MODES {
            let mut first = load(mapper, prg, chr, mode);
            for round in 0..200 {
                let (address, value) = (numbers.next() as u16, numbers.next() as u8);
                let _ = first.write(address, value);
                let mut second = Board::from_parts(
                    first.image().to_vec(),
                    mode,
                    &first.state(),
                    first.prg_ram(),
                    first.chr_ram(),
                )
                .unwrap_or_else(|refusal| {
                    panic!("mapper {mapper:02X} {mode:?} {round}: {refusal}")
                });
                assert!(kept(&first) == kept(&second));
                if mode == Mode::Board {
                    assert_eq!(first, second, "the state says how the screens are turned");
                }
                assert_eq!(packed(first.digits().all()), first.state());
                for _ in 0..20 {
                    let (address, value) = (numbers.next() as u16, numbers.next() as u8);
                    assert_eq!(first.write(address, value), second.write(address, value));
                    let address = numbers.next() as u16;
                    assert_eq!(first.read(address), second.read(address));
                    assert_eq!(first.clock(), second.clock());
                }
                assert!(kept(&first) == kept(&second));
            }
        }
    }
}

#[test]
fn rams_first_then_the_states_length_then_the_image() {
    let bytes = image(NROM, 1, 0);
    let state = load(NROM, 1, 0, Mode::House).state();
    for short in [&RAM[..0], &RAM[..RAM_LENGTH - 1], &[0; RAM_LENGTH + 1][..]] {
        for state in [&state[..], &[]] {
            let prg = Board::from_parts(&bytes[..0], Mode::House, state, short, &RAM).unwrap_err();
            let chr = Board::from_parts(&bytes[..0], Mode::House, state, &RAM, short).unwrap_err();
            assert_eq!((prg, chr), (Refusal::RamNot8K, Refusal::RamNot8K));
        }
    }
    for length in [0, 39, 41] {
        let mut other = state.to_vec();
        other.resize(length, 0);
        assert_eq!(
            from_state(&bytes[..0], Mode::House, &other),
            Err(Refusal::StateOutOfRange)
        );
    }
    let other = [0xFF; STATE_LENGTH];
    assert_eq!(
        from_state(&bytes[..0], Mode::House, &other),
        Err(Refusal::StateOutOfRange)
    );
    assert_eq!(
        from_state(&bytes[..0], Mode::House, &state),
        Err(Refusal::ImageNotInes)
    );
    assert_eq!(from_state(&bytes, Mode::House, &state), Ok(()));
}

#[test]
fn a_state_of_another_cartridge_is_refused() {
    let state = load(UXROM, 2, 0, Mode::House).state();
    let mut longer = image(UXROM, 2, 0);
    longer.push(0);
    let mut marked = image(UXROM, 2, 0);
    marked[7] = 0x08;
    for other in [
        image(UXROM, 1, 0),
        image(UXROM, 2, 1),
        image(UXROM | 1, 2, 0),
        image(MMC1, 2, 0),
        longer,
        marked,
    ] {
        assert_eq!(
            from_state(&other, Mode::House, &state),
            Err(Refusal::StateOutOfRange)
        );
    }
    assert_eq!(from_state(&image(UXROM, 2, 0), Mode::House, &state), Ok(()));
}

/// Of a fresh NROM state no bit may be another one: each is fixed by the image or by the mode, or is one that
/// no NROM board sets.
#[test]
fn a_state_that_no_board_could_have_is_refused() {
    let bytes = image(NROM, 1, 0);
    for mode in BOTH_MODES {
        let state = load(NROM, 1, 0, mode).state();
        assert_eq!(from_state(&bytes, mode, &state), Ok(()));
        for bit in 0..8 * STATE_LENGTH {
            let mut bad = state;
            bad[bit / 8] ^= 1 << (bit % 8);
            let refused = Err(Refusal::StateOutOfRange);
            assert_eq!(from_state(&bytes, mode, &bad), refused, "{mode}, bit {bit}");
        }
    }
}

/// "A title never leaves its mode."
#[test]
fn a_state_of_the_other_mode_is_refused() {
    for mapper in [NROM, MMC1, UXROM, CNROM, MMC3] {
        let bytes = image(mapper, 2, 1);
        for (mode, other) in [(Mode::House, Mode::Board), (Mode::Board, Mode::House)] {
            let state = load(mapper, 2, 1, mode).state();
            let refused = Err(Refusal::StateOutOfRange);
            assert_eq!(from_state(&bytes, other, &state), refused);
            let mut flipped = state;
            flipped[2] ^= 1; // the mode's bit
            assert_eq!(Digits::of(&flipped).map(|digits| digits.mode()), Ok(other));
            assert_eq!(from_state(&bytes, mode, &flipped), refused);
        }
    }
}

/// "A kept state carries its version; one of another version is refused with 10."
#[test]
fn a_state_of_another_version_is_refused() {
    for mapper in [NROM, MMC1, UXROM, CNROM, MMC3] {
        let board = load(mapper, 2, 1, Mode::Board);
        for version in 0..256 {
            let state = packed(&with(board.digits(), Digit::Version, version));
            assert_eq!(Digits::of(&state).is_ok(), version == 1, "{version}");
            assert_eq!(
                from_state(board.image(), Mode::Board, &state).is_ok(),
                version == 1
            );
        }
    }
}

/// "serial count 0-4, serial value up to 31 and a multiple of 2^(5 - count)"
#[test]
fn a_serial_register_that_is_none_is_refused() {
    let bytes = image(MMC1, 2, 1);
    for mode in BOTH_MODES {
        let mut digits = *load(MMC1, 2, 1, mode).digits().all();
        for (count, value) in (0..8).flat_map(|count| (0..32).map(move |value| (count, value))) {
            digits[Digit::Mmc1SerialCount as usize] = count;
            digits[Digit::Mmc1SerialValue as usize] = value;
            let is_one = count <= 4 && value % (1 << (5 - count)) == 0;
            let restored = from_state(&bytes, mode, &packed(&digits));
            assert_eq!(restored.is_ok(), is_one, "{count} {value}");
        }
    }
}

/// "Without PRG RAM, which the board notes and 10 covers": only board mode under the mark can lack it.
#[test]
fn prg_ram_that_is_not_there() {
    let with_mark = |mode, byte10| Board::load(marked(MMC3, 2, 1, byte10), mode).unwrap();
    for (board, ranges) in [
        (load(MMC3, 2, 1, Mode::House), 1..2),
        (load(MMC3, 2, 1, Mode::Board), 1..2),
        (with_mark(Mode::House, NO_RAM), 1..2),
        (with_mark(Mode::Board, NO_RAM), 0..2),
        (with_mark(Mode::Board, RAM_8K), 0..2),
    ] {
        let own = board.digits()[Digit::PrgRam];
        for value in 0..4 {
            let state = packed(&with(board.digits(), Digit::PrgRam, value));
            assert_eq!(Digits::of(&state).is_ok(), ranges.contains(&value));
            let taken = from_state(board.image(), board.mode(), &state);
            assert_eq!(taken.is_ok(), value == own, "{board:?}: {value}");
        }
    }
}

/// Counts above 255 too.
#[test]
fn counts_that_no_byte_holds() {
    for (board, greatest) in [
        (load(MMC3, 2, 1, Mode::House), 255),
        (load(MMC3, 2, 1, Mode::Board), 128),
        (
            Board::load(marked(MMC3, 2, 1, NO_RAM), Mode::House).unwrap(),
            255,
        ),
        (
            Board::load(marked(MMC3, 2, 1, NO_RAM), Mode::Board).unwrap(),
            2_048,
        ),
    ] {
        let mut digits = *board.digits().all();
        digits[Digit::ImageLength as usize] = 1 << 40; // room for any counts, so that none is refused for it
        for (digit, count) in [Digit::PrgCount, Digit::ChrCount]
            .iter()
            .flat_map(|&digit| (1..4_096_u64).map(move |count| (digit, count)))
        {
            let mut changed = digits;
            changed[digit as usize] = count;
            let fits = board.mode() == Mode::House || count.is_power_of_two();
            let wanted = fits && count <= greatest;
            assert_eq!(Digits::of(&packed(&changed)).is_ok(), wanted, "{count}");
        }
    }
}

#[test]
fn digits_of_a_state_are_told_in_their_order() {
    let mut board = load(MMC3, 2, 1, Mode::Board);
    for register in 0..8 {
        board.write(0x8000, register).unwrap();
        board.write(0x8001, 2 + 4 * register).unwrap();
    }
    for (address, value) in [(0x8000, 0xC5), (0xA001, 0x40), (0xC001, 0), (0xE001, 0)] {
        board.write(address, value).unwrap();
    }
    assert_eq!(board.clock(), Ok(true), "latch 0 raises the line");
    board.write(0xC000, 9).unwrap();
    assert_eq!(board.clock(), Ok(true), "counter 9 leaves it up");
    board.write(0xC000, 8).unwrap();
    let mut wanted = [0; DIGITS];
    wanted[..10].copy_from_slice(&[1, 4, 1, 0, 0, 0, 1, 2, 1, 16 + 2 * 16_384 + 8_192]);
    wanted[22..].copy_from_slice(&[2, 6, 10, 14, 18, 22, 26, 30, 8, 9, 5, 1, 1, 1, 0, 1, 0, 1]);
    assert_eq!(board.digits().all(), &wanted);
    assert_eq!(board.digits()[Digit::Mmc3Latch], 8);
    assert_eq!(board.digits()[Digit::Mmc3IrqLine], 1);
    assert_eq!(board.digits()[Digit::RamEnabled], 0);
    assert_eq!(board.digits()[Digit::RamWritesDenied], 1);
}

#[test]
fn a_clone_goes_its_own_way() {
    let mut first = load(MMC3, 2, 1, Mode::House);
    let mut second = first.clone();
    first.write(0x6000, 1).unwrap();
    second.write(0x6000, 2).unwrap();
    second.write(0x8000, 7).unwrap();
    assert_eq!((first.read(0x6000), second.read(0x6000)), (Ok(1), Ok(2)));
    assert!(first.state() != second.state());
}

#[test]
fn a_saved_game_is_put_back() {
    let mut board = load(MMC1, 2, 0, Mode::Board);
    board.prg_ram_mut()[RAM_LENGTH - 1] = 0x77;
    assert_eq!(board.read(0x7FFF), Ok(0x77));
    board.write(0x6000, 0x11).unwrap();
    board.write(0x0003, 0x22).unwrap();
    assert_eq!((board.prg_ram()[0], board.chr_ram()[3]), (0x11, 0x22));
}

#[test]
fn tiles_are_put_into_chr_ram() {
    let mut board = load(NROM, 1, 0, Mode::House);
    board.chr_ram_mut()[0x1234] = 0x2A;
    assert_eq!(board.read(0x1234), Ok(0x2A));
}

#[test]
fn debug_shows_the_registers_and_no_bytes() {
    let mut board = load(MMC3, 2, 1, Mode::House);
    board.write(0xC000, 7).unwrap();
    board.write(0xA000, 0).unwrap();
    assert_eq!(
        format!("{board:?}"),
        "Board { mode: House, mapper: 4, header_mirroring: Horizontal, prg_count: 2, chr_count: 1, \
         is_nes2: false, has_prg_ram: true, screens: Vertical, registers: Mmc3(Mmc3Registers { banks: [0, 0, 0, 0, 0, 0, 0, 0], select: 0, \
         prg_mode: 0, chr_mode: 0, latch: 7, counter: 0, irq_enabled: false, reload: false, irq_line: false, \
         ram_enabled: true, ram_writes_denied: false }), .. }"
    );
}
