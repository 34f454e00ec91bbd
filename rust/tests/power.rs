//! A power cycle, equality of boards, and their registers in words.

mod common;

use biekkarul::{Board, Mirroring, Mode, Refusal, Registers, RAM_LENGTH};
use common::{
    image, kept, load, marked, serial, Numbers, Shifting, BOTH_MODES, CNROM, MMC1, MMC3, NO_RAM,
    NROM, UXROM, VERTICAL,
};

#[test]
fn registers_as_loaded_prg_ram_kept_chr_ram_cleared() {
    let mut numbers = Numbers(6);
    for (byte6, prg, chr, header) in [
        (NROM, 2, 0, Mirroring::Horizontal),
        (MMC1, 2, 0, Mirroring::Horizontal),
        (MMC1 | VERTICAL, 4, 2, Mirroring::Vertical),
        (UXROM | VERTICAL, 4, 0, Mirroring::Vertical),
        (CNROM, 2, 2, Mirroring::Horizontal),
        (MMC3 | VERTICAL, 4, 0, Mirroring::Vertical),
    ] {
        for mode in BOTH_MODES {
            let fresh = load(byte6, prg, chr, mode);
            let mut board = fresh.clone();
            for _ in 0..500 {
                let _ = board.write(numbers.next() as u16, numbers.next() as u8);
                let _ = board.clock();
            }
            board.prg_ram_mut()[RAM_LENGTH - 1] = 0x77;
            board.chr_ram_mut()[RAM_LENGTH - 1] = 0x78;
            let saved = *board.prg_ram();
            assert_eq!(board.power_cycle(), Ok(header));
            assert_eq!(board.state(), fresh.state());
            assert_eq!((board.screens(), board.last_notice()), (header, None));
            assert!(board.prg_ram() == &saved && board.chr_ram() == &[0; RAM_LENGTH]);
            board.prg_ram_mut().fill(0);
            assert_eq!(board, fresh);
        }
    }
}

/// A board without PRG RAM has none after a power cycle either; the bytes that were put there stay, unseen.
#[test]
fn no_prg_ram_before_and_after() {
    let mut board = Board::load(marked(MMC3, 2, 0, NO_RAM), Mode::Board).unwrap();
    board.prg_ram_mut().fill(0x77);
    board.write(0x8000, 6).unwrap();
    board.power_cycle().unwrap();
    assert!(!board.has_prg_ram() && board.prg_ram() == &[0x77; RAM_LENGTH]);
    assert_eq!(board.read(0x6000), Ok(0));
}

/// The screens go back to the header's, also in house mode, whose state never says where they are.
#[test]
fn the_screens_go_back() {
    for mode in BOTH_MODES {
        let mut board = load(MMC1, 2, 0, mode);
        serial(&mut board, 0x8000, 1).unwrap();
        assert_eq!(board.screens(), Mirroring::SingleScreenUpper);
        assert_eq!(board.power_cycle(), Ok(Mirroring::Horizontal));
        assert_eq!(board.screens(), Mirroring::Horizontal);
    }
}

#[test]
fn an_image_that_is_gone_is_refused_and_nothing_moves() {
    let bytes = image(MMC3, 2, 0);
    let length = bytes.len();
    let shifting = Shifting::new(bytes);
    let mut board = Board::load(&shifting, Mode::House).unwrap();
    board.write(0xA000, 0).unwrap();
    board.write(0x6000, 1).unwrap();
    board.chr_ram_mut()[5] = 6;
    let before = kept(&board);
    shifting.length.set(length - 1);
    assert_eq!(board.power_cycle(), Err(Refusal::ImageTooShort));
    assert!(kept(&board) == before);
    assert_eq!(board.screens(), Mirroring::Vertical);
}

#[test]
fn boards_are_equal_when_all_that_they_hold_is() {
    let board = load(MMC3, 2, 0, Mode::House);
    let bytes = image(MMC3, 2, 0);
    assert_eq!(board, Board::load(&bytes[..], Mode::House).unwrap());
    assert_ne!(board, load(MMC3, 2, 0, Mode::Board));

    let mut other_image = bytes.clone();
    *other_image.last_mut().unwrap() ^= 1;
    assert_ne!(board, Board::load(other_image, Mode::House).unwrap());

    let changed = |change: &dyn Fn(&mut Board)| {
        let mut other = board.clone();
        change(&mut other);
        other
    };
    assert_ne!(board, changed(&|other| other.prg_ram_mut()[9] = 1));
    assert_ne!(board, changed(&|other| other.chr_ram_mut()[9] = 1));
    assert_ne!(
        board,
        changed(&|other| assert!(other.write(0xC000, 1).is_ok()))
    );
    let turned = changed(&|other| assert!(other.write(0xA000, 0).is_ok()));
    assert_eq!(kept(&board).state, kept(&turned).state);
    assert_ne!(
        board, turned,
        "the screens differ, though the state does not"
    );
}

#[test]
fn registers_of_each_board() {
    assert_eq!(load(NROM, 1, 0, Mode::House).registers(), Registers::Nrom);

    let mut uxrom = load(UXROM, 4, 0, Mode::House);
    uxrom.write(0x8000, 0xFE).unwrap();
    assert_eq!(uxrom.registers(), Registers::Uxrom { bank: 0xFE });

    let mut cnrom = load(CNROM, 2, 4, Mode::Board);
    cnrom.write(0x8000, 0xFE).unwrap();
    assert_eq!(cnrom.registers(), Registers::Cnrom { bank: 2 });

    let mut mmc1 = load(MMC1, 2, 2, Mode::Board);
    for (address, value) in [(0x8000, 0x1B), (0xA000, 5), (0xC000, 6), (0xE000, 7)] {
        serial(&mut mmc1, address, value).unwrap();
    }
    mmc1.write(0x8000, 1).unwrap();
    assert_eq!(
        format!("{:?}", mmc1.registers()),
        "Mmc1(Mmc1Registers { serial_count: 1, serial_value: 16, prg_mode: 2, chr_mode: 1, chr_0: 5, \
         chr_1: 6, prg: 7 })"
    );

    let mut mmc3 = load(MMC3, 2, 1, Mode::Board);
    for register in 0..8 {
        mmc3.write(0x8000, register).unwrap();
        mmc3.write(0x8001, 2 + 4 * register).unwrap();
    }
    for (address, value) in [(0x8000, 0x85), (0xC001, 0), (0xE001, 0)] {
        mmc3.write(address, value).unwrap();
    }
    mmc3.clock().unwrap(); // latch 0 raises the line
    mmc3.write(0xC000, 9).unwrap();
    mmc3.clock().unwrap();
    mmc3.write(0xC000, 8).unwrap();
    assert_eq!(
        format!("{:?}", mmc3.registers()),
        "Mmc3(Mmc3Registers { banks: [2, 6, 10, 14, 18, 22, 26, 30], select: 5, prg_mode: 0, \
         chr_mode: 1, latch: 8, counter: 9, irq_enabled: true, reload: false, irq_line: true, \
         ram_enabled: true, ram_writes_denied: false })"
    );
    for (address, value) in [(0xE000, 0), (0xC001, 0), (0xA001, 0x40)] {
        mmc3.write(address, value).unwrap();
    }
    match mmc3.registers() {
        Registers::Mmc3(mmc3) => {
            assert!(!mmc3.irq_enabled && mmc3.reload && !mmc3.irq_line);
            assert!(!mmc3.ram_enabled && mmc3.ram_writes_denied);
        }
        others => panic!("{others:?}"),
    }
}
