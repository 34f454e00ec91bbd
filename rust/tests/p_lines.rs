//! Document 01's P lines through the wrapper, P10's board row as M-101 of document 02 has it, and lines of the same
//! kind for M-100 and M-104.

mod common;

use biekkarul::trace::{Event, Run, Trace};
use biekkarul::{Board, Digit, Mirroring, Mode, Refusal};
use common::{data, image, kept, load, marked, marked_header, serial, BOTH_MODES, VERTICAL};
use common::{BATTERY_RAM_8K, CHR_BLOCK, HEADER, NO_RAM, PRG_BLOCK, RAM_8K};
use common::{CNROM, MMC1, MMC3, NROM, UXROM};

fn refusal(image: &[u8], mode: Mode) -> Option<Refusal> {
    Board::load(image, mode).err()
}

fn p2(byte6: u8, prg: u8) -> Vec<u8> {
    let mut image = image(NROM, 1, 0);
    assert_eq!(image.len(), 16_400);
    image[4] = prg;
    image[6] = byte6;
    image
}

#[test]
fn p1_and_p2_the_shortest_image() {
    for mode in BOTH_MODES {
        let image = p2(0x00, 1);
        assert_eq!(refusal(&image[..16_399], mode), Some(Refusal::ImageNotInes));
        assert_eq!(refusal(&image, mode), None);
    }
}

#[test]
fn p3_and_p4_mapper_before_flags() {
    assert_eq!(
        refusal(&p2(0x54, 1), Mode::House),
        Some(Refusal::MapperNotTaken)
    );
    assert_eq!(
        refusal(&p2(0x08, 1), Mode::House),
        Some(Refusal::TrainerOrFourScreen)
    );
}

#[test]
fn p5_count_before_length() {
    assert_eq!(
        refusal(&p2(0x00, 3), Mode::House),
        Some(Refusal::PrgCountNotTaken)
    );
}

#[test]
fn p6_one_byte_short() {
    let image = image(UXROM, 2, 0);
    assert_eq!(image.len(), 32_784);
    assert_eq!(
        refusal(&image[..32_783], Mode::House),
        Some(Refusal::ImageTooShort)
    );
    assert_eq!(refusal(&image, Mode::House), None);
}

/// The count and the value.
fn serial_register(board: &Board) -> (u64, u64) {
    let digits = board.digits();
    (
        digits[Digit::Mmc1SerialCount],
        digits[Digit::Mmc1SerialValue],
    )
}

/// Control 19: mirroring bits 3, PRG mode 0, 4 KB CHR mode.
#[test]
fn p7_control_19() {
    let mut board = load(MMC1 | VERTICAL, 2, 1, Mode::House);
    for (bit, register) in [(1, (1, 16)), (1, (2, 24)), (0, (3, 12)), (0, (4, 6))] {
        assert_eq!(board.write(0x8000, bit), Ok(None));
        assert_eq!(serial_register(&board), register);
    }
    assert_eq!(board.write(0x8000, 1), Ok(Some(Mirroring::Horizontal)));
    assert_eq!(board.digits()[Digit::Mmc1PrgMode], 0);
    assert_eq!(board.digits()[Digit::Mmc1ChrMode], 1);
}

#[test]
fn p8_a_reset_within_the_serial_bits() {
    let mut board = load(MMC1, 8, 1, Mode::House);
    let prg = |board: &Board| board.digits()[Digit::Mmc1Prg];
    assert_eq!(serial(&mut board, 0xE000, 5), Ok(None));
    assert_eq!(prg(&board), 5);
    for byte in [1, 1, 1, 1, 0x80, 0, 0, 0, 0] {
        assert_eq!(board.write(0xE000, byte), Ok(None));
        assert_eq!(prg(&board), 5, "a load too early");
    }
    assert_eq!(board.write(0xE000, 0), Ok(None));
    assert_eq!(prg(&board), 0);
    assert_eq!(serial_register(&board), (0, 0));
    assert_eq!(board.read(0x8000), Ok(data(0)));
}

fn clocks(latch: u8, count: usize, mode: Mode) -> Vec<bool> {
    let mut board = load(MMC3, 1, 1, mode);
    for (address, value) in [(0xC000, latch), (0xC001, 0), (0xE001, 0)] {
        assert_eq!(board.write(address, value), Ok(None));
    }
    (0..count).map(|_| board.clock().unwrap()).collect()
}

#[test]
fn p9_latch_0() {
    assert_eq!(clocks(0, 3, Mode::House), [false, true, true]);
    assert_eq!(clocks(0, 3, Mode::Board), [true, true, true]);
}

#[test]
fn p10_latch_2() {
    let yes_at = |mode| -> Vec<usize> {
        let answers = clocks(2, 7, mode);
        (1..=7).filter(|&k| answers[k - 1]).collect()
    };
    assert_eq!(yes_at(Mode::House), [4, 7]);
    assert_eq!(yes_at(Mode::Board), [3, 4, 5, 6, 7]);
}

/// Clock k answers yes exactly when k is 2 or more and n + 1 divides k - 1; in board mode, from clock n + 1 onward.
#[test]
fn the_clock_rules_for_every_latch() {
    for latch in 0..=255 {
        let period = usize::from(latch) + 1;
        let house = clocks(latch, 600, Mode::House);
        let board = clocks(latch, 600, Mode::Board);
        for k in 1..=600 {
            assert_eq!(house[k - 1], k >= 2 && (k - 1) % period == 0, "{latch} {k}");
            assert_eq!(board[k - 1], k >= period, "{latch} {k}");
        }
    }
}

#[test]
fn p11_a_bank_past_the_end() {
    let read = |mode| {
        let mut board = load(UXROM, 2, 0, mode);
        assert_eq!(board.write(0x8000, 2), Ok(None));
        board.read(0x8000)
    };
    assert_eq!(read(Mode::House), Err(Refusal::BankPastData));
    assert_eq!(read(Mode::Board), Ok(data(0)));
}

#[test]
fn p12_cnrom_with_one_block() {
    let read = |mode| load(CNROM, 1, 1, mode).read(0xBFFF);
    assert_eq!(read(Mode::House), Err(Refusal::NoSuchPlace));
    assert_eq!(read(Mode::Board), Ok(data(16_383)));
}

/// What a load answers in house mode and in board mode: 0, or the number of its refusal.
fn answers(image: &[u8]) -> (u8, u8) {
    let number = |mode| refusal(image, mode).map_or(0, Refusal::number);
    (number(Mode::House), number(Mode::Board))
}

/// The image with other bytes at some places.
fn with_bytes(mut image: Vec<u8>, bytes: &[(usize, u8)]) -> Vec<u8> {
    for &(place, byte) in bytes {
        image[place] = byte;
    }
    image
}

/// The answers to an image with its mark, and without it to the same bytes 8 to 15.
fn with_and_without_mark(image: Vec<u8>) -> ((u8, u8), (u8, u8)) {
    let marked = answers(&image);
    (marked, answers(&with_bytes(image, &[(7, 0x00)])))
}

/// The least image that board mode takes as NES 2.0: NROM, one PRG block, CHR RAM.
fn least() -> Vec<u8> {
    marked(NROM, 1, 0, RAM_8K)
}

#[test]
fn m100_the_mark_alone() {
    for chr in [0, 1] {
        for byte10 in [NO_RAM, RAM_8K, BATTERY_RAM_8K] {
            assert_eq!(answers(&marked(NROM, 1, chr, byte10)), (0, 0));
        }
    }
    for byte7 in [0x00, 0x04, 0x0C] {
        let junk = [(7, byte7), (8, 0xFF), (9, 0xFF), (10, 0xFF), (11, 0xFF)];
        assert_eq!(answers(&with_bytes(least(), &junk)), (0, 0), "{byte7:02X}");
    }
    for byte7 in [0x08, 0x09, 0x0A, 0x0B] {
        let submapper = [(7, byte7), (8, 0x10)];
        assert_eq!(answers(&with_bytes(least(), &submapper)), (0, 16));
    }
}

/// Mapper 256 + 1 is above 4, and so is not MMC1 with a fault of NES 2.0.
#[test]
fn m100_the_longer_mapper_number() {
    for byte8 in [0x01, 0x0F, 0x11] {
        let image = with_bytes(marked(MMC1, 1, 0, RAM_8K), &[(8, byte8)]);
        assert_eq!(with_and_without_mark(image), ((0, 4), (0, 0)));
    }
}

#[test]
fn m100_16_before_6() {
    let no_prg = |bytes: &[(usize, u8)]| with_bytes(with_bytes(least(), &[(4, 0)]), bytes);
    let submapper = no_prg(&[(8, 0x10)]);
    assert_eq!(with_and_without_mark(submapper), ((6, 16), (6, 6)));
    let prg_exponent = no_prg(&[(9, 0x0F)]);
    assert_eq!(with_and_without_mark(prg_exponent), ((6, 16), (6, 6)));
    let chr_exponent = no_prg(&[(9, 0xF0), (11, NO_RAM)]);
    assert_eq!(with_and_without_mark(chr_exponent), ((6, 16), (6, 6)));
    assert_eq!(with_and_without_mark(no_prg(&[])), ((6, 6), (6, 6)));
}

#[test]
fn m100_4_and_5_before_16_and_16_before_7_and_8() {
    let submapper = (8, 0x10);
    let mapper_5 = with_bytes(least(), &[submapper, (6, 0x50)]);
    assert_eq!(answers(&mapper_5), (4, 4));
    for flag in [0x04, 0x08] {
        let special = with_bytes(least(), &[submapper, (6, flag)]);
        assert_eq!(answers(&special), (5, 5));
    }
    let short = with_bytes(marked(UXROM, 2, 0, RAM_8K), &[submapper]);
    assert_eq!(answers(&short[..short.len() - 1]), (7, 16));
    let three = with_bytes(marked(UXROM, 3, 0, RAM_8K), &[submapper]);
    assert_eq!(answers(&three), (0, 16));
    assert_eq!(answers(&marked(UXROM, 3, 0, RAM_8K)), (0, 8));
}

/// "in each byte the two nibbles are both 0, or one is 0 and the other 7"
#[test]
fn m100_every_byte_of_ram_shifts() {
    for byte in 0..=255 {
        let taken = matches!((byte >> 4, byte & 0x0F), (0, 0) | (0, 7) | (7, 0));
        let prg = with_bytes(least(), &[(10, byte)]);
        let wanted = if taken { 0 } else { 16 };
        assert_eq!(answers(&prg), (0, wanted), "byte 10 is {byte:02X}");

        let chr_ram = with_bytes(least(), &[(11, byte)]);
        let wanted = if taken && byte != 0 { 0 } else { 16 };
        assert_eq!(answers(&chr_ram), (0, wanted), "byte 11 is {byte:02X}");
        let chr_rom = with_bytes(marked(NROM, 1, 1, RAM_8K), &[(11, byte)]);
        let wanted = if byte == 0 { 0 } else { 16 };
        assert_eq!(answers(&chr_rom), (0, wanted), "byte 11 is {byte:02X}");
    }
}

/// It is the longer CHR count that byte 11 has to agree with: 256 is not 0.
#[test]
fn m100_chr_ram_by_the_longer_count() {
    let header = marked_header(NROM, 1, 256, RAM_8K);
    assert_eq!((header[5], header[9], header[11]), (0, 0x10, NO_RAM));
    let mut image = header.to_vec();
    image.resize(HEADER + PRG_BLOCK + 256 * CHR_BLOCK, 0xEA);
    assert_eq!(answers(&image), (0, 0));
    assert_eq!(answers(&image[..image.len() - 1]), (0, 7));
    image[11] = RAM_8K;
    assert_eq!(answers(&image), (0, 16));
}

/// An image of longer counts, zeros but for a byte at the start of each block that is told.
fn long(byte6: u8, prg: usize, chr: usize, blocks: &[(usize, u8)]) -> Vec<u8> {
    let mut image = marked_header(byte6, prg, chr, RAM_8K).to_vec();
    image.resize(HEADER + prg * PRG_BLOCK + chr * CHR_BLOCK, 0);
    for &(block, byte) in blocks {
        image[HEADER + block * PRG_BLOCK] = byte;
    }
    image
}

/// House mode reads a PRG count of 0 there; board mode's last bank is bank 255.
#[test]
fn m100_256_prg_blocks() {
    let image = long(
        UXROM,
        256,
        0,
        &[(0, 0xA0), (1, 0xA1), (127, 0xA7), (255, 0xAF)],
    );
    assert_eq!(answers(&image), (6, 0));
    assert_eq!(answers(&image[..image.len() - 1]), (6, 7));
    let mut board = Board::load(&image[..], Mode::Board).unwrap();
    assert_eq!((board.prg_count(), board.chr_count()), (256, 0));
    assert_eq!(
        (board.read(0x8000), board.read(0xC000)),
        (Ok(0xA0), Ok(0xAF))
    );
    for (bank, byte) in [(1, 0xA1), (127, 0xA7), (128, 0x00), (255, 0xAF)] {
        assert_eq!(board.write(0x8000, bank), Ok(None));
        assert_eq!(
            (board.read(0x8000), board.read(0xC000)),
            (Ok(byte), Ok(0xAF))
        );
    }
}

/// NROM and CNROM have one or two PRG blocks, also by the longer count.
#[test]
fn m100_256_blocks_are_more_than_two() {
    for byte6 in [NROM, CNROM] {
        assert_eq!(answers(&long(byte6, 256, 0, &[])).1, 6);
    }
}

/// Every count that a header can say, of PRG and of CHR, each beside others, with the mark and, where both are below
/// 256, without it: 8 where Rust itself finds no power of two. A PRG count of 0 gives 6, and a CHR count of 0 passes.
#[test]
fn m104_every_count() {
    const END: usize = 15 * 256; // a nibble of 15 is the exponent form
    const OTHERS: [usize; 5] = [0, 1, 3, 8, 257];
    let mut image = vec![0; HEADER + END * PRG_BLOCK + 257 * CHR_BLOCK];
    let mut check = |prg: usize, chr: usize| {
        image[..HEADER].copy_from_slice(&marked_header(UXROM, prg, chr, RAM_8K));
        let wanted = match (prg, chr) {
            (0, _) => 6,
            (_, 0) if prg.is_power_of_two() => 0,
            _ if prg.is_power_of_two() && chr.is_power_of_two() => 0,
            _ => 8,
        };
        assert_eq!(answers(&image).1, wanted, "PRG {prg}, CHR {chr}");
        if prg < 256 && chr < 256 {
            image[7..HEADER].fill(0);
            assert_eq!(answers(&image).1, wanted, "unmarked, PRG {prg}, CHR {chr}");
        }
    };
    for count in 0..END {
        for other in OTHERS {
            check(count, other);
            check(other, count);
        }
    }
}

/// The greatest image, and one byte less.
#[test]
fn m100_the_greatest_image() {
    let mut image = long(MMC3, 2_048, 2_048, &[(0, 0xA0)]);
    assert_eq!(image.len(), 50_331_664);
    let last = image.len() - 1;
    assert_eq!(answers(&image[..last]).1, 7);
    image[HEADER + 2_048 * PRG_BLOCK - 1] = 0xAF;
    image[HEADER + 2_048 * PRG_BLOCK] = 0xC0;
    let board = Board::load(&image[..], Mode::Board).unwrap();
    assert_eq!((board.prg_count(), board.chr_count()), (2_048, 2_048));
    assert_eq!(
        (board.read(0x8000), board.read(0xFFFF)),
        (Ok(0xA0), Ok(0xAF))
    );
    assert_eq!(board.read(0x0000), Ok(0xC0));
}

/// "Without PRG RAM [..] 6000-7FFF reads 0 and ignores writes"
#[test]
fn m100_boards_without_prg_ram() {
    for byte6 in [MMC1, MMC3] {
        let image = marked(byte6, 2, 0, NO_RAM);
        let mut board = Board::load(&image[..], Mode::Board).unwrap();
        assert!(board.is_nes2() && !board.has_prg_ram());
        assert_eq!(board.digits()[Digit::PrgRam], 0);
        board.prg_ram_mut().fill(0x11);
        board.chr_ram_mut().fill(0x22);
        let before = kept(&board);
        for address in [0x6000, 0x63FF, 0x6400, 0x7FFF] {
            assert_eq!(board.write(address, 0x33), Ok(None));
            assert_eq!(board.read(address), Ok(0));
        }
        assert!(kept(&board) == before, "a RAM or the state has changed");
        assert_eq!(board.write(0x0000, 0x33), Ok(None));
        assert_eq!(board.read(0x0000), Ok(0x33), "CHR RAM is there");
    }
}

/// The same boards with PRG RAM: by byte 10, in house mode, and without the mark.
#[test]
fn m100_boards_with_prg_ram() {
    for byte6 in [MMC1, MMC3] {
        let unmarked = with_bytes(marked(byte6, 2, 0, NO_RAM), &[(7, 0x00)]);
        for (image, mode) in [
            (marked(byte6, 2, 0, RAM_8K), Mode::Board),
            (marked(byte6, 2, 0, BATTERY_RAM_8K), Mode::Board),
            (marked(byte6, 2, 0, NO_RAM), Mode::House),
            (unmarked.clone(), Mode::House),
            (unmarked, Mode::Board),
        ] {
            let mut board = Board::load(image, mode).unwrap();
            assert!(board.has_prg_ram());
            assert_eq!(board.digits()[Digit::PrgRam], 1);
            assert_eq!(board.write(0x7FFF, 0x33), Ok(None));
            assert_eq!(board.read(0x7FFF), Ok(0x33));
            assert_eq!(board.prg_ram()[0x1FFF], 0x33);
        }
    }
}

/// The other boards show no PRG RAM at 6000-7FFF either way, and only keep the note.
#[test]
fn m100_the_note_on_other_boards() {
    for byte6 in [NROM, UXROM, CNROM] {
        for (byte10, has_prg_ram) in [(NO_RAM, false), (RAM_8K, true)] {
            let mut board = Board::load(marked(byte6, 2, 1, byte10), Mode::Board).unwrap();
            assert_eq!(board.has_prg_ram(), has_prg_ram);
            assert_eq!(board.write(0x6000, 0x33), Ok(None));
            assert_eq!(board.read(0x6000), Ok(0));
            assert_eq!(board.prg_ram()[0], 0);
        }
    }
    // House CNROM stores what the picture unit writes in PRG RAM, which is there whatever byte 10 says.
    let mut house = Board::load(marked(CNROM, 2, 1, NO_RAM), Mode::House).unwrap();
    assert_eq!(house.write(0x0000, 0x33), Ok(None));
    assert_eq!((house.has_prg_ram(), house.prg_ram()[0]), (true, 0x33));
}

/// A load clears both RAMs that it is lent, also where the board has no PRG RAM; bytes 12 to 15 change nothing.
#[test]
fn m100_what_a_load_leaves() {
    for byte6 in [NROM, MMC1, UXROM, CNROM, MMC3] {
        let image = marked(byte6 | VERTICAL, 2, 0, NO_RAM);
        let board = Board::load(&image[..], Mode::Board).unwrap();
        let ends = [(12, 0xFF), (13, 0xFF), (14, 0xFF), (15, 0xFF)];
        let other = Board::load(with_bytes(image.clone(), &ends), Mode::Board).unwrap();
        assert!(kept(&board) == kept(&other));
        assert!(board
            .prg_ram()
            .iter()
            .chain(board.chr_ram())
            .all(|&byte| byte == 0));
        assert_eq!(board.header_mirroring(), Mirroring::Vertical);
        assert_eq!(board.mapper(), u16::from(byte6 >> 4));
    }
}

/// A trace has no room for an image of longer counts; its `load` line has.
#[test]
fn m100_traces() {
    let image = marked(MMC1 | VERTICAL, 2, 1, NO_RAM);
    let mut trace = Trace::new(Mode::Board, &image).unwrap();
    let (address, value) = (0x6000, 0x33);
    trace.push(Event::Write { address, value }).unwrap();
    trace.push(Event::Read { address }).unwrap();
    let text = |trace: &Trace| trace.play().map_err(Refusal::number);
    assert_eq!(text(&trace), Ok("load 1 V 2 1\n0 W -\n1 R 00\n".into()));
    let house = trace.in_mode(Mode::House);
    assert_eq!(text(&house), Ok("load 1 V 2 1\n0 W -\n1 R 33\n".into()));

    let longer = with_bytes(image, &[(9, 0x01)]);
    let trace = Trace::new(Mode::Board, &longer).unwrap();
    assert_eq!(text(&trace), Err(7), "PRG count 258");
    assert_eq!(
        text(&trace.in_mode(Mode::House)),
        Ok("load 1 V 2 1\n".into())
    );

    let board = Board::load(long(UXROM, 256, 512, &[]), Mode::Board).unwrap();
    let run = Run {
        mapper: board.mapper(),
        header_mirroring: board.header_mirroring(),
        prg_count: board.prg_count(),
        chr_count: board.chr_count(),
        answers: Vec::new(),
    };
    assert_eq!(run.to_string(), "load 2 H 256 512\n");
}
