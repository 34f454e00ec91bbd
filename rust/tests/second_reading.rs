//! Random headers and histories through the wrapper, held against a second reading of document 01 and of M-100,
//! M-101, M-104 and M-111 that was written apart from the library: trials/model.h, in C, as the program
//! trials/play.c. Board mode has no other engine to be compared with.

mod common;

use biekkarul::{Board, Mode};
use common::reading::{byte, expected, history, make, said, Call, CLOCK, READ, WRITE};
use common::{image, marked, Numbers, BATTERY_RAM_8K, BOTH_MODES, MARK, NO_RAM, RAM_8K};
use common::{CHR_BLOCK, CNROM, HEADER, MMC1, MMC3, NROM, PRG_BLOCK, UXROM, VERTICAL};

fn play(bytes: &[u8], mode: Mode, numbers: &mut Numbers, count: usize) {
    play_calls(bytes, mode, &history(numbers, count));
}

fn play_calls(bytes: &[u8], mode: Mode, calls: &[Call]) {
    let expected = expected(bytes, mode, calls);
    let mut board = Board::load(bytes, mode).unwrap();
    let name = format!("header {:02X?}, {mode:?}", &bytes[..HEADER]);
    for (place, (&call, wanted)) in calls.iter().zip(expected.answers).enumerate() {
        let answer = make(&mut board, call);
        assert_eq!(answer, wanted, "{name}, {place}: {call:02X?}");
    }
    assert_eq!(board.digits().all()[..], expected.digits, "{name}");
    let rams = [&board.prg_ram()[..], &board.chr_ram()[..]].concat();
    assert!(rams == expected.rams, "{name}: a RAM");
}

#[test]
fn both_give_the_same_answers() {
    let mut numbers = Numbers(1);
    let boards = [
        (NROM, &[1, 2][..], &[0, 1][..]),
        (MMC1, &[1, 2, 4, 16], &[0, 1, 2, 4]),
        (UXROM, &[1, 2, 4, 8], &[0, 1]),
        (CNROM, &[1, 2], &[0, 1, 2, 4]),
        (MMC3, &[1, 2, 8, 32], &[0, 1, 8, 32]),
    ];
    for (mapper, prgs, chrs) in boards {
        for (prg, chr) in prgs
            .iter()
            .flat_map(|prg| chrs.iter().map(move |chr| (prg, chr)))
        {
            for (mode, flag) in BOTH_MODES
                .iter()
                .flat_map(|mode| [(mode, 0), (mode, VERTICAL)])
            {
                for _ in 0..3 {
                    play(
                        &image(mapper | flag, *prg, *chr),
                        *mode,
                        &mut numbers,
                        2_000,
                    );
                }
            }
        }
    }
}

/// As many banks as a register can say, and the greatest counts that a load takes: 128 in board mode, 255 in house mode.
#[test]
fn counts_at_their_limits() {
    let mut numbers = Numbers(3);
    let of_both = [
        (NROM, 2, 128),
        (MMC1, 16, 16),
        (MMC1, 128, 128),
        (UXROM, 128, 128),
        (CNROM, 2, 128),
        (MMC3, 32, 32),
        (MMC3, 128, 128),
    ];
    let of_house = [
        (NROM, 2, 255),
        (MMC1, 255, 255),
        (UXROM, 129, 0),
        (UXROM, 255, 255),
        (CNROM, 2, 255),
        (MMC3, 255, 255),
    ];
    let both = of_both
        .iter()
        .flat_map(|counts| BOTH_MODES.map(|mode| (counts, mode)));
    let house = of_house.iter().map(|counts| (counts, Mode::House));
    for (&(mapper, prg, chr), mode) in both.chain(house) {
        let bytes = image(mapper, prg, chr);
        for _ in 0..3 {
            play(&bytes, mode, &mut numbers, 2_000);
        }
    }
}

/// House mode takes counts that are no power of two.
#[test]
fn no_powers_in_house_mode() {
    let mut numbers = Numbers(2);
    for (mapper, prg, chr) in [(MMC1, 3, 5), (UXROM, 7, 3), (CNROM, 2, 3), (MMC3, 5, 7)] {
        for _ in 0..5 {
            play(&image(mapper, prg, chr), Mode::House, &mut numbers, 2_000);
        }
    }
}

/// NES 2.0 with PRG RAM in both forms and without, CHR RAM and CHR ROM; house mode reads the same headers as iNES.
#[test]
fn marked_images() {
    let mut numbers = Numbers(4);
    for (mapper, prg) in [(NROM, 2), (MMC1, 4), (UXROM, 4), (CNROM, 2), (MMC3, 8)] {
        for (chr, byte10) in [0, 1, 4]
            .iter()
            .flat_map(|&chr| [NO_RAM, RAM_8K, BATTERY_RAM_8K].map(|byte10| (chr, byte10)))
        {
            let bytes = marked(mapper | VERTICAL, prg, chr, byte10);
            for mode in BOTH_MODES {
                play(&bytes, mode, &mut numbers, 2_000);
            }
        }
    }
}

/// Counts that no byte holds, as board mode takes them.
#[test]
fn longer_counts() {
    let mut numbers = Numbers(5);
    for (mapper, prg, chr) in [
        (NROM, 1, 256),
        (MMC1, 256, 1),
        (MMC1, 512, 0),
        (UXROM, 256, 0),
        (UXROM, 512, 256),
        (CNROM, 2, 512),
        (MMC3, 256, 0),
        (MMC3, 256, 256),
    ] {
        for byte10 in [NO_RAM, RAM_8K] {
            let bytes = marked(mapper, prg, chr, byte10);
            play(&bytes, Mode::Board, &mut numbers, 2_000);
        }
    }
}

/// Clocks mostly, and writes to MMC3's interrupt registers, with a latch that is soon counted down.
fn interrupt_call(numbers: &mut Numbers) -> Call {
    match numbers.next() % 16 {
        0 => [WRITE, 0xC0, 0x00, byte(numbers) & 0x07],
        1 => [WRITE, 0xDF, 0xFF, 0],
        2 => [WRITE, 0xE0, 0x00, 0],
        3 | 4 => [WRITE, 0xFF, 0xFF, 0],
        _ => [CLOCK, 0, 0, 0],
    }
}

#[test]
fn irqs_and_the_line() {
    let mut numbers = Numbers(7);
    for mode in BOTH_MODES {
        for _ in 0..20 {
            let calls: Vec<Call> = (0..2_000).map(|_| interrupt_call(&mut numbers)).collect();
            play_calls(&image(MMC3, 1, 1), mode, &calls);
        }
    }
}

/// Reads and writes of PRG RAM mostly, at few addresses, and writes to MMC3's marks for it.
fn ram_call(numbers: &mut Numbers) -> Call {
    let [high, low] = one_of(numbers, &[0x5FFF, 0x6000, 0x6001, 0x7FFF, 0x8000_u16]).to_be_bytes();
    match numbers.next() % 8 {
        0 => [WRITE, 0xA0, 0x01, byte(numbers)],
        1 => [WRITE, 0xBF, 0xFE | byte(numbers), byte(numbers)],
        2..=4 => [WRITE, high, low, byte(numbers)],
        _ => [READ, high, low, 0],
    }
}

/// With PRG RAM and, in board mode, without.
#[test]
fn locked_ram() {
    let mut numbers = Numbers(8);
    let images = [
        image(MMC3, 1, 1),
        marked(MMC3, 2, 0, BATTERY_RAM_8K),
        marked(MMC3, 2, 0, NO_RAM),
        image(MMC1, 2, 1),
    ];
    for bytes in &images {
        for mode in BOTH_MODES {
            for _ in 0..5 {
                let calls: Vec<Call> = (0..2_000).map(|_| ram_call(&mut numbers)).collect();
                play_calls(bytes, mode, &calls);
            }
        }
    }
}

/// One of these.
fn one_of<T: Copy>(numbers: &mut Numbers, choices: &[T]) -> T {
    choices[numbers.next() as usize % choices.len()]
}

/// Mostly 0, else two nibbles at the limits.
fn nibbles(numbers: &mut Numbers) -> u8 {
    let limits = [0, 1, 14, 15];
    match numbers.next() % 4 {
        0 => one_of(numbers, &limits) << 4 | one_of(numbers, &limits),
        1 => one_of(numbers, &[0x00, 0x01, 0x10]),
        _ => 0,
    }
}

/// Mostly marked, mostly one that board mode takes but for a thing or two.
fn any_header(numbers: &mut Numbers) -> [u8; HEADER] {
    let mut header = [0; HEADER];
    header[..4].copy_from_slice(b"NES\x1A");
    header[4] = one_of(numbers, &[0, 1, 2, 2, 3, 4, 255]);
    header[5] = one_of(numbers, &[0, 0, 1, 2, 3]);
    let other_bits = one_of(numbers, &[0, 0, 0, 0, 0, 1, 2, 4, 8]);
    header[6] = one_of(numbers, &[NROM, MMC1, UXROM, CNROM, MMC3]) | other_bits;
    header[7] = one_of(
        numbers,
        &[MARK, MARK, MARK, MARK, 0x0B, 0x18, 0x00, 0x04, 0x0C],
    );
    header[8] = nibbles(numbers);
    header[9] = nibbles(numbers);
    header[10] = one_of(numbers, &[0x00, 0x00, 0x07, 0x07, 0x70, 0x70, 0x77, 0x08]);
    let has_chr_ram = header[5] == 0 && header[9] >> 4 == 0;
    header[11] = match (numbers.next() % 4, has_chr_ram) {
        (0, _) => one_of(numbers, &[0x00, 0x07, 0x70, 0x77, 0x08]),
        (_, true) => one_of(numbers, &[0x07, 0x70]),
        (_, false) => 0x00,
    };
    for byte in &mut header[12..] {
        *byte = one_of(numbers, &[0x00, 0x00, 0xFF, 0x0F]);
    }
    header
}

/// What the counts ask for, with or without the nibbles of byte 9; where that is more than `most`, the least that
/// an image has.
fn length(header: &[u8; HEADER], with_nibbles: bool, most: usize) -> usize {
    let (mut prg, mut chr) = (usize::from(header[4]), usize::from(header[5]));
    if with_nibbles {
        prg += 256 * usize::from(header[9] & 0x0F);
        chr += 256 * usize::from(header[9] >> 4);
    }
    match HEADER + prg * PRG_BLOCK + chr * CHR_BLOCK {
        length if length <= most => length.max(16_400),
        _ => 16_400,
    }
}

/// What a load of the image answers, held to the second reading, with the digits of a board that it leaves.
fn load_as_said(bytes: &[u8], mode: Mode) -> u8 {
    let name = format!("header {:02X?}, {} bytes", &bytes[..HEADER], bytes.len());
    match (Board::load(bytes, mode), said(bytes, mode, &[])) {
        (Ok(board), Ok(expected)) => {
            assert_eq!(board.digits().all()[..], expected.digits, "{name}, {mode}");
            0
        }
        (Err(refusal), Err(answer)) => {
            let number = refusal.number();
            assert_eq!(256 + u16::from(number), answer, "{name}, {mode}");
            number
        }
        (loaded, said) => panic!(
            "{name}, {mode}: the load answers {:?}, the second reading {:?}",
            loaded.err(),
            said.err()
        ),
    }
}

/// Any header, with as many bytes as it asks for in one of the two readings, or one less.
#[test]
fn loads_of_any_header() {
    let mut numbers = Numbers(6);
    let mut counts = [[0; 17]; 2];
    for _ in 0..2_000 {
        let header = any_header(&mut numbers);
        // Long images take their time, so only some of those that are asked for are made.
        let most = one_of(&mut numbers, &[100_000, 100_000, 100_000, 8_000_000]);
        let asked = length(&header, numbers.next() % 4 != 0, most);
        let mut bytes = header.to_vec();
        bytes.resize(asked - usize::from(numbers.next() % 8 == 0), 0xEA);
        for mode in BOTH_MODES {
            let number = load_as_said(&bytes, mode);
            counts[usize::from(mode.number())][usize::from(number)] += 1;
        }
    }
    let [house, board] = counts;
    assert_eq!(house[16], 0, "house mode has no 16");
    for number in [0, 3, 4, 5, 6, 7] {
        assert!(house[number] >= 20, "{number} in house mode: {house:?}");
    }
    for number in [0, 3, 4, 5, 6, 7, 8, 16] {
        assert!(board[number] >= 20, "{number} in board mode: {board:?}");
    }
}
