//! A board kept as bytes and taken up again, and every way in which that is wrong.

mod common;

use biekkarul::trace::{Answer, Event};
use biekkarul::{
    image_hash, Board, Digit, Mirroring, Mode, Refusal, Snapshot, SnapshotError, RAM_LENGTH,
};
use common::{
    image, load, marked, packed, serial, with, Numbers, BOTH_MODES, NO_RAM, RAM_8K, VERTICAL,
};
use common::{CNROM, MMC1, MMC3, NROM, UXROM};

const VERSION: usize = 8;
const MODE: usize = 9;
const NOTICE: usize = 10;
const ZERO: usize = 11;
const HASH: usize = 12;
const STATE: usize = 20;
const PRG_RAM: usize = 60;
const CHR_RAM: usize = PRG_RAM + RAM_LENGTH;
const SUM: usize = CHR_RAM + RAM_LENGTH;

/// Each board with CHR RAM or CHR ROM, with both mirrorings of the header.
fn cartridges() -> impl Iterator<Item = (u8, u8, u8)> {
    let all = [
        (NROM, 2, 0),
        (MMC1, 4, 0),
        (MMC1 | VERTICAL, 2, 2),
        (UXROM, 4, 0),
        (CNROM, 2, 4),
        (MMC3, 4, 2),
        (MMC3 | VERTICAL, 2, 0),
    ];
    all.into_iter()
}

fn any_event(numbers: &mut Numbers) -> Event {
    let (address, value) = (numbers.next() as u16, numbers.next() as u8);
    match numbers.next() % 4 {
        0 => Event::Read { address },
        1 => Event::Clock,
        _ => Event::Write { address, value },
    }
}

fn play(board: &mut Board, numbers: &mut Numbers, count: usize) -> Vec<Answer> {
    (0..count).map(|_| any_event(numbers).play(board)).collect()
}

/// The bytes with the check sum that fits them: FNV-1a as it is published, written here a second time.
fn summed(mut bytes: Vec<u8>) -> Vec<u8> {
    let mut sum: u64 = 14_695_981_039_346_656_037;
    for byte in &bytes[..SUM] {
        sum = (sum ^ u64::from(*byte)).wrapping_mul(1_099_511_628_211);
    }
    bytes[SUM..].copy_from_slice(&sum.to_le_bytes());
    bytes
}

fn fault(bytes: &[u8]) -> (SnapshotError, String) {
    let error = Snapshot::from_bytes(bytes).unwrap_err();
    (error, error.to_string())
}

#[test]
fn a_board_that_is_taken_up_goes_on_as_the_first() {
    let mut numbers = Numbers(5);
    let mut notices = 0;
    for (byte6, prg, chr) in cartridges() {
        for mode in BOTH_MODES {
            let mut first = load(byte6, prg, chr, mode);
            for _ in 0..30 {
                play(&mut first, &mut numbers, 60);
                let bytes = first.snapshot().to_bytes();
                let snapshot = Snapshot::from_bytes(&bytes).unwrap();
                assert_eq!(snapshot, first.snapshot());
                let bytes = first.image().to_vec();
                let mut second = Board::from_snapshot(bytes, mode, &snapshot).unwrap();
                let mut third = load(byte6, prg, chr, mode);
                play(&mut third, &mut numbers, 60);
                assert_eq!(third.restore(&snapshot), Ok(first.screens()));
                assert!(first == second && first == third);

                let seed = numbers.next();
                let answers = play(&mut first, &mut Numbers(seed), 60);
                assert_eq!(answers, play(&mut second, &mut Numbers(seed), 60));
                assert_eq!(answers, play(&mut third, &mut Numbers(seed), 60));
                assert!(first == second && first == third);
                assert_eq!(first.last_notice(), second.last_notice());
                notices += usize::from(first.last_notice().is_some());
            }
        }
    }
    assert!(notices > 50, "{notices} snapshots with a notice");
}

#[test]
fn the_bytes_are_those_of_the_table() {
    let mut board = load(MMC3, 1, 0, Mode::House);
    board.write(0xA000, 0).unwrap();
    board.write(0x6000, 0x2A).unwrap();
    board.chr_ram_mut()[RAM_LENGTH - 1] = 0x2B;
    let bytes = board.snapshot().to_bytes();
    assert_eq!((bytes.len(), Snapshot::LENGTH), (16_452, 16_452));
    assert_eq!(&bytes[..HASH], b"BIEKSNAP\x01\x00V\x00");
    assert_eq!(bytes[HASH..STATE], image_hash(board.image()).to_le_bytes());
    assert_eq!(bytes[STATE..PRG_RAM], board.state());
    assert_eq!(bytes[PRG_RAM..CHR_RAM], board.prg_ram()[..]);
    assert_eq!(bytes[CHR_RAM..SUM], board.chr_ram()[..]);
    assert_eq!((bytes[PRG_RAM], bytes[SUM - 1]), (0x2A, 0x2B));
    assert_eq!(summed(bytes.clone()), bytes);

    let fresh = load(NROM, 1, 0, Mode::Board).snapshot().to_bytes();
    assert_eq!(fresh[MODE..HASH], [1, 0, 0]);
}

#[test]
fn what_a_snapshot_tells() {
    let mut board = load(UXROM, 4, 0, Mode::House);
    board.write(0x8000, 3).unwrap();
    let snapshot = board.snapshot();
    assert_eq!(snapshot.mode(), Mode::House);
    assert_eq!(snapshot.image_hash(), image_hash(board.image()));
    assert_eq!(snapshot.registers(), board.registers());
    assert_eq!(snapshot.digits(), board.digits());
    assert_eq!(*snapshot.state(), board.state());
    assert_eq!(snapshot.prg_ram(), board.prg_ram());
    assert_eq!(snapshot.chr_ram(), board.chr_ram());
    assert_eq!(
        (snapshot.last_notice(), snapshot.screens()),
        (None, Mirroring::Horizontal)
    );
    let text = format!("{snapshot:?}");
    assert!(text.contains("registers: Uxrom { bank: 3 }"), "{text}");
    assert!(text.len() < 200, "{text}");
}

/// House mode's state holds the header's mirroring only.
#[test]
fn a_house_board_knows_how_its_screens_were_turned() {
    let mut board = load(MMC1, 2, 0, Mode::House);
    for (control, mirroring) in [
        (0, Mirroring::SingleScreenLower),
        (1, Mirroring::SingleScreenUpper),
        (2, Mirroring::Vertical),
    ] {
        assert_eq!(serial(&mut board, 0x8000, control), Ok(Some(mirroring)));
        assert_eq!(board.mirroring(), Mirroring::Horizontal);
        let bytes = board.snapshot().to_bytes();
        let snapshot = Snapshot::from_bytes(&bytes).unwrap();
        assert_eq!(snapshot.screens(), mirroring);
        let mut fresh = load(MMC1, 2, 0, Mode::House);
        assert_eq!(fresh.screens(), Mirroring::Horizontal);
        assert_eq!(fresh.restore(&snapshot), Ok(mirroring));
        assert_eq!(fresh.screens(), mirroring);
    }
    // As in potatis, no notice is given of the header's, so whoever follows them stays where he was.
    assert_eq!(serial(&mut board, 0x8000, 3), Ok(None));
    assert_eq!(board.screens(), Mirroring::Vertical);
}

#[test]
fn bytes_that_are_no_snapshot() {
    let text = "the bytes are no snapshot: they do not begin with BIEKSNAP";
    let good = load(NROM, 1, 0, Mode::House).snapshot().to_bytes();
    let mut no_magic = good.clone();
    no_magic[0] ^= 0x20;
    let no_magic = summed(no_magic);
    for bytes in [&[][..], b"BIEKSNA", &image(NROM, 1, 0), &no_magic] {
        assert_eq!(fault(bytes), (SnapshotError::NotASnapshot, text.into()));
    }
}

/// Another version is told as such whatever its length, since a later one may be longer.
#[test]
fn another_version() {
    let good = load(NROM, 1, 0, Mode::House).snapshot().to_bytes();
    for found in (0..=255).filter(|&version| version != Snapshot::VERSION) {
        let mut bytes = good.clone();
        bytes[VERSION] = found;
        let wanted = (
            SnapshotError::OtherVersion { found },
            format!("the snapshot has version {found} of its format; this library reads version 1"),
        );
        assert_eq!(fault(&bytes[..VERSION + 1]), wanted);
        assert_eq!(fault(&summed(bytes)), wanted);
    }
}

#[test]
fn missing_and_left_over_bytes() {
    let good = load(NROM, 1, 0, Mode::House).snapshot().to_bytes();
    let longer = [&good[..], &[0]].concat();
    for found in [8, 9, 60, good.len() - 1, good.len() + 1] {
        let wanted = (
            SnapshotError::WrongLength { found },
            format!("the snapshot is damaged: it has {found} bytes, not 16452"),
        );
        assert_eq!(fault(&longer[..found]), wanted);
    }
}

/// Every single bit behind the version, the check sum's own included.
#[test]
fn damaged_bytes() {
    let mut bytes = load(MMC3, 1, 0, Mode::House).snapshot().to_bytes();
    let text = "the snapshot is damaged: its check sum does not fit its bytes";
    let wanted = (SnapshotError::WrongCheckSum, text.to_string());
    let places = (MODE..PRG_RAM + 2).chain(CHR_RAM - 1..CHR_RAM + 2);
    for place in places.chain(SUM - 2..Snapshot::LENGTH) {
        for bit in 0..8 {
            bytes[place] ^= 1 << bit;
            assert_eq!(fault(&bytes), wanted, "byte {place}, bit {bit}");
            bytes[place] ^= 1 << bit;
        }
    }
    bytes.swap(PRG_RAM - 1, PRG_RAM - 5);
    assert_eq!(fault(&bytes), wanted);
    bytes.swap(PRG_RAM - 1, PRG_RAM - 5);
    assert!(Snapshot::from_bytes(&bytes).is_ok());
}

/// Bytes whose check sum fits, but that no board could have left.
#[test]
fn a_state_that_no_board_could_have() {
    let text = "the snapshot holds a state that no board of its image and mode could have";
    let wanted = (SnapshotError::ImpossibleState, text.to_string());
    let good = load(MMC3, 1, 1, Mode::House).snapshot().to_bytes();
    for (place, byte) in [
        (MODE, 1),          // the state says house
        (MODE, 2),          // no mode
        (NOTICE, b'H'),     // a house notice is never the header's
        (NOTICE, b'U'),     // MMC3 has no single screen
        (NOTICE, b'-'),     // no letter of a notice
        (ZERO, 1),          // nothing is kept here
        (STATE + 24, 1),    // an odd R0
        (STATE + 34, 0x80), // a line that is up in house mode
        (STATE + 35, 0),    // PRG RAM that is disabled in house mode
        (STATE + 35, 3),    // writes that are denied in house mode
        (STATE + 35, 5),    // above the last digit, right beside the marks
        (STATE + 39, 0x80), // above the last digit
    ] {
        let mut bytes = good.clone();
        bytes[place] = byte;
        assert_eq!(fault(&summed(bytes)), wanted, "byte {place} is {byte}");
    }
    let mut turned = good.clone();
    turned[NOTICE] = b'V';
    assert!(Snapshot::from_bytes(&summed(turned)).is_ok());
}

/// The state has a version of its own.
#[test]
fn a_state_of_another_version() {
    let mut bytes = load(MMC3, 1, 1, Mode::House).snapshot().to_bytes();
    bytes[STATE] = 2;
    let text = "the snapshot holds a state of version 2; this library has version 1";
    let wanted = SnapshotError::OtherStateVersion { found: 2 };
    assert_eq!(fault(&summed(bytes)), (wanted, text.to_string()));
}

/// In board mode the state says how the screens are turned, and the notice must say the same.
#[test]
fn a_notice_that_does_not_fit_its_state() {
    let mut turned = load(MMC3, 1, 1, Mode::Board);
    turned.write(0xA000, 0).unwrap();
    let mut turned_back = turned.clone();
    turned_back.write(0xA000, 1).unwrap();
    let fresh = load(MMC3, 1, 1, Mode::Board);
    let nrom = load(NROM, 1, 1, Mode::Board);
    let (none, h, v) = (0, b'H', b'V');
    for (board, fitting) in [
        (&turned, &[v][..]),
        (&turned_back, &[none, h]),
        (&fresh, &[none, h]),
        (&nrom, &[none]),
    ] {
        for notice in [none, h, v, b'U', b'L'] {
            let mut bytes = board.snapshot().to_bytes();
            bytes[NOTICE] = notice;
            let taken = Snapshot::from_bytes(&summed(bytes));
            assert_eq!(taken.is_ok(), fitting.contains(&notice), "{notice}");
        }
    }
}

/// Nothing of the board has moved when a snapshot is not taken up.
fn not_taken_up(mut board: Board, snapshot: &Snapshot, error: SnapshotError) {
    let before = board.clone();
    assert_eq!(board.restore(snapshot), Err(error));
    assert!(board == before && board.last_notice() == before.last_notice());
    let (image, mode) = (board.image(), board.mode());
    let made = Board::from_snapshot(image, mode, snapshot);
    assert_eq!(made.map(|_| ()), Err(error));
}

#[test]
fn a_snapshot_of_another_image() {
    let snapshot = load(MMC3, 2, 1, Mode::House).snapshot();
    let mut one_byte = image(MMC3, 2, 1);
    *one_byte.last_mut().unwrap() ^= 1;
    let mut longer = image(MMC3, 2, 1);
    longer.push(0);
    for other in [
        one_byte,
        longer,
        image(MMC3 | VERTICAL, 2, 1),
        image(NROM, 2, 1),
    ] {
        for mode in BOTH_MODES {
            let board = Board::load(other.clone(), mode).unwrap();
            not_taken_up(board, &snapshot, SnapshotError::OtherImage);
        }
    }
    let no_image = Board::from_snapshot(&[][..], Mode::House, &snapshot);
    assert_eq!(no_image.unwrap_err(), SnapshotError::OtherImage);
    assert_eq!(
        SnapshotError::OtherImage.to_string(),
        "the snapshot was taken with another image"
    );
}

#[test]
fn a_snapshot_of_the_other_mode() {
    for (kept, asked) in [(Mode::House, Mode::Board), (Mode::Board, Mode::House)] {
        for (byte6, prg, chr) in cartridges() {
            let snapshot = load(byte6, prg, chr, kept).snapshot();
            let error = SnapshotError::OtherMode { kept };
            not_taken_up(load(byte6, prg, chr, asked), &snapshot, error);
            assert_eq!(
                error.to_string(),
                format!("the snapshot was taken in {kept} mode, not in {asked} mode")
            );
        }
    }
}

/// A snapshot that was put together: the hash of this image with the state of another one.
#[test]
fn a_state_of_another_cartridge_under_this_images_hash() {
    let board = load(UXROM, 2, 0, Mode::House);
    let mut bytes = load(UXROM, 4, 0, Mode::House).snapshot().to_bytes();
    bytes[HASH..STATE].copy_from_slice(&image_hash(board.image()).to_le_bytes());
    let snapshot = Snapshot::from_bytes(&summed(bytes)).unwrap();
    not_taken_up(board, &snapshot, SnapshotError::ImpossibleState);
}

/// Of a board without PRG RAM the bytes that it was given are kept all the same, and its note goes with it.
#[test]
fn a_board_without_prg_ram() {
    let image = marked(MMC1, 2, 0, NO_RAM);
    let mut board = Board::load(&image[..], Mode::Board).unwrap();
    board.prg_ram_mut()[0] = 0x2A;
    board.write(0x6001, 0x2B).unwrap();
    let bytes = board.snapshot().to_bytes();
    assert_eq!(bytes[PRG_RAM..PRG_RAM + 2], [0x2A, 0]);
    let snapshot = Snapshot::from_bytes(&bytes).unwrap();
    assert!(!snapshot.digits().has_prg_ram());
    let again = Board::from_snapshot(&image[..], Mode::Board, &snapshot).unwrap();
    assert_eq!(again, board);
    assert_eq!((again.has_prg_ram(), again.read(0x6000)), (false, Ok(0)));
}

/// A state with PRG RAM, put under the hash of an image that has none, and the other way round: each could be a
/// board's, but not this image's.
#[test]
fn a_state_of_other_prg_ram_under_this_images_hash() {
    for (own, other) in [(NO_RAM, RAM_8K), (RAM_8K, NO_RAM)] {
        let load = |byte10| Board::load(marked(MMC3, 2, 1, byte10), Mode::Board).unwrap();
        let (board, stranger) = (load(own), load(other));
        let mut bytes = stranger.snapshot().to_bytes();
        bytes[HASH..STATE].copy_from_slice(&image_hash(board.image()).to_le_bytes());
        let snapshot = Snapshot::from_bytes(&summed(bytes)).unwrap();
        not_taken_up(board, &snapshot, SnapshotError::ImpossibleState);
    }
}

/// The same with an image that no load takes.
#[test]
fn an_image_that_is_refused() {
    let mut bad = image(UXROM, 2, 0);
    bad[6] |= 0x08;
    let mut bytes = load(UXROM, 2, 0, Mode::House).snapshot().to_bytes();
    bytes[HASH..STATE].copy_from_slice(&image_hash(&bad).to_le_bytes());
    let snapshot = Snapshot::from_bytes(&summed(bytes)).unwrap();
    let error = Board::from_snapshot(&bad[..], Mode::House, &snapshot).unwrap_err();
    assert_eq!(
        error,
        SnapshotError::ImageRefused(Refusal::TrainerOrFourScreen)
    );
    assert_eq!(
        error.to_string(),
        "the snapshot's image cannot be loaded: refused 5 (TrainerOrFourScreen): the header asks for a \
         trainer or for four screens"
    );
}

/// A snapshot keeps whatever a board may hold: here registers at their ends.
#[test]
fn registers_at_their_ends() {
    let board = load(MMC3, 2, 1, Mode::Board);
    for (digit, value) in [
        (Digit::Mmc3R0, 254),
        (Digit::Mmc3Counter, 255),
        (Digit::Mmc3IrqLine, 1),
        (Digit::RamEnabled, 0),
        (Digit::RamWritesDenied, 1),
    ] {
        let state = packed(&with(board.digits(), digit, value));
        let ram = [0xFF; RAM_LENGTH];
        let at_end = Board::from_parts(board.image(), Mode::Board, &state, &ram, &ram).unwrap();
        let bytes = at_end.snapshot().to_bytes();
        let mut again = board.clone();
        again
            .restore(&Snapshot::from_bytes(&bytes).unwrap())
            .unwrap();
        assert_eq!(again, at_end);
    }
}

/// Fields with any bits changed under a check sum that fits: refused, or a snapshot that has one form of bytes
/// and whose board is served.
#[test]
fn whatever_is_taken_can_be_played() {
    let mut numbers = Numbers(7);
    let mut taken = 0;
    for round in 0..600 {
        let (byte6, prg, chr) = cartridges().nth(round % 7).unwrap();
        let mode = BOTH_MODES[round % 2];
        let mut board = load(byte6, prg, chr, mode);
        let mut bytes = board.snapshot().to_bytes();
        for _ in 0..1 + numbers.next() % 3 {
            let place = STATE + numbers.next() as usize % (PRG_RAM - STATE);
            bytes[place] ^= 1 << (numbers.next() % 8);
        }
        let bytes = summed(bytes);
        let snapshot = match Snapshot::from_bytes(&bytes) {
            Ok(snapshot) => snapshot,
            Err(error) => {
                let wanted = match bytes[STATE] {
                    1 => SnapshotError::ImpossibleState,
                    found => SnapshotError::OtherStateVersion { found },
                };
                assert_eq!(error, wanted);
                continue;
            }
        };
        assert_eq!(snapshot.to_bytes(), bytes);
        match board.restore(&snapshot) {
            Ok(screens) => {
                taken += 1;
                assert_eq!(screens, snapshot.screens());
                for address in (0..=0xFFFF).step_by(251) {
                    assert_ne!(board.read(address), Err(Refusal::StateOutOfRange));
                }
            }
            Err(error) => assert_eq!(error, SnapshotError::ImpossibleState),
        }
    }
    assert!(taken > 20, "only {taken} taken");
}
