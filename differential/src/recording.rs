//! A sample of the original's answers, small enough to keep: what is in it, and its bytes.
//!
//! All numbers are big-endian. `BKR1`; the count of cases (2 bytes); for each case the header (16), the image's length
//! (4), the load's answer (2), the count of events (2), and for each event its four bytes as in a trace and its answer
//! (2). Then the count of header cases (2); for each the length (1), that many bytes, the answer (2) and the size of the
//! data (4), which is 0 if refused. The image is the header followed by `images::banked`, cut to its length.

use crate::compare::refusal;
use crate::events::{clock, read, write, Answer, Event, Kind, PANICKED, REFUSED};
use crate::histories::{compose, EDGES};
use crate::images::{header, needed, Fill, Image, HEADER, MAPPERS, PRG_BLOCK};
use crate::loads::by_the_paper;
use crate::original::{self, NoBoard, Original};
use crate::random::Random;
use crate::restore::{self, Irq};
use crate::shrink::Case;

pub const MAGIC: &[u8; 4] = b"BKR1";
const SEED: u64 = 5;
const LEAST: usize = 16_400;

/// A case with the answers to its load and its events.
pub struct Recorded {
    pub case: Case,
    pub load: Answer,
    pub answers: Vec<Answer>,
}

/// The original's answers to a case, up to its first panic. The number beside a panic is the paper's: the original has
/// none.
pub fn record(case: Case) -> Recorded {
    let Case { image, mut events } = case;
    let expected = by_the_paper(image.bytes.get());
    let (load, board) = match Original::load(&image.bytes) {
        Err(NoBoard::Error(refusal)) => (refusal, None),
        Ok(board) if expected == 0 => (0, Some(board)),
        // It panics, or makes a board that panics at reads: the paper's 6 or 7, which the original does not tell apart.
        _ => {
            assert!(matches!(expected, 262 | 263), "the original has no error for an image refused with {expected}");
            (expected, None)
        }
    };
    let answers = board.map_or(Vec::new(), |board| answers(board, image.mapper(), &events));
    events.truncate(answers.len());
    Recorded { case: Case { image, events }, load, answers }
}

fn answers(mut board: Original, mapper: u8, events: &[Event]) -> Vec<Answer> {
    let mut answers = Vec::new();
    for event in events {
        match board.call(event) {
            PANICKED => {
                answers.push(REFUSED + refusal(mapper, event));
                break;
            }
            answer => answers.push(answer),
        }
    }
    answers
}

/// The file's bytes.
pub fn encode(recorded: &[Recorded], headers: &[Vec<u8>]) -> Vec<u8> {
    let mut bytes = MAGIC.to_vec();
    put_u16(&mut bytes, recorded.len());
    for Recorded { case, load, answers } in recorded {
        bytes.extend_from_slice(&case.image.header);
        bytes.extend((case.image.length as u32).to_be_bytes());
        bytes.extend(load.to_be_bytes());
        put_u16(&mut bytes, case.events.len());
        for (event, answer) in case.events.iter().zip(answers) {
            bytes.extend(event.bytes());
            bytes.extend(answer.to_be_bytes());
        }
    }
    put_u16(&mut bytes, headers.len());
    for image in headers {
        let (answer, size) = original::read_header(image).map_or_else(|refused| (refused, 0), |(_, size)| (0, size));
        bytes.push(image.len() as u8);
        bytes.extend_from_slice(image);
        bytes.extend(answer.to_be_bytes());
        bytes.extend((size as u32).to_be_bytes());
    }
    bytes
}

fn put_u16(bytes: &mut Vec<u8>, number: usize) {
    let number = u16::try_from(number).expect("a count of at most 65,535");
    bytes.extend(number.to_be_bytes());
}

/// All cases of the sample.
pub fn cases() -> Vec<Case> {
    let mut cases = load_cases();
    for mapper in MAPPERS {
        cases.extend(edge_cases(mapper));
        cases.extend(random_cases(mapper));
    }
    cases.extend(nrom_cases());
    cases.extend(mmc1_cases());
    cases.extend(uxrom_cases());
    cases.extend(cnrom_cases());
    cases.extend(mmc3_cases());
    cases
}

fn image(mapper: u8, prg: u8, chr: u8, flags: u8) -> Image {
    Image::exact(header(mapper, prg, chr, flags), Fill::Banks)
}

fn case(image: &Image, events: impl IntoIterator<Item = Event>) -> Case {
    Case { image: image.clone(), events: events.into_iter().collect() }
}

/// Loads without events: every refusal at its limit, every mapper, every flag.
fn load_cases() -> Vec<Case> {
    let mut images = Vec::new();
    let mut add = |header: [u8; HEADER], length: usize| images.push(Image::new(header, length, Fill::Banks));
    for length in [0, 1, 15, 16, 17, LEAST - 1, LEAST, LEAST + 1] {
        add(header(0, 1, 0, 0), length);
    }
    for place in 0..4 {
        let mut damaged = header(0, 1, 0, 1);
        damaged[place] ^= 0x20;
        add(damaged, LEAST);
    }
    for mapper in (0..=16).chain([64, 128, 240]) {
        add(header(mapper, 1, 0, 0), LEAST);
    }
    for (mapper, flags) in [0, 1, 4, 5].into_iter().flat_map(|mapper| (1..16).map(move |flags| (mapper, flags))) {
        add(header(mapper, 1, 0, flags), LEAST);
    }
    for low in 1..16 {
        let mut nes2 = header(2, 1, 0, 1);
        nes2[7] |= low;
        add(nes2, LEAST);
    }
    for (mapper, prg, chr) in MAPPERS.into_iter().flat_map(|mapper| COUNTS.map(|(prg, chr)| (mapper, prg, chr))) {
        let header = header(mapper, prg, chr, 0);
        let whole = needed(&header);
        let prg_short = HEADER + PRG_BLOCK * usize::from(prg) - 1;
        for length in [whole, whole - 1, prg_short, LEAST].into_iter().filter(|&length| length < 60_000) {
            add(header, length.max(LEAST));
        }
    }
    images.sort_by_key(|image| (image.header, image.length));
    images.dedup_by_key(|image| (image.header, image.length));
    images.iter().map(|image| case(image, [])).collect()
}

const COUNTS: [(u8, u8); 9] = [(0, 0), (0, 1), (1, 0), (1, 1), (2, 0), (2, 1), (3, 0), (1, 3), (255, 255)];

/// Every edge of every window at the start, and a store at each before; each refusal a case of its own.
fn edge_cases(mapper: u8) -> Vec<Case> {
    let images = match mapper {
        0 | 3 => vec![image(mapper, 1, 0, 0), image(mapper, 2, 1, 1), image(mapper, 1, 1, 1)],
        _ => vec![image(mapper, 1, 0, 0), image(mapper, 2, 1, 1), image(mapper, 3, 2, 0)],
    };
    let mut cases = Vec::new();
    for image in &images {
        let trials = EDGES.into_iter().flat_map(|at| [read(at), write(at, 0x81 ^ at as u8)]);
        let (served, refused): (Vec<Event>, Vec<Event>) =
            trials.partition(|&event| record(case(image, [event])).answers[0] < REFUSED);
        cases.push(case(image, served.iter().copied().filter(|event| event.kind == Kind::Read)));
        let stored_and_read = served.iter().flat_map(|&event| [event, read(event.address)]);
        cases.push(case(image, stored_and_read.filter(|event| !refused.contains(event))));
        cases.extend(refused.into_iter().map(|event| case(image, [read(0xffff), event])));
    }
    cases
}

/// Random histories on small images, and on a few larger ones where more banks are there.
fn random_cases(mapper: u8) -> Vec<Case> {
    let shapes: &[(u8, u8)] = match mapper {
        0 => &[(1, 0), (2, 1)],
        1 => &[(1, 0), (2, 1), (2, 1), (8, 16)],
        2 => &[(1, 1), (2, 0), (2, 0), (16, 0)],
        3 => &[(1, 1), (2, 0), (2, 4), (2, 5)],
        _ => &[(1, 0), (2, 1), (2, 1), (8, 16)],
    };
    let mut random = Random::new(SEED, u64::from(mapper));
    let mut cases = Vec::new();
    for number in 0..24 {
        let (prg, chr) = shapes[number % shapes.len()];
        let image = image(mapper, prg, chr, random.byte() & 3);
        let mut events = Vec::new();
        compose(&mut random, &image, 70, &mut events);
        cases.push(Case { image, events });
    }
    cases
}

fn nrom_cases() -> Vec<Case> {
    let ram = image(0, 1, 0, 1);
    let places = [0x0000, 0x0001, 0x1ffe, 0x1fff, 0x2000, 0x6000, 0x7fff, 0x8000, 0xffff];
    let stores = places.into_iter().map(|at| write(at, at as u8 ^ 0x5a));
    vec![case(&ram, stores.chain(places.map(read)).chain([clock(), clock()]))]
}

fn uxrom_cases() -> Vec<Case> {
    let windows = [0x8000, 0xbfff, 0xc000, 0xffff].map(read);
    let bank = |value: u8| [write(0x8000 + 0x1111 * u16::from(value % 7), value)].into_iter().chain(windows);
    let mut cases = Vec::new();
    for (prg, chr) in [(1, 0), (2, 1), (5, 0), (16, 0)] {
        let image = image(2, prg, chr, 0);
        cases.push(case(&image, (0..prg).flat_map(bank)));
        for past in [prg, prg + 1, 0x80, 0xff] {
            cases.push(case(&image, [write(0xffff, past), read(0xc000), read(0x8000)]));
            cases.push(case(&image, [write(0x8000, past), read(0x0000), read(0xbfff)]));
        }
    }
    cases
}

fn cnrom_cases() -> Vec<Case> {
    let mut cases = Vec::new();
    for (prg, chr) in [(1, 0), (2, 1), (1, 3), (2, 4), (2, 5)] {
        let image = image(3, prg, chr, 1);
        let shown =
            |value: u8| [write(0x8000 | u16::from(value) << 7, value), read(0x0000), read(0x1fff), read(0xc000)];
        let there = (0..=255).step_by(17).filter(|value| value & 3 < chr.max(1));
        cases.push(case(&image, there.flat_map(shown)));
        cases.extend((chr.max(1)..4).map(|past| case(&image, [write(0xffff, past | 0xf0), read(0x1fff)])));
        let stores = [0x0000, 0x0fff, 0x1fff].into_iter().flat_map(|at| [write(at, 0x99), read(at)]);
        cases.push(case(&image, stores));
    }
    cases
}

fn serial(register: u16, value: u8) -> Vec<Event> {
    let mut events = Vec::new();
    restore::mmc1_load(register, value, &mut events);
    events
}

fn mmc1_cases() -> Vec<Case> {
    let windows = [0x0000, 0x0fff, 0x1000, 0x1fff, 0x8000, 0xbfff, 0xc000, 0xffff].map(read);
    let mut cases = Vec::new();
    // Every control value on both headers, one after the other and each seen through every window.
    for flags in [0, 1] {
        let image = image(1, 4, 2, flags);
        let controls = (0..32).flat_map(|value| serial(0x8000, value).into_iter().chain(windows));
        cases.push(case(&image, controls));
    }
    for (control, (prg, chr)) in (0..32).step_by(4).flat_map(|control| [(4, 2), (2, 0)].map(|shape| (control, shape))) {
        let image = image(1, prg, chr, 0);
        for (register, value) in [0xa000, 0xc000, 0xe000].into_iter().flat_map(|r| [1, 2, 3, 5, 31].map(|v| (r, v))) {
            let set = serial(0x8000, control).into_iter().chain(serial(register, value));
            cases.push(case(&image, set.chain(windows)));
        }
    }
    cases.extend(mmc1_serial_cases());
    cases
}

/// Sequences cut by a bit 7 write after each number of bits, and the register chosen by the fifth address.
fn mmc1_serial_cases() -> Vec<Case> {
    let image = image(1, 4, 2, 1);
    let mut cases = Vec::new();
    for bits in 0..5 {
        let cut = vec![write(0xe000, 1); bits].into_iter().chain([write(0x8000, 0x80 | bits as u8)]);
        let after = serial(0xe000, 2).into_iter().chain([read(0x8000), read(0xc000)]);
        cases.push(case(&image, cut.chain(after)));
    }
    for fifth in [0x8000, 0x9fff, 0xa000, 0xbfff, 0xc000, 0xdfff, 0xe000, 0xffff] {
        let four = [0xe000, 0xc000, 0xa000, 0x8000].map(|at| write(at, 0x7f));
        let seen = [0x0000, 0x1000, 0x8000, 0xc000].map(read);
        cases.extend([0, 1].map(|bit| case(&image, four.into_iter().chain([write(fifth, bit)]).chain(seen))));
    }
    cases
}

fn mmc3_cases() -> Vec<Case> {
    let chr_windows: Vec<Event> = (0..8).map(|slot| read(slot * 0x400 + 0x155)).collect();
    let prg_windows: Vec<Event> = (4..8).map(|slot| read(slot * 0x2000 + 0x0aaa)).collect();
    let mut cases = Vec::new();
    for (modes, select) in [0x00, 0x40, 0x80, 0xc0].into_iter().flat_map(|m| (0..8).map(move |s| (m, s))) {
        let image = image(4, 2, 1, select & 1);
        for value in [1, 3, 6, 0x41, 0xff] {
            let set = [write(0x8000, modes | select | 0x38), write(0x9fff, value)];
            let windows = if select < 6 { &chr_windows } else { &prg_windows };
            cases.push(case(&image, set.into_iter().chain(windows.iter().copied())));
        }
    }
    for flags in [0, 1] {
        let image = image(4, 1, 1, flags);
        let writes =
            [0xa000, 0xa001, 0xbffe, 0xbfff].into_iter().flat_map(|at| [0, 1, 2, 3, 255, 0].map(|v| write(at, v)));
        cases.push(case(&image, writes));
    }
    cases.extend(mmc3_irq_cases());
    cases
}

fn mmc3_irq_cases() -> Vec<Case> {
    let image = image(4, 1, 1, 0);
    let mut cases = Vec::new();
    for latch in [0, 1, 2, 3, 7, 100] {
        let start = [write(0xc000, latch), write(0xc001, 0), write(0xe001, 0)];
        let clocks = vec![clock(); 2 * usize::from(latch) + 5];
        cases.push(case(&image, start.into_iter().chain(clocks.clone())));
        // Enabled only later, and a new latch and mark in the middle.
        let late = [write(0xdffe, latch), write(0xdfff, 9), clock(), clock(), write(0xffff, 0), clock()];
        let again = [write(0xc000, 1), clock(), write(0xc001, 0), clock(), clock(), clock()];
        cases.push(case(&image, late.into_iter().chain(again).chain(clocks)));
    }
    let flags = [(false, false), (false, true), (true, false), (true, true)];
    for (counter, (enabled, reload)) in [0, 1, 2, 3, 255].into_iter().flat_map(|c| flags.map(|f| (c, f))) {
        let mut events = Vec::new();
        restore::mmc3_irq(Irq { latch: 4, counter, enabled, reload }, &mut events);
        events.extend([write(0xfffe, 0), clock(), clock(), write(0xe001, 0), clock(), clock()]);
        cases.push(Case { image: image.clone(), events });
    }
    cases
}

/// What the header reader is given.
pub fn headers() -> Vec<Vec<u8>> {
    let whole = header(4, 2, 1, 1).to_vec();
    let mut headers: Vec<Vec<u8>> = (0..=16).map(|length| whole[..length].to_vec()).collect();
    for place in 0..HEADER {
        let mut changed = whole.clone();
        changed[place] ^= 0xff;
        headers.push(changed);
    }
    for (prg, chr) in [(0, 0), (0, 255), (255, 0), (255, 255), (128, 64), (1, 1)] {
        let mut changed = header(0, prg, chr, 0);
        changed[8..].copy_from_slice(&[8, 9, 10, 11, 12, 13, 14, 255]);
        headers.push(changed.to_vec());
    }
    headers
}
