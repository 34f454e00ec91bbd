//! Which images the loads and the header reader are tried on.

use crate::images::{header, needed, Bytes, Fill, Image, GREATEST, HEADER, MAPPERS, PRG_BLOCK};
use crate::random::Random;
use crate::worker::{Job, Outcome, Worker};

const LEAST: usize = HEADER + PRG_BLOCK;

/// Counts at their limits.
const LIMITS: [u8; 9] = [0, 1, 2, 3, 127, 128, 129, 254, 255];

pub fn jobs() -> Vec<Job> {
    vec![
        Box::new(damaged_magic),
        Box::new(short_headers),
        Box::new(every_header_byte),
        Box::new(every_flag),
        Box::new(|worker| counts(worker, 0..=255, &LIMITS)),
        Box::new(every_chr_count),
    ]
}

/// A few of them, for tests of the harness itself.
pub fn quick_jobs() -> Vec<Job> {
    vec![
        Box::new(damaged_magic),
        Box::new(short_headers),
        Box::new(every_header_byte),
        Box::new(|worker| counts(worker, 0..=3, &[0, 1, 255])),
    ]
}

/// One long stretch of bytes under one header after another, with no copy in between.
struct Stretch {
    bytes: Bytes,
}

impl Stretch {
    fn new(length: usize) -> Stretch {
        Stretch { bytes: Image::new([0; HEADER], length, Fill::Zero).bytes }
    }

    fn compare(&mut self, worker: &mut Worker, header: [u8; HEADER], length: usize) -> Outcome {
        let bytes = std::mem::replace(&mut self.bytes, Bytes::new(Vec::new()));
        let image = Image { header, length, fill: Fill::Zero, bytes: bytes.with(&header, length) };
        let outcome = worker.compare_image(&image);
        self.bytes = image.bytes;
        outcome
    }
}

/// Each byte of the magic with each value, at lengths around the least.
fn damaged_magic(worker: &mut Worker) -> Outcome {
    let mut stretch = Stretch::new(LEAST + 1);
    for (place, value) in (0..4).flat_map(|place| (0..=255).map(move |value| (place, value))) {
        let mut header = header(0, 1, 0, 0);
        header[place] = value;
        for length in [HEADER, LEAST - 1, LEAST, LEAST + 1] {
            stretch.compare(worker, header, length)?;
        }
    }
    Ok(())
}

/// Every length up to a little more than a header, and some on the way to the least.
fn short_headers(worker: &mut Worker) -> Outcome {
    let mut stretch = Stretch::new(LEAST + 1);
    for length in (0..40).chain([100, 8_192, 16_384, LEAST - 2, LEAST - 1, LEAST, LEAST + 1]) {
        stretch.compare(worker, header(0, 1, 0, 1), length)?;
        stretch.compare(worker, header(9, 1, 0, 12), length)?;
        stretch.compare(worker, [0; HEADER], length)?;
    }
    Ok(())
}

/// Each byte of the header with each value, others at random.
fn every_header_byte(worker: &mut Worker) -> Outcome {
    let mut random = Random::new(11, 0);
    let mut stretch = Stretch::new(GREATEST);
    for (place, value) in (4..HEADER).flat_map(|place| (0..=255).map(move |value| (place, value))) {
        let mut header = header(random.below(5) as u8, 1 + random.below(2) as u8, random.byte(), random.byte() & 3);
        for byte in &mut header[8..] {
            *byte = random.byte();
        }
        header[place] = value;
        stretch.compare(worker, header, needed(&header).max(LEAST))?;
    }
    Ok(())
}

/// Every pair of bytes 6 and 7: every mapper number, every flag.
fn every_flag(worker: &mut Worker) -> Outcome {
    let mut stretch = Stretch::new(LEAST + 8_192);
    for (flags_6, flags_7) in (0..=255).flat_map(|six| (0..=255).map(move |seven| (six, seven))) {
        let chr = flags_6 & 1;
        let mut header = header(0, 1, chr, 0);
        header[6] = flags_6;
        header[7] = flags_7;
        stretch.compare(worker, header, LEAST + 8_192 * usize::from(chr))?;
    }
    Ok(())
}

/// These PRG counts with these CHR counts on each board: whole, a byte more, a byte less, PRG a byte short, the least.
fn counts(worker: &mut Worker, prg_counts: std::ops::RangeInclusive<u8>, chr_counts: &[u8]) -> Outcome {
    let mut stretch = Stretch::new(GREATEST + 1);
    for prg in prg_counts {
        for (&chr, mapper) in chr_counts.iter().flat_map(|chr| MAPPERS.map(|mapper| (chr, mapper))) {
            let header = header(mapper, prg, chr, prg & 1);
            let whole = needed(&header);
            let prg_end = HEADER + PRG_BLOCK * usize::from(prg);
            for length in [whole, whole + 1, whole - 1, prg_end, prg_end - 1, LEAST] {
                stretch.compare(worker, header, length)?;
            }
        }
    }
    Ok(())
}

fn every_chr_count(worker: &mut Worker) -> Outcome {
    let all: Vec<u8> = (0..=255).collect();
    for prg in LIMITS {
        counts(worker, prg..=prg, &all)?;
    }
    Ok(())
}

/// Images with any header and any length, most of them damaged in one or two ways.
pub fn random_images(worker: &mut Worker, random: &mut Random) -> Outcome {
    let mut stretch = Stretch::new(GREATEST + 1);
    for _ in 0..64 {
        let mappers = if random.once_in(4) { 16 } else { 5 };
        let mapper = random.below(mappers) as u8;
        let flags = if random.once_in(4) { random.byte() } else { random.byte() & 3 };
        let (prg, chr) = (random.byte() >> random.below(8), random.byte() >> random.below(8));
        let mut header = header(mapper, prg, chr, flags);
        for byte in &mut header[8..] {
            *byte = random.byte();
        }
        if random.once_in(16) {
            header[random.below(4)] ^= 1 << random.below(8);
        }
        let whole = needed(&header);
        let length = match random.below(6) {
            0 => whole - 1,
            1 => whole - random.below(whole),
            2 => (whole + random.below(1_000)).min(GREATEST + 1),
            _ => whole,
        };
        stretch.compare(worker, header, length)?;
    }
    Ok(())
}
