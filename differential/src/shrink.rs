//! Makes a failing case small: fewer events, a smaller image, plainer bytes. Whatever still fails is kept.

use crate::events::{Event, Kind};
use crate::images::{header, Fill, Image};

/// An image and what was played on it. Without events the load and the header reader are what fails.
#[derive(Clone)]
pub struct Case {
    pub image: Image,
    pub events: Vec<Event>,
}

/// A smaller case for which `fails` is still true, as it is for the given one.
pub fn shrink(case: &Case, fails: &mut dyn FnMut(&Case) -> bool) -> Case {
    let mut best = case.clone();
    shorten(&mut best, fails);
    if !best.events.is_empty() {
        shrink_image(&mut best, fails);
    }
    plain_fill(&mut best, fails);
    plain_events(&mut best, fails);
    shorten(&mut best, fails);
    best
}

/// Keeps `changed` if it still fails.
fn keep(best: &mut Case, changed: Case, fails: &mut dyn FnMut(&Case) -> bool) -> bool {
    let failed = fails(&changed);
    if failed {
        *best = changed;
    }
    failed
}

/// Takes out runs of events, long ones first, until none can go.
fn shorten(best: &mut Case, fails: &mut dyn FnMut(&Case) -> bool) {
    let mut run = best.events.len();
    while run > 0 {
        let mut from = 0;
        while from < best.events.len() {
            let mut changed = best.clone();
            changed.events.drain(from..(from + run).min(best.events.len()));
            if changed.events.is_empty() || !keep(best, changed, fails) {
                from += run;
            }
        }
        run /= 2;
    }
}

/// The smallest image that still fails, first of those that a trace can hold, with a plain header if possible.
fn shrink_image(best: &mut Case, fails: &mut dyn FnMut(&Case) -> bool) {
    let (prg, chr) = (best.image.header[4], best.image.header[5]);
    let sizes = [(1, 0), (1, 1), (2, 0), (2, 1), (prg, 0), (prg, 1), (1, chr), (2, chr), (prg, chr)];
    for (prg, chr) in sizes {
        let plain = header(best.image.mapper(), prg, chr, best.image.header[6] & 1);
        let image = Image::exact(plain, best.image.fill);
        if keep(best, Case { image, events: best.events.clone() }, fails) {
            return;
        }
    }
}

fn plain_fill(best: &mut Case, fails: &mut dyn FnMut(&Case) -> bool) {
    for fill in [Fill::Zero, Fill::Banks] {
        let image = Image::new(best.image.header, best.image.length, fill);
        if keep(best, Case { image, events: best.events.clone() }, fails) {
            return;
        }
    }
}

/// Plainer addresses and values, event by event.
fn plain_events(best: &mut Case, fails: &mut dyn FnMut(&Case) -> bool) {
    for number in 0..best.events.len() {
        for plainer in plainer(best.events[number]) {
            let mut changed = best.clone();
            changed.events[number] = plainer;
            if keep(best, changed, fails) {
                break;
            }
        }
    }
}

/// The event with its address at the start of its window, with its value 0 or 1 or a low one, plainest first.
fn plainer(event: Event) -> Vec<Event> {
    if event.kind == Kind::Clock {
        return Vec::new();
    }
    let addresses = [event.address & 0xe000, event.address & 0xe001, event.address & 0xfc00, event.address];
    let written = [0, 1, event.value & 0x81, event.value & 0x0f, event.value];
    let values = if event.kind == Kind::Write { &written[..] } else { &[0] };
    let all = addresses.into_iter().flat_map(|address| values.iter().map(move |&value| (address, value)));
    let before_itself = all.take_while(|&(address, value)| (address, value) != (event.address, event.value));
    before_itself.map(|(address, value)| Event { address, value, ..event }).collect()
}

#[cfg(test)]
mod tests {
    use super::*;
    use crate::events::{clock, read, write};

    #[test]
    fn keeps_what_fails() {
        let image = Image::exact(header(4, 8, 8, 1), Fill::Random(3));
        let mut events: Vec<Event> = (0..500).map(|n| read(n * 31)).collect();
        events.insert(120, write(0x9ff1, 0x77));
        events.insert(333, clock());
        let case = Case { image, events };
        let mut fails = |case: &Case| {
            let wrote = case.events.iter().position(|event| event.kind == Kind::Write && event.address & 1 == 1);
            let clocked = case.events.iter().position(|event| event.kind == Kind::Clock);
            matches!((wrote, clocked), (Some(a), Some(b)) if a < b)
        };
        let small = shrink(&case, &mut fails);
        assert_eq!(small.events, [write(0x8001, 0), clock()]);
        assert_eq!((small.image.prg(), small.image.chr(), small.image.fill), (1, 0, Fill::Zero));
    }
}
