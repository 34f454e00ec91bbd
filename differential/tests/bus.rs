//! The wrapper's adapter in the place of the original's mappers: behind the original's own traits, as its bus holds a
//! board, with the same calls on both.

use std::cell::RefCell;
use std::rc::Rc;

use biekkarul::bus::BusBoard;
use biekkarul::{Board, Mode};
use differential::adapter::Proved;
use differential::compare::refusal;
use differential::events::{Event, Kind, PANICKED};
use differential::histories;
use differential::images::{random_valid, Image, MAPPERS};
use differential::original::{silence_panics, Original};
use differential::random::Random;

const HISTORIES: u64 = 1_000;

/// The state and both RAMs.
fn kept(proved: &RefCell<Proved>) -> Vec<u8> {
    let proved = proved.borrow();
    let board = proved.0.board();
    [&board.state()[..], &board.prg_ram()[..], &board.chr_ram()[..]].concat()
}

/// What a board's histories came to.
#[derive(Default)]
struct Seen {
    calls: usize,
    notices: usize,
    interrupts: usize,
    refusals: usize,
}

/// One history on both, up to the first call at which the original panics.
fn play(image: &Image, events: &[Event], seen: &mut Seen) {
    let board = Board::load(image.bytes.get().to_vec(), Mode::House).expect("a valid image");
    let proved = Rc::new(RefCell::new(Proved(BusBoard::new(board))));
    let mut ours = Original::of(proved.clone());
    let mut original = Original::load(&image.bytes).expect("a valid image");
    for (number, event) in events.iter().enumerate() {
        let answer = original.call(event);
        if answer == PANICKED {
            let before = kept(&proved);
            for later in &events[number..] {
                assert_eq!(ours.call(later), 0, "{later} after a refusal");
            }
            let refused = proved.borrow().0.refusal().map(|refusal| u16::from(refusal.number()));
            assert_eq!(refused, Some(refusal(image.mapper(), event)), "{event}");
            assert!(kept(&proved) == before, "something moved after a refusal");
            seen.refusals += 1;
            return;
        }
        assert_eq!(ours.call(event), answer, "mapper {}, event {number}: {event}", image.mapper());
        seen.calls += 1;
        seen.notices += usize::from(event.kind == Kind::Write && answer != 0);
        seen.interrupts += usize::from(event.kind == Kind::Clock && answer != 0);
    }
    assert_eq!(proved.borrow().0.refusal(), None);
}

#[test]
fn the_adapter_takes_the_place_of_the_mappers() {
    silence_panics();
    for mapper in MAPPERS {
        let mut seen = Seen::default();
        let mut events = Vec::new();
        for history in 0..HISTORIES {
            let mut random = Random::new(31 + u64::from(mapper), history);
            let image = random_valid(&mut random, mapper);
            let length = 20 + random.below(500);
            histories::compose(&mut random, &image, length, &mut events);
            play(&image, &events, &mut seen);
        }
        let Seen { calls, notices, interrupts, refusals } = seen;
        assert!(calls > 20_000 && refusals > 50, "mapper {mapper}: {calls} calls, {refusals} refusals");
        assert_eq!(notices > 100, mapper == 1 || mapper == 4, "mapper {mapper}: {notices} notices");
        assert_eq!(interrupts > 100, mapper == 4, "mapper {mapper}: {interrupts} interrupts");
    }
}
