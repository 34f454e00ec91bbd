//! A worker plays histories on both sides, and tells the case on which they part.

use crate::compare::{Mismatch, Pair, Sides};
use crate::events::Event;
use crate::images::Image;
use crate::loads;
use crate::sabotage::Sabotage;
use crate::shrink::Case;
use crate::tally::Tally;

/// A case on which the two sides part.
#[derive(Clone)]
pub struct Failure {
    pub case: Case,
    pub mismatch: Mismatch,
}

pub type Outcome = Result<(), Box<Failure>>;

/// A piece of work that any worker may take.
pub type Job = Box<dyn Fn(&mut Worker) -> Outcome + Send + Sync>;

/// One thread's boards, counts and room for events.
pub struct Worker {
    pair: Pair,
    pub events: Vec<Event>,
    pub tally: Tally,
    pub sabotage: Sabotage,
    /// On which sides of ours the next histories are played.
    pub sides: Sides,
}

impl Worker {
    pub fn new(sabotage: Sabotage) -> Worker {
        let (pair, tally) = (Pair::new(sabotage), Tally::default());
        Worker { pair, events: Vec::new(), tally, sabotage, sides: Sides::PagesToo }
    }

    /// Plays `self.events` on a new board of this image; answers how many were played.
    pub fn play_events(&mut self, image: &Image) -> Result<usize, Box<Failure>> {
        self.pair.play(image, &self.events, self.sides, &mut self.tally).map_err(|mismatch| {
            let mut events = self.events.clone();
            if let Some(last) = mismatch.event {
                events.truncate(last + 1);
            }
            Box::new(Failure { case: Case { image: image.clone(), events }, mismatch })
        })
    }

    /// The header reader and the load of an image, refused or not.
    pub fn compare_image(&mut self, image: &Image) -> Outcome {
        loads::compare_image(image, self.sabotage, &mut self.tally)
            .map_err(|mismatch| Box::new(Failure { case: Case { image: image.clone(), events: Vec::new() }, mismatch }))
    }
}

/// What is wrong with a case, if anything.
pub fn check(case: &Case, sabotage: Sabotage) -> Option<Mismatch> {
    let mut tally = Tally::default();
    if let Err(mismatch) = loads::compare_image(&case.image, sabotage, &mut tally) {
        return Some(mismatch);
    }
    let accepted = loads::by_the_paper(case.image.bytes.get()) == 0;
    let played = accepted.then(|| Pair::new(sabotage).play(&case.image, &case.events, Sides::PagesToo, &mut tally));
    played.and_then(Result::err)
}
