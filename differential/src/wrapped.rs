//! Our side through the wrapper for Rust, which serves from pages: `biekkarul::Board` in house mode.

use biekkarul::{Board, Mode, Refusal};

use crate::events::{Answer, Event, Kind, REFUSED};
use crate::images::Bytes;
use crate::ours::Ours;

pub struct Wrapped {
    pub board: Board<Bytes>,
}

impl Wrapped {
    pub fn load(image: &Bytes) -> Result<Wrapped, Answer> {
        let board = Board::load(image.clone(), Mode::House).map_err(refused)?;
        Ok(Wrapped { board })
    }

    /// A board made of the state and the RAMs that the plain calls have led to.
    pub fn of(image: &Bytes, ours: &Ours) -> Result<Wrapped, Answer> {
        let (state, prg_ram, chr_ram) = (&ours.state[..], &ours.prg_ram[..], &ours.chr_ram[..]);
        let board = Board::from_parts(image.clone(), Mode::House, state, prg_ram, chr_ram).map_err(refused)?;
        Ok(Wrapped { board })
    }

    #[inline]
    pub fn call(&mut self, event: &Event) -> Answer {
        let answer = match event.kind {
            Kind::Read => self.board.read(event.address).map(Answer::from),
            Kind::Write => {
                let notice = self.board.write(event.address, event.value);
                notice.map(|notice| notice.map_or(0, |mirroring| mirroring.letter() as Answer))
            }
            Kind::Clock => self.board.clock().map(Answer::from),
        };
        answer.unwrap_or_else(refused)
    }
}

fn refused(refusal: Refusal) -> Answer {
    REFUSED + Answer::from(refusal.number())
}
