//! Our side: a board of the exported library in house mode, with the buffers that it is lent.

use biekkarul::Digits;

use crate::events::{Answer, Event, Kind};
use crate::images::Bytes;
use crate::library::{self, RAM, STATE};
use crate::sabotage::Sabotage;

pub const HOUSE: u8 = 0;

pub struct Ours {
    image: Bytes,
    pub state: [u8; STATE],
    pub prg_ram: Box<[u8; RAM]>,
    pub chr_ram: Box<[u8; RAM]>,
    sabotage: Sabotage,
}

impl Ours {
    /// Buffers without a board: every call is refused until a load is accepted.
    pub fn new(sabotage: Sabotage) -> Ours {
        Ours {
            image: Bytes::new(Vec::new()),
            state: [0; STATE],
            prg_ram: Box::new([0; RAM]),
            chr_ram: Box::new([0; RAM]),
            sabotage,
        }
    }

    pub fn load(&mut self, image: &Bytes) -> Answer {
        self.image = image.clone();
        let answer = library::load(image.get(), HOUSE, &mut self.state, &mut self.prg_ram[..], &mut self.chr_ram[..]);
        self.sabotage.load(answer)
    }

    /// Lets go of the image, so that its bytes may be changed without a copy.
    pub fn unload(&mut self) {
        self.image = Bytes::new(Vec::new());
    }

    #[inline]
    pub fn read(&self, address: u16) -> Answer {
        let answer = library::read(&self.state, self.image.get(), &self.prg_ram[..], &self.chr_ram[..], address);
        self.sabotage.read(answer, address, &self.state)
    }

    #[inline]
    pub fn write(&mut self, address: u16, value: u8) -> Answer {
        let (prg_ram, chr_ram) = (&mut self.prg_ram[..], &mut self.chr_ram[..]);
        let answer = library::write(&mut self.state, self.image.get(), prg_ram, chr_ram, address, value);
        self.sabotage.write(answer, address, &mut self.state, prg_ram, chr_ram)
    }

    #[inline]
    pub fn clock(&mut self) -> Answer {
        let before = self.state;
        let answer = library::clock(&mut self.state);
        self.sabotage.clock(answer, &before)
    }

    /// What the state holds, once a load is accepted.
    pub fn digits(&self) -> Digits {
        Digits::of(&self.state).expect("a state that the library has made")
    }

    pub fn call(&mut self, event: &Event) -> Answer {
        match event.kind {
            Kind::Read => self.read(event.address),
            Kind::Write => self.write(event.address, event.value),
            Kind::Clock => self.clock(),
        }
    }
}

/// The header reader: bytes 4 to 15 of the image, or the number of its refusal.
pub fn header(image: &[u8], sabotage: Sabotage) -> Result<[u8; 12], Answer> {
    let mut fields = [0xa5; 12];
    match library::header(image, &mut fields) {
        0 => {
            sabotage.header(&mut fields);
            Ok(fields)
        }
        refused => {
            assert!(fields == [0xa5; 12], "a refused header reader left its buffer changed");
            Err(refused)
        }
    }
}
