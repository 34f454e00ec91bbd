//! Our side once more, as a program in C would have it: reads and stores go by a map of the 64 pages, which is made anew
//! only where a write says that pages have moved. docs/ABI.md, "Pages".

use std::ops::Range;

use crate::events::{Answer, Event, Kind, REFUSED};
use crate::images::Bytes;
use crate::library::{self, RAM, STATE};
use crate::ours::HOUSE;
use crate::sabotage::Sabotage;

pub const PAGES: usize = 64;
const PAGE_LENGTH: u16 = 1_024;

/// The parts that a write may move: 0000-1FFF, and of reads 8000-FFFF.
pub const CHR: Range<usize> = 0..8;
pub const PRG: Range<usize> = 32..64;
const CHR_MOVED: u32 = 1 << 16;
const PRG_MOVED: u32 = 1 << 17;

pub const IMAGE: u32 = 0;
pub const PRG_RAM: u32 = 1;
pub const CHR_RAM: u32 = 2;
pub const NOWHERE: u32 = 3;
pub const REFUSAL: u32 = 4;
const CALL: u32 = 5;

pub fn kind(page: u32) -> u32 {
    page >> 28
}

pub fn offset(page: u32) -> usize {
    (page & 0x0fff_ffff) as usize
}

/// What stands for a page of a kind that none may have. No call answers this.
const NO_SUCH_PAGE: Answer = 0xfffe;

pub struct Mapped {
    image: Bytes,
    pub state: [u8; STATE],
    pub prg_ram: Box<[u8; RAM]>,
    pub chr_ram: Box<[u8; RAM]>,
    reads: [u32; PAGES],
    writes: [u32; PAGES],
    sabotage: Sabotage,
}

impl Mapped {
    pub fn load(image: &Bytes, sabotage: Sabotage) -> Result<Mapped, Answer> {
        let mut mapped = Mapped {
            image: image.clone(),
            state: [0; STATE],
            prg_ram: Box::new([0; RAM]),
            chr_ram: Box::new([0; RAM]),
            reads: [0; PAGES],
            writes: [0; PAGES],
            sabotage,
        };
        let (prg_ram, chr_ram) = (&mut mapped.prg_ram[..], &mut mapped.chr_ram[..]);
        match library::load(image.get(), HOUSE, &mut mapped.state, prg_ram, chr_ram) {
            0 => mapped.fill(0..PAGES, 0..PAGES).map(|()| mapped),
            refused => Err(refused),
        }
    }

    /// Asks for these pages of reads and of writes; both begin at the same one.
    fn fill(&mut self, reads: Range<usize>, writes: Range<usize>) -> Result<(), Answer> {
        let first = reads.start as u8;
        match library::pages(&self.state, first, &mut self.reads[reads], &mut self.writes[writes]) {
            0 => {
                self.sabotage.filled(&mut self.reads);
                Ok(())
            }
            refused => Err(refused),
        }
    }

    fn refill(&mut self, answer: u32) -> Result<(), Answer> {
        if answer & CHR_MOVED != 0 && self.sabotage != Sabotage::StaleChrPages {
            self.fill(CHR, CHR)?;
        }
        if answer & PRG_MOVED != 0 && self.sabotage != Sabotage::StalePrgPages {
            self.fill(PRG, PRG.start..PRG.start)?;
        }
        Ok(())
    }

    /// Whether the byte of this address is read from a RAM.
    #[inline]
    pub fn reads_ram(&self, address: u16) -> bool {
        matches!(kind(self.reads[page_of(address)]), PRG_RAM | CHR_RAM)
    }

    #[inline]
    pub fn read(&self, address: u16) -> Answer {
        let page = self.reads[page_of(address)];
        let at = offset(page) + within_page(address);
        match self.sabotage.read_kind(kind(page)) {
            IMAGE => self.image.get()[at].into(),
            PRG_RAM => self.prg_ram[at].into(),
            CHR_RAM => self.chr_ram[at].into(),
            NOWHERE => 0,
            REFUSAL => REFUSED + offset(page) as Answer,
            _ => NO_SUCH_PAGE,
        }
    }

    #[inline]
    pub fn write(&mut self, address: u16, value: u8) -> Answer {
        let page = self.writes[page_of(address)];
        let at = offset(page) + within_page(address);
        match self.sabotage.write_kind(kind(page)) {
            PRG_RAM | CHR_RAM if is_stored_by_the_call(address, value) => self.write_by_the_call(address, value),
            PRG_RAM => store(&mut self.prg_ram[at], value),
            CHR_RAM => store(&mut self.chr_ram[at], value),
            NOWHERE => 0,
            REFUSAL => REFUSED + offset(page) as Answer,
            CALL => self.write_by_the_call(address, value),
            _ => NO_SUCH_PAGE,
        }
    }

    fn write_by_the_call(&mut self, address: u16, value: u8) -> Answer {
        let (prg_ram, chr_ram) = (&mut self.prg_ram[..], &mut self.chr_ram[..]);
        let answer = library::write_moved(&mut self.state, self.image.get(), prg_ram, chr_ram, address, value);
        match self.refill(answer) {
            Ok(()) => answer as Answer,
            Err(refused) => refused,
        }
    }

    #[inline]
    pub fn clock(&mut self) -> Answer {
        library::clock(&mut self.state)
    }

    pub fn call(&mut self, event: &Event) -> Answer {
        match event.kind {
            Kind::Read => self.read(event.address),
            Kind::Write => self.write(event.address, event.value),
            Kind::Clock => self.clock(),
        }
    }
}

fn page_of(address: u16) -> usize {
    usize::from(address / PAGE_LENGTH)
}

fn within_page(address: u16) -> usize {
    usize::from(address % PAGE_LENGTH)
}

/// Every other byte of RAM is stored by the call and not through its page, so that each way reads what the other wrote.
fn is_stored_by_the_call(address: u16, value: u8) -> bool {
    (address ^ u16::from(value)) & 1 == 1
}

/// A store gives no notice.
fn store(byte: &mut u8, value: u8) -> Answer {
    *byte = value;
    0
}
