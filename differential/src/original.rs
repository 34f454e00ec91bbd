//! The other side: the original's mapper, as its bus holds it, with its notices recorded and its panics caught.

use std::cell::{Cell, RefCell};
use std::panic::{self, AssertUnwindSafe};
use std::path::Path;
use std::rc::Rc;

use nes::cartridge::error::CartridgeError;
use nes::cartridge::{Cartridge, Header, MapperType, Mirroring, Rom};
use nes::mappers::Mapper;

use crate::events::{Answer, Event, Kind, PANICKED};
use crate::images::{header, Bytes, Fill, Image};

/// The image, lent to the original through its own trait.
pub struct SharedRom(Bytes);

impl Rom for SharedRom {
    fn len(&self) -> usize {
        self.0.get().len()
    }

    fn get(&self) -> &[u8] {
        self.0.get()
    }
}

/// Why the original made no board of an image.
#[derive(Debug, PartialEq, Eq)]
pub enum NoBoard {
    /// Its error, as the number of the refusal that stands for it.
    Error(Answer),
    PanickedAtConstruction,
}

/// What the original says of an image that it loads.
#[derive(Debug, PartialEq, Eq)]
pub struct Facts {
    pub mapper: u8,
    pub mirroring: u8,
    pub nes2: bool,
    pub prg_length: usize,
    pub chr_length: usize,
}

pub struct Original {
    board: Rc<RefCell<dyn Mapper>>,
    notice: Rc<Cell<Answer>>,
}

/// The original's panics are expected by the million; without this each would print a message. Its files are compiled
/// by absolute paths and this crate's by relative ones, so a fault of the harness itself is still told.
pub fn silence_panics() {
    panic::set_hook(Box::new(|panic| match panic.location() {
        Some(place) if Path::new(place.file()).is_relative() => eprintln!("{panic}"),
        _ => {}
    }));
}

/// Whether the original was built with overflow checks. Without PRG, UxROM's read of a place that is not mapped only
/// panics because it works out the number of the last bank.
pub fn has_overflow_checks() -> bool {
    let without_prg = Image::new(header(2, 0, 0, 0), 16_400, Fill::Zero);
    Original::load(&without_prg.bytes).map(|board| board.read(0x4000)) == Ok(PANICKED)
}

fn caught<T>(call: impl FnOnce() -> T) -> Option<T> {
    // What the closure reaches is either dropped after a panic or, for a read, cannot have been changed by it.
    panic::catch_unwind(AssertUnwindSafe(call)).ok()
}

fn cartridge(image: &Bytes) -> Result<Cartridge<SharedRom>, NoBoard> {
    match caught(|| Cartridge::load(SharedRom(image.clone()))) {
        None => Err(NoBoard::PanickedAtConstruction),
        Some(Err(error)) => Err(NoBoard::Error(load_refusal(&error))),
        Some(Ok(cartridge)) => Ok(cartridge),
    }
}

impl Original {
    pub fn load(image: &Bytes) -> Result<Original, NoBoard> {
        let cartridge = cartridge(image)?;
        let board = caught(|| nes::board(cartridge)).ok_or(NoBoard::PanickedAtConstruction)?;
        Ok(Original::of(board))
    }

    /// A board as the original's bus holds it, with its notices recorded.
    pub fn of(board: Rc<RefCell<dyn Mapper>>) -> Original {
        let notice = Rc::new(Cell::new(0));
        let heard = Rc::clone(&notice);
        board.borrow_mut().on_runtime_mirroring(Box::new(move |mirroring| heard.set(letter(mirroring))));
        Original { board, notice }
    }

    #[inline]
    pub fn read(&self, address: u16) -> Answer {
        caught(|| self.board.borrow().read8(address)).map_or(PANICKED, Answer::from)
    }

    #[inline]
    pub fn write(&mut self, address: u16, value: u8) -> Answer {
        self.notice.set(0);
        match caught(|| self.board.borrow_mut().write8(value, address)) {
            None => PANICKED,
            Some(()) => self.notice.get(),
        }
    }

    #[inline]
    pub fn clock(&mut self) -> Answer {
        caught(|| self.board.borrow_mut().irq()).map_or(PANICKED, Answer::from)
    }

    pub fn call(&mut self, event: &Event) -> Answer {
        match event.kind {
            Kind::Read => self.read(event.address),
            Kind::Write => self.write(event.address, event.value),
            Kind::Clock => self.clock(),
        }
    }
}

/// What the original's cartridge tells of an image. Nothing where it gives an error or panics.
pub fn facts(image: &Bytes) -> Option<Facts> {
    let cartridge = cartridge(image).ok()?;
    caught(|| Facts {
        mapper: match cartridge.mapper_type() {
            MapperType::Nrom => 0,
            MapperType::Mmc1 => 1,
            MapperType::Uxrom => 2,
            MapperType::Cnrom => 3,
            MapperType::Mmc3 => 4,
        },
        mirroring: match cartridge.mirroring() {
            Mirroring::Horizontal => 0,
            Mirroring::Vertical => 1,
            other => panic!("a header cannot ask for {other:?}"),
        },
        // The format is private; it is the first word of the cartridge's text.
        nes2: cartridge.to_string().starts_with("[Nes2]"),
        prg_length: cartridge.prg().len(),
        chr_length: cartridge.chr().len(),
    })
}

/// The original's header reader: bytes 4 to 15 and the size of the data, or the number of the refusal that stands for
/// its error.
pub fn read_header(image: &[u8]) -> Result<(String, usize), Answer> {
    match Header::parse(image) {
        // The fields are private; the debug text shows them all.
        Ok(header) => Ok((format!("{header:?}"), header.total_size_excluding_header())),
        Err(CartridgeError::InvalidCartridge("strange size")) => Err(257),
        Err(CartridgeError::InvalidCartridge("magic")) => Err(258),
        Err(_) => Err(PANICKED),
    }
}

/// The number of the refusal that stands for an error of the original's load. 0 is none of them.
fn load_refusal(error: &CartridgeError) -> Answer {
    match error {
        CartridgeError::InvalidCartridge("strange size") => 256 + 3,
        CartridgeError::NotYetImplemented(what) if what.starts_with("Mapper ") => 256 + 4,
        CartridgeError::NotYetImplemented(what) if what == "Trainer" => 256 + 5,
        _ => 0,
    }
}

fn letter(mirroring: &Mirroring) -> Answer {
    let letter = match mirroring {
        Mirroring::Horizontal => b'H',
        Mirroring::Vertical => b'V',
        Mirroring::SingleScreenUpper => b'U',
        Mirroring::SingleScreenLower => b'L',
        Mirroring::HardwiredFourScreen => b'4',
    };
    Answer::from(letter)
}
