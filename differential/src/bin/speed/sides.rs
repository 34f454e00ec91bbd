//! What is timed: the original and the wrapper's adapter, both held as the original's bus holds a board, and the exported
//! calls.

use std::cell::{Cell, RefCell};
use std::ptr;
use std::rc::Rc;

use biekkarul::bus::BusBoard;
use biekkarul::{Board, Mode};
use differential::adapter::Proved;
use differential::events::{Event, Kind, REFUSED};
use differential::library::{self, RAM, STATE};
use nes::cartridge::{Cartridge, Mirroring};
use nes::mappers::Mapper;

pub trait Side {
    /// The sum of the answers to all events.
    fn play(&mut self, events: &[Event]) -> u64;
}

/// The value, which the compiler may no longer know: `std::hint::black_box`, which Rust 1.63 does not have yet.
#[inline]
fn black_box<T: Copy>(value: T) -> T {
    // SAFETY: the pointer is a reference to a value that lives until the end of this function, and `T` is `Copy`.
    unsafe { ptr::read_volatile(&value) }
}

/// A board as the original's bus holds it, which tells its notices to a callback; their letters are summed there.
pub struct Held {
    board: Rc<RefCell<dyn Mapper>>,
    notices: Rc<Cell<u64>>,
}

impl Held {
    pub fn original(image: &[u8]) -> Held {
        let cartridge = Cartridge::blow_dust_vec(image.to_vec()).expect("the image is loaded");
        Held::new(nes::board(cartridge))
    }

    pub fn wrapper(image: &[u8], mode: Mode) -> Held {
        let board = Board::load(image.to_vec(), mode).expect("the image is loaded");
        Held::new(Rc::new(RefCell::new(Proved(BusBoard::new(board)))))
    }

    fn new(board: Rc<RefCell<dyn Mapper>>) -> Held {
        let notices = Rc::new(Cell::new(0));
        let heard = Rc::clone(&notices);
        let told = move |mirroring: &Mirroring| heard.set(heard.get() + letter(mirroring));
        board.borrow_mut().on_runtime_mirroring(Box::new(told));
        Held { board, notices }
    }
}

impl Side for Held {
    fn play(&mut self, events: &[Event]) -> u64 {
        let mut sum = 0;
        self.notices.set(0);
        for event in events {
            match event.kind {
                Kind::Read => sum += u64::from(self.board.borrow().read8(black_box(event.address))),
                Kind::Write => self.board.borrow_mut().write8(event.value, black_box(event.address)),
                Kind::Clock => sum += u64::from(self.board.borrow_mut().irq()),
            }
        }
        sum + self.notices.get()
    }
}

fn letter(mirroring: &Mirroring) -> u64 {
    u64::from(match mirroring {
        Mirroring::Horizontal => b'H',
        Mirroring::Vertical => b'V',
        Mirroring::SingleScreenUpper => b'U',
        Mirroring::SingleScreenLower => b'L',
        Mirroring::HardwiredFourScreen => b'4',
    })
}

/// The exported calls, with the bytes that each is lent.
pub struct Calls {
    image: Vec<u8>,
    state: [u8; STATE],
    prg_ram: Vec<u8>,
    chr_ram: Vec<u8>,
}

impl Calls {
    pub fn new(image: &[u8], mode: Mode) -> Calls {
        let mut calls =
            Calls { image: image.to_vec(), state: [0; STATE], prg_ram: vec![0; RAM], chr_ram: vec![0; RAM] };
        let (prg_ram, chr_ram) = (&mut calls.prg_ram[..], &mut calls.chr_ram[..]);
        let answer = library::load(&calls.image, mode.number(), &mut calls.state, prg_ram, chr_ram);
        assert_eq!(answer, 0, "the image is loaded");
        calls
    }
}

impl Side for Calls {
    fn play(&mut self, events: &[Event]) -> u64 {
        let mut sum = 0;
        for event in events {
            let answer = match event.kind {
                Kind::Read => {
                    library::read(&self.state, &self.image, &self.prg_ram, &self.chr_ram, black_box(event.address))
                }
                Kind::Write => {
                    let (prg_ram, chr_ram) = (&mut self.prg_ram[..], &mut self.chr_ram[..]);
                    let (address, value) = (black_box(event.address), event.value);
                    library::write(&mut self.state, &self.image, prg_ram, chr_ram, address, value)
                }
                Kind::Clock => library::clock(&mut self.state),
            };
            debug_assert!(answer < REFUSED);
            sum += u64::from(answer);
        }
        sum
    }
}
