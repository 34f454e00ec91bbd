//! A board in the shape of potatis's bus, to stand where the emulator has its mappers.
//!
//! The methods have the names and parameters that the emulator calls. Its traits and its `Mirroring`
//! belong to it, so it implements the traits for a type of its own around [`BusBoard`], a line for each
//! method, and says which of its mirrorings each of ours is:
//!
//! ```
//! # mod mos6502 {
//! #     pub mod memory {
//! #         pub trait Bus {
//! #             fn read8(&self, address: u16) -> u8;
//! #             fn write8(&mut self, val: u8, address: u16);
//! #         }
//! #     }
//! # }
//! # mod nes {
//! #     pub mod cartridge {
//! #         #[derive(Clone, Copy, Debug, PartialEq)]
//! #         pub enum Mirroring {
//! #             Horizontal,
//! #             Vertical,
//! #             HardwiredFourScreen,
//! #             SingleScreenUpper,
//! #             SingleScreenLower,
//! #         }
//! #     }
//! #     pub mod mappers {
//! #         pub trait Mapper: crate::mos6502::memory::Bus {
//! #             fn on_runtime_mirroring(&mut self, _: Box<dyn FnMut(&super::cartridge::Mirroring)>) {}
//! #             fn irq(&mut self) -> bool {
//! #                 false
//! #             }
//! #         }
//! #     }
//! # }
//! use biekkarul::bus::BusBoard;
//! use biekkarul::{Board, Mode, Refusal};
//! use mos6502::memory::Bus;
//! use nes::cartridge::Mirroring;
//! use nes::mappers::Mapper;
//! use std::cell::{Cell, RefCell};
//! use std::rc::Rc;
//!
//! struct Proved(BusBoard);
//!
//! impl Bus for Proved {
//!     fn read8(&self, address: u16) -> u8 {
//!         self.0.read8(address)
//!     }
//!     fn write8(&mut self, val: u8, address: u16) {
//!         self.0.write8(val, address)
//!     }
//! }
//!
//! impl Mapper for Proved {
//!     fn irq(&mut self) -> bool {
//!         self.0.irq()
//!     }
//!     fn on_runtime_mirroring(&mut self, mut callback: Box<dyn FnMut(&Mirroring)>) {
//!         self.0
//!             .on_runtime_mirroring(Box::new(move |mirroring| callback(&theirs(*mirroring))));
//!     }
//! }
//!
//! fn theirs(mirroring: biekkarul::Mirroring) -> Mirroring {
//!     match mirroring {
//!         biekkarul::Mirroring::Horizontal => Mirroring::Horizontal,
//!         biekkarul::Mirroring::Vertical => Mirroring::Vertical,
//!         biekkarul::Mirroring::SingleScreenUpper => Mirroring::SingleScreenUpper,
//!         biekkarul::Mirroring::SingleScreenLower => Mirroring::SingleScreenLower,
//!     }
//! }
//!
//! # fn main() -> Result<(), Refusal> {
//! # let mut image = vec![0x4E, 0x45, 0x53, 0x1A, 1, 1, 0x41, 0];
//! # image.resize(16 + 16_384 + 8_192, 0);
//! let board = Board::load(image, Mode::House)?;
//! let screens = Rc::new(Cell::new(theirs(board.screens())));
//! let rom: Rc<RefCell<dyn Mapper>> = Rc::new(RefCell::new(Proved(BusBoard::new(board))));
//!
//! let turned = Rc::clone(&screens);
//! rom.borrow_mut()
//!     .on_runtime_mirroring(Box::new(move |mirroring| turned.set(*mirroring)));
//! rom.borrow_mut().write8(0x01, 0xA000);
//! assert_eq!(screens.get(), Mirroring::Horizontal);
//! # assert_eq!(rom.borrow().read8(0x8000), 0);
//! # assert!(!rom.borrow_mut().irq());
//! # Ok(())
//! # }
//! ```
//!
//! The example stands on its own, with traits of the same shape; `differential/src/adapter.rs` in
//! the repository has the same lines over potatis's own files, and its tests play histories through them.
//!
//! # Where potatis panics
//!
//! The bus has no room for a refusal in its answers. So the adapter keeps the first one for
//! [`BusBoard::refusal`], and the run is over: that call and every later one answer 0 or false, move
//! nothing and give no notice. The server asks after each frame, or at the end of the run, and does not
//! count a run that was refused.
//!
//! ```
//! # use biekkarul::{bus::BusBoard, Board, Mode, Refusal};
//! # let mut image = vec![0x4E, 0x45, 0x53, 0x1A, 2, 0, 0x20, 0];
//! # image.resize(16 + 2 * 16_384, 7);
//! let mut cartridge = BusBoard::new(Board::load(image, Mode::House)?);
//! assert_eq!(cartridge.read8(0x8000), 7);
//! cartridge.write8(2, 0x8000); // UxROM has banks 0 and 1 here
//! assert_eq!(cartridge.refusal(), None);
//! assert_eq!(cartridge.read8(0x8000), 0);
//! assert_eq!(cartridge.refusal(), Some(Refusal::BankPastData));
//! # Ok::<(), Refusal>(())
//! ```
//!
//! # A run that is taken up again
//!
//! [`BusBoard::snapshot`] keeps a run, and [`BusBoard::restore`] goes back to it in place: the callback stays
//! and is told how the screens then stand, since the emulator's picture unit does not know.
//!
//! # On other threads
//!
//! A `BusBoard` may be sent and cloned where its callback may. The boxed one of potatis may not;
//! [`BusBoard::with_callback`] takes one of any type:
//!
//! ```
//! use biekkarul::{bus::BusBoard, Board, Mirroring, Mode, Refusal};
//! use std::sync::atomic::{AtomicUsize, Ordering};
//! use std::sync::Arc;
//! use std::thread;
//!
//! # let mut image = vec![0x4E, 0x45, 0x53, 0x1A, 1, 1, 0x41, 0];
//! # image.resize(16 + 16_384 + 8_192, 0);
//! let turns = Arc::new(AtomicUsize::new(0));
//! let counted = Arc::clone(&turns);
//! let cartridge = BusBoard::with_callback(
//!     Board::load(image, Mode::Board)?,
//!     move |_: &Mirroring| {
//!         counted.fetch_add(1, Ordering::Relaxed);
//!     },
//! );
//! let mut copy = cartridge.clone();
//! thread::spawn(move || copy.write8(1, 0xA000)).join().unwrap();
//! assert_eq!(turns.load(Ordering::Relaxed), 1);
//! # Ok::<(), Refusal>(())
//! ```

use alloc::boxed::Box;
use alloc::vec::Vec;
use core::cell::Cell;
use core::fmt;

use crate::board::Board;
use crate::mirroring::Mirroring;
use crate::refusal::Refusal;
use crate::snapshot::{Snapshot, SnapshotError};

/// What potatis gives to be told of each notice.
pub type Callback = Box<dyn FnMut(&Mirroring)>;

/// A [`Board`] that is called as potatis calls its mappers. `C` is what is told of each notice.
#[derive(Clone)]
pub struct BusBoard<I = Vec<u8>, C = Callback> {
    board: Board<I>,
    callback: Option<C>,
    // A cell, since `read8` takes `&self`, as the emulator's does.
    refusal: Cell<Option<Refusal>>,
}

impl<I> BusBoard<I> {
    /// Puts a board on the bus; [`on_runtime_mirroring`](BusBoard::on_runtime_mirroring) may then set a
    /// callback.
    #[must_use]
    pub fn new(board: Board<I>) -> Self {
        BusBoard::over(board, None)
    }
}

impl<I, C> BusBoard<I, C> {
    fn over(board: Board<I>, callback: Option<C>) -> Self {
        BusBoard {
            board,
            callback,
            refusal: Cell::new(None),
        }
    }
}

impl<I: AsRef<[u8]>, C: FnMut(&Mirroring)> BusBoard<I, C> {
    /// Puts a board on the bus, with a callback of any type.
    #[must_use]
    pub fn with_callback(board: Board<I>, callback: C) -> Self {
        BusBoard::over(board, Some(callback))
    }

    /// The byte at an address, or 0 once a call was refused.
    #[inline]
    pub fn read8(&self, address: u16) -> u8 {
        if self.is_over() {
            return 0;
        }
        self.board.read(address).unwrap_or_else(|refusal| {
            self.end(refusal);
            0
        })
    }

    /// Writes a byte and tells the callback of a notice; nothing once a call was refused.
    ///
    /// Without a callback the notice goes nowhere; potatis would panic.
    #[inline]
    pub fn write8(&mut self, val: u8, address: u16) {
        if self.is_over() {
            return;
        }
        if !self.board.try_store(address, val) {
            self.write_anew(val, address);
        }
    }

    /// Apart from a byte that is only stored, which then needs no stack.
    #[inline(never)]
    fn write_anew(&mut self, val: u8, address: u16) {
        match self.board.write_anew(address, val) {
            Ok((None, _)) => (),
            Ok((Some(mirroring), _)) => self.tell(mirroring),
            Err(refusal) => self.end(refusal),
        }
    }

    /// One clock of the interrupt counter; false once a call was refused.
    ///
    /// In house mode the answer is whether an IRQ comes at this clock, as potatis answers. In board mode it is the
    /// level of the interrupt line after the clock, which stays up until an even write to E000-FFFF acknowledges
    /// it; [`Board::clock`] has how IRQs are then counted.
    #[inline]
    pub fn irq(&mut self) -> bool {
        if self.is_over() {
            return false;
        }
        self.board.clock().unwrap_or_else(|refusal| {
            self.end(refusal);
            false
        })
    }

    /// Whether the interrupt line is up, as [`Board::irq_line`] says it without a clock; false once a call was
    /// refused.
    ///
    /// ```
    /// # use biekkarul::{bus::BusBoard, Board, Mode, Refusal};
    /// # let mut image = vec![0x4E, 0x45, 0x53, 0x1A, 1, 1, 0x41, 0];
    /// # image.resize(16 + 16_384 + 8_192, 0);
    /// let mut cartridge = BusBoard::new(Board::load(image, Mode::Board)?); // MMC3
    /// cartridge.write8(1, 0xC000); // the latch
    /// cartridge.write8(0, 0xC001); // reload
    /// cartridge.write8(0, 0xE001); // enable
    /// assert_eq!([cartridge.irq(), cartridge.irq(), cartridge.irq()], [false, true, true]);
    /// assert!(cartridge.irq_line());
    ///
    /// cartridge.write8(0, 0xE000); // acknowledge
    /// assert!(!cartridge.irq_line());
    /// # Ok::<(), Refusal>(())
    /// ```
    #[must_use]
    pub fn irq_line(&self) -> bool {
        !self.is_over() && self.board.irq_line()
    }

    /// Sets what is told of each notice, in place of what was set before.
    ///
    /// It is not told how the screens stand now: [`Board::screens`] says that.
    pub fn on_runtime_mirroring(&mut self, callback: C) {
        self.callback = Some(callback);
    }

    /// Keeps the run, to be taken up again by [`restore`](BusBoard::restore).
    ///
    /// # Errors
    ///
    /// The refusal that the run ended with: such a run does not go on. The board that it left,
    /// [`board`](BusBoard::board) still gives.
    pub fn snapshot(&self) -> Result<Snapshot, Refusal> {
        match self.refusal() {
            None => Ok(self.board.snapshot()),
            Some(refusal) => Err(refusal),
        }
    }

    /// Goes back to a snapshot of the same image and mode, to a run without a refusal. The callback stays
    /// and is told of the mirroring that now holds, which is also the answer.
    ///
    /// # Errors
    ///
    /// Those of [`Board::restore`]. Then nothing has changed, the callback is told nothing, and a run that
    /// was over still is.
    pub fn restore(&mut self, snapshot: &Snapshot) -> Result<Mirroring, SnapshotError> {
        let mirroring = self.board.restore(snapshot)?;
        self.refusal.set(None);
        self.tell(mirroring);
        Ok(mirroring)
    }

    /// Switches the console off and on, as [`Board::power_cycle`] does. The callback is told of the
    /// mirroring that now holds, the header's, which is also the answer.
    ///
    /// # Errors
    ///
    /// The refusal that the run ended with: a power cycle is a part of the run. And those of
    /// [`Board::power_cycle`].
    pub fn power_cycle(&mut self) -> Result<Mirroring, Refusal> {
        if let Some(refusal) = self.refusal() {
            return Err(refusal);
        }
        let mirroring = self.board.power_cycle()?;
        self.tell(mirroring);
        Ok(mirroring)
    }

    /// The first refusal. From it on nothing has moved.
    #[must_use]
    pub fn refusal(&self) -> Option<Refusal> {
        self.refusal.get()
    }

    /// The board, to look at.
    #[must_use]
    pub fn board(&self) -> &Board<I> {
        &self.board
    }

    /// Takes the board off the bus, as it was before the first refusal if there was one.
    #[must_use]
    pub fn into_board(self) -> Board<I> {
        self.board
    }

    #[inline]
    fn is_over(&self) -> bool {
        let is_over = self.refusal.get().is_some();
        if is_over {
            seldom();
        }
        is_over
    }

    #[cold]
    fn end(&self, refusal: Refusal) {
        self.refusal.set(Some(refusal));
    }

    fn tell(&mut self, mirroring: Mirroring) {
        if let Some(callback) = &mut self.callback {
            callback(&mirroring);
        }
    }
}

impl<I, C> fmt::Debug for BusBoard<I, C> {
    fn fmt(&self, f: &mut fmt::Formatter<'_>) -> fmt::Result {
        f.debug_struct("BusBoard")
            .field("board", &self.board)
            .field("refusal", &self.refusal.get())
            .finish_non_exhaustive()
    }
}

/// Says to the compiler that the way to here is not the usual one.
#[cold]
#[inline]
fn seldom() {}
