//! Proved NES cartridge boards, for a server in Rust.
//!
//! Header reading, image loading, and the boards NROM, MMC1, UxROM, CNROM and MMC3. Each answer comes
//! from a library whose every function is proved; this crate owns the buffers that it works on, and
//! turns its numbers into Rust types.
//!
//! ```
//! use biekkarul::{Board, Mode, Refusal};
//!
//! fn play(image: &[u8], saved_game: &[u8; 8192]) -> Result<u8, Refusal> {
//!     let mut board = Board::load(image, Mode::House)?;
//!     board.prg_ram_mut().copy_from_slice(saved_game);
//!     if let Some(mirroring) = board.write(0xA000, 0x01)? {
//!         println!("the screens turn: {mirroring:?}");
//!     }
//!     if board.clock()? {
//!         println!("an IRQ");
//!     }
//!     board.read(0x8000)
//! }
//! # let mut image = vec![0x4E, 0x45, 0x53, 0x1A, 1, 1, 0x41, 0];
//! # image.resize(16 + 16_384 + 8_192, 7);
//! # assert_eq!(play(&image, &[0; 8192]), Ok(7));
//! # assert_eq!(play(&image[1..], &[0; 8192]), Err(Refusal::ImageNotInes));
//! ```
//!
//! - [`Board`] is one cartridge in one [`Mode`], with its registers and both RAMs.
//! - [`Refusal`] says why a call was refused. A refused call has changed nothing.
//! - [`Snapshot`] keeps a board as bytes and knows its image and its mode again.
//! - [`Registers`] are what a board's registers hold; [`Digits`] are all that a state holds, as numbers.
//! - [`Page`] says where the bytes of 1 KB of addresses are; a board reads and stores through its pages, and
//!   shows them.
//! - [`bus`] has the same board in the shape of the emulator's bus.
//! - [`trace`] writes, reads and plays recorded traces.
//! - [`Header`] is the header alone.
//!
//! The default feature `std` makes the error types `std::error::Error`s. Without it the crate needs only
//! `core` and `alloc`.

#![cfg_attr(not(any(feature = "std", test)), no_std)]
#![deny(unsafe_code)]
#![warn(missing_docs)]

extern crate alloc;

mod board;
pub mod bus;
mod digits;
mod ffi;
mod header;
mod mirroring;
mod mode;
mod pages;
mod refusal;
mod registers;
mod snapshot;
pub mod trace;

pub use board::{Board, RAM_LENGTH, STATE_LENGTH};
pub use digits::{Digit, Digits, DIGITS};
pub use header::Header;
pub use mirroring::Mirroring;
pub use mode::{Mode, UnknownMode};
pub use pages::{Moved, Page, PAGES, PAGE_LENGTH};
pub use refusal::Refusal;
pub use registers::{Mmc1Registers, Mmc3Registers, Registers};
pub use snapshot::{image_hash, Snapshot, SnapshotError};
