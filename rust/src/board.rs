//! One cartridge board with all that it holds.

use alloc::boxed::Box;
use alloc::vec::Vec;
use core::fmt;

use crate::digits::{Digit, Digits};
use crate::ffi;
use crate::mirroring::Mirroring;
use crate::mode::Mode;
use crate::pages::{self, Memory, Moved, Page, PageMap, PAGES};
use crate::refusal::{accepted, foreign, Refusal};
use crate::registers::Registers;
use crate::snapshot::{image_hash, Snapshot, SnapshotError};

/// The length of PRG RAM and of CHR RAM, in bytes.
pub const RAM_LENGTH: usize = 8_192;

/// The length of a board's state, in bytes; docs/ABI.md has the layout.
pub const STATE_LENGTH: usize = 40;

/// A cartridge board: the image, the registers, PRG RAM and CHR RAM.
///
/// `I` is how the image is held. [`Board::load`] takes anything that gives bytes, so the board owns the
/// image (`Vec<u8>`), borrows it (`&[u8]`) or shares it with other boards (`Arc<[u8]>`):
///
/// ```
/// use biekkarul::{Board, Mode, Refusal};
/// use std::sync::Arc;
///
/// let mut image = b"NES\x1A\x01\x00\0\0\0\0\0\0\0\0\0\0".to_vec(); // NROM, one PRG block
/// image.resize(16 + 16_384, 0xEA);
///
/// let borrowing = Board::load(&image[..], Mode::House)?;
/// let sharing: Board<Arc<[u8]>> = Board::load(image.clone().into(), Mode::Board)?;
/// let owning: Board = Board::load(image.clone(), Mode::House)?;
/// for answer in [borrowing.read(0x8000), sharing.read(0x8000), owning.read(0x8000)] {
///     assert_eq!(answer, Ok(0xEA));
/// }
/// # Ok::<(), Refusal>(())
/// ```
///
/// Every call that is refused leaves the board and both RAMs as they were. A clone goes on from the same
/// point. Boards on several threads do not meet: the library has no state of its own.
///
/// A board keeps where the bytes of each 1 KB of its addresses are ([`read_pages`](Board::read_pages)), as the
/// library said it: most reads and stores then make no call. The answers are the same with or without.
///
/// Two boards are equal when their images, registers, RAMs and screens are, however each holds its image:
/// then the same calls get the same answers from both.
#[derive(Clone)]
pub struct Board<I = Vec<u8>> {
    image: I,
    // What the load found, since an image of another length is refused at each read and write.
    image_length: usize,
    state: [u8; STATE_LENGTH],
    memory: Memory,
    // No part of what a board is: it follows from the state.
    pages: PageMap,
    // Kept beside the state: in house mode that holds the header's mirroring only.
    last_notice: Option<Mirroring>,
}

impl<I: AsRef<[u8]>> Board<I> {
    /// Loads an image, header included. Both RAMs start as zeros.
    ///
    /// The bytes that `image` gives must not change while the board has it; `Vec<u8>`, `&[u8]`,
    /// `Box<[u8]>` and `Arc<[u8]>` hold to that by themselves. Bytes of another length are refused with
    /// 10 at each read and write.
    ///
    /// # Errors
    ///
    /// The first that applies of 3, 4, 5, 6, 7, and in board mode 8; there 16, between 5 and 6, is for an
    /// image that is marked NES 2.0. To keep an image that is refused, lend it.
    ///
    /// # Panics
    ///
    /// Where the linked library is of another version than the wrapper; the build refuses such a one, so
    /// it was linked by other means.
    pub fn load(image: I, mode: Mode) -> Result<Self, Refusal> {
        let mut state = [0; STATE_LENGTH];
        let mut memory = Memory::cleared();
        let (prg_ram, chr_ram) = memory.rams_mut();
        let bytes = image.as_ref();
        let image_length = bytes.len();
        accepted(ffi::load(
            bytes,
            mode.number(),
            &mut state,
            prg_ram,
            chr_ram,
        ))?;
        Ok(Board {
            image,
            image_length,
            state,
            memory,
            pages: PageMap::unknown(),
            last_notice: None,
        })
    }

    /// Makes a board of the bytes that [`state`](Board::state), [`prg_ram`](Board::prg_ram) and
    /// [`chr_ram`](Board::chr_ram) gave, with the image and in the mode that it was loaded with. A
    /// [`Snapshot`] keeps all of these in one, and the last notice as well, which a house board's state
    /// does not hold: here its [`screens`](Board::screens) are the header's.
    ///
    /// # Errors
    ///
    /// The first that applies: 9 for a RAM of another length; 10 for a state that no board could have, also
    /// one of another length or version; those of [`load`](Board::load), as the image is loaded again; 10
    /// for a state of another image's cartridge or of the other mode. Bytes of PRG and CHR data are not
    /// compared.
    ///
    /// ```
    /// use biekkarul::{Board, Mode, Refusal};
    ///
    /// let mut image = vec![0x4E, 0x45, 0x53, 0x1A, 1, 1, 0x41, 0];
    /// image.resize(16 + 16_384 + 8_192, 0);
    /// let mut board = Board::load(&image[..], Mode::Board)?;
    /// board.write(0x6000, 0x2A)?;
    ///
    /// let kept = (board.state(), *board.prg_ram(), *board.chr_ram());
    /// let again = Board::from_parts(&image[..], Mode::Board, &kept.0, &kept.1, &kept.2)?;
    /// assert_eq!(again, board);
    ///
    /// let other_mode = Board::from_parts(&image[..], Mode::House, &kept.0, &kept.1, &kept.2);
    /// assert_eq!(other_mode.unwrap_err(), Refusal::StateOutOfRange);
    /// let wrong = Board::from_parts(&image[..], Mode::Board, &[0xFF; 40], &kept.1, &kept.2);
    /// assert_eq!(wrong.unwrap_err(), Refusal::StateOutOfRange);
    /// # Ok::<(), Refusal>(())
    /// ```
    pub fn from_parts(
        image: I,
        mode: Mode,
        state: &[u8],
        prg_ram: &[u8],
        chr_ram: &[u8],
    ) -> Result<Self, Refusal> {
        let prg_ram = <[u8; RAM_LENGTH]>::try_from(prg_ram).map_err(|_| Refusal::RamNot8K)?;
        let chr_ram = <[u8; RAM_LENGTH]>::try_from(chr_ram).map_err(|_| Refusal::RamNot8K)?;
        let state = <[u8; STATE_LENGTH]>::try_from(state).map_err(|_| Refusal::StateOutOfRange)?;
        let kept = Digits::of(&state)?;
        let mut board = Board::load(image, mode)?;
        if !kept.same_cartridge(&board.digits()) {
            return Err(Refusal::StateOutOfRange);
        }
        board.replace(state, &prg_ram, &chr_ram);
        board.last_notice = kept.turned_to();
        Ok(board)
    }

    /// All that goes with this board but its image: to be kept as bytes, and taken up again by
    /// [`restore`](Board::restore) or [`from_snapshot`](Board::from_snapshot).
    pub fn snapshot(&self) -> Snapshot {
        Snapshot {
            image_hash: image_hash(self.image()),
            mode: self.mode(),
            last_notice: self.last_notice,
            state: self.state,
            prg_ram: Box::new(*self.prg_ram()),
            chr_ram: Box::new(*self.chr_ram()),
        }
    }

    /// Takes a snapshot up in a board of its image and mode. The answer is the mirroring that now holds,
    /// for the screens to be turned to it.
    ///
    /// # Errors
    ///
    /// A snapshot of another image or of the other mode, and one whose state no board of this image could
    /// have. The board then is as it was.
    ///
    /// ```
    /// use biekkarul::{Board, Mirroring, Mode};
    ///
    /// # let mut image = vec![0x4E, 0x45, 0x53, 0x1A, 1, 1, 0x41, 0];
    /// # image.resize(16 + 16_384 + 8_192, 0);
    /// let mut board = Board::load(image, Mode::House)?; // MMC3, vertical
    /// board.write(0xA000, 1)?;
    /// let kept = board.snapshot();
    ///
    /// board.power_cycle()?;
    /// assert_eq!(board.screens(), Mirroring::Vertical);
    /// assert_eq!(board.restore(&kept)?, Mirroring::Horizontal);
    /// # Ok::<(), Box<dyn std::error::Error>>(())
    /// ```
    pub fn restore(&mut self, snapshot: &Snapshot) -> Result<Mirroring, SnapshotError> {
        snapshot.check(self.image(), self.mode())?;
        self.take_up(snapshot)
    }

    /// Loads an image and takes a snapshot up in it.
    ///
    /// # Errors
    ///
    /// Those of [`restore`](Board::restore), and the refusal of an image that cannot be loaded. To keep the
    /// image then, lend it.
    pub fn from_snapshot(image: I, mode: Mode, snapshot: &Snapshot) -> Result<Self, SnapshotError> {
        snapshot.check(image.as_ref(), mode)?;
        let mut board = Board::load(image, mode).map_err(SnapshotError::ImageRefused)?;
        board.take_up(snapshot)?;
        Ok(board)
    }

    fn take_up(&mut self, snapshot: &Snapshot) -> Result<Mirroring, SnapshotError> {
        if !snapshot.digits().same_cartridge(&self.digits()) {
            return Err(SnapshotError::ImpossibleState);
        }
        self.replace(snapshot.state, &snapshot.prg_ram, &snapshot.chr_ram);
        self.last_notice = snapshot.last_notice;
        Ok(self.screens())
    }

    /// The console is switched off and on: every register is as the load left it, CHR RAM is cleared, and
    /// PRG RAM, locked or not, keeps what the game saved. The answer is the mirroring that now holds, which is
    /// the header's.
    ///
    /// # Errors
    ///
    /// Those of [`load`](Board::load), where the bytes of the image have changed since; nothing has moved.
    ///
    /// ```
    /// use biekkarul::{Board, Mirroring, Mode, Refusal};
    ///
    /// # let mut image = vec![0x4E, 0x45, 0x53, 0x1A, 1, 0, 0x11, 0];
    /// # image.resize(16 + 16_384, 0);
    /// let mut board = Board::load(image, Mode::Board)?; // MMC1 with CHR RAM, vertical
    /// let fresh = board.state();
    /// board.write(0x6000, 0x2A)?;
    /// board.write(0x0000, 0x2B)?;
    /// board.write(0x8000, 1)?; // one bit into the serial register
    ///
    /// assert_eq!(board.power_cycle()?, Mirroring::Vertical);
    /// assert_eq!(board.state(), fresh);
    /// assert_eq!((board.read(0x6000)?, board.read(0x0000)?), (0x2A, 0));
    /// # Ok::<(), Refusal>(())
    /// ```
    pub fn power_cycle(&mut self) -> Result<Mirroring, Refusal> {
        let mode = self.mode().number();
        // A load clears both RAMs that it is lent, so it is lent another one for PRG RAM.
        let mut cleared = [0; RAM_LENGTH];
        let (_, chr_ram) = self.memory.rams_mut();
        let bytes = self.image.as_ref();
        let image_length = bytes.len();
        accepted(ffi::load(
            bytes,
            mode,
            &mut self.state,
            &mut cleared,
            chr_ram,
        ))?;
        self.image_length = image_length;
        self.pages = PageMap::unknown();
        self.last_notice = None;
        Ok(self.screens())
    }

    /// The byte at an address: 0000-1FFF for the picture unit, above it for the processor.
    ///
    /// # Errors
    ///
    /// In house mode refused with 11 or 13 where potatis panics.
    #[inline]
    pub fn read(&self, address: u16) -> Result<u8, Refusal> {
        match self.byte_at(address) {
            Some(byte) => Ok(byte),
            None => self.read_anew(address),
        }
    }

    /// The byte at an address, where its page says where it is.
    #[inline]
    fn byte_at(&self, address: u16) -> Option<u8> {
        let image = self.image.as_ref();
        if image.len() != self.image_length {
            return None;
        }
        self.pages.read(image, &self.memory, address)
    }

    /// The pages of the address are learnt, or else the call is made, which says the refusal.
    #[cold]
    #[inline(never)]
    fn read_anew(&self, address: u16) -> Result<u8, Refusal> {
        if self.pages.learn_reads(&self.state, address) {
            if let Some(byte) = self.byte_at(address) {
                return Ok(byte);
            }
        }
        self.read_by_call(address)
    }

    /// The exported read, which judges all that it is lent.
    pub(crate) fn read_by_call(&self, address: u16) -> Result<u8, Refusal> {
        accepted(ffi::read(
            &self.state,
            self.image.as_ref(),
            self.prg_ram(),
            self.chr_ram(),
            address,
        ))
    }

    /// Writes a byte. The answer is the mirroring that this write gives notice of, if it does.
    ///
    /// In house mode a notice is given when the mirroring asked for differs from the header's, in board
    /// mode when it differs from the current one.
    ///
    /// # Errors
    ///
    /// In house mode refused with 12, 13 or 14 where potatis panics.
    #[inline]
    pub fn write(&mut self, address: u16, value: u8) -> Result<Option<Mirroring>, Refusal> {
        if self.try_store(address, value) {
            return Ok(None);
        }
        self.write_anew(address, value).map(|(notice, _)| notice)
    }

    /// Writes a byte as [`write`](Board::write) does, and also says which pages it may have moved: for one
    /// who keeps [`read_pages`](Board::read_pages) and [`write_pages`](Board::write_pages).
    ///
    /// # Errors
    ///
    /// Those of [`write`](Board::write); a refused write has moved nothing.
    ///
    /// ```
    /// use biekkarul::{Board, Mode, Moved, Refusal};
    ///
    /// # let mut image = vec![0x4E, 0x45, 0x53, 0x1A, 4, 0, 0x20, 0];
    /// # image.resize(16 + 4 * 16_384, 0);
    /// let mut board = Board::load(image, Mode::House)?; // UxROM
    /// let prg = Moved { prg: true, ..Moved::default() };
    /// assert_eq!(board.write_moved(0x8000, 2)?, (None, prg));
    /// assert_eq!(board.write_moved(0x8000, 2)?, (None, Moved::default()));
    /// # Ok::<(), Refusal>(())
    /// ```
    #[inline]
    pub fn write_moved(
        &mut self,
        address: u16,
        value: u8,
    ) -> Result<(Option<Mirroring>, Moved), Refusal> {
        if self.try_store(address, value) {
            return Ok((None, Moved::default()));
        }
        self.write_anew(address, value)
    }

    /// Stores a byte where its page says to; false where it has not.
    #[inline]
    pub(crate) fn try_store(&mut self, address: u16, value: u8) -> bool {
        self.image.as_ref().len() == self.image_length
            && self.pages.try_store(&mut self.memory, address, value)
    }

    /// The pages of the address are learnt, or else the call is made.
    #[inline(never)]
    pub(crate) fn write_anew(
        &mut self,
        address: u16,
        value: u8,
    ) -> Result<(Option<Mirroring>, Moved), Refusal> {
        if self.pages.learn_writes(&self.state, address) && self.try_store(address, value) {
            return Ok((None, Moved::default()));
        }
        let (prg_ram, chr_ram) = self.memory.rams_mut();
        let answer = ffi::write_moved(
            &mut self.state,
            self.image.as_ref(),
            prg_ram,
            chr_ram,
            address,
            value,
        );
        let moved = Moved::of(answer);
        self.pages.forget(moved);
        let notice = notice(accepted(answer as u16)?);
        if notice.is_some() {
            self.last_notice = notice;
        }
        Ok((notice, moved))
    }

    /// The image, as it was given to the load.
    #[must_use]
    pub fn image(&self) -> &[u8] {
        self.image.as_ref()
    }
}

impl<I> Board<I> {
    /// One clock of MMC3's counter. On other boards nothing moves, and the answer is false.
    ///
    /// In house mode the answer is whether an IRQ comes at this clock, as potatis answers. In board mode it is
    /// the level of the interrupt line after the clock: true while the line is up. A clock that leaves the
    /// counter at 0, with IRQ enabled, raises the line, and it stays up until an even write to E000-FFFF
    /// acknowledges it. Between clocks [`irq_line`](Board::irq_line) says the level.
    ///
    /// An emulator that counts IRQs counts edges: clocks that answer true where the line was low before. A
    /// handler that acknowledges each raise before the next, as games do by an even write to E000-FFFF and then
    /// an odd one to enable again, gets each as an edge. While the line is up, another raise makes no edge, as
    /// on the real board: the line just is up. In house mode, where the line is always low, an edge is what the
    /// clock answers.
    ///
    /// # Errors
    ///
    /// None on a board that this crate made: the library refuses only states that no board could have.
    ///
    /// ```
    /// use biekkarul::{Board, Mode, Refusal};
    ///
    /// fn edge(board: &mut Board) -> Result<bool, Refusal> {
    ///     let was_up = board.irq_line();
    ///     Ok(board.clock()? && !was_up)
    /// }
    ///
    /// # let mut image = vec![0x4E, 0x45, 0x53, 0x1A, 1, 1, 0x41, 0];
    /// # image.resize(16 + 16_384 + 8_192, 0);
    /// let mut board = Board::load(image, Mode::Board)?; // MMC3
    /// board.write(0xC000, 2)?; // the latch
    /// board.write(0xC001, 0)?; // reload
    /// board.write(0xE001, 0)?; // enable
    /// let mut edges = Vec::new();
    /// for clock in 1..=9 {
    ///     if edge(&mut board)? {
    ///         edges.push(clock);
    ///         board.write(0xE000, 0)?; // acknowledge, which disables
    ///         board.write(0xE001, 0)?; // enable again
    ///     }
    /// }
    /// assert_eq!(edges, [3, 6, 9]);
    /// # Ok::<(), Refusal>(())
    /// ```
    #[inline]
    pub fn clock(&mut self) -> Result<bool, Refusal> {
        accepted(ffi::clock(&mut self.state)).map(yes)
    }

    /// Whether MMC3's interrupt line is up: the level that a [`clock`](Board::clock) answers in board mode, here
    /// without a clock. After an acknowledging write an emulator learns from it that the line no longer asks for
    /// an interrupt. In house mode, and on other boards, the line is always low.
    ///
    /// ```
    /// use biekkarul::{Board, Mode, Refusal};
    ///
    /// # let mut image = vec![0x4E, 0x45, 0x53, 0x1A, 1, 1, 0x41, 0];
    /// # image.resize(16 + 16_384 + 8_192, 0);
    /// let mut board = Board::load(image, Mode::Board)?; // MMC3
    /// board.write(0xC000, 1)?; // the latch
    /// board.write(0xC001, 0)?; // reload
    /// board.write(0xE001, 0)?; // enable
    /// assert!(!board.clock()?); // the counter is 1, as the latch says
    /// assert!(board.clock()?); // it is 0: the line goes up
    /// assert!(board.clock()?); // it is 1 again: the line stays up
    /// assert!(board.irq_line());
    ///
    /// board.write(0xE000, 0)?; // acknowledge
    /// assert!(!board.irq_line());
    /// # Ok::<(), Refusal>(())
    /// ```
    #[must_use]
    pub fn irq_line(&self) -> bool {
        self.digits().irq_line()
    }

    /// Where each of the 64 pages of 1 KB is read from; page 0 begins at address 0000.
    ///
    /// It holds until a write moves pages, as [`write_moved`](Board::write_moved) says, or a
    /// [`restore`](Board::restore) or [`power_cycle`](Board::power_cycle) comes. No clock moves a page.
    ///
    /// ```
    /// use biekkarul::{Board, Mode, Page, Refusal};
    ///
    /// # let mut image = vec![0x4E, 0x45, 0x53, 0x1A, 4, 0, 0x20, 0];
    /// # image.resize(16 + 4 * 16_384, 0);
    /// # image[16 + 2 * 16_384 + 5] = 0x2A;
    /// let mut board = Board::load(&image[..], Mode::House)?; // UxROM, four PRG blocks, CHR RAM
    /// let before = board.read_pages();
    /// assert_eq!((before[0], before[8]), (Page::ChrRam(0), Page::Nowhere));
    /// assert_eq!(before[32], Page::Image(16)); // 8000: the first block, behind the header
    ///
    /// board.write(0x8000, 2)?;
    /// let after = board.read_pages();
    /// assert_eq!(after[32], Page::Image(16 + 2 * 16_384));
    /// assert_eq!((&after[..32], &after[48..]), (&before[..32], &before[48..]));
    /// assert_eq!(board.read(0x8005)?, image[16 + 2 * 16_384 + 5]);
    ///
    /// board.write(0x8000, 4)?; // there is no such block
    /// assert_eq!(board.read_pages()[32], Page::Refused(Refusal::BankPastData));
    /// # Ok::<(), Refusal>(())
    /// ```
    #[must_use]
    pub fn read_pages(&self) -> [Page; PAGES] {
        self.pages_of_state().0
    }

    /// Where a write to each of the 64 pages goes. It holds as long as [`read_pages`](Board::read_pages).
    ///
    /// ```
    /// use biekkarul::{Board, Mode, Page, Refusal};
    ///
    /// # let mut image = vec![0x4E, 0x45, 0x53, 0x1A, 1, 1, 0x11, 0];
    /// # image.resize(16 + 16_384 + 8_192, 0);
    /// let board = Board::load(image, Mode::House)?; // MMC1 with CHR ROM
    /// let pages = board.write_pages();
    /// assert_eq!(pages[0], Page::Refused(Refusal::NoChrRam));
    /// assert_eq!((pages[8], pages[24], pages[32]), (Page::Nowhere, Page::PrgRam(0), Page::Call));
    /// # Ok::<(), Refusal>(())
    /// ```
    #[must_use]
    pub fn write_pages(&self) -> [Page; PAGES] {
        self.pages_of_state().1
    }

    fn pages_of_state(&self) -> ([Page; PAGES], [Page; PAGES]) {
        pages::all(&self.state).expect("the library takes every state that it has made")
    }

    /// Another state of the same cartridge, and what its RAMs hold.
    fn replace(
        &mut self,
        state: [u8; STATE_LENGTH],
        prg_ram: &[u8; RAM_LENGTH],
        chr_ram: &[u8; RAM_LENGTH],
    ) {
        self.state = state;
        self.pages = PageMap::unknown();
        *self.prg_ram_mut() = *prg_ram;
        *self.chr_ram_mut() = *chr_ram;
    }

    /// What the board's registers hold, and what it knows of its cartridge, as numbers.
    #[must_use]
    pub fn digits(&self) -> Digits {
        Digits::of(&self.state).expect("the library takes every state that it has made")
    }

    /// What the board's registers hold.
    #[must_use]
    pub fn registers(&self) -> Registers {
        self.digits().registers()
    }

    /// Every digit but the length of the image is below 4,096.
    fn small(&self, digit: Digit) -> u16 {
        self.digits()[digit] as u16
    }

    /// The mode that the image was loaded in.
    #[must_use]
    pub fn mode(&self) -> Mode {
        self.digits().mode()
    }

    /// The mapper number: 0 NROM, 1 MMC1, 2 UxROM, 3 CNROM, 4 MMC3.
    #[must_use]
    pub fn mapper(&self) -> u16 {
        self.small(Digit::Mapper)
    }

    /// Whether the header marks NES 2.0. Board mode reads such a header so; house mode only records it.
    #[must_use]
    pub fn is_nes2(&self) -> bool {
        self.digits()[Digit::Nes2] == 1
    }

    /// The mirroring that the header asks for: horizontal or vertical. The screens start with it.
    #[must_use]
    pub fn header_mirroring(&self) -> Mirroring {
        self.digits().header_mirroring()
    }

    /// The mirroring that the next notice is compared with: in board mode the current one, in house mode
    /// always the header's, as in potatis. Where the screens are turned to, [`screens`](Board::screens)
    /// says.
    #[must_use]
    pub fn mirroring(&self) -> Mirroring {
        self.digits().mirroring()
    }

    /// The last notice that a write gave, if one did since the load or the last power cycle.
    #[must_use]
    pub fn last_notice(&self) -> Option<Mirroring> {
        self.last_notice
    }

    /// Where the screens are turned to for one who has followed every notice: the last one, or the
    /// header's mirroring before the first.
    #[must_use]
    pub fn screens(&self) -> Mirroring {
        self.last_notice.unwrap_or_else(|| self.header_mirroring())
    }

    /// The count of 16,384-byte PRG blocks, up to 255, or up to 2,048 with NES 2.0 in board mode.
    #[must_use]
    pub fn prg_count(&self) -> u16 {
        self.small(Digit::PrgCount)
    }

    /// The count of 8,192-byte CHR blocks, up to 255, or up to 2,048 with NES 2.0 in board mode; 0 means CHR
    /// RAM.
    #[must_use]
    pub fn chr_count(&self) -> u16 {
        self.small(Digit::ChrCount)
    }

    /// Whether the cartridge has PRG RAM. Only an NES 2.0 header in board mode can say that it has none: then
    /// 6000-7FFF reads 0 and ignores writes, and what is put into [`prg_ram_mut`](Board::prg_ram_mut) is not
    /// seen. House mode, and every image without the mark, always has it; NROM, UxROM and CNROM show none at
    /// 6000-7FFF either way. Whether MMC3 has locked it, which is another matter, its registers say
    /// ([`Mmc3Registers::ram_enabled`](crate::Mmc3Registers::ram_enabled)).
    ///
    /// ```
    /// use biekkarul::{Board, Mode, Refusal};
    ///
    /// // MMC1, marked NES 2.0; byte 10 is 00: no PRG RAM; byte 11 is 07: 8,192 bytes of CHR RAM
    /// let mut image = b"NES\x1A\x01\x00\x10\x08\0\0\x00\x07\0\0\0\0".to_vec();
    /// image.resize(16 + 16_384, 0);
    /// for (mode, has_prg_ram, answer) in [(Mode::Board, false, 0), (Mode::House, true, 0x2A)] {
    ///     let mut board = Board::load(&image[..], mode)?;
    ///     board.write(0x6000, 0x2A)?;
    ///     assert_eq!((board.has_prg_ram(), board.read(0x6000)), (has_prg_ram, Ok(answer)));
    /// }
    ///
    /// image[11] = 0x00; // no CHR RAM either, and no CHR ROM
    /// assert_eq!(Board::load(&image[..], Mode::Board).unwrap_err(), Refusal::Nes2NotTaken);
    /// # Ok::<(), Refusal>(())
    /// ```
    #[must_use]
    pub fn has_prg_ram(&self) -> bool {
        self.digits().has_prg_ram()
    }

    /// PRG RAM: what a game saves. It is kept here also where the cartridge
    /// [has none](Board::has_prg_ram), and then holds what it was given.
    ///
    /// In board mode MMC3 locks it by an odd write to A000-BFFF: bit 7 enables it, bit 6 denies writes. That is
    /// for the game's reads and writes only. The bytes here stay, and a saved game is taken from here, or put
    /// back, at any time:
    ///
    /// ```
    /// use biekkarul::{Board, Mode, Refusal};
    ///
    /// # let mut image = vec![0x4E, 0x45, 0x53, 0x1A, 1, 1, 0x41, 0];
    /// # image.resize(16 + 16_384 + 8_192, 0);
    /// let mut board = Board::load(image, Mode::Board)?; // MMC3
    /// board.write(0x6000, 0x2A)?;
    /// board.write(0xA001, 0x00)?; // disabled
    /// board.write(0x6000, 0x2B)?;
    /// assert_eq!((board.read(0x6000)?, board.prg_ram()[0]), (0, 0x2A));
    ///
    /// board.write(0xA001, 0xC0)?; // enabled, and writes denied
    /// board.write(0x6000, 0x2B)?;
    /// assert_eq!((board.read(0x6000)?, board.prg_ram()[0]), (0x2A, 0x2A));
    ///
    /// board.write(0xA001, 0x80)?; // as a load leaves it
    /// board.write(0x6000, 0x2B)?;
    /// assert_eq!((board.read(0x6000)?, board.prg_ram()[0]), (0x2B, 0x2B));
    /// # Ok::<(), Refusal>(())
    /// ```
    #[must_use]
    pub fn prg_ram(&self) -> &[u8; RAM_LENGTH] {
        self.memory.prg_ram()
    }

    /// PRG RAM, to put a saved game back. Any bytes will do.
    #[must_use]
    pub fn prg_ram_mut(&mut self) -> &mut [u8; RAM_LENGTH] {
        self.memory.rams_mut().0
    }

    /// CHR RAM; not used where the cartridge has CHR ROM.
    #[must_use]
    pub fn chr_ram(&self) -> &[u8; RAM_LENGTH] {
        self.memory.chr_ram()
    }

    /// CHR RAM, to put tiles into it. Any bytes will do.
    #[must_use]
    pub fn chr_ram_mut(&mut self) -> &mut [u8; RAM_LENGTH] {
        self.memory.rams_mut().1
    }

    /// The state as docs/ABI.md lays it out. To keep a board, [`snapshot`](Board::snapshot) has it all.
    #[must_use]
    pub fn state(&self) -> [u8; STATE_LENGTH] {
        self.state
    }

    /// Gives the image back.
    #[must_use]
    pub fn into_image(self) -> I {
        self.image
    }
}

impl<I: AsRef<[u8]>, J: AsRef<[u8]>> PartialEq<Board<J>> for Board<I> {
    fn eq(&self, other: &Board<J>) -> bool {
        self.state == other.state
            && self.screens() == other.screens()
            && self.prg_ram() == other.prg_ram()
            && self.chr_ram() == other.chr_ram()
            && self.image() == other.image()
    }
}

impl<I: AsRef<[u8]>> Eq for Board<I> {}

/// Leaves the bytes of the image and of the RAMs out.
impl<I> fmt::Debug for Board<I> {
    fn fmt(&self, f: &mut fmt::Formatter<'_>) -> fmt::Result {
        f.debug_struct("Board")
            .field("mode", &self.mode())
            .field("mapper", &self.mapper())
            .field("header_mirroring", &self.header_mirroring())
            .field("prg_count", &self.prg_count())
            .field("chr_count", &self.chr_count())
            .field("is_nes2", &self.is_nes2())
            .field("has_prg_ram", &self.has_prg_ram())
            .field("screens", &self.screens())
            .field("registers", &self.registers())
            .finish_non_exhaustive()
    }
}

#[inline]
fn notice(answer: u8) -> Option<Mirroring> {
    match answer {
        0 => None,
        letter => match Mirroring::from_letter(letter.into()) {
            None => foreign(answer.into()),
            notice => notice,
        },
    }
}

#[inline]
fn yes(answer: u8) -> bool {
    match answer {
        0 => false,
        1 => true,
        _ => foreign(answer.into()),
    }
}

#[cfg(test)]
mod tests {
    use super::*;
    use alloc::sync::Arc;
    use core::panic::{RefUnwindSafe, UnwindSafe};

    #[test]
    fn a_notice_is_its_letter() {
        assert_eq!(notice(0), None);
        for mirroring in Mirroring::ALL {
            assert_eq!(notice(mirroring.letter() as u8), Some(mirroring));
        }
    }

    #[test]
    #[should_panic(expected = "it is another one")]
    fn no_other_letter() {
        notice(b'X');
    }

    #[test]
    #[should_panic(expected = "it is another one")]
    fn no_other_clock() {
        yes(2);
    }

    #[test]
    fn boards_may_go_to_other_threads() {
        fn is_send_and_sync<T: Send + Sync + UnwindSafe + RefUnwindSafe>() {}
        is_send_and_sync::<Board>();
        is_send_and_sync::<Board<&[u8]>>();
        is_send_and_sync::<Board<Arc<[u8]>>>();
    }

    /// Else every other test would pass without a page.
    #[test]
    fn the_second_call_goes_through_the_page() {
        let mut image = b"NES\x1A\x02\x00\x10\0\0\0\0\0\0\0\0\0".to_vec(); // MMC1, CHR RAM
        image.resize(16 + 2 * 16_384, 0xEA);
        for mode in [Mode::House, Mode::Board] {
            let mut board = Board::load(&image[..], mode).unwrap();
            for address in [0x0000, 0x6000, 0x8000] {
                assert_eq!(board.byte_at(address), None);
                board.read(address).unwrap();
                assert!(board.byte_at(address).is_some());
            }
            for address in [0x0000, 0x6000] {
                assert!(!board.try_store(address, 1));
                board.write(address, 1).unwrap();
                assert!(board.try_store(address, 1));
            }
            board.write(0x8000, 0).unwrap();
            assert!(!board.try_store(0x8000, 0));
        }
    }

    /// A lock that changes is seen at the next call, and the one after that goes through the page again.
    #[test]
    fn a_lock_is_learnt() {
        let mut image = b"NES\x1A\x02\x00\x40\0\0\0\0\0\0\0\0\0".to_vec(); // MMC3, CHR RAM
        image.resize(16 + 2 * 16_384, 0xEA);
        let mut board = Board::load(&image[..], Mode::Board).unwrap();
        board.prg_ram_mut()[0x1FFF] = 0x2A;
        for (marks, byte, is_stored) in [
            (0x00, 0x00, false),
            (0xC0, 0x2A, false),
            (0x40, 0x00, false),
            (0x80, 0x2A, true),
        ] {
            board.write(0xBFFF, marks).unwrap();
            assert_eq!(board.byte_at(0x7FFF), None);
            assert!(!board.try_store(0x6000, marks));
            assert_eq!(board.read(0x7FFF), Ok(byte));
            assert_eq!(board.write(0x6000, marks), Ok(None));
            for _ in 0..2 {
                assert_eq!(board.byte_at(0x7FFF), Some(byte));
                assert!(board.try_store(0x6000, marks));
                assert_eq!(board.prg_ram()[0], if is_stored { marks } else { 0 });
                board.write(0xA001, marks | 0x3F).unwrap(); // the marks stay
            }
        }
    }
}
