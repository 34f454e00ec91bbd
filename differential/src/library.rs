//! The exported functions, as safe functions over slices. The only unsafe code of this crate, but for a line
//! of the program `speed`.
//!
//! Why every call below holds: each pointer and length come from one slice, so the bytes are there and readable, and
//! writable where the slice is `&mut`; a slice's pointer is never null, empty or not; and the borrow checker keeps a
//! `&mut` slice apart from every other one, so no two lent buffers overlap. The functions keep no pointer after they
//! return, and have no state of their own, so any thread may call them.

// The wrapper for Rust links the library; two crates that did so would be one too many.
pub use biekkarul::{RAM_LENGTH as RAM, STATE_LENGTH as STATE};

use crate::events::Answer;

extern "C" {
    fn biekkarul_header(image: *const u8, image_length: usize, fields: *mut u8, fields_length: usize) -> u16;
    fn biekkarul_load(
        image: *const u8,
        image_length: usize,
        mode: u8,
        state: *mut u8,
        state_length: usize,
        prg_ram: *mut u8,
        prg_ram_length: usize,
        chr_ram: *mut u8,
        chr_ram_length: usize,
    ) -> u16;
    fn biekkarul_read(
        state: *const u8,
        state_length: usize,
        image: *const u8,
        image_length: usize,
        prg_ram: *const u8,
        prg_ram_length: usize,
        chr_ram: *const u8,
        chr_ram_length: usize,
        address: u16,
    ) -> u16;
    fn biekkarul_write(
        state: *mut u8,
        state_length: usize,
        image: *const u8,
        image_length: usize,
        prg_ram: *mut u8,
        prg_ram_length: usize,
        chr_ram: *mut u8,
        chr_ram_length: usize,
        address: u16,
        value: u8,
    ) -> u16;
    fn biekkarul_clock(state: *mut u8, state_length: usize) -> u16;
    fn biekkarul_pages(
        state: *const u8,
        state_length: usize,
        first: u8,
        reads: *mut u32,
        reads_length: usize,
        writes: *mut u32,
        writes_length: usize,
    ) -> u16;
    fn biekkarul_write_moved(
        state: *mut u8,
        state_length: usize,
        image: *const u8,
        image_length: usize,
        prg_ram: *mut u8,
        prg_ram_length: usize,
        chr_ram: *mut u8,
        chr_ram_length: usize,
        address: u16,
        value: u8,
    ) -> u32;
}

pub fn header(image: &[u8], fields: &mut [u8]) -> Answer {
    // SAFETY: two slices with their own lengths; `fields` is borrowed mutably, so it does not overlap `image`.
    unsafe { biekkarul_header(image.as_ptr(), image.len(), fields.as_mut_ptr(), fields.len()) }
}

pub fn load(image: &[u8], mode: u8, state: &mut [u8], prg_ram: &mut [u8], chr_ram: &mut [u8]) -> Answer {
    // SAFETY: four slices with their own lengths; the three mutable ones overlap nothing.
    unsafe {
        biekkarul_load(
            image.as_ptr(),
            image.len(),
            mode,
            state.as_mut_ptr(),
            state.len(),
            prg_ram.as_mut_ptr(),
            prg_ram.len(),
            chr_ram.as_mut_ptr(),
            chr_ram.len(),
        )
    }
}

#[inline]
pub fn read(state: &[u8], image: &[u8], prg_ram: &[u8], chr_ram: &[u8], address: u16) -> Answer {
    // SAFETY: four slices with their own lengths, all of them only read.
    unsafe {
        biekkarul_read(
            state.as_ptr(),
            state.len(),
            image.as_ptr(),
            image.len(),
            prg_ram.as_ptr(),
            prg_ram.len(),
            chr_ram.as_ptr(),
            chr_ram.len(),
            address,
        )
    }
}

#[inline]
pub fn write(
    state: &mut [u8],
    image: &[u8],
    prg_ram: &mut [u8],
    chr_ram: &mut [u8],
    address: u16,
    value: u8,
) -> Answer {
    // SAFETY: four slices with their own lengths; the three mutable ones overlap nothing.
    unsafe {
        biekkarul_write(
            state.as_mut_ptr(),
            state.len(),
            image.as_ptr(),
            image.len(),
            prg_ram.as_mut_ptr(),
            prg_ram.len(),
            chr_ram.as_mut_ptr(),
            chr_ram.len(),
            address,
            value,
        )
    }
}

/// A write that also says, above its answer, which pages it may have moved.
#[inline]
pub fn write_moved(
    state: &mut [u8],
    image: &[u8],
    prg_ram: &mut [u8],
    chr_ram: &mut [u8],
    address: u16,
    value: u8,
) -> u32 {
    // SAFETY: four slices with their own lengths; the three mutable ones overlap nothing.
    unsafe {
        biekkarul_write_moved(
            state.as_mut_ptr(),
            state.len(),
            image.as_ptr(),
            image.len(),
            prg_ram.as_mut_ptr(),
            prg_ram.len(),
            chr_ram.as_mut_ptr(),
            chr_ram.len(),
            address,
            value,
        )
    }
}

/// The numbers of pages from `first` on, as many as there is room for.
pub fn pages(state: &[u8], first: u8, reads: &mut [u32], writes: &mut [u32]) -> Answer {
    // SAFETY: three slices with their own lengths, which count numbers as the library does; the two mutable ones
    // overlap nothing.
    unsafe {
        biekkarul_pages(
            state.as_ptr(),
            state.len(),
            first,
            reads.as_mut_ptr(),
            reads.len(),
            writes.as_mut_ptr(),
            writes.len(),
        )
    }
}

#[inline]
pub fn clock(state: &mut [u8]) -> Answer {
    // SAFETY: one slice with its own length, borrowed mutably.
    unsafe { biekkarul_clock(state.as_mut_ptr(), state.len()) }
}
