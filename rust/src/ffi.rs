//! The exported functions, each behind a safe function over slices. The only module with `unsafe`.
//!
//! Every call below rests on the same three facts:
//!
//! - **Valid.** Each pointer and length come from one Rust slice, so the memory is there, initialized,
//!   aligned, and stays borrowed until the call returns. A slice's pointer is never null, even with length 0.
//! - **No overlap.** What the library writes is a `&mut` slice, which Rust lets overlap with no other
//!   argument. Shared slices are only read.
//! - **Nothing more.** The library is proved to touch no byte outside the lent lengths, for every input;
//!   it keeps no pointer and has no state of its own, so calls from several threads do not meet.
//!
//! The signatures are those of `include/biekkarul.h`, where `size_t` is `usize` on both processors.

#![allow(unsafe_code)]

/// The version of the calls that are declared here: `BIEKKARUL_VERSION` of the header, and `VERSION` of build.rs,
/// which refuses a library of another one.
pub(crate) const VERSION: u32 = 5;

extern "C" {
    fn biekkarul_header(
        image: *const u8,
        image_length: usize,
        fields: *mut u8,
        fields_length: usize,
    ) -> u16;

    fn biekkarul_load(
        image: *const u8,
        image_length: usize,
        mode: u8,
        state: *mut u8,
        state_length: usize,
        prg_ram: *mut u8,
        prg_ram_length: usize,
        chr_ram: *mut u8,
        chr_ram_length: usize,
    ) -> u16;

    fn biekkarul_read(
        state: *const u8,
        state_length: usize,
        image: *const u8,
        image_length: usize,
        prg_ram: *const u8,
        prg_ram_length: usize,
        chr_ram: *const u8,
        chr_ram_length: usize,
        address: u16,
    ) -> u16;

    #[cfg(test)]
    fn biekkarul_write(
        state: *mut u8,
        state_length: usize,
        image: *const u8,
        image_length: usize,
        prg_ram: *mut u8,
        prg_ram_length: usize,
        chr_ram: *mut u8,
        chr_ram_length: usize,
        address: u16,
        value: u8,
    ) -> u16;

    fn biekkarul_clock(state: *mut u8, state_length: usize) -> u16;

    fn biekkarul_digits(
        state: *const u8,
        state_length: usize,
        digits: *mut u64,
        digits_length: usize,
    ) -> u16;

    fn biekkarul_pages(
        state: *const u8,
        state_length: usize,
        first: u8,
        reads: *mut u32,
        reads_length: usize,
        writes: *mut u32,
        writes_length: usize,
    ) -> u16;

    fn biekkarul_write_moved(
        state: *mut u8,
        state_length: usize,
        image: *const u8,
        image_length: usize,
        prg_ram: *mut u8,
        prg_ram_length: usize,
        chr_ram: *mut u8,
        chr_ram_length: usize,
        address: u16,
        value: u8,
    ) -> u32;

    fn biekkarul_version() -> u32;
}

/// The library's version, as it says itself.
#[inline]
pub(crate) fn version() -> u32 {
    // SAFETY: it takes nothing and answers a number.
    unsafe { biekkarul_version() }
}

/// Every board begins with a load, so a library that does not fit stops there, however it came to be linked.
#[inline]
fn check_version() {
    let linked = version();
    assert!(
        linked == VERSION,
        "the linked library is of version {linked}, but this wrapper is for version {VERSION}"
    );
}

#[inline]
pub(crate) fn header(image: &[u8], fields: &mut [u8]) -> u16 {
    // SAFETY: both pairs are whole slices, and `fields` is exclusive, so it is not part of `image`.
    unsafe {
        biekkarul_header(
            image.as_ptr(),
            image.len(),
            fields.as_mut_ptr(),
            fields.len(),
        )
    }
}

#[inline]
pub(crate) fn load(
    image: &[u8],
    mode: u8,
    state: &mut [u8],
    prg_ram: &mut [u8],
    chr_ram: &mut [u8],
) -> u16 {
    check_version();
    // SAFETY: all four pairs are whole slices; the three that are written are exclusive, so neither
    // overlaps with another or with `image`. Every `mode` is taken.
    unsafe {
        biekkarul_load(
            image.as_ptr(),
            image.len(),
            mode,
            state.as_mut_ptr(),
            state.len(),
            prg_ram.as_mut_ptr(),
            prg_ram.len(),
            chr_ram.as_mut_ptr(),
            chr_ram.len(),
        )
    }
}

#[inline]
pub(crate) fn read(
    state: &[u8],
    image: &[u8],
    prg_ram: &[u8],
    chr_ram: &[u8],
    address: u16,
) -> u16 {
    // SAFETY: all four pairs are whole slices, and a read writes to none of them. Every state, right or
    // wrong, and every `address` is taken.
    unsafe {
        biekkarul_read(
            state.as_ptr(),
            state.len(),
            image.as_ptr(),
            image.len(),
            prg_ram.as_ptr(),
            prg_ram.len(),
            chr_ram.as_ptr(),
            chr_ram.len(),
            address,
        )
    }
}

/// The plain write: a board makes the other one, which the tests hold to this one.
#[cfg(test)]
pub(crate) fn write(
    state: &mut [u8],
    image: &[u8],
    prg_ram: &mut [u8],
    chr_ram: &mut [u8],
    address: u16,
    value: u8,
) -> u16 {
    // SAFETY: all four pairs are whole slices; the three that are written are exclusive, so neither
    // overlaps with another or with `image`. Every state, `address` and `value` is taken.
    unsafe {
        biekkarul_write(
            state.as_mut_ptr(),
            state.len(),
            image.as_ptr(),
            image.len(),
            prg_ram.as_mut_ptr(),
            prg_ram.len(),
            chr_ram.as_mut_ptr(),
            chr_ram.len(),
            address,
            value,
        )
    }
}

#[inline]
pub(crate) fn write_moved(
    state: &mut [u8],
    image: &[u8],
    prg_ram: &mut [u8],
    chr_ram: &mut [u8],
    address: u16,
    value: u8,
) -> u32 {
    // SAFETY: all four pairs are whole slices; the three that are written are exclusive, so neither
    // overlaps with another or with `image`. Every state, `address` and `value` is taken.
    unsafe {
        biekkarul_write_moved(
            state.as_mut_ptr(),
            state.len(),
            image.as_ptr(),
            image.len(),
            prg_ram.as_mut_ptr(),
            prg_ram.len(),
            chr_ram.as_mut_ptr(),
            chr_ram.len(),
            address,
            value,
        )
    }
}

#[inline]
pub(crate) fn clock(state: &mut [u8]) -> u16 {
    // SAFETY: the pair is a whole slice and exclusive. Every state is taken.
    unsafe { biekkarul_clock(state.as_mut_ptr(), state.len()) }
}

#[inline]
pub(crate) fn digits(state: &[u8], digits: &mut [u64]) -> u16 {
    // SAFETY: both pairs are whole slices, and `digits`, whose length counts numbers as the library does, is
    // exclusive, so it is not part of `state`. Every state is taken.
    unsafe {
        biekkarul_digits(
            state.as_ptr(),
            state.len(),
            digits.as_mut_ptr(),
            digits.len(),
        )
    }
}

#[inline]
pub(crate) fn pages(state: &[u8], first: u8, reads: &mut [u32], writes: &mut [u32]) -> u16 {
    // SAFETY: all three pairs are whole slices; `reads` and `writes`, whose lengths count numbers as the
    // library does, are exclusive, so neither overlaps with the other or with `state`. Every state, `first`
    // and length is taken.
    unsafe {
        biekkarul_pages(
            state.as_ptr(),
            state.len(),
            first,
            reads.as_mut_ptr(),
            reads.len(),
            writes.as_mut_ptr(),
            writes.len(),
        )
    }
}

#[cfg(test)]
mod tests {
    use super::*;

    const HEADER: &str = include_str!("../../include/biekkarul.h");
    const BUILD: &str = include_str!("../build.rs");

    fn number_after(text: &str, words: &str) -> u32 {
        let (_, rest) = text.split_once(words).expect(words);
        let digits = rest.split(|letter: char| !letter.is_ascii_digit()).next();
        digits.unwrap_or_default().parse().expect(words)
    }

    #[test]
    fn one_version_everywhere() {
        assert_eq!(version(), VERSION);
        assert_eq!(number_after(HEADER, "#define BIEKKARUL_VERSION "), VERSION);
        assert_eq!(number_after(BUILD, "const VERSION: u32 = "), VERSION);
    }
}
