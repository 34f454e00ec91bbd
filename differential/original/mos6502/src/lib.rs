//! The part of the original's `mos6502` crate that the mappers stand on: the `Bus` trait.

extern crate alloc;

include!(concat!(env!("OUT_DIR"), "/root.rs"));
