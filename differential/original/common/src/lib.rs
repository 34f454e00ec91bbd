//! The original's `common` crate, compiled from its own file.

// The original's `#![no_std]` stands in a module here.
#![allow(unused_attributes)]

include!(concat!(env!("OUT_DIR"), "/root.rs"));
pub use original::{bits, kilobytes, utils};
