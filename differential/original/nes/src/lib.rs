//! The part of the original's `nes` crate that is ported: the cartridge and the mappers.

#[macro_use]
extern crate alloc;

use alloc::rc::Rc;
use core::cell::RefCell;

include!(concat!(env!("OUT_DIR"), "/root.rs"));

/// The original's choice of a board, which is private to its crate.
pub fn board<R: cartridge::Rom + 'static>(cart: cartridge::Cartridge<R>) -> Rc<RefCell<dyn mappers::Mapper>> {
    mappers::for_cart(cart)
}
