#[path = "../locate.rs"]
mod locate;

fn main() {
    locate::write_root(&locate::module("pub", "memory", "mos6502/src/memory.rs"));
}
