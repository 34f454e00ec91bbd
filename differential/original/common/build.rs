#[path = "../locate.rs"]
mod locate;

fn main() {
    locate::write_root(&locate::module("", "original", "common/src/lib.rs"));
}
