#[path = "../locate.rs"]
mod locate;

fn main() {
    let cartridge = locate::module("pub", "cartridge", "nes/src/cartridge.rs");
    let mappers = locate::module("pub", "mappers", "nes/src/mappers/mod.rs");
    locate::write_root(&(cartridge + &mappers));
}
