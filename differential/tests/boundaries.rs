//! What the original has no counterpart for: lent buffers of other lengths, other modes, states that no board could
//! have. The answers are document 01's, in its order; every refusal leaves every buffer as it was.

use biekkarul::{Digit, Digits};
use differential::events::REFUSED;
use differential::images::{header, Fill, Image};
use differential::library::{self, RAM, STATE};
use differential::random::Random;

const RAM_REFUSED: u16 = REFUSED + 9;
const STATE_REFUSED: u16 = REFUSED + 10;

/// Buffers to lend, of any lengths.
#[derive(Clone, PartialEq, Eq, Debug)]
struct Lent {
    image: Vec<u8>,
    state: Vec<u8>,
    prg_ram: Vec<u8>,
    chr_ram: Vec<u8>,
}

impl Lent {
    fn new(mapper: u8) -> Lent {
        let image = Image::exact(header(mapper, 2, 1, 1), Fill::Random(8)).bytes.get().to_vec();
        Lent { image, state: vec![0xa5; STATE], prg_ram: vec![0xa5; RAM], chr_ram: vec![0xa5; RAM] }
    }

    fn loaded(mapper: u8, mode: u8) -> Lent {
        let mut lent = Lent::new(mapper);
        assert_eq!(lent.load(mode), 0);
        lent
    }

    fn load(&mut self, mode: u8) -> u16 {
        library::load(&self.image, mode, &mut self.state, &mut self.prg_ram, &mut self.chr_ram)
    }

    fn read(&mut self, address: u16) -> u16 {
        library::read(&self.state, &self.image, &self.prg_ram, &self.chr_ram, address)
    }

    fn write(&mut self, address: u16, value: u8) -> u16 {
        library::write(&mut self.state, &self.image, &mut self.prg_ram, &mut self.chr_ram, address, value)
    }

    fn clock(&mut self) -> u16 {
        library::clock(&mut self.state)
    }

    /// Makes the call, and checks that a refused one changed nothing.
    fn call(&mut self, call: impl FnOnce(&mut Lent) -> u16) -> u16 {
        let before = self.clone();
        let answer = call(self);
        if answer >= REFUSED {
            assert_eq!(*self, before, "after {answer}");
        }
        answer
    }
}

#[test]
fn other_lengths_of_ram() {
    for length in [0, 1, 8_191, 8_193, 16_384] {
        for mapper in 0..5 {
            let mut lents = [Lent::loaded(mapper, 0), Lent::loaded(mapper, 0)];
            lents[0].prg_ram.resize(length, 1);
            lents[1].chr_ram.resize(length, 1);
            for mut lent in lents {
                // 9 comes before 10 and before every refusal of the load.
                lent.state[7] = 1;
                assert_eq!(lent.call(|lent| lent.read(0x8000)), RAM_REFUSED);
                assert_eq!(lent.call(|lent| lent.write(0x8000, 1)), RAM_REFUSED);
                lent.image[0] = 0;
                assert_eq!(lent.call(|lent| lent.load(7)), RAM_REFUSED);
            }
        }
    }
}

#[test]
fn other_lengths_of_the_state() {
    for length in [0, 1, 39, 41, 80] {
        let mut lent = Lent::loaded(4, 0);
        lent.state.resize(length, 0);
        assert_eq!(lent.call(|lent| lent.read(0x8000)), STATE_REFUSED);
        assert_eq!(lent.call(|lent| lent.write(0x8000, 1)), STATE_REFUSED);
        assert_eq!(lent.call(Lent::clock), STATE_REFUSED);
        lent.image[0] = 0;
        assert_eq!(lent.call(|lent| lent.load(0)), STATE_REFUSED);
    }
}

#[test]
fn other_modes_and_lengths_of_the_image() {
    for mode in 2..=255 {
        assert_eq!(Lent::new(0).call(|lent| lent.load(mode)), STATE_REFUSED);
    }
    for mapper in 0..5 {
        let mut lent = Lent::loaded(mapper, mapper & 1);
        lent.image.push(0);
        assert_eq!(lent.call(|lent| lent.read(0xffff)), STATE_REFUSED);
        assert_eq!(lent.call(|lent| lent.write(0xffff, 1)), STATE_REFUSED);
        assert_eq!(lent.call(Lent::clock), 0);
    }
}

#[test]
fn other_lengths_of_the_header_fields() {
    let image = Lent::new(0).image;
    for length in [0, 11, 13, 40] {
        let mut fields = vec![0xa5; length];
        assert_eq!(library::header(&image, &mut fields), STATE_REFUSED);
        assert!(fields.iter().all(|&byte| byte == 0xa5));
    }
}

/// A state of any bytes, or a real one with a few bits turned: every call ends, and all agree on whether it is one.
#[test]
fn any_bytes_as_a_state() {
    let mut random = Random::new(21, 0);
    for round in 0..40_000 {
        let mut lent = Lent::new((round % 5) as u8);
        if round % 4 == 0 {
            lent.state.fill_with(|| random.byte());
        } else {
            assert_eq!(lent.load((round / 5 % 2) as u8), 0);
            for _ in 0..1 + random.below(3) {
                lent.state[random.below(STATE)] ^= 1 << random.below(8);
            }
        }
        let (address, value) = (random.address(), random.byte());
        let length = Digits::of(&lent.state).ok().map(|digits| digits[Digit::ImageLength]);
        let is_refused = length != Some(lent.image.len() as u64);
        let read = lent.call(|lent| lent.read(address));
        let written = lent.clone().call(|lent| lent.write(address, value));
        assert_eq!((read == STATE_REFUSED, written == STATE_REFUSED), (is_refused, is_refused), "{lent:?}");
        // A clock does not see the image, so it may take a state that was made for another one.
        let clocked = lent.call(Lent::clock);
        assert!(if length.is_some() { clocked <= 1 } else { clocked == STATE_REFUSED }, "{lent:?}");
    }
}
