//! The calls that are timed: addresses and values that no board of this program refuses.

use differential::events::{clock, read, write, Event};
use differential::random::Random;

pub const CALLS: usize = 65_536;

/// How many reads stand between two moves of a bank.
const READS_TO_A_MOVE: usize = 200;

pub struct Caller {
    random: Random,
    mapper: u8,
    /// Grows with each move of a bank, and is what it moves to.
    moves: u8,
}

impl Caller {
    pub fn new(mapper: u8) -> Caller {
        // 9 is another bank than the first one on every board.
        Caller { random: Random::new(2, u64::from(mapper)), mapper, moves: 9 }
    }

    /// The lists of all measures, in the order of the table's columns.
    pub fn all(&mut self) -> [Vec<Event>; 7] {
        [
            self.reads_at_random(),
            self.reads_in_sequence(),
            (0..CALLS).map(|_| self.ram_write()).collect(),
            (0..CALLS).map(|_| self.register_write()).collect(),
            vec![clock(); CALLS],
            self.mix(),
            self.mix_with_moves(),
        ]
    }

    /// CNROM refuses 2000-7FFF.
    fn read(&self, address: u16) -> Event {
        let hole = self.mapper == 3 && (0x2000..0x8000).contains(&address);
        read(if hole { address | 0x8000 } else { address })
    }

    fn reads_at_random(&mut self) -> Vec<Event> {
        (0..CALLS).map(|_| self.random.address()).collect::<Vec<u16>>().into_iter().map(|at| self.read(at)).collect()
    }

    fn reads_in_sequence(&self) -> Vec<Event> {
        (0..=0xffff).map(|address| self.read(address)).collect()
    }

    /// A store where the board has RAM; CNROM's is reached by the picture unit's addresses.
    fn ram_write(&mut self) -> Event {
        let (address, value) = (self.random.address() & 0x1fff, self.random.byte());
        let base = if matches!(self.mapper, 1 | 4) { 0x6000 } else { 0 };
        write(base | address, value)
    }

    /// A write to 8000-FFFF; NROM has no register, and nothing comes of it there.
    fn register_write(&mut self) -> Event {
        let (address, value) = (self.random.address() | 0x8000, self.random.byte());
        match self.mapper {
            2 => write(address, value & 7),
            4 => mmc3_write(address, value),
            _ => write(address, value),
        }
    }

    /// A store or a register, in the proportions of the address space.
    fn write(&mut self) -> Event {
        let (address, value) = (self.random.address(), self.random.byte());
        match (self.mapper, address) {
            // MMC1 has CHR ROM here, and CNROM a hole.
            (1, 0x0000..=0x1fff) => write(address | 0x6000, value),
            (3, 0x2000..=0x7fff) => write(address & 0x1fff, value),
            (2, 0x8000..) => write(address, value & 7),
            (4, 0x8000..) => mmc3_write(address, value),
            _ => write(address, value),
        }
    }

    fn read_in_runs(&mut self, runs: &mut Runs) -> Event {
        let address = runs.next(&mut self.random);
        self.read(address)
    }

    /// 92 in 100 reads, in runs of up to twelve with jumps between; 7 writes; 1 clock.
    fn mix(&mut self) -> Vec<Event> {
        let mut runs = Runs::new();
        let mut events = Vec::with_capacity(CALLS);
        while events.len() < CALLS {
            let event = match self.random.below(100) {
                0..=91 => self.read_in_runs(&mut runs),
                92..=98 => self.write(),
                _ => clock(),
            };
            events.push(event);
        }
        events
    }

    /// The same, but the writes go to RAM, and after every 200 reads a bank moves.
    fn mix_with_moves(&mut self) -> Vec<Event> {
        let (mut runs, mut count) = (Runs::new(), 0);
        let mut events = Vec::with_capacity(CALLS);
        while events.len() < CALLS {
            match self.random.below(100) {
                0..=91 => {
                    events.push(self.read_in_runs(&mut runs));
                    count += 1;
                    if count % READS_TO_A_MOVE == 0 {
                        self.move_a_bank(&mut events);
                    }
                }
                92..=98 => events.push(self.ram_write()),
                _ => events.push(clock()),
            }
        }
        events.truncate(CALLS);
        events
    }

    /// A register gets another value than it had, by as few writes as the board needs: one of MMC1 and MMC3 after
    /// another. On NROM the write does nothing.
    fn move_a_bank(&mut self, events: &mut Vec<Event>) {
        let moves = self.moves;
        self.moves = moves.wrapping_add(1);
        match self.mapper {
            1 => {
                let register = if moves % 2 == 0 { 0xa000 } else { 0xe000 };
                // CHR 0 is halved by the load.
                let value = moves % 16 / 2 * 2;
                events.extend((0..5).map(|bit| write(register, value >> bit & 1)));
            }
            4 => events.extend([write(0x8000, moves % 8), write(0x8001, moves / 8 * 2 % 32)]),
            mapper => events.push(write(0x8000, if mapper == 2 { moves % 8 } else { moves })),
        }
    }
}

/// Values are kept within 32 PRG banks, which is also within 128 CHR banks. The acknowledging write is left out.
fn mmc3_write(address: u16, value: u8) -> Event {
    match address & 0xe001 {
        0x8001 => write(address, value & 31),
        0xe000 => write(address | 1, value),
        _ => write(address, value),
    }
}

/// Addresses in runs of up to twelve.
struct Runs {
    at: u16,
    left: usize,
}

impl Runs {
    fn new() -> Runs {
        Runs { at: 0x8000, left: 0 }
    }

    fn next(&mut self, random: &mut Random) -> u16 {
        if self.left == 0 {
            (self.at, self.left) = (random.address(), 1 + random.below(12));
        }
        (self.at, self.left) = (self.at.wrapping_add(1), self.left - 1);
        self.at
    }
}
