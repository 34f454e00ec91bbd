//! A board as bytes that can be kept.

use alloc::boxed::Box;
use alloc::vec::Vec;
use core::fmt;

use crate::board::{RAM_LENGTH, STATE_LENGTH};
use crate::digits::{Digit, Digits};
use crate::mirroring::Mirroring;
use crate::mode::Mode;
use crate::refusal::Refusal;
use crate::registers::Registers;

const MAGIC: &[u8; 8] = b"BIEKSNAP";
const SUM_LENGTH: usize = 8;
const NO_NOTICE: u8 = 0;
const STATE_PLACE: usize = MAGIC.len() + 4 + 8;
/// The version of the state's layout, which is its first byte.
const STATE_VERSION: u8 = 1;

/// All of a board but its image, which it names by a hash.
///
/// [`Board::snapshot`](crate::Board::snapshot) takes one; [`Board::restore`](crate::Board::restore) takes
/// it up in place, [`Board::from_snapshot`](crate::Board::from_snapshot) in a new board, and both know a
/// snapshot of another title:
///
/// ```
/// use biekkarul::{Board, Mode, Snapshot, SnapshotError};
///
/// # fn mmc3(fill: u8) -> Vec<u8> {
/// #     let mut image = vec![0x4E, 0x45, 0x53, 0x1A, 1, 1, 0x41, 0];
/// #     image.resize(16, 0);
/// #     image.resize(16 + 16_384 + 8_192, fill);
/// #     image
/// # }
/// # let (image, another) = (mmc3(1), mmc3(2));
/// let mut board = Board::load(&image[..], Mode::House)?;
/// board.write(0x6000, 0x2A)?;
/// let kept: Vec<u8> = board.snapshot().to_bytes();
///
/// let snapshot = Snapshot::from_bytes(&kept)?;
/// assert_eq!(Board::from_snapshot(&image[..], Mode::House, &snapshot)?, board);
///
/// let mixed_up = Board::from_snapshot(&another[..], Mode::House, &snapshot).unwrap_err();
/// assert_eq!(mixed_up.to_string(), "the snapshot was taken with another image");
/// let other_mode = Board::from_snapshot(&image[..], Mode::Board, &snapshot).unwrap_err();
/// assert_eq!(other_mode.to_string(), "the snapshot was taken in house mode, not in board mode");
/// # Ok::<(), Box<dyn std::error::Error>>(())
/// ```
///
/// # The bytes
///
/// [`LENGTH`](Snapshot::LENGTH) bytes, numbers little-endian as in the state:
///
/// | Bytes | What |
/// |---|---|
/// | 0-7 | `BIEKSNAP` |
/// | 8 | version of this format: 1 |
/// | 9 | mode: 0 house, 1 board |
/// | 10 | letter of the last notice (`H`, `V`, `U`, `L`), or 0 for none |
/// | 11 | 0 |
/// | 12-19 | [`image_hash`] of the image |
/// | 20-59 | the state, as docs/ABI.md lays it out; it has a version of its own |
/// | 60-8251 | PRG RAM |
/// | 8252-16443 | CHR RAM |
/// | 16444-16451 | check sum: the same hash over all bytes before it |
///
/// The check sum finds every change within one byte, and any other damage but for a chance of about one in
/// 2^64. Hash and check sum are against mix-ups and damage, not against forgery: who wants to can make a
/// snapshot that is taken up and was never played. What is taken up is always a state that the library
/// serves.
#[derive(Clone, PartialEq, Eq)]
#[must_use]
pub struct Snapshot {
    pub(crate) image_hash: u64,
    pub(crate) mode: Mode,
    pub(crate) last_notice: Option<Mirroring>,
    pub(crate) state: [u8; STATE_LENGTH],
    pub(crate) prg_ram: Box<[u8; RAM_LENGTH]>,
    pub(crate) chr_ram: Box<[u8; RAM_LENGTH]>,
}

impl Snapshot {
    /// The version of the format.
    pub const VERSION: u8 = 1;

    /// The count of bytes that a snapshot has.
    pub const LENGTH: usize = MAGIC.len() + 4 + 8 + STATE_LENGTH + 2 * RAM_LENGTH + SUM_LENGTH;

    /// The snapshot as bytes, to be kept.
    #[must_use]
    pub fn to_bytes(&self) -> Vec<u8> {
        let mut bytes = Vec::with_capacity(Snapshot::LENGTH);
        bytes.extend(MAGIC);
        bytes.extend([
            Snapshot::VERSION,
            self.mode.number(),
            notice_byte(self.last_notice),
            0,
        ]);
        bytes.extend(self.image_hash.to_le_bytes());
        bytes.extend(self.state);
        bytes.extend(&self.prg_ram[..]);
        bytes.extend(&self.chr_ram[..]);
        let sum = fnv_1a(&bytes);
        bytes.extend(sum.to_le_bytes());
        bytes
    }

    /// Reads a snapshot, all of it or nothing.
    ///
    /// # Errors
    ///
    /// The first that applies: bytes that do not begin as a snapshot; another version of the format;
    /// another length; a check sum that does not fit; another version of the state; a state that no board
    /// could have.
    pub fn from_bytes(bytes: &[u8]) -> Result<Snapshot, SnapshotError> {
        let after_magic = bytes
            .strip_prefix(MAGIC)
            .ok_or(SnapshotError::NotASnapshot)?;
        match after_magic.first() {
            Some(&Snapshot::VERSION) => {}
            Some(&found) => return Err(SnapshotError::OtherVersion { found }),
            None => return Err(SnapshotError::wrong_length(bytes)),
        }
        if bytes.len() != Snapshot::LENGTH {
            return Err(SnapshotError::wrong_length(bytes));
        }
        let (summed, sum) = bytes.split_at(Snapshot::LENGTH - SUM_LENGTH);
        if fnv_1a(summed).to_le_bytes() != sum {
            return Err(SnapshotError::WrongCheckSum);
        }
        if summed[STATE_PLACE] != STATE_VERSION {
            return Err(SnapshotError::OtherStateVersion {
                found: summed[STATE_PLACE],
            });
        }
        Snapshot::from_fields(&summed[MAGIC.len() + 1..]).ok_or(SnapshotError::ImpossibleState)
    }

    /// What stands behind the version, or nothing where no board could have left it.
    fn from_fields(bytes: &[u8]) -> Option<Snapshot> {
        let mut rest = bytes;
        let [mode, notice, zero] = taken(&mut rest)?;
        let snapshot = Snapshot {
            mode: Mode::try_from(mode).ok()?,
            last_notice: match notice {
                NO_NOTICE => None,
                letter => Some(Mirroring::from_letter(letter.into())?),
            },
            image_hash: u64::from_le_bytes(taken(&mut rest)?),
            state: taken(&mut rest)?,
            prg_ram: Box::new(taken(&mut rest)?),
            chr_ram: Box::new(taken(&mut rest)?),
        };
        let digits = Digits::of(&snapshot.state).ok()?;
        let is_one = zero == 0
            && digits.mode() == snapshot.mode
            && could_be_last(snapshot.last_notice, &digits);
        Some(snapshot).filter(|_| is_one)
    }

    /// That the snapshot was taken with this image and in this mode.
    ///
    /// # Errors
    ///
    /// Another image, or else the other mode.
    pub fn check(&self, image: &[u8], mode: Mode) -> Result<(), SnapshotError> {
        if image_hash(image) != self.image_hash {
            return Err(SnapshotError::OtherImage);
        }
        if mode != self.mode {
            return Err(SnapshotError::OtherMode { kept: self.mode });
        }
        Ok(())
    }

    /// The [`image_hash`] of the image that it was taken with.
    #[must_use]
    pub fn image_hash(&self) -> u64 {
        self.image_hash
    }

    /// The mode that it was taken in.
    #[must_use]
    pub fn mode(&self) -> Mode {
        self.mode
    }

    /// The last notice before it was taken, if there was one.
    #[must_use]
    pub fn last_notice(&self) -> Option<Mirroring> {
        self.last_notice
    }

    /// Where the screens were turned to.
    #[must_use]
    pub fn screens(&self) -> Mirroring {
        self.last_notice
            .unwrap_or_else(|| self.digits().header_mirroring())
    }

    /// What the state holds, as numbers.
    #[must_use]
    pub fn digits(&self) -> Digits {
        Digits::of(&self.state).expect("a snapshot holds a state that the library takes")
    }

    /// What the board's registers held.
    #[must_use]
    pub fn registers(&self) -> Registers {
        self.digits().registers()
    }

    /// The state, as docs/ABI.md lays it out.
    #[must_use]
    pub fn state(&self) -> &[u8; STATE_LENGTH] {
        &self.state
    }

    /// PRG RAM.
    #[must_use]
    pub fn prg_ram(&self) -> &[u8; RAM_LENGTH] {
        &self.prg_ram
    }

    /// CHR RAM.
    #[must_use]
    pub fn chr_ram(&self) -> &[u8; RAM_LENGTH] {
        &self.chr_ram
    }
}

/// Leaves the bytes of the RAMs out.
impl fmt::Debug for Snapshot {
    fn fmt(&self, f: &mut fmt::Formatter<'_>) -> fmt::Result {
        f.debug_struct("Snapshot")
            .field("mode", &self.mode)
            .field("image_hash", &format_args!("{:016X}", self.image_hash))
            .field("last_notice", &self.last_notice)
            .field("registers", &self.registers())
            .finish_non_exhaustive()
    }
}

/// The first bytes of what is left, which is then shorter by them.
fn taken<const N: usize>(rest: &mut &[u8]) -> Option<[u8; N]> {
    let (first, others) = (rest.get(..N)?, rest.get(N..)?);
    *rest = others;
    first.try_into().ok()
}

fn notice_byte(notice: Option<Mirroring>) -> u8 {
    notice.map_or(NO_NOTICE, |mirroring| mirroring.letter() as u8)
}

/// Whether a board with these digits could have given this notice last. Only MMC1 and MMC3 give any. A house
/// board's notice is never the header's; a board mode's state also says where the screens are turned to.
fn could_be_last(notice: Option<Mirroring>, digits: &Digits) -> bool {
    let asked = match notice {
        None => return digits.turned_to().is_none(),
        Some(asked) => asked,
    };
    let can_be_asked = match digits[Digit::Mapper] {
        1 => true,
        4 => matches!(asked, Mirroring::Horizontal | Mirroring::Vertical),
        _ => false,
    };
    can_be_asked
        && match digits.mode() {
            Mode::House => asked != digits.header_mirroring(),
            Mode::Board => asked == digits.mirroring(),
        }
}

/// The hash by which a [`Snapshot`] knows its image: 64-bit FNV-1a over all bytes, header included.
///
/// It tells images apart that were mixed up. It is no proof that an image is the one it should be: another
/// image of the same hash can be made at will.
///
/// ```
/// assert_eq!(biekkarul::image_hash(b"a"), 0xAF63_DC4C_8601_EC8C);
/// ```
#[must_use]
pub fn image_hash(image: &[u8]) -> u64 {
    fnv_1a(image)
}

/// Each byte is taken in by a step that loses nothing, so two inputs that differ within one byte never meet.
fn fnv_1a(bytes: &[u8]) -> u64 {
    const START: u64 = 0xCBF2_9CE4_8422_2325;
    const PRIME: u64 = 0x0100_0000_01B3;
    bytes.iter().fold(START, |hash, &byte| {
        (hash ^ u64::from(byte)).wrapping_mul(PRIME)
    })
}

/// Why bytes are no snapshot, or a snapshot is not taken up. Nothing has changed then.
#[derive(Clone, Copy, Debug, PartialEq, Eq, Hash)]
#[non_exhaustive]
pub enum SnapshotError {
    /// The bytes do not begin as a snapshot does.
    NotASnapshot,
    /// A snapshot in another version of the format.
    OtherVersion {
        /// Its version.
        found: u8,
    },
    /// It holds a state in another version of the layout.
    OtherStateVersion {
        /// That version.
        found: u8,
    },
    /// Bytes are missing or left over.
    WrongLength {
        /// How many bytes there are.
        found: usize,
    },
    /// The bytes are not those that were kept.
    WrongCheckSum,
    /// It was taken with another image.
    OtherImage,
    /// It was taken in the other mode.
    OtherMode {
        /// The one in which it was taken.
        kept: Mode,
    },
    /// No board of its image and mode could have what it holds.
    ImpossibleState,
    /// Its image cannot be loaded.
    ImageRefused(Refusal),
}

impl SnapshotError {
    fn wrong_length(bytes: &[u8]) -> SnapshotError {
        SnapshotError::WrongLength { found: bytes.len() }
    }
}

impl fmt::Display for SnapshotError {
    fn fmt(&self, f: &mut fmt::Formatter<'_>) -> fmt::Result {
        match self {
            SnapshotError::NotASnapshot => {
                f.write_str("the bytes are no snapshot: they do not begin with BIEKSNAP")
            }
            SnapshotError::OtherVersion { found } => write!(
                f,
                "the snapshot has version {found} of its format; this library reads version {}",
                Snapshot::VERSION
            ),
            SnapshotError::OtherStateVersion { found } => write!(
                f,
                "the snapshot holds a state of version {found}; this library has version {STATE_VERSION}"
            ),
            SnapshotError::WrongLength { found } => write!(
                f,
                "the snapshot is damaged: it has {found} bytes, not {}",
                Snapshot::LENGTH
            ),
            SnapshotError::WrongCheckSum => {
                f.write_str("the snapshot is damaged: its check sum does not fit its bytes")
            }
            SnapshotError::OtherImage => f.write_str("the snapshot was taken with another image"),
            SnapshotError::OtherMode { kept } => {
                let asked = match kept {
                    Mode::House => Mode::Board,
                    Mode::Board => Mode::House,
                };
                write!(
                    f,
                    "the snapshot was taken in {kept} mode, not in {asked} mode"
                )
            }
            SnapshotError::ImpossibleState => f.write_str(
                "the snapshot holds a state that no board of its image and mode could have",
            ),
            SnapshotError::ImageRefused(refusal) => {
                write!(f, "the snapshot's image cannot be loaded: {refusal}")
            }
        }
    }
}

#[cfg(feature = "std")]
impl std::error::Error for SnapshotError {
    fn source(&self) -> Option<&(dyn std::error::Error + 'static)> {
        match self {
            SnapshotError::ImageRefused(refusal) => Some(refusal),
            _ => None,
        }
    }
}

#[cfg(test)]
mod tests {
    use super::*;

    /// The published values of 64-bit FNV-1a.
    #[test]
    fn the_hash_is_fnv_1a() {
        assert_eq!(fnv_1a(b""), 0xCBF2_9CE4_8422_2325);
        assert_eq!(fnv_1a(b"a"), 0xAF63_DC4C_8601_EC8C);
        assert_eq!(fnv_1a(b"foobar"), 0x8594_4171_F739_67E8);
    }

    #[test]
    fn as_long_as_its_table_says() {
        assert_eq!(Snapshot::LENGTH, 16_452);
    }
}
