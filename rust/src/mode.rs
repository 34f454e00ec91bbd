//! The two modes.

use alloc::string::String;
use core::fmt;
use core::str::FromStr;

/// What a title runs in for good.
///
/// It is written `house` or `board`, and is the number 0 or 1 in a trace, in a state and in a snapshot:
///
/// ```
/// use biekkarul::{Mode, UnknownMode};
///
/// let mode: Mode = "board".parse()?;
/// assert_eq!((mode, mode.number(), mode.to_string()), (Mode::Board, 1, "board".to_string()));
/// assert_eq!(Mode::try_from(0), Ok(Mode::House));
/// assert_eq!(
///     Mode::try_from(2).unwrap_err().to_string(),
///     "the mode is 2, neither 0 (house) nor 1 (board)"
/// );
/// assert_eq!(
///     "Board".parse::<Mode>().unwrap_err().to_string(),
///     "the mode is 'Board', neither 'house' nor 'board'"
/// );
/// # Ok::<(), UnknownMode>(())
/// ```
#[derive(Clone, Copy, Debug, PartialEq, Eq, Hash)]
pub enum Mode {
    /// As the emulator potatis answers, oddities included, with a refusal where it panics.
    House,
    /// As the real board answers.
    Board,
}

impl Mode {
    /// Both modes, in the order of their numbers.
    pub const ALL: [Mode; 2] = [Mode::House, Mode::Board];

    /// The number: 0 house, 1 board.
    #[must_use]
    pub const fn number(self) -> u8 {
        match self {
            Mode::House => 0,
            Mode::Board => 1,
        }
    }

    /// The name: `house` or `board`.
    #[must_use]
    pub const fn name(self) -> &'static str {
        match self {
            Mode::House => "house",
            Mode::Board => "board",
        }
    }

    /// Of a digit that the library has judged, so that it is 0 or 1.
    pub(crate) const fn of_digit(digit: u64) -> Mode {
        match digit {
            0 => Mode::House,
            _ => Mode::Board,
        }
    }
}

impl fmt::Display for Mode {
    fn fmt(&self, f: &mut fmt::Formatter<'_>) -> fmt::Result {
        f.pad(self.name())
    }
}

impl From<Mode> for u8 {
    fn from(mode: Mode) -> u8 {
        mode.number()
    }
}

impl TryFrom<u8> for Mode {
    type Error = UnknownMode;

    fn try_from(number: u8) -> Result<Mode, UnknownMode> {
        match number {
            0 => Ok(Mode::House),
            1 => Ok(Mode::Board),
            _ => Err(UnknownMode::Number(number)),
        }
    }
}

impl FromStr for Mode {
    type Err = UnknownMode;

    fn from_str(name: &str) -> Result<Mode, UnknownMode> {
        match name {
            "house" => Ok(Mode::House),
            "board" => Ok(Mode::Board),
            _ => Err(UnknownMode::Name(name.into())),
        }
    }
}

/// A number or a name that is no mode's.
#[derive(Clone, Debug, PartialEq, Eq, Hash)]
#[non_exhaustive]
pub enum UnknownMode {
    /// A number that is neither 0 nor 1.
    Number(u8),
    /// A name that is neither `house` nor `board`.
    Name(String),
}

impl fmt::Display for UnknownMode {
    fn fmt(&self, f: &mut fmt::Formatter<'_>) -> fmt::Result {
        match self {
            UnknownMode::Number(number) => {
                write!(f, "the mode is {number}, neither 0 (house) nor 1 (board)")
            }
            UnknownMode::Name(name) => {
                write!(f, "the mode is '{name}', neither 'house' nor 'board'")
            }
        }
    }
}

#[cfg(feature = "std")]
impl std::error::Error for UnknownMode {}

#[cfg(test)]
mod tests {
    use super::*;
    use alloc::string::ToString;

    #[test]
    fn number_and_name_lead_back() {
        for (number, mode) in (0..).zip(Mode::ALL) {
            assert_eq!((mode.number(), u8::from(mode)), (number, number));
            assert_eq!(Mode::try_from(number), Ok(mode));
            assert_eq!(Mode::of_digit(number.into()), mode);
            assert_eq!(mode.to_string().parse(), Ok(mode));
        }
    }

    #[test]
    fn nothing_else_is_a_mode() {
        for number in 2..=255 {
            assert_eq!(Mode::try_from(number), Err(UnknownMode::Number(number)));
        }
        for name in ["", "House", "house ", "0"] {
            assert_eq!(name.parse::<Mode>(), Err(UnknownMode::Name(name.into())));
        }
    }
}
