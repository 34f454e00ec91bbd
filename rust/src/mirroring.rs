//! How the screens are laid out.

use core::fmt;

/// Which screens a cartridge shows where.
#[derive(Clone, Copy, Debug, PartialEq, Eq, Hash)]
pub enum Mirroring {
    /// Horizontal mirroring.
    Horizontal,
    /// Vertical mirroring.
    Vertical,
    /// The upper screen everywhere.
    SingleScreenUpper,
    /// The lower screen everywhere.
    SingleScreenLower,
}

impl Mirroring {
    /// All four, in the order of the numbers that a state has for them.
    pub const ALL: [Mirroring; 4] = [
        Mirroring::Horizontal,
        Mirroring::Vertical,
        Mirroring::SingleScreenUpper,
        Mirroring::SingleScreenLower,
    ];

    /// The letter that a trace prints: H, V, U (upper) or L (lower).
    ///
    /// ```
    /// use biekkarul::Mirroring;
    ///
    /// let mirroring = Mirroring::SingleScreenUpper;
    /// assert_eq!((mirroring.letter(), mirroring.to_string()), ('U', "upper screen".to_string()));
    /// assert_eq!(Mirroring::from_letter('U'), Some(mirroring));
    /// ```
    #[must_use]
    pub const fn letter(self) -> char {
        match self {
            Mirroring::Horizontal => 'H',
            Mirroring::Vertical => 'V',
            Mirroring::SingleScreenUpper => 'U',
            Mirroring::SingleScreenLower => 'L',
        }
    }

    /// The mirroring of this letter, if it is one.
    #[must_use]
    pub const fn from_letter(letter: char) -> Option<Mirroring> {
        match letter {
            'H' => Some(Mirroring::Horizontal),
            'V' => Some(Mirroring::Vertical),
            'U' => Some(Mirroring::SingleScreenUpper),
            'L' => Some(Mirroring::SingleScreenLower),
            _ => None,
        }
    }

    /// Of a digit that the library has judged, so that it is 0 to 3.
    pub(crate) const fn of_digit(digit: u64) -> Mirroring {
        match digit {
            0 => Mirroring::Horizontal,
            1 => Mirroring::Vertical,
            2 => Mirroring::SingleScreenUpper,
            _ => Mirroring::SingleScreenLower,
        }
    }
}

impl fmt::Display for Mirroring {
    fn fmt(&self, f: &mut fmt::Formatter<'_>) -> fmt::Result {
        f.pad(match self {
            Mirroring::Horizontal => "horizontal",
            Mirroring::Vertical => "vertical",
            Mirroring::SingleScreenUpper => "upper screen",
            Mirroring::SingleScreenLower => "lower screen",
        })
    }
}

#[cfg(test)]
mod tests {
    use super::*;
    use alloc::string::ToString;

    #[test]
    fn letters_and_digits_lead_back() {
        for (digit, mirroring) in (0..).zip(Mirroring::ALL) {
            assert_eq!(Mirroring::of_digit(digit), mirroring);
            assert_eq!(Mirroring::from_letter(mirroring.letter()), Some(mirroring));
        }
        for letter in ['h', '-', '\0'] {
            assert_eq!(Mirroring::from_letter(letter), None);
        }
    }

    #[test]
    fn in_words() {
        assert_eq!(
            Mirroring::ALL.map(|mirroring| mirroring.to_string()),
            ["horizontal", "vertical", "upper screen", "lower screen"]
        );
    }
}
