// How many of a position's last digits are blank, and what that leaves.

use crate::refusal::Refusal;

/// How precise a position is: a blank for each last digit of the latitude that is not told.
///
/// ```
/// use tusselgro::Precision;
///
/// assert_eq!(Precision::OneMinute.blanks(), 2);
/// assert_eq!(Precision::try_from(2), Ok(Precision::OneMinute));
/// assert_eq!(Precision::default(), Precision::HundredthMinute);
/// ```
#[derive(Clone, Copy, Debug, Default, PartialEq, Eq, PartialOrd, Ord, Hash)]
pub enum Precision {
    /// `4   .  N`
    TenDegree,
    /// `49  .  N`
    OneDegree,
    /// `490 .  N`
    TenMinute,
    /// `4903.  N`
    OneMinute,
    /// `4903.5 N`
    TenthMinute,
    /// `4903.50N`
    #[default]
    HundredthMinute,
}

/// In the order of their blanks.
const BY_BLANKS: [Precision; 6] = [
    Precision::HundredthMinute,
    Precision::TenthMinute,
    Precision::OneMinute,
    Precision::TenMinute,
    Precision::OneDegree,
    Precision::TenDegree,
];

impl Precision {
    /// The width that the digits leave, in degrees.
    pub fn width(self) -> f64 {
        match self {
            Precision::HundredthMinute => 1.0 / 6000.0,
            Precision::TenthMinute => 1.0 / 600.0,
            Precision::OneMinute => 1.0 / 60.0,
            Precision::TenMinute => 1.0 / 6.0,
            Precision::OneDegree => 1.0,
            Precision::TenDegree => 10.0,
        }
    }

    /// How many last digits are blank, 0 to 5.
    pub fn blanks(self) -> u8 {
        Precision::HundredthMinute as u8 - self as u8
    }
}

impl TryFrom<u8> for Precision {
    type Error = Refusal;

    /// The precision that so many blanks leave; more than 5 are out of range.
    fn try_from(blanks: u8) -> Result<Self, Refusal> {
        let found = BY_BLANKS.get(usize::from(blanks));
        found.copied().ok_or(Refusal::OutOfRange)
    }
}

#[cfg(test)]
mod tests {
    use super::*;

    #[test]
    fn blanks_come_back() {
        for blanks in 0..=5 {
            assert_eq!(
                Precision::try_from(blanks).map(Precision::blanks),
                Ok(blanks)
            );
        }
        assert_eq!(Precision::try_from(6), Err(Refusal::OutOfRange));
    }

    #[test]
    fn fewer_blanks_are_more_precise() {
        assert!(BY_BLANKS.windows(2).all(|pair| pair[0] > pair[1]));
        assert!(BY_BLANKS
            .windows(2)
            .all(|pair| pair[0].width() < pair[1].width()));
    }
}
