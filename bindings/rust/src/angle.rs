// What latitude and longitude share: whole hundredths of a minute with a letter, and degrees, minutes and hundredths as
// aprs-parser counts them.

/// A size in degrees, minutes and hundredths.
pub fn parts(hundredths: i32) -> (u32, u32, u32) {
    let size = hundredths.unsigned_abs();
    (size / 6000, size / 100 % 60, size % 100)
}

/// Whole hundredths with their sign, if they are at most `most`.
pub fn made(parts: (u32, u32, u32), positive: bool, most: i32) -> Option<i32> {
    let (degrees, minutes, hundredths) =
        (u64::from(parts.0), u64::from(parts.1), u64::from(parts.2));
    let size = 6000 * degrees + 100 * minutes + hundredths;
    let size = i32::try_from(size).ok().filter(|size| *size <= most)?;
    Some(if positive { size } else { -size })
}

/// In degrees, by the sum that aprs-parser forms.
pub fn degrees(hundredths: i32) -> f64 {
    let (degrees, minutes, rest) = parts(hundredths);
    let size = f64::from(degrees) + f64::from(minutes) / 60. + f64::from(rest) / 6_000.;
    if hundredths < 0 {
        -size
    } else {
        size
    }
}

/// The hundredths that aprs-parser's `dmh` finds in degrees, if they are at most `most`.
pub fn nearest(degrees: f64, most: i32) -> Option<i32> {
    let size = degrees.abs();
    if size.is_nan() || size > f64::from(most / 6000) {
        return None;
    }
    let whole = size as u32;
    let minutes = ((size - f64::from(whole)) * 60.0) as u32;
    let rest = (size - f64::from(whole) - f64::from(minutes) / 60.0) * 6000.0;
    made((whole, minutes, rest.round() as u32), degrees >= 0.0, most)
}

/// The methods that both have.
macro_rules! angle {
    ($name:ident, $most:literal, $side:literal, $letter:literal) => {
        impl $name {
            /// The largest, in hundredths of a minute; its negative is the smallest.
            pub const MOST: i32 = $most;

            #[doc = concat!("The angle nearest to these degrees; where that is 0, it has the letter ", $letter, ".")]
            ///
            /// aprs-parser keeps the degrees as they are; here they become the hundredths of a minute that it would
            /// write for them. Past the limit, and for what is no number, it is refused.
            pub fn new(degrees: f64) -> Result<Self, Refusal> {
                let hundredths = angle::nearest(degrees, Self::MOST);
                Self::from_hundredths(hundredths.ok_or(Refusal::OutOfRange)?)
            }

            #[doc = concat!("The angle of so many hundredths of a minute, ", $side, " positive; 0 has the letter ", $letter, ".")]
            pub fn from_hundredths(hundredths: i32) -> Result<Self, Refusal> {
                Self::lettered(hundredths, hundredths >= 0)
            }

            /// The angle with its letter; one that contradicts it is out of range.
            pub(crate) fn lettered(hundredths: i32, positive: bool) -> Result<Self, Refusal> {
                let within = (-Self::MOST..=Self::MOST).contains(&hundredths);
                if within && (hundredths == 0 || positive == (hundredths > 0)) {
                    Ok($name { hundredths, positive })
                } else {
                    Err(Refusal::OutOfRange)
                }
            }

            #[doc = concat!("The angle of degrees, minutes and hundredths of a minute; `true` is ", $side, ", which at 0 is the letter ", $letter, ".")]
            pub fn from_dmh(
                degrees: u32,
                minutes: u32,
                hundredths: u32,
                positive: bool,
            ) -> Result<Self, Refusal> {
                let made = angle::made((degrees, minutes, hundredths), positive, Self::MOST);
                Self::lettered(made.ok_or(Refusal::OutOfRange)?, positive)
            }

            #[doc = concat!("Degrees, minutes and hundredths of a minute; `true` is ", $side, ", and so is 0 with either letter, as it is written.")]
            pub fn dmh(self) -> (u32, u32, u32, bool) {
                let (degrees, minutes, hundredths) = angle::parts(self.hundredths);
                (degrees, minutes, hundredths, self.hundredths >= 0)
            }

            #[doc = concat!("Hundredths of a minute, ", $side, " positive: nothing is rounded.")]
            pub fn hundredths(self) -> i32 {
                self.hundredths
            }

            #[doc = concat!("In degrees, ", $side, " positive.")]
            ///
            /// It is the number that aprs-parser has, but that 0 has no sign, and minutes of 60 or more are counted as
            /// degrees first.
            pub fn degrees(self) -> f64 {
                angle::degrees(self.hundredths)
            }

            /// The same as [`degrees`](Self::degrees), by aprs-parser's name.
            pub fn value(self) -> f64 {
                self.degrees()
            }
        }

        #[doc = concat!("0, with the letter ", $letter, ".")]
        impl Default for $name {
            fn default() -> Self {
                $name {
                    hundredths: 0,
                    positive: true,
                }
            }
        }

        impl TryFrom<i32> for $name {
            type Error = Refusal;

            /// Of hundredths of a minute.
            fn try_from(hundredths: i32) -> Result<Self, Refusal> {
                Self::from_hundredths(hundredths)
            }
        }
    };
}
pub(crate) use angle;

#[cfg(test)]
mod tests {
    use super::*;

    /// DIFFERENCES.md: `dmh` gives the whole hundredths back for each angle.
    #[test]
    fn degrees_lead_back_to_every_angle() {
        for hundredths in (-1_080_000..=1_080_000).step_by(7) {
            assert_eq!(nearest(degrees(hundredths), 1_080_000), Some(hundredths));
        }
        for hundredths in [-540_000, -539_999, -1, 0, 1, 539_999, 540_000] {
            assert_eq!(nearest(degrees(hundredths), 540_000), Some(hundredths));
        }
    }

    #[test]
    fn degrees_between_two_hundredths_go_to_the_nearer() {
        assert_eq!(nearest(1.4 / 6000., 540_000), Some(1));
        assert_eq!(nearest(-1.6 / 6000., 540_000), Some(-2));
        assert_eq!(nearest(89.999_99, 540_000), Some(540_000));
    }

    #[test]
    fn what_is_past_the_limit_is_none() {
        for degrees in [90.000_001, -90.000_001, f64::INFINITY, f64::NAN, 1e300] {
            assert_eq!(nearest(degrees, 540_000), None);
        }
        assert_eq!(made((u32::MAX, u32::MAX, u32::MAX), true, 540_000), None);
        assert_eq!(made((90, 0, 1), false, 540_000), None);
    }
}
