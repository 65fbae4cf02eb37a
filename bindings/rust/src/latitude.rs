// A latitude: its text read and written, its bounds.

use crate::angle::{self, angle};
use crate::ffi;
use crate::out::{show, to_vec};
use crate::precision::Precision;
use crate::refusal::Refusal;
use std::fmt;
use std::ops::RangeInclusive;

/// A latitude in whole hundredths of a minute, at most 90 degrees, and its letter, N or S.
///
/// The letter is that of the sign; at 0 it is the one that was read, so `0000.00N` and `0000.00S` are two latitudes,
/// not equal, of the same hundredths. The page's box of 0 lies on the letter's side. Either is written `0000.00N`.
///
/// ```
/// use tusselgro::{Latitude, Precision};
///
/// let latitude = Latitude::from_dmh(49, 3, 50, true)?;
/// assert_eq!(latitude.hundredths(), 294350);
/// assert_eq!(latitude.degrees(), 49. + 3. / 60. + 50. / 6_000.);
/// assert_eq!(latitude.to_string(), "4903.50N");
///
/// let read = Latitude::decode_textual(b"0000.  S")?;
/// assert_eq!((read.latitude.hundredths(), read.latitude.is_south()), (0, true));
/// assert_eq!(read.precision, Precision::OneMinute);
/// assert_eq!(read.latitude.page_box(read.precision), -200..=0);
/// # Ok::<(), tusselgro::Refusal>(())
/// ```
#[derive(Clone, Copy, Debug, PartialEq, Eq, PartialOrd, Ord, Hash)]
pub struct Latitude {
    hundredths: i32,
    /// Whether the letter is N: where the hundredths are not 0, just when they are positive.
    positive: bool,
}

angle!(Latitude, 540_000, "north", "N");

/// All that a latitude's text says.
#[derive(Clone, Copy, Debug, PartialEq, Eq, Hash)]
#[non_exhaustive]
pub struct LatitudeRead {
    /// The angle with its letter; blank digits count as 0.
    pub latitude: Latitude,
    /// By the digits that are blank.
    pub precision: Precision,
    /// Whether the minutes are 60 or more.
    pub sixty: bool,
}

impl Latitude {
    /// Reads `ddmm.hh` and N or S, the last 0 to 5 digits blank.
    pub fn decode_textual(text: &[u8]) -> Result<LatitudeRead, Refusal> {
        // SAFETY: the pointer and the length are those of one slice.
        let read = unsafe { ffi::tusselgro_read_latitude(text.as_ptr(), text.len()) };
        Refusal::check(read.refusal)?;
        Ok(LatitudeRead {
            latitude: Latitude::lettered(read.latitude, !read.south)?,
            precision: Precision::try_from(read.blanks)?,
            sixty: read.sixty,
        })
    }

    /// Whether its letter is S.
    pub fn is_south(self) -> bool {
        !self.positive
    }

    /// Appends those eight bytes; the digits that the precision leaves out are cut, not rounded, and 0 is written N.
    pub fn encode_textual(self, precision: Precision, out: &mut Vec<u8>) -> Result<(), Refusal> {
        // SAFETY: the pointer and the length are those of one slice that is lent to nobody else.
        to_vec(out, |at, length| unsafe {
            ffi::tusselgro_write_latitude(self.hundredths, precision.blanks(), at, length)
        })
    }

    // An angle and a precision are in range by their types, and so are an angle and its letter: the library refuses
    // neither of the two below.

    /// Where it may lie, in degrees.
    pub fn bounding(self, precision: Precision) -> RangeInclusive<f64> {
        // SAFETY: the function takes numbers only.
        let bounds = unsafe { ffi::tusselgro_latitude_bounds(self.hundredths, precision.blanks()) };
        bounds.lower..=bounds.upper
    }

    /// The page's box of it, in half hundredths of a minute: from the digits that are printed away from 0, as far as
    /// the precision leaves it open. At 0 it lies on the side of the letter.
    pub fn page_box(self, precision: Precision) -> RangeInclusive<i32> {
        let (blanks, south) = (precision.blanks(), self.is_south());
        // SAFETY: the function takes numbers only.
        let page = unsafe { ffi::tusselgro_latitude_box(self.hundredths, blanks, south) };
        page.lower..=page.upper
    }
}

/// As APRS writes it, in full: `4903.50N`.
impl fmt::Display for Latitude {
    fn fmt(&self, f: &mut fmt::Formatter<'_>) -> fmt::Result {
        // SAFETY: the pointer and the length are those of one slice that is lent to nobody else.
        show(f, |at, length| unsafe {
            ffi::tusselgro_write_latitude(self.hundredths, 0, at, length)
        })
    }
}

#[cfg(test)]
mod tests {
    use super::*;

    fn read(text: &str) -> LatitudeRead {
        Latitude::decode_textual(text.as_bytes()).unwrap()
    }

    fn written(hundredths: i32, blanks: u8) -> String {
        let mut out = b"!".to_vec();
        let latitude = Latitude::from_hundredths(hundredths).unwrap();
        let precision = Precision::try_from(blanks).unwrap();
        latitude.encode_textual(precision, &mut out).unwrap();
        String::from_utf8(out).unwrap()
    }

    /// Of the Protocol Reference, chapter 6, and document 01's P12.
    #[test]
    fn texts_and_their_values() {
        let cases = [
            ("4903.50N", 294350, 0),
            ("4903.5 N", 294350, 1),
            ("4903.  N", 294300, 2),
            ("490 .  N", 294000, 3),
            ("49  .  N", 294000, 4),
            ("4   .  S", -240000, 5),
            ("9000.00N", 540000, 0),
        ];
        for (text, hundredths, blanks) in cases {
            let found = read(text);
            assert_eq!(found.latitude.hundredths(), hundredths, "{text}");
            assert_eq!((found.precision.blanks(), found.sixty), (blanks, false));
            assert_eq!(found.latitude.is_south(), text.ends_with('S'));
            assert_eq!(written(hundredths, blanks), format!("!{text}"));
        }
    }

    #[test]
    fn minutes_of_sixty_are_reported() {
        let sixty = read("8960.00N");
        assert_eq!((sixty.latitude.hundredths(), sixty.sixty), (540000, true));
    }

    /// Document 02's R-1: "At 0 the side is the letter read", and "a writer still takes N or E for 0".
    #[test]
    fn zero_keeps_its_letter_and_is_written_north() {
        let (north, south) = (read("0000.00N").latitude, read("0000.00S").latitude);
        assert_eq!((north.hundredths(), south.hundredths()), (0, 0));
        assert_eq!((north.is_south(), south.is_south()), (false, true));
        assert_ne!(north, south);
        assert_eq!(south.to_string(), "0000.00N");
        let mut out = Vec::new();
        south
            .encode_textual(Precision::OneMinute, &mut out)
            .unwrap();
        assert_eq!(out, b"0000.  N");
        assert_eq!(written(-50, 2), "!0000.  S");
    }

    #[test]
    fn zero_is_north_unless_it_is_told_otherwise() {
        assert_eq!(
            Latitude::from_dmh(0, 0, 0, false),
            Ok(read("0000.00S").latitude)
        );
        let north = read("0000.00N").latitude;
        assert_eq!(Latitude::from_dmh(0, 0, 0, true), Ok(north));
        assert_eq!(Latitude::from_hundredths(0), Ok(north));
        assert_eq!(Latitude::new(-1e-9), Ok(north));
        assert_eq!(Latitude::default(), north);
    }

    #[test]
    fn a_letter_that_contradicts_its_angle_is_out_of_range() {
        for hundredths in [-540000, -1, 1, 540000] {
            let own = Latitude::from_hundredths(hundredths).unwrap();
            assert_eq!(own.is_south(), hundredths < 0);
            assert_eq!(Latitude::lettered(hundredths, hundredths > 0), Ok(own));
            let other = Latitude::lettered(hundredths, hundredths < 0);
            assert_eq!(other, Err(Refusal::OutOfRange));
        }
    }

    #[test]
    fn what_is_no_latitude_is_refused() {
        for text in [
            "9000.01N",
            "4903.50E",
            "49 3.50N",
            "    .  N",
            "4903.50N/",
            "",
        ] {
            let refused = Latitude::decode_textual(text.as_bytes());
            assert_eq!(refused, Err(Refusal::Latitude), "{text}");
        }
    }

    #[test]
    fn the_limit_is_that_of_the_library() {
        for (hundredths, refusal) in [(540000, 0), (-540000, 0), (540001, 15), (-540001, 15)] {
            let mut room = [0; 8];
            // SAFETY: the pointer and the length are those of one array.
            let answer =
                unsafe { ffi::tusselgro_write_latitude(hundredths, 0, room.as_mut_ptr(), 8) };
            assert_eq!(answer.refusal, refusal);
            let made = Latitude::from_hundredths(hundredths);
            assert_eq!(made.map_or_else(Refusal::number, |_| 0), refusal);
        }
        assert_eq!(
            Latitude::from_hundredths(i32::MIN),
            Err(Refusal::OutOfRange)
        );
    }

    #[test]
    fn degrees_minutes_and_hundredths_both_ways() {
        let south = Latitude::from_dmh(33, 25, 64, false).unwrap();
        assert_eq!(
            (south.hundredths(), south.dmh()),
            (-200564, (33, 25, 64, false))
        );
        assert_eq!(Latitude::new(south.degrees()), Ok(south));
        assert_eq!(south.to_string(), "3325.64S");
        assert_eq!(Latitude::new(90.1), Err(Refusal::OutOfRange));
        assert_eq!(Latitude::from_dmh(90, 0, 1, true), Err(Refusal::OutOfRange));
        assert_eq!(format!("{:>10}", Latitude::default()), "  0000.00N");
    }

    /// Neither is refused anywhere in the type's range, or both sides would be 0.
    #[test]
    fn bounds_lie_around_every_angle_and_boxes_away_from_0() {
        let angles = [-Latitude::MOST, -1, 0, 1, Latitude::MOST].map(Latitude::from_hundredths);
        for angle in angles
            .into_iter()
            .chain([Latitude::from_dmh(0, 0, 0, false)])
        {
            let angle = angle.unwrap();
            for (blanks, width) in (0..).zip([1, 10, 100, 1000, 6000, 60000]) {
                let precision = Precision::try_from(blanks).unwrap();
                let bounds = angle.bounding(precision);
                assert!(*bounds.start() < angle.degrees() && angle.degrees() < *bounds.end());
                let (edge, page) = (2 * angle.hundredths(), angle.page_box(precision));
                let outward = if angle.is_south() {
                    edge - 2 * width..=edge
                } else {
                    edge..=edge + 2 * width
                };
                assert_eq!(page, outward);
            }
        }
    }

    /// The library's bounds are half a width from their center, to the last bit.
    #[test]
    fn bounds_and_boxes() {
        let half = 1. / 6_000. / 2.;
        for hundredths in (-Latitude::MOST..=Latitude::MOST).step_by(97) {
            let latitude = Latitude::from_hundredths(hundredths).unwrap();
            let around = latitude.degrees() - half..=latitude.degrees() + half;
            assert_eq!(latitude.bounding(Precision::HundredthMinute), around);
        }
    }

    /// Document 02's R-1, worked by hand.
    #[test]
    fn boxes_on_the_side_of_the_letter() {
        let page = |text: &str| {
            let found = read(text);
            found.latitude.page_box(found.precision)
        };
        assert_eq!(page("9000.00N"), 1080000..=1080002);
        assert_eq!(page("4903.  N"), 588600..=588800);
        assert_eq!(page("4903.  S"), -588800..=-588600);
        assert_eq!((page("0000.  N"), page("0000.  S")), (0..=200, -200..=0));
        let by_hand = Latitude::from_hundredths(-50).unwrap();
        assert_eq!(by_hand.page_box(Precision::OneMinute), -300..=-100);
    }
}
