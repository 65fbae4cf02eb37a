// A longitude: its text read and written, its bounds.

use crate::angle::{self, angle};
use crate::ffi;
use crate::out::{show, to_vec};
use crate::precision::Precision;
use crate::refusal::Refusal;
use std::fmt;
use std::ops::RangeInclusive;

/// A longitude in whole hundredths of a minute, at most 180 degrees, and its letter, E or W.
///
/// The letter is that of the sign; at 0 it is the one that was read, so `00000.00E` and `00000.00W` are two
/// longitudes, not equal, of the same hundredths. The page's box of 0 lies on the letter's side. Either is written
/// `00000.00E`.
///
/// ```
/// use tusselgro::{Longitude, Precision, Side};
///
/// let read = Longitude::decode_textual(b"07201.75W", Precision::HundredthMinute)?;
/// assert_eq!(read.longitude.hundredths(), -432175);
/// assert_eq!(read.longitude.degrees(), -(72. + 1. / 60. + 75. / 6_000.));
/// assert_eq!(read.longitude.to_string(), "07201.75W");
///
/// let zero = Longitude::from_dmh(0, 0, 0, false)?;
/// assert_eq!((zero.hundredths(), zero.side()), (0, Side::West));
/// assert_eq!(zero.page_box(Precision::HundredthMinute), -2..=0);
/// # Ok::<(), tusselgro::Refusal>(())
/// ```
#[derive(Clone, Copy, Debug, PartialEq, Eq, PartialOrd, Ord, Hash)]
pub struct Longitude {
    hundredths: i32,
    /// Whether the letter is E: where the hundredths are not 0, just when they are positive.
    positive: bool,
}

angle!(Longitude, 1_080_000, "east", "E");

/// The side of a longitude. 0 is on both, and its letter says on which it was told.
#[derive(Clone, Copy, Debug, PartialEq, Eq, Hash)]
pub enum Side {
    /// East of Greenwich.
    East,
    /// West of it.
    West,
}

impl Side {
    pub(crate) fn of(west: bool) -> Side {
        if west {
            Side::West
        } else {
            Side::East
        }
    }

    pub(crate) fn is_west(self) -> bool {
        self == Side::West
    }
}

/// All that a longitude's text says.
#[derive(Clone, Copy, Debug, PartialEq, Eq, Hash)]
#[non_exhaustive]
pub struct LongitudeRead {
    /// The angle with its letter.
    pub longitude: Longitude,
    /// Whether the minutes are 60 or more.
    pub sixty: bool,
}

impl Longitude {
    /// Reads `dddmm.hh` and E or W; the last digits, as many as are blank in the latitude beside it, count as 0,
    /// whichever bytes stand there.
    pub fn decode_textual(text: &[u8], precision: Precision) -> Result<LongitudeRead, Refusal> {
        let blanks = precision.blanks();
        // SAFETY: the pointer and the length are those of one slice.
        let read = unsafe { ffi::tusselgro_read_longitude(text.as_ptr(), text.len(), blanks) };
        Refusal::check(read.refusal)?;
        Ok(LongitudeRead {
            longitude: Longitude::lettered(read.longitude, !read.west)?,
            sixty: read.sixty,
        })
    }

    /// Its side, by its letter.
    pub fn side(self) -> Side {
        Side::of(!self.positive)
    }

    /// Appends those nine bytes, in full: only a latitude has blanks. 0 is written E.
    pub fn encode_textual(self, out: &mut Vec<u8>) -> Result<(), Refusal> {
        // SAFETY: the pointer and the length are those of one slice that is lent to nobody else.
        to_vec(out, |at, length| unsafe {
            ffi::tusselgro_write_longitude(self.hundredths, at, length)
        })
    }

    // An angle and a precision are in range by their types, and so are an angle and its letter: the library refuses
    // neither of the two below.

    /// Where it may lie, in degrees.
    pub fn bounding(self, precision: Precision) -> RangeInclusive<f64> {
        // SAFETY: the function takes numbers only.
        let bounds =
            unsafe { ffi::tusselgro_longitude_bounds(self.hundredths, precision.blanks()) };
        bounds.lower..=bounds.upper
    }

    /// The page's box of it, in half hundredths of a minute: from the digits that are printed away from 0, as far as
    /// the precision leaves it open. At 0 it lies on the side of the letter.
    pub fn page_box(self, precision: Precision) -> RangeInclusive<i32> {
        let (blanks, west) = (precision.blanks(), self.side().is_west());
        // SAFETY: the function takes numbers only.
        let page = unsafe { ffi::tusselgro_longitude_box(self.hundredths, blanks, west) };
        page.lower..=page.upper
    }
}

/// As APRS writes it: `07201.75W`.
impl fmt::Display for Longitude {
    fn fmt(&self, f: &mut fmt::Formatter<'_>) -> fmt::Result {
        // SAFETY: the pointer and the length are those of one slice that is lent to nobody else.
        show(f, |at, length| unsafe {
            ffi::tusselgro_write_longitude(self.hundredths, at, length)
        })
    }
}

#[cfg(test)]
mod tests {
    use super::*;

    fn read(text: &str, precision: Precision) -> LongitudeRead {
        Longitude::decode_textual(text.as_bytes(), precision).unwrap()
    }

    #[test]
    fn texts_and_their_values() {
        let cases = [
            ("07201.75W", -432175),
            ("00905.07E", 54507),
            ("00000.00E", 0),
            ("18000.00E", 1080000),
            ("18000.00W", -1080000),
        ];
        for (text, hundredths) in cases {
            let longitude = read(text, Precision::HundredthMinute).longitude;
            assert_eq!(
                (longitude.hundredths(), &*longitude.to_string()),
                (hundredths, text)
            );
            let mut out = b"/".to_vec();
            longitude.encode_textual(&mut out).unwrap();
            assert_eq!(out, format!("/{text}").as_bytes());
        }
    }

    #[test]
    fn digits_that_precision_discards_count_as_zero() {
        let found = read("072x .?!W", Precision::OneDegree);
        assert_eq!(
            (found.longitude.hundredths(), found.longitude.side()),
            (-432000, Side::West)
        );
    }

    #[test]
    fn minutes_of_sixty_are_reported() {
        assert!(read("00060.00E", Precision::HundredthMinute).sixty);
        assert!(!read("00100.00E", Precision::HundredthMinute).sixty);
    }

    /// Document 02's R-1: "At 0 the side is the letter read", and "a writer still takes N or E for 0".
    #[test]
    fn zero_keeps_its_letter_and_is_written_east() {
        let zero =
            |letter| read(&format!("00000.00{letter}"), Precision::HundredthMinute).longitude;
        let (east, west) = (zero('E'), zero('W'));
        assert_eq!((east.hundredths(), east.side()), (0, Side::East));
        assert_eq!((west.hundredths(), west.side()), (0, Side::West));
        assert_ne!(east, west);
        assert_eq!(west.to_string(), "00000.00E");
        assert_eq!(Longitude::from_dmh(0, 0, 0, false), Ok(west));
        assert_eq!(Longitude::from_dmh(0, 0, 0, true), Ok(east));
        assert_eq!(Longitude::from_hundredths(0), Ok(east));
        assert_eq!(Longitude::default(), east);
    }

    #[test]
    fn a_letter_that_contradicts_its_angle_is_out_of_range() {
        for (hundredths, side) in [(-1, Side::West), (1, Side::East)] {
            let own = Longitude::from_hundredths(hundredths).unwrap();
            assert_eq!(own.side(), side);
            let other = Longitude::lettered(hundredths, side.is_west());
            assert_eq!(other, Err(Refusal::OutOfRange));
        }
    }

    #[test]
    fn what_is_no_longitude_is_refused() {
        for text in ["18000.01E", "07201.75N", "072 1.75W", "7201.75W", ""] {
            let refused = Longitude::decode_textual(text.as_bytes(), Precision::HundredthMinute);
            assert_eq!(refused, Err(Refusal::Longitude), "{text}");
        }
    }

    #[test]
    fn the_limit_is_that_of_the_library() {
        for (hundredths, refusal) in [(1080000, 0), (-1080000, 0), (1080001, 15), (-1080001, 15)] {
            let mut room = [0; 9];
            // SAFETY: the pointer and the length are those of one array.
            let answer =
                unsafe { ffi::tusselgro_write_longitude(hundredths, room.as_mut_ptr(), 9) };
            assert_eq!(answer.refusal, refusal);
            let made = Longitude::from_hundredths(hundredths);
            assert_eq!(made.map_or_else(Refusal::number, |_| 0), refusal);
        }
    }

    /// Neither is refused anywhere in the type's range, or both sides would be 0.
    #[test]
    fn bounds_lie_around_every_angle_and_boxes_away_from_0() {
        let angles = [-Longitude::MOST, -1, 0, 1, Longitude::MOST].map(Longitude::from_hundredths);
        for angle in angles
            .into_iter()
            .chain([Longitude::from_dmh(0, 0, 0, false)])
        {
            let angle = angle.unwrap();
            for (blanks, width) in (0..).zip([1, 10, 100, 1000, 6000, 60000]) {
                let precision = Precision::try_from(blanks).unwrap();
                let bounds = angle.bounding(precision);
                assert!(*bounds.start() < angle.degrees() && angle.degrees() < *bounds.end());
                let (edge, page) = (2 * angle.hundredths(), angle.page_box(precision));
                let outward = match angle.side() {
                    Side::East => edge..=edge + 2 * width,
                    Side::West => edge - 2 * width..=edge,
                };
                assert_eq!(page, outward);
            }
        }
    }

    /// The boxes are worked by hand from document 02's R-1.
    #[test]
    fn bounds_and_boxes() {
        let west = Longitude::from_hundredths(-432000).unwrap();
        assert_eq!(west.bounding(Precision::TenDegree), -77.0..=-67.0);
        assert_eq!(west.page_box(Precision::TenDegree), -984000..=-864000);
        let limit = Longitude::from_hundredths(-1080000).unwrap();
        assert_eq!(
            limit.page_box(Precision::HundredthMinute),
            -2160002..=-2160000
        );
        let zero = Longitude::from_dmh(0, 0, 0, false).unwrap();
        assert_eq!(zero.page_box(Precision::TenMinute), -2000..=0);
    }
}
