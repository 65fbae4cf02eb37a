// The information of a Mic-E report.

use crate::ffi;
use crate::longitude::{Longitude, Side};
use crate::mic_e::{Course, Speed};
use crate::out::to_vec;
use crate::refusal::Refusal;

/// What the eight bytes of information behind the type byte of a Mic-E report say.
///
/// ```
/// use tusselgro::{mic_e::Information, Side};
///
/// let read = Information::decode(b"(_fn\"Oj/", true, Side::West)?;
/// assert_eq!(read.longitude.to_string(), "11207.74W");
/// assert_eq!((read.speed.knots(), read.course.degrees()), (20, 251));
/// # Ok::<(), tusselgro::Refusal>(())
/// ```
#[derive(Clone, Copy, Debug, PartialEq, Eq, Hash)]
pub struct Information {
    /// The longitude, with the letter of the side that the destination gave.
    pub longitude: Longitude,
    /// The speed.
    pub speed: Speed,
    /// The course.
    pub course: Course,
    /// The symbol's code, which comes before its table.
    pub symbol_code: u8,
    /// The symbol's table.
    pub symbol_table: u8,
}

impl Information {
    /// The bytes that it takes; the comment is what follows them.
    pub const LENGTH: usize = 8;

    /// Reads the information, under the offset (100 or 0) and the side that the destination gave.
    pub fn decode(bytes: &[u8], hundred: bool, side: Side) -> Result<Self, Refusal> {
        // SAFETY: the pointer and the length are those of one slice.
        let read = unsafe {
            ffi::tusselgro_read_information(bytes.as_ptr(), bytes.len(), hundred, side.is_west())
        };
        Refusal::check(read.refusal)?;
        Ok(Information {
            longitude: Longitude::lettered(read.information.longitude, !side.is_west())?,
            speed: Speed::new(read.information.speed)?,
            course: Course::new(read.information.course)?,
            symbol_code: read.information.code,
            symbol_table: read.information.table,
        })
    }

    /// Appends the eight bytes. A longitude of 180 degrees is out of range.
    pub fn encode(&self, out: &mut Vec<u8>) -> Result<(), Refusal> {
        let raw = ffi::Information {
            longitude: self.longitude.hundredths(),
            speed: self.speed.knots(),
            course: self.course.degrees(),
            code: self.symbol_code,
            table: self.symbol_table,
        };
        // SAFETY: the pointer and the length are those of one slice that is lent to nobody else.
        to_vec(out, |at, length| unsafe {
            ffi::tusselgro_write_information(raw, at, length)
        })
    }
}

#[cfg(test)]
mod tests {
    use super::*;

    fn information(longitude: i32, speed: u32, course: u32) -> Information {
        Information {
            longitude: Longitude::from_hundredths(longitude).unwrap(),
            speed: Speed::new(speed).unwrap(),
            course: Course::new(course).unwrap(),
            symbol_code: b'j',
            symbol_table: b'/',
        }
    }

    /// Of the Protocol Reference, chapter 10.
    #[test]
    fn the_published_example_both_ways() {
        let read = Information::decode(b"(_fn\"Oj/ comment", true, Side::West);
        assert_eq!(read, Ok(information(-672774, 20, 251)));
        let mut out = b"`".to_vec();
        read.unwrap().encode(&mut out).unwrap();
        assert_eq!(out, b"`(_fn\"Oj/");
    }

    #[test]
    fn zero_has_the_letter_of_the_side() {
        for side in [Side::East, Side::West] {
            let read = Information::decode(b"vX\x1cl \x1cj/", true, side).unwrap();
            assert_eq!(
                (read.longitude.hundredths(), read.longitude.side()),
                (0, side)
            );
        }
    }

    /// Document 01's P1 to P7.
    #[test]
    fn fields_of_the_bench() {
        let motion = |bytes: [u8; 3]| {
            let mut field = *b"vX\x1c...j/";
            field[3..6].copy_from_slice(&bytes);
            Information::decode(&field, true, Side::East)
        };
        assert_eq!(motion([108, 32, 28]), Ok(information(0, 0, 0)));
        assert_eq!(motion([28, 28, 28]), Ok(information(0, 0, 0)));
        assert_eq!(motion([27, 28, 28]), Err(Refusal::MicEInformation));
        assert_eq!(motion([28, 37, 28]), Err(Refusal::MicEInformation));
        let mut out = Vec::new();
        information(630000, 799, 360).encode(&mut out).unwrap();
        assert_eq!(out, [113, 88, 28, 107, 125, 88, b'j', b'/']);
    }

    #[test]
    fn what_is_short_or_out_of_range_is_refused() {
        let short = Information::decode(b"(_fn\"Oj", true, Side::West);
        assert_eq!(short, Err(Refusal::MicEInformation));
        let mut out = vec![7];
        let limit = information(Longitude::MOST, 0, 0).encode(&mut out);
        assert_eq!((limit, out), (Err(Refusal::OutOfRange), vec![7]));
    }
}
