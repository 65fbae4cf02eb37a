// Every Mic-E field that means one setting.

use crate::ffi::{self, Answer};
use crate::longitude::{Longitude, Side};
use crate::mic_e::{Course, Speed};
use crate::refusal::Refusal;

/// Three bytes of Mic-E information.
pub type Field = [u8; 3];

/// Every field that means this speed and course, in ascending order.
///
/// ```
/// use tusselgro::mic_e::{Course, Speed};
///
/// let fields = tusselgro::list_motion(Speed::new(0)?, Course::UNKNOWN)?;
/// assert_eq!((fields.len(), fields[0]), (16, [28, 28, 28]));
/// # Ok::<(), tusselgro::Refusal>(())
/// ```
pub fn list_motion(speed: Speed, course: Course) -> Result<Vec<Field>, Refusal> {
    all(|out| motion(speed, course, out))
}

/// The same by way of `out`, for who wants nothing allocated. At [`Refusal::NoRoom`] it says how many bytes would do.
pub fn list_motion_to_slice(
    speed: Speed,
    course: Course,
    out: &mut [u8],
) -> Result<impl Iterator<Item = Field> + '_, Refusal> {
    let answer = motion(speed, course, out);
    first(out, answer)
}

/// Every field that means this longitude under a destination of this offset (100 or 0) and side, in ascending order.
/// There may be none.
pub fn list_longitude(
    longitude: Longitude,
    hundred: bool,
    side: Side,
) -> Result<Vec<Field>, Refusal> {
    all(|out| degrees(longitude, hundred, side, out))
}

/// The same by way of `out`.
pub fn list_longitude_to_slice(
    longitude: Longitude,
    hundred: bool,
    side: Side,
    out: &mut [u8],
) -> Result<impl Iterator<Item = Field> + '_, Refusal> {
    let answer = degrees(longitude, hundred, side, out);
    first(out, answer)
}

fn motion(speed: Speed, course: Course, out: &mut [u8]) -> Answer {
    let (knots, degrees) = (speed.knots(), course.degrees());
    // SAFETY: the pointer and the length are those of one slice that is lent to nobody else.
    unsafe { ffi::tusselgro_list_motion(knots, degrees, out.as_mut_ptr(), out.len()) }
}

fn degrees(longitude: Longitude, hundred: bool, side: Side, out: &mut [u8]) -> Answer {
    let (angle, west) = (longitude.hundredths(), side.is_west());
    // SAFETY: the pointer and the length are those of one slice that is lent to nobody else.
    unsafe { ffi::tusselgro_list_longitude(angle, hundred, west, out.as_mut_ptr(), out.len()) }
}

/// The fields that a lister reported, at the front of `out`.
fn first(out: &[u8], answer: Answer) -> Result<impl Iterator<Item = Field> + '_, Refusal> {
    let count = Refusal::reported(answer)?;
    let fields = out.chunks_exact(3).take(count);
    Ok(fields.map(|field| [field[0], field[1], field[2]]))
}

/// All fields of a lister, in as much room as it asks for.
fn all(list: impl Fn(&mut [u8]) -> Answer) -> Result<Vec<Field>, Refusal> {
    let mut out = vec![0; list(&mut []).needed];
    let answer = list(&mut out);
    first(&out, answer).map(Iterator::collect)
}

#[cfg(test)]
mod tests {
    use super::*;

    fn zero() -> (Speed, Course) {
        (Speed::default(), Course::UNKNOWN)
    }

    /// Document 01's sixteen.
    #[test]
    fn fields_of_no_motion() {
        let seconds = |first: u8, tens: u8| {
            [
                [first, tens, 28],
                [first, tens + 2, 228],
                [first, tens + 3, 128],
                [first, tens + 4, 28],
            ]
        };
        let mut expected = Vec::new();
        for (first, tens) in [(28, 28), (106, 228), (107, 128), (108, 28)] {
            expected.extend(seconds(first, tens));
        }
        assert_eq!(list_motion(zero().0, zero().1), Ok(expected));
    }

    #[test]
    fn fields_of_a_longitude() {
        let east = |hundredths| {
            list_longitude(
                Longitude::from_hundredths(hundredths).unwrap(),
                true,
                Side::East,
            )
        };
        assert_eq!(east(0), Ok(vec![[118, 28, 28], [118, 88, 28]]));
        assert_eq!(east(270000), Ok(vec![]));
        assert!(east(Longitude::MOST).is_ok());
    }

    #[test]
    fn a_lent_buffer_serves_too() {
        let mut out = [0xaa; 51];
        let fields = list_motion_to_slice(zero().0, zero().1, &mut out).unwrap();
        assert_eq!(fields.last(), Some([108, 32, 28]));
        assert_eq!(out[48..], [0xaa; 3]);
        let short = list_motion_to_slice(zero().0, zero().1, &mut out[..47]).err();
        assert_eq!(short, Some(Refusal::NoRoom { needed: 48 }));
        let none = list_longitude_to_slice(Longitude::new(45.).unwrap(), true, Side::East, &mut []);
        assert_eq!(none.unwrap().count(), 0);
    }
}
