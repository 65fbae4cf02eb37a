// The destination of a Mic-E report.

use crate::ffi;
use crate::latitude::Latitude;
use crate::longitude::{Longitude, Side};
use crate::mic_e::Message;
use crate::precision::Precision;
use crate::refusal::Refusal;

/// All that the six call characters of a Mic-E destination say.
///
/// ```
/// use tusselgro::{mic_e::{Destination, Message}, Precision, Side};
///
/// let read = Destination::decode(b"S32U6T")?;
/// assert_eq!((read.latitude.to_string(), read.message), ("3325.64N".to_string(), Message::M3));
/// assert_eq!((read.hundred, read.side), (false, Side::West));
/// # Ok::<(), tusselgro::Refusal>(())
/// ```
#[derive(Clone, Copy, Debug, PartialEq, Eq, Hash)]
#[non_exhaustive]
pub struct Destination {
    /// The latitude with its letter; blank digits count as 0.
    pub latitude: Latitude,
    /// By the digits that are blank.
    pub precision: Precision,
    /// The message.
    pub message: Message,
    /// Whether the offset of the longitude is 100, else 0.
    pub hundred: bool,
    /// The side of the longitude.
    pub side: Side,
    /// Whether the latitude's minutes are 60 or more.
    pub sixty: bool,
}

impl Destination {
    /// Reads the call characters of a destination; its SSID is no part of them.
    pub fn decode(call: &[u8]) -> Result<Self, Refusal> {
        // SAFETY: the pointer and the length are those of one slice.
        let read = unsafe { ffi::tusselgro_read_destination(call.as_ptr(), call.len()) };
        Refusal::check(read.refusal)?;
        Ok(Destination {
            latitude: Latitude::lettered(read.latitude, !read.south)?,
            precision: Precision::try_from(read.blanks)?,
            message: Message::try_from(read.message)?,
            hundred: read.hundred,
            side: Side::of(read.west),
            sixty: read.sixty,
        })
    }

    /// The characters that carry a latitude and a message, and the offset and side of the longitude that goes with
    /// them; an angle of 0 is written north or east. A longitude of 180 degrees is out of range.
    pub fn encode(
        latitude: Latitude,
        precision: Precision,
        message: Message,
        longitude: Longitude,
    ) -> Result<[u8; 6], Refusal> {
        // SAFETY: the function takes numbers only.
        let written = unsafe {
            ffi::tusselgro_write_destination(
                latitude.hundredths(),
                precision.blanks(),
                message.number(),
                longitude.hundredths(),
            )
        };
        Refusal::check(written.refusal).map(|()| written.bytes)
    }
}

#[cfg(test)]
mod tests {
    use super::*;

    /// Document 01's P8 and P9.
    #[test]
    fn characters_and_what_they_say() {
        let read = Destination::decode(b"S32U6T").unwrap();
        assert_eq!(
            (read.latitude.hundredths(), read.precision.blanks()),
            (200564, 0)
        );
        assert_eq!(
            (read.message, read.latitude.is_south(), read.sixty),
            (Message::M3, false, false)
        );
        assert_eq!((read.hundred, read.side), (false, Side::West));
        let blank = Destination::decode(b"4LLLLL").unwrap();
        assert_eq!(
            (blank.latitude.hundredths(), blank.precision.blanks()),
            (-240000, 5)
        );
        assert_eq!(
            (blank.message, blank.latitude.is_south()),
            (Message::Emergency, true)
        );
        assert_eq!((blank.hundred, blank.side), (false, Side::East));
        let zero = Destination::decode(b"0LLLLL").unwrap();
        assert_eq!(
            (zero.latitude.hundredths(), zero.latitude.is_south()),
            (0, true)
        );
        assert_eq!((zero.hundred, zero.side), (false, Side::East));
        for wrong in [&b"LLLLLL"[..], b"S32U6", b"S32U6TT", b"s32u6t", b""] {
            assert_eq!(Destination::decode(wrong), Err(Refusal::MicEDestination));
        }
    }

    #[test]
    fn every_message_comes_back() {
        let latitude = Latitude::from_hundredths(200564).unwrap();
        let longitude = Longitude::from_hundredths(-672774).unwrap();
        for number in 0..=15 {
            let message = Message::try_from(number).unwrap();
            let precision = Precision::HundredthMinute;
            let bytes = Destination::encode(latitude, precision, message, longitude).unwrap();
            let read = Destination::decode(&bytes).unwrap();
            assert_eq!((read.latitude, read.message), (latitude, message));
            assert_eq!((read.hundred, read.side), (true, Side::West));
        }
    }

    #[test]
    fn a_half_turn_is_out_of_range() {
        let limit = Longitude::from_hundredths(Longitude::MOST).unwrap();
        let precision = Precision::HundredthMinute;
        let refused = Destination::encode(Latitude::default(), precision, Message::M0, limit);
        assert_eq!(refused, Err(Refusal::OutOfRange));
    }
}
