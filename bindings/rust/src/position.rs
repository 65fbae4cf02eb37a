// A position, not compressed, with a time or without.

use crate::callsign::Callsign;
use crate::ffi;
use crate::latitude::Latitude;
use crate::longitude::Longitude;
use crate::out::to_vec;
use crate::place::{angles_of, place_of};
use crate::precision::Precision;
use crate::refusal::Refusal;
use crate::timestamp::Timestamp;
use std::ops::RangeInclusive;

/// A position.
///
/// The fields are those of aprs-parser, but for that of compressed positions, which are not carried. The symbol's parts
/// are bytes, and the comment is borrowed from the bytes that were read.
#[derive(Clone, Copy, Debug, PartialEq, Eq, Hash)]
#[non_exhaustive]
pub struct AprsPosition<'a> {
    /// The destination.
    pub to: Callsign,
    /// The time, which a position that starts `/` or `@` has.
    pub timestamp: Option<Timestamp>,
    /// Whether the station takes messages: `=` and `@`, not `!` and `/`.
    pub messaging_supported: bool,
    /// Where it is, with its letter; where it may be says [`latitude_bounding`](Self::latitude_bounding).
    pub latitude: Latitude,
    /// The longitude that goes with it, with its letter.
    pub longitude: Longitude,
    /// By the digits of the latitude that are blank.
    pub precision: Precision,
    /// The symbol's table; one of 128 or more is read and not written.
    pub symbol_table: u8,
    /// The symbol's code; the same.
    pub symbol_code: u8,
    /// What follows.
    pub comment: &'a [u8],
}

/// The bytes of a position before its comment, its type byte and its time not among them.
const LENGTH: usize = 19;

/// The time behind a type byte, and the position behind the time.
fn timed(bytes: &[u8]) -> Result<(Option<Timestamp>, &[u8]), Refusal> {
    let time = bytes.get(..Timestamp::LENGTH);
    let time = Timestamp::decode(time.ok_or(Refusal::PositionTooShort)?)?;
    Ok((Some(time), &bytes[Timestamp::LENGTH..]))
}

impl<'a> AprsPosition<'a> {
    /// A position without a time, of a station that takes no messages, with the symbol `//`, a dot; all else may be set
    /// by its field.
    pub fn new(to: Callsign, latitude: Latitude, longitude: Longitude) -> Self {
        AprsPosition {
            to,
            timestamp: None,
            messaging_supported: false,
            latitude,
            longitude,
            precision: Precision::default(),
            symbol_table: b'/',
            symbol_code: b'/',
            comment: b"",
        }
    }

    /// Reads a body from its type byte on; any but `!`, `=`, `/` and `@` is not carried. What a position does not keep,
    /// minutes of 60 or more, [`Latitude`] and [`Longitude`] tell of their own texts.
    ///
    /// ```
    /// use tusselgro::{AprsPosition, Callsign, Timestamp};
    ///
    /// let position = AprsPosition::decode(b"@092345z4903.50N/07201.75W>Test", Callsign::new("APRS")?)?;
    /// assert_eq!(position.timestamp, Some(Timestamp::DDHHMM(9, 23, 45)));
    /// assert_eq!(position.latitude.hundredths(), 294350);
    /// assert_eq!((position.messaging_supported, position.comment), (true, &b"Test"[..]));
    /// # Ok::<(), tusselgro::Refusal>(())
    /// ```
    pub fn decode(bytes: &'a [u8], to: Callsign) -> Result<Self, Refusal> {
        let (first, behind) = bytes.split_first().ok_or(Refusal::NotCarried)?;
        let (timestamp, text) = match first {
            b'!' | b'=' => (None, behind),
            b'/' | b'@' => timed(behind)?,
            _ => return Err(Refusal::NotCarried),
        };
        // SAFETY: the pointer and the length are those of one slice.
        let read = unsafe { ffi::tusselgro_read_position(text.as_ptr(), text.len()) };
        Refusal::check(read.refusal)?;
        let mut found = Self::of(&read.place, to)?;
        found.timestamp = timestamp;
        found.messaging_supported = matches!(first, b'=' | b'@');
        found.comment = text.get(LENGTH..).unwrap_or_default();
        Ok(found)
    }

    /// A position without a time and without a comment.
    pub(crate) fn of(place: &ffi::Place, to: Callsign) -> Result<Self, Refusal> {
        let (latitude, longitude) = angles_of(place)?;
        let mut found = AprsPosition::new(to, latitude, longitude);
        found.precision = Precision::try_from(place.blanks)?;
        found.symbol_table = place.table;
        found.symbol_code = place.code;
        Ok(found)
    }

    pub(crate) fn place(&self) -> ffi::Place {
        let symbol = (self.symbol_table, self.symbol_code);
        place_of((self.latitude, self.longitude), self.precision, symbol)
    }

    fn type_byte(&self) -> u8 {
        match (self.timestamp, self.messaging_supported) {
            (None, false) => b'!',
            (None, true) => b'=',
            (Some(_), false) => b'/',
            (Some(_), true) => b'@',
        }
    }

    /// Appends the body: the type byte, the time if there is one, the position and the comment. An angle of 0 is written
    /// N or E.
    pub fn encode(&self, out: &mut Vec<u8>) -> Result<(), Refusal> {
        let mut body = vec![self.type_byte()];
        if let Some(timestamp) = self.timestamp {
            timestamp.encode(&mut body)?;
        }
        // SAFETY: the pointer and the length are those of one slice that is lent to nobody else.
        to_vec(&mut body, |at, length| unsafe {
            ffi::tusselgro_write_position(self.place(), at, length)
        })?;
        out.append(&mut body);
        out.extend_from_slice(self.comment);
        Ok(())
    }

    /// Where the latitude may lie, in degrees.
    pub fn latitude_bounding(&self) -> RangeInclusive<f64> {
        self.latitude.bounding(self.precision)
    }

    /// Where the longitude may lie, in degrees.
    pub fn longitude_bounding(&self) -> RangeInclusive<f64> {
        self.longitude.bounding(self.precision)
    }
}

#[cfg(test)]
mod tests {
    use super::*;
    use crate::longitude::Side;

    fn decode(body: &[u8]) -> Result<AprsPosition<'_>, Refusal> {
        AprsPosition::decode(body, Callsign::default())
    }

    /// Of the Protocol Reference, chapters 6 and 8.
    #[test]
    fn published_positions_both_ways() {
        for body in [
            &b"!4903.50N/07201.75W-Test 001234"[..],
            b"=4903.50N/07201.75W#",
            b"!49  .  N/07200.00W-",
            b"/092345z4903.50N/07201.75W>Test1234",
            b"@092345/4903.50N/07201.75W>Test1234",
            b"/234517h4903.50N/07201.75W>",
        ] {
            let mut out = b"A>B:".to_vec();
            decode(body).unwrap().encode(&mut out).unwrap();
            assert_eq!(&out[4..], body);
        }
        let blank = decode(b"!49  .  N/072  .  W-").unwrap();
        assert_eq!(
            (blank.latitude.hundredths(), blank.longitude.hundredths()),
            (294000, -432000)
        );
        assert_eq!(
            (blank.latitude_bounding(), blank.longitude_bounding()),
            (48.5..=49.5, -72.5..=-71.5)
        );
        assert_eq!((blank.symbol_table, blank.symbol_code), (b'/', b'-'));
    }

    /// Document 02's R-3.
    #[test]
    fn the_type_byte_tells_of_a_time_and_of_messages() {
        let mut position = decode(b"!4903.50N/07201.75W-").unwrap();
        let noon = Some(Timestamp::HHMMSS(12, 0, 0));
        for (body, timestamp, messaging_supported) in [
            (&b"!4903.50N/07201.75W-"[..], None, false),
            (b"=4903.50N/07201.75W-", None, true),
            (b"/120000h4903.50N/07201.75W-", noon, false),
            (b"@120000h4903.50N/07201.75W-", noon, true),
        ] {
            position.timestamp = timestamp;
            position.messaging_supported = messaging_supported;
            assert_eq!(decode(body), Ok(position));
            let mut out = Vec::new();
            position.encode(&mut out).unwrap();
            assert_eq!(out, body);
        }
    }

    #[test]
    fn a_time_out_of_range_is_not_written() {
        let mut position = decode(b"!4903.50N/07201.75W-").unwrap();
        let mut out = vec![7];
        for wrong in [Timestamp::DDHHMM(0, 0, 0), Timestamp::HHMMSS(0, 0, 60)] {
            position.timestamp = Some(wrong);
            assert_eq!(position.encode(&mut out), Err(Refusal::OutOfRange));
        }
        assert_eq!(out, [7]);
    }

    /// Document 02's R-1: the record carries both letters, and 0 is written N and E.
    #[test]
    fn letters_are_read_and_zero_is_written_north_and_east() {
        let letters = |position: &AprsPosition<'_>| {
            let west = position.longitude.side() == Side::West;
            (position.latitude.is_south(), west)
        };
        for (body, south, west) in [
            (b"!0000.00N/00000.00E-", false, false),
            (b"!0000.00S/00000.00E-", true, false),
            (b"!0000.00N/00000.00W-", false, true),
            (b"!0000.00S/00000.00W-", true, true),
        ] {
            let position = decode(body).unwrap();
            assert_eq!(letters(&position), (south, west));
            let mut out = Vec::new();
            position.encode(&mut out).unwrap();
            assert_eq!(out, b"!0000.00N/00000.00E-");
        }
        let found = decode(b"!4903.50S/07201.75W-").unwrap();
        assert_eq!(letters(&found), (true, true));
    }

    /// An angle brings its letter with it, so no field that is set contradicts another.
    #[test]
    fn a_position_may_be_moved_across_the_equator() {
        let mut position = decode(b"!4903.50N/07201.75W-").unwrap();
        position.latitude = Latitude::from_dmh(33, 25, 64, false).unwrap();
        position.longitude = Longitude::from_dmh(112, 7, 74, true).unwrap();
        let mut out = Vec::new();
        position.encode(&mut out).unwrap();
        assert_eq!(out, b"!3325.64S/11207.74E-");
    }

    #[test]
    fn refusals_in_their_order() {
        let number = |body: &[u8]| decode(body).map_or_else(Refusal::number, |_| 0);
        assert_eq!(number(b""), 7);
        assert_eq!(number(b">092345z"), 7);
        assert_eq!(number(b"!/5L!!<*e7>7P["), 7);
        assert_eq!(number(b"!4903.50N/"), 10);
        assert_eq!(number(b"!9000.01N/07201.75X-"), 8);
        assert_eq!(number(b"!9000.00N/07201.75X-"), 9);
        for first in [b'/', b'@'] {
            let timed = |rest: &[u8]| number(&[&[first], rest].concat());
            assert_eq!(timed(b""), 10);
            assert_eq!(timed(b"xxxxxx"), 10);
            assert_eq!(timed(b"xxxxxxx"), 17);
            assert_eq!(timed(b"000000z/5L!!<*e7>7P["), 17);
            assert_eq!(timed(b"010000z"), 7);
            assert_eq!(timed(b"010000z/5L!!<*e7>7P["), 7);
            assert_eq!(timed(b"010000z0"), 10);
            assert_eq!(timed(b"010000z9000.01N/07201.75X-"), 8);
            assert_eq!(timed(b"010000z9000.00N/07201.75X-"), 9);
            assert_eq!(timed(b"010000z9000.00N/07201.75E-"), 0);
        }
    }

    #[test]
    fn a_symbol_of_128_or_more_is_read_and_not_written() {
        let position = decode(b"!4903.50N\x8007201.75W-").unwrap();
        let mut out = vec![7];
        assert_eq!(position.symbol_table, 0x80);
        assert_eq!(position.encode(&mut out), Err(Refusal::OutOfRange));
        assert_eq!(out, [7]);
    }
}
