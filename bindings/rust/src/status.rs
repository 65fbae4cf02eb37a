// A status line.

use crate::callsign::Callsign;
use crate::ffi;
use crate::out::to_vec;
use crate::refusal::Refusal;
use crate::timestamp::Timestamp;

/// A status line.
///
/// The names are those of aprs-parser, where a time of any form is read as one. Here it is [`Timestamp::DDHHMM`] alone:
/// seven bytes that are one of those are read so, and any others are the beginning of the comment. A time of another
/// form, which `new_noncompliant` takes there, is refused when it is written.
#[derive(Clone, Copy, Debug, PartialEq, Eq, Hash)]
#[non_exhaustive]
pub struct AprsStatus<'a> {
    /// The destination.
    pub to: Callsign,
    /// The time, if it has one.
    pub timestamp: Option<Timestamp>,
    /// What the line says, borrowed from the bytes that were read: at most 62 bytes, behind a time 55. Without a time it
    /// may not start with one.
    pub comment: &'a [u8],
}

impl<'a> AprsStatus<'a> {
    /// A status with a time or without.
    pub fn new(to: Callsign, timestamp: Option<Timestamp>, comment: &'a [u8]) -> Self {
        AprsStatus {
            to,
            timestamp,
            comment,
        }
    }

    /// The time, if it has one.
    pub fn timestamp(&self) -> Option<&Timestamp> {
        self.timestamp.as_ref()
    }

    /// What the line says.
    pub fn comment(&self) -> &'a [u8] {
        self.comment
    }

    /// Whether its time is one that a status may have; none is fine too.
    pub fn is_timestamp_compliant(&self) -> bool {
        matches!(self.timestamp, None | Some(Timestamp::DDHHMM(..)))
    }

    /// Reads what follows the type byte of a status.
    ///
    /// ```
    /// use tusselgro::{AprsStatus, Callsign, Timestamp};
    ///
    /// let to = Callsign::new("APRS")?;
    /// let status = AprsStatus::decode(b"092345zNet Control Center", to)?;
    /// assert_eq!(status.timestamp, Some(Timestamp::DDHHMM(9, 23, 45)));
    /// assert_eq!(status.comment, b"Net Control Center");
    ///
    /// let status = AprsStatus::decode(b"234517hNet Control Center", to)?;
    /// assert_eq!((status.timestamp, status.comment.len()), (None, 25));
    /// # Ok::<(), tusselgro::Refusal>(())
    /// ```
    pub fn decode(bytes: &'a [u8], to: Callsign) -> Result<Self, Refusal> {
        // SAFETY: the pointer and the length are those of one slice.
        let read = unsafe { ffi::tusselgro_read_status(bytes.as_ptr(), bytes.len()) };
        Refusal::check(read.refusal)?;
        let timestamp = Timestamp::of(read.time)?;
        let behind = timestamp.map_or(0, |_| Timestamp::LENGTH);
        let comment = bytes.get(behind..).unwrap_or_default();
        Ok(AprsStatus::new(to, timestamp, comment))
    }

    /// Appends the body: the type byte, the time if there is one, and the comment.
    pub fn encode(&self, out: &mut Vec<u8>) -> Result<(), Refusal> {
        let (time, text) = (self.time(), self.comment);
        let mut body = vec![b'>'];
        // SAFETY: each pointer and its length are those of one slice, and the buffer is lent to nobody else.
        to_vec(&mut body, |at, length| unsafe {
            ffi::tusselgro_write_status(time, text.as_ptr(), text.len(), at, length)
        })?;
        out.append(&mut body);
        Ok(())
    }

    pub(crate) fn time(&self) -> ffi::Time {
        self.timestamp.map(Timestamp::raw).unwrap_or_default()
    }
}

#[cfg(test)]
mod tests {
    use super::*;

    fn decode(bytes: &[u8]) -> Result<AprsStatus<'_>, Refusal> {
        AprsStatus::decode(bytes, Callsign::default())
    }

    fn encode(timestamp: Option<Timestamp>, comment: &[u8]) -> Result<Vec<u8>, Refusal> {
        let mut out = vec![7];
        let done = AprsStatus::new(Callsign::default(), timestamp, comment).encode(&mut out);
        assert!(done.is_ok() || out == [7]);
        done.map(|()| out.split_off(1))
    }

    /// The first two are of the Protocol Reference, chapter 16.
    #[test]
    fn statuses_both_ways() {
        let nine = Some(Timestamp::DDHHMM(9, 23, 45));
        let cases: [(&[u8], Option<Timestamp>, &[u8]); 6] = [
            (b">Net Control Center", None, b"Net Control Center"),
            (b">092345zNet Control Center", nine, b"Net Control Center"),
            (b">", None, b""),
            (b">092345z", nine, b""),
            (b">092345z092345z", nine, b"092345z"),
            (b">|~{\xff", None, b"|~{\xff"),
        ];
        for (body, timestamp, comment) in cases {
            let status = decode(&body[1..]).unwrap();
            assert_eq!((status.timestamp, status.comment), (timestamp, comment));
            assert_eq!(status.timestamp(), timestamp.as_ref());
            assert_eq!(status.comment(), comment);
            assert_eq!(encode(timestamp, comment), Ok(body.to_vec()));
        }
    }

    /// Document 02's R-5: "Seven bytes that form such a time are read as one", and no others.
    #[test]
    fn what_is_no_time_is_text() {
        for text in [
            &b"092345/x"[..],
            b"234517hx",
            b"000000zx",
            b"320000zx",
            b"092345Zx",
            b"09 345zx",
            b"092345",
        ] {
            assert_eq!(
                decode(text),
                Ok(AprsStatus::new(Callsign::default(), None, text))
            );
            assert_eq!(encode(None, text), Ok([b">", text].concat()));
        }
    }

    #[test]
    fn a_timeless_comment_that_starts_with_a_time_is_not_written() {
        for text in [&b"092345z"[..], b"010000zx"] {
            assert_eq!(encode(None, text), Err(Refusal::Malformed));
        }
    }

    #[test]
    fn limits_are_those_of_a_status() {
        let (long, time) = ([b'x'; 63], Some(Timestamp::DDHHMM(1, 0, 0)));
        assert_eq!(encode(None, &long[..62]).map(|body| body.len()), Ok(63));
        assert_eq!(encode(None, &long), Err(Refusal::Malformed));
        assert_eq!(encode(time, &long[..55]).map(|body| body.len()), Ok(63));
        assert_eq!(encode(time, &long[..56]), Err(Refusal::Malformed));
        assert!(decode(&long[..62]).is_ok());
        assert_eq!(decode(&long), Err(Refusal::Malformed));
        assert!(decode(&[b"010000z", &long[..55]].concat()).is_ok());
        let over = [b"010000z", &long[..56]].concat();
        assert_eq!(decode(&over), Err(Refusal::Malformed));
    }

    #[test]
    fn a_time_that_no_status_has_is_out_of_range() {
        for (timestamp, compliant) in [
            (Timestamp::DDHHMMLocal(9, 23, 45), false),
            (Timestamp::HHMMSS(23, 45, 17), false),
            (Timestamp::DDHHMM(32, 0, 0), true),
        ] {
            let status = AprsStatus::new(Callsign::default(), Some(timestamp), b"x");
            assert_eq!(status.is_timestamp_compliant(), compliant);
            assert_eq!(
                encode(Some(timestamp), &[b'x'; 63]),
                Err(Refusal::OutOfRange)
            );
        }
        assert!(decode(b"x").unwrap().is_timestamp_compliant());
        assert!(decode(b"092345z").unwrap().is_timestamp_compliant());
    }
}
