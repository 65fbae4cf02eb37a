// A Mic-E report: its destination and its body together.

use crate::callsign::Callsign;
use crate::latitude::Latitude;
use crate::longitude::Longitude;
use crate::mic_e::{Course, Destination, Information, Message, Speed};
use crate::precision::Precision;
use crate::refusal::Refusal;

/// A Mic-E report.
///
/// The fields are those of aprs-parser. The comment is borrowed from the bytes that were read.
#[derive(Clone, Copy, Debug, PartialEq, Eq, Hash)]
#[non_exhaustive]
pub struct AprsMicE<'a> {
    /// Where it is, with its letter.
    pub latitude: Latitude,
    /// The longitude that goes with it, with its letter; to be written, short of 180 degrees.
    pub longitude: Longitude,
    /// By the digits of the latitude that are blank.
    pub precision: Precision,
    /// The message.
    pub message: Message,
    /// The speed.
    pub speed: Speed,
    /// The course.
    pub course: Course,
    /// The symbol's table.
    pub symbol_table: u8,
    /// The symbol's code.
    pub symbol_code: u8,
    /// What follows.
    pub comment: &'a [u8],
    /// Whether the report is current, not old.
    pub current: bool,
}

impl<'a> AprsMicE<'a> {
    /// A current report from a place, with message M0, speed 0, unknown course and the symbol `//`, a dot; all else
    /// may be set by its field.
    pub fn new(latitude: Latitude, longitude: Longitude) -> Self {
        AprsMicE {
            latitude,
            longitude,
            precision: Precision::default(),
            message: Message::M0,
            speed: Speed::default(),
            course: Course::UNKNOWN,
            symbol_table: b'/',
            symbol_code: b'/',
            comment: b"",
            current: true,
        }
    }

    /// Reads what follows the type byte of a Mic-E body, with the destination that it was sent to.
    ///
    /// ```
    /// use tusselgro::{AprsMicE, Callsign};
    ///
    /// let report = AprsMicE::decode(b"(_fn\"Oj/Hello", Callsign::new("S32U6T")?, true)?;
    /// assert_eq!((report.latitude.to_string(), report.comment), ("3325.64N".to_string(), &b"Hello"[..]));
    /// # Ok::<(), tusselgro::Refusal>(())
    /// ```
    pub fn decode(bytes: &'a [u8], to: Callsign, current: bool) -> Result<Self, Refusal> {
        let destination = Destination::decode(to.call().as_bytes())?;
        let information = Information::decode(bytes, destination.hundred, destination.side)?;
        Ok(AprsMicE {
            latitude: destination.latitude,
            longitude: information.longitude,
            precision: destination.precision,
            message: destination.message,
            speed: information.speed,
            course: information.course,
            symbol_table: information.symbol_table,
            symbol_code: information.symbol_code,
            comment: bytes.get(Information::LENGTH..).unwrap_or_default(),
            current,
        })
    }

    /// Appends the body: the type byte, the information and the comment.
    pub fn encode(&self, out: &mut Vec<u8>) -> Result<(), Refusal> {
        let mut body = vec![if self.current { b'`' } else { b'\'' }];
        self.information().encode(&mut body)?;
        out.append(&mut body);
        out.extend_from_slice(self.comment);
        Ok(())
    }

    /// The destination that goes with the body; it says N and E for angles of 0. aprs-parser always has one; here 180
    /// degrees of longitude are refused.
    pub fn encode_destination(&self) -> Result<Callsign, Refusal> {
        let bytes =
            Destination::encode(self.latitude, self.precision, self.message, self.longitude)?;
        Callsign::decode_textual(&bytes).map(|(callsign, _)| callsign)
    }

    fn information(&self) -> Information {
        Information {
            longitude: self.longitude,
            speed: self.speed,
            course: self.course,
            symbol_code: self.symbol_code,
            symbol_table: self.symbol_table,
        }
    }
}

#[cfg(test)]
mod tests {
    use super::*;
    use crate::longitude::Side;

    #[test]
    fn destination_and_body_both_ways() {
        let to = Callsign::new("S32UVT-7").unwrap();
        for (current, body) in [(true, &b"`(_fn\"Oj/Hi"[..]), (false, b"'(_fn\"Oj/Hi")] {
            let report = AprsMicE::decode(&body[1..], to, current).unwrap();
            assert_eq!((report.comment, report.current), (&b"Hi"[..], current));
            assert_eq!(report.encode_destination(), Callsign::new("S32UVT"));
            let mut out = b"A>B:".to_vec();
            report.encode(&mut out).unwrap();
            assert_eq!(&out[4..], body);
        }
    }

    /// Document 02's R-1: both letters of 0 are read, and 0 is written N and E: P to Z fourth, a digit sixth.
    #[test]
    fn zero_keeps_its_letters_and_is_written_north_and_east() {
        let to = Callsign::new("0000PP").unwrap();
        let report = AprsMicE::decode(b"vX\x1cn\"Oj/", to, true).unwrap();
        assert_eq!(
            (report.latitude.hundredths(), report.longitude.hundredths()),
            (0, 0)
        );
        assert!(report.latitude.is_south() && report.longitude.side() == Side::West);
        assert_eq!(report.encode_destination(), Callsign::new("000PP0"));
        let mut out = Vec::new();
        report.encode(&mut out).unwrap();
        assert_eq!(out, b"`vX\x1cn\"Oj/");
        let again = AprsMicE::decode(&out[1..], Callsign::new("000PP0").unwrap(), true);
        let built = AprsMicE::new(Latitude::default(), Longitude::default());
        assert_eq!(
            again.map(|again| (again.latitude, again.longitude)),
            Ok((built.latitude, built.longitude))
        );
    }

    #[test]
    fn the_destination_is_refused_before_the_information() {
        let decode = |to: &str| AprsMicE::decode(b"", Callsign::new(to).unwrap(), true);
        assert_eq!(decode("LLLLLL"), Err(Refusal::MicEDestination));
        assert_eq!(decode("S32U6T"), Err(Refusal::MicEInformation));
    }

    #[test]
    fn a_half_turn_is_not_written() {
        let limit = Longitude::from_hundredths(-Longitude::MOST).unwrap();
        let report = AprsMicE::new(Latitude::default(), limit);
        let mut out = vec![7];
        assert_eq!(report.encode(&mut out), Err(Refusal::OutOfRange));
        assert_eq!(report.encode_destination(), Err(Refusal::OutOfRange));
        assert_eq!(out, [7]);
    }
}
