// A Q element: one of the ten names that a server of APRS-IS puts into a path.

use crate::ffi;
use crate::refusal::Refusal;
use std::fmt;
use std::str::FromStr;

/// A Q element, by aprs-parser's names: what a server of APRS-IS puts into a path, between callsigns.
///
/// ```
/// use tusselgro::{QConstruct, Refusal};
///
/// assert_eq!(QConstruct::AC.to_string(), "qAC");
/// assert_eq!(QConstruct::decode_textual(b"qAo"), Ok(QConstruct::Ao));
/// assert_eq!(QConstruct::decode_textual(b"qAc"), Err(Refusal::QElement));
/// ```
///
/// It has no SSID and is never heard. In a line it is one of the eight hops; a frame is written without it.
#[derive(Clone, Copy, Debug, PartialEq, Eq, Hash)]
pub enum QConstruct {
    /// `qAC`
    AC,
    /// `qAX`
    AX,
    /// `qAU`
    AU,
    /// `qAo`
    Ao,
    /// `qAO`
    AO,
    /// `qAS`
    AS,
    /// `qAr`
    Ar,
    /// `qAR`
    AR,
    /// `qAZ`
    AZ,
    /// `qAI`
    AI,
}

use QConstruct::*;

/// In the order of the enum.
const NAMES: [(QConstruct, &str); 10] = [
    (AC, "qAC"),
    (AX, "qAX"),
    (AU, "qAU"),
    (Ao, "qAo"),
    (AO, "qAO"),
    (AS, "qAS"),
    (Ar, "qAr"),
    (AR, "qAR"),
    (AZ, "qAZ"),
    (AI, "qAI"),
];

impl QConstruct {
    /// Reads one of the ten names; where aprs-parser answers `None`, this refuses, with 6.
    pub fn decode_textual(text: &[u8]) -> Result<Self, Refusal> {
        Self::found(|(_, name)| name.as_bytes() == text).ok_or(Refusal::QElement)
    }

    /// Its name, as it is written.
    pub fn as_textual(&self) -> &'static str {
        NAMES[*self as usize].1
    }

    fn found(wanted: impl Fn(&(Self, &str)) -> bool) -> Option<Self> {
        NAMES
            .iter()
            .find(|named| wanted(named))
            .map(|named| named.0)
    }

    /// That of a record's hop; anything but a name, as one with an SSID, is out of range.
    pub(crate) fn of(raw: ffi::Callsign) -> Result<Self, Refusal> {
        Self::found(|(q, _)| q.raw() == raw).ok_or(Refusal::OutOfRange)
    }

    pub(crate) fn raw(self) -> ffi::Callsign {
        let name = self.as_textual().as_bytes();
        let mut raw = ffi::Callsign {
            call_len: 3,
            ..Default::default()
        };
        raw.text[..3].copy_from_slice(name);
        raw
    }
}

impl FromStr for QConstruct {
    type Err = Refusal;

    fn from_str(text: &str) -> Result<Self, Refusal> {
        Self::decode_textual(text.as_bytes())
    }
}

/// Its name.
impl fmt::Display for QConstruct {
    fn fmt(&self, f: &mut fmt::Formatter<'_>) -> fmt::Result {
        f.pad(self.as_textual())
    }
}

#[cfg(test)]
mod tests {
    use super::*;

    #[test]
    fn names_come_back() {
        for (place, (q, name)) in NAMES.into_iter().enumerate() {
            assert_eq!((q as usize, q.as_textual()), (place, name));
            assert_eq!(name[1..], format!("{q:?}"));
            assert_eq!(QConstruct::decode_textual(name.as_bytes()), Ok(q));
            assert_eq!(name.parse(), Ok(q));
            assert_eq!(QConstruct::of(q.raw()), Ok(q));
        }
        assert_eq!(format!("{AC:>5}"), "  qAC");
    }

    #[test]
    fn ten_of_all_that_start_alike_are_names() {
        let read = |third| QConstruct::decode_textual(&[b'q', b'A', third]);
        let names: Vec<u8> = (0..=255).filter(|third| read(*third).is_ok()).collect();
        assert_eq!(names, b"CIORSUXZor");
    }

    #[test]
    fn what_is_no_name_is_refused() {
        for text in [
            &b""[..],
            b"qA",
            b"qA*",
            b"qAc",
            b"qaC",
            b"QAC",
            b"qAC*",
            b"qAC-0",
            b" qAC",
            b"WIDE1-1",
        ] {
            assert_eq!(QConstruct::decode_textual(text), Err(Refusal::QElement));
        }
    }

    /// But for the mark, which is not looked at.
    #[test]
    fn a_record_has_the_name_and_nothing_else() {
        let others: [fn(&mut ffi::Callsign); 7] = [
            |raw| *raw = ffi::Callsign::default(),
            |raw| raw.text[2] = b'c',
            |raw| raw.text[3] = b' ',
            |raw| raw.text[15] = 1,
            |raw| raw.call_len = 2,
            |raw| raw.ssid_len = 1,
            |raw| (raw.call_len, raw.ssid_len) = (1, 1),
        ];
        for change in others {
            let mut raw = AC.raw();
            change(&mut raw);
            assert_eq!(QConstruct::of(raw), Err(Refusal::OutOfRange));
        }
        let mut marked = AC.raw();
        marked.had_zero_ssid = true;
        assert_eq!(QConstruct::of(marked), Ok(AC));
    }
}
