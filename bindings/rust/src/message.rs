// A message to a station, and whom it is for.

use crate::callsign::Callsign;
use crate::ffi;
use crate::out::to_vec;
use crate::refusal::Refusal;
use std::fmt;
use std::ops::Deref;

/// Whom a message is for: nine bytes, the last of them spaces where the name is shorter.
///
/// It is a slice of the bytes before those spaces, as aprs-parser has them. Nothing else is taken off: spaces in front
/// and within, `:` and zeros are part of it.
///
/// ```
/// use tusselgro::{Addressee, Refusal};
///
/// let addressee = Addressee::new("WU2Z")?;
/// assert_eq!(&addressee[..], b"WU2Z");
/// assert_eq!(addressee.padded(), b"WU2Z     ");
/// assert_eq!(addressee.to_string(), "WU2Z");
/// assert_eq!(addressee, Addressee::new("WU2Z  ")?);
///
/// assert_eq!(Addressee::new("WU2Z-12345"), Err(Refusal::Malformed));
/// # Ok::<(), tusselgro::Refusal>(())
/// ```
#[derive(Clone, Copy, PartialEq, Eq, PartialOrd, Ord, Hash)]
pub struct Addressee([u8; ffi::ADDRESSEE_BYTES]);

impl Addressee {
    /// An addressee of at most nine bytes, filled up with spaces.
    pub fn new(name: impl AsRef<[u8]>) -> Result<Self, Refusal> {
        let name = name.as_ref();
        let mut filled = Addressee::default();
        let front = filled.0.get_mut(..name.len()).ok_or(Refusal::Malformed)?;
        front.copy_from_slice(name);
        Ok(filled)
    }

    /// All nine bytes, as a message has them.
    pub fn padded(&self) -> &[u8; ffi::ADDRESSEE_BYTES] {
        &self.0
    }

    pub(crate) fn of(padded: [u8; ffi::ADDRESSEE_BYTES]) -> Self {
        Addressee(padded)
    }
}

/// Nine spaces: nobody by name.
impl Default for Addressee {
    fn default() -> Self {
        Addressee([b' '; ffi::ADDRESSEE_BYTES])
    }
}

impl Deref for Addressee {
    type Target = [u8];

    fn deref(&self) -> &[u8] {
        let last = self.0.iter().rposition(|byte| *byte != b' ');
        &self.0[..last.map_or(0, |last| last + 1)]
    }
}

impl AsRef<[u8]> for Addressee {
    fn as_ref(&self) -> &[u8] {
        self
    }
}

/// Without the spaces at its end. A byte that does not print is shown by its number, as in `\x00`.
impl fmt::Display for Addressee {
    fn fmt(&self, f: &mut fmt::Formatter<'_>) -> fmt::Result {
        f.pad(&self.escape_ascii().to_string())
    }
}

impl fmt::Debug for Addressee {
    fn fmt(&self, f: &mut fmt::Formatter<'_>) -> fmt::Result {
        write!(f, "Addressee(\"{}\")", self.escape_ascii())
    }
}

/// A message.
///
/// The fields are those of aprs-parser; text and identifier are borrowed from the bytes that were read. There the
/// addressee ends at the first `:`, here it has nine bytes; there text and identifier may be anything, here what a message
/// may not have is refused, read or written.
#[derive(Clone, Copy, Debug, PartialEq, Eq, Hash)]
#[non_exhaustive]
pub struct AprsMessage<'a> {
    /// The destination of the packet, which is not whom the message is for.
    pub to: Callsign,
    /// Whom it is for.
    pub addressee: Addressee,
    /// At most 67 bytes, and no `|`, `~` or `{` among them.
    pub text: &'a [u8],
    /// The identifier, if it has one: 1 to 5 bytes of any sort. An empty one is written as none.
    pub id: Option<&'a [u8]>,
}

/// The bytes of a message before its text, its type byte not among them: the addressee and `:`.
const FRONT: usize = ffi::ADDRESSEE_BYTES + 1;

impl<'a> AprsMessage<'a> {
    /// A message without an identifier.
    pub fn new(to: Callsign, addressee: Addressee, text: &'a [u8]) -> Self {
        AprsMessage {
            to,
            addressee,
            text,
            id: None,
        }
    }

    /// Reads what follows the type byte of a message.
    ///
    /// ```
    /// use tusselgro::{AprsMessage, Callsign, Refusal};
    ///
    /// let to = Callsign::new("APRS")?;
    /// let message = AprsMessage::decode(b"WU2Z     :Testing{003", to)?;
    /// assert_eq!(message.addressee.to_string(), "WU2Z");
    /// assert_eq!((message.text, message.id), (&b"Testing"[..], Some(&b"003"[..])));
    /// assert_eq!(AprsMessage::decode(b"WU2Z:Testing", to), Err(Refusal::Malformed));
    /// # Ok::<(), tusselgro::Refusal>(())
    /// ```
    pub fn decode(bytes: &'a [u8], to: Callsign) -> Result<Self, Refusal> {
        // SAFETY: the pointer and the length are those of one slice.
        let read = unsafe { ffi::tusselgro_read_message(bytes.as_ptr(), bytes.len()) };
        Refusal::check(read.refusal)?;
        let behind = bytes.get(FRONT..).unwrap_or_default();
        let (text, rest) = behind.split_at(read.text_len.min(behind.len()));
        let mut found = AprsMessage::new(to, Addressee(read.addressee), text);
        found.id = rest.get(1..).filter(|id| !id.is_empty());
        Ok(found)
    }

    /// Appends the body: the type byte, the addressee and `:`, the text and, behind a `{`, the identifier.
    pub fn encode(&self, out: &mut Vec<u8>) -> Result<(), Refusal> {
        let (addressee, text, id) = (self.addressee.padded(), self.text, self.identifier());
        let mut body = vec![b':'];
        // SAFETY: each pointer and its length are those of one slice, and the buffer is lent to nobody else.
        to_vec(&mut body, |at, length| unsafe {
            ffi::tusselgro_write_message(
                addressee.as_ptr(),
                addressee.len(),
                text.as_ptr(),
                text.len(),
                id.as_ptr(),
                id.len(),
                at,
                length,
            )
        })?;
        out.append(&mut body);
        Ok(())
    }

    /// The identifier as the library takes it: empty for none.
    pub(crate) fn identifier(&self) -> &'a [u8] {
        self.id.unwrap_or_default()
    }
}

#[cfg(test)]
mod tests {
    use super::*;

    fn decode(bytes: &[u8]) -> Result<AprsMessage<'_>, Refusal> {
        AprsMessage::decode(bytes, Callsign::default())
    }

    fn encode(message: &AprsMessage<'_>) -> Result<Vec<u8>, Refusal> {
        let mut out = vec![7];
        let done = message.encode(&mut out);
        assert!(done.is_ok() || out == [7]);
        done.map(|()| out.split_off(1))
    }

    /// A body, its addressee, text and identifier.
    type Case<'a> = (&'a [u8], &'a [u8], &'a [u8], Option<&'a [u8]>);

    /// The first two are of the Protocol Reference, chapter 14.
    #[test]
    fn messages_both_ways() {
        let cases: [Case<'_>; 8] = [
            (b":WU2Z     :Testing", b"WU2Z", b"Testing", None),
            (b":WU2Z     :Testing{003", b"WU2Z", b"Testing", Some(b"003")),
            (b":KB2ICI-14:ack003", b"KB2ICI-14", b"ack003", None),
            (b":WU2Z     :", b"WU2Z", b"", None),
            (b":WU2Z     :{1", b"WU2Z", b"", Some(b"1")),
            (b":WU2Z     :x{a{b", b"WU2Z", b"x", Some(b"a{b")),
            (b":WU2Z     :{|~{|~", b"WU2Z", b"", Some(b"|~{|~")),
            (b":: WU2Z : ::", b": WU2Z :", b":", None),
        ];
        for (body, addressee, text, id) in cases {
            let message = decode(&body[1..]).unwrap();
            assert_eq!(&message.addressee[..], addressee);
            assert_eq!((message.text, message.id), (text, id));
            assert_eq!(encode(&message), Ok(body.to_vec()));
        }
    }

    #[test]
    fn what_is_no_message_is_refused() {
        for bytes in [
            &b""[..],
            b"WU2Z",
            b"WU2Z     ",
            b"WU2Z:Testing",
            b"WU2Z      :Testing",
            b"WU2Z     :Testing{",
            b"WU2Z     :Testing{123456",
            b"WU2Z     :a|b",
            b"WU2Z     :a~b{1",
        ] {
            assert_eq!(decode(bytes), Err(Refusal::Malformed));
        }
    }

    /// Document 02's R-5: up to 67 bytes of text, 1 to 5 of an identifier, and an empty one is none.
    #[test]
    fn limits_are_those_of_a_message() {
        let (long, nobody) = ([b'x'; 68], Addressee::default());
        let mut message = AprsMessage::new(Callsign::default(), nobody, &long[..67]);
        message.id = Some(b"12345");
        let written = encode(&message).unwrap();
        assert_eq!(written.len(), 1 + 9 + 1 + 67 + 1 + 5);
        assert_eq!(decode(&written[1..]), Ok(message));
        message.id = Some(b"123456");
        assert_eq!(encode(&message), Err(Refusal::Malformed));
        message.id = Some(b"");
        assert_eq!(encode(&message).map(|body| body.len()), Ok(1 + 9 + 1 + 67));
        message.text = &long;
        assert_eq!(encode(&message), Err(Refusal::Malformed));
        for text in [&b"|"[..], b"~", b"{", b"Testing{003"] {
            message.text = text;
            assert_eq!(encode(&message), Err(Refusal::Malformed));
        }
    }

    /// No space, zero or colon of the nine bytes is lost, but that those at the end are not shown.
    #[test]
    fn nine_bytes_of_any_sort_come_back() {
        for (nine, shown) in [
            (b"WU2Z     ", "WU2Z"),
            (b"         ", ""),
            (b"  WU 2Z  ", "  WU 2Z"),
            (
                b"\0\0\0\0\0\0\0\0\0",
                r"\x00\x00\x00\x00\x00\x00\x00\x00\x00",
            ),
            (b"A\0       ", r"A\x00"),
            (b"::: : :: ", "::: : ::"),
            (b"\xc3\xa9 |~{\t\xff\\", r"\xc3\xa9 |~{\t\xff\\"),
        ] {
            let body = [&b":"[..], nine, b":x"].concat();
            let message = decode(&body[1..]).unwrap();
            assert_eq!(message.addressee.padded(), nine);
            assert_eq!(message.addressee.to_string(), shown);
            assert_eq!(
                format!("{:?}", message.addressee),
                format!("Addressee(\"{shown}\")")
            );
            assert_eq!(encode(&message).as_deref(), Ok(&body[..]));
            assert_eq!(
                Addressee::new(&message.addressee[..]),
                Ok(message.addressee)
            );
        }
    }

    #[test]
    fn a_name_is_filled_up_and_ten_bytes_are_none() {
        assert_eq!(Addressee::new("").unwrap(), Addressee::default());
        assert_eq!(Addressee::new(b"").unwrap().padded(), b"         ");
        assert_eq!(Addressee::new("KB2ICI-14").unwrap().padded(), b"KB2ICI-14");
        assert_eq!(Addressee::new("A \0").unwrap().padded(), b"A \0      ");
        assert_eq!(Addressee::new("KB2ICI-140"), Err(Refusal::Malformed));
        assert_eq!(Addressee::new("WU2Z      "), Err(Refusal::Malformed));
        assert_ne!(Addressee::new(" WU2Z"), Addressee::new("WU2Z"));
        assert_ne!(Addressee::new("WU2Z\0"), Addressee::new("WU2Z"));
    }

    #[test]
    fn a_column_is_as_wide_as_it_is_asked_to_be() {
        let addressee = Addressee::new("WU2Z").unwrap();
        assert_eq!(
            format!("{addressee:<9}|{addressee:>6}|"),
            "WU2Z     |  WU2Z|"
        );
    }
}
