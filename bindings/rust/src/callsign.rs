// A callsign: the call, and the SSID as it was written.

use crate::ffi;
use crate::out::to_vec;
use crate::refusal::Refusal;
use std::fmt;
use std::str::FromStr;

/// A callsign: the call, and the SSID as it was written, `01` as `01`.
///
/// ```
/// use tusselgro::Callsign;
///
/// let callsign: Callsign = "N0CALL-01".parse()?;
/// assert_eq!((callsign.call(), callsign.ssid()), ("N0CALL", Some("01")));
/// assert_eq!(callsign.to_string(), "N0CALL-01");
/// assert_ne!(callsign, Callsign::new("N0CALL-1")?);
/// # Ok::<(), tusselgro::Refusal>(())
/// ```
///
/// It is in the order of its text's bytes, and `Default` is the empty one, which a line may have. Unlike that of
/// aprs-parser it is `Copy`, has at most 16 bytes of text, and each way to make one may refuse. An SSID `0` is dropped as
/// it is there, but not without a [mark](Self::had_zero_ssid); callsigns that differ in the mark alone are equal.
#[derive(Clone, Copy, Default, PartialEq, Eq, PartialOrd, Ord, Hash)]
pub struct Callsign(ffi::Callsign);

impl Callsign {
    /// A callsign from its text, as in `N0CALL` or `N0CALL-1`. The first dash splits it, an SSID `0` is dropped and
    /// leaves its mark.
    ///
    /// A star behind the text is no part of a callsign and refused; [`decode_textual`](Self::decode_textual) reports
    /// it. Where aprs-parser answers `None`, this says why.
    pub fn new(text: impl AsRef<str>) -> Result<Self, Refusal> {
        match Self::decode_textual(text.as_ref().as_bytes())? {
            (callsign, false) => Ok(callsign),
            (_, true) => Err(Refusal::Callsign),
        }
    }

    /// A callsign without an SSID; a call with a dash in it is refused.
    pub fn new_no_ssid(call: impl AsRef<str>) -> Result<Self, Refusal> {
        Self::new(&call)?.with_call(call.as_ref())
    }

    /// A callsign of a call and an SSID; `0` is none but for its mark, and an empty one is refused.
    pub fn new_with_ssid(call: impl AsRef<str>, ssid: impl AsRef<str>) -> Result<Self, Refusal> {
        let call = call.as_ref();
        Self::new(format!("{call}-{}", ssid.as_ref()))?.with_call(call)
    }

    /// Itself, if this is its call.
    fn with_call(self, call: &str) -> Result<Self, Refusal> {
        if self.call() == call {
            Ok(self)
        } else {
            Err(Refusal::Callsign)
        }
    }

    /// Reads a callsign's text; whether a star followed it, which a heard hop has.
    pub fn decode_textual(text: &[u8]) -> Result<(Self, bool), Refusal> {
        // SAFETY: the pointer and the length are those of one slice.
        let read = unsafe { ffi::tusselgro_read_callsign(text.as_ptr(), text.len()) };
        Refusal::check(read.refusal).map(|()| (Callsign(read.call), read.starred))
    }

    /// Appends the text, and a star where `heard`.
    pub fn encode_textual(&self, heard: bool, out: &mut Vec<u8>) -> Result<(), Refusal> {
        // SAFETY: the pointer and the length are those of one slice that is lent to nobody else.
        to_vec(out, |at, length| unsafe {
            ffi::tusselgro_write_callsign(self.0, heard, at, length)
        })
    }

    /// The call, which may be empty.
    pub fn call(&self) -> &str {
        self.part(0, self.lengths().0)
    }

    /// The SSID without its dash.
    pub fn ssid(&self) -> Option<&str> {
        match self.lengths() {
            (_, 0) => None,
            (call, ssid) => Some(self.part(call + 1, ssid)),
        }
    }

    /// Call, dash and SSID.
    pub fn as_str(&self) -> &str {
        match self.lengths() {
            (call, 0) => self.part(0, call),
            (call, ssid) => self.part(0, call + 1 + ssid),
        }
    }

    /// Whether it was read from a text with the SSID `0`, which is dropped: that of `A-0` and `A-0*`, not of `A-00`,
    /// `A-0-0` or `A-+0`.
    ///
    /// A frame has no such text, so its callsigns are never marked. A mark is never written, and callsigns are equal
    /// with it and without.
    ///
    /// ```
    /// use tusselgro::{AprsPacket, Callsign};
    ///
    /// let packet = AprsPacket::decode_textual(b"N0CALL-0>APRS,WIDE1-0*:")?;
    /// assert!(packet.from.had_zero_ssid());
    /// assert_eq!(packet.to().map(Callsign::had_zero_ssid), Some(false));
    /// assert_eq!((packet.from.to_string(), packet.from.ssid()), ("N0CALL".to_string(), None));
    /// assert_eq!(packet.from, Callsign::new("N0CALL")?);
    /// # Ok::<(), tusselgro::Refusal>(())
    /// ```
    pub fn had_zero_ssid(&self) -> bool {
        self.0.had_zero_ssid
    }

    /// The text that it was read from, but for a star: call, dash and SSID, and the `-0` that was dropped. Of an AX.25
    /// address, what [`as_str`](Self::as_str) is.
    ///
    /// ```
    /// use tusselgro::Callsign;
    ///
    /// for text in ["N0CALL", "N0CALL-0", "N0CALL-00"] {
    ///     assert_eq!(Callsign::new(text)?.typed_text(), text);
    /// }
    /// # Ok::<(), tusselgro::Refusal>(())
    /// ```
    pub fn typed_text(&self) -> String {
        let dropped = if self.had_zero_ssid() { "-0" } else { "" };
        [self.as_str(), dropped].concat()
    }

    /// The bytes of the call, and those of the SSID.
    fn lengths(&self) -> (usize, usize) {
        (self.0.call_len.into(), self.0.ssid_len.into())
    }

    /// A part of the text; nothing where the record of it is not in range, whatever it holds.
    fn part(&self, from: usize, length: usize) -> &str {
        let bytes = self.0.text.get(from..from + length).unwrap_or_default();
        std::str::from_utf8(bytes).unwrap_or_default()
    }

    pub(crate) fn of(raw: ffi::Callsign) -> Self {
        Callsign(raw)
    }

    pub(crate) fn raw(&self) -> ffi::Callsign {
        self.0
    }
}

impl FromStr for Callsign {
    type Err = Refusal;

    fn from_str(text: &str) -> Result<Self, Refusal> {
        Self::new(text)
    }
}

/// What a [`PacketBuilder`](crate::PacketBuilder) takes as a callsign: one, or the text of one.
pub trait IntoCallsign {
    /// The callsign, or why it is none.
    fn into_callsign(self) -> Result<Callsign, Refusal>;
}

impl IntoCallsign for Callsign {
    fn into_callsign(self) -> Result<Callsign, Refusal> {
        Ok(self)
    }
}

impl IntoCallsign for &Callsign {
    fn into_callsign(self) -> Result<Callsign, Refusal> {
        Ok(*self)
    }
}

impl<T: AsRef<str>> IntoCallsign for T {
    fn into_callsign(self) -> Result<Callsign, Refusal> {
        Callsign::new(self)
    }
}

/// Call, dash and SSID, its zeros kept; a dropped `-0` is not shown, which [`typed_text`](Callsign::typed_text) has.
impl fmt::Display for Callsign {
    fn fmt(&self, f: &mut fmt::Formatter<'_>) -> fmt::Result {
        f.pad(self.as_str())
    }
}

impl fmt::Debug for Callsign {
    fn fmt(&self, f: &mut fmt::Formatter<'_>) -> fmt::Result {
        f.debug_tuple("Callsign").field(&self.as_str()).finish()
    }
}

#[cfg(test)]
mod tests {
    use super::*;
    use crate::CallsignField;
    use std::cmp::Ordering;
    use std::collections::hash_map::DefaultHasher;
    use std::collections::HashSet;
    use std::hash::{Hash, Hasher};

    fn new(text: &str) -> Callsign {
        Callsign::new(text).unwrap()
    }

    fn hash(callsign: Callsign) -> u64 {
        let mut state = DefaultHasher::new();
        callsign.hash(&mut state);
        state.finish()
    }

    fn written(callsign: Callsign) -> Vec<u8> {
        let mut out = Vec::new();
        callsign.encode_textual(true, &mut out).unwrap();
        callsign
            .encode_ax25(&mut out, CallsignField::Source, false)
            .unwrap();
        out
    }

    #[test]
    fn an_ssid_keeps_its_zeros() {
        let callsign = new("N0CALL-01");
        assert_eq!(callsign.call(), "N0CALL");
        assert_eq!(callsign.ssid(), Some("01"));
        assert_eq!(callsign.to_string(), "N0CALL-01");
        assert_eq!(format!("{callsign:?}"), "Callsign(\"N0CALL-01\")");
        assert_eq!(new("A-00").ssid(), Some("00"));
    }

    #[test]
    fn without_an_ssid_there_is_no_dash() {
        for text in ["APRS", "APRS-0"] {
            assert_eq!((new(text).as_str(), new(text).ssid()), ("APRS", None));
        }
        assert_eq!(new(""), Callsign::default());
        assert_eq!(new("").to_string(), "");
    }

    /// Document 02's R-2.
    #[test]
    fn a_dropped_zero_leaves_its_mark() {
        for call in ["A", "0", "ABCDEFGHIJKLMN", "\u{20ac}"] {
            let text = format!("{call}-0");
            let marked = new(&text);
            assert!(marked.had_zero_ssid(), "{text}");
            assert_eq!((marked.as_str(), marked.ssid()), (call, None));
            assert_eq!(marked.typed_text(), text);
        }
        for text in [
            "", "A", "A0", "A-00", "A-0-0", "A-+0", "A-01", "A-10", "A-0*0",
        ] {
            assert!(!new(text).had_zero_ssid(), "{text}");
            assert_eq!(new(text).typed_text(), text);
        }
        let (starred, star) = Callsign::decode_textual(b"A-0*").unwrap();
        assert_eq!((starred.typed_text(), star), ("A-0".to_string(), true));
        let (twice, _) = Callsign::decode_textual(b"A-0**").unwrap();
        assert_eq!((twice.ssid(), twice.had_zero_ssid()), (Some("0*"), false));
    }

    #[test]
    fn a_callsign_of_parts_is_marked_by_its_ssid() {
        let mark = |made: Result<Callsign, Refusal>| made.unwrap().had_zero_ssid();
        assert!(mark(Callsign::new_with_ssid("A", "0")));
        assert!(!mark(Callsign::new_with_ssid("A", "00")));
        assert!(!mark(Callsign::new_no_ssid("A")));
        assert!(!Callsign::default().had_zero_ssid());
    }

    #[test]
    fn an_address_has_no_mark() {
        for seventh in [0x60, 0xe1] {
            let address = [0x9c, 0x6e, 0x98, 0x8a, 0x9a, 0x40, seventh];
            let (callsign, ..) = Callsign::decode_ax25(&address).unwrap();
            assert_eq!(
                (callsign.as_str(), callsign.had_zero_ssid()),
                ("N7LEM", false)
            );
        }
    }

    #[test]
    fn a_mark_is_no_part_of_the_name() {
        let (marked, plain) = (new("N7LEM-0"), new("N7LEM"));
        assert!(marked.had_zero_ssid() && !plain.had_zero_ssid());
        assert_eq!(marked, plain);
        assert_eq!(marked.cmp(&plain), Ordering::Equal);
        assert_eq!(hash(marked), hash(plain));
        assert_eq!(format!("{marked} {marked:?}"), "N7LEM Callsign(\"N7LEM\")");
        for callsign in [marked, plain] {
            assert_eq!(written(callsign), b"N7LEM*\x9c\x6e\x98\x8a\x9a\x40\x61");
        }
    }

    #[test]
    fn two_parts_make_what_one_text_makes() {
        assert_eq!(
            Callsign::new_with_ssid("N0CALL", "01"),
            Ok(new("N0CALL-01"))
        );
        assert_eq!(Callsign::new_with_ssid("APRS", "0"), Ok(new("APRS")));
        assert_eq!(Callsign::new_no_ssid("APRS"), Ok(new("APRS")));
        assert_eq!(Callsign::new_with_ssid("A", "B-C"), Ok(new("A-B-C")));
    }

    #[test]
    fn what_is_no_callsign_is_refused() {
        for text in ["A-", "-1", "-", "A*", "A-1*", "-*"] {
            assert_eq!(text.parse::<Callsign>(), Err(Refusal::Callsign), "{text}");
        }
        let long = Err(Refusal::CallsignTooLong);
        assert_eq!(Callsign::new("ABCDEFGHIJKLMNO-0"), long);
        assert_eq!(Callsign::new_with_ssid("ABCDEFGHIJKLMNO", "1"), long);
        assert_eq!(Callsign::new_no_ssid("ABCDEFGHIJKLMNOPQ"), long);
        assert!(Callsign::new_no_ssid("ABCDEFGHIJKLMNOP").is_ok());
        for refused in [
            Callsign::new_no_ssid("A-1"),
            Callsign::new_no_ssid("A-0"),
            Callsign::new_with_ssid("A-B", "1"),
            Callsign::new_with_ssid("A", ""),
            Callsign::new_with_ssid("", "1"),
            Callsign::new_with_ssid("A", "1*"),
        ] {
            assert_eq!(refused, Err(Refusal::Callsign));
        }
    }

    #[test]
    fn the_star_of_a_text_is_reported() {
        assert_eq!(
            Callsign::decode_textual(b"WIDE2-2*"),
            Ok((new("WIDE2-2"), true))
        );
        assert_eq!(Callsign::decode_textual(b"K1A"), Ok((new("K1A"), false)));
        assert_eq!(Callsign::decode_textual(b"\xff"), Err(Refusal::Callsign));
    }

    #[test]
    fn a_text_goes_behind_what_is_there() {
        let mut out = b"A>B,".to_vec();
        new("WIDE2-2").encode_textual(true, &mut out).unwrap();
        new("K1A").encode_textual(false, &mut out).unwrap();
        assert_eq!(out, b"A>B,WIDE2-2*K1A");
    }

    #[test]
    fn characters_of_many_bytes_are_kept_whole() {
        let callsign = new("\u{d8}-\u{20ac}");
        assert_eq!(
            (callsign.call(), callsign.ssid()),
            ("\u{d8}", Some("\u{20ac}"))
        );
    }

    #[test]
    fn the_order_is_that_of_the_text() {
        let mut some = ["B", "A-2", "A-10", "A", "A-01", "", "A-1"].map(new);
        some.sort();
        assert_eq!(some, ["", "A", "A-01", "A-1", "A-10", "A-2", "B"].map(new));
        assert_eq!(some.iter().collect::<HashSet<_>>().len(), 7);
    }

    #[test]
    fn a_column_is_as_wide_as_it_is_asked_to_be() {
        assert_eq!(
            format!("{:<7}|{:>5}|", new("K1A"), new("B")),
            "K1A    |    B|"
        );
    }

    #[test]
    fn a_record_out_of_range_has_no_text() {
        let made = |text: u8, call_len, ssid_len| {
            let text = [text; 16];
            Callsign(ffi::Callsign {
                text,
                call_len,
                ssid_len,
                had_zero_ssid: false,
            })
        };
        for wild in [made(b'A', u8::MAX, u8::MAX), made(0xff, 4, 2)] {
            assert_eq!(
                (wild.as_str(), wild.call(), wild.ssid()),
                ("", "", Some(""))
            );
            let mut out = vec![7];
            assert_eq!(
                wild.encode_textual(false, &mut out),
                Err(Refusal::OutOfRange)
            );
            assert_eq!(out, [7]);
        }
    }
}
