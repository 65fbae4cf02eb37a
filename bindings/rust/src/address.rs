// A callsign as the seven bytes of an AX.25 address.

use crate::callsign::Callsign;
use crate::ffi;
use crate::refusal::Refusal;

/// The field of a frame that an address goes into.
#[derive(Clone, Copy, Debug, PartialEq, Eq, Hash)]
pub enum CallsignField {
    /// Where the frame goes to.
    Destination,
    /// Where it comes from.
    Source,
    /// A hop, and whether it was heard.
    Via(bool),
}

impl CallsignField {
    fn number(self) -> u8 {
        match self {
            CallsignField::Destination => ffi::DESTINATION,
            CallsignField::Source => ffi::SOURCE,
            CallsignField::Via(false) => ffi::HOP,
            CallsignField::Via(true) => ffi::HEARD_HOP,
        }
    }
}

impl Callsign {
    /// Reads the seven bytes of an address: the callsign, whether it was heard, and whether another address follows.
    ///
    /// ```
    /// use tusselgro::{Callsign, CallsignField};
    ///
    /// let (hop, heard, has_more) = Callsign::decode_ax25(b"\x9c\x60\x86\x82\x98\x98\xe3")?;
    /// assert_eq!((hop.as_str(), heard, has_more), ("N0CALL-1", true, false));
    ///
    /// let mut frame = Vec::new();
    /// hop.encode_ax25(&mut frame, CallsignField::Via(heard), has_more)?;
    /// assert_eq!(frame, b"\x9c\x60\x86\x82\x98\x98\xe3");
    /// # Ok::<(), tusselgro::Refusal>(())
    /// ```
    pub fn decode_ax25(address: &[u8]) -> Result<(Self, bool, bool), Refusal> {
        // SAFETY: the pointer and the length are those of one slice.
        let read = unsafe { ffi::tusselgro_read_address(address.as_ptr(), address.len()) };
        Refusal::check(read.refusal).map(|()| (Callsign::of(read.call), read.heard, !read.last))
    }

    /// Appends the seven bytes of an address. The call must have at most six letters and digits, which become capitals;
    /// the SSID must be a number up to 15.
    pub fn encode_ax25(
        &self,
        out: &mut Vec<u8>,
        field: CallsignField,
        has_more: bool,
    ) -> Result<(), Refusal> {
        // SAFETY: the function takes values only.
        let address =
            unsafe { ffi::tusselgro_write_address(self.raw(), field.number(), !has_more) };
        Refusal::check(address.refusal).map(|()| out.extend_from_slice(&address.bytes))
    }
}

#[cfg(test)]
mod tests {
    use super::*;

    fn address(text: &str, field: CallsignField, has_more: bool) -> Result<Vec<u8>, Refusal> {
        let mut out = Vec::new();
        let callsign = Callsign::new(text).unwrap();
        callsign
            .encode_ax25(&mut out, field, has_more)
            .map(|()| out)
    }

    /// Of AX.25 2.2, and document 01's P10.
    #[test]
    fn published_addresses() {
        use CallsignField::{Destination, Source, Via};
        let published: [(&str, CallsignField, bool, &[u8]); 5] = [
            ("NJ7P", Destination, true, b"\x9c\x94\x6e\xa0\x40\x40\xe0"),
            ("N7LEM", Source, false, b"\x9c\x6e\x98\x8a\x9a\x40\x61"),
            ("N7LEM", Source, true, b"\x9c\x6e\x98\x8a\x9a\x40\x60"),
            ("N7OO-1", Via(true), false, b"\x9c\x6e\x9e\x9e\x40\x40\xe3"),
            (
                "N0CALL-1",
                Via(true),
                false,
                b"\x9c\x60\x86\x82\x98\x98\xe3",
            ),
        ];
        for (text, field, has_more, bytes) in published {
            assert_eq!(address(text, field, has_more), Ok(bytes.to_vec()));
            let heard = bytes[6] & 0x80 != 0;
            let callsign = Callsign::new(text).unwrap();
            assert_eq!(
                Callsign::decode_ax25(bytes),
                Ok((callsign, heard, has_more))
            );
        }
        let unheard = address("N0CALL-1", Via(false), true);
        assert_eq!(unheard, Ok(b"\x9c\x60\x86\x82\x98\x98\x62".to_vec()));
    }

    #[test]
    fn what_an_address_cannot_hold_is_refused() {
        for text in ["ABCDEFG", "A-16", "A-X", "A/B", "A-B-C"] {
            let refused = address(text, CallsignField::Source, true);
            assert_eq!(refused, Err(Refusal::NotAx25), "{text}");
        }
        let mut out = vec![7];
        let seven = Callsign::new("ABCDEFG").unwrap();
        assert!(seven
            .encode_ax25(&mut out, CallsignField::Source, true)
            .is_err());
        assert_eq!(out, [7]);
    }

    #[test]
    fn what_is_no_address_is_refused() {
        let whole = b"\x9c\x60\x86\x82\x98\x98\xe3\x00";
        for wrong in [&whole[..6], &whole[..8], &[0x9d; 7], &[]] {
            assert_eq!(Callsign::decode_ax25(wrong), Err(Refusal::Callsign));
        }
    }
}
