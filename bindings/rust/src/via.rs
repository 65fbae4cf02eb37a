// The hops of a packet.

use crate::callsign::Callsign;
use crate::ffi::{self, MOST_HOPS};
use crate::q_construct::QConstruct;
use crate::refusal::Refusal;
use std::fmt;
use std::ops::{Deref, DerefMut};

/// A hop, as in aprs-parser: a callsign or a Q element.
///
/// A hop of a line that is just the three bytes of a name is a Q element. `qAC*`, `qAC-0` and `QAC` are callsigns, and so
/// is `qAC` as source or destination. Any other three bytes that start `qA`, which aprs-parser takes for a callsign, are
/// refused, with 6.
///
/// ```
/// use tusselgro::{AprsPacket, QConstruct, Refusal, Via};
///
/// let packet = AprsPacket::decode_textual(b"N0CALL>APRS,WIDE1-1,qAR,K1A*:>hi")?;
/// assert_eq!(packet.via[1], Via::QConstruct(QConstruct::AR));
/// assert_eq!(packet.via[0].to_string(), "WIDE1-1*");
///
/// assert_eq!(Via::decode_textual(b"qAR"), Ok(packet.via[1]));
/// assert_eq!(Via::decode_textual(b"qAx"), Err(Refusal::QElement));
/// # Ok::<(), tusselgro::Refusal>(())
/// ```
#[derive(Clone, Copy, Debug, PartialEq, Eq, Hash)]
pub enum Via {
    /// A callsign, and whether it was heard.
    ///
    /// One that is spelt as a Q element, as `qAC*` is read, is written as it stands. Where another hop gets the star, the
    /// line reads as one with a Q element.
    Callsign(Callsign, bool),
    /// A Q element, which is never heard. In a frame it is left out.
    QConstruct(QConstruct),
}

impl Via {
    /// Reads a hop of a line: a Q element, or a callsign and whether a star followed it. Only a whole line tells which
    /// callsigns were heard by a later star.
    pub fn decode_textual(text: &[u8]) -> Result<Self, Refusal> {
        if text.len() == 3 && text.starts_with(b"qA") {
            return QConstruct::decode_textual(text).map(Via::QConstruct);
        }
        let (callsign, heard) = Callsign::decode_textual(text)?;
        Ok(Via::Callsign(callsign, heard))
    }

    /// Appends the hop as text, with a star where it is a callsign that was heard. In a line only the last such has one.
    pub fn encode_textual(&self, out: &mut Vec<u8>) -> Result<(), Refusal> {
        match self {
            Via::Callsign(callsign, heard) => callsign.encode_textual(*heard, out)?,
            Via::QConstruct(q) => out.extend_from_slice(q.as_textual().as_bytes()),
        }
        Ok(())
    }

    /// The callsign, and whether it was heard; of a Q element nothing.
    pub fn callsign(&self) -> Option<(&Callsign, bool)> {
        match self {
            Via::Callsign(callsign, heard) => Some((callsign, *heard)),
            Via::QConstruct(_) => None,
        }
    }

    /// The same, to be changed.
    pub fn callsign_mut(&mut self) -> Option<(&mut Callsign, &mut bool)> {
        match self {
            Via::Callsign(callsign, heard) => Some((callsign, heard)),
            Via::QConstruct(_) => None,
        }
    }

    /// That of a record. A hop that no packet has is out of range: of another kind, or a Q element without a name.
    pub(crate) fn of(hop: &ffi::Hop) -> Result<Self, Refusal> {
        match hop.kind {
            ffi::NOT_HEARD => Ok(Via::Callsign(Callsign::of(hop.call), false)),
            ffi::HEARD => Ok(Via::Callsign(Callsign::of(hop.call), true)),
            ffi::Q_CONSTRUCT => QConstruct::of(hop.call).map(Via::QConstruct),
            _ => Err(Refusal::OutOfRange),
        }
    }

    pub(crate) fn raw(&self) -> ffi::Hop {
        let (call, kind) = match self {
            Via::Callsign(callsign, false) => (callsign.raw(), ffi::NOT_HEARD),
            Via::Callsign(callsign, true) => (callsign.raw(), ffi::HEARD),
            Via::QConstruct(q) => (q.raw(), ffi::Q_CONSTRUCT),
        };
        ffi::Hop { call, kind }
    }
}

/// The callsign, and a star where it was heard; or the name of a Q element.
impl fmt::Display for Via {
    fn fmt(&self, f: &mut fmt::Formatter<'_>) -> fmt::Result {
        match self {
            Via::Callsign(callsign, true) => write!(f, "{callsign}*"),
            Via::Callsign(callsign, false) => write!(f, "{callsign}"),
            Via::QConstruct(q) => write!(f, "{q}"),
        }
    }
}

/// The hops in their order, at most eight, Q elements among them: a slice of [`Via`], where aprs-parser has a `Vec`.
///
/// ```
/// use tusselgro::{AprsPacket, Via};
///
/// let packet = AprsPacket::decode_textual(b"A>B,C,D*,E:")?;
/// let heard = packet.via.iter().filter(|via| matches!(via, Via::Callsign(_, true)));
/// assert_eq!((packet.via.len(), heard.count()), (3, 2));
/// # Ok::<(), tusselgro::Refusal>(())
/// ```
#[derive(Clone)]
pub struct Path {
    hops: [Via; MOST_HOPS],
    count: usize,
}

impl Path {
    /// No hops.
    pub fn new() -> Self {
        let none = Via::Callsign(Callsign::default(), false);
        Path {
            hops: [none; MOST_HOPS],
            count: 0,
        }
    }

    /// Puts a hop behind the others; a ninth one of either sort is refused.
    pub fn push(&mut self, via: Via) -> Result<(), Refusal> {
        let place = self.hops.get_mut(self.count);
        *place.ok_or(Refusal::TooManyHops)? = via;
        self.count += 1;
        Ok(())
    }
}

impl Default for Path {
    fn default() -> Self {
        Path::new()
    }
}

impl Deref for Path {
    type Target = [Via];

    fn deref(&self) -> &[Via] {
        &self.hops[..self.count]
    }
}

impl DerefMut for Path {
    fn deref_mut(&mut self) -> &mut [Via] {
        &mut self.hops[..self.count]
    }
}

impl<'p> IntoIterator for &'p Path {
    type Item = &'p Via;
    type IntoIter = std::slice::Iter<'p, Via>;

    fn into_iter(self) -> Self::IntoIter {
        self.iter()
    }
}

impl TryFrom<&[Via]> for Path {
    type Error = Refusal;

    fn try_from(hops: &[Via]) -> Result<Self, Refusal> {
        let mut path = Path::new();
        hops.iter().try_for_each(|via| path.push(*via))?;
        Ok(path)
    }
}

impl PartialEq for Path {
    fn eq(&self, other: &Self) -> bool {
        **self == **other
    }
}

impl Eq for Path {}

impl fmt::Debug for Path {
    fn fmt(&self, f: &mut fmt::Formatter<'_>) -> fmt::Result {
        f.debug_list().entries(self).finish()
    }
}

#[cfg(test)]
mod tests {
    use super::*;
    use crate::packet::AprsPacket;

    fn hop(text: &str) -> Via {
        Via::Callsign(Callsign::new(text).unwrap(), false)
    }

    const Q: Via = Via::QConstruct(QConstruct::AC);

    #[test]
    fn a_ninth_hop_is_refused() {
        let mut path = Path::try_from(&[hop("A"); 8][..]).unwrap();
        assert_eq!(path.push(hop("B")), Err(Refusal::TooManyHops));
        assert_eq!(path.push(Q), Err(Refusal::TooManyHops));
        assert_eq!(&*path, [hop("A"); 8]);
        let mut path = Path::try_from(&[Q; 8][..]).unwrap();
        assert_eq!(path.push(hop("B")), Err(Refusal::TooManyHops));
        assert_eq!(&*path, [Q; 8]);
        assert_eq!(
            Path::try_from(&[hop("A"); 9][..]),
            Err(Refusal::TooManyHops)
        );
    }

    #[test]
    fn a_path_is_a_slice() {
        let mut path = Path::default();
        assert!(path.is_empty());
        path.push(hop("A")).unwrap();
        path.push(hop("WIDE2-2")).unwrap();
        *path[1].callsign_mut().unwrap().1 = true;
        let shown: Vec<String> = path.iter().map(Via::to_string).collect();
        assert_eq!(shown, ["A", "WIDE2-2*"]);
        let found = (&path).into_iter().filter_map(Via::callsign).next_back();
        assert_eq!(found, Some((&Callsign::new("WIDE2-2").unwrap(), true)));
        assert_ne!(path, Path::new());
    }

    #[test]
    fn a_q_element_is_no_callsign() {
        let mut q = Q;
        assert_eq!(q.callsign(), None);
        assert_eq!(q.callsign_mut(), None);
        for heard in [false, true] {
            assert_ne!(q, Via::Callsign(Callsign::new("qAC").unwrap(), heard));
        }
    }

    #[test]
    fn a_hop_is_read_and_written_by_itself() {
        let cases: [(&str, Via); 6] = [
            ("qAC", Q),
            ("qAC*", Via::Callsign(Callsign::new("qAC").unwrap(), true)),
            ("QAC", hop("QAC")),
            ("qA", hop("qA")),
            ("qACC", hop("qACC")),
            ("", hop("")),
        ];
        for (text, via) in cases {
            assert_eq!(Via::decode_textual(text.as_bytes()), Ok(via));
            let mut out = b"A>B,".to_vec();
            via.encode_textual(&mut out).unwrap();
            assert_eq!(out, [b"A>B,", text.as_bytes()].concat());
            assert_eq!(via.to_string(), text);
        }
        let zero = Via::decode_textual(b"qAC-0").unwrap();
        assert_eq!(zero.callsign().unwrap().0.typed_text(), "qAC-0");
        for (text, refusal) in [("qA*", 6), ("qAc", 6), ("qA-", 6), ("A-", 3)] {
            let refused = Via::decode_textual(text.as_bytes()).unwrap_err();
            assert_eq!(refused.number(), refusal);
        }
    }

    /// A comma and a colon end a hop.
    #[test]
    fn a_hop_is_read_as_in_a_line() {
        for byte in (0..=255).filter(|byte| !b",:".contains(byte)) {
            for text in [[byte, b'A', b'C'], [b'q', byte, b'C'], [b'q', b'A', byte]] {
                let line = [b"A>B,", &text[..], b":x"].concat();
                let hop = AprsPacket::decode_textual(&line).map(|packet| packet.via[0]);
                assert_eq!(Via::decode_textual(&text), hop, "{text:?}");
            }
        }
    }

    #[test]
    fn a_hop_comes_back_from_its_record() {
        for via in [hop("A"), Via::Callsign(Callsign::default(), true), Q] {
            assert_eq!(Via::of(&via.raw()), Ok(via));
        }
        let kinds = [hop("qAC"), Via::decode_textual(b"qAC*").unwrap(), Q].map(|via| via.raw());
        assert_eq!(kinds.map(|hop| hop.kind), [0, 1, 2]);
        assert!(kinds.iter().all(|hop| hop.call == kinds[0].call));
    }

    #[test]
    fn a_hop_that_no_packet_has_is_out_of_range() {
        for (via, first) in [(hop("WIDE1-1"), 2), (hop(""), 2), (Q, 3)] {
            let call = via.raw().call;
            for kind in first..=255 {
                let found = Via::of(&ffi::Hop { call, kind });
                assert_eq!(found, Err(Refusal::OutOfRange));
            }
        }
    }
}
