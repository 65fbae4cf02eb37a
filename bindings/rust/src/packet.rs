// A packet: read from a line or a frame, and written as either.

use crate::callsign::Callsign;
use crate::ffi;
use crate::inner::{Around, Inner};
use crate::message::AprsMessage;
use crate::mic_e::AprsMicE;
use crate::out::{to_slice, to_vec};
use crate::position::AprsPosition;
use crate::record::{packet_of, record_of};
use crate::refusal::Refusal;
use crate::status::AprsStatus;
use crate::via::Path;

/// A packet.
///
/// The fields are those of aprs-parser. Nothing is allocated: comment, text and identifier are borrowed from the bytes
/// that were read, so those must live as long as the packet. [`position`](Self::position), [`message`](Self::message),
/// [`status`](Self::status) and [`mic_e`](Self::mic_e) build one.
///
/// A packet may have others inside it, each in the body of the one around it. Then source, destination and hops are the
/// outermost header's, the data is what the innermost packet carries, and [`inner`](Self::inner) has that packet's header.
///
/// ```
/// use tusselgro::{AprsData, AprsPacket};
///
/// let line = b"N0CALL-01>APRS,WIDE1-1,WIDE2-2*,K1A:!4903.50N/07201.75W-Test";
/// let packet = AprsPacket::decode_textual(line)?;
/// assert_eq!(packet.from.to_string(), "N0CALL-01");
/// if let AprsData::Position(position) = &packet.data {
///     assert_eq!(position.latitude.to_string(), "4903.50N");
///     assert_eq!(position.comment, b"Test");
/// }
///
/// let mut out = Vec::new();
/// packet.encode_textual(&mut out)?;
/// assert_eq!(out, line);
/// # Ok::<(), tusselgro::Refusal>(())
/// ```
#[derive(Clone, Debug, PartialEq, Eq)]
#[non_exhaustive]
pub struct AprsPacket<'a> {
    /// The source.
    pub from: Callsign,
    /// The hops.
    pub via: Path,
    /// What it carries, or the innermost packet does.
    pub data: AprsData<'a>,
    pub(crate) around: Option<Around>,
}

/// What a packet carries. Compressed positions, which aprs-parser reads, are refused by name: see
/// [`Refusal::NotCarried`].
#[derive(Clone, Copy, Debug, PartialEq, Eq, Hash)]
#[non_exhaustive]
pub enum AprsData<'a> {
    /// A position.
    Position(AprsPosition<'a>),
    /// A message.
    Message(AprsMessage<'a>),
    /// A status line.
    Status(AprsStatus<'a>),
    /// A Mic-E report.
    MicE(AprsMicE<'a>),
    /// Anything else, to this destination; it cannot be written.
    Unknown(Callsign),
}

impl<'a> AprsData<'a> {
    /// The destination, which is that of the innermost packet; a Mic-E report has none, since those bytes are part of the
    /// report.
    pub fn to(&self) -> Option<&Callsign> {
        match self {
            AprsData::Position(position) => Some(&position.to),
            AprsData::Message(message) => Some(&message.to),
            AprsData::Status(status) => Some(&status.to),
            AprsData::MicE(_) => None,
            AprsData::Unknown(to) => Some(to),
        }
    }

    /// The comment, or the text of a message; of what is unknown, nothing.
    pub fn comment(&self) -> &'a [u8] {
        match self {
            AprsData::Position(position) => position.comment,
            AprsData::Message(message) => message.text,
            AprsData::Status(status) => status.comment,
            AprsData::MicE(report) => report.comment,
            AprsData::Unknown(_) => b"",
        }
    }

    /// The identifier of a message; empty for none, which other kinds have.
    fn identifier(&self) -> &'a [u8] {
        match self {
            AprsData::Message(message) => message.identifier(),
            _ => b"",
        }
    }
}

impl<'a> From<AprsPosition<'a>> for AprsData<'a> {
    fn from(position: AprsPosition<'a>) -> Self {
        AprsData::Position(position)
    }
}

impl<'a> From<AprsMessage<'a>> for AprsData<'a> {
    fn from(message: AprsMessage<'a>) -> Self {
        AprsData::Message(message)
    }
}

impl<'a> From<AprsStatus<'a>> for AprsData<'a> {
    fn from(status: AprsStatus<'a>) -> Self {
        AprsData::Status(status)
    }
}

impl<'a> From<AprsMicE<'a>> for AprsData<'a> {
    fn from(report: AprsMicE<'a>) -> Self {
        AprsData::MicE(report)
    }
}

type Reader = unsafe extern "C" fn(*const u8, usize) -> ffi::Read;
type Writer = unsafe extern "C" fn(
    ffi::Record,
    *const u8,
    usize,
    *const u8,
    usize,
    *mut u8,
    usize,
) -> ffi::Answer;

fn read(reader: Reader, bytes: &[u8]) -> Result<AprsPacket<'_>, Refusal> {
    // SAFETY: the pointer and the length are those of one slice.
    let found = unsafe { reader(bytes.as_ptr(), bytes.len()) };
    Refusal::check(found.refusal)?;
    packet_of(&found.record, bytes)
}

impl<'a> AprsPacket<'a> {
    /// A packet of a position, a message, a status or a Mic-E report, without hops.
    pub fn new(from: Callsign, data: impl Into<AprsData<'a>>) -> Self {
        AprsPacket {
            from,
            via: Path::new(),
            data: data.into(),
            around: None,
        }
    }

    /// Reads a line of text, without its line end.
    pub fn decode_textual(line: &'a [u8]) -> Result<Self, Refusal> {
        read(ffi::tusselgro_read_text, line)
    }

    /// Reads an AX.25 frame, without flags and checksum.
    pub fn decode_ax25(frame: &'a [u8]) -> Result<Self, Refusal> {
        read(ffi::tusselgro_read_frame, frame)
    }

    /// Reads a line of text strictly, for proof sheets. What it accepts is the packet that
    /// [`decode_textual`](Self::decode_textual) gives.
    ///
    /// It also refuses minutes of 60 or more: in a position with 8 or 9, in a Mic-E destination with 11. Blank and
    /// discarded digits count as 0. Last of all it refuses, with 20, the symbol table of either that is not `/`, `\`, a
    /// digit or a capital letter. A packet inside is judged as an outer one. Times, messages, status lines and what is
    /// unknown have no strict rule.
    ///
    /// A latitude is done before its longitude begins, a destination before its information: what is usually 9 may be 8
    /// here, and what is usually 12 may be 11. Any other refusal is the same.
    ///
    /// ```
    /// use tusselgro::{AprsPacket, Refusal};
    ///
    /// let line = b"N0CALL>APRS:!4903.50N/07201.75W-";
    /// assert_eq!(AprsPacket::decode_textual_strictly(line), AprsPacket::decode_textual(line));
    ///
    /// let minutes = b"N0CALL>APRS:!8960.00N/07201.75W-";
    /// assert!(AprsPacket::decode_textual(minutes).is_ok());
    /// assert_eq!(AprsPacket::decode_textual_strictly(minutes), Err(Refusal::Latitude));
    ///
    /// let table = b"N0CALL>APRS:!4903.50Na07201.75W-";
    /// assert_eq!(AprsPacket::decode_textual_strictly(table), Err(Refusal::SymbolTable));
    /// # Ok::<(), Refusal>(())
    /// ```
    pub fn decode_textual_strictly(line: &'a [u8]) -> Result<Self, Refusal> {
        read(ffi::tusselgro_read_text_strictly, line)
    }

    /// Reads an AX.25 frame strictly, by the same rules. What it accepts is the packet that
    /// [`decode_ax25`](Self::decode_ax25) gives.
    pub fn decode_ax25_strictly(frame: &'a [u8]) -> Result<Self, Refusal> {
        read(ffi::tusselgro_read_frame_strictly, frame)
    }

    /// Appends the packet as a line of text, without a line end; at a refusal nothing. The last heard callsign of the
    /// hops gets the star, which says that those before it were heard too. One with others inside it is refused, with 14.
    pub fn encode_textual(&self, out: &mut Vec<u8>) -> Result<(), Refusal> {
        to_vec(out, self.by(ffi::tusselgro_write_text))
    }

    /// Appends the packet as an AX.25 frame, without flags and checksum; at a refusal nothing. Q elements are left out.
    pub fn encode_ax25(&self, out: &mut Vec<u8>) -> Result<(), Refusal> {
        to_vec(out, self.by(ffi::tusselgro_write_frame))
    }

    /// Writes the packet as a line of text to the front of `out`, and returns what was written; no other byte of
    /// `out` is changed, and at a refusal none. [`MOST_BYTES`](crate::MOST_BYTES) are enough for any.
    pub fn encode_textual_to_slice<'b>(&self, out: &'b mut [u8]) -> Result<&'b [u8], Refusal> {
        to_slice(out, self.by(ffi::tusselgro_write_text))
    }

    /// The same as an AX.25 frame.
    pub fn encode_ax25_to_slice<'b>(&self, out: &'b mut [u8]) -> Result<&'b [u8], Refusal> {
        to_slice(out, self.by(ffi::tusselgro_write_frame))
    }

    /// What puts the packet into a buffer.
    fn by(&self, writer: Writer) -> impl FnOnce(*mut u8, usize) -> ffi::Answer + '_ {
        let (comment, identifier) = (self.comment(), self.data.identifier());
        let record = record_of(self);
        move |at, length| {
            // SAFETY: each pointer and its length are those of one slice, and the buffer is lent to nobody else.
            unsafe {
                writer(
                    record,
                    comment.as_ptr(),
                    comment.len(),
                    identifier.as_ptr(),
                    identifier.len(),
                    at,
                    length,
                )
            }
        }
    }

    /// The destination; a Mic-E packet has none, but one with such a packet inside it has.
    pub fn to(&self) -> Option<&Callsign> {
        match &self.around {
            Some(around) => Some(&around.to),
            None => self.data.to(),
        }
    }

    /// The innermost header and the number of packets inside, where there are any.
    ///
    /// ```
    /// use tusselgro::AprsPacket;
    ///
    /// let packet = AprsPacket::decode_textual(b"N0CALL>APRS:}W1AW-9>APZ,TCPIP,N0CALL*:>Net Control Center")?;
    /// assert_eq!(packet.from.to_string(), "N0CALL");
    /// let inner = packet.inner().unwrap();
    /// assert_eq!((inner.from.to_string(), inner.via.len(), inner.number), ("W1AW-9".to_string(), 2, 1));
    /// assert_eq!(packet.comment(), b"Net Control Center");
    /// # Ok::<(), tusselgro::Refusal>(())
    /// ```
    pub fn inner(&self) -> Option<Inner<'_>> {
        self.around.as_ref().map(|around| Inner {
            number: around.number,
            from: &around.from,
            to: self.data.to(),
            via: &around.via,
        })
    }

    /// The innermost packet by itself, which can be written; where there is none inside, this packet.
    pub fn innermost(&self) -> Self {
        let (from, via) = match &self.around {
            Some(around) => (around.from, &around.via),
            None => (self.from, &self.via),
        };
        AprsPacket {
            from,
            via: via.clone(),
            data: self.data,
            around: None,
        }
    }

    /// The comment, or the text of a message.
    pub fn comment(&self) -> &'a [u8] {
        self.data.comment()
    }
}
