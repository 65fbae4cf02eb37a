//! The C functions and records of `include/tusselgro.h` as Rust sees them, field by field the same. The rest of this
//! crate stands on them and asks for no `unsafe`; what each function does and refuses, the header says.

use std::cmp::Ordering;
use std::hash::{Hash, Hasher};

/// The kind of a record that is none of the others.
pub const UNKNOWN: u8 = 0;
/// The kind of a position.
pub const POSITION: u8 = 1;
/// The kind of a Mic-E report.
pub const MIC_E: u8 = 2;
/// The kind of a message.
pub const MESSAGE: u8 = 3;
/// The kind of a status line.
pub const STATUS: u8 = 4;

/// The form of a time: there is none.
pub const NO_TIME: u8 = 0;
/// The form of a time: day, hour and minute in UTC.
pub const DHM_UTC: u8 = b'z';
/// The form of a time: day, hour and minute in local time.
pub const DHM_LOCAL: u8 = b'/';
/// The form of a time: hour, minute and second in UTC.
pub const HMS_UTC: u8 = b'h';

/// The kind of a hop: a callsign that was not heard.
pub const NOT_HEARD: u8 = 0;
/// The kind of a hop: a callsign that was heard.
pub const HEARD: u8 = 1;
/// The kind of a hop: a Q element.
pub const Q_CONSTRUCT: u8 = 2;

/// The field of an address: where a frame goes to.
pub const DESTINATION: u8 = 0;
/// The field of an address: where a frame comes from.
pub const SOURCE: u8 = 1;
/// The field of an address: a hop that was not heard.
pub const HOP: u8 = 2;
/// The field of an address: a hop that was heard.
pub const HEARD_HOP: u8 = 3;

/// No line and no frame is longer.
pub const MOST_BYTES: usize = 512;
/// No path has more hops.
pub const MOST_HOPS: usize = 8;
/// No callsign's text is longer.
pub const MOST_CALLSIGN: usize = 16;
/// No packet has more inside it.
pub const MOST_INNER: u8 = 4;
/// Every addressee has so many.
pub const ADDRESSEE_BYTES: usize = 9;
/// No message's text is longer.
pub const MOST_TEXT: usize = 67;
/// No message's identifier is longer.
pub const MOST_IDENTIFIER: usize = 5;
/// No status is longer, its time among them.
pub const MOST_STATUS: usize = 62;

/// A callsign as it is written. One in range is ordered by the bytes of its text. Equality, order and hash do not look
/// at the mark.
#[repr(C)]
#[derive(Clone, Copy, Debug, Default)]
pub struct Callsign {
    /// Call, dash and SSID; the rest is 0.
    pub text: [u8; MOST_CALLSIGN],
    /// The bytes of the call.
    pub call_len: u8,
    /// The bytes of the SSID; 0 for none, and then there is no dash.
    pub ssid_len: u8,
    /// The mark: the text that was read had the SSID `0`, which is dropped. Writers ignore it.
    pub had_zero_ssid: bool,
}

impl Callsign {
    /// All of it but the mark.
    fn unmarked(&self) -> (&[u8; MOST_CALLSIGN], u8, u8) {
        (&self.text, self.call_len, self.ssid_len)
    }
}

impl PartialEq for Callsign {
    fn eq(&self, other: &Self) -> bool {
        self.unmarked() == other.unmarked()
    }
}

impl Eq for Callsign {}

impl PartialOrd for Callsign {
    fn partial_cmp(&self, other: &Self) -> Option<Ordering> {
        Some(self.cmp(other))
    }
}

impl Ord for Callsign {
    fn cmp(&self, other: &Self) -> Ordering {
        self.unmarked().cmp(&other.unmarked())
    }
}

impl Hash for Callsign {
    fn hash<H: Hasher>(&self, state: &mut H) {
        self.unmarked().hash(state);
    }
}

/// A hop of a path.
#[repr(C)]
#[derive(Clone, Copy, Debug, Default, PartialEq, Eq)]
pub struct Hop {
    /// Its callsign, or the name of a Q element, which has no SSID.
    pub call: Callsign,
    /// [`NOT_HEARD`], [`HEARD`] or [`Q_CONSTRUCT`].
    pub kind: u8,
}

/// The hops in their order.
#[repr(C)]
#[derive(Clone, Copy, Debug, Default, PartialEq, Eq)]
pub struct Path {
    /// How many there are, Q elements among them.
    pub count: usize,
    /// Those past `count` are 0.
    pub hops: [Hop; MOST_HOPS],
}

/// Source, destination and path.
#[repr(C)]
#[derive(Clone, Copy, Debug, Default, PartialEq, Eq)]
pub struct Header {
    /// The source.
    pub from: Callsign,
    /// The destination; 0 in the header of a Mic-E body.
    pub to: Callsign,
    /// The hops.
    pub path: Path,
}

/// Where something is, in signed hundredths of a minute, north and east positive.
#[repr(C)]
#[derive(Clone, Copy, Debug, Default, PartialEq, Eq)]
pub struct Place {
    /// At most 540000 in size.
    pub latitude: i32,
    /// At most 1080000 in size.
    pub longitude: i32,
    /// The last digits of the latitude that are blank, 0 to 5.
    pub blanks: u8,
    /// The symbol's table.
    pub table: u8,
    /// The symbol's code.
    pub code: u8,
    /// Whether the latitude's letter is S, else N. At 0 either may stand; at any other angle it is that of the sign.
    pub south: bool,
    /// Whether the longitude's letter is W, else E; the same.
    pub west: bool,
}

/// What only a Mic-E report has.
#[repr(C)]
#[derive(Clone, Copy, Debug, Default, PartialEq, Eq)]
pub struct Report {
    /// Knots, at most 799.
    pub speed: u32,
    /// Degrees, at most 360.
    pub course: u32,
    /// The message's number, 0 to 15.
    pub message: u8,
    /// Whether the report is current, not old.
    pub current: bool,
}

/// Where a part of the bytes that were read stands; writers ignore it.
#[repr(C)]
#[derive(Clone, Copy, Debug, Default, PartialEq, Eq)]
pub struct Span {
    /// Where it starts.
    pub at: usize,
    /// Its bytes.
    pub len: usize,
}

/// The time of a position or a status; all 0 where there is none.
#[repr(C)]
#[derive(Clone, Copy, Debug, Default, PartialEq, Eq)]
pub struct Time {
    /// 1 to 31; [`HMS_UTC`] lacks it: 0.
    pub day: u8,
    /// 0 to 23.
    pub hour: u8,
    /// 0 to 59.
    pub minute: u8,
    /// 0 to 59; [`DHM_UTC`] and [`DHM_LOCAL`] lack it: 0.
    pub second: u8,
    /// [`NO_TIME`], [`DHM_UTC`], [`DHM_LOCAL`] or [`HMS_UTC`].
    pub form: u8,
}

/// What a packet says.
#[repr(C)]
#[derive(Clone, Copy, Debug, Default, PartialEq, Eq)]
pub struct Body {
    /// Of a Mic-E report.
    pub report: Report,
    /// Of a position and of a Mic-E report.
    pub place: Place,
    /// Of a position and of a Mic-E report the comment, of a message and of a status the text.
    pub comment: Span,
    /// Of a message; 0 and 0 where it has none.
    pub identifier: Span,
    /// Of a position that starts `/` or `@`, and of a status.
    pub time: Time,
    /// Of a message, spaces at its end and all.
    pub addressee: [u8; ADDRESSEE_BYTES],
    /// Of a position: that it starts `=` or `@`.
    pub messaging: bool,
    /// [`UNKNOWN`], [`POSITION`], [`MIC_E`], [`MESSAGE`] or [`STATUS`].
    pub kind: u8,
}

/// A packet; what its kind lacks is 0.
#[repr(C)]
#[derive(Clone, Copy, Debug, Default, PartialEq, Eq)]
pub struct Record {
    /// Source, destination and path; the outermost ones.
    pub header: Header,
    /// What it says, or what the innermost packet does.
    pub body: Body,
    /// Those of the innermost packet; 0 where there is none inside.
    pub innermost: Header,
    /// How many packets are inside, 0 to [`MOST_INNER`].
    pub inner: u8,
}

/// A packet as it was read.
#[repr(C)]
#[derive(Clone, Copy, Debug, PartialEq, Eq)]
pub struct Read {
    /// The packet; blank at a refusal.
    pub record: Record,
    /// The refusal's number, or 0.
    pub refusal: u8,
}

/// What a writer or a lister answers.
#[repr(C)]
#[derive(Clone, Copy, Debug, PartialEq, Eq)]
pub struct Answer {
    /// The refusal's number, or 0.
    pub refusal: u8,
    /// The bytes written, or the fields listed.
    pub reported: usize,
    /// The bytes that the buffer must have, at refusal 16.
    pub needed: usize,
}

/// A callsign's text as it was read.
#[repr(C)]
#[derive(Clone, Copy, Debug, PartialEq, Eq)]
pub struct CallsignRead {
    /// The callsign, with its mark.
    pub call: Callsign,
    /// Whether a star followed it.
    pub starred: bool,
    /// The refusal's number, or 0.
    pub refusal: u8,
}

/// An AX.25 address as it was read.
#[repr(C)]
#[derive(Clone, Copy, Debug, PartialEq, Eq)]
pub struct AddressRead {
    /// The callsign.
    pub call: Callsign,
    /// Whether bit 7 of the seventh byte is set.
    pub heard: bool,
    /// Whether it is the last address.
    pub last: bool,
    /// The refusal's number, or 0.
    pub refusal: u8,
}

/// An AX.25 address to be sent.
#[repr(C)]
#[derive(Clone, Copy, Debug, PartialEq, Eq)]
pub struct Address {
    /// The address; 0 at a refusal.
    pub bytes: [u8; 7],
    /// The refusal's number, or 0.
    pub refusal: u8,
}

/// A latitude's text as it was read.
#[repr(C)]
#[derive(Clone, Copy, Debug, PartialEq, Eq)]
pub struct LatitudeRead {
    /// The angle.
    pub latitude: i32,
    /// The last digits that are blank.
    pub blanks: u8,
    /// Whether the letter is S, also at 0.
    pub south: bool,
    /// Whether the minutes are 60 or more.
    pub sixty: bool,
    /// The refusal's number, or 0.
    pub refusal: u8,
}

/// A longitude's text as it was read.
#[repr(C)]
#[derive(Clone, Copy, Debug, PartialEq, Eq)]
pub struct LongitudeRead {
    /// The angle.
    pub longitude: i32,
    /// Whether the letter is W, also at 0.
    pub west: bool,
    /// Whether the minutes are 60 or more.
    pub sixty: bool,
    /// The refusal's number, or 0.
    pub refusal: u8,
}

/// A time as it was read.
#[repr(C)]
#[derive(Clone, Copy, Debug, PartialEq, Eq)]
pub struct TimeRead {
    /// The time; 0 at a refusal.
    pub time: Time,
    /// The refusal's number, or 0.
    pub refusal: u8,
}

/// A position as it was read.
#[repr(C)]
#[derive(Clone, Copy, Debug, PartialEq, Eq)]
pub struct PositionRead {
    /// Where it is.
    pub place: Place,
    /// Whether the latitude's minutes are 60 or more.
    pub latitude_sixty: bool,
    /// Whether the longitude's minutes are 60 or more.
    pub longitude_sixty: bool,
    /// The refusal's number, or 0.
    pub refusal: u8,
}

/// A Mic-E destination as it was read.
#[repr(C)]
#[derive(Clone, Copy, Debug, PartialEq, Eq)]
pub struct DestinationRead {
    /// The latitude.
    pub latitude: i32,
    /// The message's number.
    pub message: u8,
    /// The last digits of the latitude that are blank.
    pub blanks: u8,
    /// Whether the latitude is south, also at 0.
    pub south: bool,
    /// Whether the longitude's offset is 100.
    pub hundred: bool,
    /// Whether the longitude is west.
    pub west: bool,
    /// Whether the latitude's minutes are 60 or more.
    pub sixty: bool,
    /// The refusal's number, or 0.
    pub refusal: u8,
}

/// The characters of a Mic-E destination.
#[repr(C)]
#[derive(Clone, Copy, Debug, PartialEq, Eq)]
pub struct Destination {
    /// The characters; 0 at a refusal.
    pub bytes: [u8; 6],
    /// The refusal's number, or 0.
    pub refusal: u8,
}

/// What the information of a Mic-E report says.
#[repr(C)]
#[derive(Clone, Copy, Debug, PartialEq, Eq)]
pub struct Information {
    /// The longitude; to be written, short of 1080000 on either side.
    pub longitude: i32,
    /// Knots, at most 799.
    pub speed: u32,
    /// Degrees, at most 360.
    pub course: u32,
    /// The symbol's code.
    pub code: u8,
    /// The symbol's table.
    pub table: u8,
}

/// The information of a Mic-E report as it was read.
#[repr(C)]
#[derive(Clone, Copy, Debug, PartialEq, Eq)]
pub struct InformationRead {
    /// What it says; 0 at a refusal.
    pub information: Information,
    /// The refusal's number, or 0.
    pub refusal: u8,
}

/// A message as it was read, from behind its type byte on.
#[repr(C)]
#[derive(Clone, Copy, Debug, PartialEq, Eq)]
pub struct MessageRead {
    /// The bytes of its text, which starts at the place 10.
    pub text_len: usize,
    /// The bytes of its identifier, which starts one behind the text's end; 0 for none.
    pub identifier_len: usize,
    /// Spaces at its end and all; 0 at a refusal.
    pub addressee: [u8; ADDRESSEE_BYTES],
    /// The refusal's number, or 0.
    pub refusal: u8,
}

/// A status as it was read, from behind its type byte on.
#[repr(C)]
#[derive(Clone, Copy, Debug, PartialEq, Eq)]
pub struct StatusRead {
    /// Its time, or none; its text is what follows that.
    pub time: Time,
    /// The refusal's number, or 0.
    pub refusal: u8,
}

/// The bounds of an angle in degrees.
#[repr(C)]
#[derive(Clone, Copy, Debug, PartialEq)]
pub struct Bounds {
    /// The refusal's number, or 0.
    pub refusal: u8,
    /// The lower bound.
    pub lower: f64,
    /// The upper bound.
    pub upper: f64,
}

/// The page's box of an angle in half hundredths of a minute.
#[repr(C)]
#[derive(Clone, Copy, Debug, PartialEq, Eq)]
pub struct PageBox {
    /// The refusal's number, or 0.
    pub refusal: u8,
    /// The lower side.
    pub lower: i32,
    /// The upper side.
    pub upper: i32,
}

extern "C" {
    /// Reads a line of text.
    pub fn tusselgro_read_text(line: *const u8, line_len: usize) -> Read;
    /// Reads an AX.25 frame.
    pub fn tusselgro_read_frame(frame: *const u8, frame_len: usize) -> Read;
    /// Reads a line of text strictly.
    pub fn tusselgro_read_text_strictly(line: *const u8, line_len: usize) -> Read;
    /// Reads an AX.25 frame strictly.
    pub fn tusselgro_read_frame_strictly(frame: *const u8, frame_len: usize) -> Read;
    /// Writes a record as a line of text.
    pub fn tusselgro_write_text(
        record: Record,
        comment: *const u8,
        comment_len: usize,
        identifier: *const u8,
        identifier_len: usize,
        out: *mut u8,
        out_len: usize,
    ) -> Answer;
    /// Writes a record as an AX.25 frame.
    pub fn tusselgro_write_frame(
        record: Record,
        comment: *const u8,
        comment_len: usize,
        identifier: *const u8,
        identifier_len: usize,
        out: *mut u8,
        out_len: usize,
    ) -> Answer;

    /// Reads a callsign's text.
    pub fn tusselgro_read_callsign(text: *const u8, text_len: usize) -> CallsignRead;
    /// Writes a callsign as text.
    pub fn tusselgro_write_callsign(
        call: Callsign,
        starred: bool,
        out: *mut u8,
        out_len: usize,
    ) -> Answer;
    /// Reads an AX.25 address.
    pub fn tusselgro_read_address(address: *const u8, address_len: usize) -> AddressRead;
    /// Writes an AX.25 address.
    pub fn tusselgro_write_address(call: Callsign, field: u8, last: bool) -> Address;
    /// Reads a latitude's text.
    pub fn tusselgro_read_latitude(text: *const u8, text_len: usize) -> LatitudeRead;
    /// Reads a longitude's text.
    pub fn tusselgro_read_longitude(text: *const u8, text_len: usize, blanks: u8) -> LongitudeRead;
    /// Writes a latitude as text.
    pub fn tusselgro_write_latitude(
        latitude: i32,
        blanks: u8,
        out: *mut u8,
        out_len: usize,
    ) -> Answer;
    /// Writes a longitude as text.
    pub fn tusselgro_write_longitude(longitude: i32, out: *mut u8, out_len: usize) -> Answer;
    /// Reads the seven bytes of a time.
    pub fn tusselgro_read_time(text: *const u8, text_len: usize) -> TimeRead;
    /// Writes the seven bytes of a time, or none.
    pub fn tusselgro_write_time(time: Time, out: *mut u8, out_len: usize) -> Answer;
    /// Reads a position behind its type byte or its time.
    pub fn tusselgro_read_position(text: *const u8, text_len: usize) -> PositionRead;
    /// Writes a position's 19 bytes.
    pub fn tusselgro_write_position(place: Place, out: *mut u8, out_len: usize) -> Answer;
    /// Reads the characters of a Mic-E destination.
    pub fn tusselgro_read_destination(call: *const u8, call_len: usize) -> DestinationRead;
    /// Writes the characters of a Mic-E destination.
    pub fn tusselgro_write_destination(
        latitude: i32,
        blanks: u8,
        message: u8,
        longitude: i32,
    ) -> Destination;
    /// Reads the information of a Mic-E report behind its type byte.
    pub fn tusselgro_read_information(
        bytes: *const u8,
        bytes_len: usize,
        hundred: bool,
        west: bool,
    ) -> InformationRead;
    /// Writes the eight bytes of information of a Mic-E report.
    pub fn tusselgro_write_information(
        information: Information,
        out: *mut u8,
        out_len: usize,
    ) -> Answer;

    /// Reads a message behind its type byte.
    pub fn tusselgro_read_message(bytes: *const u8, bytes_len: usize) -> MessageRead;
    /// Writes a message behind its type byte.
    pub fn tusselgro_write_message(
        addressee: *const u8,
        addressee_len: usize,
        text: *const u8,
        text_len: usize,
        identifier: *const u8,
        identifier_len: usize,
        out: *mut u8,
        out_len: usize,
    ) -> Answer;
    /// Reads a status behind its type byte.
    pub fn tusselgro_read_status(bytes: *const u8, bytes_len: usize) -> StatusRead;
    /// Writes a status behind its type byte.
    pub fn tusselgro_write_status(
        time: Time,
        text: *const u8,
        text_len: usize,
        out: *mut u8,
        out_len: usize,
    ) -> Answer;

    /// Lists every Mic-E field that means a speed and a course.
    pub fn tusselgro_list_motion(speed: u32, course: u32, out: *mut u8, out_len: usize) -> Answer;
    /// Lists every Mic-E field that means a longitude.
    pub fn tusselgro_list_longitude(
        longitude: i32,
        hundred: bool,
        west: bool,
        out: *mut u8,
        out_len: usize,
    ) -> Answer;

    /// The bounds of a latitude in degrees.
    pub fn tusselgro_latitude_bounds(latitude: i32, blanks: u8) -> Bounds;
    /// The bounds of a longitude in degrees.
    pub fn tusselgro_longitude_bounds(longitude: i32, blanks: u8) -> Bounds;
    /// The page's box of a latitude on the side of its letter.
    pub fn tusselgro_latitude_box(latitude: i32, blanks: u8, south: bool) -> PageBox;
    /// The page's box of a longitude on the side of its letter.
    pub fn tusselgro_longitude_box(longitude: i32, blanks: u8, west: bool) -> PageBox;
}

#[cfg(test)]
mod tests {
    use super::*;
    use std::mem::size_of;

    #[test]
    fn records_have_the_sizes_that_the_header_states() {
        assert_eq!((size_of::<Callsign>(), size_of::<Hop>()), (19, 20));
        assert_eq!((size_of::<Path>(), size_of::<Header>()), (168, 208));
        assert_eq!((size_of::<Place>(), size_of::<Report>()), (16, 12));
        assert_eq!((size_of::<Span>(), size_of::<Body>()), (16, 80));
        assert_eq!((size_of::<Time>(), size_of::<TimeRead>()), (5, 6));
        assert_eq!((size_of::<Record>(), size_of::<Read>()), (504, 512));
        assert_eq!((size_of::<Answer>(), size_of::<CallsignRead>()), (24, 21));
        assert_eq!((size_of::<AddressRead>(), size_of::<Address>()), (22, 8));
        assert_eq!(
            (size_of::<LatitudeRead>(), size_of::<LongitudeRead>()),
            (8, 8)
        );
        assert_eq!(
            (size_of::<PositionRead>(), size_of::<DestinationRead>()),
            (20, 12)
        );
        assert_eq!(
            (size_of::<Destination>(), size_of::<Information>()),
            (7, 16)
        );
        assert_eq!(
            (size_of::<InformationRead>(), size_of::<Bounds>()),
            (20, 24)
        );
        assert_eq!((size_of::<MessageRead>(), size_of::<StatusRead>()), (32, 6));
        assert_eq!(size_of::<PageBox>(), 12);
    }

    #[test]
    fn a_body_has_its_parts_where_the_header_has_them() {
        let body = Body::default();
        let at = |part: *const u8| part as usize - &body as *const Body as usize;
        let spans: [*const usize; 2] = [&body.comment.at, &body.identifier.len];
        assert_eq!(spans.map(|part| at(part.cast())), [32, 56]);
        assert_eq!((at(&body.time.day), at(&body.time.form)), (64, 68));
        assert_eq!((at(&body.addressee[0]), at(&body.addressee[8])), (69, 77));
        let messaging: *const bool = &body.messaging;
        assert_eq!((at(messaging.cast()), at(&body.kind)), (78, 79));
    }

    #[test]
    fn a_hop_has_its_kind_where_the_header_has_it() {
        let path = Path::default();
        let at = |part: *const u8| part as usize - &path as *const Path as usize;
        let kinds = path.hops.iter().map(|hop| at(&hop.kind));
        assert!(kinds.eq((0..MOST_HOPS).map(|hop| 8 + 20 * hop + 19)));
    }

    #[test]
    fn a_record_has_its_parts_where_the_header_has_them() {
        let record = Record::default();
        let at = |part: *const u8| part as usize - &record as *const Record as usize;
        assert_eq!(
            (at(&record.header.from.text[0]), at(&record.body.kind)),
            (0, 208 + 79)
        );
        assert_eq!(at(&record.innermost.from.text[0]), 288);
        assert_eq!(at(&record.inner), 496);
    }

    #[test]
    fn equality_looks_at_all_of_a_hop_but_its_mark() {
        let mut record = Record::default();
        record.header.from.had_zero_ssid = true;
        record.header.to.had_zero_ssid = true;
        record.header.path.hops[7].call.had_zero_ssid = true;
        record.innermost.from.had_zero_ssid = true;
        assert_eq!(record, Record::default());
        let others: [fn(&mut Callsign); 3] = [
            |callsign| callsign.text[15] = 1,
            |callsign| callsign.call_len = 1,
            |callsign| callsign.ssid_len = 1,
        ];
        for change in others {
            let mut other = record;
            change(&mut other.header.path.hops[7].call);
            assert_ne!(other, record);
        }
        for kind in [HEARD, Q_CONSTRUCT, u8::MAX] {
            let mut other = record;
            other.header.path.hops[7].kind = kind;
            assert_ne!(other, record);
        }
    }
}
