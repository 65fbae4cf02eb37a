// Requests W: a record made by hand, built through the crate's public interface and written by it.

use aprs_parser::mic_e::{Course, Speed};
use aprs_parser::{AprsCst, AprsData, AprsMicE, AprsPacket, AprsPosition, Callsign, Via};
use crate::fields::PRECISIONS;
use crate::pieces::{self, latitude, longitude, timestamp};
use crate::record::{mark_of_record, write, Written};
use crate::request::{parse, Header, Hop, Kind, Name, Request};
use crate::Style;
use protocol::rules::Limit;
use protocol::third_party::MOST_INNER;
use protocol::{messages, push_hex, rules, Mark, LATITUDE_LIMIT, LONGEST, LONGEST_CALLSIGN, LONGITUDE_LIMIT};

const MOST_KNOTS: u32 = 799;
const MOST_DEGREES_OF_COURSE: u32 = 360;

fn mark_of_name(name: &Name) -> Option<Mark> {
    let dash = usize::from(!name.ssid.is_empty());
    if name.call.len() + dash + name.ssid.len() > LONGEST_CALLSIGN {
        Some(Mark::CallsignLength)
    } else if std::str::from_utf8(&name.call).is_err() || std::str::from_utf8(&name.ssid).is_err() {
        Some(Mark::CallsignText)
    } else if name.ssid == b"0" {
        Some(Mark::SsidZero)
    } else {
        None
    }
}

fn is_blank_name(name: &Name) -> bool {
    name.call.is_empty() && name.ssid.is_empty()
}

fn is_blank(header: &Header) -> bool {
    header.names().all(is_blank_name) && header.hops.is_empty()
}

/// The header that the body is judged beside: "the innermost header and body" (document 02, R-6).
fn own_header(request: &Request) -> &Header {
    if request.inner > 0 {
        &request.innermost
    } else {
        &request.outermost
    }
}

fn has_parts_its_kind_lacks(request: &Request) -> bool {
    let has_motion = request.speed != 0 || request.course != 0;
    let has_place = request.latitude != 0
        || request.longitude != 0
        || request.blanks != 0
        || request.table != 0
        || request.code != 0
        || request.flag;
    let has_message = request.message.is_some();
    let has_time = request.time.is_some();
    let has_addressee = !request.addressee.is_empty();
    match request.kind {
        Kind::Unknown => has_place || has_motion || has_message || has_time || has_addressee,
        Kind::Position => has_motion || has_message || has_addressee,
        Kind::MicE => has_time || has_addressee || !is_blank_name(&own_header(request).to),
        Kind::Message => has_place || has_motion || has_message || has_time,
        Kind::Status => has_place || has_motion || has_message || has_addressee,
    }
}

/// Document 02, R-1: a position or Mic-E has two letters, neither against a nonzero angle; another kind has none.
fn letters_fit(request: &Request) -> bool {
    let [latitude_letter, longitude_letter] = request.letters;
    if request.kind.has_angles() {
        Limit::Latitude.agrees(latitude_letter, request.latitude) && Limit::Longitude.agrees(longitude_letter, request.longitude)
    } else {
        request.letters == *b"--"
    }
}

/// The documents' list of what is refused with 15, but for what the Rust can be asked about: the two cases of `mark_of_record`, and times.
fn mark_of_request(request: &Request) -> Option<Mark> {
    let in_range = request.latitude.abs() <= LATITUDE_LIMIT
        && request.longitude.abs() <= LONGITUDE_LIMIT
        && usize::from(request.blanks) < PRECISIONS.len()
        && request.speed <= MOST_KNOTS
        && request.course <= MOST_DEGREES_OF_COURSE
        && usize::from(request.inner) <= MOST_INNER;
    if !in_range {
        return Some(Mark::Range);
    }
    if has_parts_its_kind_lacks(request) || request.inner == 0 && !is_blank(&request.innermost) {
        return Some(Mark::Parts);
    }
    if !letters_fit(request) {
        return Some(Mark::Letters);
    }
    request.outermost.names().chain(request.innermost.names()).find_map(mark_of_name)
}

/// A time that is out of range, or that a status may not have.
fn mark_of_time(request: &Request) -> Option<Mark> {
    let time = request.time.as_deref()?;
    match request.kind {
        Kind::Status => messages::mark_of_status_time(time),
        _ => rules::mark_of_time(time),
    }
}

/// "Writing them remains refused with 14", whatever was handed over with them.
fn mark_of_inner(request: &Request) -> Option<Mark> {
    if request.inner > 0 {
        Some(Mark::ThirdParty)
    } else {
        None
    }
}

/// What was handed over with a record in range and is refused with 18.
fn mark_of_text(request: &Request) -> Option<Mark> {
    match request.kind {
        Kind::Message => messages::mark_of_message(&request.comment, request.id.as_deref()),
        Kind::Status => messages::mark_of_status(request.time.is_some(), &request.comment),
        _ => None,
    }
}

fn callsign(name: &Name) -> Callsign {
    let text = |bytes: &[u8]| String::from_utf8(bytes.to_vec()).expect("judged before");
    if name.ssid.is_empty() {
        Callsign::new_no_ssid(text(&name.call))
    } else {
        Callsign::new_with_ssid(text(&name.call), text(&name.ssid))
    }
}

fn data(request: &Request) -> AprsData {
    match (request.kind, request.message) {
        (Kind::MicE, Some(message)) => AprsData::MicE(AprsMicE {
            latitude: latitude(request.latitude),
            longitude: longitude(request.longitude),
            precision: PRECISIONS[usize::from(request.blanks)],
            message,
            speed: Speed::new(request.speed).expect("judged before"),
            course: Course::new(request.course).expect("judged before"),
            symbol_table: request.table,
            symbol_code: request.code,
            comment: request.comment.clone(),
            current: request.flag,
        }),
        (Kind::Position, _) => AprsData::Position(AprsPosition {
            to: callsign(&request.outermost.to),
            timestamp: request.time.as_deref().and_then(timestamp),
            messaging_supported: request.flag,
            latitude: latitude(request.latitude),
            longitude: longitude(request.longitude),
            precision: PRECISIONS[usize::from(request.blanks)],
            symbol_table: request.table.into(),
            symbol_code: request.code.into(),
            comment: request.comment.clone(),
            cst: AprsCst::Uncompressed,
        }),
        (Kind::Message, _) => pieces::message(callsign(&request.outermost.to), &request.addressee, &request.comment, request.id.as_deref()),
        (Kind::Status, _) => pieces::status(callsign(&request.outermost.to), request.time.as_deref(), &request.comment),
        _ => AprsData::Unknown(callsign(&request.outermost.to)),
    }
}

fn via(hop: &Hop) -> Via {
    match hop {
        Hop::Callsign { name, heard } => Via::Callsign(callsign(name), *heard),
        Hop::Q(element) => Via::QConstruct(*element),
    }
}

fn packet(request: &Request) -> AprsPacket {
    AprsPacket {
        from: callsign(&request.outermost.from),
        via: request.outermost.hops.iter().map(via).collect(),
        data: data(request),
    }
}

fn push_buffer(out: &mut Vec<u8>, number: u32, needed: usize, written: &[u8], room: usize) {
    let mut buffer = vec![0xaa; room];
    buffer[..written.len()].copy_from_slice(written);
    out.extend_from_slice(format!("{} {} {} ", number, written.len(), needed).as_bytes());
    push_hex(out, &buffer);
}

fn push_mark(out: &mut Vec<u8>, mark: Mark, room: usize, style: Style) {
    match style {
        Style::Marked => out.extend_from_slice(format!("outside {}", mark.name()).as_bytes()),
        Style::Plain => push_buffer(out, mark.number_written(), 0, &[], room),
    }
}

pub fn answer(words: &[&[u8]], style: Style, out: &mut Vec<u8>) -> Option<()> {
    let request = parse(words)?;
    if let Some(mark) = mark_of_request(&request) {
        push_mark(out, mark, request.room, style);
        return Some(());
    }
    let packet = packet(&request);
    let out_of_range = mark_of_record(&packet.data).or_else(|| mark_of_time(&request));
    let mark = out_of_range.or_else(|| mark_of_inner(&request)).or_else(|| mark_of_text(&request));
    if let Some(mark) = mark {
        push_mark(out, mark, request.room, style);
        return Some(());
    }
    match write(&packet, request.form) {
        Written::Bytes(bytes) if bytes.len() > LONGEST => push_mark(out, Mark::TooLong, request.room, style),
        Written::Bytes(bytes) if bytes.len() > request.room => push_buffer(out, 16, bytes.len(), &[], request.room),
        Written::Bytes(bytes) => push_buffer(out, 0, 0, &bytes, request.room),
        Written::Refused(number) => push_buffer(out, number, 0, &[], request.room),
        Written::Panicked(message) => out.extend_from_slice(format!("panic {}", message).as_bytes()),
    }
    Some(())
}
