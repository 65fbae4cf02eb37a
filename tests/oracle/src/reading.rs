// Requests T and F: an input read by the crate, judged for document 01's domain of equality, and answered.

use aprs_parser::{AprsCst, AprsData, AprsPacket, AprsPosition, AprsStatus, DecodeError};
use watch::Seen;
use crate::record::{push_record, Told};
use crate::{caught, headers, inside, pieces, Style};
use protocol::rules::TIME_LENGTH;
use protocol::{
    body_of, from_hex, is_of_body, messages, number_of_addresses, rules, third_party, Form, Mark, BAD_TIME, LONGEST, MALFORMED, MOST_HOPS,
};

type Decoded = Result<AprsPacket, DecodeError>;

/// The documents' number for the crate's error, as far as the error tells it.
fn number_of(error: &DecodeError) -> u32 {
    match error {
        DecodeError::InvalidPacket(_) => 2,
        DecodeError::InvalidCallsign(_) | DecodeError::InvalidVia(_) => 3,
        DecodeError::InvalidTimestamp(_) => BAD_TIME,
        DecodeError::InvalidMessageDestination(_) | DecodeError::InvalidMessageId(_) => MALFORMED,
        DecodeError::UnsupportedPositionFormat(_) | DecodeError::InvalidCs(_) => 7,
        DecodeError::InvalidLatitude(_) => 8,
        DecodeError::InvalidLongitude(_) => 9,
        DecodeError::InvalidPosition(_) => 10,
        DecodeError::InvalidMicEDestination(_) => 11,
        DecodeError::InvalidMicEInformation(_) => 12,
    }
}

/// A ninth hop of a frame whose header the crate has read.
fn mark_of_frame_header(frame: &[u8], decoded: &Decoded) -> Option<Mark> {
    let is_read = decoded.as_ref().map_or_else(|error| is_of_body(number_of(error)), |_| true);
    if is_read && number_of_addresses(frame)? > 2 + MOST_HOPS {
        Some(Mark::Hops)
    } else {
        None
    }
}

fn mark_of_header(input: &[u8], form: Form, decoded: &Decoded) -> Option<Mark> {
    match form {
        Form::Text => headers::mark_of_line(input),
        Form::Frame => mark_of_frame_header(input, decoded),
    }
}

fn ends_in_letter_of_time(seven: &[u8]) -> bool {
    matches!(seven.last(), Some(b'z' | b'Z' | b'h' | b'H'))
}

/// What the stand-in for bytes.rs was asked, where its answer can have mattered: a time that ends in no letter of a time is refused, or is
/// no time of a status, whatever stands before it.
fn asked_of_shim(decoded: &Decoded) -> Seen {
    match decoded {
        Err(DecodeError::InvalidTimestamp(time)) if !ends_in_letter_of_time(time) => Seen::Digits,
        Ok(packet) => match &packet.data {
            AprsData::Status(status) if !status.comment().get(..TIME_LENGTH).map_or(false, ends_in_letter_of_time) => Seen::Digits,
            _ => watch::seen(),
        },
        _ => watch::seen(),
    }
}

/// True of a body that the port does not carry and the crate does: a compressed position. A time that is missing or bad is refused before
/// that.
fn is_not_carried(body: &[u8]) -> bool {
    let first = rules::behind_time(body).and_then(<[u8]>::first);
    match body.first() {
        Some(b'!' | b'=' | b'/' | b'@') => {
            rules::time_refusal(body).is_none() && !char::from(*first.unwrap_or(&0)).is_numeric()
        }
        _ => false,
    }
}

fn mark_of_position(position: &AprsPosition, body: &[u8]) -> Option<Mark> {
    match rules::time_of(body).and_then(rules::mark_of_time) {
        None if position.cst != AprsCst::Uncompressed => Some(Mark::BodyKind),
        mark => mark,
    }
}

/// A status that is malformed, or one whose first seven bytes are a time to the crate, as the list has it, and none to document 02.
fn mark_of_status(status: &AprsStatus, body: &[u8]) -> Option<Mark> {
    let seven = body.get(1..1 + TIME_LENGTH);
    let time = seven.and_then(pieces::timestamp);
    let is_as_listed = time.is_some() && status.timestamp() == time.as_ref() && status.comment() == &body[1 + TIME_LENGTH..];
    match messages::mark_of_body(body) {
        None if is_as_listed => seven.and_then(messages::mark_of_status_time),
        mark => mark,
    }
}

/// Bytes that are neither digits nor blanks reached the stand-in.
fn mark_of_shim(decoded: &Decoded) -> Option<Mark> {
    let is_time = match decoded {
        Ok(packet) => matches!(packet.data, AprsData::Status(_)),
        Err(error) => matches!(error, DecodeError::InvalidTimestamp(_)),
    };
    match asked_of_shim(decoded) {
        Seen::Other if is_time => Some(Mark::TimeDigits),
        Seen::Other => Some(Mark::Digits),
        _ => None,
    }
}

fn mark_of_body(body: &[u8], decoded: &Decoded) -> Option<Mark> {
    let mark = match decoded {
        Ok(packet) => match &packet.data {
            AprsData::Message(_) => messages::mark_of_body(body),
            AprsData::Status(status) => mark_of_status(status, body),
            AprsData::Position(position) => mark_of_position(position, body),
            AprsData::MicE(_) | AprsData::Unknown(_) => None,
        },
        Err(DecodeError::InvalidPacket(_) | DecodeError::InvalidCallsign(_) | DecodeError::InvalidVia(_)) => None,
        Err(DecodeError::InvalidMessageDestination(_)) if messages::has_colon_in_addressee(body) => Some(Mark::AddresseeColon),
        Err(_) if is_not_carried(body) => Some(Mark::BodyKind),
        Err(_) => None,
    };
    mark.or_else(|| mark_of_shim(decoded))
}

fn mark_of(input: &[u8], form: Form, decoded: &Decoded) -> Option<Mark> {
    if input.len() > LONGEST {
        return Some(Mark::TooLong);
    }
    mark_of_header(input, form, decoded).or_else(|| mark_of_body(body_of(input, form)?, decoded))
}

fn decode(input: &[u8], form: Form) -> Result<Decoded, String> {
    caught(|| match form {
        Form::Text => AprsPacket::decode_textual(input),
        Form::Frame => AprsPacket::decode_ax25(input),
    })
}

/// A message whose addressee has a colon, which the crate refuses: it reads one with another byte for each such colon, and has the
/// addressee given back.
fn with_colon_in_addressee(input: &[u8], form: Form) -> Option<AprsPacket> {
    let body = body_of(input, form)?;
    let addressee = messages::parts_of(body)?.addressee;
    let at = input.len() - body.len() + 1;
    let mut without = input.to_vec();
    for byte in without[at..at + addressee.len()].iter_mut().filter(|byte| **byte == b':') {
        *byte = b'x';
    }
    let mut packet = decode(&without, form).ok()?.ok()?;
    match &mut packet.data {
        AprsData::Message(message) => message.addressee = messages::unpadded(addressee).to_vec(),
        _ => return None,
    }
    Some(packet)
}

/// A status whose time the crate reads and document 02 does not: all of it is text.
fn without_time(packet: AprsPacket, body: &[u8]) -> Option<AprsPacket> {
    let to = packet.to()?.clone();
    let data = pieces::status(to, None, body.get(1..)?);
    Some(AprsPacket { data, ..packet })
}

/// The packet that the documents read: the crate's own, or, where a listed difference is accepted, the crate's but for that difference.
fn accepted(mark: Option<Mark>, input: &[u8], form: Form, decoded: Decoded) -> Option<AprsPacket> {
    let packet = decoded.ok();
    match mark {
        None | Some(Mark::TimeDigits) => packet,
        Some(Mark::AddresseeColon) => with_colon_in_addressee(input, form),
        Some(mark) if mark.is_status_time() => without_time(packet?, body_of(input, form)?),
        Some(_) => None,
    }
}

/// An input as the crate has read it: the crate's number, what takes it out of the domain, whether it rests on the stand-in, and the
/// packet that the documents read.
struct Reading {
    rust: u32,
    mark: Option<Mark>,
    rests_on_shim: bool,
    packet: Option<AprsPacket>,
}

fn reading(input: &[u8], form: Form) -> Result<Reading, String> {
    watch::reset();
    let decoded = decode(input, form)?;
    let mark = mark_of(input, form, &decoded);
    Ok(Reading {
        rust: decoded.as_ref().map_or_else(number_of, |_| 0),
        mark,
        rests_on_shim: asked_of_shim(&decoded) == Seen::Blank,
        packet: accepted(mark, input, form, decoded),
    })
}

impl Reading {
    /// The documents' number for an input that they refuse.
    fn number(&self, input: &[u8], form: Form) -> u32 {
        let by_rule = || rules::decided_by_body(input, form, self.rust).unwrap_or(self.rust);
        self.mark.and_then(Mark::number_read).unwrap_or_else(by_rule)
    }

    /// The crate's number, with its mark.
    fn marked(&self) -> String {
        match self.mark {
            Some(mark) => format!("outside {} {}", mark.name(), self.rust),
            None if self.rests_on_shim => format!("shim {}", self.rust),
            None => self.rust.to_string(),
        }
    }
}

/// Why there is no packet: the documents' number, the message of a panic, or the crate's reading a body that starts `}` as something.
pub enum Fault {
    Number(u32),
    Panic(String),
    NotUnknown,
}

/// The packet that the documents read in an input.
pub fn packet(input: &[u8], form: Form) -> Result<AprsPacket, Fault> {
    let reading = reading(input, form).map_err(Fault::Panic)?;
    let number = reading.number(input, form);
    reading.packet.ok_or(Fault::Number(number))
}

fn push_panic(out: &mut Vec<u8>, message: &str) {
    out.extend_from_slice(format!("panic {}", message).as_bytes());
}

/// An input whose body starts `}`: what document 02 reads in it, the crate reading every header and the innermost packet.
fn answer_inside(input: &[u8], form: Form, style: Style, out: &mut Vec<u8>) -> Option<()> {
    if style == Style::Marked {
        out.extend_from_slice(b"inner ");
    }
    let fault = match inside::read(input, form) {
        Ok(read) => return push_record(out, &read.told(input, form), style),
        Err(fault) => fault,
    };
    match fault {
        Fault::Number(number) => out.extend_from_slice(number.to_string().as_bytes()),
        Fault::NotUnknown => out.extend_from_slice(b"not-unknown"),
        Fault::Panic(message) => push_panic(out, &message),
    }
    Some(())
}

pub fn answer(input: &[u8], form: Form, style: Style, out: &mut Vec<u8>) -> Option<()> {
    let input = from_hex(input)?;
    if input.len() <= LONGEST && third_party::inner_text(&input, form).is_some() {
        return answer_inside(&input, form, style, out);
    }
    let reading = match reading(&input, form) {
        Ok(reading) => reading,
        Err(message) => {
            push_panic(out, &message);
            return Some(());
        }
    };
    let packet = match &reading.packet {
        Some(packet) => packet,
        None => {
            let told = match style {
                Style::Marked => reading.marked(),
                Style::Plain => reading.number(&input, form).to_string(),
            };
            out.extend_from_slice(told.as_bytes());
            return Some(());
        }
    };
    if style == Style::Marked && (reading.mark.is_some() || reading.rests_on_shim) {
        out.extend_from_slice(reading.marked().as_bytes());
        out.push(b' ');
    }
    push_record(out, &Told::alone(packet, &input, form), style)
}
