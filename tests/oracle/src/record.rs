// The crate's packets as the record lines of INSPECT.md, and the crate's writers with document 01's numbers.

use aprs_parser::{AprsData, AprsPacket, Callsign, EncodeError, Timestamp, Via};
use crate::fields::{fields, longitude_hundredths, Fields};
use crate::{caught, Style};
use protocol::messages::{self, Places};
use protocol::{push_hex, rules, Form, Mark, LONGEST, LONGITUDE_LIMIT};

/// A packet, and the input that it was read from; if it stands inside another, what is around it.
pub struct Told<'a> {
    pub packet: &'a AprsPacket,
    pub input: &'a [u8],
    pub form: Form,
    pub around: Option<Around<'a>>,
}

/// The outermost packet, how many stand inside it, and the whole input.
pub struct Around<'a> {
    pub outermost: &'a AprsPacket,
    pub number: usize,
    pub input: &'a [u8],
    pub form: Form,
}

impl<'a> Told<'a> {
    pub fn alone(packet: &'a AprsPacket, input: &'a [u8], form: Form) -> Told<'a> {
        Told { packet, input, form, around: None }
    }

    fn whole(&self) -> (&'a [u8], Form) {
        self.around.as_ref().map_or((self.input, self.form), |around| (around.input, around.form))
    }
}

/// What the crate made of a packet to be written.
pub enum Written {
    Bytes(Vec<u8>),
    Refused(u32),
    Panicked(String),
}

fn push_callsign(out: &mut Vec<u8>, callsign: &Callsign) {
    push_hex(out, callsign.to_string().as_bytes());
}

fn push_hops(out: &mut Vec<u8>, hops: &[Via]) {
    if hops.is_empty() {
        out.push(b'-');
    }
    for (place, hop) in hops.iter().enumerate() {
        if place > 0 {
            out.push(b',');
        }
        match hop {
            Via::Callsign(callsign, heard) => {
                push_callsign(out, callsign);
                out.extend_from_slice(if *heard { b"*" } else { b"" });
            }
            Via::QConstruct(element) => out.extend_from_slice(element.as_textual().as_bytes()),
        }
    }
}

/// Place and length of a comment in the input it was read from; it always runs to the input's end.
fn comment_place(comment: &[u8], input: &[u8]) -> (usize, usize) {
    assert!(input.ends_with(comment), "the comment is the input's end");
    (input.len() - comment.len(), comment.len())
}

/// A place with so many bytes before the input that it was found in; 0 and 0 for none.
fn place_word(place: Option<(usize, usize)>, before: usize) -> String {
    place.map_or("0+0".to_string(), |(at, length)| format!("{}+{}", before + at, length))
}

/// The places of a comment or text, and of an identifier, in the whole input. Those of a message or a status are document 02's; the word is
/// another where the Rust has read other bytes than stand there.
fn places(fields: &Fields, told: &Told, style: Style) -> [String; 2] {
    let input = told.input;
    let before = told.whole().0.len() - input.len();
    let place_of_same = |read: Option<&[u8]>, place: Option<(usize, usize)>| {
        let there = place.map(|(at, length)| &input[at..at + length]);
        if there == read || style == Style::Plain {
            place_word(place, before)
        } else {
            "elsewhere".to_string()
        }
    };
    match messages::places(input, told.form) {
        Some(Places { text, id }) => [place_of_same(fields.comment, Some(text)), place_of_same(fields.id, id)],
        None => [place_word(fields.comment.map(|comment| comment_place(comment, input)), before), place_word(None, before)],
    }
}

/// The numbers of a time; of a local one, which the crate does not read, its bytes.
fn push_time(out: &mut Vec<u8>, time: Option<&Timestamp>) {
    match time {
        None => out.push(b'-'),
        Some(Timestamp::DDHHMM(day, hour, minute)) => {
            out.extend_from_slice(format!("{:02}{:02}{:02}z", day, hour, minute).as_bytes());
        }
        Some(Timestamp::HHMMSS(hour, minute, second)) => {
            out.extend_from_slice(format!("{:02}{:02}{:02}h", hour, minute, second).as_bytes());
        }
        Some(Timestamp::Unsupported(bytes)) => out.extend_from_slice(bytes),
    }
}

pub fn write(packet: &AprsPacket, form: Form) -> Written {
    let mut bytes = Vec::new();
    let result = caught(|| match form {
        Form::Text => packet.encode_textual(&mut bytes),
        Form::Frame => packet.encode_ax25(&mut bytes),
    });
    match result {
        Ok(Ok(())) => Written::Bytes(bytes),
        Ok(Err(EncodeError::InvalidCallsign(_))) => Written::Refused(13),
        Ok(Err(EncodeError::InvalidData)) => Written::Refused(14),
        Ok(Err(_)) => Written::Refused(15),
        Err(message) => Written::Panicked(message),
    }
}

/// The two records that document 01 refuses with 15 and the Rust writes all the same.
pub fn mark_of_record(data: &AprsData) -> Option<Mark> {
    match data {
        AprsData::Position(position) if position.symbol_table as u32 >= 128 => Some(Mark::Symbol),
        AprsData::Position(position) if position.symbol_code as u32 >= 128 => Some(Mark::Symbol),
        AprsData::MicE(mic_e) if longitude_hundredths(mic_e.longitude).abs() == LONGITUDE_LIMIT => {
            Some(Mark::MicE180)
        }
        _ => None,
    }
}

fn push_written(out: &mut Vec<u8>, packet: &AprsPacket, form: Form, style: Style) {
    let bytes = match write(packet, form) {
        Written::Bytes(bytes) => bytes,
        Written::Refused(number) => return out.extend_from_slice(format!("{}:-", number).as_bytes()),
        Written::Panicked(_) => return out.extend_from_slice(b"panic:-"),
    };
    let too_long = if bytes.len() > LONGEST { Some(Mark::TooLong) } else { None };
    match mark_of_record(&packet.data).or(too_long) {
        None => {
            out.extend_from_slice(b"0:");
            push_hex(out, &bytes);
        }
        Some(mark) if style == Style::Plain => {
            out.extend_from_slice(format!("{}:-", mark.number_written()).as_bytes());
        }
        Some(mark) => {
            out.extend_from_slice(format!("outside-{}:", mark.name()).as_bytes());
            push_hex(out, &bytes);
        }
    }
}

/// "Writing them remains refused with 14"; 15 comes first.
fn push_not_written(out: &mut Vec<u8>, packet: &AprsPacket) {
    let mark = mark_of_record(&packet.data).unwrap_or(Mark::ThirdParty);
    out.extend_from_slice(format!("{}:-", mark.number_written()).as_bytes());
}

fn push_words(out: &mut Vec<u8>, words: &[Vec<u8>]) {
    for word in words {
        out.push(b' ');
        out.extend_from_slice(word);
    }
}

/// Source, destination and hops of a header; `prefix` stands before the name of each word.
fn push_header(out: &mut Vec<u8>, prefix: &str, packet: &AprsPacket) {
    out.extend_from_slice(format!(" {}from=", prefix).as_bytes());
    push_callsign(out, &packet.from);
    out.extend_from_slice(format!(" {}to=", prefix).as_bytes());
    match packet.to() {
        Some(to) => push_callsign(out, to),
        None => out.push(b'-'),
    }
    out.extend_from_slice(format!(" {}hops=", prefix).as_bytes());
    push_hops(out, &packet.via);
}

/// The record line of an accepted input, as far as the Rust has its fields.
pub fn push_record(out: &mut Vec<u8>, told: &Told, style: Style) -> Option<()> {
    let packet = told.packet;
    let fields = fields(&packet.data);
    let [comment_place, id_place] = places(&fields, told, style);
    let (whole, form) = told.whole();
    let by_rule = match style {
        Style::Marked => None,
        Style::Plain => Some(rules::record_words(fields.kind.as_bytes(), whole, form)?),
    };
    out.extend_from_slice(b"0 ");
    out.extend_from_slice(fields.kind.as_bytes());
    push_header(out, "", told.around.as_ref().map_or(packet, |around| around.outermost));
    let numbers = format!(
        " lat={} lon={} blanks={} table={} code={} flag={} message={} speed={} course={} comment={}",
        fields.latitude,
        fields.longitude,
        fields.blanks,
        fields.table,
        fields.code,
        u32::from(fields.flag),
        fields.message,
        fields.speed,
        fields.course,
        comment_place
    );
    out.extend_from_slice(numbers.as_bytes());
    for (name, form) in [(" text=", Form::Text), (" frame=", Form::Frame)] {
        out.extend_from_slice(name.as_bytes());
        match told.around {
            Some(_) => push_not_written(out, packet),
            None => push_written(out, packet, form, style),
        }
    }
    if let Some(words) = &by_rule {
        push_words(out, &words.before_time);
    }
    out.extend_from_slice(b" time=");
    push_time(out, fields.time);
    out.extend_from_slice(b" addressee=");
    push_hex(out, fields.addressee);
    out.extend_from_slice(b" id=");
    out.extend_from_slice(id_place.as_bytes());
    if let Some(around) = &told.around {
        out.extend_from_slice(format!(" inner={}", around.number).as_bytes());
        push_header(out, "inner-", packet);
    }
    if let Some(words) = &by_rule {
        push_words(out, &words.last);
    }
    Some(())
}
