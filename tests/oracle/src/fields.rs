// The fields of a record line that differ by kind, taken from what the crate has read.

use aprs_parser::mic_e::Message;
use aprs_parser::{AprsData, Latitude, Longitude, Precision, Timestamp};

pub const PRECISIONS: [Precision; 6] = [
    Precision::HundredthMinute,
    Precision::TenthMinute,
    Precision::OneMinute,
    Precision::TenMinute,
    Precision::OneDegree,
    Precision::TenDegree,
];

pub const MESSAGES: [(Message, &str); 16] = [
    (Message::M0, "M0"),
    (Message::M1, "M1"),
    (Message::M2, "M2"),
    (Message::M3, "M3"),
    (Message::M4, "M4"),
    (Message::M5, "M5"),
    (Message::M6, "M6"),
    (Message::C0, "C0"),
    (Message::C1, "C1"),
    (Message::C2, "C2"),
    (Message::C3, "C3"),
    (Message::C4, "C4"),
    (Message::C5, "C5"),
    (Message::C6, "C6"),
    (Message::Emergency, "emergency"),
    (Message::Unknown, "unknown"),
];

/// The blank one is document 01's Unknown. `comment` is a message's or a status's text.
pub struct Fields<'a> {
    pub kind: &'static str,
    pub latitude: i64,
    pub longitude: i64,
    pub blanks: usize,
    pub table: u32,
    pub code: u32,
    pub flag: bool,
    pub message: &'static str,
    pub speed: u32,
    pub course: u32,
    pub comment: Option<&'a [u8]>,
    pub time: Option<&'a Timestamp>,
    pub addressee: &'a [u8],
    pub id: Option<&'a [u8]>,
}

fn signed_hundredths((degrees, minutes, hundredths, positive): (u32, u32, u32, bool)) -> i64 {
    let size = i64::from(degrees) * 6000 + i64::from(minutes) * 100 + i64::from(hundredths);
    if positive {
        size
    } else {
        -size
    }
}

pub fn latitude_hundredths(latitude: Latitude) -> i64 {
    signed_hundredths(latitude.dmh())
}

pub fn longitude_hundredths(longitude: Longitude) -> i64 {
    signed_hundredths(longitude.dmh())
}

fn blanks_of(precision: Precision) -> usize {
    PRECISIONS.iter().position(|each| *each == precision).unwrap()
}

fn word_of(message: Message) -> &'static str {
    MESSAGES.iter().find(|(each, _)| *each == message).unwrap().1
}

pub fn fields(data: &AprsData) -> Fields<'_> {
    let blank = Fields {
        kind: "unknown",
        latitude: 0,
        longitude: 0,
        blanks: 0,
        table: 0,
        code: 0,
        flag: false,
        message: "-",
        speed: 0,
        course: 0,
        comment: None,
        time: None,
        addressee: &[],
        id: None,
    };
    match data {
        AprsData::Unknown(_) => blank,
        AprsData::Position(position) => Fields {
            kind: "position",
            latitude: latitude_hundredths(position.latitude),
            longitude: longitude_hundredths(position.longitude),
            blanks: blanks_of(position.precision),
            table: position.symbol_table.into(),
            code: position.symbol_code.into(),
            flag: position.messaging_supported,
            comment: Some(&position.comment),
            time: position.timestamp.as_ref(),
            ..blank
        },
        AprsData::MicE(mic_e) => Fields {
            kind: "mic-e",
            latitude: latitude_hundredths(mic_e.latitude),
            longitude: longitude_hundredths(mic_e.longitude),
            blanks: blanks_of(mic_e.precision),
            table: mic_e.symbol_table.into(),
            code: mic_e.symbol_code.into(),
            flag: mic_e.current,
            message: word_of(mic_e.message),
            speed: mic_e.speed.knots(),
            course: mic_e.course.degrees(),
            comment: Some(&mic_e.comment),
            ..blank
        },
        AprsData::Message(message) => Fields {
            kind: "message",
            comment: Some(&message.text),
            addressee: &message.addressee,
            id: message.id.as_deref(),
            ..blank
        },
        AprsData::Status(status) => Fields {
            kind: "status",
            comment: Some(status.comment()),
            time: status.timestamp(),
            ..blank
        },
    }
}
