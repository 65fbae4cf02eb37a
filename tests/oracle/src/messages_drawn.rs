// Kinds of requests drawn at random: messages and status lines, read and to be written.

use crate::drawn::{damaged, line_with_zeros, record, time_word};
use crate::packets::{good_time, packet, Packet};
use crate::q_drawn::line_with_q_elements;
use crate::random::Random;
use crate::Request;

/// Mostly short; else at a limit or next to it.
fn length(random: &mut Random, limit: usize) -> usize {
    if random.one_in(4) {
        random.between(limit - 1, limit + 2)
    } else {
        random.between(0, limit / 2)
    }
}

/// Mostly printable bytes; now and then any, or one of those that end a text or may not be in one.
fn bytes(random: &mut Random, length: usize) -> Vec<u8> {
    let mut bytes: Vec<u8> = (0..length).map(|_| *random.pick(b"ABCxyz 019:/=!.-")).collect();
    if random.one_in(4) {
        bytes = random.bytes(length);
    }
    if length > 0 && random.one_in(8) {
        bytes[random.below(length)] = *random.pick(b"{|~");
    }
    bytes
}

/// A call and its padding, half the time; else any mixture of letters and spaces, now and then with a colon or with any bytes.
fn addressee(random: &mut Random) -> Vec<u8> {
    let length = random.between(0, 9);
    let mut nine: Vec<u8> = (0..length).map(|_| *random.pick(b"ABCWU2Z-0")).collect();
    nine.resize(9, b' ');
    match random.below(16) {
        0..=3 => nine = (0..9).map(|_| *random.pick(b"AZ  ")).collect(),
        4 | 5 => nine[random.below(9)] = b':',
        6 | 7 => nine = random.bytes(9),
        _ => {}
    }
    nine
}

/// `{` and an identifier, half the time; mostly of 1 to 5 bytes.
fn identifier(random: &mut Random) -> Vec<u8> {
    if random.one_in(2) {
        return Vec::new();
    }
    let length = if random.one_in(4) { random.between(0, 7) } else { random.between(1, 5) };
    let mut identifier = bytes(random, length);
    identifier.insert(0, b'{');
    identifier
}

/// One in sixteen cut short, and one in sixteen with another byte for the second colon.
pub fn message(random: &mut Random) -> Vec<u8> {
    let length = length(random, 67);
    let mut body = [b":", &addressee(random)[..], b":", &bytes(random, length), &identifier(random)].concat();
    match random.below(16) {
        0 => body.truncate(random.between(1, 13)),
        1 => body[10] = random.byte(),
        _ => {}
    }
    body
}

/// Seven bytes: a `z` time, half the time; else one of another form, or one with bytes changed.
fn time_or_nearly(random: &mut Random) -> Vec<u8> {
    let mut time = good_time(random).into_bytes();
    match random.below(8) {
        0..=3 => time = format!("{:02}{:02}{:02}z", random.between(1, 31), random.below(24), random.below(60)).into_bytes(),
        4 => time = format!("{:02}{:02}{:02}z", random.below(100), random.below(30), random.below(70)).into_bytes(),
        5 => time[6] = *random.pick(b"zZhH/x "),
        6 => time[random.below(7)] = if random.one_in(2) { *random.pick(b" +-/z") } else { random.byte() },
        _ => {}
    }
    time
}

/// What starts a status, and the rest of it: seven bytes that are a time or nearly one, half the time.
fn status_parts(random: &mut Random) -> (Vec<u8>, Vec<u8>) {
    let start = if random.one_in(2) { time_or_nearly(random) } else { Vec::new() };
    let length = length(random, if start.is_empty() { 62 } else { 55 });
    (start, bytes(random, length))
}

pub fn status(random: &mut Random) -> Vec<u8> {
    let (start, text) = status_parts(random);
    let mut body = [b">", &start[..], &text].concat();
    if random.one_in(16) {
        body.truncate(random.between(1, 9));
    }
    body
}

/// One line in four has SSIDs `0` or nearly so, and one in four Q elements.
pub fn good_line(random: &mut Random, made: &Packet) -> Vec<u8> {
    match random.below(4) {
        0 => line_with_zeros(random, made),
        1 => line_with_q_elements(random, made),
        _ => made.line(),
    }
}

/// One line in eight is damaged.
pub fn line_of(random: &mut Random, made: &Packet) -> Request {
    let good = good_line(random, made);
    Request::Text(if random.one_in(8) { damaged(random, good) } else { good })
}

/// One frame in eight is damaged.
pub fn frame_of(random: &mut Random, made: &Packet) -> Request {
    let good = made.frame();
    Request::Frame(if random.one_in(8) { damaged(random, good) } else { good })
}

pub fn text_message(random: &mut Random) -> Request {
    let made = packet(random, message);
    line_of(random, &made)
}

pub fn frame_message(random: &mut Random) -> Request {
    let made = packet(random, message);
    frame_of(random, &made)
}

pub fn text_status(random: &mut Random) -> Request {
    let made = packet(random, status);
    line_of(random, &made)
}

pub fn frame_status(random: &mut Random) -> Request {
    let made = packet(random, status);
    frame_of(random, &made)
}

/// An addressee of 0 to 9 bytes that ends in no space.
fn addressee_word(random: &mut Random) -> Vec<u8> {
    let mut addressee = addressee(random);
    while addressee.last() == Some(&b' ') {
        addressee.pop();
    }
    addressee
}

/// Messages, one in sixteen of them with a time; one record in sixteen is of another kind and has an addressee.
pub fn written_message(random: &mut Random) -> Request {
    let kind = if random.one_in(16) { *random.pick(&["unknown", "position", "mic-e", "status"]) } else { "message" };
    let mut record = record(random, kind);
    record.addressee = if random.one_in(8) { None } else { Some(addressee_word(random)) };
    if kind == "message" {
        let length = length(random, 67);
        record.comment = bytes(random, length);
        record.id = match random.below(4) {
            0 => None,
            1 => Some(Vec::new()),
            _ => Some(identifier(random)).filter(|id| id.len() > 1).map(|id| id[1..].to_vec()),
        };
        record.time = if random.one_in(16) { Some(time_word(random)) } else { None };
    }
    Request::Line(record.request())
}

/// Statuses; half of them have a time, mostly a `z` one, and text may start with another.
pub fn written_status(random: &mut Random) -> Request {
    let mut record = record(random, "status");
    let (start, text) = status_parts(random);
    record.comment = if random.one_in(2) { [start, text].concat() } else { text };
    record.time = match random.below(8) {
        0..=2 => None,
        3 => Some("-".to_string()),
        4 => Some(time_word(random)),
        _ => Some(format!("{:02}{:02}{:02}z", random.between(1, 31), random.below(24), random.below(60))),
    };
    Request::Line(record.request())
}
