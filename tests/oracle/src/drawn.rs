// Kinds of requests drawn at random.

use crate::packets::*;
use crate::random::Random;
use crate::records::{Hop, Name, Record, LATITUDE_SIDES, LONGITUDE_SIDES};
use crate::Request;
use protocol::rules::Limit;
use protocol::{Form, LATITUDE_LIMIT, LONGITUDE_LIMIT};

pub fn text_unknown(random: &mut Random) -> Request {
    Request::Text(packet(random, unknown).line())
}

pub fn text_position(random: &mut Random) -> Request {
    Request::Text(packet(random, position).line())
}

pub fn text_mic_e(random: &mut Random) -> Request {
    Request::Text(mic_e_packet(random).line())
}

pub fn frame_unknown(random: &mut Random) -> Request {
    Request::Frame(packet(random, unknown).frame())
}

pub fn frame_position(random: &mut Random) -> Request {
    Request::Frame(packet(random, position).frame())
}

pub fn frame_mic_e(random: &mut Random) -> Request {
    Request::Frame(mic_e_packet(random).frame())
}

/// Destinations of characters at the edges of each class, mostly ones whose latitude is in range.
pub fn destination_classes(random: &mut Random) -> Request {
    let classes: &[u8] = if random.one_in(4) { b"/09:@AIJKLMNOPQXYZ[ap" } else { b"058AEJKLPTYZ" };
    let destination: Vec<u8> = (0..6).map(|_| *random.pick(classes)).collect();
    let made = Packet::simple(&destination, &mic_e(random));
    if random.one_in(2) {
        Request::Text(made.line())
    } else {
        Request::Frame(made.frame())
    }
}

fn length_near_a_boundary(random: &mut Random) -> usize {
    match random.below(8) {
        0 => random.between(508, 516),
        1 => random.between(12, 26),
        _ => random.between(0, 40),
    }
}

pub fn random_bytes(random: &mut Random) -> Request {
    let length = length_near_a_boundary(random);
    let bytes = random.bytes(length);
    if random.one_in(2) {
        Request::Text(bytes)
    } else {
        Request::Frame(bytes)
    }
}

/// Lines of the bytes that mean something in a line, half of them with a good header.
pub fn shaped_text(random: &mut Random) -> Request {
    let mut text = Vec::new();
    if random.one_in(2) {
        text.extend_from_slice(b"A>S32UVT:");
    }
    for _ in 0..length_near_a_boundary(random) {
        text.push(*random.pick(b"AB09>>::,,**--!=`' ./NSEWqA+\x1c\x1d\xc3\xa9\xff"));
    }
    Request::Text(text)
}

fn damage(random: &mut Random, bytes: &mut Vec<u8>) {
    if bytes.is_empty() {
        return bytes.push(random.byte());
    }
    let at = random.below(bytes.len());
    match random.below(7) {
        0 => {
            bytes.remove(at);
        }
        1 => {
            let byte = random.byte();
            bytes.insert(at, byte);
        }
        2 => {
            let other = random.below(bytes.len());
            bytes.swap(at, other);
        }
        3 => bytes[at] ^= 1 << random.below(8),
        4 => bytes[at] = random.byte(),
        5 => bytes[at] = *random.pick(b" *-,:>!='`09NSEWKLZ"),
        _ => bytes.truncate(at),
    }
}

pub fn damaged(random: &mut Random, mut bytes: Vec<u8>) -> Vec<u8> {
    for _ in 0..random.between(1, 3) {
        damage(random, &mut bytes);
    }
    bytes
}

pub fn damaged_text(random: &mut Random) -> Request {
    let good = any_packet(random).line();
    Request::Text(damaged(random, good))
}

pub fn damaged_frame(random: &mut Random) -> Request {
    let good = any_packet(random).frame();
    Request::Frame(damaged(random, good))
}

/// SSID `0` half the time, else another, nearly `0`, or none; a star one time in four.
pub fn with_zero_or_nearly(random: &mut Random, call: &[u8]) -> Vec<u8> {
    let ssid = match random.below(16) {
        0..=7 => "-0",
        8..=11 => "",
        12 | 13 => *random.pick(&["-1", "-7", "-10", "-15"]),
        _ => *random.pick(&["-00", "-0-0", "-+0", "--0", "-0-", "-0 ", "-O", "-0*", "0", "-"]),
    };
    let star = if random.one_in(4) { "*" } else { "" };
    [call, ssid.as_bytes(), star.as_bytes()].concat()
}

pub fn line_with_zeros(random: &mut Random, made: &Packet) -> Vec<u8> {
    let from = with_zero_or_nearly(random, &made.from.call);
    let to = with_zero_or_nearly(random, &made.to.call);
    let hops: Vec<Vec<u8>> = made.hops.iter().map(|hop| with_zero_or_nearly(random, &hop.call)).collect();
    line(&from, &to, &hops, &made.body)
}

/// Lines of every kind with SSID `0` at source, destination and hops; one in eight damaged.
pub fn text_zeros(random: &mut Random) -> Request {
    let made = any_packet(random);
    let good = line_with_zeros(random, &made);
    Request::Text(if random.one_in(8) { damaged(random, good) } else { good })
}

/// Lines with a time; one in eight damaged.
pub fn text_timed(random: &mut Random) -> Request {
    let good = packet(random, timed).line();
    Request::Text(if random.one_in(8) { damaged(random, good) } else { good })
}

pub fn frame_timed(random: &mut Random) -> Request {
    let good = packet(random, timed).frame();
    Request::Frame(if random.one_in(8) { damaged(random, good) } else { good })
}

fn angle(random: &mut Random, limit: i64) -> i64 {
    let angle = match random.below(4) {
        0 => random.below(limit as usize / 6000 + 1) as i64 * 6000 + random.between(0, 4) as i64 - 2,
        1 => random.below(limit as usize / 100 + 1) as i64 * 100 + random.between(0, 2) as i64 - 1,
        _ => random.below(limit as usize + 1) as i64,
    };
    let angle = angle.clamp(0, limit);
    if random.one_in(2) {
        -angle
    } else {
        angle
    }
}

pub fn record(random: &mut Random, kind: &'static str) -> Record {
    let mut record = Record::good(kind);
    record.form = *random.pick(&[Form::Text, Form::Frame]);
    record.room = *random.pick(&[512, 512, 600, 90, 40]);
    record.from = (call(random), ssid_text(random));
    record.hops = (0..random.between(0, 8))
        .map(|_| Hop::Callsign((call(random), ssid_text(random)), random.one_in(3)))
        .collect();
    let length = random.between(0, 30);
    record.comment = random.bytes(length);
    if kind != "mic-e" {
        record.to = (call(random), ssid_text(random));
    }
    if record.has_angles() {
        record.flag = random.below(2);
        record.latitude = angle(random, LATITUDE_LIMIT);
        record.longitude = angle(random, LONGITUDE_LIMIT);
        record.blanks = random.below(6);
        record.table = random.between(0, 127);
        record.code = random.between(0, 127);
    }
    if kind == "mic-e" {
        record.message = *random.pick(&crate::records::MESSAGES);
        record.speed = random.below(800) as i64;
        record.course = random.below(361) as i64;
        record.table = random.below(256);
        record.code = random.below(256);
    }
    record.letters = letters(random, &record);
    record.zeros = zeros(random, &record);
    record
}

fn agreeing_letter(random: &mut Random, limit: Limit, angle: i64) -> u8 {
    if angle == 0 {
        *random.pick(&limit.letters())
    } else {
        limit.own_letter(angle)
    }
}

/// Left out, ones that the record may have, or any.
fn letters(random: &mut Random, record: &Record) -> Option<[u8; 2]> {
    match random.below(4) {
        0 | 1 => None,
        2 if !record.has_angles() => Some(*b"--"),
        2 => Some([
            agreeing_letter(random, Limit::Latitude, record.latitude),
            agreeing_letter(random, Limit::Longitude, record.longitude),
        ]),
        _ => Some([*random.pick(b"NS-"), *random.pick(b"EW-")]),
    }
}

/// Left out, none, all, the destination's alone (which Mic-E leaves blank), those beside an SSID, or any; none of a Q element.
pub fn zeros(random: &mut Random, record: &Record) -> Option<Vec<bool>> {
    let choice = random.below(8);
    let mut zero_at = |place: usize, (_, ssid): &Name| match choice {
        1 => false,
        2 => true,
        3 => place == 1,
        4 => !ssid.is_empty(),
        _ => random.one_in(2),
    };
    if choice == 0 {
        return None;
    }
    let places = record.places().into_iter().enumerate();
    Some(places.map(|(place, name)| name.map_or(false, |name| zero_at(place, name))).collect())
}

pub fn ssid_text(random: &mut Random) -> Vec<u8> {
    match random.below(8) {
        0 => random.pick(&[&b"00"[..], b"01", b"+7", b"16", b"X", b"015"]).to_vec(),
        1..=3 => random.between(1, 15).to_string().into_bytes(),
        _ => Vec::new(),
    }
}

pub fn written_unknown(random: &mut Random) -> Request {
    Request::Line(record(random, "unknown").request())
}

pub fn written_position(random: &mut Random) -> Request {
    Request::Line(record(random, "position").request())
}

pub fn written_mic_e(random: &mut Random) -> Request {
    Request::Line(record(random, "mic-e").request())
}

/// A time; one time in four two of its digits are any.
pub fn time_word(random: &mut Random) -> String {
    let mut time = good_time(random);
    if random.one_in(4) {
        let at = 2 * random.below(3);
        time.replace_range(at..at + 2, &format!("{:02}", random.below(100)));
    }
    time
}

/// Records with a time, one in eight of them of a kind that may have none; one in eight records without.
pub fn written_timed(random: &mut Random) -> Request {
    let kind = if random.one_in(8) { *random.pick(&["unknown", "mic-e"]) } else { "position" };
    let mut record = record(random, kind);
    record.time = match random.below(16) {
        0 => None,
        1 => Some("-".to_string()),
        _ => Some(time_word(random)),
    };
    Request::Line(record.request())
}

pub fn bounds(random: &mut Random) -> Request {
    let (limit, sides) = *random.pick(&[(LATITUDE_LIMIT, LATITUDE_SIDES), (LONGITUDE_LIMIT, LONGITUDE_SIDES)]);
    Request::Line(format!("B {} {} {}", angle(random, limit), random.below(6), random.pick(&sides)))
}
