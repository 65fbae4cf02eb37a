// Kinds of requests drawn at random: packets inside packets, and records with a number of inner packets.

use crate::drawn::{damaged, record};
use crate::messages_drawn::{frame_of, good_line, line_of, message, status};
use crate::packets::{address, call, mic_e_packet, packet, position, timed, unknown, Packet};
use crate::q_drawn::record_hop;
use crate::random::Random;
use crate::records::{name, Hop, Name, Record};
use crate::Request;

pub fn any_kind(random: &mut Random) -> Packet {
    match random.below(6) {
        0 => packet(random, unknown),
        1 => packet(random, position),
        2 => packet(random, timed),
        3 => packet(random, message),
        4 => packet(random, status),
        _ => mic_e_packet(random),
    }
}

/// A packet with 0 to 6 inside it, mostly 1 to 4, the innermost as it is drawn. Of the texts inside one in four has SSIDs `0` or nearly so,
/// one in four Q elements, and one in sixteen is damaged.
pub fn nested(random: &mut Random, innermost: fn(&mut Random) -> Packet) -> Packet {
    let depth = *random.pick(&[0, 1, 1, 1, 2, 2, 3, 3, 4, 4, 4, 5, 5, 6]);
    let mut made = innermost(random);
    for _ in 0..depth {
        let good = good_line(random, &made);
        let text = if random.one_in(16) { damaged(random, good) } else { good };
        made = if random.one_in(3) { packet(random, unknown) } else { Packet::simple(&call(random), b"") };
        made.from = address(random);
        made.body = [b"}", &text[..]].concat();
    }
    made
}

pub fn text_inner(random: &mut Random) -> Request {
    let made = nested(random, any_kind);
    line_of(random, &made)
}

pub fn frame_inner(random: &mut Random) -> Request {
    let made = nested(random, any_kind);
    frame_of(random, &made)
}

/// One in 32 has SSID `0`, which no record may have.
fn inner_name(random: &mut Random) -> Name {
    let ssid: &[u8] = if random.one_in(32) { b"0" } else { *random.pick(&[&b""[..], b"", b"1", b"15", b"00"]) };
    name(&call(random), ssid)
}

fn inner_hop(random: &mut Random) -> Hop {
    if random.one_in(4) {
        record_hop(random)
    } else {
        Hop::Callsign(inner_name(random), random.one_in(3))
    }
}

/// An innermost header, each part of it left out, blank or not; a Mic-E record seldom has a destination there.
fn with_innermost(random: &mut Random, record: Record) -> Record {
    let blank = || Some(name(b"", b""));
    let hops: Vec<Hop> = (0..random.below(4)).map(|_| inner_hop(random)).collect();
    let may_be_zero = [true, true].into_iter().chain(hops.iter().map(|hop| hop.name().is_some()));
    let zeros = may_be_zero.map(|may_be| may_be && random.one_in(2)).collect();
    let has_destination = random.one_in(8) == (record.kind == "mic-e");
    Record {
        inner_from: if random.one_in(4) { None } else { Some(inner_name(random)) },
        inner_to: if has_destination { Some(inner_name(random)) } else { blank() },
        inner_zeros: if random.one_in(2) { Some(zeros) } else { None },
        inner_hops: Some(hops),
        ..record
    }
}

/// Records of each kind with a number, mostly 1 to 4, and an innermost header; a Mic-E record has an outermost destination half the time,
/// and one position in four has a symbol out of range.
pub fn written_inner(random: &mut Random) -> Request {
    let kind = *random.pick(&["unknown", "position", "mic-e", "message", "status"]);
    let mut record = record(random, kind);
    record.letters = if random.one_in(4) { record.letters } else { None };
    record.inner = match random.below(8) {
        0 => None,
        1 => Some(0),
        2 => Some(random.below(256)),
        _ => Some(random.between(1, 5)),
    };
    if !random.one_in(8) {
        record = with_innermost(random, record);
    }
    if kind == "mic-e" && random.one_in(2) {
        record.to = inner_name(random);
    }
    if kind == "position" && random.one_in(4) {
        record.table = random.between(128, 255);
    }
    Request::Line(record.request())
}
