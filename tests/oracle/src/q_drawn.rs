// Kinds of requests drawn at random: lines and records with Q elements in the path.

use crate::drawn::{damaged, record, ssid_text, with_zero_or_nearly, zeros};
use crate::inner_drawn::any_kind;
use crate::packets::{address, call, line, Address, Packet};
use crate::q_whole::NEARLY;
use crate::random::Random;
use crate::records::{Hop, Name};
use crate::Request;
use protocol::q_elements::NAMES;
use protocol::MOST_HOPS;

fn hop_text(random: &mut Random) -> Vec<u8> {
    match random.below(32) {
        0..=11 => random.pick(&NAMES).as_bytes().to_vec(),
        12 => random.pick(&NEARLY).to_vec(),
        13 => {
            let call = call(random);
            with_zero_or_nearly(random, &call)
        }
        _ => Address { heard: random.one_in(4), ..address(random) }.text(),
    }
}

/// The packet's line with another path: 1 to 8 hops, seldom one or two more; one path in eight is all Q elements.
pub fn line_with_q_elements(random: &mut Random, made: &Packet) -> Vec<u8> {
    let most = if random.one_in(16) { MOST_HOPS + 2 } else { MOST_HOPS };
    let length = random.between(1, most);
    let is_all = random.one_in(8);
    let hop = |_| if is_all { random.pick(&NAMES).as_bytes().to_vec() } else { hop_text(random) };
    let hops: Vec<Vec<u8>> = (0..length).map(hop).collect();
    line(&made.from.text(), &made.to.text(), &hops, &made.body)
}

/// Lines of every kind with Q elements among the hops; one in eight damaged.
pub fn text_q(random: &mut Random) -> Request {
    let made = any_kind(random);
    let good = line_with_q_elements(random, &made);
    Request::Text(if random.one_in(8) { damaged(random, good) } else { good })
}

/// One in 64 out of range, and one in 64 spelt like a Q element.
fn record_name(random: &mut Random) -> Name {
    match random.below(64) {
        0 => (call(random), b"0".to_vec()),
        1 => (random.pick(&NAMES).as_bytes().to_vec(), Vec::new()),
        _ => (call(random), ssid_text(random)),
    }
}

/// Two hops in five are Q elements.
pub fn record_hop(random: &mut Random) -> Hop {
    if random.below(5) < 2 {
        Hop::Q(*random.pick(&NAMES))
    } else {
        Hop::Callsign(record_name(random), random.one_in(3))
    }
}

/// Records of each kind with Q elements among 1 to 8 hops.
pub fn written_q(random: &mut Random) -> Request {
    let kind = *random.pick(&["unknown", "position", "position", "mic-e", "mic-e", "message", "status"]);
    let mut record = record(random, kind);
    record.letters = if random.one_in(4) { record.letters } else { None };
    let length = random.between(1, MOST_HOPS);
    record.hops = (0..length).map(|_| record_hop(random)).collect();
    record.zeros = zeros(random, &record);
    Request::Line(record.request())
}
