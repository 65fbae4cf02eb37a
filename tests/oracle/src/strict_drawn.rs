// Kinds of requests drawn at random near the edges of the strict entry (document 02, R-8): each is asked usually and strictly.

use crate::inner_drawn::{any_kind, nested};
use crate::messages_drawn::{frame_of, line_of};
use crate::packets::*;
use crate::random::Random;
use crate::Request;

/// A table byte as often refused strictly as not.
fn table(random: &mut Random) -> u8 {
    match random.below(4) {
        0 => random.byte(),
        1 => *random.pick(b".0:@[]^`az\x80"),
        _ => *random.pick(b"/\\059AMZ"),
    }
}

/// The first digit of the minutes, mostly at the edge; a place without a digit is left as it is.
fn change_tens(random: &mut Random, byte: &mut u8) {
    if byte.is_ascii_digit() {
        *byte = *random.pick(b"045555667789");
    }
}

fn position_at_the_edge(random: &mut Random, mut position: Vec<u8>) -> Vec<u8> {
    change_tens(random, &mut position[2]);
    change_tens(random, &mut position[12]);
    position[8] = table(random);
    position
}

fn untimed(random: &mut Random) -> Vec<u8> {
    let mut body = position(random);
    let position = body.split_off(1);
    [body, position_at_the_edge(random, position)].concat()
}

fn with_a_time(random: &mut Random) -> Vec<u8> {
    let opening = [&[*random.pick(b"/@")][..], good_time(random).as_bytes()].concat();
    let position = position(random).split_off(1);
    [opening, position_at_the_edge(random, position)].concat()
}

fn report(random: &mut Random) -> Packet {
    let mut made = mic_e_packet(random);
    change_tens(random, &mut made.to.call[2]);
    made.body[8] = table(random);
    made
}

fn at_the_edge(random: &mut Random) -> Packet {
    match random.below(8) {
        0 => any_kind(random),
        1..=3 => packet(random, untimed),
        4 | 5 => packet(random, with_a_time),
        _ => report(random),
    }
}

/// Half of them alone, half of them inside others.
fn alone_or_nested(random: &mut Random) -> Packet {
    if random.one_in(2) {
        at_the_edge(random)
    } else {
        nested(random, at_the_edge)
    }
}

pub fn text_strict(random: &mut Random) -> Request {
    let made = alone_or_nested(random);
    line_of(random, &made)
}

pub fn frame_strict(random: &mut Random) -> Request {
    let made = alone_or_nested(random);
    frame_of(random, &made)
}
