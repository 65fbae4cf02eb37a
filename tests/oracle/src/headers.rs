// Headers by document 01's limits and order of refusals, and document 02's Q elements; whether a callsign or a hop is well formed
// the crate says of each by itself.

use aprs_parser::{Callsign, Via};
use protocol::{callsigns_of, q_elements, Form, Mark, ADDRESS, LONGEST_CALLSIGN, MOST_HOPS};

const NO_PACKET: u32 = 2;
const MALFORMED_CALLSIGN: u32 = 3;
const CONTROL_PAIR: &[u8] = &[0x03, 0xf0];

fn limit_of_callsign(text: &[u8]) -> Option<Mark> {
    if text.strip_suffix(b"*").unwrap_or(text).len() > LONGEST_CALLSIGN {
        Some(Mark::CallsignLength)
    } else {
        None
    }
}

/// "A hop: 5, 6, 4, 3."
fn limit_of_hop(place: usize, text: &[u8]) -> Option<Mark> {
    if place >= MOST_HOPS {
        Some(Mark::Hops)
    } else if q_elements::is_refused(text) {
        Some(Mark::QElement)
    } else {
        limit_of_callsign(text)
    }
}

/// The limit of the port that a text of a line's header breaks: source, destination, hops.
fn limit_of(place: usize, text: &[u8]) -> Option<Mark> {
    match place.checked_sub(2) {
        None => limit_of_callsign(text),
        Some(hop) => limit_of_hop(hop, text),
    }
}

/// The first limit of the port, from the left, that a line's header breaks.
pub fn mark_of_line(line: &[u8]) -> Option<Mark> {
    callsigns_of(line)?.into_iter().enumerate().find_map(|(place, text)| limit_of(place, text))
}

fn is_well_formed(place: usize, text: &[u8]) -> bool {
    match place {
        0 | 1 => Callsign::decode_textual(text).is_some(),
        _ => Via::decode_textual(text).is_some(),
    }
}

fn refusal_of_line(line: &[u8]) -> Option<u32> {
    let texts = match callsigns_of(line) {
        Some(texts) if line.contains(&b':') => texts,
        _ => return Some(NO_PACKET),
    };
    texts.into_iter().enumerate().find_map(|(place, text)| match limit_of(place, text) {
        Some(limit) => limit.number_read(),
        None if is_well_formed(place, text) => None,
        None => Some(MALFORMED_CALLSIGN),
    })
}

/// "destination's 7 bytes present (2), readable (3), not last (2); source the same without the last test; each hop 5, 2, 3; control pair".
fn refusal_of_frame(frame: &[u8]) -> Option<u32> {
    for place in 0..2 + MOST_HOPS {
        let (at, behind) = (ADDRESS * place, ADDRESS * (place + 1));
        match frame.get(at..behind).map(Callsign::decode_ax25) {
            None => return Some(NO_PACKET),
            Some(None) => return Some(MALFORMED_CALLSIGN),
            Some(Some((_, _, true))) => {}
            Some(Some(_)) if place > 0 && frame[behind..].starts_with(CONTROL_PAIR) => return None,
            Some(Some(_)) => return Some(NO_PACKET),
        }
    }
    Mark::Hops.number_read()
}

/// The number of a header's first fault.
pub fn refusal(input: &[u8], form: Form) -> Option<u32> {
    match form {
        Form::Text => refusal_of_line(input),
        Form::Frame => refusal_of_frame(input),
    }
}
