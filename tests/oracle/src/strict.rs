// What the strict entry refuses beside the usual one, by document 02, from an input's bytes and from the number that the usual entry
// answers. The crate has no such entry.

use crate::third_party::{self, Inside};
use crate::{body_of, rules, Form};

/// "Minutes give 8, 9 or 11", "the table byte gives 20".
pub const LATITUDE: u32 = 8;
pub const LONGITUDE: u32 = 9;
pub const DESTINATION: u32 = 11;
pub const TABLE: u32 = 20;
const INFORMATION: u32 = 12;

/// Refused minutes are "60 or more".
const SIXTY: u32 = 60;

/// "Table bytes `/`, `\`, `0-9` or `A-Z`".
fn is_table(byte: u8) -> bool {
    matches!(byte, b'/' | b'\\' | b'0'..=b'9' | b'A'..=b'Z')
}

/// Blanks cover an angle from its last digit on: two hundredths, then the ones and the tens of its minutes. A digit so covered, or
/// discarded where the other angle has the blanks, is 0.
fn minutes(tens: u32, ones: u32, blanks: usize) -> u32 {
    match blanks {
        0..=2 => 10 * tens + ones,
        3 => 10 * tens,
        _ => 0,
    }
}

fn digit(byte: u8) -> u32 {
    u32::from(byte.wrapping_sub(b'0'))
}

/// Of a position whose latitude the usual entry reads, and its longitude too unless it answers 9.
fn refusal_of_position(position: &[u8], usual: u32) -> Option<u32> {
    let (latitude, table, longitude) = (position.get(..8)?, *position.get(8)?, position.get(9..18)?);
    let blanks = latitude.iter().filter(|byte| **byte == b' ').count();
    if minutes(digit(latitude[2]), digit(latitude[3]), blanks) >= SIXTY {
        Some(LATITUDE)
    } else if usual == LONGITUDE {
        None
    } else if minutes(digit(longitude[3]), digit(longitude[4]), blanks) >= SIXTY {
        Some(LONGITUDE)
    } else if is_table(table) {
        None
    } else {
        Some(TABLE)
    }
}

/// The digit of a destination's character; none of a blank.
fn destination_digit(character: u8) -> Option<u32> {
    let zero = match character {
        b'0'..=b'9' => b'0',
        b'A'..=b'J' => b'A',
        b'P'..=b'Y' => b'P',
        _ => return None,
    };
    Some(u32::from(character - zero))
}

/// Of a Mic-E report whose destination the usual entry reads, and its information too unless it answers 12.
fn refusal_of_report(destination: &[u8], body: &[u8], usual: u32) -> Option<u32> {
    let digits: Vec<Option<u32>> = destination.iter().map(|character| destination_digit(*character)).collect();
    let blanks = digits.iter().filter(|digit| digit.is_none()).count();
    let [tens, ones] = [digits.get(2)?, digits.get(3)?].map(|digit| digit.unwrap_or(0));
    if minutes(tens, ones, blanks) >= SIXTY {
        Some(DESTINATION)
    } else if usual == INFORMATION || is_table(*body.get(8)?) {
        None
    } else {
        Some(TABLE)
    }
}

pub struct Refusal {
    pub number: u32,
    pub has_time: bool,
    pub is_inside: bool,
}

/// What the strict entry refuses where the usual one answers `usual`; no number but 0, 9 and 12 leaves anything to judge. "An inner body is
/// judged by the same rules as an outer one": of packets inside packets the innermost body.
pub fn refusal(input: &[u8], form: Form, usual: u32) -> Option<Refusal> {
    let inside = third_party::inside(input, form);
    let (input, form) = match &inside {
        Some(Inside { text, .. }) => (*text, Form::Text),
        None => (input, form),
    };
    let body = body_of(input, form)?;
    let number = match (body.first()?, usual) {
        (b'!' | b'=' | b'/' | b'@', 0 | LONGITUDE) => refusal_of_position(rules::behind_time(body)?, usual),
        (b'`' | b'\'' | 0x1c | 0x1d, 0 | INFORMATION) => refusal_of_report(&rules::six_characters(input, form)?, body, usual),
        _ => None,
    };
    Some(Refusal {
        number: number?,
        has_time: rules::time_of(body).is_some(),
        is_inside: inside.is_some(),
    })
}
