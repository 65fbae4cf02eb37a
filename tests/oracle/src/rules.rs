// What document 02 asks that the Rust does not have, computed from a request alone: the letters of both angles and the page box,
// which callsigns had SSID `0`, and which seven bytes are a time. Messages and status lines, packets inside packets
// and the strict entry have files of their own.

use std::ops::RangeInclusive;

use crate::third_party::{self, Inside};
use crate::{
    body_of, callsigns_of, is_of_body, messages, number_of_addresses, Form, Mark, BAD_TIME, LATITUDE_LIMIT, LONGITUDE_LIMIT,
};

pub const TIME_LENGTH: usize = 7;
/// "Days 1 to 31, hours 0 to 23, minutes and seconds 0 to 59": each with the mark of one out of range.
const DAY: (RangeInclusive<u8>, Mark) = (1..=31, Mark::TimeDay);
const HOUR: (RangeInclusive<u8>, Mark) = (0..=23, Mark::TimeHour);
const MINUTE: (RangeInclusive<u8>, Mark) = (0..=59, Mark::TimeMinute);
const SECOND: (RangeInclusive<u8>, Mark) = (0..=59, Mark::TimeSecond);

/// Hundredths of a minute that an angle with 0 to 5 blanks leaves open.
const WIDTHS: [i64; 6] = [1, 10, 100, 1000, 6000, 60_000];

#[derive(Clone, Copy, PartialEq, Eq)]
pub enum Limit {
    Latitude,
    Longitude,
}

impl Limit {
    pub fn named(word: &[u8]) -> Option<Limit> {
        match word {
            b"lat" => Some(Limit::Latitude),
            b"lon" => Some(Limit::Longitude),
            _ => None,
        }
    }

    pub fn largest(self) -> i64 {
        match self {
            Limit::Latitude => LATITUDE_LIMIT,
            Limit::Longitude => LONGITUDE_LIMIT,
        }
    }

    /// North or east, then south or west.
    pub fn letters(self) -> [u8; 2] {
        match self {
            Limit::Latitude => *b"NS",
            Limit::Longitude => *b"EW",
        }
    }

    /// The letter of the angle's own side; at 0 north or east.
    pub fn own_letter(self, angle: i64) -> u8 {
        self.letters()[usize::from(angle < 0)]
    }

    /// True of a letter that is one of the two and does not contradict a nonzero angle.
    pub fn agrees(self, letter: u8, angle: i64) -> bool {
        self.letters().contains(&letter) && (angle == 0 || letter == self.own_letter(angle))
    }
}

fn has_time(body: &[u8]) -> bool {
    matches!(body.first(), Some(b'/' | b'@'))
}

/// The seven bytes behind the type byte of a body that has a time.
pub fn time_of(body: &[u8]) -> Option<&[u8]> {
    if has_time(body) {
        body.get(1..1 + TIME_LENGTH)
    } else {
        None
    }
}

/// What stands behind the type byte and the time, if there is one: a position.
pub fn behind_time(body: &[u8]) -> Option<&[u8]> {
    body.get(if has_time(body) { 1 + TIME_LENGTH } else { 1 }..)
}

/// The three numbers of two digits each that a time starts with.
pub fn numbers_of(time: &[u8]) -> Option<[u8; 3]> {
    let digits = time.get(..6)?;
    if !digits.iter().all(u8::is_ascii_digit) {
        return None;
    }
    let number = |at: usize| 10 * (digits[at] - b'0') + digits[at + 1] - b'0';
    Some([number(0), number(2), number(4)])
}

/// What is wrong with a time, the first of it from the left; a letter that neither document 02 nor the Rust knows has no mark.
pub fn mark_of_time(time: &[u8]) -> Option<Mark> {
    let letter = *time.last()?;
    let is_local = letter == b'/';
    let numbers = match numbers_of(time) {
        Some(numbers) => numbers,
        None if is_local => return Some(Mark::LocalDigits),
        None => return Some(Mark::TimeDigits),
    };
    let limits = match letter {
        b'h' | b'H' => [HOUR, MINUTE, SECOND],
        _ => [DAY, HOUR, MINUTE],
    };
    let past = numbers.iter().zip(limits).find(|(number, (limit, _))| !limit.contains(number));
    match past {
        Some(_) if is_local => Some(Mark::LocalRange),
        Some((_, (_, mark))) => Some(mark),
        None if matches!(letter, b'Z' | b'H') => Some(Mark::TimeCapital),
        None => None,
    }
}

pub fn is_time(time: &[u8]) -> bool {
    matches!(time.last(), Some(b'z' | b'/' | b'h')) && mark_of_time(time).is_none()
}

/// The number of a body whose time is missing or bad: "17 for a bad time (15 in a record); 10 when the seven bytes are missing stands
/// before it, and 7, 10, 8, 9 follow".
pub fn time_refusal(body: &[u8]) -> Option<u32> {
    match time_of(body) {
        None if has_time(body) => Some(10),
        Some(time) if !is_time(time) => Some(BAD_TIME),
        _ => None,
    }
}

/// The number of an input that the Rust refuses with its own, where a time, a message or a status decides it: not in a header, which
/// comes before.
pub fn decided_by_body(input: &[u8], form: Form, rust: u32) -> Option<u32> {
    if is_of_body(rust) {
        let body = body_of(input, form)?;
        time_refusal(body).or_else(|| messages::refusal(body))
    } else {
        None
    }
}

/// The first six characters of a destination.
pub fn six_characters(input: &[u8], form: Form) -> Option<Vec<u8>> {
    match form {
        Form::Text => callsigns_of(input)?[1].get(..6).map(<[u8]>::to_vec),
        Form::Frame => {
            let address = input.get(..6)?;
            Some(address.iter().map(|byte| (byte >> 1).to_ascii_uppercase()).collect())
        }
    }
}

/// The letters of an accepted packet: those that stand in a position; in Mic-E N and W where the fourth and the sixth character of the
/// destination are P to Z; none in another kind.
fn letters(kind: &[u8], input: &[u8], form: Form) -> Option<[u8; 2]> {
    match kind {
        b"position" => {
            let position = behind_time(body_of(input, form)?)?;
            Some([*position.get(7)?, *position.get(17)?])
        }
        b"mic-e" => {
            let characters = six_characters(input, form)?;
            let north = (b'P'..=b'Z').contains(&characters[3]);
            let west = (b'P'..=b'Z').contains(&characters[5]);
            Some([if north { b'N' } else { b'S' }, if west { b'W' } else { b'E' }])
        }
        b"unknown" | b"message" | b"status" => Some(*b"--"),
        _ => None,
    }
}

/// True of a callsign's text whose SSID, once the star is off, is the one byte `0`; the first dash splits.
fn has_zero_ssid(text: &[u8]) -> bool {
    let call = text.strip_suffix(b"*").unwrap_or(text).strip_suffix(b"-0");
    call.map_or(false, |call| !call.contains(&b'-'))
}

/// A digit for each callsign of an accepted packet, 1 where the text had SSID `0`: source, destination, hops. A frame has none, nor has
/// the destination of a Mic-E record, since there is no such destination.
fn zeros(kind: &[u8], input: &[u8], form: Form) -> Option<Vec<u8>> {
    let mut digits: Vec<u8> = match form {
        Form::Text => callsigns_of(input)?.into_iter().map(|text| b'0' + u8::from(has_zero_ssid(text))).collect(),
        Form::Frame => vec![b'0'; number_of_addresses(input)?],
    };
    if kind == b"mic-e" {
        *digits.get_mut(1)? = b'0';
    }
    Some(digits)
}

/// The words of an answer to an accepted packet that the Rust does not have: those before its time, and those at the end.
pub struct Words {
    pub before_time: [Vec<u8>; 2],
    pub last: Vec<Vec<u8>>,
}

/// Of a packet inside another the letters are the innermost body's; the zeros are the outermost header's, whose destination stays,
/// and the innermost header's. At number 0 that header is blank.
pub fn record_words(kind: &[u8], input: &[u8], form: Form) -> Option<Words> {
    let word = |name: &[u8], value: &[u8]| [name, value].concat();
    let (letters, zeros, last) = match third_party::inside(input, form) {
        None => {
            let blank = ["inner=0", "inner-from=-", "inner-to=-", "inner-hops=-", "inner-zeros=00"].map(|word| word.as_bytes().to_vec());
            (letters(kind, input, form)?, zeros(kind, input, form)?, blank.to_vec())
        }
        Some(Inside { text, .. }) => {
            let inner_zeros = zeros(kind, text, Form::Text)?;
            (letters(kind, text, Form::Text)?, zeros(b"", input, form)?, vec![word(b"inner-zeros=", &inner_zeros)])
        }
    };
    Some(Words {
        before_time: [word(b"letters=", &letters), word(b"zeros=", &zeros)],
        last,
    })
}

/// The side that the words behind a limit name: one of its two letters, or, left out, the angle's own.
pub fn side(limit: Limit, angle: i64, words: &[&[u8]]) -> Option<u8> {
    match words {
        [] => Some(limit.own_letter(angle)),
        [[letter]] if limit.letters().contains(letter) => Some(*letter),
        _ => None,
    }
}

/// The page box in half hundredths: "from 2T to 2(T + w) on the north or east side and from 2(T - w) to 2T on the other"; none
/// out of range, or for a letter that contradicts the angle.
fn page_box(limit: Limit, angle: i64, blanks: usize, letter: u8) -> Option<(i64, i64)> {
    let width = WIDTHS.get(blanks)?;
    if angle.abs() > limit.largest() || !limit.agrees(letter, angle) {
        return None;
    }
    if letter == limit.letters()[0] {
        Some((2 * angle, 2 * (angle + width)))
    } else {
        Some((2 * (angle - width), 2 * angle))
    }
}

/// The box as the last words of an answer to B.
pub fn page_words(limit: Limit, angle: i64, blanks: usize, letter: u8) -> String {
    match page_box(limit, angle, blanks, letter) {
        Some((from, to)) => format!("{} {} box=0", from, to),
        None => "0 0 box=15".to_string(),
    }
}
