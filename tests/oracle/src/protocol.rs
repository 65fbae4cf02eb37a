// What the programs of this folder share: hexadecimal, whole numbers, lines of a file, the parts of a packet, the marks that the
// oracle puts on answers outside document 01's domain of equality, and document 02's rules.

mod mark;
pub mod messages;
pub mod q_elements;
pub mod rules;
pub mod strict;
pub mod third_party;

use std::io::{self, BufRead};

pub use mark::Mark;

/// The longest line or frame that document 01 admits, and the longest output.
pub const LONGEST: usize = 512;
pub const LONGEST_CALLSIGN: usize = 16;
pub const MOST_HOPS: usize = 8;
pub const LATITUDE_LIMIT: i64 = 540_000;
pub const LONGITUDE_LIMIT: i64 = 1_080_000;
/// The bytes of an address in a frame.
pub const ADDRESS: usize = 7;
/// Document 02's numbers for a bad time in a body, and for a malformed message or status.
pub const BAD_TIME: u32 = 17;
pub const MALFORMED: u32 = 18;

/// True of a number that a reader gives for a body, once the header was read.
pub fn is_of_body(number: u32) -> bool {
    matches!(number, 7..=12 | BAD_TIME | MALFORMED)
}

#[derive(Clone, Copy, PartialEq, Eq)]
pub enum Form {
    Text,
    Frame,
}

pub fn push_hex(out: &mut Vec<u8>, bytes: &[u8]) {
    const DIGITS: &[u8; 16] = b"0123456789abcdef";
    if bytes.is_empty() {
        out.push(b'-');
    }
    for byte in bytes {
        out.push(DIGITS[usize::from(byte >> 4)]);
        out.push(DIGITS[usize::from(byte & 15)]);
    }
}

fn nibble(digit: u8) -> Option<u8> {
    match digit {
        b'0'..=b'9' => Some(digit - b'0'),
        b'a'..=b'f' => Some(digit - b'a' + 10),
        _ => None,
    }
}

/// The bytes that a lower-case hexadecimal word stands for; `-` stands for none.
pub fn from_hex(word: &[u8]) -> Option<Vec<u8>> {
    if word == b"-" {
        return Some(Vec::new());
    }
    if word.is_empty() || word.len() % 2 == 1 {
        return None;
    }
    word.chunks(2)
        .map(|pair| Some(nibble(pair[0])? << 4 | nibble(pair[1])?))
        .collect()
}

/// A decimal number: digits, with a dash before them if negative.
pub fn from_decimal(word: &[u8]) -> Option<i64> {
    let digits = word.strip_prefix(b"-").unwrap_or(word);
    if !digits.iter().all(u8::is_ascii_digit) {
        return None;
    }
    std::str::from_utf8(word).ok()?.parse().ok()
}

/// Degrees, minutes and hundredths of the size of an angle.
pub fn dmh_of(angle: i64) -> (u32, u32, u32) {
    let size = angle.unsigned_abs() as u32;
    (size / 6000, size % 6000 / 100, size % 100)
}

pub fn words(line: &[u8]) -> Vec<&[u8]> {
    line.split(|byte| *byte == b' ').collect()
}

/// The number that an answer starts with.
pub fn first_number(answer: &[u8]) -> Option<u32> {
    words(answer).first().and_then(|word| from_decimal(word)).and_then(|number| number.try_into().ok())
}

/// The texts of a line's callsigns, stars and all: source, destination, hops.
pub fn callsigns_of(line: &[u8]) -> Option<Vec<&[u8]>> {
    let header = line.split(|byte| *byte == b':').next()?;
    let source_end = header.iter().position(|byte| *byte == b'>')?;
    let behind = header[source_end + 1..].split(|byte| *byte == b',');
    Some(std::iter::once(&header[..source_end]).chain(behind).collect())
}

/// How many addresses a frame has: up to the first that says it is the last.
pub fn number_of_addresses(frame: &[u8]) -> Option<usize> {
    let last = frame.chunks(ADDRESS).position(|address| address.get(6).map_or(true, |end| end & 1 == 1))?;
    Some(last + 1)
}

/// What stands behind a line's first colon, or behind a frame's addresses and control pair.
pub fn body_of(input: &[u8], form: Form) -> Option<&[u8]> {
    match form {
        Form::Text => {
            let colon = input.iter().position(|byte| *byte == b':')?;
            input.get(colon + 1..)
        }
        Form::Frame => input.get(number_of_addresses(input)? * ADDRESS + 2..),
    }
}

/// Reads the next line, without its end, into `line`; false at the end of the input.
pub fn next_line(input: &mut impl BufRead, line: &mut Vec<u8>) -> io::Result<bool> {
    line.clear();
    if input.read_until(b'\n', line)? == 0 {
        return Ok(false);
    }
    if line.last() == Some(&b'\n') {
        line.pop();
    }
    Ok(true)
}
