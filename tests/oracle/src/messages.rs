// Messages and status lines by document 02's rules, from a body's bytes, or from the text and the identifier of a record, alone.

use crate::rules::{self, TIME_LENGTH};
use crate::{body_of, Form, Mark, MALFORMED};

/// "A message is nine addressee characters padded with spaces, `:`, up to 67 bytes of text without `|`, `~` or `{`, and optionally `{` with
/// an identifier of 1 to 5 bytes."
pub const ADDRESSEE_LENGTH: usize = 9;
const LONGEST_TEXT: usize = 67;
const LONGEST_IDENTIFIER: usize = 5;
/// "A status is up to 62 bytes, or a `z` time as in R-3 and up to 55."
const LONGEST_STATUS: usize = 62;
const LONGEST_TIMED_STATUS: usize = 55;

/// What stands in a body `:` or `>`, by places; a status has no addressee.
pub struct Parts<'a> {
    pub addressee: &'a [u8],
    pub time: Option<&'a [u8]>,
    pub text: &'a [u8],
    pub id: Option<&'a [u8]>,
    text_at: usize,
}

/// Place and length of a text, and of an identifier if there is one, in an input.
pub struct Places {
    pub text: (usize, usize),
    pub id: Option<(usize, usize)>,
}

fn message_parts(behind_type: &[u8]) -> Option<Parts<'_>> {
    let (addressee, rest) = behind_type.split_at(behind_type.len().min(ADDRESSEE_LENGTH));
    let said = rest.strip_prefix(b":")?;
    let brace = said.iter().position(|byte| *byte == b'{');
    Some(Parts {
        addressee,
        time: None,
        text: &said[..brace.unwrap_or(said.len())],
        id: brace.map(|brace| &said[brace + 1..]),
        text_at: 1 + ADDRESSEE_LENGTH + 1,
    })
}

fn is_time(seven: &[u8]) -> bool {
    seven.last() == Some(&b'z') && rules::is_time(seven)
}

/// "Seven bytes that form such a time are read as one"; anything else is text.
fn status_parts(behind_type: &[u8]) -> Parts<'_> {
    let time = behind_type.get(..TIME_LENGTH).filter(|seven| is_time(seven));
    let time_length = time.map_or(0, <[u8]>::len);
    Parts {
        addressee: &[],
        time,
        text: &behind_type[time_length..],
        id: None,
        text_at: 1 + time_length,
    }
}

/// None of a body that is neither message nor status, and of a message without its second colon.
pub fn parts_of(body: &[u8]) -> Option<Parts<'_>> {
    match body.split_first()? {
        (b':', behind) => message_parts(behind),
        (b'>', behind) => Some(status_parts(behind)),
        _ => None,
    }
}

pub fn places(input: &[u8], form: Form) -> Option<Places> {
    let body = body_of(input, form)?;
    let parts = parts_of(body)?;
    let text_at = input.len() - body.len() + parts.text_at;
    Some(Places {
        text: (text_at, parts.text.len()),
        id: parts.id.map(|id| (text_at + parts.text.len() + 1, id.len())),
    })
}

/// The nine bytes without the spaces they end in.
pub fn unpadded(addressee: &[u8]) -> &[u8] {
    let end = addressee.iter().rposition(|byte| *byte != b' ').map_or(0, |last| last + 1);
    &addressee[..end]
}

/// What is wrong with a message's text or identifier, read or to be written; a text that was read has no brace.
pub fn mark_of_message(text: &[u8], id: Option<&[u8]>) -> Option<Mark> {
    if text.len() > LONGEST_TEXT {
        return Some(Mark::TextLong);
    }
    if text.iter().any(|byte| matches!(byte, b'|' | b'~')) {
        return Some(Mark::TextBytes);
    }
    if text.contains(&b'{') {
        return Some(Mark::TextBrace);
    }
    match id?.len() {
        0 => Some(Mark::IdEmpty),
        1..=LONGEST_IDENTIFIER => None,
        _ => Some(Mark::IdLong),
    }
}

/// What is wrong with a status's text, read or to be written; where one was read without a time, its text does not start with one.
pub fn mark_of_status(has_time: bool, text: &[u8]) -> Option<Mark> {
    let longest = if has_time { LONGEST_TIMED_STATUS } else { LONGEST_STATUS };
    if text.len() > longest {
        Some(Mark::StatusLong)
    } else if !has_time && text.get(..TIME_LENGTH).map_or(false, is_time) {
        Some(Mark::StatusTime)
    } else {
        None
    }
}

/// What makes a body `:` or `>` malformed.
pub fn mark_of_body(body: &[u8]) -> Option<Mark> {
    match (body.first()?, parts_of(body)) {
        (b':', None) => Some(Mark::NoColon),
        (b':', Some(parts)) => mark_of_message(parts.text, parts.id),
        (b'>', Some(parts)) => mark_of_status(parts.time.is_some(), parts.text),
        _ => None,
    }
}

/// "18 for a malformed message or status, in place of the body's other numbers".
pub fn refusal(body: &[u8]) -> Option<u32> {
    mark_of_body(body).map(|_| MALFORMED)
}

/// True of a message in good order whose addressee has a colon in it.
pub fn has_colon_in_addressee(body: &[u8]) -> bool {
    let parts = parts_of(body).filter(|_| mark_of_body(body).is_none());
    parts.map_or(false, |parts| parts.addressee.contains(&b':'))
}

/// Seven bytes that the Rust takes for a status's time and document 02 does not.
pub fn mark_of_status_time(seven: &[u8]) -> Option<Mark> {
    match (*seven.last()?, rules::numbers_of(seven)) {
        (b'/', _) => Some(Mark::StatusLocal),
        (b'Z' | b'H', Some(_)) => Some(Mark::StatusCapital),
        (b'h', Some(_)) => Some(Mark::StatusSeconds),
        (b'z', Some(_)) if !is_time(seven) => Some(Mark::StatusRange),
        _ => None,
    }
}
