// Packets inside packets (document 02, R-6). The crate calls the outer ones Unknown; it reads each of their headers, and the innermost
// packet as one by itself.

use aprs_parser::{AprsData, AprsPacket};
use crate::headers;
use crate::reading::{packet, Fault};
use crate::record::{Around, Told};
use protocol::third_party::{inner_text, FIFTH, MOST_INNER};
use protocol::Form;

pub struct Read<'a> {
    outermost: AprsPacket,
    innermost: AprsPacket,
    number: usize,
    text: &'a [u8],
}

/// An outer packet whose header reads: "the Rust calls them Unknown".
fn outer(input: &[u8], form: Form) -> Result<AprsPacket, Fault> {
    if let Some(refusal) = headers::refusal(input, form) {
        return Err(Fault::Number(refusal));
    }
    match packet(input, form) {
        Ok(packet) if matches!(packet.data, AprsData::Unknown(_)) => Ok(packet),
        Err(Fault::Panic(message)) => Err(Fault::Panic(message)),
        _ => Err(Fault::NotUnknown),
    }
}

/// The innermost packet, how many packets stand inside, and the innermost text; `number` is that of the packet that `text` is.
fn innermost(text: &[u8], number: usize) -> Result<(AprsPacket, usize, &[u8]), Fault> {
    if number > MOST_INNER {
        return Err(Fault::Number(FIFTH));
    }
    match inner_text(text, Form::Text) {
        Some(next) => outer(text, Form::Text).and_then(|_| innermost(next, number + 1)),
        None => match headers::refusal(text, Form::Text) {
            Some(refusal) => Err(Fault::Number(refusal)),
            None => Ok((packet(text, Form::Text)?, number, text)),
        },
    }
}

/// "Inner faults keep their numbers": the first in reading order, outermost first.
pub fn read(input: &[u8], form: Form) -> Result<Read<'_>, Fault> {
    let outermost = outer(input, form)?;
    let (innermost, number, text) = innermost(inner_text(input, form).unwrap_or(b""), 1)?;
    Ok(Read { outermost, innermost, number, text })
}

impl Read<'_> {
    pub fn told<'a>(&'a self, input: &'a [u8], form: Form) -> Told<'a> {
        Told {
            packet: &self.innermost,
            input: self.text,
            form: Form::Text,
            around: Some(Around { outermost: &self.outermost, number: self.number, input, form }),
        }
    }
}
