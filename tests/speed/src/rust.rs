// The Rust crate aprs-parser's side of the comparison.

use crate::capture::Class;
use crate::keep::keep;
use crate::Task;
use aprs_parser::{AprsData, AprsPacket};

/// Reads each line and, if the task says so, writes what was read; the bytes written, in all.
pub fn pass(task: Task, lines: &[&[u8]], out: &mut Vec<u8>) -> usize {
    match task {
        Task::Read => lines.iter().map(|line| read(line)).sum(),
        Task::ReadAndWrite => lines.iter().map(|line| read_and_write(line, out)).sum(),
    }
}

fn read(line: &[u8]) -> usize {
    keep(&AprsPacket::decode_textual(line));
    0
}

pub fn read_and_write(line: &[u8], out: &mut Vec<u8>) -> usize {
    out.clear();
    let written = match AprsPacket::decode_textual(line) {
        Ok(packet) => packet.encode_textual(out).is_ok(),
        Err(_) => false,
    };
    keep(out);
    if written {
        out.len()
    } else {
        0
    }
}

/// What the Rust takes a line for; nothing for a kind that this library does not carry.
pub fn class(line: &[u8]) -> Option<Class> {
    match AprsPacket::decode_textual(line) {
        Ok(packet) => match packet.data {
            AprsData::Position(_) => Some(Class::Position),
            AprsData::MicE(_) => Some(Class::MicE),
            AprsData::Unknown(_) => Some(Class::Unknown),
            _ => None,
        },
        Err(_) => Some(Class::Refused(0)),
    }
}
