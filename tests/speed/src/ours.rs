// This library's side of the comparison, and the only file that calls it. Built with `--cfg ours` it needs the static
// library; without, it says that it is absent.

#[cfg(ours)]
pub use linked::*;

#[cfg(not(ours))]
pub use absent::*;

#[cfg(ours)]
#[path = "../../../bindings/rust/src/ffi.rs"]
#[allow(dead_code)]
mod ffi;

#[cfg(ours)]
mod linked {
    use super::ffi;
    use crate::capture::Class;
    use crate::keep::keep;
    use crate::{Task, ROOM};

    pub const PRESENT: bool = true;

    /// Reads each line and, if the task says so, writes what was read; the bytes written, in all.
    pub fn pass(task: Task, lines: &[&[u8]], out: &mut [u8; ROOM]) -> usize {
        match task {
            Task::Read => lines.iter().map(|line| read_only(line)).sum(),
            Task::ReadAndWrite => lines.iter().map(|line| read_and_write(line, out)).sum(),
        }
    }

    fn read(line: &[u8]) -> ffi::Read {
        // SAFETY: the pointer and the length are those of one slice.
        unsafe { ffi::tusselgro_read_text(line.as_ptr(), line.len()) }
    }

    fn part(line: &[u8], span: ffi::Span) -> &[u8] {
        &line[span.at..][..span.len]
    }

    fn read_only(line: &[u8]) -> usize {
        keep(&read(line));
        0
    }

    pub fn read_and_write(line: &[u8], out: &mut [u8; ROOM]) -> usize {
        let read = read(line);
        if read.refusal != 0 {
            return 0;
        }
        let record = read.record;
        let comment = part(line, record.body.comment);
        let identifier = part(line, record.body.identifier);
        // SAFETY: each pointer and its length are those of one slice, and no other slice overlaps that of the output.
        let answer = unsafe {
            ffi::tusselgro_write_text(
                record,
                comment.as_ptr(),
                comment.len(),
                identifier.as_ptr(),
                identifier.len(),
                out.as_mut_ptr(),
                out.len(),
            )
        };
        keep(out);
        answer.reported
    }

    pub fn class(line: &[u8]) -> Class {
        let read = read(line);
        match (read.refusal, read.record.body.kind) {
            (0, ffi::POSITION) => Class::Position,
            (0, ffi::MIC_E) => Class::MicE,
            (0, _) => Class::Unknown,
            (number, _) => Class::Refused(number),
        }
    }
}

#[cfg(not(ours))]
mod absent {
    use crate::capture::Class;
    use crate::{Task, ROOM};

    pub const PRESENT: bool = false;

    pub fn pass(_: Task, _: &[&[u8]], _: &mut [u8; ROOM]) -> usize {
        0
    }

    pub fn read_and_write(_: &[u8], _: &mut [u8; ROOM]) -> usize {
        0
    }

    pub fn class(_: &[u8]) -> Class {
        Class::Unknown
    }
}
