// Where a C writer puts its bytes: the front of a slice, the end of a vector, or what is being printed.

use crate::ffi::{Answer, MOST_BYTES};
use crate::refusal::Refusal;
use std::fmt;

/// Lets `write` fill the front of `out`; what it wrote.
pub fn to_slice(
    out: &mut [u8],
    write: impl FnOnce(*mut u8, usize) -> Answer,
) -> Result<&[u8], Refusal> {
    let answer = write(out.as_mut_ptr(), out.len());
    Refusal::reported(answer).map(|length| &out[..length])
}

/// Appends what `write` writes, which is never over 512 bytes; at a refusal nothing.
pub fn to_vec(
    out: &mut Vec<u8>,
    write: impl FnOnce(*mut u8, usize) -> Answer,
) -> Result<(), Refusal> {
    let mut room = [0; MOST_BYTES];
    to_slice(&mut room, write).map(|written| out.extend_from_slice(written))
}

/// Prints the text of an angle, which `write` writes in at most nine bytes.
pub fn show(
    f: &mut fmt::Formatter<'_>,
    write: impl FnOnce(*mut u8, usize) -> Answer,
) -> fmt::Result {
    let mut room = [0; 9];
    let text = to_slice(&mut room, write).map_err(|_| fmt::Error)?;
    f.pad(std::str::from_utf8(text).map_err(|_| fmt::Error)?)
}
