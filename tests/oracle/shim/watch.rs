// Remembers, for each thread, which bytes other than digits reached the shim of `parse_bytes` since the last reset.

use std::cell::Cell;

#[derive(Clone, Copy, Debug, PartialEq, Eq)]
pub enum Seen {
    Digits,
    Blank,
    Other,
}

thread_local! {
    static SEEN: Cell<Seen> = const { Cell::new(Seen::Digits) };
}

pub fn reset() {
    SEEN.with(|seen| seen.set(Seen::Digits));
}

/// The worst met since the last reset: anything but a digit or a blank, then a blank, then digits alone.
pub fn seen() -> Seen {
    SEEN.with(Cell::get)
}

pub fn saw_other_than_digits(bytes: &[u8]) {
    let other = bytes.iter().any(|byte| !byte.is_ascii_digit() && *byte != b' ');
    if other {
        SEEN.with(|seen| seen.set(Seen::Other));
    } else if seen() == Seen::Digits {
        SEEN.with(|seen| seen.set(Seen::Blank));
    }
}
