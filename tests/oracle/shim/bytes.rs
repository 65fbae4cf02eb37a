// Stands in for the crate's file `bytes.rs`, which is not among the papers. It reads ASCII digits only;
// any other byte is refused and reported to the watcher, because what the real file does there is not known.

extern crate watch;

use std::str::FromStr;

pub fn parse_bytes<T: FromStr>(bytes: &[u8]) -> Option<T> {
    if bytes.iter().all(u8::is_ascii_digit) {
        std::str::from_utf8(bytes).ok()?.parse().ok()
    } else {
        self::watch::saw_other_than_digits(bytes);
        None
    }
}
