// The message of a Mic-E report.

use crate::refusal::Refusal;
use std::fmt;

/// The message of a Mic-E report, by aprs-parser's names. Its number is that of its place here, from 0.
///
/// ```
/// use tusselgro::mic_e::Message;
///
/// assert_eq!(Message::M3.to_string(), "M3");
/// assert_eq!(Message::M3.words(), "Returning");
/// assert_eq!(Message::try_from(14), Ok(Message::Emergency));
/// assert_eq!(Message::C0.number(), 7);
/// ```
#[derive(Clone, Copy, Debug, PartialEq, Eq, Hash)]
pub enum Message {
    /// Off Duty
    M0,
    /// En Route
    M1,
    /// In Service
    M2,
    /// Returning
    M3,
    /// Committed
    M4,
    /// Special
    M5,
    /// Priority
    M6,
    /// Custom-0
    C0,
    /// Custom-1
    C1,
    /// Custom-2
    C2,
    /// Custom-3
    C3,
    /// Custom-4
    C4,
    /// Custom-5
    C5,
    /// Custom-6
    C6,
    /// Emergency
    Emergency,
    /// Standard and custom bits mixed, which the Protocol Reference gives no meaning
    Unknown,
}

use Message::*;

/// In the order of their numbers, with their words.
const MESSAGES: [(Message, &str); 16] = [
    (M0, "Off Duty"),
    (M1, "En Route"),
    (M2, "In Service"),
    (M3, "Returning"),
    (M4, "Committed"),
    (M5, "Special"),
    (M6, "Priority"),
    (C0, "Custom-0"),
    (C1, "Custom-1"),
    (C2, "Custom-2"),
    (C3, "Custom-3"),
    (C4, "Custom-4"),
    (C5, "Custom-5"),
    (C6, "Custom-6"),
    (Emergency, "Emergency"),
    (Unknown, "Unknown"),
];

impl Message {
    /// Its number: M0 to M6 are 0 to 6, C0 to C6 are 7 to 13, then Emergency and Unknown.
    pub fn number(self) -> u8 {
        self as u8
    }

    /// The Protocol Reference's words for it.
    pub fn words(self) -> &'static str {
        MESSAGES[self as usize].1
    }
}

impl TryFrom<u8> for Message {
    type Error = Refusal;

    /// The message of a number; one over 15 is out of range.
    fn try_from(number: u8) -> Result<Self, Refusal> {
        let found = MESSAGES.get(usize::from(number));
        found.map(|named| named.0).ok_or(Refusal::OutOfRange)
    }
}

/// `M0` to `M6`, `C0` to `C6`, `Emergency` or `Unknown`.
impl fmt::Display for Message {
    fn fmt(&self, f: &mut fmt::Formatter<'_>) -> fmt::Result {
        f.pad(&format!("{self:?}"))
    }
}

#[cfg(test)]
mod tests {
    use super::*;

    #[test]
    fn numbers_come_back() {
        for (number, (message, _)) in (0..).zip(MESSAGES) {
            assert_eq!(message.number(), number);
            assert_eq!(Message::try_from(number), Ok(message));
        }
        assert_eq!(Message::try_from(16), Err(Refusal::OutOfRange));
    }

    #[test]
    fn names_and_words() {
        let shown = |message: Message| (message.to_string(), message.words());
        assert_eq!(shown(M0), ("M0".into(), "Off Duty"));
        assert_eq!(shown(C6), ("C6".into(), "Custom-6"));
        assert_eq!(shown(Emergency), ("Emergency".into(), "Emergency"));
        assert_eq!(format!("{M6:>4}"), "  M6");
    }
}
