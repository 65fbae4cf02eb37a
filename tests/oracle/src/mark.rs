// Marks: why an input, or a record to be written, lies outside document 01's domain of equality or is a listed difference, and the
// documents' number for it.

use crate::{is_of_body, BAD_TIME, MALFORMED};

#[derive(Clone, Copy, Debug, PartialEq, Eq)]
pub enum Mark {
    TooLong,
    CallsignLength,
    Hops,
    QElement,
    BodyKind,
    Digits,
    TimeDigits,
    Range,
    CallsignText,
    SsidZero,
    Parts,
    Letters,
    ThirdParty,
    Symbol,
    MicE180,
    TimeDay,
    TimeHour,
    TimeMinute,
    TimeSecond,
    TimeCapital,
    LocalRange,
    LocalDigits,
    AddresseeColon,
    NoColon,
    TextLong,
    TextBytes,
    TextBrace,
    IdEmpty,
    IdLong,
    StatusLong,
    StatusTime,
    StatusRange,
    StatusCapital,
    StatusSeconds,
    StatusLocal,
}

const NAMES: [(Mark, &str); 35] = [
    (Mark::TooLong, "too-long"),
    (Mark::CallsignLength, "callsign-length"),
    (Mark::Hops, "hops"),
    (Mark::QElement, "q-element"),
    (Mark::BodyKind, "body-kind"),
    (Mark::Digits, "digits"),
    (Mark::TimeDigits, "time-digits"),
    (Mark::Range, "range"),
    (Mark::CallsignText, "callsign-text"),
    (Mark::SsidZero, "ssid-zero"),
    (Mark::Parts, "parts"),
    (Mark::Letters, "letters"),
    (Mark::ThirdParty, "third-party"),
    (Mark::Symbol, "symbol"),
    (Mark::MicE180, "mic-e-180"),
    (Mark::TimeDay, "time-day"),
    (Mark::TimeHour, "time-hour"),
    (Mark::TimeMinute, "time-minute"),
    (Mark::TimeSecond, "time-second"),
    (Mark::TimeCapital, "time-capital"),
    (Mark::LocalRange, "local-range"),
    (Mark::LocalDigits, "local-digits"),
    (Mark::AddresseeColon, "addressee-colon"),
    (Mark::NoColon, "no-colon"),
    (Mark::TextLong, "text-long"),
    (Mark::TextBytes, "text-bytes"),
    (Mark::TextBrace, "text-brace"),
    (Mark::IdEmpty, "id-empty"),
    (Mark::IdLong, "id-long"),
    (Mark::StatusLong, "status-long"),
    (Mark::StatusTime, "status-time"),
    (Mark::StatusRange, "status-range"),
    (Mark::StatusCapital, "status-capital"),
    (Mark::StatusSeconds, "status-seconds"),
    (Mark::StatusLocal, "status-local"),
];

impl Mark {
    pub fn name(self) -> &'static str {
        NAMES.iter().find(|(mark, _)| *mark == self).expect("each mark has a name").1
    }

    pub fn named(name: &[u8]) -> Option<Mark> {
        Some(NAMES.iter().find(|(_, each)| each.as_bytes() == name)?.0)
    }

    /// The number that document 01, and for a time, a message or a status document 02, gives to a reader's input so marked; `Digits` is 8
    /// or 9, as the place has it. None where the documents accept.
    pub fn number_read(self) -> Option<u32> {
        match self {
            Mark::TooLong => Some(1),
            Mark::CallsignLength => Some(4),
            Mark::Hops => Some(5),
            Mark::QElement => Some(6),
            Mark::BodyKind => Some(7),
            Mark::TimeDigits => Some(BAD_TIME),
            mark if mark.is_listed_time() => Some(BAD_TIME),
            mark if mark.is_malformed() => Some(MALFORMED),
            _ => None,
        }
    }

    /// True of a reader's input whose header is not what leaves the domain.
    pub fn is_of_body(self) -> bool {
        self.number_read().map_or(true, is_of_body)
    }

    /// The number that document 01, and for letters, times, messages, statuses and inner packets document 02, gives to a record so marked
    /// when it is to be written or bounded.
    pub fn number_written(self) -> u32 {
        match self {
            Mark::TooLong => 1,
            Mark::ThirdParty => 14,
            mark if mark.is_malformed() => MALFORMED,
            _ => 15,
        }
    }

    /// True of what the Rust takes for a time of a position and document 02 does not.
    pub fn is_listed_time(self) -> bool {
        matches!(
            self,
            Mark::TimeDay
                | Mark::TimeHour
                | Mark::TimeMinute
                | Mark::TimeSecond
                | Mark::TimeCapital
                | Mark::LocalRange
                | Mark::LocalDigits
        )
    }

    /// True of a message or a status that the Rust takes and document 02 calls malformed.
    pub fn is_malformed(self) -> bool {
        matches!(
            self,
            Mark::NoColon
                | Mark::TextLong
                | Mark::TextBytes
                | Mark::TextBrace
                | Mark::IdEmpty
                | Mark::IdLong
                | Mark::StatusLong
                | Mark::StatusTime
        )
    }

    /// True of what the Rust takes for a time of a status, and document 02 for text; in a record it is out of range.
    pub fn is_status_time(self) -> bool {
        matches!(self, Mark::StatusRange | Mark::StatusCapital | Mark::StatusSeconds | Mark::StatusLocal)
    }

    /// True for the cases that docs/DIFFERENCES.md lists inside the domain.
    pub fn is_listed_difference(self) -> bool {
        matches!(self, Mark::Symbol | Mark::MicE180 | Mark::AddresseeColon)
            || self.is_listed_time()
            || self.is_malformed()
            || self.is_status_time()
    }
}
