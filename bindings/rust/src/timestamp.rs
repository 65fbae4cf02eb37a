// The time of a position or a status: its seven bytes read and written.

use crate::ffi;
use crate::out::{to_slice, to_vec};
use crate::refusal::Refusal;
use std::fmt;
use std::str::FromStr;

/// The time of a position or a status. A packet tells no month and no year.
///
/// ```
/// use tusselgro::{Refusal, Timestamp};
///
/// let time: Timestamp = "092345z".parse()?;
/// assert_eq!(time, Timestamp::DDHHMM(9, 23, 45));
/// assert_eq!((time.day(), time.hour(), time.minute(), time.second()), (Some(9), 23, 45, None));
/// assert_eq!(Timestamp::new_hms(0, 5, 7)?.to_string(), "000507h");
///
/// assert_eq!(Timestamp::decode(b"320000z"), Err(Refusal::Time));
/// assert_eq!(Timestamp::new_dhm(32, 0, 0), Err(Refusal::OutOfRange));
/// # Ok::<(), tusselgro::Refusal>(())
/// ```
///
/// A day is 1 to 31 whatever the month, an hour 0 to 23, a minute or second 0 to 59. aprs-parser takes 0 to 99 of each,
/// and capital letters too; it keeps a local time unread. A variant holds what it is given, and what is out of range is
/// refused when it is written.
#[derive(Clone, Copy, Debug, PartialEq, Eq, Hash)]
pub enum Timestamp {
    /// Day, hour and minute in UTC: `092345z`.
    DDHHMM(u8, u8, u8),
    /// Day, hour and minute in local time, wherever that is: `092345/`.
    DDHHMMLocal(u8, u8, u8),
    /// Hour, minute and second in UTC: `234517h`.
    HHMMSS(u8, u8, u8),
}

/// The same by a shorter name.
pub type Time = Timestamp;

use Timestamp::*;

impl Timestamp {
    /// The bytes that it takes.
    pub const LENGTH: usize = 7;

    /// Day, hour and minute in UTC.
    pub fn new_dhm(day: u8, hour: u8, minute: u8) -> Result<Self, Refusal> {
        DDHHMM(day, hour, minute).in_range()
    }

    /// Day, hour and minute in local time.
    pub fn new_dhm_local(day: u8, hour: u8, minute: u8) -> Result<Self, Refusal> {
        DDHHMMLocal(day, hour, minute).in_range()
    }

    /// Hour, minute and second in UTC.
    pub fn new_hms(hour: u8, minute: u8, second: u8) -> Result<Self, Refusal> {
        HHMMSS(hour, minute, second).in_range()
    }

    /// Itself, if the library writes it.
    fn in_range(self) -> Result<Self, Refusal> {
        to_slice(&mut [0; Self::LENGTH], self.by_library()).map(|_| self)
    }

    /// Reads six digits and `z`, `/` or `h`, and nothing else.
    pub fn decode(bytes: &[u8]) -> Result<Self, Refusal> {
        // SAFETY: the pointer and the length are those of one slice.
        let read = unsafe { ffi::tusselgro_read_time(bytes.as_ptr(), bytes.len()) };
        Refusal::check(read.refusal)?;
        Self::of(read.time)?.ok_or(Refusal::Time)
    }

    /// Appends those seven bytes; where a number is out of range, nothing.
    pub fn encode(self, out: &mut Vec<u8>) -> Result<(), Refusal> {
        to_vec(out, self.by_library())
    }

    /// What puts it into a buffer.
    fn by_library(self) -> impl FnOnce(*mut u8, usize) -> ffi::Answer {
        // SAFETY: the pointer and the length are those of one slice that is lent to nobody else.
        move |at, length| unsafe { ffi::tusselgro_write_time(self.raw(), at, length) }
    }

    /// The day of the month, which `HHMMSS` has not.
    pub fn day(self) -> Option<u8> {
        match self {
            DDHHMM(day, ..) | DDHHMMLocal(day, ..) => Some(day),
            HHMMSS(..) => None,
        }
    }

    /// The hour.
    pub fn hour(self) -> u8 {
        self.raw().hour
    }

    /// The minute.
    pub fn minute(self) -> u8 {
        self.raw().minute
    }

    /// The second, which `HHMMSS` alone has.
    pub fn second(self) -> Option<u8> {
        match self {
            DDHHMM(..) | DDHHMMLocal(..) => None,
            HHMMSS(_, _, second) => Some(second),
        }
    }

    /// Whether it is local time, not UTC.
    pub fn is_local(self) -> bool {
        matches!(self, DDHHMMLocal(..))
    }

    /// The time of a record, or none; a record that holds anything else is out of range.
    pub(crate) fn of(raw: ffi::Time) -> Result<Option<Self>, Refusal> {
        let found = match raw.form {
            ffi::DHM_UTC => Some(DDHHMM(raw.day, raw.hour, raw.minute)),
            ffi::DHM_LOCAL => Some(DDHHMMLocal(raw.day, raw.hour, raw.minute)),
            ffi::HMS_UTC => Some(HHMMSS(raw.hour, raw.minute, raw.second)),
            _ => None,
        };
        if found.map(Self::raw).unwrap_or_default() != raw {
            return Err(Refusal::OutOfRange);
        }
        found.map(Self::in_range).transpose()
    }

    pub(crate) fn raw(self) -> ffi::Time {
        let (day, hour, minute, second, form) = match self {
            DDHHMM(day, hour, minute) => (day, hour, minute, 0, ffi::DHM_UTC),
            DDHHMMLocal(day, hour, minute) => (day, hour, minute, 0, ffi::DHM_LOCAL),
            HHMMSS(hour, minute, second) => (0, hour, minute, second, ffi::HMS_UTC),
        };
        ffi::Time {
            day,
            hour,
            minute,
            second,
            form,
        }
    }
}

impl TryFrom<&[u8]> for Timestamp {
    type Error = Refusal;

    fn try_from(bytes: &[u8]) -> Result<Self, Refusal> {
        Self::decode(bytes)
    }
}

impl FromStr for Timestamp {
    type Err = Refusal;

    fn from_str(text: &str) -> Result<Self, Refusal> {
        Self::decode(text.as_bytes())
    }
}

/// As APRS writes it, two digits a number: `092345z`. A number of three digits, which is out of range, is shown too.
impl fmt::Display for Timestamp {
    fn fmt(&self, f: &mut fmt::Formatter<'_>) -> fmt::Result {
        let (DDHHMM(first, second, third)
        | DDHHMMLocal(first, second, third)
        | HHMMSS(first, second, third)) = self;
        let letter = char::from(self.raw().form);
        f.pad(&format!("{first:02}{second:02}{third:02}{letter}"))
    }
}

#[cfg(test)]
mod tests {
    use super::*;

    fn written(time: Timestamp) -> Result<Vec<u8>, Refusal> {
        let mut out = b"/".to_vec();
        time.encode(&mut out).map(|()| out)
    }

    /// Of the Protocol Reference, chapter 6.
    #[test]
    fn published_times_both_ways() {
        for (text, time) in [
            ("092345z", DDHHMM(9, 23, 45)),
            ("092345/", DDHHMMLocal(9, 23, 45)),
            ("234517h", HHMMSS(23, 45, 17)),
        ] {
            assert_eq!(Timestamp::decode(text.as_bytes()), Ok(time));
            assert_eq!(Time::try_from(text.as_bytes()), Ok(time));
            assert_eq!(text.parse(), Ok(time));
            assert_eq!(time.to_string(), text);
            assert_eq!(written(time), Ok(format!("/{text}").into_bytes()));
        }
    }

    /// Document 02's R-3: every value of each number, beside the limits of the others.
    #[test]
    fn times_are_made_read_written_and_shown_alike() {
        for minute in 0..=59 {
            for (hour, day) in [(0, 1), (23, 31)] {
                same_dhm(day, hour, minute);
            }
            for (hour, second) in [(0, 0), (23, 59)] {
                same_hms(hour, minute, second);
                same_hms(hour, second, minute);
            }
        }
        for hour in 0..=23 {
            for (day, minute, second) in [(1, 0, 0), (31, 59, 59)] {
                same_dhm(day, hour, minute);
                same_hms(hour, minute, second);
            }
        }
        for day in 1..=31 {
            same_dhm(day, 0, 0);
            same_dhm(day, 23, 59);
        }
    }

    fn same_dhm(day: u8, hour: u8, minute: u8) {
        let digits = format!("{day:02}{hour:02}{minute:02}");
        same(Timestamp::new_dhm(day, hour, minute), &digits, "z");
        same(Timestamp::new_dhm_local(day, hour, minute), &digits, "/");
    }

    fn same_hms(hour: u8, minute: u8, second: u8) {
        let digits = format!("{hour:02}{minute:02}{second:02}");
        same(Timestamp::new_hms(hour, minute, second), &digits, "h");
    }

    fn same(made: Result<Timestamp, Refusal>, digits: &str, letter: &str) {
        let text = [digits, letter].concat();
        assert_eq!(text.parse(), made);
        assert_eq!(made.map(|time| time.to_string()), Ok(text.clone()));
        assert_eq!(made.and_then(written), Ok(format!("/{text}").into_bytes()));
    }

    #[test]
    fn the_numbers_by_name() {
        let numbers = |time: Timestamp| (time.day(), time.hour(), time.minute(), time.second());
        assert_eq!(numbers(DDHHMM(9, 23, 45)), (Some(9), 23, 45, None));
        assert_eq!(numbers(DDHHMMLocal(9, 23, 45)), (Some(9), 23, 45, None));
        assert_eq!(numbers(HHMMSS(23, 45, 17)), (None, 23, 45, Some(17)));
        assert!(DDHHMMLocal(9, 23, 45).is_local());
        assert!(!DDHHMM(9, 23, 45).is_local() && !HHMMSS(9, 23, 45).is_local());
    }

    #[test]
    fn what_is_no_time_is_refused() {
        for text in [
            "",
            "092345",
            "092345zz",
            "000000z",
            "320000z",
            "012400z",
            "010060z",
            "000000/",
            "320000/",
            "012400/",
            "010060/",
            "240000h",
            "006000h",
            "000060h",
            "010000Z",
            "000000H",
            "010000x",
            "      /",
            "01 000z",
            "+1+1+1z",
            "\u{661}2345z",
        ] {
            assert_eq!(text.parse::<Timestamp>(), Err(Refusal::Time), "{text}");
        }
        assert_eq!(Timestamp::decode(b"\xff12345z"), Err(Refusal::Time));
    }

    #[test]
    fn a_number_out_of_range_is_not_taken() {
        let out = Err(Refusal::OutOfRange);
        for (day, hour, minute) in [
            (0, 0, 0),
            (32, 0, 0),
            (1, 24, 0),
            (1, 0, 60),
            (255, 255, 255),
        ] {
            assert_eq!(Timestamp::new_dhm(day, hour, minute), out);
            assert_eq!(Timestamp::new_dhm_local(day, hour, minute), out);
        }
        for (hour, minute, second) in [(24, 0, 0), (0, 60, 0), (0, 0, 60), (255, 255, 255)] {
            assert_eq!(Timestamp::new_hms(hour, minute, second), out);
        }
    }

    #[test]
    fn a_variant_out_of_range_is_shown_and_not_written() {
        let mut out = vec![7];
        for (time, shown) in [
            (DDHHMM(0, 0, 0), "000000z"),
            (DDHHMMLocal(32, 1, 2), "320102/"),
            (HHMMSS(255, 0, 100), "25500100h"),
        ] {
            assert_eq!(time.encode(&mut out), Err(Refusal::OutOfRange));
            assert_eq!(time.to_string(), shown);
        }
        assert_eq!(out, [7]);
    }

    #[test]
    fn a_column_is_as_wide_as_it_is_asked_to_be() {
        let shown = format!("{:<9}|{:>9}|", DDHHMM(1, 2, 3), HHMMSS(1, 2, 3));
        assert_eq!(shown, "010203z  |  010203h|");
    }

    /// Each of these is in a record that nobody read.
    #[test]
    fn a_record_of_zeros_has_no_time_and_another_without_a_form_is_out_of_range() {
        let of = |day, hour, minute, second, form| {
            Timestamp::of(ffi::Time {
                day,
                hour,
                minute,
                second,
                form,
            })
        };
        assert_eq!(of(0, 0, 0, 0, ffi::NO_TIME), Ok(None));
        assert_eq!(of(0, 0, 0, 0, ffi::HMS_UTC), Ok(Some(HHMMSS(0, 0, 0))));
        for refused in [
            of(1, 0, 0, 0, ffi::NO_TIME),
            of(0, 1, 0, 0, ffi::NO_TIME),
            of(0, 0, 1, 0, ffi::NO_TIME),
            of(0, 0, 0, 1, ffi::NO_TIME),
            of(1, 0, 0, 1, ffi::DHM_UTC),
            of(1, 0, 0, 1, ffi::DHM_LOCAL),
            of(1, 0, 0, 0, ffi::HMS_UTC),
            of(0, 0, 0, 0, ffi::DHM_UTC),
            of(1, 0, 0, 0, b'Z'),
            of(255, 255, 255, 255, 255),
        ] {
            assert_eq!(refused, Err(Refusal::OutOfRange));
        }
    }
}
