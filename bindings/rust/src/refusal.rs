// Why something was not done. The numbers and the words are those of docs/refusals.txt.

use crate::ffi::Answer;
use std::fmt;

const NO_ROOM: &str = "output buffer too short; the bytes needed are returned";
const NO_NAME: &str = "a refusal without a name";

/// The enum and its tables from one list; `NoRoom` and `Other` carry a number of their own.
macro_rules! refusals {
    ($($number:literal $name:ident $words:literal)*) => {
        /// Why something was not done: what aprs-parser calls `DecodeError` and `EncodeError`, with the number that the
        /// printed pages give it.
        ///
        /// ```
        /// use tusselgro::{AprsPacket, Refusal};
        ///
        /// let refusal = AprsPacket::decode_textual(b"N0CALL>APRS:!/5L!!<*e7>7P[").unwrap_err();
        /// assert_eq!((refusal, refusal.number()), (Refusal::NotCarried, 7));
        /// assert!(refusal.to_string().starts_with("7: not carried: body starts"));
        /// ```
        #[derive(Clone, Copy, Debug, PartialEq, Eq, Hash)]
        #[non_exhaustive]
        pub enum Refusal {
            $(
                // As code, where a backslash is itself.
                #[doc = concat!(stringify!($number), ": `", $words, "`")]
                $name,
            )*
            /// 16: output buffer too short
            NoRoom {
                /// A buffer of this many bytes would do.
                needed: usize,
            },
            /// A number that this wrapper has no name for.
            Other(u8),
        }

        impl Refusal {
            /// Nothing for 0, which means done.
            pub(crate) fn of(number: u8, needed: usize) -> Option<Refusal> {
                match number {
                    0 => None,
                    $($number => Some(Refusal::$name),)*
                    16 => Some(Refusal::NoRoom { needed }),
                    _ => Some(Refusal::Other(number)),
                }
            }

            /// Its number, as the pages print it.
            pub fn number(self) -> u8 {
                match self {
                    $(Refusal::$name => $number,)*
                    Refusal::NoRoom { .. } => 16,
                    Refusal::Other(number) => number,
                }
            }

            /// What it means, without its number.
            pub fn meaning(self) -> &'static str {
                match self {
                    $(Refusal::$name => $words,)*
                    Refusal::NoRoom { .. } => NO_ROOM,
                    Refusal::Other(_) => NO_NAME,
                }
            }
        }
    };
}

refusals! {
    1 TooLong "input over 512 bytes, or output would be"
    2 Framing "no ':'; no '>' before the first ':'; frame ends inside an address; destination is marked last; \
        control pair wrong"
    3 Callsign "a callsign or hop is malformed"
    4 CallsignTooLong "callsign text over 16 bytes"
    5 TooManyHops "a ninth hop"
    6 QElement "a textual hop of three bytes that starts qA and is none of the ten Q elements"
    7 NotCarried "not carried: body starts '!' '=' '/' '@' with a compressed position"
    8 Latitude "latitude cannot be read; strictly read, also minutes of 60 or more"
    9 Longitude "longitude cannot be read; strictly read, also minutes of 60 or more"
    10 PositionTooShort "position under 19 bytes after its type byte or time; time under 7 bytes"
    11 MicEDestination "Mic-E destination cannot be read; strictly read, also minutes of 60 or more"
    12 MicEInformation "Mic-E information cannot be read"
    13 NotAx25 "callsign cannot go into AX.25"
    14 UnknownKind "record of Unknown kind, or with an inner packet, to be written"
    15 OutOfRange "record, angle, time, blanks or list target out of range"
    17 Time "time cannot be read"
    18 Malformed "a message or status is malformed: no ':' after nine addressee bytes; text too long or not allowed; \
        identifier not of 1 to 5 bytes"
    19 TooManyInner "a fifth inner packet; four are read, each in a body that starts '}'"
    20 SymbolTable "strictly read, a symbol table byte that is not '/', '\\', a digit or a capital letter"
}

impl Refusal {
    pub(crate) fn check(number: u8) -> Result<(), Refusal> {
        Refusal::of(number, 0).map_or(Ok(()), Err)
    }

    /// What a writer or lister reported, or why it did not.
    pub(crate) fn reported(answer: Answer) -> Result<usize, Refusal> {
        Refusal::of(answer.refusal, answer.needed).map_or(Ok(answer.reported), Err)
    }
}

/// The number, a colon, the meaning; behind 16 the bytes needed.
impl fmt::Display for Refusal {
    fn fmt(&self, f: &mut fmt::Formatter<'_>) -> fmt::Result {
        write!(f, "{}: {}", self.number(), self.meaning())?;
        match self {
            Refusal::NoRoom { needed } => write!(f, ": {needed}"),
            _ => Ok(()),
        }
    }
}

impl std::error::Error for Refusal {}

#[cfg(test)]
mod tests {
    use super::*;

    const SOURCE: &str = include_str!("../../../docs/refusals.txt");

    #[test]
    fn every_number_comes_back() {
        for number in 1..=255 {
            assert_eq!(Refusal::of(number, 7).map(Refusal::number), Some(number));
        }
        assert_eq!(Refusal::of(0, 0), None);
    }

    #[test]
    fn each_means_what_the_source_says() {
        let mut lines = SOURCE.lines();
        assert_eq!(lines.next(), Some("0\tno refusal"));
        for number in 1..=20 {
            let meaning = Refusal::of(number, 7).map_or("", Refusal::meaning);
            assert_eq!(lines.next(), Some(&*format!("{number}\t{meaning}")));
        }
        assert_eq!(lines.next(), None);
        assert_eq!(Refusal::of(21, 0), Some(Refusal::Other(21)));
    }

    #[test]
    fn a_refusal_prints_its_number_and_meaning() {
        assert_eq!(Refusal::TooManyHops.to_string(), "5: a ninth hop");
        assert_eq!(
            Refusal::NoRoom { needed: 40 }.to_string(),
            "16: output buffer too short; the bytes needed are returned: 40"
        );
        assert_eq!(
            Refusal::Other(21).to_string(),
            "21: a refusal without a name"
        );
    }
}
