// Pieces of the crate's packets, made from numbers and bytes that were judged before.

use aprs_parser::{AprsData, AprsMessage, AprsStatus, Callsign, Latitude, Longitude, Timestamp};
use protocol::{dmh_of, rules};

pub fn latitude(angle: i64) -> Latitude {
    let (degrees, minutes, hundredths) = dmh_of(angle);
    Latitude::from_dmh(degrees, minutes, hundredths, angle >= 0).expect("judged before")
}

pub fn longitude(angle: i64) -> Longitude {
    let (degrees, minutes, hundredths) = dmh_of(angle);
    Longitude::from_dmh(degrees, minutes, hundredths, angle >= 0).expect("judged before")
}

/// Seven bytes as the crate has a time: numbers, or, before `/`, the bytes; none if it takes them for no time.
pub fn timestamp(seven: &[u8]) -> Option<Timestamp> {
    let letter = *seven.last()?;
    if letter == b'/' {
        return Some(Timestamp::Unsupported(seven.to_vec()));
    }
    let [first, second, third] = rules::numbers_of(seven)?;
    match letter {
        b'z' | b'Z' => Timestamp::new_dhm(first, second, third),
        b'h' | b'H' => Timestamp::new_hms(first, second, third),
        _ => None,
    }
}

pub fn message(to: Callsign, addressee: &[u8], text: &[u8], id: Option<&[u8]>) -> AprsData {
    AprsData::Message(AprsMessage {
        to,
        addressee: addressee.to_vec(),
        text: text.to_vec(),
        id: id.map(<[u8]>::to_vec),
    })
}

/// A status with whatever the crate takes for a time, or without one.
pub fn status(to: Callsign, time: Option<&[u8]>, text: &[u8]) -> AprsData {
    AprsData::Status(AprsStatus::new_noncompliant(to, time.and_then(timestamp), text.to_vec()))
}
