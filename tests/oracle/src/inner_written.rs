// Kinds of requests W with a number of inner packets and an innermost header, given whole.

use crate::messages_written::{Change, CHANGES, MESSAGE_CHANGES, STATUS_CHANGES};
use crate::records::{hop, name, Hop, Name, Record};
use crate::whole::{give_written, good_and_refused, names_of_odd_callsigns, Give};

const ALL: [&str; 5] = ["unknown", "position", "mic-e", "message", "status"];
const NUMBERS: [usize; 5] = [0, 1, 4, 5, 255];

fn relayed(kind: &'static str, number: usize) -> Record {
    Record {
        inner: Some(number),
        inner_from: Some(name(b"WU2Z", b"9")),
        inner_to: if kind == "mic-e" { None } else { Some(name(b"APRS", b"")) },
        inner_hops: Some(vec![hop(b"TCPIP", b"", false), Hop::Q("qAR"), hop(b"N0CALL", b"", true)]),
        ..Record::good(kind)
    }
}

/// Every number, with the innermost header blank and not.
pub fn written_numbers(give: Give) {
    for kind in ALL {
        give_written(give, &Record { inner_from: Some(name(b"WU2Z", b"")), ..Record::good(kind) });
        for number in 0..=255 {
            give_written(give, &Record { inner: Some(number), ..Record::good(kind) });
            give_written(give, &relayed(kind, number));
        }
    }
}

/// One part of the innermost header at a time, by hand: with a number it is in range, without one it is not; marks alone are.
const PARTS: [Change; 15] = [
    |record| record.inner_from = Some(name(b"C", b"")),
    |record| record.inner_from = Some(name(b"", b"5")),
    |record| record.inner_from = Some(name(b"", b"")),
    |record| record.inner_to = Some(name(b"D", b"")),
    |record| record.inner_to = Some(name(b"", b"5")),
    |record| record.inner_to = Some(name(b"", b"")),
    |record| record.inner_hops = Some(vec![hop(b"", b"", false)]),
    |record| record.inner_hops = Some(vec![hop(b"", b"", true)]),
    |record| record.inner_hops = Some(vec![hop(b"X", b"1", true); 8]),
    |record| record.inner_hops = Some(vec![Hop::Q("qAC")]),
    |record| record.inner_hops = Some(vec![Hop::Q("qAI"); 8]),
    |record| record.inner_hops = Some(Vec::new()),
    |record| record.inner_zeros = Some(vec![true; 2]),
    |record| record.to = name(b"B", b""),
    |record| record.to = name(b"", b"1"),
];

/// Up to two parts at a time, in records good and refused for many reasons, with and without a number.
pub fn written_innermost(give: Give) {
    for kind in ALL {
        for number in NUMBERS {
            for first in PARTS {
                for second in PARTS {
                    let mut record = Record { inner: Some(number), ..Record::good(kind) };
                    first(&mut record);
                    second(&mut record);
                    if record.inner_zeros.is_some() && record.inner_hops.as_ref().map_or(false, |hops| !hops.is_empty()) {
                        continue;
                    }
                    give_written(give, &record);
                }
            }
            for refused in good_and_refused(kind) {
                give_written(give, &Record { inner: Some(number), ..refused.clone() });
                give_written(give, &Record { to: refused.to, room: refused.room, ..relayed(kind, number) });
            }
        }
    }
}

/// What is refused with another number where there is none inside: 15, 14, then 18, 13, 1, 16.
pub fn written_inner_orders(give: Give) {
    for (kind, own) in [("message", MESSAGE_CHANGES), ("status", STATUS_CHANGES)] {
        let changes: Vec<&Change> = CHANGES.iter().chain(&own).collect();
        for number in NUMBERS {
            for first in &changes {
                for second in &changes {
                    let mut record = relayed(kind, number);
                    first(&mut record);
                    second(&mut record);
                    give_written(give, &record);
                }
            }
        }
    }
}

/// Odd calls and SSIDs in each place of both headers of a record with a number.
pub fn written_inner_callsigns(give: Give) {
    let hops = |odd: &Name| vec![hop(b"HOP", b"", true), Hop::Callsign(odd.clone(), false)];
    for odd in names_of_odd_callsigns() {
        for kind in ALL {
            let good = relayed(kind, 1 + odd.0.len() % 4);
            give_written(give, &Record { inner_from: Some(odd.clone()), ..good.clone() });
            give_written(give, &Record { inner_to: Some(odd.clone()), ..good.clone() });
            give_written(give, &Record { inner_hops: Some(hops(&odd)), ..good.clone() });
            give_written(give, &Record { from: odd.clone(), ..good.clone() });
            give_written(give, &Record { to: odd.clone(), ..good.clone() });
            give_written(give, &Record { hops: hops(&odd), ..good });
        }
    }
}
