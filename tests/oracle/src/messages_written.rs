// Kinds of requests W with messages and status lines, given whole, and with the parts that they alone have in records of other kinds.

use crate::records::{hop, name, Record};
use crate::timed::{numbers_of_times, time, BAD_TIMES, GOOD_TIMES};
use crate::whole::{give_callsigns, give_letters, give_limits, give_rooms, give_written, give_zeros, good_and_refused, Give};
use protocol::LONGEST;

const SAID: [&str; 2] = ["message", "status"];
const TIME: &str = "092345z";

fn message(addressee: &[u8], text: &[u8], id: &[u8]) -> Record {
    Record {
        comment: text.to_vec(),
        addressee: Some(addressee.to_vec()),
        id: Some(id.to_vec()),
        ..Record::good("message")
    }
}

fn status(time: Option<&str>, text: &[u8]) -> Record {
    Record {
        comment: text.to_vec(),
        time: time.map(str::to_string),
        ..Record::good("status")
    }
}

/// Texts and identifiers of all lengths around their limits; every byte in a text, an identifier and each place of an addressee.
pub fn written_messages(give: Give) {
    for length in 0..=80 {
        for id_length in 0..=8 {
            give_written(give, &message(b"WU2Z", &vec![b't'; length], &vec![b'1'; id_length]));
        }
        give_written(give, &message(&vec![b'A'; length % 10], b"Hi", b""));
    }
    give_written(give, &message(b"WU2Z", b"Hi", &vec![b'1'; LONGEST]));
    for byte in 0..=255 {
        for (text, id) in [(&b"a"[..], &b""[..]), (b"", b"x"), (b"Testing", b"12345"), (&[b't'; 67], b"")] {
            let mut changed = message(b"WU2Z", text, id);
            let mut places = changed.comment.iter_mut().chain(changed.id.iter_mut().flatten()).collect::<Vec<_>>();
            **places.last_mut().expect("a text or an identifier") = byte;
            give_written(give, &changed);
        }
        for place in 0..9 {
            let mut addressee = *b"WU2Z 56:9";
            addressee[place] = byte;
            if addressee[8] != b' ' {
                give_written(give, &message(&addressee, b"Hi", b"1"));
            }
        }
        give_written(give, &status(None, &[byte]));
        give_written(give, &status(Some(TIME), &[byte]));
    }
}

/// Statuses of all lengths around their limits, with each form of time; texts that start with times good and bad.
pub fn written_statuses(give: Give) {
    for length in 0..=80 {
        for time in [None, Some("-"), Some(TIME), Some("000000z"), Some("010000/"), Some("000000h")] {
            give_written(give, &status(time, &vec![b't'; length]));
        }
    }
    for numbers in numbers_of_times() {
        for letter in ['z', '/', 'h'] {
            give_written(give, &status(Some(&time(numbers, letter)), b"Net"));
        }
        for letter in ['z', 'Z', 'h', '/'] {
            give_written(give, &status(None, time(numbers, letter).as_bytes()));
        }
        give_written(give, &status(Some(TIME), time(numbers, 'z').as_bytes()));
    }
    for start in GOOD_TIMES.into_iter().chain(BAD_TIMES) {
        for length in 0..=63 {
            let text = [start.as_bytes(), &[b't'; 63]].concat();
            give_written(give, &status(None, &text[..length]));
        }
    }
}

pub type Change = fn(&mut Record);

/// What is refused with 15, with 18, with 13 or with 16, in either kind.
pub const CHANGES: [Change; 17] = [
    |record| record.flag = 1,
    |record| record.latitude = 1,
    |record| record.longitude = -1,
    |record| record.blanks = 1,
    |record| record.table = 47,
    |record| record.code = 45,
    |record| record.message = "M3",
    |record| record.speed = 1,
    |record| record.course = 1,
    |record| record.letters = Some(*b"NE"),
    |record| record.to = name(b"APRS", b"0"),
    |record| record.from = name(b"ABCDEFGHIJKLMNO", b"1"),
    |record| record.comment = vec![b't'; LONGEST],
    |record| record.from = name(b"SEVENTH", b""),
    |record| record.hops[1] = hop(b"K1A", b"16", false),
    |record| record.room = 1,
    |record| record.zeros = Some(vec![true; 4]),
];

pub const MESSAGE_CHANGES: [Change; 9] = [
    |record| record.time = Some(TIME.to_string()),
    |record| record.comment = vec![b't'; 67],
    |record| record.comment = vec![b't'; 68],
    |record| record.comment = b"a|b".to_vec(),
    |record| record.comment = b"a{b".to_vec(),
    |record| record.id = Some(b"12345".to_vec()),
    |record| record.id = Some(b"123456".to_vec()),
    |record| record.addressee = None,
    |record| record.addressee = Some(b":".to_vec()),
];

pub const STATUS_CHANGES: [Change; 9] = [
    |record| record.time = Some(TIME.to_string()),
    |record| record.time = Some("000000z".to_string()),
    |record| record.time = Some("092345/".to_string()),
    |record| record.time = Some("000000h".to_string()),
    |record| record.comment = vec![b't'; 55],
    |record| record.comment = vec![b't'; 56],
    |record| record.comment = vec![b't'; 63],
    |record| record.comment = b"010000zx".to_vec(),
    |record| record.addressee = Some(b"WU2Z".to_vec()),
];

/// Up to three changes at a time, for the order of refusals.
fn give_orders(give: Give, kind: &'static str, own: &[Change]) {
    let changes: Vec<&Change> = CHANGES.iter().chain(own).collect();
    for first in 0..changes.len() {
        for second in first..changes.len() {
            for third in second..changes.len() {
                let mut record = Record::good(kind);
                [first, second, third].iter().for_each(|change| changes[*change](&mut record));
                give_written(give, &record);
            }
        }
    }
}

pub fn written_orders(give: Give) {
    give_orders(give, "message", &MESSAGE_CHANGES);
    give_orders(give, "status", &STATUS_CHANGES);
}

/// What records of other kinds meet, in messages and statuses; and an addressee, or none, in records of each kind.
pub fn written_said(give: Give) {
    for kind in SAID {
        give_rooms(give, kind);
        give_limits(give, kind);
        give_letters(give, kind);
        give_zeros(give, kind);
    }
    give_callsigns(give, &SAID);
    for kind in ["unknown", "position", "mic-e", "message", "status"] {
        for record in good_and_refused(kind) {
            for addressee in [&b""[..], b"WU2Z", b"        x"] {
                give_written(give, &Record { addressee: Some(addressee.to_vec()), id: Some(Vec::new()), ..record.clone() });
            }
        }
    }
}
