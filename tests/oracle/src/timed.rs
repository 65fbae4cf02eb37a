// Kinds of requests with a time, given whole: lines and frames whose bodies start `/` or `@`, and records with a time.

use crate::packets::*;
use crate::records::Record;
use crate::whole::{
    covered, every_byte_in_every_place, every_byte_in_places, give_both, give_of_lengths_near_512, give_written, good_and_refused, Give,
};
use crate::Request;
use protocol::LONGEST;

const TYPES: [&[u8]; 2] = [b"/", b"@"];
/// POSITION without its type byte.
const PLACE: &[u8] = b"4903.50N/07201.75W-Test";
pub const GOOD_TIMES: [&str; 3] = ["092345z", "312359/", "000000h"];
pub const BAD_TIMES: [&str; 7] = ["000000z", "010000Z", "240000h", "000000H", "000000/", "      /", "01 000z"];

fn timed(number: usize, time: &str, behind: &[u8]) -> Packet {
    Packet::simple(b"B", &[TYPES[number % 2], time.as_bytes(), behind].concat())
}

/// Each of the three numbers of a time alone from 0 to 99, and all of them together at each number's limits and next to them.
pub fn numbers_of_times() -> Vec<[usize; 3]> {
    let mut all = Vec::new();
    for number in 0..100 {
        all.extend([[number, 17, 45], [9, number, 45], [9, 17, number]]);
    }
    for first in [0, 1, 22, 23, 24, 31, 32, 99] {
        for second in [0, 23, 24, 59, 60, 99] {
            all.extend([0, 59, 60, 99].map(|third| [first, second, third]));
        }
    }
    all
}

pub fn time([first, second, third]: [usize; 3], letter: char) -> String {
    format!("{:02}{:02}{:02}{}", first, second, third, letter)
}

pub fn times(give: Give) {
    for numbers in numbers_of_times() {
        for letter in ['z', '/', 'h', 'Z', 'H', 'x'] {
            for number in 0..TYPES.len() {
                give_both(give, &timed(number, &time(numbers, letter), PLACE));
            }
        }
    }
}

/// Every time of document 02.
pub fn all_times(give: Give) {
    let mut give_time = |numbers: [usize; 3], letter| {
        let packet = timed(numbers[0] + numbers[1], &time(numbers, letter), PLACE);
        give(Request::Text(packet.line()));
    };
    for hour in 0..24 {
        for minute in 0..60 {
            (1..=31).for_each(|day| give_time([day, hour, minute], 'z'));
            (1..=31).for_each(|day| give_time([day, hour, minute], '/'));
            (0..60).for_each(|second| give_time([hour, minute, second], 'h'));
        }
    }
}

/// Every byte in every place of a line with a time; in the type byte and the time of lines with other times, good and bad; and there in
/// frames.
pub fn time_bytes(give: Give) {
    every_byte_in_every_place(give, &timed(0, GOOD_TIMES[0], PLACE).line(), Request::Text);
    for (number, time) in GOOD_TIMES.into_iter().chain(BAD_TIMES).enumerate() {
        every_byte_in_places(give, &timed(number, time, PLACE).line(), 4..12, Request::Text);
    }
    for (number, time) in GOOD_TIMES.into_iter().enumerate() {
        every_byte_in_places(give, &timed(number, time, PLACE).frame(), 16..24, Request::Frame);
    }
}

/// Bodies of every short length, with times good and bad, and with positions of both forms behind them.
pub fn timed_cut(give: Give) {
    for time in GOOD_TIMES.into_iter().chain(BAD_TIMES) {
        for position in [PLACE, COMPRESSED] {
            for number in 0..TYPES.len() {
                let body = timed(number, time, position).body;
                for length in 1..=body.len() {
                    give_both(give, &Packet::simple(b"B", &body[..length]));
                }
            }
        }
    }
}

/// Every first byte behind a time, with lengths around 19.
pub fn timed_first_bytes(give: Give) {
    for first in 0..=255 {
        for length in [0, 1, 12, 13, 17, 18, 19] {
            for (number, time) in ["092345z", "000000h", "000000/"].into_iter().enumerate() {
                give_both(give, &timed(number, time, &[&[first], &PLACE[1..1 + length]].concat()));
            }
        }
    }
}

/// Positions with blanks in many sets of digit places, with both letters of each angle, and with every symbol.
fn places() -> Vec<Vec<u8>> {
    let mut places = Vec::new();
    for latitude_mask in 0..64 {
        for longitude_mask in (0..128).step_by(3) {
            let latitude = covered(b"4903.50N", latitude_mask, b' ');
            let longitude = covered(b"07201.75W", longitude_mask, b' ');
            places.push([&latitude, &b"/"[..], &longitude, b"-"].concat());
        }
    }
    for latitude in ["0000.00N", "0000.00S", "4903.50S", "9000.00N", "9000.01N"] {
        for longitude in ["00000.00E", "00000.00W", "07201.75E", "18000.00W", "18000.01W"] {
            places.push([latitude, "/", longitude, "-"].concat().into_bytes());
        }
    }
    for byte in 0..=255 {
        places.push([&b"4903.50N"[..], &[byte], b"07201.75W-c"].concat());
        places.push([&b"4903.50N/07201.75W"[..], &[byte], b"c"].concat());
    }
    places
}

/// What a position can hold, and comments up to 512 bytes and past them, behind times of each form.
pub fn timed_positions(give: Give) {
    for (number, place) in places().iter().enumerate() {
        give_both(give, &timed(number, GOOD_TIMES[number % 3], place));
    }
    for (number, time) in GOOD_TIMES.into_iter().enumerate() {
        give_of_lengths_near_512(give, &timed(number, time, PLACE));
    }
}

fn give_timed(give: Give, record: &Record, time: &str) {
    give_written(give, &Record { time: Some(time.to_string()), ..record.clone() });
}

/// Positions with a time, with room and comments at their limits.
fn give_timed_lengths(give: Give, flag: usize, time: &str) {
    let record = Record { flag, ..Record::good("position") };
    for room in 0..=120 {
        give_timed(give, &Record { room, ..record.clone() }, time);
    }
    for length in LONGEST - 90..=LONGEST {
        for room in [511, 512, 600] {
            give_timed(give, &Record { room, comment: vec![b'c'; length], ..record.clone() }, time);
        }
    }
}

/// Records of each kind with times good and bad, and with some of them in records refused for many reasons.
pub fn written_times(give: Give) {
    for kind in ["unknown", "position", "mic-e"] {
        for numbers in numbers_of_times() {
            for letter in ['z', '/', 'h'] {
                give_timed(give, &Record::good(kind), &time(numbers, letter));
            }
        }
        for record in good_and_refused(kind) {
            for time in GOOD_TIMES.into_iter().chain(["-", "000000z", "006000h"]) {
                give_timed(give, &record, time);
            }
        }
    }
    for (number, time) in GOOD_TIMES.into_iter().enumerate() {
        give_timed_lengths(give, number % 2, time);
    }
}
