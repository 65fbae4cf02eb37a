// Kinds of requests with messages and status lines, read, given whole.

use crate::packets::*;
use crate::timed::{numbers_of_times, time, BAD_TIMES, GOOD_TIMES};
use crate::whole::{
    every_byte_in_every_place, every_byte_in_places, give_both, give_hops, give_of_lengths_near_512, odd_callsigns, sets_of_zeros, Give,
};
use crate::Request;

const MESSAGE: &[u8] = b":WU2Z     :Testing{003";
const STATUS: &[u8] = b">Net Control Center";
const TIMED_STATUS: &[u8] = b">092345zNet Control Center";
/// Messages and statuses that both sides read, that one reads otherwise, and that are malformed.
const BODIES: [&[u8]; 10] = [
    MESSAGE,
    b":WU2Z:    :Testing",
    b":WU2Z     :Test|ng",
    b":hi",
    b":         ",
    STATUS,
    TIMED_STATUS,
    b">234517hNet",
    b">FN42pb/_DX",
    b">",
];
const TEXT: [u8; 80] = [b't'; 80];

fn packet_of(parts: &[&[u8]]) -> Packet {
    Packet::simple(b"B", &parts.concat())
}

/// Every string of these bytes and this length.
pub fn strings(alphabet: &'static [u8], length: usize) -> impl Iterator<Item = Vec<u8>> {
    let size = alphabet.len();
    (0..size.pow(length as u32)).map(move |number| (0..length).map(|place| alphabet[number / size.pow(place as u32) % size]).collect())
}

/// Every byte in every place of a message; of its body with colons, spaces or nothing in other places; and at the end of long ones.
pub fn message_bytes(give: Give) {
    every_byte_in_every_place(give, &Packet::simple(b"B", MESSAGE).line(), Request::Text);
    let bodies: [&[u8]; 4] = [b":WU2Z:    :Testing{003", b":  U2     :ab{", b"::::::::::::{:", b":123456789:{a{b"];
    for body in bodies {
        let packet = Packet::simple(b"B", body);
        every_byte_in_places(give, &packet.line(), 4..4 + body.len(), Request::Text);
    }
    for body in [MESSAGE, bodies[0]] {
        let packet = Packet::simple(b"B", body);
        every_byte_in_places(give, &packet.frame(), 16..16 + body.len(), Request::Frame);
    }
    for length in [66, 67, 68] {
        let line = packet_of(&[b":WU2Z     :", &TEXT[..length], b"{12345"]).line();
        every_byte_in_places(give, &line, line.len() - 8..line.len(), Request::Text);
    }
}

/// Every text of up to seven bytes that mean something there and one that does not.
pub fn message_shapes(give: Give) {
    for length in 0..=7 {
        for text in strings(b"x{|~", length) {
            let packet = packet_of(&[b":WU2Z     :", &text]);
            give(Request::Text(packet.line()));
            if length <= 4 {
                give(Request::Frame(packet.frame()));
            }
        }
    }
}

/// Every nine of a letter, a space and a colon before a colon; some of them before another byte, or in frames.
pub fn addressees(give: Give) {
    for (number, addressee) in strings(b"x :", 9).enumerate() {
        give(Request::Text(packet_of(&[b":", &addressee, b":Hi{1"]).line()));
        if number % 5 == 0 {
            give(Request::Frame(packet_of(&[b":", &addressee, b":Hi"]).frame()));
        }
        if number % 7 == 0 {
            give(Request::Text(packet_of(&[b":", &addressee, b"xHi"]).line()));
            give(Request::Text(packet_of(&[b":", &addressee]).line()));
        }
    }
}

/// Bodies of 0 to 12 bytes behind the type byte with up to two colons in all places, short ones of every sort, and good ones cut.
pub fn message_cut(give: Give) {
    for length in 0..=12 {
        for first in 0..=length {
            for second in first..=length {
                let mut behind = vec![b'x'; length + 1];
                behind[first] = b':';
                behind[second] = b':';
                give_both(give, &packet_of(&[b":", &behind[..length]]));
            }
        }
    }
    for length in 0..=6 {
        strings(b"x: ", length).for_each(|behind| give_both(give, &packet_of(&[b":", &behind])));
    }
    for body in BODIES {
        (1..=body.len()).for_each(|length| give_both(give, &packet_of(&[&body[..length]])));
    }
}

/// Texts of up to 80 bytes without an identifier and with one of 0 to 7; and lengths near 512.
pub fn message_lengths(give: Give) {
    for length in 0..=TEXT.len() {
        let text = &TEXT[..length];
        give_both(give, &packet_of(&[b":WU2Z     :", text]));
        give_both(give, &packet_of(&[b":WU2Z:    :", text]));
        for id_length in 0..=7 {
            give_both(give, &packet_of(&[b":WU2Z     :", text, b"{", &b"12{45|7"[..id_length]]));
        }
        for byte in *b"|~{:\0\xff" {
            give_both(give, &packet_of(&[b":WU2Z     :", text, &[byte]]));
            give_both(give, &packet_of(&[b":WU2Z     :", &[byte], text]));
        }
    }
    give_of_lengths_near_512(give, &Packet::simple(b"B", MESSAGE));
    give_of_lengths_near_512(give, &packet_of(&[b":WU2Z     :Testing"]));
}

/// Every byte in every place of a status with a time; in the type byte and the first seven of others, with times good and bad; and there
/// in frames.
pub fn status_bytes(give: Give) {
    every_byte_in_every_place(give, &Packet::simple(b"B", TIMED_STATUS).line(), Request::Text);
    every_byte_in_every_place(give, &Packet::simple(b"B", STATUS).line(), Request::Text);
    for time in GOOD_TIMES.into_iter().chain(BAD_TIMES) {
        every_byte_in_places(give, &packet_of(&[b">", time.as_bytes(), b"Hi"]).line(), 4..12, Request::Text);
    }
    for time in GOOD_TIMES {
        every_byte_in_places(give, &packet_of(&[b">", time.as_bytes(), b"Hi"]).frame(), 16..24, Request::Frame);
    }
}

/// Every seven of a few bytes, with nothing and with something behind them.
pub fn status_shapes(give: Give) {
    for alphabet in [&b"02z"[..], b"01/", b" 1h", b"+1Z", b"0zH"] {
        for seven in strings(alphabet, 7) {
            give(Request::Text(packet_of(&[b">", &seven]).line()));
            give(Request::Frame(packet_of(&[b">", &seven, b"x"]).frame()));
        }
    }
}

/// Times in range and out of it before every letter, and before `x`.
pub fn status_times(give: Give) {
    for (number, numbers) in numbers_of_times().into_iter().enumerate() {
        for letter in ['z', '/', 'h', 'Z', 'H', 'x'] {
            let behind: &[u8] = [&b""[..], b"x", b"010000z"][number % 3];
            give_both(give, &packet_of(&[b">", time(numbers, letter).as_bytes(), behind]));
        }
    }
}

/// Every `z` time of document 02.
pub fn all_status_times(give: Give) {
    for hour in 0..24 {
        for minute in 0..60 {
            for day in 1..=31 {
                let time = time([day, hour, minute], 'z');
                give(Request::Text(packet_of(&[b">", time.as_bytes(), b"Net"]).line()));
            }
        }
    }
}

/// Statuses of up to 80 bytes without a time, with one, and with what is nearly one; and lengths near 512.
pub fn status_lengths(give: Give) {
    for start in GOOD_TIMES.into_iter().chain(BAD_TIMES).chain(["", "010000", "+1+1+1z", "|~{:", "FN42pb/"]) {
        for length in 0..=TEXT.len() {
            let text = [start.as_bytes(), &TEXT].concat();
            give_both(give, &packet_of(&[b">", &text[..length]]));
        }
    }
    give_of_lengths_near_512(give, &Packet::simple(b"B", STATUS));
    give_of_lengths_near_512(give, &Packet::simple(b"B", TIMED_STATUS));
}

/// Messages and statuses behind odd callsigns in each place, behind 0 to 10 hops, with zeros in all places, and in frames cut short.
pub fn message_headers(give: Give) {
    for body in BODIES {
        for odd in odd_callsigns() {
            give(Request::Text(line(&odd, b"B", &[], body)));
            give(Request::Text(line(b"A", &odd, &[], body)));
            give(Request::Text(line(b"A", b"B", &[b"X".to_vec(), odd], body)));
        }
        for hops in 0..=10 {
            let mut packet = Packet::simple(b"B", body);
            packet.hops = (0..hops).map(|_| Address::new(b"HOP", 0, true)).collect();
            let frame = packet.frame();
            (0..=frame.len()).for_each(|length| give(Request::Frame(frame[..length].to_vec())));
        }
    }
    for body in [MESSAGE, TIMED_STATUS] {
        give_hops(give, body);
        sets_of_zeros(give, b"B", body);
        every_byte_in_places(give, &Packet::simple(b"B", body).frame(), 0..16, Request::Frame);
    }
}
