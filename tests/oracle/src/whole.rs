// Kinds of requests given whole: every case of a set, in a fixed order.

use std::ops::Range;

use crate::packets::*;
use crate::records::{hop, name, Hop, Name, Record, LATITUDE_SIDES, LONGITUDE_SIDES};
use crate::Request;
use protocol::{Form, LATITUDE_LIMIT, LONGEST, LONGITUDE_LIMIT, MOST_HOPS};

pub type Give<'a> = &'a mut dyn FnMut(Request);

/// The kinds of document 01.
const RECORDS: [&str; 3] = ["unknown", "position", "mic-e"];

pub fn give_both(give: Give, packet: &Packet) {
    give(Request::Text(packet.line()));
    give(Request::Frame(packet.frame()));
}

pub fn every_byte_in_places(give: Give, bytes: &[u8], places: Range<usize>, request: fn(Vec<u8>) -> Request) {
    for place in places {
        for byte in 0..=255 {
            let mut changed = bytes.to_vec();
            changed[place] = byte;
            give(request(changed));
        }
    }
}

pub fn every_byte_in_every_place(give: Give, bytes: &[u8], request: fn(Vec<u8>) -> Request) {
    every_byte_in_places(give, bytes, 0..bytes.len(), request);
}

pub fn text_every_byte(give: Give) {
    for packet in samples() {
        every_byte_in_every_place(give, &packet.line(), Request::Text);
    }
}

pub fn frame_every_byte(give: Give) {
    for packet in samples() {
        every_byte_in_every_place(give, &packet.frame(), Request::Frame);
    }
}

fn mic_e_line(destination: &[u8], first_six: [u8; 6]) -> Request {
    let body = [b"`", &first_six[..], b"j/"].concat();
    Request::Text(line(b"A", destination, &[], &body))
}

/// Every pair of the fifth and sixth byte, with tens of knots 0 and 79.
pub fn motion_pairs(give: Give) {
    for tens in [28, 107] {
        for fifth in 0..=255 {
            for sixth in 0..=255 {
                give(mic_e_line(MIC_E_DESTINATION, [40, 95, 102, tens, fifth, sixth]));
            }
        }
    }
}

pub fn motion_speeds(give: Give) {
    for fourth in 0..=255 {
        for fifth in 0..=255 {
            give(mic_e_line(MIC_E_DESTINATION, [40, 95, 102, fourth, fifth, 28]));
        }
    }
}

/// Every pair of degree and minute byte, for both offsets, east and west in turn.
pub fn mic_e_longitudes(give: Give) {
    for destination in [b"S32U64", b"S32UVT"] {
        for degrees in 0..=255u8 {
            for minutes in 0..=255u8 {
                let hundredths = degrees.wrapping_mul(7).wrapping_add(minutes);
                give(mic_e_line(destination, [degrees, minutes, hundredths, 28, 28, 28]));
            }
        }
    }
}

/// The longitude fields within three hundredths of 0 and of 180 degrees, for both offsets and sides.
pub fn mic_e_limits(give: Give) {
    for (offset, destination) in [(0, b"S32U64"), (0, b"S32U6T"), (100, b"S32UV4"), (100, b"S32UVT")] {
        for degrees in 28..=255u8 {
            for minutes in 28..=255u8 {
                for hundredths in 28..=255u8 {
                    let total = mic_e_total(offset, degrees, minutes, hundredths);
                    if total <= 3 || (total - LONGITUDE_LIMIT).abs() <= 3 {
                        give(mic_e_line(destination, [degrees, minutes, hundredths, 28, 28, 28]));
                    }
                }
            }
        }
    }
}

fn mic_e_total(offset: i64, degrees: u8, minutes: u8, hundredths: u8) -> i64 {
    let degrees = match offset + i64::from(degrees) - 28 {
        sum @ 180..=189 => sum - 80,
        sum @ 190..=199 => sum - 190,
        sum => sum,
    };
    let minutes = match i64::from(minutes) - 28 {
        sum @ 60.. => sum - 60,
        sum => sum,
    };
    6000 * degrees + 100 * minutes + i64::from(hundredths) - 28
}

pub fn destination_every_byte(give: Give) {
    let destinations: [&[u8]; 10] = [
        b"S32U6T", b"000000", b"PPPPPP", b"AAA000", b"A0P0P0", b"4LLLLL", b"KK0LLL", b"ZZZZZZ", b"90000L", b"Y0PPPP",
    ];
    for destination in destinations {
        for place in 0..6 {
            for byte in 0..=255 {
                let mut changed = destination.to_vec();
                changed[place] = byte;
                give_both(give, &Packet::simple(&changed, MIC_E));
            }
        }
    }
}

/// Digits, and the three kinds of blank, in all places of a destination.
pub fn destination_blanks(give: Give) {
    for number in 0..4usize.pow(6) {
        let destination: Vec<u8> = (0..6).map(|place| b"4KLZ"[number / 4usize.pow(place) % 4]).collect();
        give(Request::Text(line(b"A", &destination, &[], MIC_E)));
    }
}

fn position_line(latitude: &[u8], longitude: &[u8]) -> Request {
    let body = [b"!", latitude, b"/", longitude, b"-"].concat();
    Request::Text(line(b"A", b"B", &[], &body))
}

pub fn latitudes(give: Give) {
    for degrees in [0, 1, 49, 88, 89, 90, 99] {
        for rest in 0..10_000 {
            let side = if rest % 3 == 0 { 'S' } else { 'N' };
            let latitude = format!("{:02}{:02}.{:02}{}", degrees, rest / 100, rest % 100, side);
            give(position_line(latitude.as_bytes(), b"07201.75W"));
        }
    }
}

pub fn longitudes(give: Give) {
    for degrees in [0, 9, 99, 109, 178, 179, 180, 999] {
        for rest in 0..10_000 {
            let side = if rest % 3 == 0 { 'W' } else { 'E' };
            let longitude = format!("{:03}{:02}.{:02}{}", degrees, rest / 100, rest % 100, side);
            give(position_line(b"4903.50N", longitude.as_bytes()));
        }
    }
}

pub fn degrees(give: Give) {
    for rest in ["00.00", "00.01", "59.99", "60.00", "60.01", "99.99"] {
        for degrees in 0..100 {
            for side in ['N', 'S'] {
                let latitude = format!("{:02}{}{}", degrees, rest, side);
                give(position_line(latitude.as_bytes(), b"07201.75W"));
            }
        }
        for degrees in 0..1000 {
            for side in ['E', 'W'] {
                let longitude = format!("{:03}{}{}", degrees, rest, side);
                give(position_line(b"4903.50N", longitude.as_bytes()));
            }
        }
    }
}

pub fn covered(digits: &[u8], mask: usize, cover: u8) -> Vec<u8> {
    let mut covered = digits.to_vec();
    for (bit, byte) in covered.iter_mut().filter(|byte| byte.is_ascii_digit()).enumerate() {
        if mask >> bit & 1 == 1 {
            *byte = cover;
        }
    }
    covered
}

/// Blanks in every set of digit places of latitude and longitude; in longitude other bytes too.
pub fn blanks(give: Give) {
    for latitude_mask in 0..64 {
        for longitude_mask in 0..128 {
            for cover in [b' ', b'x', b'+'] {
                let latitude = covered(b"4903.50N", latitude_mask, b' ');
                let longitude = covered(b"07201.75W", longitude_mask, cover);
                give(position_line(&latitude, &longitude));
            }
        }
    }
}

pub fn give_of_lengths_near_512(give: Give, packet: &Packet) {
    for total in LONGEST - 40..=LONGEST + 4 {
        let (mut line, mut frame) = (packet.line(), packet.frame());
        line.resize(total, b'c');
        frame.resize(total, b'c');
        give(Request::Text(line));
        give(Request::Frame(frame));
    }
}

/// Inputs of a length around 512, in both forms; some are written longer in the other form.
pub fn lengths_near_512(give: Give) {
    for packet in samples() {
        give_of_lengths_near_512(give, &packet);
    }
    for hops in 0..=8 {
        for total in LONGEST - 60..=LONGEST + 4 {
            let mut packet = Packet::simple(b"DESTIN", POSITION);
            packet.hops = (0..hops).map(|_| Address::new(b"DIGIPE", 15, true)).collect();
            let mut frame = packet.frame();
            frame.resize(total, b'c');
            give(Request::Frame(frame));
        }
    }
}

/// Every sample cut at every length, and bodies of every short length.
pub fn cut(give: Give) {
    for packet in samples() {
        for length in 0..=packet.line().len() {
            give(Request::Text(packet.line()[..length].to_vec()));
        }
        for length in 0..=packet.frame().len() {
            give(Request::Frame(packet.frame()[..length].to_vec()));
        }
    }
    for first in 0..=255 {
        for length in 0..=25 {
            let rest = &b"4903.50N/07201.75W-Test 001"[..length];
            give_both(give, &Packet::simple(MIC_E_DESTINATION, &[&[first], rest].concat()));
        }
    }
}

/// Every first byte of a position, with lengths around 19.
pub fn position_first_bytes(give: Give) {
    for first in 0..=255 {
        for length in [0, 1, 12, 13, 17, 18, 19] {
            let rest = &b"903.50N/07201.75W-Test"[..length];
            for kind in [&b"!"[..], b"="] {
                give_both(give, &Packet::simple(b"B", &[kind, &[first], rest].concat()));
            }
        }
    }
}

pub fn symbols(give: Give) {
    for byte in 0..=255 {
        let table = [&b"!4903.50N"[..], &[byte], b"07201.75W-c"].concat();
        let code = [&b"=4903.50N/07201.75W"[..], &[byte], b"c"].concat();
        give_both(give, &Packet::simple(b"B", &table));
        give_both(give, &Packet::simple(b"B", &code));
        let mic_e_table = [&b"`(_fn\"Oj"[..], &[byte], b"c"].concat();
        let mic_e_code = [&b"'(_fn\"O"[..], &[byte], b"/c"].concat();
        give_both(give, &Packet::simple(MIC_E_DESTINATION, &mic_e_table));
        give_both(give, &Packet::simple(MIC_E_DESTINATION, &mic_e_code));
    }
}

/// Both letters of each angle, at 0 and elsewhere, with every number of blanks; and both sides of Mic-E in every class of character.
pub fn letters(give: Give) {
    for latitude in ["0000.00", "0000.01", "4903.50", "9000.00"] {
        for longitude in ["00000.00", "00000.01", "07201.75", "18000.00"] {
            for blanks in 0..=5 {
                for (side, other_side) in [("N", "E"), ("N", "W"), ("S", "E"), ("S", "W")] {
                    let latitude = covered(latitude.as_bytes(), 0b111_111 << (6 - blanks) & 0b111_111, b' ');
                    let angles = [&latitude, side.as_bytes(), b"/", longitude.as_bytes(), other_side.as_bytes()].concat();
                    give_both(give, &Packet::simple(b"B", &[b"!", &angles[..], b"-"].concat()));
                }
            }
        }
    }
    for first_three in [b"000", b"S32", b"0LL"] {
        for number in 0..6usize.pow(3) {
            let last_three = [b"09LPYZ"[number % 6], b"06LPVZ"[number / 6 % 6], b"09LPYZ"[number / 36]];
            for longitude in [[28, 28, 28], [118, 88, 28], [40, 95, 102]] {
                let body = [b"`", &longitude[..], b"n\"Oj/"].concat();
                give_both(give, &Packet::simple(&[&first_three[..], &last_three].concat(), &body));
            }
        }
    }
}

/// 0 to 10 hops with stars in all places, and with one Q element, or one empty hop, in each place.
pub fn give_hops(give: Give, body: &[u8]) {
    for count in 0..=10 {
        for stars in 0..1usize << count {
            let mut packet = Packet::simple(b"B", body);
            packet.hops = (0..count)
                .map(|place| Address::new(b"HOP", place as u8, stars >> place & 1 == 1))
                .collect();
            give_both(give, &packet);
        }
        let odd_hops: [&[u8]; 9] = [b"qAC", b"qAC*", b"qA*", b"qAx", b"qA", b"", b"*", b"-", b"ABCDEFGHIJKLMNOPQ"];
        for odd in odd_hops {
            for place in 0..count {
                let mut hops = vec![b"H*".to_vec(); count];
                hops[place] = odd.to_vec();
                give(Request::Text(line(b"A", b"B", &hops, body)));
            }
        }
    }
}

pub fn hops(give: Give) {
    give_hops(give, POSITION);
}

/// Each address in turn marked last, unreadable or cut short, and every control byte.
pub fn frame_shapes(give: Give) {
    let frame = samples().remove(0).frame();
    for address in 0..5 {
        for last_byte in 0..=255 {
            let mut changed = frame.clone();
            changed[7 * address + 6] = last_byte;
            give(Request::Frame(changed.clone()));
            changed[7 * address] |= 1;
            give(Request::Frame(changed));
        }
    }
    for place in [35, 36] {
        for byte in 0..=255 {
            let mut changed = frame.clone();
            changed[place] = byte;
            give(Request::Frame(changed));
        }
    }
    for hops in 0..=10 {
        let mut packet = Packet::simple(b"B", POSITION);
        packet.hops = (0..hops).map(|_| Address::new(b"HOP", 0, false)).collect();
        let frame = packet.frame();
        for length in 0..frame.len() {
            give(Request::Frame(frame[..length].to_vec()));
        }
        for spaces in 0..=6 {
            let mut changed = frame.clone();
            for byte in &mut changed[7..7 + spaces] {
                *byte = 0x40;
            }
            give(Request::Frame(changed));
        }
    }
}

/// Callsign texts at the edges of the rules.
pub fn odd_callsigns() -> Vec<Vec<u8>> {
    let mut odd: Vec<Vec<u8>> = [
        "", "A", "a", "0", "A-0", "A-00", "A-01", "A-1", "A-015", "A-15", "A-16", "A-255", "A-256", "A-+7", "A-+",
        "A-+15", "A-+16", "A-++7", "A-+0", "A--", "A--0", "A--1", "A-1-2", "A-0-0", "A-0-", "-", "-1", "-0", "A-",
        "A-*", "A*", "A**", "*", "**", "-*", "A-0*", "A-00*", "A-1*", "A*-1", "*-1", "qAC", "qAC*", "qA*", "qAx",
        "qAc", "qA", "QAC", "qAC-0", "qAC-1", "A-000000000015", "A-99999999999999", "A-00000000000015", "ABCDEF", "ABCDEFG",
        "abcdef-7", "ABCDEFGHIJKLMNO", "ABCDEFGHIJKLMNOP", "ABCDEFGHIJKLMNOPQ", "ABCDEFGHIJKLMNOP*",
        "ABCDEFGHIJKLMNOPQ*", "ABCDEFGHIJKLMN-0", "ABCDEFGHIJKLMNO-0", "ABCDEFGHIJKLMN-0*", "ABCDEFGHIJKLMNO-0*",
        "A-1234567890123", "A-12345678901234", "A-123456789012345", "A B", " ", "A ", "A.B", "A_", "A>", "A-1 ",
        "A- 1", "A-1a", "é", "é-é", "A-é", "éééééééé", "ééééééééé", "ééééééé-é", "ééééééé-éé", "A-\u{661}", "\u{7f}",
        "\u{10ffff}", "A\0", "\0",
    ]
    .iter()
    .map(|text| text.as_bytes().to_vec())
    .collect();
    let broken: [&[u8]; 8] = [b"\xff", b"A\xc3", b"\xc3*", b"A-\xc3", b"\xc3-\xa9", b"\xc0\x80", b"\xed\xa0\x80", b"A-\x80"];
    odd.extend(broken.iter().map(|bytes| bytes.to_vec()));
    odd
}

/// Every pair of odd callsigns as source and destination, and as the two hops.
pub fn callsigns(give: Give) {
    let odd = odd_callsigns();
    for first in &odd {
        for second in &odd {
            give(Request::Text(line(first, second, &[], POSITION)));
            give(Request::Text(line(b"A", b"B", &[first.clone(), second.clone()], POSITION)));
        }
        for body in [MIC_E, b"x", b"", b"!49", b":hi", b">hi"] {
            give(Request::Text(line(first, MIC_E_DESTINATION, &[], body)));
            give(Request::Text(line(b"A", first, &[], body)));
            give(Request::Text(line(b"A", MIC_E_DESTINATION, std::slice::from_ref(first), body)));
        }
    }
}

/// Calls and SSIDs of every length, with and without a star, in each place.
pub fn callsign_lengths(give: Give) {
    for call_length in 0..=18 {
        for ssid_length in 0..=18 {
            for star in ["", "*"] {
                let mut text = vec![b'C'; call_length];
                if ssid_length > 0 {
                    text.push(b'-');
                    text.extend(vec![b'0'; ssid_length]);
                }
                text.extend_from_slice(star.as_bytes());
                give(Request::Text(line(&text, b"B", &[], POSITION)));
                give(Request::Text(line(b"A", &text, &[], POSITION)));
                give(Request::Text(line(b"A", b"B", &[b"X".to_vec(), text], POSITION)));
            }
        }
    }
}

/// SSID `0` in every set of places of a header of 0 to 8 hops, with stars here and there.
pub fn sets_of_zeros(give: Give, destination: &[u8], body: &[u8]) {
    for hops in 0..=MOST_HOPS {
        for set in 0..1usize << (2 + hops) {
            let text = |place: usize, call: &[u8]| {
                let ssid: &[u8] = if set >> place & 1 == 1 { b"-0" } else { b"" };
                let star: &[u8] = if (set + place) % 5 == 0 { b"*" } else { b"" };
                [call, ssid, star].concat()
            };
            let path: Vec<Vec<u8>> = (0..hops).map(|hop| text(2 + hop, b"HOP")).collect();
            give(Request::Text(line(&text(0, b"A"), &text(1, destination), &path, body)));
        }
    }
}

/// Every set of zeros in a line of each kind; and in each place alone SSIDs that are `0` or nearly so, behind calls with room for
/// them and without, with 0 to 2 stars.
pub fn zeros(give: Give) {
    const CALLS: [&[u8]; 9] =
        [b"", b"0", b"A0", b"A,C", b"\xc3\xa9", b"A\xc3", MIC_E_DESTINATION, b"ABCDEFGHIJKLMN", b"ABCDEFGHIJKLMNO"];
    const SSIDS: [&[u8]; 16] = [
        b"", b"0", b"-", b"-0", b"-00", b"-000", b"-0-0", b"-0-", b"--0", b"-+0", b"-0 ", b"- 0", b"-O", b"-1", b"-10", b"-0\0",
    ];
    for (destination, body) in [(&b"B"[..], &b"x"[..]), (b"B", POSITION), (MIC_E_DESTINATION, MIC_E)] {
        sets_of_zeros(give, destination, body);
        for call in CALLS {
            for ssid in SSIDS {
                for star in [&b""[..], b"*", b"**"] {
                    let text = [call, ssid, star].concat();
                    give(Request::Text(line(&text, destination, &[], body)));
                    give(Request::Text(line(b"A", &text, &[], body)));
                    give(Request::Text(line(b"A", destination, &[b"X".to_vec(), text], body)));
                }
            }
        }
    }
}

/// Every two bytes as a hop, and three and four bytes at the edges of RFC 3629's table.
pub fn utf8(give: Give) {
    let mut give_hop = |hop: Vec<u8>| give(Request::Text(line(b"A", b"B", &[hop], POSITION)));
    for first in 0..=255 {
        for second in 0..=255 {
            give_hop(vec![first, second]);
        }
    }
    const EDGES: [u8; 23] = [
        0x00, 0x7f, 0x80, 0x8f, 0x90, 0x9f, 0xa0, 0xbf, 0xc0, 0xc1, 0xc2, 0xdf, 0xe0, 0xe1, 0xec, 0xed, 0xee, 0xef, 0xf0,
        0xf1, 0xf4, 0xf5, 0xff,
    ];
    for first in EDGES {
        for second in EDGES {
            for third in EDGES {
                give_hop(vec![first, second, third]);
                if first >= 0xf0 {
                    for fourth in [0x7f, 0x80, 0xbf, 0xc0] {
                        give_hop(vec![first, second, third, fourth]);
                    }
                }
            }
        }
    }
}

pub fn give_written(give: Give, record: &Record) {
    for form in [Form::Text, Form::Frame] {
        give(Request::Line(Record { form, ..record.clone() }.request()));
    }
}

pub fn give_rooms(give: Give, kind: &'static str) {
    for room in 0..=120 {
        let mut record = Record::good(kind);
        record.room = room;
        give_written(give, &record);
        record.hops.clear();
        record.comment.clear();
        give_written(give, &record);
    }
}

pub fn written_rooms(give: Give) {
    RECORDS.into_iter().for_each(|kind| give_rooms(give, kind));
}

/// Comments that bring the output to 512 bytes and past it, with room enough and not.
pub fn written_lengths(give: Give) {
    for kind in RECORDS {
        for length in LONGEST - 90..=LONGEST {
            for room in [0, 511, 512, 513, 600] {
                let mut record = Record::good(kind);
                record.comment = vec![b'c'; length];
                record.room = room;
                give_written(give, &record);
            }
        }
    }
}

/// One field at a time at its limits and past them.
pub fn give_limits(give: Give, kind: &'static str) {
    let farthest = [i64::from(i32::MAX), -i64::from(i32::MAX)];
    let good = Record::good(kind);
    let mut give_changed = |change: &dyn Fn(&mut Record)| {
        let mut record = good.clone();
        change(&mut record);
        give_written(give, &record);
    };
    let angles = [0, 1, 49, 50, 59, 100, 5999, 6000, 60_000, 599_999, 600_000, 659_999, 660_000, 1_079_999];
    let limits = [LATITUDE_LIMIT - 1, LATITUDE_LIMIT, LATITUDE_LIMIT + 1, LONGITUDE_LIMIT, LONGITUDE_LIMIT + 1];
    for size in angles.into_iter().chain(limits) {
        for angle in [size, -size].into_iter().chain(farthest) {
            give_changed(&|record| record.latitude = angle);
            give_changed(&|record| record.longitude = angle);
            for blanks in 0..=7 {
                give_changed(&|record| {
                    record.latitude = angle;
                    record.blanks = blanks;
                });
            }
        }
    }
    for number in (0..=20).chain([99, 100, 199, 200, 359, 360, 361, 798, 799, 800, 1000, 65_536]) {
        give_changed(&|record| record.speed = number);
        give_changed(&|record| record.course = number);
    }
    for byte in 0..=255 {
        give_changed(&|record| record.table = byte);
        give_changed(&|record| record.code = byte);
        give_changed(&|record| record.blanks = byte);
    }
    give_changed(&|record| record.to = name(b"X", b""));
    give_changed(&|record| record.to = name(b"", b"1"));
    give_changed(&|record| record.flag = 1 - record.flag);
}

/// One field at a time at its limits and past them, in records of each kind.
pub fn written_limits(give: Give) {
    RECORDS.into_iter().for_each(|kind| give_limits(give, kind));
    for message in crate::records::MESSAGES {
        give_written(give, &Record { message, ..Record::good("mic-e") });
    }
    for kind in ["unknown", "position"] {
        give_written(give, &Record { message: "M3", ..Record::good(kind) });
    }
}

/// Each pair of letters, and none, beside angles on either side and at 0.
pub fn give_letters(give: Give, kind: &'static str) {
    for latitude in [0, 1, -1, -50, 294_350, -294_350, LATITUDE_LIMIT, -LATITUDE_LIMIT] {
        for longitude in [0, 1, -1, 432_175, -432_175, LONGITUDE_LIMIT - 1, 1 - LONGITUDE_LIMIT] {
            for blanks in [0, 2] {
                let record = Record { latitude, longitude, blanks, ..Record::good(kind) };
                give_written(give, &record);
                for letter in *b"NS-" {
                    for other_letter in *b"EW-" {
                        give_written(give, &Record { letters: Some([letter, other_letter]), ..record.clone() });
                    }
                }
            }
        }
    }
}

pub fn written_letters(give: Give) {
    RECORDS.into_iter().for_each(|kind| give_letters(give, kind));
}

fn give_every_set_of_zeros(give: Give, record: &Record) {
    let places = record.places().len();
    for set in 0..1usize << places {
        let zeros = (0..places).map(|place| set >> place & 1 == 1).collect();
        give_written(give, &Record { zeros: Some(zeros), ..record.clone() });
    }
}

/// A good record of a kind, and ones refused for many reasons.
pub fn good_and_refused(kind: &'static str) -> Vec<Record> {
    const CHANGES: [fn(&mut Record); 14] = [
        |_| {},
        |record| record.letters = Some(*b"NW"),
        |record| record.letters = Some(*b"SE"),
        |record| record.letters = Some(*b"--"),
        |record| record.room = 0,
        |record| record.comment = vec![b'c'; LONGEST],
        |record| record.latitude = LATITUDE_LIMIT + 1,
        |record| record.longitude = -LONGITUDE_LIMIT,
        |record| record.table = 128,
        |record| record.from = name(b"N0CALL", b"0"),
        |record| record.from = name(b"ABCDEFGHIJKLMNOP", b""),
        |record| record.to = name(b"", b""),
        |record| record.to = name(b"APRS", b"1"),
        |record| record.hops[1] = hop(b"", b"", false),
    ];
    let changed = |change: &fn(&mut Record)| {
        let mut record = Record::good(kind);
        change(&mut record);
        record
    };
    CHANGES.iter().map(changed).collect()
}

/// Every set of zeros in records good and refused; and all zeros at every number of hops.
pub fn give_zeros(give: Give, kind: &'static str) {
    for record in good_and_refused(kind) {
        give_every_set_of_zeros(give, &record);
    }
    for hops in 0..=MOST_HOPS {
        let hops = vec![hop(b"HOP", b"", false); hops];
        let zeros = Some(vec![true; 2 + hops.len()]);
        give_written(give, &Record { hops, zeros, ..Record::good(kind) });
    }
}

pub fn written_zeros(give: Give) {
    RECORDS.into_iter().for_each(|kind| give_zeros(give, kind));
}

/// Odd callsigns as calls and SSIDs.
pub fn names_of_odd_callsigns() -> Vec<Name> {
    let mut names = vec![name(b"", b"5"), name(b"A-1", b""), name(b"*", b""), name(b"A:B", b","), name(b"\xc3", b"\xa9")];
    for text in odd_callsigns().into_iter().filter(|text| text.len() <= 17) {
        let mut parts = text.splitn(2, |byte| *byte == b'-');
        let call = parts.next().unwrap_or(b"");
        let ssid = parts.next().unwrap_or(b"");
        if call.len() + ssid.len() <= 16 {
            names.push(name(call, ssid));
        }
    }
    names
}

/// Odd calls and SSIDs in each place of a record, with stars in all sets of three places.
pub fn give_callsigns(give: Give, kinds: &[&'static str]) {
    for odd in &names_of_odd_callsigns() {
        for kind in kinds {
            give_written(give, &Record { from: odd.clone(), ..Record::good(kind) });
            if *kind != "mic-e" {
                give_written(give, &Record { to: odd.clone(), ..Record::good(kind) });
            }
            for stars in 0..8 {
                let heard = |place: usize| stars >> place & 1 == 1;
                let hops = vec![hop(b"HOP", b"", heard(0)), Hop::Callsign(odd.clone(), heard(1)), hop(b"HOP", b"", heard(2))];
                give_written(give, &Record { hops, ..Record::good(kind) });
            }
        }
    }
}

pub fn written_callsigns(give: Give) {
    give_callsigns(give, &RECORDS);
}

pub fn bounds_limits(give: Give) {
    for (limit, sides) in [(LATITUDE_LIMIT, LATITUDE_SIDES), (LONGITUDE_LIMIT, LONGITUDE_SIDES)] {
        let near = (-120..=120).flat_map(|step| [step, limit + step, -limit + step, step * 6000, step * 60_000]);
        let far = [i64::from(i32::MAX), -i64::from(i32::MAX)];
        for angle in near.chain(far) {
            for blanks in 0..=7 {
                for side in sides {
                    give(Request::Line(format!("B {} {} {}", angle, blanks, side)));
                }
            }
        }
    }
}
