// Kinds of requests at the edges of the strict entry (document 02, R-8), given whole: each is asked usually and strictly.

use crate::inner_whole::{around, ODD_HEADERS};
use crate::packets::*;
use crate::whole::{give_both, give_of_lengths_near_512, Give};
use crate::Request;

const MOST_BLANKS: usize = 5;
/// Type bytes, with a time behind those that have one.
const OPENINGS: [&str; 7] = ["!", "=", "/092345z", "@312359/", "/000000h", "@235959h", "@010000z"];
/// The last is one packet inside too many.
const DEPTHS: [usize; 11] = [1, 2, 3, 4, 1, 2, 3, 4, 1, 2, 5];
const REPORTS: [&[u8]; 4] = [b"`", b"'", b"\x1c", b"\x1d"];
const GOOD_INFORMATION: &[u8] = b"(_fn\"O";

/// A body alone, and inside one packet or more, as the turn has it: each as a line and as a frame.
fn give_alone_and_inside(give: Give, turn: usize, to: &[u8], body: &[u8]) {
    give_both(give, &Packet::simple(to, body));
    let innermost = line(b"C", to, &[], body);
    let text = (1..DEPTHS[turn % DEPTHS.len()]).fold(innermost, |text, _| around(&text).line());
    give_both(give, &around(&text));
}

fn position_of(opening: &str, latitude: &[u8], table: u8, longitude: &[u8]) -> Vec<u8> {
    [opening.as_bytes(), latitude, &[table], longitude, b"-c"].concat()
}

/// Every number of minutes of one angle, with the other's below and at 60, for every number of blanks, with blanks, nines and other bytes
/// in the places that longitude's precision discards.
pub fn strict_minutes(give: Give) {
    let mut turn = 0;
    for minutes in 0..100 {
        for (latitude, longitude) in [(minutes, 59), (minutes, 60), (59, minutes), (60, minutes)] {
            for blanks in 0..=MOST_BLANKS {
                for cover in *b" 9x" {
                    let (degrees, other_degrees) = [(0, 0), (49, 72), (9, 99), (89, 179), (90, 180)][turn % 5];
                    let hundredths = [0, 49, 99][turn / 5 % 3];
                    let north = digits(degrees, 2, latitude, hundredths, blanks, b' ');
                    let west = digits(other_degrees, 3, longitude, hundredths, blanks, cover);
                    let body = position_of(OPENINGS[turn % OPENINGS.len()], &[&north[..], b"N"].concat(), b'/', &[&west[..], b"W"].concat());
                    give_alone_and_inside(give, turn, b"B", &body);
                    turn += 1;
                }
            }
        }
    }
}

/// Six characters of a destination; those of the minutes are of the class that starts with the byte given.
fn destination(degrees: usize, minutes: usize, blanks: usize, [tens, ones]: [u8; 2]) -> Vec<u8> {
    let mut characters = format!("{:02}{:02}25", degrees, minutes).into_bytes();
    characters[2] = characters[2] - b'0' + tens;
    characters[3] = characters[3] - b'0' + ones;
    characters[6 - blanks..].fill(b'L');
    characters
}

/// Every number of minutes of a destination, in every class of character, for every number of blanks; before information that is good, that
/// has minutes of 60 and more, or that is refused, and before table bytes good and refused.
pub fn strict_destinations(give: Give) {
    let information: [&[u8]; 5] = [GOOD_INFORMATION, b"(\x58fn\"O", b"(\x61fn\"O", b"(\xfffn\"O", b"(_fn\"\x1b"];
    let mut turn = 0;
    for minutes in 0..100 {
        for blanks in 0..=MOST_BLANKS {
            for classes in [*b"00", *b"A0", *b"P0", *b"0P", *b"AP", *b"PP"] {
                let degrees = [0, 33, 89, 90][turn / 6 % 4];
                let symbols: &[u8] = [&b"j/"[..], b"/j", b"//"][turn % 3];
                let body = [REPORTS[turn % 4], information[turn % 5], symbols, b"c"].concat();
                give_alone_and_inside(give, turn, &destination(degrees, minutes, blanks, classes), &body);
                turn += 1;
            }
        }
    }
}

/// Every table byte, behind a good part and behind each one that is refused, usually or strictly.
pub fn strict_tables(give: Give) {
    let places: [(&[u8], &[u8]); 5] = [
        (b"4959.99N", b"07259.99W"),
        (b"4960.00N", b"07259.99W"),
        (b"4959.99N", b"07260.00W"),
        (b"4959.99N", b"072x0.00W"),
        (b"49x9.99N", b"07259.99W"),
    ];
    let reports: [(&[u8], &[u8]); 4] = [
        (b"495999", GOOD_INFORMATION),
        (b"496000", GOOD_INFORMATION),
        (b"495999", b"(_fn\"\x1b"),
        (b"K9L999", GOOD_INFORMATION),
    ];
    let mut turn = 0;
    for table in 0..=255 {
        for (latitude, longitude) in places {
            let body = position_of(OPENINGS[turn % OPENINGS.len()], latitude, table, longitude);
            give_alone_and_inside(give, turn, b"B", &body);
            turn += 1;
        }
        for (to, information) in reports {
            let body = [REPORTS[turn % 4], information, &[table, table], b"c"].concat();
            give_alone_and_inside(give, turn, to, &body);
            turn += 1;
        }
    }
}

fn give_positions_in_order(give: Give, turn: &mut usize) {
    let latitudes: [&[u8]; 14] = [
        b"4903.50N", b"4959.99S", b"4960.00N", b"8960.00N", b"0099.99S", b"9000.00N", b"9000.01N", b"9060.00N", b"006 .  N", b"0 60.00N",
        b"00  .  N", b"496x.00N", b"4960.00x", b"4960x00N",
    ];
    let longitudes: [&[u8]; 13] = [
        b"07201.75W", b"17959.99E", b"07260.00W", b"17960.00E", b"00099.99E", b"18000.00W", b"18000.01W", b"18060.00E", b"0006x.xxE",
        b"xxxxx.xxE", b"072 0.00W", b"07260.00x", b"07260x00W",
    ];
    let refused = ["/000000z", "@010000Z", "/01 000z", "/0100"];
    for opening in OPENINGS.into_iter().chain(refused) {
        for latitude in latitudes {
            for longitude in longitudes {
                let table = b"/az\\@"[*turn % 5];
                give_alone_and_inside(give, *turn, b"B", &position_of(opening, latitude, table, longitude));
                *turn += 1;
            }
        }
    }
}

fn give_reports_in_order(give: Give, turn: &mut usize) {
    let destinations: [&[u8]; 16] = [
        b"S32UVT", b"495999", b"496000", b"896000", b"009999", b"900000", b"900001", b"906000", b"49YLLL", b"49LLLL", b"49J999", b"49V0PP",
        b"LLLLLL", b"49600", b"4960A0", b"49L6LL",
    ];
    let information: [&[u8]; 7] =
        [GOOD_INFORMATION, b"(\x58fn\"O", b"(\x61\xffn\"O", b"\xff_fn\"O", b"(_\x1bn\"O", b"(_f", b""];
    for to in destinations {
        for information in information {
            for symbols in [&b"j/"[..], b"/j", b"/a", b"\xff\x80", b"/"] {
                let body = [REPORTS[*turn % 4], information, symbols].concat();
                give_alone_and_inside(give, *turn, to, &body);
                *turn += 1;
            }
        }
    }
}

/// Bodies that are refused strictly alone, one for each number and of each kind that has it.
const STRICT_ALONE: [(&[u8], &[u8]); 6] = [
    (b"B", b"!4960.00N/07201.75W-"),
    (b"B", b"=4903.50N/07260.00W-"),
    (b"B", b"/092345z4903.50Na07201.75W-"),
    (b"B", b"@000000h006 .  N/07201.75W-"),
    (b"S62UVT", MIC_E),
    (MIC_E_DESTINATION, b"'(_fn\"Oja"),
];

/// Parts of each sort, good, refused usually, and refused strictly, together; and behind headers that are refused, alone and inside.
pub fn strict_orders(give: Give) {
    let mut turn = 0;
    give_positions_in_order(give, &mut turn);
    give_reports_in_order(give, &mut turn);
    for odd in ODD_HEADERS {
        for (_, body) in STRICT_ALONE {
            let text = [odd, body].concat();
            give(Request::Text(text.clone()));
            give_both(give, &around(&text));
        }
    }
}

/// Bodies that are refused strictly alone, cut at every length and filled up to lengths around 512.
pub fn strict_lengths(give: Give) {
    for (to, body) in STRICT_ALONE {
        for packet in [Packet::simple(to, body), around(&line(b"C", to, &[], body))] {
            let (line, frame) = (packet.line(), packet.frame());
            (0..=line.len()).for_each(|length| give(Request::Text(line[..length].to_vec())));
            (0..=frame.len()).for_each(|length| give(Request::Frame(frame[..length].to_vec())));
            give_of_lengths_near_512(give, &packet);
        }
    }
}
