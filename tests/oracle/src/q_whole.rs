// Kinds of requests with Q elements in the path, read, given whole.

use crate::inner_whole::{around, BODIES};
use crate::messages_whole::strings;
use crate::packets::*;
use crate::whole::{every_byte_in_every_place, every_byte_in_places, give_both, Give};
use crate::Request;
use protocol::q_elements::NAMES;
use protocol::{LONGEST, MOST_HOPS};

/// Texts that are nearly a name: callsigns, and below them what is refused with 6, or with 3.
pub const NEARLY: [&[u8]; 24] = [
    b"qAC*",
    b"qAR*",
    b"qAC**",
    b"qAC-0",
    b"qAC-0*",
    b"qAC-1",
    b"qACC",
    b"qAC ",
    b" qAC",
    b"qA",
    b"q",
    b"QAC",
    b"QAc",
    b"qac",
    b"qaC",
    b"qBC",
    b"qA\xc3\xa9",
    b"qAc",
    b"qA*",
    b"qAx",
    b"qAz",
    b"qA-",
    b"qA\xff",
    b"qAC-",
];

/// Hops before and behind the one that is tried.
const BESIDE: [(&[u8], &[u8]); 5] = [(b"HOP", b"HOP"), (b"HOP*", b"HOP"), (b"HOP", b"HOP*"), (b"HOP*", b"HOP*"), (b"qAR", b"qAo")];

/// Headers without their colon; `TO` is where the destination goes. The last has a hop that is refused.
const HEADERS: [&str; 5] = [
    "A>TO,qAC",
    "N0CALL-0>TO,WIDE1-1*,qAR,K1A-0",
    "A>TO,qAo,X-0*,qAO,Y",
    "A-0>TO-0,qAC,qAX,qAU,qAr,qAZ,qAS,qAI,qAR",
    "A>TO,qAC,qAc",
];

fn names_and_nearly() -> Vec<&'static [u8]> {
    NAMES.iter().map(|name| name.as_bytes()).chain(NEARLY).collect()
}

/// A path from its shape: callsigns (`H`), callsigns with a star (`S`) and Q elements (`Q`), named one after another from `first` on.
fn path(shape: &[u8], first: usize) -> Vec<Vec<u8>> {
    let hop = |(place, sort): (usize, &u8)| match sort {
        b'H' => b"HOP".to_vec(),
        b'S' => b"HOP*".to_vec(),
        _ => NAMES[(first + place) % NAMES.len()].as_bytes().to_vec(),
    };
    shape.iter().enumerate().map(hop).collect()
}

/// This text in one place of a path, and others before and behind it.
fn path_beside(text: &[u8], place: usize, length: usize, (before, behind): (&[u8], &[u8])) -> Vec<Vec<u8>> {
    let hop = |at: usize| if at < place { before } else { behind };
    (0..length).map(|at| if at == place { text } else { hop(at) }.to_vec()).collect()
}

/// Every path of up to eight hops that are callsigns with a star or without, and Q elements, before a body of each kind in turn.
pub fn q_paths(give: Give) {
    let bodies: [(&[u8], &[u8]); 5] = [
        (b"B", POSITION),
        (MIC_E_DESTINATION, MIC_E),
        (b"B", b":WU2Z     :Hi{1"),
        (b"B", b">092345zHi"),
        (b"B", b"@312359/4903.50N/07201.75W-"),
    ];
    for length in 0..=MOST_HOPS {
        for (number, shape) in strings(b"HSQ", length).enumerate() {
            let (to, body) = bodies[number % bodies.len()];
            give(Request::Text(line(b"A", to, &path(&shape, number), body)));
        }
    }
}

/// Each name, and what is nearly one, in each place of 1 to 10 hops.
pub fn q_names(give: Give) {
    for text in names_and_nearly() {
        for length in 1..=MOST_HOPS + 2 {
            for place in 0..length {
                for beside in BESIDE {
                    give(Request::Text(line(b"A", b"B", &path_beside(text, place, length, beside), POSITION)));
                }
            }
        }
    }
}

/// Every pair of names, and of what is nearly one, as source and destination, and as the two hops.
pub fn q_ends(give: Give) {
    for first in names_and_nearly() {
        for second in names_and_nearly() {
            give(Request::Text(line(first, second, &[], POSITION)));
            give(Request::Text(line(first, second, &[b"X*".to_vec(), b"qAC".to_vec()], POSITION)));
            give(Request::Text(line(b"A", b"B", &[first.to_vec(), second.to_vec()], POSITION)));
        }
        give(Request::Text(line(first, MIC_E_DESTINATION, &[first.to_vec()], MIC_E)));
    }
}

/// Every byte in every place of lines with Q elements, and of a text inside a frame.
pub fn q_bytes(give: Give) {
    let lines: [&[u8]; 3] = [b"A>B,C*,qAC,D-0:>Hi", b"A>B,qAo,qAR*,qAI:>", b"A>B,X,qAS:}C>D,qAr,Y*,qAZ-0:>"];
    for line in lines {
        every_byte_in_every_place(give, line, Request::Text);
    }
    let frame = around(b"C>D,qAX,Y*,qAU:>").frame();
    every_byte_in_places(give, &frame, 16..frame.len(), Request::Frame);
}

/// Bodies good and refused behind Q elements; and lengths near 512.
pub fn q_bodies(give: Give) {
    for header in HEADERS {
        let start = |to: &[u8]| header.replace("TO", std::str::from_utf8(to).expect("a destination in ASCII")) + ":";
        for (to, body) in BODIES {
            let text = [start(to).as_bytes(), body].concat();
            give_both(give, &around(&text));
            give(Request::Text(text));
        }
        for total in LONGEST - 40..=LONGEST + 4 {
            let mut text = [start(b"B").as_bytes(), POSITION].concat();
            text.resize(total, b'c');
            give(Request::Text(text));
        }
    }
}

/// This path in the outermost header, in one between, and in the innermost.
fn give_in_each_header(give: Give, path: &[Vec<u8>], body: &[u8]) {
    let inside = |text: &[u8]| [b"}", text].concat();
    let good = line(b"E", b"F", &[b"G*".to_vec(), b"qAS".to_vec()], body);
    give(Request::Text(line(b"A", b"B", path, &inside(&good))));
    give(Request::Text(around(&line(b"C", b"D", path, &inside(&good))).line()));
    give_both(give, &around(&line(b"C", b"D", path, body)));
}

/// Paths of up to five hops in each header, before a body of each of three kinds in turn.
pub fn q_inner_paths(give: Give) {
    for length in 0..=5 {
        for (number, shape) in strings(b"HSQ", length).enumerate() {
            give_in_each_header(give, &path(&shape, number), [POSITION, b">Hi", b"x", b"!49"][number % 4]);
        }
    }
}

/// Each name, and what is nearly one, in each place of 1, 2, 8 and 9 hops in each header, and as inner source and destination.
pub fn q_inner_names(give: Give) {
    for text in names_and_nearly() {
        for length in [1, 2, MOST_HOPS, MOST_HOPS + 1] {
            for place in 0..length {
                for beside in [BESIDE[2], BESIDE[4]] {
                    give_in_each_header(give, &path_beside(text, place, length, beside), b">Hi");
                }
            }
        }
        give_both(give, &around(&line(text, b"D", &[b"qAC".to_vec()], b"x")));
        give_both(give, &around(&line(b"C", text, &[b"qAC".to_vec()], b"x")));
    }
}
