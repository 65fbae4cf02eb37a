// Kinds of requests with packets inside packets, read, given whole.

use crate::messages_whole::strings;
use crate::packets::*;
use crate::whole::{every_byte_in_every_place, every_byte_in_places, give_both, give_of_lengths_near_512, odd_callsigns, Give};
use crate::Request;

const DEEPEST: usize = 6;
/// The places of a frame behind the addresses of source and destination and the control pair.
const FRAME_BODY: usize = 16;

/// Innermost bodies of every kind and their destinations: accepted ones, and below them those of each number.
pub const BODIES: [(&[u8], &[u8]); 31] = [
    (b"B", b""),
    (b"B", b"x"),
    (b"B", POSITION),
    (b"B", b"=49  .  N\\072  .  W#"),
    (b"B", b"!0000.00S/00000.00W-"),
    (b"B", b"/092345z4903.50N/07201.75W>Test"),
    (b"B", b"@312359/4903.5 N/07201.75W>"),
    (b"B", b"/000000h4903.50N/07201.75W>"),
    (b"B", b"!4903.50N\x8007201.75W-"),
    (MIC_E_DESTINATION, MIC_E),
    (b"4LLLLL-0", b"'(_fn\"Oj/"),
    (b"S32UV4", b"`\x6b\x94\x1cn\"Oj/"),
    (b"B", b":WU2Z     :Testing{003"),
    (b"B", b":         :"),
    (b"B", b":WU2Z:    :Testing"),
    (b"B", b">Net Control Center"),
    (b"B", b">092345zNet Control Center"),
    (b"B", b">092345/Net"),
    (b"B", b">"),
    (b"B", b"!/5L!!<*e7>7P[Test"),
    (b"B", b"!9000.01N/07201.75W-"),
    (b"B", b"!00 0.00N/07201.75W-"),
    (b"B", b"!4903.50N/18000.01W-"),
    (b"B", b"!49"),
    (b"B", b"/09234"),
    (b"LLLLLL", MIC_E),
    (MIC_E_DESTINATION, b"`(_f"),
    (b"B", b"/000000z4903.50N/07201.75W-"),
    (b"B", b":hi"),
    (b"B", b":WU2Z     :a|b"),
    (b"B", b">123456789012345678901234567890123456789012345678901234567890123"),
];

/// Headers without their colon: source, destination and path; `TO` is where the destination goes.
const HEADERS: [&str; 5] = [
    "A>TO",
    "N0CALL-0*>TO,WIDE1-1,K1A-0*,X",
    "é-00>TO,,*,q",
    "A-0>TO,1,2,3,4,5-0,6,7*,8",
    "A>TO,X,qAC,Y-0*,qAo,Z",
];

/// Starts of a packet that do not read, for each number of a header, and with two faults in one callsign; and some that do.
pub const ODD_HEADERS: [&[u8]; 37] = [
    b"",
    b"A",
    b">",
    b"A>B",
    b":",
    b"AB:",
    b"->B:",
    b"A->B:",
    b"A>-1:",
    b"A>B,C-:",
    b"A>B,\xff:",
    b"A\xc3>B:",
    b"ABCDEFGHIJKLMNOPQ>B:",
    b"A>ABCDEFGHIJKLMNOPQ*:",
    b"A>B,ABCDEFGHIJKLMNO-0:",
    b"A>B,,,,,,,,,:",
    b"A>B,,,,,,,,-,qAx:",
    b"A>B,qAx:",
    b"A>B,qAC:",
    b"A>B,qA*:",
    b"A>B,C-,qAx:",
    b"A>B,qAx,C-:",
    b"ABCDEFGHIJKLMNOPQ->B:",
    b"A>ABCDEFGHIJKLMNO\xff\xff:",
    b"A>B,,,,,,,,,-:",
    b"A>B,,,,,,,,,qAx:",
    b"A>B,,,,,,,,,ABCDEFGHIJKLMNOPQ:",
    b"A>B,qA-:",
    b"A>B,qA\xff:",
    b">:",
    b"*>*,*:",
    b"A>B,qAC*:",
    b"A>B,qAC-0:",
    b"A>B,qAc:",
    b"A>B,,,,,,,,qAR:",
    b"A>B,,,,,,,,,qAR:",
    b"A>B>C,}:",
];

fn header(style: usize, to: &[u8]) -> Vec<u8> {
    let header = HEADERS[style % HEADERS.len()].replace("TO", std::str::from_utf8(to).expect("a destination in ASCII"));
    [header.as_bytes(), b":"].concat()
}

/// Starts of packets, one inside the other, and a body.
fn text_of(starts: &[Vec<u8>], body: &[u8]) -> Vec<u8> {
    [&starts.join(&b'}'), body].concat()
}

/// A packet with this text inside it.
pub fn around(text: &[u8]) -> Packet {
    Packet::simple(b"S32U6T", &[b"}", text].concat())
}

/// Nothing, one header after another, or all of one sort, around each body; 0 to 6 packets inside.
pub fn inner_depths(give: Give) {
    for (to, body) in BODIES {
        give_both(give, &Packet::simple(b"B", body));
        for depth in 1..=DEEPEST {
            for style in 0..2 * HEADERS.len() {
                let step = style / HEADERS.len();
                let destination = |level: usize| if level + 1 == depth { to } else { b"APRS-0" };
                let starts: Vec<Vec<u8>> = (0..depth).map(|level| header(style + step * level, destination(level))).collect();
                give_both(give, &around(&text_of(&starts, body)));
            }
        }
    }
}

/// Each odd start at each level, alone and with another behind it, around bodies good and refused, empty and a fifth's.
pub fn inner_faults(give: Give) {
    let bodies: [&[u8]; 6] = [b"x", b"", b"!49", b":hi", b"}", POSITION];
    for depth in 1..=5 {
        for (number, odd) in ODD_HEADERS.iter().enumerate() {
            for level in 0..depth {
                for (next, body) in bodies.into_iter().enumerate() {
                    let mut starts = vec![b"C>D:".to_vec(); depth];
                    starts[level] = odd.to_vec();
                    give_both(give, &around(&text_of(&starts, body)));
                    if level + 1 < depth {
                        starts[level + 1] = ODD_HEADERS[(number * 7 + next) % ODD_HEADERS.len()].to_vec();
                        give(Request::Text(around(&text_of(&starts, body)).line()));
                    }
                }
            }
        }
    }
    for odd in ODD_HEADERS {
        give(Request::Text([odd, b"}C>D:x"].concat()));
        give(Request::Text([odd, b"}"].concat()));
    }
}

/// Outermost headers of 0 to 10 hops: each address of a frame in turn unreadable or marked last, and other control pairs; and odd callsigns
/// in each place of a line.
pub fn inner_headers(give: Give) {
    let bodies: [&[u8]; 4] = [b"}C>D:x", b"}", b"}C->D:", b"}C>D:}E>F:}G>H:}I>J:}"];
    for body in bodies {
        for hops in 0..=10 {
            let mut packet = Packet::simple(b"B", body);
            packet.hops = (0..hops).map(|place| Address::new(b"HOP", place as u8, place % 3 == 0)).collect();
            give_both(give, &packet);
            let frame = packet.frame();
            for address in 0..2 + hops {
                for place in [7 * address, 7 * address + 6] {
                    let mut changed = frame.clone();
                    changed[place] |= 1;
                    give(Request::Frame(changed.clone()));
                    changed[7 * (2 + hops)] ^= 1;
                    give(Request::Frame(changed));
                }
            }
            for place in 7 * (2 + hops)..=7 * (2 + hops) + 1 {
                let mut changed = frame.clone();
                changed[place] ^= 1;
                give(Request::Frame(changed));
            }
        }
        for odd in odd_callsigns() {
            give(Request::Text(line(&odd, b"B", &[], body)));
            give(Request::Text(line(b"A", &odd, &[], body)));
            give(Request::Text(line(b"A", b"B", &[b"X*".to_vec(), odd], body)));
        }
    }
}

/// Every text of a few bytes that mean something inside a packet.
pub fn inner_shapes(give: Give) {
    for (alphabet, longest) in [(&b"}>:A"[..], 7), (b"}>:A,-*", 4)] {
        for length in 0..=longest {
            for text in strings(alphabet, length) {
                let packet = Packet::simple(b"B", &[b"}", &text[..]].concat());
                give(Request::Text(packet.line()));
                if length <= 5 {
                    give(Request::Frame(packet.frame()));
                }
            }
        }
    }
}

/// Every byte in every place of packets inside packets, one to four deep.
pub fn inner_bytes(give: Give) {
    let lines: [&[u8]; 5] = [
        b"A>B,C*:}D-0>E,F*:}G>H-0:!0000.01N/00000.02E-",
        b"A>B:}C>S32UVT-3:`(_fn\"Oj/Hi",
        b"A>B:}C>D::WU2Z     :Hi{1",
        b"A>B:}C>D:}E>F:}G>H:}I>J:>010000zHi",
        b"A>B:}}>:}>:",
    ];
    for line in lines {
        every_byte_in_every_place(give, line, Request::Text);
    }
    for line in [&lines[0][8..], &lines[1][5..]] {
        let frame = around(line).frame();
        every_byte_in_places(give, &frame, FRAME_BODY..frame.len(), Request::Frame);
    }
}

/// 0 to 10 hops inside with stars in all places, and with an odd one in each place.
pub fn inner_hops(give: Give) {
    let odd_hops: [&[u8]; 10] = [b"qAC", b"qAC*", b"qA*", b"qAx", b"", b"*", b"-", b"H-0", b"H-0*", b"ABCDEFGHIJKLMNOPQ"];
    for count in 0..=10 {
        for stars in 0..1usize << count {
            let hop = |place: usize| if stars >> place & 1 == 1 { b"HOP*".to_vec() } else { b"HOP".to_vec() };
            let hops: Vec<Vec<u8>> = (0..count).map(hop).collect();
            give_both(give, &around(&line(b"C", b"D", &hops, POSITION)));
        }
        for odd in odd_hops {
            for place in 0..count {
                let mut hops = vec![b"H*".to_vec(); count];
                hops[place] = odd.to_vec();
                let text = line(b"C", b"D", &hops, b">Hi");
                give(Request::Text(around(&text).line()));
                give(Request::Text(around(&line(b"E", b"F", &[], &[b"}", &text[..]].concat())).line()));
            }
        }
    }
}

/// Odd callsigns in each place of the innermost header and of one around it, around bodies of each kind.
pub fn inner_callsigns(give: Give) {
    let bodies: [&[u8]; 5] = [b"", POSITION, MIC_E, b":WU2Z     :Hi", b">010000zHi"];
    for odd in odd_callsigns() {
        for (number, body) in bodies.into_iter().enumerate() {
            let texts = [
                line(&odd, MIC_E_DESTINATION, &[], body),
                line(b"C", &odd, &[], body),
                line(b"C", MIC_E_DESTINATION, &[b"X*".to_vec(), odd.clone()], body),
            ];
            for text in texts {
                give_both(give, &around(&text));
            }
            let inner = [b"}", &line(b"C", MIC_E_DESTINATION, &[], body)[..]].concat();
            let text = match number % 3 {
                0 => line(&odd, b"F", &[], &inner),
                1 => line(b"E", &odd, &[], &inner),
                _ => line(b"E", b"F", &[odd.clone()], &inner),
            };
            give_both(give, &around(&text));
        }
    }
}

/// Cut at every length, and filled up to lengths around 512.
pub fn inner_lengths(give: Give) {
    for (to, body) in BODIES {
        for starts in [vec![header(1, to)], vec![header(0, b"D"), header(3, to)]] {
            let packet = around(&text_of(&starts, body));
            let (line, frame) = (packet.line(), packet.frame());
            (0..=line.len()).for_each(|length| give(Request::Text(line[..length].to_vec())));
            (0..=frame.len()).for_each(|length| give(Request::Frame(frame[..length].to_vec())));
            give_of_lengths_near_512(give, &packet);
        }
    }
}
