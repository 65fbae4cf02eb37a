// Makes one line of each kind, with callsigns, paths and comments as they are heard on the air.
// A maker of a refused kind breaks one thing of a line that is otherwise in order.

use crate::random::Random;

pub type Make = fn(&mut Random) -> Vec<u8>;

const PREFIXES: [&str; 24] = [
    "K", "W", "N", "KA", "KB", "WB", "VE", "G", "M", "DL", "DO", "F", "EA", "IK", "IZ", "OE", "ON",
    "PA", "PD", "SM", "SP", "VK", "JA", "ZL",
];
const DESTINATIONS: [&str; 12] = [
    "APRS", "APU25N", "APDR16", "APWW11", "APMI06", "APOT21", "APN383", "APDW17", "BEACON",
    "APT314", "APRX29", "APAT51-7",
];
const NO_MIC_E: [&str; 6] = ["APRS", "BEACON", "APU25N", "APN383", "s32u6t", "S32A6T"];
const RELAYS: [&str; 10] = [
    "WIDE1-1", "WIDE2-1", "WIDE2-2", "WIDE1", "WIDE2", "WIDE3-3", "RELAY", "TRACE3-2", "ECHO",
    "RS0ISS",
];
const WORDS: [&str; 24] = [
    "PHG2360",
    "/A=001234",
    "73",
    "de",
    "QRV",
    "145.500MHz",
    "Digi",
    "fill-in",
    "op.",
    "12.6V",
    "mobile",
    "home",
    "Temp 21C",
    "iGate",
    "RNG0025",
    "088/036",
    "solar",
    "club",
    "station",
    "http://example.org",
    "listening",
    "T100",
    "Zürich",
    "monitoring R0",
];
const CODES: &[u8] = b"-#>&_k[Yjv!Oubs";
const UNKNOWN: [&str; 8] = [
    ";LEADER   *092345z4903.50N/07201.75W>088/036",
    ")AID #2!4903.50N/07201.75WA",
    "T#005,199,000,255,073,123,01101001",
    "_10090556c220s004g005t077r000p000P000h50b09900wRSW",
    "$GPRMC,063909,A,3349.4302,N,11700.3721,W,43.022,89.3,291099,13.6,E*52",
    "?APRS?",
    "{Q1qwerty",
    "<IGATE,MSG_CNT=43,LOC_CNT=14,DIR=20",
];
const NOT_CARRIED: [&str; 5] = [
    "=/5L!!<*e7> sTComme",
    "=/5L!!<*e7> sTComment.",
    "/092345z/5L!!<*e7> sTComment",
    "@092345//5L!!<*e7> sTComment",
    "!/5L!!<*e7> sTComment",
];

fn call(random: &mut Random) -> String {
    let mut call = random.pick(&PREFIXES).to_string();
    call.push((b'0' + random.below(10) as u8) as char);
    for _ in 0..random.between(1, 3) {
        call.push((b'A' + random.below(26) as u8) as char);
    }
    call
}

fn station(random: &mut Random) -> String {
    let call = call(random);
    match random.below(20) {
        0 => call + "-0",
        1 => call + "-01",
        2..=13 => format!("{call}-{}", random.between(1, 15)),
        _ => call,
    }
}

fn hop(random: &mut Random) -> String {
    if random.one_in(2) {
        random.pick(&RELAYS).to_string()
    } else {
        station(random)
    }
}

fn hop_count(random: &mut Random) -> usize {
    match random.below(20) {
        0..=1 => 0,
        2..=5 => 1,
        6..=11 => 2,
        12..=15 => 3,
        16..=17 => 4,
        _ => random.between(5, 8),
    }
}

fn path(random: &mut Random, count: usize) -> String {
    let starred = random.below(count + 2);
    let mut path = String::new();
    for at in 0..count {
        path.push(',');
        path += &hop(random);
        if at == starred {
            path.push('*');
        }
    }
    path
}

fn headed(random: &mut Random, to: &str, body: &[u8]) -> Vec<u8> {
    let count = hop_count(random);
    let mut line = format!("{}>{to}{}:", station(random), path(random, count)).into_bytes();
    line.extend_from_slice(body);
    line
}

fn addressed(random: &mut Random, body: &[u8]) -> Vec<u8> {
    let to = *random.pick(&DESTINATIONS);
    headed(random, to, body)
}

fn comment(random: &mut Random) -> String {
    let mut words = Vec::new();
    for _ in 0..random.below(7) {
        words.push(*random.pick(&WORDS));
    }
    words.join(" ")
}

fn blanked(mut digits: Vec<u8>, blanks: usize) -> Vec<u8> {
    for at in [6, 5, 3, 2, 1].iter().take(blanks) {
        digits[*at] = b' ';
    }
    digits
}

fn blank_count(random: &mut Random, most: usize) -> usize {
    if random.one_in(20) {
        random.between(1, most)
    } else {
        0
    }
}

fn latitude(random: &mut Random) -> Vec<u8> {
    let digits = format!(
        "{:02}{:02}.{:02}",
        random.below(90),
        random.below(60),
        random.below(100)
    );
    let blanks = blank_count(random, 4);
    let mut text = blanked(digits.into_bytes(), blanks);
    text.push(*random.pick(b"NS"));
    text
}

fn longitude(random: &mut Random) -> Vec<u8> {
    let mut text = format!(
        "{:03}{:02}.{:02}",
        random.below(180),
        random.below(60),
        random.below(100)
    )
    .into_bytes();
    text.push(*random.pick(b"EW"));
    text
}

fn placed(random: &mut Random, latitude: &[u8], longitude: &[u8]) -> Vec<u8> {
    let mut body = vec![*random.pick(b"!!=")];
    body.extend_from_slice(latitude);
    body.push(*random.pick(b"////\\\\D1"));
    body.extend_from_slice(longitude);
    body.push(*random.pick(CODES));
    body.extend_from_slice(comment(random).as_bytes());
    body
}

pub fn position(random: &mut Random) -> Vec<u8> {
    let (north, east) = (latitude(random), longitude(random));
    let body = placed(random, &north, &east);
    addressed(random, &body)
}

pub fn bad_latitude(random: &mut Random) -> Vec<u8> {
    let (mut north, east) = (latitude(random), longitude(random));
    match random.below(3) {
        0 => north[7] = b'E',
        1 => north[4] = b',',
        _ => north = b"9000.01N".to_vec(),
    }
    let body = placed(random, &north, &east);
    addressed(random, &body)
}

pub fn bad_longitude(random: &mut Random) -> Vec<u8> {
    let (north, mut east) = (latitude(random), longitude(random));
    match random.below(3) {
        0 => east[8] = b'N',
        1 => east[5] = b',',
        _ => east = b"18100.01W".to_vec(),
    }
    let body = placed(random, &north, &east);
    addressed(random, &body)
}

pub fn short_position(random: &mut Random) -> Vec<u8> {
    let (north, east) = (latitude(random), longitude(random));
    let mut body = placed(random, &north, &east);
    body.truncate(random.between(2, 19));
    addressed(random, &body)
}

/// Six characters of a Mic-E destination: digits of a latitude, three bits of message, three flags.
fn destination(random: &mut Random, flags: [bool; 3]) -> String {
    let digits = format!(
        "{:02}{:02}{:02}",
        random.below(90),
        random.below(60),
        random.below(100)
    )
    .into_bytes();
    let bits = random.below(8);
    let class = *random.pick(b"PPPA");
    let blanks = blank_count(random, 3);
    let mut text = String::new();
    for (at, digit) in digits.iter().enumerate() {
        let flagged = if at < 3 {
            bits >> at & 1 == 1
        } else {
            flags[at - 3]
        };
        let blank = at >= 6 - blanks;
        let first = match (flagged, at < 3) {
            (false, _) => b'0',
            (true, true) => class,
            (true, false) => b'P',
        };
        text.push(match (blank, flagged) {
            (true, true) => 'Z',
            (true, false) => 'L',
            (false, _) => (first + digit - b'0') as char,
        });
    }
    text
}

/// The eight bytes of information, and whether the longitude's degrees have the offset of 100.
fn information(random: &mut Random) -> (Vec<u8>, bool) {
    let (degrees, minutes, hundredths) = (random.below(180), random.below(60), random.below(100));
    let speed = if random.one_in(3) {
        0
    } else {
        random.below(130)
    };
    let course = random.below(361) + 400;
    let shown = match degrees {
        0..=9 => degrees + 90,
        10..=99 => degrees,
        100..=109 => degrees - 20,
        _ => degrees - 100,
    };
    let minutes = if minutes < 10 { minutes + 60 } else { minutes };
    let tens = if speed < 200 {
        speed / 10 + 80
    } else {
        speed / 10
    };
    let numbers = [
        shown,
        minutes,
        hundredths,
        tens,
        speed % 10 * 10 + course / 100,
        course % 100,
    ];
    let mut bytes: Vec<u8> = numbers.iter().map(|number| *number as u8 + 28).collect();
    bytes.push(*random.pick(CODES));
    bytes.push(*random.pick(b"///\\"));
    (bytes, degrees < 10 || degrees >= 100)
}

fn mic_e_body(random: &mut Random, information: &[u8]) -> Vec<u8> {
    let mut body = vec![if random.one_in(50) {
        *random.pick(b"\x1c\x1d")
    } else {
        *random.pick(b"````'")
    }];
    body.extend_from_slice(information);
    if random.one_in(2) {
        body.extend_from_slice(b"]\"4T}");
    }
    body.extend_from_slice(comment(random).as_bytes());
    body
}

pub fn mic_e(random: &mut Random) -> Vec<u8> {
    let (information, hundred) = information(random);
    let (north, west) = (random.one_in(2), random.one_in(2));
    let to = destination(random, [north, hundred, west]);
    let body = mic_e_body(random, &information);
    headed(random, &to, &body)
}

pub fn bad_destination(random: &mut Random) -> Vec<u8> {
    let (information, _) = information(random);
    let to = *random.pick(&NO_MIC_E);
    let body = mic_e_body(random, &information);
    headed(random, to, &body)
}

pub fn short_information(random: &mut Random) -> Vec<u8> {
    let (information, hundred) = information(random);
    let to = destination(random, [true, hundred, false]);
    let mut body = mic_e_body(random, &information);
    body.truncate(random.between(1, 8));
    headed(random, &to, &body)
}

pub fn unknown(random: &mut Random) -> Vec<u8> {
    let body = if random.one_in(40) {
        ""
    } else {
        *random.pick(&UNKNOWN)
    };
    addressed(random, body.as_bytes())
}

pub fn long_line(random: &mut Random) -> Vec<u8> {
    let mut line = position(random);
    let length = random.between(513, 600);
    line.resize(length, b'x');
    line
}

pub fn no_colon(random: &mut Random) -> Vec<u8> {
    let mut line = position(random);
    line.retain(|byte| *byte != b':');
    line
}

pub fn no_arrow(random: &mut Random) -> Vec<u8> {
    let line = unknown(random);
    let arrow = line
        .iter()
        .position(|byte| *byte == b'>')
        .expect("a line has an arrow");
    [&line[..arrow], &line[arrow + 1..]].concat()
}

pub fn bad_source(random: &mut Random) -> Vec<u8> {
    let line = position(random);
    let start: &[u8] = *random.pick(&[&b"-7>"[..], b"N0CALL->", b"N\xff0CALL>"]);
    let arrow = line
        .iter()
        .position(|byte| *byte == b'>')
        .expect("a line has an arrow");
    [start, &line[arrow + 1..]].concat()
}

/// A line with a position whose path is the one given.
fn with_path(random: &mut Random, path: &str) -> Vec<u8> {
    let (north, east) = (latitude(random), longitude(random));
    let mut line =
        format!("{}>{}{path}:", station(random), random.pick(&DESTINATIONS)).into_bytes();
    line.extend_from_slice(&placed(random, &north, &east));
    line
}

pub fn bad_hop(random: &mut Random) -> Vec<u8> {
    let count = random.below(7);
    let path = path(random, count) + *random.pick(&[",WIDE-", ",-2*", ",W1AW-*"]);
    with_path(random, &path)
}

pub fn long_callsign(random: &mut Random) -> Vec<u8> {
    let path = format!(",{}-EXTRAORDINARILY", call(random));
    with_path(random, &path)
}

pub fn ninth_hop(random: &mut Random) -> Vec<u8> {
    let path = path(random, 9);
    with_path(random, &path)
}

pub fn q_element(random: &mut Random) -> Vec<u8> {
    let count = random.below(4);
    let path = format!(
        "{},{},{}",
        path(random, count),
        random.pick(&["qAR", "qAC", "qAO"]),
        station(random)
    );
    with_path(random, &path)
}

pub fn not_carried(random: &mut Random) -> Vec<u8> {
    let body = *random.pick(&NOT_CARRIED);
    addressed(random, body.as_bytes())
}
