// Packets made up for the comparison, good ones and the pieces of which bad ones are made, as lines and as frames.

use crate::random::Random;

pub const POSITION: &[u8] = b"!4903.50N/07201.75W-Test";
pub const COMPRESSED: &[u8] = b"/5L!!<*e7>7P[Test";
pub const MIC_E_DESTINATION: &[u8] = b"S32UVT";
pub const MIC_E: &[u8] = b"`(_fn\"Oj/Hi";

pub struct Address {
    pub call: Vec<u8>,
    pub ssid: u8,
    pub heard: bool,
}

impl Address {
    pub fn new(call: &[u8], ssid: u8, heard: bool) -> Address {
        Address {
            call: call.to_vec(),
            ssid,
            heard,
        }
    }

    pub fn text(&self) -> Vec<u8> {
        let mut text = self.call.clone();
        if self.ssid > 0 {
            text.extend_from_slice(format!("-{}", self.ssid).as_bytes());
        }
        if self.heard {
            text.push(b'*');
        }
        text
    }

    fn bytes(&self, is_last: bool) -> Vec<u8> {
        let mut bytes: Vec<u8> = self.call.iter().map(|byte| byte << 1).collect();
        bytes.resize(6, b' ' << 1);
        bytes.push(u8::from(self.heard) << 7 | 0x60 | self.ssid << 1 | u8::from(is_last));
        bytes
    }
}

pub struct Packet {
    pub from: Address,
    pub to: Address,
    pub hops: Vec<Address>,
    pub body: Vec<u8>,
}

impl Packet {
    pub fn simple(to: &[u8], body: &[u8]) -> Packet {
        Packet {
            from: Address::new(b"A", 0, false),
            to: Address::new(to, 0, false),
            hops: Vec::new(),
            body: body.to_vec(),
        }
    }

    pub fn line(&self) -> Vec<u8> {
        let hops: Vec<Vec<u8>> = self.hops.iter().map(Address::text).collect();
        line(&self.from.text(), &self.to.text(), &hops, &self.body)
    }

    pub fn frame(&self) -> Vec<u8> {
        let mut frame = self.to.bytes(false);
        frame.extend(self.from.bytes(self.hops.is_empty()));
        for (place, hop) in self.hops.iter().enumerate() {
            frame.extend(hop.bytes(place + 1 == self.hops.len()));
        }
        frame.extend_from_slice(&[0x03, 0xf0]);
        frame.extend_from_slice(&self.body);
        frame
    }
}

pub fn line(from: &[u8], to: &[u8], hops: &[Vec<u8>], body: &[u8]) -> Vec<u8> {
    let mut line = [from, b">", to].concat();
    for hop in hops {
        line.push(b',');
        line.extend_from_slice(hop);
    }
    line.push(b':');
    line.extend_from_slice(body);
    line
}

pub fn call(random: &mut Random) -> Vec<u8> {
    let length = random.between(1, 6);
    (0..length).map(|_| *random.pick(b"ABCDEFGHIJKLMNOPQRSTUVWXYZ0123456789")).collect()
}

pub fn address(random: &mut Random) -> Address {
    let ssid = if random.one_in(2) { 0 } else { random.below(16) as u8 };
    Address::new(&call(random), ssid, false)
}

fn hops(random: &mut Random) -> Vec<Address> {
    let most = if random.one_in(4) { 8 } else { 3 };
    (0..random.between(0, most))
        .map(|_| Address {
            heard: random.one_in(3),
            ..address(random)
        })
        .collect()
}

fn comment(random: &mut Random) -> Vec<u8> {
    let longest = if random.one_in(20) { 440 } else { 24 };
    let length = random.between(0, longest);
    if random.one_in(3) {
        random.bytes(length)
    } else {
        (0..length).map(|_| random.between(0x20, 0x7e) as u8).collect()
    }
}

fn symbol(random: &mut Random) -> u8 {
    if random.one_in(16) {
        random.byte()
    } else {
        random.between(0x21, 0x7e) as u8
    }
}

fn number_of_blanks(random: &mut Random) -> usize {
    if random.one_in(2) {
        0
    } else {
        random.between(1, 5)
    }
}

/// The digits of an angle with the last ones, as many as `blanks`, put over by `cover`.
pub fn digits(degrees: usize, width: usize, minutes: usize, hundredths: usize, blanks: usize, cover: u8) -> Vec<u8> {
    let mut digits = format!("{:0width$}{:02}{:02}", degrees, minutes, hundredths).into_bytes();
    let length = digits.len();
    for digit in &mut digits[length - blanks..] {
        *digit = cover;
    }
    digits.insert(length - 2, b'.');
    digits
}

fn minutes(random: &mut Random) -> usize {
    let most = if random.one_in(8) { 99 } else { 59 };
    random.between(0, most)
}

pub fn position(random: &mut Random) -> Vec<u8> {
    let blanks = number_of_blanks(random);
    let cover = if random.one_in(3) { random.byte() } else { *random.pick(b" 0") };
    let mut body = vec![*random.pick(b"!=")];
    body.extend(digits(random.below(90), 2, minutes(random), random.below(100), blanks, b' '));
    body.extend([*random.pick(b"NS"), symbol(random)]);
    body.extend(digits(random.below(180), 3, minutes(random), random.below(100), blanks, cover));
    body.extend([*random.pick(b"EW"), symbol(random)]);
    body.extend(comment(random));
    body
}

pub fn good_time(random: &mut Random) -> String {
    let letter = *random.pick(b"z/h");
    let (hour, minute) = (random.below(24), random.below(60));
    let [first, second, third] = match letter {
        b'h' => [hour, minute, random.below(60)],
        _ => [random.between(1, 31), hour, minute],
    };
    format!("{:02}{:02}{:02}{}", first, second, third, char::from(letter))
}

/// Seven bytes: mostly a time; else one with a number at a limit or past it, with another letter, or with another byte for a digit.
fn time(random: &mut Random) -> Vec<u8> {
    let mut time = good_time(random).into_bytes();
    match random.below(8) {
        0 => {
            let at = 2 * random.below(3);
            time[at..at + 2].copy_from_slice(*random.pick(&[b"00", b"01", b"23", b"24", b"31", b"32", b"59", b"60", b"99"]));
        }
        1 => time[6] = if random.one_in(2) { *random.pick(b"ZHzh/") } else { random.byte() },
        2 => time[random.below(6)] = if random.one_in(2) { *random.pick(b" +-./:") } else { random.byte() },
        _ => {}
    }
    time
}

fn compressed(random: &mut Random) -> Vec<u8> {
    let mut position: Vec<u8> = (0..13).map(|_| random.between(33, 124) as u8).collect();
    position[0] = *random.pick(b"/\\AZaj");
    position.extend(comment(random));
    position
}

/// A body with a time; what follows it is one time in sixteen compressed, and one in sixteen cut short.
pub fn timed(random: &mut Random) -> Vec<u8> {
    let position = if random.one_in(16) { compressed(random) } else { position(random).split_off(1) };
    let mut body = [&[*random.pick(b"/@")][..], &time(random), &position].concat();
    if random.one_in(16) {
        body.truncate(random.between(1, 27));
    }
    body
}

pub fn mic_e_destination(random: &mut Random) -> Vec<u8> {
    let blanks = number_of_blanks(random);
    let mut digits = format!("{:02}{:02}{:02}", random.below(90), minutes(random), random.below(100)).into_bytes();
    for (place, digit) in digits.iter_mut().enumerate() {
        let is_blank = place + blanks >= 6;
        let bases: &[u8] = if place < 3 { b"0AP" } else { b"0P" };
        let covers: &[u8] = if place < 3 { b"KLZ" } else { b"LZ" };
        *digit = if is_blank {
            *random.pick(covers)
        } else {
            *digit - b'0' + *random.pick(bases)
        };
    }
    digits
}

pub fn mic_e(random: &mut Random) -> Vec<u8> {
    let mut body = vec![*random.pick(b"`'\x1c\x1d")];
    body.extend([random.between(28, 127) as u8, random.between(28, 127) as u8, random.between(28, 127) as u8]);
    body.extend([random.between(28, 127) as u8, random.between(28, 127) as u8, random.between(28, 88) as u8]);
    body.extend([symbol(random), symbol(random)]);
    body.extend(comment(random));
    body
}

pub fn unknown(random: &mut Random) -> Vec<u8> {
    if random.one_in(8) {
        return Vec::new();
    }
    let mut body = comment(random);
    body.insert(0, *random.pick(b"x;)T_$*}{ \x00\xff"));
    body
}

pub fn packet(random: &mut Random, body: fn(&mut Random) -> Vec<u8>) -> Packet {
    Packet {
        from: address(random),
        to: address(random),
        hops: hops(random),
        body: body(random),
    }
}

pub fn mic_e_packet(random: &mut Random) -> Packet {
    let mut made = packet(random, mic_e);
    made.to.call = mic_e_destination(random);
    made
}

pub fn any_packet(random: &mut Random) -> Packet {
    match random.below(5) {
        0 => packet(random, unknown),
        1 | 2 => packet(random, position),
        _ => mic_e_packet(random),
    }
}

/// Packets in which every byte is tried in every place, and which are cut at every length.
pub fn samples() -> Vec<Packet> {
    let mut long = Packet::simple(b"APRS", POSITION);
    long.from = Address::new(b"N0CALL", 1, false);
    long.hops = vec![
        Address::new(b"WIDE1", 1, false),
        Address::new(b"WIDE2", 2, true),
        Address::new(b"K1A", 0, false),
    ];
    let mut relayed = Packet::simple(MIC_E_DESTINATION, MIC_E);
    relayed.to.ssid = 3;
    relayed.hops = vec![Address::new(b"N7OO", 1, true)];
    vec![
        long,
        relayed,
        Packet::simple(b"APRS", b"=49  .  N\\072  .  W#"),
        Packet::simple(b"4LLLLL", b"'(_fn\"Oj/"),
        Packet::simple(b"B", b"=4903.5 S/17959.99E-c"),
        Packet::simple(b"B", b"x"),
    ]
}
