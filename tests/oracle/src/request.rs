// A request W, word by word: the record that is to be written, and the comment, or text and identifier, handed over with it.

use aprs_parser::mic_e::Message;
use aprs_parser::QConstruct;
use crate::fields::MESSAGES;
use protocol::messages::ADDRESSEE_LENGTH;
use protocol::rules::Limit;
use protocol::{from_decimal, from_hex, q_elements, rules, Form, LONGEST_CALLSIGN, MOST_HOPS};

const MOST_ROOM: usize = 600;

pub struct Name {
    pub call: Vec<u8>,
    pub ssid: Vec<u8>,
}

pub enum Hop {
    Callsign { name: Name, heard: bool },
    Q(QConstruct),
}

impl Hop {
    /// None of a Q element.
    fn name(&self) -> Option<&Name> {
        match self {
            Hop::Callsign { name, .. } => Some(name),
            Hop::Q(_) => None,
        }
    }
}

#[derive(Clone, Copy, PartialEq, Eq)]
pub enum Kind {
    Unknown,
    Position,
    MicE,
    Message,
    Status,
}

impl Kind {
    fn named(word: &[u8]) -> Option<Kind> {
        match word {
            b"unknown" => Some(Kind::Unknown),
            b"position" => Some(Kind::Position),
            b"mic-e" => Some(Kind::MicE),
            b"message" => Some(Kind::Message),
            b"status" => Some(Kind::Status),
            _ => None,
        }
    }

    pub fn has_angles(self) -> bool {
        matches!(self, Kind::Position | Kind::MicE)
    }
}

pub struct Header {
    pub from: Name,
    pub to: Name,
    pub hops: Vec<Hop>,
}

impl Header {
    /// Source, destination, hops; none for a Q element.
    fn places(&self) -> impl Iterator<Item = Option<&Name>> {
        [Some(&self.from), Some(&self.to)].into_iter().chain(self.hops.iter().map(Hop::name))
    }

    /// The callsigns: source, destination, hops.
    pub fn names(&self) -> impl Iterator<Item = &Name> {
        self.places().flatten()
    }
}

/// `comment` is a message's or a status's text; `addressee` is without its padding; `inner` is the number of inner packets.
pub struct Request {
    pub form: Form,
    pub room: usize,
    pub comment: Vec<u8>,
    pub kind: Kind,
    pub flag: bool,
    pub outermost: Header,
    pub latitude: i64,
    pub longitude: i64,
    pub blanks: u8,
    pub table: u8,
    pub code: u8,
    pub message: Option<Message>,
    pub speed: u32,
    pub course: u32,
    pub letters: [u8; 2],
    pub time: Option<Vec<u8>>,
    pub addressee: Vec<u8>,
    pub id: Option<Vec<u8>>,
    pub inner: u8,
    pub innermost: Header,
}

fn number<T: TryFrom<i64>>(word: &[u8]) -> Option<T> {
    T::try_from(from_decimal(word)?).ok()
}

/// A record holds sixteen bytes of call and SSID together; more is no record.
fn name(word: &[u8]) -> Option<Name> {
    let slash = word.iter().position(|byte| *byte == b'/')?;
    let call = from_hex(&word[..slash])?;
    let ssid = from_hex(&word[slash + 1..])?;
    if call.len() + ssid.len() > LONGEST_CALLSIGN {
        return None;
    }
    Some(Name { call, ssid })
}

/// One of the ten names, bare, or a callsign, with a star if heard.
fn hop(word: &[u8]) -> Option<Hop> {
    if q_elements::is_name(word) {
        return QConstruct::decode_textual(word).map(Hop::Q);
    }
    let unstarred = word.strip_suffix(b"*");
    Some(Hop::Callsign {
        name: name(unstarred.unwrap_or(word))?,
        heard: unstarred.is_some(),
    })
}

fn hops(word: &[u8]) -> Option<Vec<Hop>> {
    if word == b"-" {
        return Some(Vec::new());
    }
    let hops: Option<Vec<Hop>> = word.split(|byte| *byte == b',').map(hop).collect();
    hops.filter(|hops| hops.len() <= MOST_HOPS)
}

fn header(from: &[u8], to: &[u8], path: &[u8]) -> Option<Header> {
    Some(Header { from: name(from)?, to: name(to)?, hops: hops(path)? })
}

fn message(word: &[u8]) -> Option<Option<Message>> {
    if word == b"-" {
        return Some(None);
    }
    let (message, _) = MESSAGES.iter().find(|(_, name)| name.as_bytes() == word)?;
    Some(Some(*message))
}

/// The value of the word of this name, which is taken off, if it is the next of those behind the sixteen.
fn next_value<'a>(later: &mut &[&'a [u8]], name: &[u8]) -> Option<&'a [u8]> {
    let (first, rest) = later.split_first()?;
    let value = first.strip_prefix(name)?;
    *later = rest;
    Some(value)
}

/// Both letters, a dash for none; left out, those of the angles' own sides for a kind with a position.
fn letters(value: Option<&[u8]>, kind: Kind, latitude: i64, longitude: i64) -> Option<[u8; 2]> {
    match value {
        None if !kind.has_angles() => Some(*b"--"),
        None => Some([Limit::Latitude.own_letter(latitude), Limit::Longitude.own_letter(longitude)]),
        Some([first @ (b'N' | b'S' | b'-'), second @ (b'E' | b'W' | b'-')]) => Some([*first, *second]),
        Some(_) => None,
    }
}

/// True of a 0 or 1 for each callsign and a 0 for each Q element, or where they are left out. No more is asked of them: "Writers ignore
/// it" (document 02, R-2).
fn are_zeros(value: Option<&[u8]>, header: &Header) -> bool {
    let is_digit = |(digit, name): (&u8, Option<&Name>)| *digit == b'0' || *digit == b'1' && name.is_some();
    value.map_or(true, |value| value.len() == header.places().count() && value.iter().zip(header.places()).all(is_digit))
}

/// Six digits of any value and `z`, `/` or `h`; left out, or a dash, there is no time.
fn time(value: Option<&[u8]>) -> Option<Option<Vec<u8>>> {
    match value {
        None | Some(b"-") => Some(None),
        Some(time @ [_, _, _, _, _, _, b'z' | b'/' | b'h']) => rules::numbers_of(time).map(|_| Some(time.to_vec())),
        Some(_) => None,
    }
}

/// At most nine bytes, the last no space; left out, or a dash, there are none.
fn addressee(value: Option<&[u8]>) -> Option<Vec<u8>> {
    from_hex(value.unwrap_or(b"-")).filter(|bytes| bytes.len() <= ADDRESSEE_LENGTH && bytes.last() != Some(&b' '))
}

/// An identifier of any length for a message, and none for another kind; left out, or a dash, there is none.
fn id(value: Option<&[u8]>, kind: Kind) -> Option<Option<Vec<u8>>> {
    match value {
        None | Some(b"-") => Some(None),
        Some(value) if kind == Kind::Message => from_hex(value).map(Some),
        Some(_) => None,
    }
}

pub fn parse(words: &[&[u8]]) -> Option<Request> {
    let (words, mut later) = words.split_at(words.len().min(16));
    let [form, room, comment, kind, flag, from, to, path, latitude, longitude, blanks, table, code, word, speed, course]: [&[u8]; 16] =
        words.try_into().ok()?;
    let kind = Kind::named(kind)?;
    let (latitude, longitude) = (from_decimal(latitude)?, from_decimal(longitude)?);
    let [sides, zeros, seven, nine, identifier] =
        [&b"letters="[..], b"zeros=", b"time=", b"addressee=", b"id="].map(|name| next_value(&mut later, name));
    let [inner, inner_from, inner_to, inner_path, inner_zeros] =
        [&b"inner="[..], b"inner-from=", b"inner-to=", b"inner-hops=", b"inner-zeros="].map(|name| next_value(&mut later, name));
    let request = Request {
        form: match form {
            b"text" => Form::Text,
            b"frame" => Form::Frame,
            _ => return None,
        },
        room: number(room).filter(|room| *room <= MOST_ROOM)?,
        comment: from_hex(comment)?,
        kind,
        flag: number::<u8>(flag).filter(|flag| *flag <= 1)? == 1,
        outermost: header(from, to, path)?,
        latitude,
        longitude,
        blanks: number(blanks)?,
        table: number(table)?,
        code: number(code)?,
        message: message(word)?,
        speed: number(speed)?,
        course: number(course)?,
        letters: letters(sides, kind, latitude, longitude)?,
        time: time(seven)?,
        addressee: addressee(nine)?,
        id: id(identifier, kind)?,
        inner: number(inner.unwrap_or(b"0"))?,
        innermost: header(inner_from.unwrap_or(b"-/-"), inner_to.unwrap_or(b"-/-"), inner_path.unwrap_or(b"-"))?,
    };
    let is_well_formed = later.is_empty()
        && are_zeros(zeros, &request.outermost)
        && are_zeros(inner_zeros, &request.innermost)
        && (request.kind != Kind::MicE || request.message.is_some());
    if is_well_formed {
        Some(request)
    } else {
        None
    }
}
