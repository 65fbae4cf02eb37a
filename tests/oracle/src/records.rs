// Records made by hand, as the requests W of INSPECT.md, and the sides of the requests B.

use protocol::{push_hex, Form};

pub type Name = (Vec<u8>, Vec<u8>);

#[derive(Clone)]
pub enum Hop {
    /// A callsign, and whether it is heard.
    Callsign(Name, bool),
    /// One of the ten names.
    Q(&'static str),
}

pub const MESSAGES: [&str; 16] = [
    "M0", "M1", "M2", "M3", "M4", "M5", "M6", "C0", "C1", "C2", "C3", "C4", "C5", "C6", "emergency", "unknown",
];

/// The last words of a request B: a limit, and the side where it is not left out.
pub const LATITUDE_SIDES: [&str; 3] = ["lat", "lat N", "lat S"];
pub const LONGITUDE_SIDES: [&str; 3] = ["lon", "lon E", "lon W"];

#[derive(Clone)]
pub struct Record {
    pub form: Form,
    pub room: usize,
    pub comment: Vec<u8>,
    pub kind: &'static str,
    pub flag: usize,
    pub from: Name,
    pub to: Name,
    pub hops: Vec<Hop>,
    pub latitude: i64,
    pub longitude: i64,
    pub blanks: usize,
    pub table: usize,
    pub code: usize,
    pub message: &'static str,
    pub speed: i64,
    pub course: i64,
    pub letters: Option<[u8; 2]>,
    /// Source, destination, hops.
    pub zeros: Option<Vec<bool>>,
    /// Six digits and a letter, or a dash.
    pub time: Option<String>,
    /// Without its padding.
    pub addressee: Option<Vec<u8>>,
    pub id: Option<Vec<u8>>,
    /// The number of inner packets, and the innermost header.
    pub inner: Option<usize>,
    pub inner_from: Option<Name>,
    pub inner_to: Option<Name>,
    pub inner_hops: Option<Vec<Hop>>,
    pub inner_zeros: Option<Vec<bool>>,
}

pub fn name(call: &[u8], ssid: &[u8]) -> Name {
    (call.to_vec(), ssid.to_vec())
}

pub fn hop(call: &[u8], ssid: &[u8], heard: bool) -> Hop {
    Hop::Callsign(name(call, ssid), heard)
}

impl Hop {
    /// None of a Q element.
    pub fn name(&self) -> Option<&Name> {
        match self {
            Hop::Callsign(name, _) => Some(name),
            Hop::Q(_) => None,
        }
    }

    fn word(&self) -> String {
        match self {
            Hop::Callsign(name, heard) => name_word(name) + if *heard { "*" } else { "" },
            Hop::Q(name) => name.to_string(),
        }
    }
}

impl Record {
    pub fn good(kind: &'static str) -> Record {
        let nothing = Record {
            form: Form::Text,
            room: 512,
            comment: b"Hi".to_vec(),
            kind,
            flag: 0,
            from: name(b"N0CALL", b"1"),
            to: name(b"", b""),
            hops: vec![hop(b"WIDE1", b"1", true), hop(b"K1A", b"", false)],
            latitude: 0,
            longitude: 0,
            blanks: 0,
            table: 0,
            code: 0,
            message: "-",
            speed: 0,
            course: 0,
            letters: None,
            zeros: None,
            time: None,
            addressee: None,
            id: None,
            inner: None,
            inner_from: None,
            inner_to: None,
            inner_hops: None,
            inner_zeros: None,
        };
        let placed = Record {
            flag: 1,
            latitude: 294_350,
            longitude: -432_175,
            table: 47,
            code: 45,
            ..nothing.clone()
        };
        match kind {
            "unknown" | "status" => Record { to: name(b"APRS", b""), ..nothing },
            "message" => Record { to: name(b"APRS", b""), addressee: Some(b"WU2Z".to_vec()), ..nothing },
            "position" => Record { to: name(b"APRS", b""), ..placed },
            _ => Record {
                message: "M3",
                speed: 20,
                course: 251,
                ..placed
            },
        }
    }

    pub fn has_angles(&self) -> bool {
        matches!(self.kind, "position" | "mic-e")
    }

    /// Source, destination, hops; none for a Q element.
    pub fn places(&self) -> Vec<Option<&Name>> {
        let hops = self.hops.iter().map(Hop::name);
        [Some(&self.from), Some(&self.to)].into_iter().chain(hops).collect()
    }

    pub fn request(&self) -> String {
        format!(
            "W {} {} {} {} {} {} {} {} {} {} {} {} {} {} {} {}{}{}{}{}{}{}{}{}{}{}",
            match self.form {
                Form::Text => "text",
                Form::Frame => "frame",
            },
            self.room,
            hex(&self.comment),
            self.kind,
            self.flag,
            name_word(&self.from),
            name_word(&self.to),
            hops_word(&self.hops),
            self.latitude,
            self.longitude,
            self.blanks,
            self.table,
            self.code,
            self.message,
            self.speed,
            self.course,
            letters_word(self.letters),
            word(" zeros=", self.zeros.as_deref().map(zeros_word)),
            word(" time=", self.time.clone()),
            word(" addressee=", self.addressee.as_deref().map(hex)),
            word(" id=", self.id.as_deref().map(hex)),
            word(" inner=", self.inner.map(|number| number.to_string())),
            word(" inner-from=", self.inner_from.as_ref().map(name_word)),
            word(" inner-to=", self.inner_to.as_ref().map(name_word)),
            word(" inner-hops=", self.inner_hops.as_deref().map(hops_word)),
            word(" inner-zeros=", self.inner_zeros.as_deref().map(zeros_word))
        )
    }
}

/// A word and its value, or nothing where it is left out.
fn word(name: &str, value: Option<String>) -> String {
    value.map_or(String::new(), |value| name.to_string() + &value)
}

fn hex(bytes: &[u8]) -> String {
    let mut word = Vec::new();
    push_hex(&mut word, bytes);
    String::from_utf8(word).expect("hexadecimal is ASCII")
}

fn letters_word(letters: Option<[u8; 2]>) -> String {
    letters.map_or(String::new(), |[latitude, longitude]| {
        format!(" letters={}{}", char::from(latitude), char::from(longitude))
    })
}

fn zeros_word(zeros: &[bool]) -> String {
    zeros.iter().map(|zero| if *zero { '1' } else { '0' }).collect()
}

fn name_word((call, ssid): &Name) -> String {
    format!("{}/{}", hex(call), hex(ssid))
}

fn hops_word(hops: &[Hop]) -> String {
    if hops.is_empty() {
        return "-".to_string();
    }
    hops.iter().map(Hop::word).collect::<Vec<_>>().join(",")
}
