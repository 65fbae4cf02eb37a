// Judges one request: are the oracle's answer and the port's equal on document 01's domain of equality?
// Of two refusals only the fact counts; where the oracle marks its answer, the documents' own number, or the record that stands behind the
// mark, is demanded. What the Rust does not have, the letters, the dropped zeros, the page box and the numbers of a bad time, a malformed
// message or a malformed status, is held to document 02's rules. Bodies that start `}` are outside that domain; of them the whole answer is
// demanded that the oracle has by document 02's rules. An answer of the strict entry is held to the usual one of the same input.

use protocol::rules::{self, Limit, Words};
use protocol::strict::{self, Refusal};
use protocol::{first_number, from_decimal, from_hex, words, Form, Mark, BAD_TIME, MALFORMED};

/// The number of three bytes that start `qA` and are no name of a Q element.
const NO_Q_ELEMENT: u32 = 6;
const WRITTEN_FIELDS: [&[u8]; 2] = [b"text=", b"frame="];
/// The words behind the written fields: two by rule, three that are the Rust's, and five of an inner packet.
const BEHIND: [&str; 10] = [
    "the letters",
    "the zeros",
    "the time",
    "the addressee",
    "the identifier",
    "the number of inner packets",
    "the inner source",
    "the inner destination",
    "the inner hops",
    "the inner zeros",
];

#[derive(Clone, Debug, PartialEq, Eq)]
pub enum Verdict {
    Accepted,
    Refused,
    OnShim,
    Outside(Mark),
    Listed(Mark),
    /// A body that starts `}`, accepted or refused as it should be, or a record with a number refused with 14.
    Inner,
    Different(&'static str),
}

use Verdict::*;

/// What became of one of the two rewritten forms of an accepted record.
#[derive(Clone, Copy, Debug, PartialEq, Eq)]
pub enum Rewritten {
    Equal,
    Refused,
    Marked(Mark),
}

pub struct Judgement {
    pub verdict: Verdict,
    pub rewritten: Vec<Rewritten>,
}

impl From<Verdict> for Judgement {
    fn from(verdict: Verdict) -> Judgement {
        Judgement { verdict, rewritten: Vec::new() }
    }
}

fn is_of_reading(number: u32) -> bool {
    matches!(number, 1..=12 | BAD_TIME | MALFORMED)
}

fn is_of_writing(number: u32) -> bool {
    matches!(number, 1..=16 | MALFORMED)
}

fn refusal(word: &[u8], is_known: fn(u32) -> bool) -> Option<u32> {
    let number = u32::try_from(from_decimal(word)?).ok()?;
    if is_known(number) {
        Some(number)
    } else {
        None
    }
}

fn mark_or_outside(mark: Mark) -> Verdict {
    if mark.is_listed_difference() {
        Listed(mark)
    } else {
        Outside(mark)
    }
}

fn judge_rewritten(oracle: &[u8], ours: &[u8]) -> Result<Rewritten, &'static str> {
    let colon = oracle.iter().position(|byte| *byte == b':').ok_or("no colon in the oracle's answer")?;
    let number = &oracle[..colon];
    let refused = ours.strip_suffix(b":-").and_then(|number| refusal(number, is_of_writing));
    if number == b"0" {
        return if oracle == ours { Ok(Rewritten::Equal) } else { Err("rewritten bytes") };
    }
    if let Some(mark) = number.strip_prefix(b"outside-").and_then(Mark::named) {
        return if refused == Some(mark.number_written()) {
            Ok(Rewritten::Marked(mark))
        } else {
            Err("rewriting, where document 01 names the number")
        };
    }
    match (refusal(number, is_of_writing), refused) {
        (Some(_), Some(_)) => Ok(Rewritten::Refused),
        (Some(_), None) => Err("rewriting, which the Rust refuses"),
        (None, _) => Err("rewriting, where the Rust panics"),
    }
}

fn input_of(request: &[u8]) -> Option<(Vec<u8>, Form)> {
    match words(request).as_slice() {
        [b"T", input] => Some((from_hex(input)?, Form::Text)),
        [b"F", input] => Some((from_hex(input)?, Form::Frame)),
        _ => None,
    }
}

/// The words behind the written fields that the Rust does not have.
fn words_by_rule(request: &[u8], kind: &[u8]) -> Option<Words> {
    let (input, form) = input_of(request)?;
    rules::record_words(kind, &input, form)
}

/// What is wrong with the words behind the written fields.
fn fault_behind(request: &[u8], kind: &[u8], rust: &[&[u8]], ours: &[&[u8]]) -> Option<&'static str> {
    let by_rule = match words_by_rule(request, kind) {
        Some(words) => words,
        None => return Some("a request without what document 02 asks for"),
    };
    let [before_time, last] = [&by_rule.before_time[..], &by_rule.last].map(|words| words.iter().map(Vec::as_slice));
    let wanted: Vec<&[u8]> = before_time.chain(rust.iter().copied()).chain(last).collect();
    let unequal = (0..BEHIND.len()).find(|place| wanted.get(*place) != ours.get(*place));
    match unequal {
        Some(place) => Some(BEHIND[place]),
        None if ours.len() > BEHIND.len() => Some("a word too many"),
        None => None,
    }
}

/// Judges the port's answer beside a record of the oracle's, which `accepted` names where the port has refused.
fn judge_record(request: &[u8], oracle: &[&[u8]], ours: &[u8], accepted: &'static str) -> Judgement {
    let ours = words(ours);
    let (fields, rust_behind) = match oracle.iter().position(|word| word.starts_with(b"time=")) {
        Some(time) if oracle.len() == time + 3 => oracle.split_at(time),
        _ => return Different("no time, addressee and identifier of the Rust").into(),
    };
    if ours.len() < fields.len() {
        return Different(accepted).into();
    }
    let (ours, behind) = ours.split_at(fields.len());
    if let Some(fault) = fault_behind(request, fields[1], rust_behind, behind) {
        return Different(fault).into();
    }
    let mut rewritten = Vec::new();
    for (oracle, ours) in fields.iter().zip(ours) {
        let name = WRITTEN_FIELDS.iter().find(|name| oracle.starts_with(name) && ours.starts_with(name));
        match name {
            None if oracle == ours => {}
            None => return Different("a field").into(),
            Some(name) => match judge_rewritten(&oracle[name.len()..], &ours[name.len()..]) {
                Ok(result) => rewritten.push(result),
                Err(what) => return Different(what).into(),
            },
        }
    }
    let listed = rewritten.iter().find_map(|result| match result {
        Rewritten::Marked(mark) if mark.is_listed_difference() => Some(*mark),
        _ => None,
    });
    Judgement {
        verdict: listed.map_or(Accepted, Listed),
        rewritten,
    }
}

/// Judges the port's answer to an input with a packet inside it: the oracle's number, or the oracle's record word by word.
fn judge_inner(request: &[u8], oracle: &[&[u8]], ours: &[u8]) -> Verdict {
    let ours = words(ours);
    let time = match (oracle, oracle.iter().position(|word| word.starts_with(b"time="))) {
        ([b"panic", ..], _) => return Different("no answer of the Rust"),
        ([_], _) if ours == oracle => return Inner,
        ([_], _) => return Different("the number of a packet inside a packet"),
        (_, Some(time)) if ours.len() >= time => time,
        _ => return Different("a packet inside a packet that document 02 accepts"),
    };
    let ((fields, behind), (our_fields, our_behind)) = (oracle.split_at(time), ours.split_at(time));
    match fault_behind(request, fields[1], behind, our_behind) {
        Some(fault) => Different(fault),
        None if fields == our_fields => Inner,
        None => Different("a field of a packet inside a packet"),
    }
}

/// What is wrong with a number beside a refusal of the Rust, where the header meets every limit: a time that is missing or bad decides it,
/// or a malformed message or status, and nothing else is 17 or 18; nor is anything 6.
fn fault_of_number(request: &[u8], rust: &[u8], ours: u32) -> Option<&'static str> {
    let (input, form) = input_of(request)?;
    let decided = rules::decided_by_body(&input, form, refusal(rust, is_of_reading)?);
    match decided {
        Some(number) if number == ours => None,
        Some(MALFORMED) => Some("the number of a malformed message or status"),
        Some(_) => Some("the number, where a time decides it"),
        None if ours == NO_Q_ELEMENT => Some("6, where every hop is a callsign or a name of the ten"),
        None if ours == BAD_TIME => Some("17, where no time decides"),
        None if ours == MALFORMED => Some("18, where neither message nor status is malformed"),
        None => None,
    }
}

/// A record that was found equal, counted as what its mark says.
fn counted_as(verdict: Verdict, judgement: Judgement) -> Judgement {
    match judgement.verdict {
        Accepted => Judgement { verdict, ..judgement },
        _ => judgement,
    }
}

fn judge_reading(request: &[u8], oracle: &[u8], ours: &[u8]) -> Judgement {
    let refused = refusal(ours, is_of_reading);
    let demanded = |is_met: bool, verdict: Verdict, otherwise: &'static str| {
        if is_met {
            Judgement::from(verdict)
        } else {
            Different(otherwise).into()
        }
    };
    let refused_too = |rust: &[u8], verdict: Verdict, otherwise: &'static str| match refused {
        Some(number) => fault_of_number(request, rust, number).map_or(verdict, Different).into(),
        None => Different(otherwise).into(),
    };
    match words(oracle).as_slice() {
        record @ [b"0", _, ..] => judge_record(request, record, ours, "accepted by the Rust"),
        [b"inner", inner @ ..] => judge_inner(request, inner, ours).into(),
        [b"outside", mark, _, record @ ..] if !record.is_empty() => match Mark::named(mark) {
            Some(mark) => counted_as(mark_or_outside(mark), judge_record(request, record, ours, "accepted by document 02")),
            None => Different("an unknown mark").into(),
        },
        [b"shim", _, record @ ..] if !record.is_empty() => {
            counted_as(OnShim, judge_record(request, record, ours, "accepted by the shim and by document 02"))
        }
        [b"outside", mark, b"0"] => match Mark::named(mark) {
            Some(mark) => demanded(
                refused.is_some() && refused == mark.number_read(),
                mark_or_outside(mark),
                "the documents name the number",
            ),
            None => Different("an unknown mark").into(),
        },
        [b"outside", mark, number] => match Mark::named(mark) {
            Some(mark) if mark.is_of_body() => refused_too(number, Outside(mark), "refused by the Rust and by the documents"),
            Some(mark) => demanded(refused.is_some(), Outside(mark), "refused by the Rust and by document 01"),
            None => Different("an unknown mark").into(),
        },
        [b"shim", number] => refused_too(number, OnShim, "refused by the shim and by the documents"),
        [number] if refusal(number, is_of_reading).is_some() => refused_too(number, Refused, "refused by the Rust"),
        _ => Different("no answer of the Rust").into(),
    }
}

fn untouched(number: u32, room: usize) -> Vec<u8> {
    let buffer = if room == 0 { "-".to_string() } else { "aa".repeat(room) };
    format!("{} 0 0 {}", number, buffer).into_bytes()
}

fn judge_writing(request: &[u8], oracle: &[u8], ours: &[u8]) -> Verdict {
    let room = words(request).get(2).and_then(|room| from_decimal(room)).unwrap_or(0) as usize;
    match words(oracle).as_slice() {
        [b"outside", mark] => match Mark::named(mark) {
            Some(mark) if ours != untouched(mark.number_written(), room) => Different("the documents name the number"),
            Some(Mark::ThirdParty) => Inner,
            Some(mark) => mark_or_outside(mark),
            None => Different("an unknown mark"),
        },
        [b"0", ..] if oracle == ours => Accepted,
        [b"0", ..] => Different("written bytes"),
        [b"16", ..] if oracle == ours => Refused,
        [b"16", ..] => Different("room and bytes needed"),
        [number, ..] if refusal(number, is_of_writing).is_some() => {
            let number = words(ours).first().and_then(|number| refusal(number, is_of_writing));
            match number {
                Some(MALFORMED) => Different("18, where nothing handed over is malformed"),
                Some(number) if ours == untouched(number, room) => Refused,
                _ => Different("refused by the Rust"),
            }
        }
        _ => Different("no answer of the Rust"),
    }
}

/// The last words of an answer to B, which are the page box.
fn page_words(request: &[u8]) -> Option<String> {
    match words(request).as_slice() {
        [_, angle, blanks, limit, side @ ..] => {
            let (angle, limit) = (from_decimal(angle)?, Limit::named(limit)?);
            let blanks = usize::try_from(from_decimal(blanks)?).ok()?;
            Some(rules::page_words(limit, angle, blanks, rules::side(limit, angle, side)?))
        }
        _ => None,
    }
}

fn judge_bounds(request: &[u8], oracle: &[u8], ours: &[u8]) -> Verdict {
    let page = match page_words(request) {
        Some(page) => format!(" {}", page),
        None => return Different("a request that names no angle"),
    };
    let bounds = match ours.strip_suffix(page.as_bytes()) {
        Some(bounds) => bounds,
        None => return Different("the page box"),
    };
    let out_of_range = format!("15 {:016x} {:016x}", 0, 0);
    match words(oracle).as_slice() {
        [b"outside", b"range"] if bounds == out_of_range.as_bytes() => Outside(Mark::Range),
        [b"outside", ..] => Different("document 01 names the number and bounds"),
        [b"0", _, _] if bounds == oracle => Accepted,
        [b"0", _, _] => Different("the bounds"),
        _ => Different("no answer of the Rust"),
    }
}

/// Judges the port's answer to ST or SF beside its answer to the same T or F, which was asked just before: the usual one word for word, or
/// the number of what is refused strictly alone.
pub fn judge_strictly(request: &[u8], [asked_before, usual]: [&[u8]; 2], ours: &[u8]) -> Result<Option<Refusal>, &'static str> {
    let same = request.strip_prefix(b"S").filter(|same| *same == asked_before);
    let (input, form) = same.and_then(input_of).ok_or("a strict request without the usual one before it")?;
    let refusal = first_number(usual).and_then(|usual| strict::refusal(&input, form, usual));
    let is_met = match &refusal {
        Some(refusal) => ours == refusal.number.to_string().as_bytes(),
        None => ours == usual,
    };
    match refusal {
        refusal if is_met => Ok(refusal),
        None => Err("another answer than usually, where nothing is refused strictly"),
        Some(Refusal { number: strict::TABLE, .. }) => Err("a table byte, strictly"),
        Some(Refusal { number: strict::LATITUDE, .. }) => Err("the minutes of a latitude, strictly"),
        Some(Refusal { number: strict::LONGITUDE, .. }) => Err("the minutes of a longitude, strictly"),
        Some(_) => Err("the minutes of a destination, strictly"),
    }
}

pub fn judge(request: &[u8], oracle: &[u8], ours: &[u8]) -> Judgement {
    match request.first() {
        Some(b'T' | b'F') => judge_reading(request, oracle, ours),
        Some(b'W') => judge_writing(request, oracle, ours).into(),
        Some(b'B') => judge_bounds(request, oracle, ours).into(),
        _ => Different("a request the oracle does not know").into(),
    }
}
