// What `compare` counts beside its verdicts, of requests that it finds no difference in: Q elements; dropped zeros, times, messages and
// status lines; packets inside packets, which it counts there and among the Q elements alone; and strict answers, which it counts
// nowhere else.

use crate::judge::{Judgement, Rewritten, Verdict};
use protocol::third_party::FIFTH;
use protocol::strict::{Refusal, DESTINATION, LATITUDE, LONGITUDE, TABLE};
use protocol::{first_number, from_decimal, q_elements, words, BAD_TIME, MALFORMED, MOST_HOPS};

const ZERO_AT: [&str; 4] = ["anywhere", "source", "destination", "a hop"];
const TIMES: [&str; 5] = ["accepted, z", "accepted, /", "accepted, h", "refused: 17, or 15", "of these listed"];
/// The first four are read or written alike by both.
const SAID: [&str; 8] = [
    "message",
    "with an identifier",
    "status",
    "with a time",
    "listed, accepted",
    "on shim, or outside",
    "refused: 18",
    "of these listed",
];

/// Inputs and records with a Q element: where; of the outermost path how many there are, and which callsigns beside them are heard; and
/// below these those with each of the ten names.
const Q_AT: [&str; 8] = [
    "anywhere",
    "the outermost path",
    "the innermost path",
    "two or more",
    "all eight hops",
    "heard before one",
    "heard behind one",
    "heard on both sides",
];

/// What was read by number and by the innermost kind, what was refused, and records with a number to be written.
const INSIDE: [&str; 14] = [
    "1 inside",
    "2 inside",
    "3 inside",
    "4 inside",
    "innermost unknown",
    "innermost position",
    "innermost mic-e",
    "innermost message",
    "innermost status",
    "refused for a header",
    "refused for a body",
    "refused for a fifth",
    "to be written: 14",
    "to be written: 15",
];
/// Strict answers: the usual record by its kind, the usual refusal, or a refusal that is strict alone; of these last also where they stand
/// and whether the usual entry refuses too.
const STRICTLY: [&str; 12] = [
    "position",
    "position with a time",
    "mic-e",
    "another kind",
    "refused as usually",
    "8: latitude",
    "9: longitude",
    "11: destination",
    "20: table byte",
    "of 8 to 20 with a time",
    "of 8 to 20 inside",
    "of 8 to 20 from 9 or 12",
];
const KINDS: [&[u8]; 5] = [b"unknown", b"position", b"mic-e", b"message", b"status"];

/// Columns are reading and writing; of Q elements, messages and status lines reading, text and frame written again alike, and writing; of
/// packets inside packets and of strict answers text and frame.
#[derive(Default)]
pub struct Counts {
    q_elements: [[u64; 3]; Q_AT.len() + q_elements::NAMES.len()],
    zeros: [[u64; 2]; 4],
    times: [[u64; 2]; 5],
    said: [[u64; 3]; 8],
    inside: [[u64; 2]; 14],
    strictly: [[u64; 2]; 12],
}

/// The value of the word of this name, as `zeros=`, in a request or an answer; such words stand last.
fn value_of<'a>(line: &[&'a [u8]], name: &[u8]) -> Option<&'a [u8]> {
    line.iter().rev().find_map(|word| word.strip_prefix(name))
}

/// The hops of a word that lists them; a Q element is its bare name there.
fn hops_of(word: Option<&[u8]>) -> Vec<&[u8]> {
    word.map_or(Vec::new(), |word| word.split(|byte| *byte == b',').collect())
}

/// The rows of `Q_AT` that two paths meet.
fn q_rows(outermost: &[&[u8]], innermost: &[&[u8]]) -> [bool; Q_AT.len()] {
    let is_q = |hop: &&[u8]| q_elements::is_name(hop);
    let is_heard = |hop: &&[u8]| hop.ends_with(b"*");
    let heard_beside = |q: usize| (outermost[..q].iter().any(is_heard), outermost[q + 1..].iter().any(is_heard));
    let places: Vec<usize> = (0..outermost.len()).filter(|place| is_q(&outermost[*place])).collect();
    let beside: Vec<(bool, bool)> = places.iter().map(|place| heard_beside(*place)).collect();
    let is_inside = innermost.iter().any(is_q);
    [
        !places.is_empty() || is_inside,
        !places.is_empty(),
        is_inside,
        places.len() >= 2,
        places.len() == MOST_HOPS,
        beside.contains(&(true, false)),
        beside.contains(&(false, true)),
        beside.contains(&(true, true)),
    ]
}

fn is_listed_time(verdict: &Verdict) -> bool {
    matches!(verdict, Verdict::Listed(mark) if mark.is_listed_time() || mark.is_status_time())
}

impl Counts {
    pub fn note(&mut self, request: &[u8], ours: &[u8], judgement: &Judgement) {
        let (way, line) = match request[0] {
            b'T' | b'F' => (0, ours),
            b'W' => (1, request),
            _ => return,
        };
        let (line, answer) = (words(line), first_number(ours));
        let is_frame = request.starts_with(b"F") || request.starts_with(b"W frame");
        self.note_q_elements(way, &line, judgement);
        self.note_inside(way, usize::from(is_frame), &line, answer, &judgement.verdict);
        if judgement.verdict == Verdict::Inner {
            return;
        }
        self.note_zeros(way, &line);
        self.note_time(way, &line, answer, &judgement.verdict);
        self.note_said(way, &line, answer, judgement);
    }

    /// Counts an input with Q elements that was read, and how often it was written again alike, or a record to be written that has some.
    fn note_q_elements(&mut self, way: usize, line: &[&[u8]], judgement: &Judgement) {
        let outermost = match way {
            0 => value_of(line, b"hops="),
            _ => line.get(8).copied(),
        };
        let outermost = hops_of(outermost);
        let innermost = hops_of(value_of(line, b"inner-hops="));
        let [anywhere, places @ ..] = q_rows(&outermost, &innermost);
        if !anywhere {
            return;
        }
        let has_name = q_elements::NAMES.map(|name| outermost.iter().chain(&innermost).any(|hop| *hop == name.as_bytes()));
        let rows = [anywhere].into_iter().chain(places).chain(has_name);
        let again = judgement.rewritten.iter().filter(|result| **result == Rewritten::Equal).count() as u64;
        for (row, _) in self.q_elements.iter_mut().zip(rows).filter(|(_, is_met)| *is_met) {
            row[[0, 2][way]] += 1;
            row[1] += again;
        }
    }

    /// Counts the places of dropped zeros in an answer that was read, or in a record to be written.
    fn note_zeros(&mut self, way: usize, line: &[&[u8]]) {
        if let Some([source, destination, hops @ ..]) = value_of(line, b"zeros=") {
            let found = [*source == b'1', *destination == b'1', hops.contains(&b'1')];
            let anywhere = found.contains(&true);
            for (row, found) in self.zeros.iter_mut().zip([anywhere].into_iter().chain(found)) {
                row[way] += u64::from(found);
            }
        }
    }

    /// Counts a time that was read or refused, or a record to be written that has one.
    fn note_time(&mut self, way: usize, line: &[&[u8]], answer: Option<u32>, verdict: &Verdict) {
        let refused = [BAD_TIME, 15][way];
        let letter = value_of(line, b"time=").and_then(<[u8]>::last);
        let form = letter.and_then(|letter| b"z/h".iter().position(|form| form == letter));
        match (answer, form) {
            (Some(0), Some(form)) => self.times[form][way] += 1,
            (Some(number), _) if number == refused && (way == 0 || form.is_some()) => {
                self.times[3][way] += 1;
                self.times[4][way] += u64::from(is_listed_time(verdict));
            }
            _ => {}
        }
    }

    /// Counts a message or a status that was read, refused, written again or to be written.
    fn note_said(&mut self, way: usize, line: &[&[u8]], answer: Option<u32>, judgement: &Judgement) {
        let column = [0, 2][way];
        let is_listed = matches!(judgement.verdict, Verdict::Listed(_));
        if answer == Some(MALFORMED) {
            self.said[6][column] += 1;
            self.said[7][column] += u64::from(is_listed);
        }
        let kind = line.get([1, 4][way]).copied().unwrap_or(b"");
        let (is_message, is_status) = (kind == b"message", kind == b"status");
        if answer != Some(0) || !(is_message || is_status) {
            return;
        }
        let has = |name: &[u8], none: &[u8]| value_of(line, name).map_or(false, |value| value != none);
        let has_id = has(b"id=", [&b"0+0"[..], b"-"][way]);
        let is_alike = judgement.verdict == Verdict::Accepted;
        let rows = [
            is_alike && is_message,
            is_alike && has_id,
            is_alike && is_status,
            is_alike && has(b"time=", b"-"),
            is_listed,
            !is_alike && !is_listed,
        ];
        let again = judgement.rewritten.iter().filter(|result| **result == Rewritten::Equal).count() as u64;
        for (row, _) in self.said.iter_mut().zip(rows).filter(|(_, is_met)| *is_met) {
            row[column] += 1;
            row[1] += again;
        }
    }

    /// Counts a packet inside a packet that was read or refused, or a record with a number to be written.
    fn note_inside(&mut self, way: usize, column: usize, line: &[&[u8]], answer: Option<u32>, verdict: &Verdict) {
        let number = value_of(line, b"inner=").and_then(from_decimal).unwrap_or(0);
        let is_read = way == 0 && *verdict == Verdict::Inner;
        let is_written = way == 1 && number > 0;
        let rows = match answer {
            Some(0) if is_read => {
                let kind = KINDS.iter().position(|kind| *kind == line[1]).expect("a kind");
                vec![number as usize - 1, 4 + kind]
            }
            Some(2..=6) if is_read => vec![9],
            Some(FIFTH) if is_read => vec![11],
            Some(_) if is_read => vec![10],
            Some(14) if is_written => vec![12],
            Some(15) if is_written => vec![13],
            _ => vec![],
        };
        rows.iter().for_each(|row| self.inside[*row][column] += 1);
    }

    /// Counts a strict answer that is as it should be, refused strictly alone or the usual one.
    pub fn note_strictly(&mut self, request: &[u8], usual: &[u8], refusal: Option<&Refusal>) {
        let usual = words(usual);
        let has_time = value_of(&usual, b"time=").map_or(false, |time| time != b"-");
        let rows = match refusal {
            Some(refusal) => {
                let number = [LATITUDE, LONGITUDE, DESTINATION, TABLE].iter().position(|number| *number == refusal.number);
                let row = 5 + number.expect("one of the four");
                [(row, true), (9, refusal.has_time), (10, refusal.is_inside), (11, usual[0] != b"0")]
                    .into_iter()
                    .filter_map(|(row, is_met)| is_met.then_some(row))
                    .collect()
            }
            None => match usual.get(1) {
                None => vec![4],
                Some(kind) if *kind == b"position" => vec![usize::from(has_time)],
                Some(kind) if *kind == b"mic-e" => vec![2],
                Some(_) => vec![3],
            },
        };
        let column = usize::from(request.starts_with(b"SF"));
        rows.iter().for_each(|row| self.strictly[*row][column] += 1);
    }

    pub fn print(&self) {
        let q_names: Vec<&str> = Q_AT.into_iter().chain(q_elements::NAMES).collect();
        print_table("Q element", &["reading", "again", "writing"], &q_names, &self.q_elements);
        print_table("dropped zero at", &["reading", "writing"], &ZERO_AT, &self.zeros);
        print_table("time", &["reading", "writing"], &TIMES, &self.times);
        print_table("message or status", &["reading", "again", "writing"], &SAID, &self.said);
        print_table("packet inside a packet", &["text", "frame"], &INSIDE, &self.inside);
        print_table("strictly", &["text", "frame"], &STRICTLY, &self.strictly);
    }
}

fn print_table<const COLUMNS: usize>(heading: &str, columns: &[&str; COLUMNS], names: &[&str], counts: &[[u64; COLUMNS]]) {
    print!("\n{:<24}", heading);
    columns.iter().for_each(|name| print!("{:>10}", name));
    println!();
    for (name, counts) in names.iter().zip(counts) {
        print!("{:<24}", name);
        counts.iter().for_each(|count| print!("{:>10}", count));
        println!();
    }
}
