// Compares the answers of the port with the oracle's, line by line, and prints tables: by kind of request, by the
// port's number, by mark, by the place of a Q element and of a dropped zero, by what became of a time, a message or a status, of a packet
// inside a packet, and of what was asked strictly. Fails on a difference that is on no list, on unequal counts, and on a kind that
// compared nothing. Of two refusals only the fact counts, but where a time, a message, a status or an inner packet decides; pairs of
// unequal numbers are told at the end and fail nothing. A strict answer is held to the port's own answer to the same as usually asked.

mod counts;
mod judge;

use std::collections::BTreeMap;
use std::fs::File;
use std::io::{self, BufReader};

use counts::Counts;
use judge::{judge, judge_strictly, Judgement, Rewritten, Verdict};
use protocol::{first_number, next_line};

const MOST_SHOWN: u64 = 20;
const COLUMNS: [&str; 7] = ["accepted", "refused", "on shim", "outside", "listed", "inner", "different"];
const WAYS: [(&str, &[u8]); 4] = [("reading", b"TF"), ("writing", b"W"), ("bounds", b"B"), ("strictly", b"S")];

/// `lines` are all of the kind's requests; those asked strictly are counted apart from those that the oracle judges.
struct Kind {
    name: String,
    lines: u64,
    counts: [u64; 7],
    strictly: u64,
}

#[derive(Default)]
struct Tally {
    kinds: Vec<Kind>,
    by_number: BTreeMap<u32, [u64; 4]>,
    by_mark: BTreeMap<&'static str, [u64; 2]>,
    rewritten: BTreeMap<&'static str, u64>,
    counts: Counts,
    unequal_refusals: BTreeMap<(u32, u32), u64>,
    faults: Vec<String>,
    differences: u64,
}

fn column(verdict: &Verdict) -> usize {
    match verdict {
        Verdict::Accepted => 0,
        Verdict::Refused => 1,
        Verdict::OnShim => 2,
        Verdict::Outside(_) => 3,
        Verdict::Listed(_) => 4,
        Verdict::Inner => 5,
        Verdict::Different(_) => 6,
    }
}

impl Tally {
    fn note_number(&mut self, request: &[u8], ours: &[u8]) {
        let way = WAYS.iter().position(|(_, letters)| letters.contains(&request[0]));
        if let (Some(number), Some(way)) = (first_number(ours), way) {
            self.by_number.entry(number).or_default()[way] += 1;
        }
    }

    fn note(&mut self, kind: usize, [request, oracle, ours]: [&[u8]; 3], judgement: &Judgement) {
        self.kinds[kind].counts[column(&judgement.verdict)] += 1;
        self.note_number(request, ours);
        if let (Verdict::Refused, Some(number), Some(refusal)) = (&judgement.verdict, first_number(ours), first_number(oracle)) {
            if refusal != number {
                *self.unequal_refusals.entry((refusal, number)).or_default() += 1;
            }
        }
        if let Verdict::Outside(mark) = judgement.verdict {
            self.by_mark.entry(mark.name()).or_default()[0] += 1;
        } else if let Verdict::Listed(mark) = judgement.verdict {
            self.by_mark.entry(mark.name()).or_default()[1] += 1;
        }
        for result in &judgement.rewritten {
            let name = match result {
                Rewritten::Equal => "equal bytes",
                Rewritten::Refused => "refused by both",
                Rewritten::Marked(mark) => mark.name(),
            };
            *self.rewritten.entry(name).or_default() += 1;
        }
    }

    /// Judges one request, or, where it is a strict one, holds its answer to the usual one; `before` are the lines of the request before it.
    fn hold(&mut self, kind: usize, line: u64, lines: &Lines, before: &Lines) {
        let [request, oracle, ours] = [&lines[0][..], &lines[1], &lines[2]];
        if request.starts_with(b"S") {
            return self.hold_strictly(kind, line, [request, &before[2], ours], &before[0]);
        }
        let judgement = judge(request, oracle, ours);
        self.note(kind, [request, oracle, ours], &judgement);
        match judgement.verdict {
            Verdict::Different(what) => self.show_difference(kind, line, what, "oracle ", [request, oracle, ours]),
            _ => self.counts.note(request, ours, &judgement),
        }
    }

    fn hold_strictly(&mut self, kind: usize, line: u64, [request, usual, ours]: [&[u8]; 3], asked_before: &[u8]) {
        self.note_number(request, ours);
        match judge_strictly(request, [asked_before, usual], ours) {
            Ok(refusal) => {
                self.kinds[kind].strictly += 1;
                self.counts.note_strictly(request, usual, refusal.as_ref());
            }
            Err(what) => self.show_difference(kind, line, what, "usually", [request, usual, ours]),
        }
    }

    fn show_difference(&mut self, kind: usize, line: u64, what: &str, judge: &str, lines: [&[u8]; 3]) {
        self.differences += 1;
        if self.differences > MOST_SHOWN {
            return;
        }
        println!("difference {}: {} (kind {}, line {})", self.differences, what, self.kinds[kind].name, line);
        for (name, line) in ["request", judge, "port   "].iter().zip(lines) {
            println!("  {} {}", name, String::from_utf8_lossy(line));
        }
    }

    fn look_for_idle_kinds(&mut self) {
        for kind in &self.kinds {
            let [accepted, refused, _, _, listed, inner, different] = kind.counts;
            if accepted + refused + listed + inner + different == 0 {
                self.faults.push(format!("kind {} compared nothing", kind.name));
            }
        }
    }
}

/// A request and the answers of the oracle and the port.
type Lines = [Vec<u8>; 3];

fn read_index(path: &str) -> io::Result<Vec<Kind>> {
    let malformed = || io::Error::new(io::ErrorKind::InvalidData, "malformed index");
    let mut kinds = Vec::new();
    for line in std::fs::read_to_string(path)?.lines() {
        let (name, lines) = line.split_once(' ').ok_or_else(malformed)?;
        kinds.push(Kind {
            name: name.to_string(),
            lines: lines.parse().map_err(|_| malformed())?,
            counts: [0; 7],
            strictly: 0,
        });
    }
    Ok(kinds)
}

fn open(path: &str) -> io::Result<BufReader<File>> {
    Ok(BufReader::with_capacity(1 << 20, File::open(path)?))
}

fn compare(requests: &str, index: &str, oracle: &str, ours: &str) -> io::Result<Tally> {
    let mut tally = Tally {
        kinds: read_index(index)?,
        ..Tally::default()
    };
    let mut inputs = [open(requests)?, open(oracle)?, open(ours)?];
    let (mut lines, mut before) = (Lines::default(), Lines::default());
    let mut line = 0;
    for kind in 0..tally.kinds.len() {
        for _ in 0..tally.kinds[kind].lines {
            line += 1;
            std::mem::swap(&mut lines, &mut before);
            for ((input, text), name) in inputs.iter_mut().zip(&mut lines).zip(["request", "oracle", "port"]) {
                if !next_line(input, text)? {
                    tally.faults.push(format!("no line {} of {}", line, name));
                }
            }
            if !tally.faults.is_empty() {
                return Ok(tally);
            }
            tally.hold(kind, line, &lines, &before);
        }
    }
    for ((input, text), name) in inputs.iter_mut().zip(&mut lines).zip(["requests", "oracle", "port"]) {
        if next_line(input, text)? {
            tally.faults.push(format!("{}: more than the {} lines of the index", name, line));
        }
    }
    tally.look_for_idle_kinds();
    Ok(tally)
}

fn print_kind(kind: &Kind) {
    print!("{:<24}{:>10}", kind.name, kind.counts.iter().sum::<u64>());
    kind.counts.iter().chain(&[kind.strictly]).for_each(|count| print!("{:>10}", count));
    println!();
}

fn print_kinds(kinds: &[Kind]) {
    print!("{:<24}{:>10}", "kind", "requests");
    COLUMNS.iter().chain(&["strictly"]).for_each(|name| print!("{:>10}", name));
    println!();
    let mut all = Kind { name: "all".to_string(), lines: 0, counts: [0; 7], strictly: 0 };
    for kind in kinds {
        print_kind(kind);
        all.counts.iter_mut().zip(kind.counts).for_each(|(all, count)| *all += count);
        all.strictly += kind.strictly;
    }
    print_kind(&all);
}

fn print_numbers(by_number: &BTreeMap<u32, [u64; 4]>) {
    print!("\n{:<24}", "number of the port");
    WAYS.iter().for_each(|(name, _)| print!("{:>10}", name));
    println!();
    for (number, counts) in by_number {
        print!("{:<24}", number);
        counts.iter().for_each(|count| print!("{:>10}", count));
        println!();
    }
}

fn print_marks(tally: &Tally) {
    println!("\n{:<24}{:>10}{:>10}", "mark", "outside", "listed");
    for (mark, [outside, listed]) in &tally.by_mark {
        println!("{:<24}{:>10}{:>10}", mark, outside, listed);
    }
    println!("\n{:<24}{:>10}", "rewritten text, frame", "fields");
    for (name, count) in &tally.rewritten {
        println!("{:<24}{:>10}", name, count);
    }
    if !tally.unequal_refusals.is_empty() {
        println!("\n{:<24}{:>10}", "refused by both as", "requests");
    }
    for ((oracle, ours), count) in &tally.unequal_refusals {
        println!("{:<24}{:>10}", format!("oracle {}, port {}", oracle, ours), count);
    }
}

fn main() {
    let arguments: Vec<String> = std::env::args().skip(1).collect();
    let result = match arguments.as_slice() {
        [requests, index, oracle, ours] => compare(requests, index, oracle, ours),
        _ => {
            eprintln!("usage: compare REQUESTS INDEX ORACLE-ANSWERS PORT-ANSWERS");
            std::process::exit(2);
        }
    };
    let tally = result.unwrap_or_else(|fault| {
        eprintln!("compare: {}", fault);
        std::process::exit(1);
    });
    print_kinds(&tally.kinds);
    print_numbers(&tally.by_number);
    print_marks(&tally);
    tally.counts.print();
    println!();
    tally.faults.iter().for_each(|fault| println!("compare: {}", fault));
    if tally.differences > 0 || !tally.faults.is_empty() {
        println!("compare: {} differences on no list, {} other faults", tally.differences, tally.faults.len());
        std::process::exit(1);
    }
    println!("compare: no difference that is on no list");
}
