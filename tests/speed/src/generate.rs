// Writes a made-up capture: a file of lines, and beside it a file that says of each line what it is.
// The same seed gives the same bytes on every machine.

mod lines;
#[path = "../../oracle/src/random.rs"]
#[allow(dead_code)]
mod random;

use lines::Make;
use random::Random;
use std::io::{self, Write};

/// A kind of line: its name, its mark, its maker, and how many of 200,000 lines are of it.
/// The mark is P, M or U for an accepted kind, else document 01's number of the refusal.
type Kind = (&'static str, &'static str, Make, usize);

const WHOLE: usize = 200_000;

const KINDS: [Kind; 17] = [
    ("position", "P", lines::position, 100_000),
    ("mic-e", "M", lines::mic_e, 50_000),
    ("unknown", "U", lines::unknown, 20_000),
    ("long line", "1", lines::long_line, 200),
    ("no colon", "2", lines::no_colon, 3_000),
    ("no arrow", "2", lines::no_arrow, 2_000),
    ("bad source", "3", lines::bad_source, 4_000),
    ("bad hop", "3", lines::bad_hop, 2_000),
    ("long callsign", "4", lines::long_callsign, 300),
    ("ninth hop", "5", lines::ninth_hop, 500),
    ("Q element", "P", lines::q_element, 1_500),
    ("not carried", "7", lines::not_carried, 1_500),
    ("bad latitude", "8", lines::bad_latitude, 4_000),
    ("bad longitude", "9", lines::bad_longitude, 3_000),
    ("short position", "10", lines::short_position, 4_000),
    ("bad destination", "11", lines::bad_destination, 2_000),
    ("short information", "12", lines::short_information, 2_000),
];

fn shuffled_kinds(random: &mut Random, count: usize) -> Vec<usize> {
    let mut order = Vec::with_capacity(count);
    for (at, (_, _, _, share)) in KINDS.iter().enumerate() {
        order.extend(std::iter::repeat(at).take(share * count / WHOLE));
    }
    order.resize(count, 0);
    for last in (1..count).rev() {
        order.swap(last, random.below(last + 1));
    }
    order
}

fn write_all(seed: u64, count: usize, path: &str) -> io::Result<Vec<usize>> {
    let mut random = Random::new(seed, "bench");
    let order = shuffled_kinds(&mut random, count);
    let mut capture = io::BufWriter::new(std::fs::File::create(path)?);
    let mut marks = io::BufWriter::new(std::fs::File::create(format!("{path}.kinds"))?);
    let mut counts = vec![0; KINDS.len()];
    for at in order {
        let (_, mark, make, _) = KINDS[at];
        let line = make(&mut random);
        assert!(!line.contains(&b'\n'), "a line holds no line feed");
        capture.write_all(&line)?;
        capture.write_all(b"\n")?;
        writeln!(marks, "{mark}")?;
        counts[at] += 1;
    }
    capture.flush()?;
    marks.flush()?;
    Ok(counts)
}

fn print(seed: u64, counts: &[usize]) {
    println!("seed {seed}, {} lines", counts.iter().sum::<usize>());
    for ((name, mark, _, _), count) in KINDS.iter().zip(counts) {
        let answer = if mark.parse::<u8>().is_ok() {
            mark
        } else {
            "0"
        };
        println!("{name:<18} answer {answer:>2} {count:>7}");
    }
}

fn main() {
    let words: Vec<String> = std::env::args().skip(1).collect();
    let parsed = match words.as_slice() {
        [seed, count, path] => seed
            .parse()
            .ok()
            .zip(count.parse().ok())
            .map(|(seed, count)| (seed, count, path)),
        _ => None,
    };
    let (seed, count, path) = parsed.unwrap_or_else(|| {
        eprintln!("usage: generate SEED COUNT FILE");
        std::process::exit(1)
    });
    match write_all(seed, count, path) {
        Ok(counts) => print(seed, &counts),
        Err(error) => {
            eprintln!("generate: {path}: {error}");
            std::process::exit(1)
        }
    }
}
