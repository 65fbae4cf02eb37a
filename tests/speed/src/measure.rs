// Times the reading, and the reading and writing, of lines by the Rust crate aprs-parser and by this
// library, in turns, in one run. Both are x86-64 and see the same lines in memory.
#![allow(unknown_lints, unexpected_cfgs)]

mod capture;
mod clock;
mod keep;
mod ours;
mod rust;
mod table;

use capture::{Capture, Class};
use clock::timed;
use std::time::Duration;
use table::Row;

#[derive(Clone, Copy, PartialEq)]
pub enum Task {
    Read,
    ReadAndWrite,
}

/// So many lines are timed at once; then the other side has its turn.
const TURN: usize = 1000;

/// The bytes that a writer's buffer holds: a line is at most 512.
pub const ROOM: usize = 512;

const TASKS: [(&str, Task); 2] = [("read", Task::Read), ("read and write", Task::ReadAndWrite)];

/// The buffers that the writers fill, made once.
struct Sides {
    vec: Vec<u8>,
    array: [u8; ROOM],
}

impl Sides {
    fn new() -> Sides {
        Sides {
            vec: Vec::with_capacity(2 * ROOM),
            array: [0xaa; ROOM],
        }
    }
}

/// One round: the time of the Rust and of ours.
fn round(task: Task, lines: &[&[u8]], sides: &mut Sides) -> [Duration; 2] {
    let mut sums = [Duration::ZERO; 2];
    for (turn, part) in lines.chunks(TURN).enumerate() {
        for at in [turn % 2, 1 - turn % 2] {
            let (time, written) = match at {
                0 => timed(|| rust::pass(task, part, &mut sides.vec)),
                _ => timed(|| ours::pass(task, part, &mut sides.array)),
            };
            keep::keep(&written);
            sums[at] += time;
        }
    }
    sums
}

fn measured(name: &str, task: Task, lines: &[&[u8]], rounds: usize) -> Row {
    let mut sides = Sides::new();
    round(task, lines, &mut sides);
    let mut row = Row::new(name, lines.len());
    for _ in 0..rounds {
        let [rust, ours] = round(task, lines, &mut sides);
        row.add(rust, ours);
    }
    row
}

fn groups(capture: &Capture) -> [(&'static str, Vec<&[u8]>); 4] {
    let others = |class: Class| !matches!(class, Class::Position | Class::MicE);
    [
        ("all", capture.chosen(|_| true)),
        (
            "positions",
            capture.chosen(|class| class == Class::Position),
        ),
        ("Mic-E", capture.chosen(|class| class == Class::MicE)),
        ("others", capture.chosen(others)),
    ]
}

fn print_table(capture: &Capture, rounds: usize) {
    let room = 2 * ROOM;
    println!("{rounds} rounds after one not counted; {TURN} lines of one side, then of the other, by turns");
    println!("buffers: the Rust writes into a Vec with room for {room} bytes, emptied for each line, never freed;");
    println!("         ours into {ROOM} bytes that hold what the line before left, at first all aa");
    if !ours::PRESENT {
        println!("ours: not linked, so the Rust alone is timed");
    }
    table::print_heading();
    for (task_name, task) in TASKS {
        for (group, lines) in groups(capture) {
            measured(&format!("{task_name}, {group}"), task, &lines, rounds).print();
        }
    }
}

/// So many passes over all lines by one side, for a tool that counts instructions.
fn passes(capture: &Capture, side: &str, task: &str, count: usize) -> Result<(), String> {
    let task = TASKS
        .iter()
        .find(|(name, _)| *name == task)
        .ok_or("no such task")?
        .1;
    let lines = capture.chosen(|_| true);
    let mut sides = Sides::new();
    for _ in 0..count {
        match side {
            "rust" => rust::pass(task, &lines, &mut sides.vec),
            "ours" if ours::PRESENT => ours::pass(task, &lines, &mut sides.array),
            _ => return Err(format!("no such side: {side}")),
        };
    }
    Ok(())
}

fn run(words: &[String]) -> Result<(), String> {
    let usage =
        "usage: measure FILE check | measure FILE rounds N | measure FILE passes SIDE TASK N";
    let (path, rest) = words.split_first().ok_or(usage)?;
    let capture = Capture::load(path)?;
    let rest: Vec<&str> = rest.iter().map(String::as_str).collect();
    let number = |text: &str| text.parse::<usize>().map_err(|_| usage.to_string());
    match rest.as_slice() {
        ["check"] => capture::check(&capture),
        ["rounds", count] => {
            print_table(&capture, number(count)?.max(1));
            Ok(())
        }
        ["passes", side, task, count] => passes(&capture, side, task, number(count)?),
        _ => Err(usage.to_string()),
    }
}

fn main() {
    let words: Vec<String> = std::env::args().skip(1).collect();
    if let Err(message) = run(&words) {
        eprintln!("measure: {message}");
        std::process::exit(1);
    }
}
