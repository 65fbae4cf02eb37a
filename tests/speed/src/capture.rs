// The lines in memory, what each is meant to be, and whether both sides take them so.

use crate::{ours, rust, ROOM};

#[derive(Clone, Copy, Debug, PartialEq)]
pub enum Class {
    Position,
    MicE,
    Unknown,
    Refused(u8),
}

pub struct Capture {
    bytes: Vec<u8>,
    classes: Vec<Class>,
}

fn class_of(mark: &str) -> Result<Class, String> {
    match mark {
        "P" => Ok(Class::Position),
        "M" => Ok(Class::MicE),
        "U" => Ok(Class::Unknown),
        _ => mark
            .parse()
            .map(Class::Refused)
            .map_err(|_| format!("no kind {mark}")),
    }
}

impl Capture {
    pub fn load(path: &str) -> Result<Capture, String> {
        let told = |error: std::io::Error| format!("{path}: {error}");
        let bytes = std::fs::read(path).map_err(told)?;
        let marks = std::fs::read_to_string(format!("{path}.kinds")).map_err(told)?;
        let classes = marks.lines().map(class_of).collect::<Result<Vec<_>, _>>()?;
        let capture = Capture { bytes, classes };
        if capture.lines().count() == capture.classes.len() {
            Ok(capture)
        } else {
            Err(format!(
                "{path} and {path}.kinds differ in their number of lines"
            ))
        }
    }

    fn lines(&self) -> impl Iterator<Item = &[u8]> {
        self.bytes
            .split_inclusive(|byte| *byte == b'\n')
            .map(|line| &line[..line.len() - 1])
    }

    pub fn chosen(&self, choice: impl Fn(Class) -> bool) -> Vec<&[u8]> {
        self.lines()
            .zip(&self.classes)
            .filter(|(_, class)| choice(**class))
            .map(|(line, _)| line)
            .collect()
    }
}

/// Whether the Rust takes the line as meant. What it does with 1, 4, 5, 6 and 7 is its own affair.
fn rust_agrees(line: &[u8], meant: Class) -> bool {
    match meant {
        Class::Refused(1 | 4 | 5 | 6 | 7) => true,
        Class::Refused(_) => rust::class(line) == Some(Class::Refused(0)),
        _ => rust::class(line) == Some(meant),
    }
}

/// Whether ours takes the line as meant and writes an accepted one as the Rust does.
fn ours_agrees(line: &[u8], meant: Class) -> bool {
    let (mut theirs, mut out) = (Vec::new(), [0xaa; ROOM]);
    match meant {
        _ if !ours::PRESENT => true,
        Class::Position | Class::MicE => {
            let length = ours::read_and_write(line, &mut out);
            rust::read_and_write(line, &mut theirs);
            ours::class(line) == meant && out[..length] == theirs[..]
        }
        _ => ours::class(line) == meant,
    }
}

pub fn check(capture: &Capture) -> Result<(), String> {
    for (at, (line, class)) in capture.lines().zip(&capture.classes).enumerate() {
        for (side, agrees) in [
            ("the Rust", rust_agrees(line, *class)),
            ("ours", ours_agrees(line, *class)),
        ] {
            if !agrees {
                let text = String::from_utf8_lossy(line);
                return Err(format!(
                    "line {}: {side} does not take it as {class:?}: {text}",
                    at + 1
                ));
            }
        }
    }
    let sides = if ours::PRESENT {
        "both sides take"
    } else {
        "the Rust takes"
    };
    println!(
        "checked: {sides} each of {} lines as meant",
        capture.classes.len()
    );
    Ok(())
}
