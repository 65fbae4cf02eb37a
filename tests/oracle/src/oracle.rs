// The unchanged Rust crate as judge: answers requests of INSPECT.md (T, F, W, B), one a line, one answer a line. To ST and SF, for which it has
// nothing, it answers `none`.
// Answers outside document 01's domain of equality, and listed differences, are marked. With --plain each mark gives way
// to the documents' number, and what the Rust does not have is added by document 02's rules, so that the program can stand
// in for the port when the comparison itself is tested.

mod bounds;
mod fields;
mod headers;
mod inside;
mod pieces;
mod reading;
mod record;
mod request;
mod writing;

use std::io::{self, BufReader, BufWriter, Write};
use std::panic::{self, AssertUnwindSafe};

use protocol::{first_number, from_hex, next_line, strict, words, Form};

const LONGEST_REQUEST: usize = 4096;

#[derive(Clone, Copy, PartialEq, Eq)]
pub enum Style {
    Marked,
    Plain,
}

/// Runs a piece of the crate; a panic there becomes its message.
pub fn caught<T>(run: impl FnOnce() -> T) -> Result<T, String> {
    panic::catch_unwind(AssertUnwindSafe(run)).map_err(|payload| {
        let message = payload
            .downcast_ref::<String>()
            .map(String::as_str)
            .or_else(|| payload.downcast_ref::<&str>().copied())
            .unwrap_or("without a message");
        message.replace('\n', " ")
    })
}

/// ST and SF: `none`; in the port's place the usual answer, or the number that document 02 has for it.
fn answer_strictly(input: &[u8], form: Form, style: Style, out: &mut Vec<u8>) -> Option<()> {
    let bytes = from_hex(input)?;
    if style == Style::Marked {
        out.extend_from_slice(b"none");
        return Some(());
    }
    reading::answer(input, form, style, out)?;
    if let Some(refusal) = first_number(out).and_then(|usual| strict::refusal(&bytes, form, usual)) {
        *out = refusal.number.to_string().into_bytes();
    }
    Some(())
}

fn answer(request: &[u8], style: Style, out: &mut Vec<u8>) {
    let request_words = words(request);
    let answered = match request_words.as_slice() {
        _ if request.len() > LONGEST_REQUEST => None,
        [b"T", input] => reading::answer(input, Form::Text, style, out),
        [b"F", input] => reading::answer(input, Form::Frame, style, out),
        [b"ST", input] => answer_strictly(input, Form::Text, style, out),
        [b"SF", input] => answer_strictly(input, Form::Frame, style, out),
        [b"W", rest @ ..] => writing::answer(rest, style, out),
        [b"B", angle, blanks, limit, side @ ..] => bounds::answer(angle, blanks, limit, side, style, out),
        _ => None,
    };
    if answered.is_none() {
        out.extend_from_slice(b"bad request");
    }
    out.push(b'\n');
}

fn answer_all(style: Style) -> io::Result<()> {
    let mut requests = BufReader::with_capacity(1 << 20, io::stdin());
    let mut answers = BufWriter::with_capacity(1 << 20, io::stdout());
    let (mut request, mut line) = (Vec::new(), Vec::new());
    while next_line(&mut requests, &mut request)? {
        line.clear();
        answer(&request, style, &mut line);
        answers.write_all(&line)?;
    }
    answers.flush()
}

fn main() {
    let arguments: Vec<String> = std::env::args().skip(1).collect();
    let style = match arguments.iter().map(String::as_str).collect::<Vec<_>>().as_slice() {
        [] => Style::Marked,
        ["--plain"] => Style::Plain,
        _ => {
            eprintln!("usage: oracle [--plain] <requests >answers");
            std::process::exit(2);
        }
    };
    panic::set_hook(Box::new(|_| {}));
    if let Err(fault) = answer_all(style) {
        eprintln!("oracle: {}", fault);
        std::process::exit(1);
    }
}
