// Sets the callsigns, times and positions of a capture as a table, callsigns as they were typed, with the page's box of
// each position in half hundredths of a minute; in place of a position, whom a message is for, and what it or a status
// says. Of a packet with others inside it, that of the innermost, whose sender is named. The capture has a line a
// packet; it is the file that the last argument names. With --strict before it the lines are read strictly. One that is
// refused is told on standard error, and the status is then 1; it is 2 where no table was set.

use std::error::Error;
use std::process::ExitCode;
use tusselgro::{
    AprsData, AprsPacket, Callsign, Latitude, Longitude, Precision, Refusal, Timestamp, Via,
};

fn place(data: &AprsData<'_>) -> Option<(Latitude, Longitude, Precision)> {
    match data {
        AprsData::Position(at) => Some((at.latitude, at.longitude, at.precision)),
        AprsData::MicE(at) => Some((at.latitude, at.longitude, at.precision)),
        _ => None,
    }
}

fn time(data: &AprsData<'_>) -> Option<Timestamp> {
    match data {
        AprsData::Position(at) => at.timestamp,
        AprsData::Status(status) => status.timestamp,
        _ => None,
    }
}

/// What a message or a status says; a byte that does not print by its number.
fn words(data: &AprsData<'_>) -> Option<String> {
    match data {
        AprsData::Message(message) => {
            let id = message.id.map(|id| format!(" {{{}", id.escape_ascii()));
            let text = message.text.escape_ascii();
            Some(format!(
                "{}: {text}{}",
                message.addressee,
                id.unwrap_or_default()
            ))
        }
        AprsData::Status(status) => Some(status.comment.escape_ascii().to_string()),
        _ => None,
    }
}

fn row(packet: &AprsPacket<'_>) -> String {
    let from = packet.from.typed_text();
    let to = packet
        .to()
        .map_or_else(|| "-".to_string(), Callsign::typed_text);
    let heard = packet
        .via
        .iter()
        .filter(|via| matches!(via, Via::Callsign(_, true)));
    let heard = format!("{}/{}", heard.count(), packet.via.len());
    let inner = packet.inner().map(|inner| inner.from.typed_text());
    let inner = inner.unwrap_or_else(|| "-".to_string());
    let time = time(&packet.data).map_or_else(|| "-".to_string(), |time| time.to_string());
    let mut row = format!("{from:<10} {to:<10} {heard:<5} {inner:<10} {time:<7}");
    if let Some(words) = words(&packet.data) {
        row += &format!(" {words}");
    }
    if let Some((latitude, longitude, precision)) = place(&packet.data) {
        row += &format!(" {latitude} {longitude}");
        row += &format!(" {:9.5} {:10.5}", latitude.degrees(), longitude.degrees());
        for page in [latitude.page_box(precision), longitude.page_box(precision)] {
            row += &format!(" {}..{}", page.start(), page.end());
        }
    }
    row.trim_end().to_string()
}

/// The bytes of each line; a CR before the LF is dropped.
fn lines(capture: &[u8]) -> impl Iterator<Item = &[u8]> {
    let capture = capture.strip_suffix(b"\n").unwrap_or(capture);
    capture
        .split(|byte| *byte == b'\n')
        .map(|line| line.strip_suffix(b"\r").unwrap_or(line))
}

type Decoder<'a> = fn(&'a [u8]) -> Result<AprsPacket<'a>, Refusal>;

/// What reads a line, and the name of the capture.
fn asked<'a>() -> Result<(Decoder<'a>, String), &'static str> {
    let words: Vec<_> = std::env::args().skip(1).collect();
    match &words[..] {
        [name] => Ok((AprsPacket::decode_textual, name.clone())),
        [strict, name] if strict == "--strict" => {
            Ok((AprsPacket::decode_textual_strictly, name.clone()))
        }
        _ => Err("usage: table [--strict] CAPTURE"),
    }
}

fn table() -> Result<ExitCode, Box<dyn Error>> {
    let (decode, name) = asked()?;
    let capture = std::fs::read(&name).map_err(|error| format!("{name}: {error}"))?;
    let mut status = ExitCode::SUCCESS;
    println!(
        "from       to         heard inner      time    latitude longitude   degrees            page box"
    );
    for (number, line) in (1..).zip(lines(&capture)) {
        match decode(line) {
            Ok(packet) => println!("{}", row(&packet)),
            Err(refusal) => {
                eprintln!("{name}, line {number}: refusal {refusal}");
                status = ExitCode::FAILURE;
            }
        }
    }
    Ok(status)
}

fn main() -> ExitCode {
    table().unwrap_or_else(|error| {
        eprintln!("{error}");
        ExitCode::from(2)
    })
}
