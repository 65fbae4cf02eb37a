// Makes requests for the comparison, by kind, from a seed: random kinds as many as asked for, whole sets whole
// (or, when few are asked for, an even sample), an even sample of a large set. Behind a share of the lines and frames the same stands once
// more, to be read strictly. The same arguments give the same requests on every machine.

mod drawn;
mod inner_drawn;
mod inner_whole;
mod inner_written;
mod messages_drawn;
mod messages_whole;
mod messages_written;
mod packets;
mod q_drawn;
mod q_whole;
mod q_written;
mod random;
mod records;
mod strict_drawn;
mod strict_whole;
mod timed;
mod whole;

use std::io::{self, BufWriter, Write};

use protocol::push_hex;
use random::Random;

/// From this count on, whole sets are given whole.
const WHOLE_FROM: u64 = 10_000;
/// One in so many lines and frames is asked strictly too; of the kinds made for the strict entry each one is.
const STRICTLY_ONE_IN: usize = 16;

pub enum Request {
    Text(Vec<u8>),
    Frame(Vec<u8>),
    Line(String),
}

enum Maker {
    Drawn(fn(&mut Random) -> Request),
    Whole(fn(&mut dyn FnMut(Request))),
    /// As many of a set as are asked for; all of it if it has no more.
    Sampled(fn(&mut dyn FnMut(Request))),
}

use Maker::{Drawn, Sampled, Whole};

const KINDS: [(&str, Maker); 114] = [
    ("text-unknown", Drawn(drawn::text_unknown)),
    ("text-position", Drawn(drawn::text_position)),
    ("text-mic-e", Drawn(drawn::text_mic_e)),
    ("text-zeros", Drawn(drawn::text_zeros)),
    ("text-timed", Drawn(drawn::text_timed)),
    ("frame-unknown", Drawn(drawn::frame_unknown)),
    ("frame-position", Drawn(drawn::frame_position)),
    ("frame-mic-e", Drawn(drawn::frame_mic_e)),
    ("frame-timed", Drawn(drawn::frame_timed)),
    ("text-every-byte", Whole(whole::text_every_byte)),
    ("frame-every-byte", Whole(whole::frame_every_byte)),
    ("motion-pairs", Whole(whole::motion_pairs)),
    ("motion-speeds", Whole(whole::motion_speeds)),
    ("mic-e-longitudes", Whole(whole::mic_e_longitudes)),
    ("mic-e-limits", Whole(whole::mic_e_limits)),
    ("destination-every-byte", Whole(whole::destination_every_byte)),
    ("destination-blanks", Whole(whole::destination_blanks)),
    ("destination-classes", Drawn(drawn::destination_classes)),
    ("latitudes", Whole(whole::latitudes)),
    ("longitudes", Whole(whole::longitudes)),
    ("degrees", Whole(whole::degrees)),
    ("blanks", Whole(whole::blanks)),
    ("lengths-near-512", Whole(whole::lengths_near_512)),
    ("cut", Whole(whole::cut)),
    ("position-first-bytes", Whole(whole::position_first_bytes)),
    ("symbols", Whole(whole::symbols)),
    ("letters", Whole(whole::letters)),
    ("times", Whole(timed::times)),
    ("all-times", Sampled(timed::all_times)),
    ("time-bytes", Whole(timed::time_bytes)),
    ("timed-cut", Whole(timed::timed_cut)),
    ("timed-first-bytes", Whole(timed::timed_first_bytes)),
    ("timed-positions", Whole(timed::timed_positions)),
    ("text-message", Drawn(messages_drawn::text_message)),
    ("text-status", Drawn(messages_drawn::text_status)),
    ("frame-message", Drawn(messages_drawn::frame_message)),
    ("frame-status", Drawn(messages_drawn::frame_status)),
    ("message-bytes", Whole(messages_whole::message_bytes)),
    ("message-shapes", Whole(messages_whole::message_shapes)),
    ("addressees", Whole(messages_whole::addressees)),
    ("message-cut", Whole(messages_whole::message_cut)),
    ("message-lengths", Whole(messages_whole::message_lengths)),
    ("status-bytes", Whole(messages_whole::status_bytes)),
    ("status-shapes", Whole(messages_whole::status_shapes)),
    ("status-times", Whole(messages_whole::status_times)),
    ("all-status-times", Sampled(messages_whole::all_status_times)),
    ("status-lengths", Whole(messages_whole::status_lengths)),
    ("message-headers", Whole(messages_whole::message_headers)),
    ("text-inner", Drawn(inner_drawn::text_inner)),
    ("frame-inner", Drawn(inner_drawn::frame_inner)),
    ("inner-depths", Whole(inner_whole::inner_depths)),
    ("inner-faults", Whole(inner_whole::inner_faults)),
    ("inner-headers", Whole(inner_whole::inner_headers)),
    ("inner-shapes", Whole(inner_whole::inner_shapes)),
    ("inner-bytes", Whole(inner_whole::inner_bytes)),
    ("inner-hops", Whole(inner_whole::inner_hops)),
    ("inner-callsigns", Whole(inner_whole::inner_callsigns)),
    ("inner-lengths", Whole(inner_whole::inner_lengths)),
    ("text-q", Drawn(q_drawn::text_q)),
    ("q-paths", Whole(q_whole::q_paths)),
    ("q-names", Whole(q_whole::q_names)),
    ("q-ends", Whole(q_whole::q_ends)),
    ("q-bytes", Whole(q_whole::q_bytes)),
    ("q-bodies", Whole(q_whole::q_bodies)),
    ("q-inner-paths", Whole(q_whole::q_inner_paths)),
    ("q-inner-names", Whole(q_whole::q_inner_names)),
    ("text-strict", Drawn(strict_drawn::text_strict)),
    ("frame-strict", Drawn(strict_drawn::frame_strict)),
    ("strict-minutes", Whole(strict_whole::strict_minutes)),
    ("strict-destinations", Whole(strict_whole::strict_destinations)),
    ("strict-tables", Whole(strict_whole::strict_tables)),
    ("strict-orders", Whole(strict_whole::strict_orders)),
    ("strict-lengths", Whole(strict_whole::strict_lengths)),
    ("hops", Whole(whole::hops)),
    ("frame-shapes", Whole(whole::frame_shapes)),
    ("callsigns", Whole(whole::callsigns)),
    ("callsign-lengths", Whole(whole::callsign_lengths)),
    ("zeros", Whole(whole::zeros)),
    ("utf8", Whole(whole::utf8)),
    ("random-bytes", Drawn(drawn::random_bytes)),
    ("shaped-text", Drawn(drawn::shaped_text)),
    ("damaged-text", Drawn(drawn::damaged_text)),
    ("damaged-frame", Drawn(drawn::damaged_frame)),
    ("written-unknown", Drawn(drawn::written_unknown)),
    ("written-position", Drawn(drawn::written_position)),
    ("written-mic-e", Drawn(drawn::written_mic_e)),
    ("written-timed", Drawn(drawn::written_timed)),
    ("written-rooms", Whole(whole::written_rooms)),
    ("written-lengths", Whole(whole::written_lengths)),
    ("written-limits", Whole(whole::written_limits)),
    ("written-letters", Whole(whole::written_letters)),
    ("written-zeros", Whole(whole::written_zeros)),
    ("written-times", Whole(timed::written_times)),
    ("written-callsigns", Whole(whole::written_callsigns)),
    ("written-message", Drawn(messages_drawn::written_message)),
    ("written-status", Drawn(messages_drawn::written_status)),
    ("written-messages", Whole(messages_written::written_messages)),
    ("written-statuses", Whole(messages_written::written_statuses)),
    ("written-orders", Whole(messages_written::written_orders)),
    ("written-said", Whole(messages_written::written_said)),
    ("written-inner", Drawn(inner_drawn::written_inner)),
    ("written-numbers", Whole(inner_written::written_numbers)),
    ("written-innermost", Whole(inner_written::written_innermost)),
    ("written-inner-orders", Whole(inner_written::written_inner_orders)),
    ("written-inner-callsigns", Whole(inner_written::written_inner_callsigns)),
    ("written-q", Drawn(q_drawn::written_q)),
    ("written-q-paths", Whole(q_written::written_q_paths)),
    ("written-q-names", Whole(q_written::written_q_names)),
    ("written-q-callsigns", Whole(q_written::written_q_callsigns)),
    ("written-q-rooms", Whole(q_written::written_q_rooms)),
    ("written-q-orders", Whole(q_written::written_q_orders)),
    ("written-q-inner", Whole(q_written::written_q_inner)),
    ("bounds", Drawn(drawn::bounds)),
    ("bounds-limits", Whole(whole::bounds_limits)),
];

fn push_request(out: &mut Vec<u8>, request: &Request) {
    match request {
        Request::Text(bytes) => {
            out.extend_from_slice(b"T ");
            push_hex(out, bytes);
        }
        Request::Frame(bytes) => {
            out.extend_from_slice(b"F ");
            push_hex(out, bytes);
        }
        Request::Line(line) => out.extend_from_slice(line.as_bytes()),
    }
    out.push(b'\n');
}

/// Says which of a kind's requests are asked strictly too, by numbers of its own: the requests stay those that they are without it.
struct Share {
    is_whole: bool,
    random: Random,
}

impl Share {
    fn of_kind(name: &str, seed: u64) -> Share {
        Share {
            is_whole: name.contains("strict"),
            random: Random::new(seed, &format!("{} strictly", name)),
        }
    }

    fn has(&mut self, request: &Request) -> bool {
        match request {
            Request::Text(_) | Request::Frame(_) => self.is_whole || self.random.one_in(STRICTLY_ONE_IN),
            Request::Line(_) => false,
        }
    }
}

fn size_of_set(set: fn(&mut dyn FnMut(Request))) -> u64 {
    let mut size = 0;
    set(&mut |_| size += 1);
    size
}

/// Writes the requests of one kind and returns how many they are.
fn make(maker: &Maker, random: &mut Random, mut share: Share, count: u64, out: &mut impl Write) -> io::Result<u64> {
    let mut line = Vec::new();
    let mut made = 0;
    let mut result = Ok(());
    let mut emit = |request| {
        line.clear();
        push_request(&mut line, &request);
        made += 1;
        if share.has(&request) {
            line.push(b'S');
            push_request(&mut line, &request);
            made += 1;
        }
        if result.is_ok() {
            result = out.write_all(&line);
        }
    };
    match maker {
        Drawn(draw) => (0..count).for_each(|_| emit(draw(random))),
        Whole(set) | Sampled(set) => {
            let is_whole = matches!(maker, Whole(_)) && count >= WHOLE_FROM;
            let stride = if is_whole { 1 } else { size_of_set(*set) / count + 1 };
            let start = random.next() % stride;
            let mut index = 0;
            set(&mut |request| {
                if index % stride == start {
                    emit(request);
                }
                index += 1;
            });
        }
    }
    result.map(|()| made)
}

fn usage() -> ! {
    eprintln!(
        "usage: generate KIND|all SEED COUNT INDEX >requests   COUNT of each random kind; whole sets are whole from {}\n\
         \x20      generate --kinds                            lists the kinds\n\
         INDEX is written: one line for each kind, its name and how many requests it has, in their order",
        WHOLE_FROM
    );
    std::process::exit(2)
}

fn generate(kind: &str, seed: u64, count: u64, index: &str) -> io::Result<()> {
    let mut requests = BufWriter::with_capacity(1 << 20, io::stdout());
    let mut index = std::fs::File::create(index)?;
    let mut total = 0;
    for (name, maker) in KINDS.iter().filter(|(name, _)| kind == "all" || kind == *name) {
        let made = make(maker, &mut Random::new(seed, name), Share::of_kind(name, seed), count, &mut requests)?;
        writeln!(index, "{} {}", name, made)?;
        total += made;
    }
    requests.flush()?;
    if total == 0 {
        usage();
    }
    eprintln!("generate: {} requests, kind {}, seed {}, count {}", total, kind, seed, count);
    Ok(())
}

fn main() {
    let arguments: Vec<String> = std::env::args().skip(1).collect();
    let result = match arguments.iter().map(String::as_str).collect::<Vec<_>>().as_slice() {
        ["--kinds"] => {
            KINDS.iter().for_each(|(name, _)| println!("{}", name));
            Ok(())
        }
        [kind, seed, count, index] => match (seed.parse(), count.parse()) {
            (Ok(seed), Ok(count)) if count > 0 => generate(kind, seed, count, index),
            _ => usage(),
        },
        _ => usage(),
    };
    if let Err(fault) = result {
        eprintln!("generate: {}", fault);
        std::process::exit(1);
    }
}
