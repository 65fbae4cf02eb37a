// Kinds of requests W with Q elements in the path, given whole.

use crate::messages_whole::strings;
use crate::records::{hop, name, Hop, Name, Record};
use crate::whole::{give_written, good_and_refused, names_of_odd_callsigns, Give};
use protocol::q_elements::NAMES;
use protocol::{LONGEST, MOST_HOPS};

const ALL: [&str; 5] = ["position", "mic-e", "message", "status", "unknown"];

fn relay(heard: bool) -> Hop {
    hop(b"HOP", b"7", heard)
}

/// A path from its shape: callsigns (`H`), heard callsigns (`S`) and Q elements (`Q`), named one after another from `first` on.
fn path(shape: &[u8], first: usize) -> Vec<Hop> {
    let hop = |(place, sort): (usize, &u8)| match sort {
        b'H' => relay(false),
        b'S' => relay(true),
        _ => Hop::Q(NAMES[(first + place) % NAMES.len()]),
    };
    shape.iter().enumerate().map(hop).collect()
}

/// Paths for what does not turn on their shape.
fn some_paths() -> [Vec<Hop>; 3] {
    [path(b"Q", 0), path(b"HSQH", 7), path(b"QQQQQQQQ", 1)]
}

/// Every path of up to six hops, paths of eight with one callsign and with none; each in two kinds.
pub fn written_q_paths(give: Give) {
    let short = (0..=6).flat_map(|length| strings(b"HSQ", length));
    let one_callsign = (0..MOST_HOPS).flat_map(|place| {
        b"HS".map(|sort| {
            let mut shape = vec![b'Q'; MOST_HOPS];
            shape[place] = sort;
            shape
        })
    });
    for (number, shape) in short.chain(one_callsign).chain([vec![b'Q'; MOST_HOPS]]).enumerate() {
        for kind in [ALL[number % 4], ALL[(number + 1) % 4]] {
            give_written(give, &Record { hops: path(&shape, number), ..Record::good(kind) });
        }
    }
}

/// Each name in each place of 1 to 8 hops, with none heard, those before it, those behind it, and all.
pub fn written_q_names(give: Give) {
    for name in NAMES {
        for length in 1..=MOST_HOPS {
            for place in 0..length {
                for (before, behind) in [(false, false), (true, false), (false, true), (true, true)] {
                    let heard = |at: usize| if at < place { before } else { behind };
                    let hops = (0..length).map(|at| if at == place { Hop::Q(name) } else { relay(heard(at)) }).collect();
                    give_written(give, &Record { hops, ..Record::good(ALL[(length + place) % 4]) });
                }
            }
        }
    }
}

/// Paths with this callsign beside Q elements.
fn paths_with(odd: &Name) -> Vec<Vec<Hop>> {
    let callsign = |heard| Hop::Callsign(odd.clone(), heard);
    let q = || Hop::Q("qAC");
    vec![
        vec![callsign(false), q()],
        vec![callsign(true), q()],
        vec![q(), callsign(false)],
        vec![q(), callsign(true), Hop::Q("qAo")],
        vec![relay(true), q(), callsign(false)],
        vec![callsign(false), q(), relay(true)],
        [vec![q(); MOST_HOPS - 1], vec![callsign(true)]].concat(),
    ]
}

/// Callsigns odd, out of range, unfit for AX.25 and spelt like a name, beside Q elements, and as source and destination.
pub fn written_q_callsigns(give: Give) {
    let spelt = NAMES.iter().map(|text| name(text.as_bytes(), b""));
    for (number, odd) in names_of_odd_callsigns().iter().chain(&spelt.collect::<Vec<_>>()).enumerate() {
        let good = Record { hops: path(b"QS", number), ..Record::good(["position", "status"][number % 2]) };
        for hops in paths_with(odd) {
            give_written(give, &Record { hops, ..good.clone() });
        }
        give_written(give, &Record { from: odd.clone(), ..good.clone() });
        give_written(give, &Record { to: odd.clone(), ..good });
    }
}

/// Room and comments at their limits: in a frame a Q element takes none.
pub fn written_q_rooms(give: Give) {
    for hops in some_paths() {
        for kind in ["position", "mic-e", "status"] {
            let record = Record { hops: hops.clone(), ..Record::good(kind) };
            (0..=120).for_each(|room| give_written(give, &Record { room, ..record.clone() }));
        }
        for length in LONGEST - 90..=LONGEST {
            for room in [511, 512, 600] {
                let comment = vec![b'c'; length];
                give_written(give, &Record { hops: hops.clone(), room, comment, ..Record::good("position") });
            }
        }
    }
}

/// Q elements in records of each kind, good and refused for many reasons; and every set of zeros beside one.
pub fn written_q_orders(give: Give) {
    for kind in ALL {
        for hops in some_paths() {
            for record in good_and_refused(kind) {
                give_written(give, &Record { hops: hops.clone(), ..record });
            }
        }
        for set in 0..1usize << 4 {
            let zero = |place: usize| set >> place & 1 == 1;
            let zeros = Some(vec![zero(0), zero(1), zero(2), false, zero(3)]);
            give_written(give, &Record { hops: path(b"SQH", set), zeros, ..Record::good(kind) });
        }
    }
}

/// A record with a number, and an innermost header with this path.
fn relayed(kind: &'static str, number: usize, inner_hops: Vec<Hop>) -> Record {
    Record {
        inner: Some(number),
        inner_from: Some(name(b"WU2Z", b"9")),
        inner_to: if kind == "mic-e" { None } else { Some(name(b"APRS", b"")) },
        inner_hops: Some(inner_hops),
        ..Record::good(kind)
    }
}

/// Paths of up to four hops and of eight Q elements, and odd callsigns beside Q elements, in the innermost header and in the outermost.
pub fn written_q_inner(give: Give) {
    let shapes: Vec<Vec<u8>> = (0..=4).flat_map(|length| strings(b"HSQ", length)).chain([vec![b'Q'; MOST_HOPS]]).collect();
    for (number, shape) in shapes.iter().enumerate() {
        let kind = ALL[number % ALL.len()];
        for inner in [0, 1, 4, 5] {
            let hops = path(shape, number);
            give_written(give, &Record { inner: Some(inner), hops: hops.clone(), ..Record::good(kind) });
            give_written(give, &Record { inner: Some(inner), inner_hops: Some(hops.clone()), ..Record::good(kind) });
            give_written(give, &relayed(kind, inner, hops));
        }
    }
    for (number, odd) in names_of_odd_callsigns().iter().enumerate() {
        let kind = ALL[number % ALL.len()];
        for hops in paths_with(odd) {
            give_written(give, &relayed(kind, 1 + number % 4, hops.clone()));
            give_written(give, &Record { hops, ..relayed(kind, 1 + number % 4, path(b"SQ", number)) });
        }
    }
}
