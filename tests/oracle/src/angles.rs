// Checks, for every angle that a reader of the crate can meet, that f64 crosses neither 90 nor 180 degrees
// and that `dmh` gives the whole hundredths back. If so, document 01's rule about rounding has no case.

use aprs_parser::{Latitude, Longitude};
use protocol::{LATITUDE_LIMIT, LONGITUDE_LIMIT};

/// The most that digits give in a position, and that a byte less 28, and less 60, gives in Mic-E.
const POSITION_MINUTES: u32 = 99;
const POSITION_HUNDREDTHS: u32 = 99;
const MIC_E_MINUTES: u32 = 167;
const MIC_E_HUNDREDTHS: u32 = 227;
const DEGREES: u32 = 999;

#[derive(Default)]
struct Count {
    angles: u64,
    crossed: u64,
    changed: u64,
}

impl Count {
    fn note(&mut self, name: &str, parts: (u32, u32, u32, bool), limit: i64, read: Option<(u32, u32, u32, bool)>) {
        let whole = whole(parts);
        self.angles += 1;
        if (whole <= limit) != read.is_some() {
            self.crossed += 1;
            println!("{} {:?} crosses the limit", name, parts);
        }
        let expected_side = parts.3 || whole == 0;
        let is_same = |read: (u32, u32, u32, bool)| {
            self::whole(read) == whole && read.1 < 60 && read.2 < 100 && read.3 == expected_side
        };
        if read.map_or(false, |read| !is_same(read)) {
            self.changed += 1;
            println!("{} {:?} comes back as {:?}", name, parts, read);
        }
    }
}

fn whole((degrees, minutes, hundredths, _): (u32, u32, u32, bool)) -> i64 {
    i64::from(degrees) * 6000 + i64::from(minutes) * 100 + i64::from(hundredths)
}

fn check(count: &mut Count, minutes: u32, hundredths: u32, note: impl Fn(&mut Count, u32, u32, u32, bool)) {
    for degrees in 0..=DEGREES {
        for minute in 0..=minutes {
            for hundredth in 0..=hundredths {
                note(count, degrees, minute, hundredth, true);
                note(count, degrees, minute, hundredth, false);
            }
        }
    }
}

fn main() {
    let mut count = Count::default();
    check(&mut count, POSITION_MINUTES, POSITION_HUNDREDTHS, |count, d, m, h, side| {
        let read = Latitude::from_dmh(d, m, h, side).map(|latitude| latitude.dmh());
        count.note("latitude", (d, m, h, side), LATITUDE_LIMIT, read);
    });
    check(&mut count, MIC_E_MINUTES, MIC_E_HUNDREDTHS, |count, d, m, h, side| {
        let read = Longitude::from_dmh(d, m, h, side).map(|longitude| longitude.dmh());
        count.note("longitude", (d, m, h, side), LONGITUDE_LIMIT, read);
    });
    println!("{} angles, {} cross a limit, {} come back changed", count.angles, count.crossed, count.changed);
    if count.crossed + count.changed > 0 {
        std::process::exit(1);
    }
}
