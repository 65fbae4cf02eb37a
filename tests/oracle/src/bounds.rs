// Requests B: the crate's two f64 bounds of an angle, which know no side. The page box is no part of the crate.

use aprs_parser::{AprsCst, AprsPosition, Callsign};
use crate::fields::PRECISIONS;
use crate::pieces::{latitude, longitude};
use crate::Style;
use protocol::rules::Limit;
use protocol::{from_decimal, rules, Mark};

fn position(latitude_angle: i64, longitude_angle: i64, blanks: usize) -> AprsPosition {
    AprsPosition {
        to: Callsign::new_no_ssid(""),
        timestamp: None,
        messaging_supported: false,
        latitude: latitude(latitude_angle),
        longitude: longitude(longitude_angle),
        precision: PRECISIONS[blanks],
        symbol_table: '/',
        symbol_code: '-',
        comment: Vec::new(),
        cst: AprsCst::Uncompressed,
    }
}

fn bounds(limit: Limit, angle: i64, blanks: usize) -> Option<String> {
    if angle.abs() > limit.largest() || blanks >= PRECISIONS.len() {
        return None;
    }
    let bounds = match limit {
        Limit::Latitude => position(angle, 0, blanks).latitude_bounding(),
        Limit::Longitude => position(0, angle, blanks).longitude_bounding(),
    };
    Some(format!("0 {:016x} {:016x}", bounds.start().to_bits(), bounds.end().to_bits()))
}

pub fn answer(angle: &[u8], blanks: &[u8], limit: &[u8], side: &[&[u8]], style: Style, out: &mut Vec<u8>) -> Option<()> {
    let angle = from_decimal(angle)?;
    let blanks = usize::try_from(from_decimal(blanks)?).ok()?;
    let limit = Limit::named(limit)?;
    let letter = rules::side(limit, angle, side)?;
    let line = match (bounds(limit, angle, blanks), style) {
        (Some(bounds), Style::Marked) => bounds,
        (None, Style::Marked) => format!("outside {}", Mark::Range.name()),
        (bounds, Style::Plain) => {
            let bounds = bounds.unwrap_or_else(|| format!("15 {:016x} {:016x}", 0, 0));
            format!("{} {}", bounds, rules::page_words(limit, angle, blanks, letter))
        }
    };
    out.extend_from_slice(line.as_bytes());
    Some(())
}
