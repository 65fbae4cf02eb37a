// Where something is, as the C record has it, and back: the two angles, each with its letter.

use crate::ffi;
use crate::latitude::Latitude;
use crate::longitude::Longitude;
use crate::precision::Precision;
use crate::refusal::Refusal;

/// The angles of a place. One that its letter contradicts is out of range.
pub fn angles_of(place: &ffi::Place) -> Result<(Latitude, Longitude), Refusal> {
    let latitude = Latitude::lettered(place.latitude, !place.south)?;
    let longitude = Longitude::lettered(place.longitude, !place.west)?;
    Ok((latitude, longitude))
}

/// The place of two angles, with the symbol's table and code.
pub fn place_of(
    (latitude, longitude): (Latitude, Longitude),
    precision: Precision,
    (table, code): (u8, u8),
) -> ffi::Place {
    ffi::Place {
        latitude: latitude.hundredths(),
        longitude: longitude.hundredths(),
        blanks: precision.blanks(),
        table,
        code,
        south: latitude.is_south(),
        west: longitude.side().is_west(),
    }
}
