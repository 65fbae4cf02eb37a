#![doc = include_str!("../README.md")]
#![deny(missing_docs)]

#[cfg(not(all(target_arch = "x86_64", target_os = "linux")))]
compile_error!("tusselgro's library is built for x86-64 Linux only, so this crate cannot be built for another target");

mod address;
mod angle;
mod builder;
mod callsign;
pub mod ffi;
mod fields;
mod inner;
mod latitude;
mod longitude;
mod message;
pub mod mic_e;
mod out;
mod packet;
mod place;
mod position;
mod precision;
mod q_construct;
mod record;
mod refusal;
mod status;
#[cfg(test)]
mod strict;
#[cfg(test)]
mod tests;
mod timestamp;
mod via;

pub use address::CallsignField;
pub use builder::PacketBuilder;
pub use callsign::{Callsign, IntoCallsign};
pub use ffi::{MOST_BYTES, MOST_HOPS, MOST_INNER};
pub use fields::{
    list_longitude, list_longitude_to_slice, list_motion, list_motion_to_slice, Field,
};
pub use inner::Inner;
pub use latitude::{Latitude, LatitudeRead};
pub use longitude::{Longitude, LongitudeRead, Side};
pub use message::{Addressee, AprsMessage};
pub use mic_e::AprsMicE;
pub use packet::{AprsData, AprsPacket};
pub use position::AprsPosition;
pub use precision::Precision;
pub use q_construct::QConstruct;
pub use refusal::Refusal;
pub use status::AprsStatus;
pub use timestamp::{Time, Timestamp};
pub use via::{Path, Via};
