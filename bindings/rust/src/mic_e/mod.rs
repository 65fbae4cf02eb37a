//! Mic-E reports and their parts: the destination that carries a latitude and a message, and the information that
//! carries longitude, speed, course and symbol.

mod destination;
mod information;
mod message;
mod motion;
mod report;

pub use destination::Destination;
pub use information::Information;
pub use message::Message;
pub use motion::{Course, Speed};
pub use report::AprsMicE;
