//! The rules of docs/RULES.md and docs/FORMATS.md in plain, safe Rust.
//!
//! Written from those two pages and from nothing else, so that it can be compared with the proved code. Nothing here is
//! proved; it is what a programmer would write who wants it correct and fast.

#![forbid(unsafe_code)]

pub mod channel;
pub mod checksum;
pub mod flow;
pub mod frame;
pub mod reader;
pub mod reel;
pub mod service;
pub mod sync;
pub mod writer;

pub use channel::{Channel, Fade, FadePattern, Full, Ring, Slot};
pub use checksum::{Checksum, Crc16, NoChecksum};
pub use flow::{Flow, SuperframeToken};
pub use frame::{FRAME_LEN, Fragment, Fragments, Frame, Torn};
pub use reader::{Answer, Reader};
pub use reel::{Reel, ReelFault};
pub use service::{Plain, Service, Sync};
pub use sync::{Kind, SyncHeader};

/// The longest packet of a service.
pub const PACKET_MAX: usize = 2044;
