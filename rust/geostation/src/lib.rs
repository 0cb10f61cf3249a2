//! A GeoNetworking and BTP-B station (EN 302 636-4-1, EN 302 636-5-1), over the proved library
//! `libgeostation`.
//!
//! The library has no global state, does no input or output, and reads no clock. You pass in the
//! time, the position and the received frames. You get payloads, and frames to send.
//!
//! - [`Station`] has all calls. Times are in milliseconds and never go back. On the air they count
//!   from 2004-01-01 in TAI: Unix time in ms - 1072915200000 + 5000. Coordinates are in 0.1
//!   microdegree.
//! - A frame is an Ethernet frame without its check sequence. The lower 48 bits of a GN address are
//!   the MAC of the network interface.
//! - A call that returns an [`Error`] leaves the station unchanged.
//! - A call that writes a frame needs a [`Buffer`]: a `Vec<u8>` or an array.
//! - [`read_frame`] reads the fields of a frame, without a station.
//! - [`plain_part`], [`seal`], [`message_of`] and [`Station::receive_verified`] are for signed
//!   packets, with a security entity of yours.
//!
//! ```
//! use geostation::{Area, AreaRequest, Config, Shape, Station};
//!
//! let mut car = Station::new(&Config::new(0x1400_0200_0000_0001, 0, 0))?;
//! let mut truck = Station::new(&Config::new(0x1400_0200_0000_0002, 449, 0))?;
//! truck.open_port(0, 2002)?;
//! let circle = Area { latitude: 0, longitude: 0, shape: Shape::Circle { radius: 100 } };
//! let (mut sent, mut relay) = (Vec::new(), Vec::new());
//! let frame = car.send_gbc(1000, &AreaRequest::new(2002, circle), b"ice", &mut sent)?;
//! let heard = truck.receive(1001, frame, &mut relay)?;
//! assert_eq!(b"ice", heard.delivered.unwrap().payload);
//! # Ok::<(), geostation::Error>(())
//! ```
#![deny(missing_docs, unsafe_code)]

mod abi;
mod buffer;
mod error;
#[allow(unsafe_code)]
mod ffi;
mod frame;
mod secured;
mod station;

pub use buffer::Buffer;
pub use error::{Code, Error, Fault};
pub use frame::{frame_length, read_frame, Area, Content, Message, Packet, Shape, Vector};
pub use secured::{message_of, plain_part, seal};
pub use station::{
    AreaRequest, Config, Contention, ContentionCounts, Counts, IgnoreReason, IgnoredCounts, Limits,
    LineResult, Neighbours, Place, Received, RefusedCounts, SentCounts, ShbOptions, ShbRequest,
    Station,
};

/// The name of [`IgnoreReason`] until 0.1.
#[deprecated(note = "use IgnoreReason")]
pub type Why = IgnoreReason;

/// The longest frame, in bytes. A buffer that is not a `Vec` needs this size.
pub const FRAME_MAX: usize = 1468;
/// The longest secured frame, in bytes. A buffer for one that is not a `Vec` needs this size.
pub const SECURED_FRAME_MAX: usize = 2310;
/// The longest answer to a JSON request, in bytes.
pub const ANSWER_MAX: usize = 16384;
/// The longest payload that can be sent, in bytes.
pub const PAYLOAD_MAX: usize = 1394;
/// The latest time that a call accepts, in ms.
pub const LAST_MOMENT: u64 = 1 << 62;

/// The page docs/RUST.md. Its examples are run by `cargo test`.
#[cfg(doctest)]
#[doc = include_str!("../../../docs/RUST.md")]
struct Page;
