//! The content of frames: areas, position vectors and payloads.

use crate::error::Fault;
use crate::ffi;

/// The shape and size of an area. Sizes are in metres, from 1. Angles are in degrees clockwise from
/// north, 0 to 359.
#[derive(Clone, Copy, Debug, PartialEq, Eq, Hash)]
pub enum Shape {
    /// A circle.
    Circle {
        /// Radius, in metres.
        radius: u16,
    },
    /// A rectangle.
    Rectangle {
        /// Distance from the centre to a side along `angle`, in metres.
        a: u16,
        /// Distance from the centre to a side across `angle`, in metres.
        b: u16,
        /// Direction of `a`, in degrees clockwise from north.
        angle: u16,
    },
    /// An ellipse.
    Ellipse {
        /// Half axis along `angle`, in metres.
        a: u16,
        /// Half axis across `angle`, in metres.
        b: u16,
        /// Direction of `a`, in degrees clockwise from north.
        angle: u16,
    },
}

impl Shape {
    /// Returns the fields of the C struct: shape, a, b, angle.
    pub(crate) fn numbers(self) -> (u8, u16, u16, u16) {
        match self {
            Shape::Circle { radius } => (0, radius, 0, 0),
            Shape::Rectangle { a, b, angle } => (1, a, b, angle),
            Shape::Ellipse { a, b, angle } => (2, a, b, angle),
        }
    }
}

/// The destination area of a packet.
#[derive(Clone, Copy, Debug, PartialEq, Eq, Hash)]
pub struct Area {
    /// Latitude of the centre, in 0.1 microdegree.
    pub latitude: i32,
    /// Longitude of the centre, in 0.1 microdegree.
    pub longitude: i32,
    /// Its shape and size.
    pub shape: Shape,
}

impl Area {
    fn shown(area: &ffi::Area) -> Area {
        let ffi::Area { a, b, angle, .. } = *area;
        let shape = match area.shape {
            0 => Shape::Circle { radius: a },
            1 => Shape::Rectangle { a, b, angle },
            _ => Shape::Ellipse { a, b, angle },
        };
        let (latitude, longitude) = (area.latitude, area.longitude);
        Area { latitude, longitude, shape }
    }
}

/// A position vector: where a station says that it is.
#[derive(Clone, Copy, Debug, PartialEq, Eq, Hash)]
pub struct Vector {
    /// GN address of the station.
    pub address: u64,
    /// Time of the position, in ms modulo 2^32.
    pub timestamp: u32,
    /// In 0.1 microdegree.
    pub latitude: i32,
    /// In 0.1 microdegree.
    pub longitude: i32,
    /// In 0.01 m/s, -16384 to 16383; negative means backwards.
    pub speed: i16,
    /// In 0.1 degree, clockwise from north.
    pub heading: u16,
    /// Position accuracy indicator (PAI).
    pub accurate: bool,
}

impl Vector {
    pub(crate) fn shown(v: &ffi::Vector) -> Vector {
        Vector {
            address: v.address,
            timestamp: v.timestamp,
            latitude: v.latitude,
            longitude: v.longitude,
            speed: v.speed,
            heading: v.heading,
            accurate: v.accurate != 0,
        }
    }
}

/// A payload and its port. The payload borrows the frame.
#[derive(Clone, Copy, Debug, PartialEq, Eq, Hash)]
pub struct Message<'a> {
    /// The destination port (BTP-B).
    pub port: u16,
    /// The destination port info.
    pub info: u16,
    /// The payload.
    pub payload: &'a [u8],
}

/// The content of a packet, by its type.
#[derive(Clone, Copy, Debug, PartialEq, Eq, Hash)]
pub enum Content<'a> {
    /// A beacon: it carries only the position vector of its source.
    Beacon,
    /// A single-hop broadcast (SHB), for all stations in radio range.
    SingleHop {
        /// The media-dependent data.
        media: [u8; 4],
        /// Its payload and port.
        message: Message<'a>,
    },
    /// A geobroadcast (GBC), for all stations in an area.
    Geobroadcast {
        /// Its sequence number.
        number: u16,
        /// Its destination area.
        area: Area,
        /// Its payload and port.
        message: Message<'a>,
    },
    /// A geoanycast (GAC), for any one station in an area.
    Geoanycast {
        /// Its sequence number.
        number: u16,
        /// Its destination area.
        area: Area,
        /// Its payload and port.
        message: Message<'a>,
    },
}

/// All fields of a frame. The payload borrows the frame.
#[derive(Clone, Copy, Debug, PartialEq, Eq, Hash)]
#[non_exhaustive]
pub struct Packet<'a> {
    /// Destination link address.
    pub target: [u8; 6],
    /// Source link address.
    pub source: [u8; 6],
    /// Position vector of the source.
    pub vector: Vector,
    /// Remaining hop limit (RHL), from 1.
    pub hops_left: u8,
    /// Maximum hop limit (MHL), from 1.
    pub max_hops: u8,
    /// Lifetime byte: 6 bits of multiplier, 2 bits of base.
    pub lifetime: u8,
    /// Traffic class byte.
    pub traffic_class: u8,
    /// Whether the source is mobile.
    pub mobile: bool,
    /// The content, by the type of the packet.
    pub content: Content<'a>,
}

impl<'a> Packet<'a> {
    /// Returns the payload and its port; `None` for a beacon.
    pub fn message(&self) -> Option<Message<'a>> {
        match self.content {
            Content::Beacon => None,
            Content::SingleHop { message, .. }
            | Content::Geobroadcast { message, .. }
            | Content::Geoanycast { message, .. } => Some(message),
        }
    }
}

/// Returns the length of the frame at the start of a buffer, or 0 if it does not start with one. At
/// most one length gives a valid frame. Use it to strip padding.
pub fn frame_length(octets: &[u8]) -> usize {
    ffi::frame_length(octets)
}

/// Returns the fault in what the library wrote of a frame.
pub(crate) fn fault_in(p: &ffi::Packet) -> Fault {
    Fault { layer: p.fault, kind: p.fault_kind, at: p.fault_at }
}

/// Reads all fields of a frame, without a station.
///
/// All bytes have to belong to the frame: padding is an error here.
///
/// # Errors
///
/// The first [`Fault`] of bytes that are not a valid frame.
///
/// # Panics
///
/// If the shared library that was loaded has another ABI than this crate.
///
/// ```
/// let beacon = [
///     0xff, 0xff, 0xff, 0xff, 0xff, 0xff, 2, 0, 0, 0, 0, 1, 0x89, 0x47, // the link layer's
///     0x11, 0, 0x1a, 1, 0, 0x10, 0, 0x80, 0, 0, 1, 0, // the first two headers
///     0x14, 0, 2, 0, 0, 0, 0, 1, 0, 0, 0, 0, 0, 0, 0, 0, 0, 0, 0, 0, 0, 0, 0, 0, // the vector
/// ];
/// let packet = geostation::read_frame(&beacon)?;
/// assert_eq!(0x1400_0200_0000_0001, packet.vector.address);
/// assert_eq!(geostation::Content::Beacon, packet.content);
/// # Ok::<(), geostation::Fault>(())
/// ```
pub fn read_frame(frame: &[u8]) -> Result<Packet<'_>, Fault> {
    let (status, p) = ffi::read_frame(frame);
    if status != 0 {
        return Err(fault_in(&p));
    }
    let start = p.message.payload_start;
    let message = Message {
        port: p.message.port,
        info: p.message.info,
        payload: &frame[start..start + p.message.payload_length],
    };
    let (number, area) = (p.number, Area::shown(&p.area));
    Ok(Packet {
        target: p.target,
        source: p.source,
        vector: Vector::shown(&p.vector),
        hops_left: p.hops_left,
        max_hops: p.max_hops,
        lifetime: p.lifetime,
        traffic_class: p.traffic_class,
        mobile: p.mobile != 0,
        content: match p.kind {
            1 => Content::Beacon,
            2 => Content::SingleHop { media: p.media, message },
            3 => Content::Geobroadcast { number, area, message },
            _ => Content::Geoanycast { number, area, message },
        },
    })
}
