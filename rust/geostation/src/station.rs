//! A station, its requests and its results.

use crate::buffer::{written, Buffer};
use crate::error::{Error, Fault};
use crate::ffi::{self, Handle};
use crate::frame::{Area, Message, Vector};
use crate::{FRAME_MAX, SECURED_FRAME_MAX};
use std::fmt;
use std::iter::FusedIterator;

/// Types of packets, as in `enum geostation_kind`.
const SHB: u32 = 2;
const GBC: u32 = 3;
const GAC: u32 = 4;

/// Limits on what a station sends.
///
/// A rate is the number of frames per second, and a burst the number of frames at once. Both are 0
/// to 1000000. There is no limit if the rate or the burst is 0.
#[derive(Clone, Copy, Debug, PartialEq, Eq, Hash)]
pub struct Limits {
    /// All frames that the station forwards, per second.
    pub forward_rate: u32,
    /// All frames that the station may forward at once.
    pub forward_burst: u32,
    /// Frames of each source that the station forwards, per second.
    pub source_rate: u32,
    /// Frames of each source that the station may forward at once.
    pub source_burst: u32,
    /// Own packets per second. Beacons are not counted.
    pub own_rate: u32,
    /// Own packets that may be sent at once. Beacons are not counted.
    pub own_burst: u32,
    /// Packets of others with more hops left are not forwarded. 0 is no cap. The stations that
    /// receive this one's packets have such a cap too.
    pub hop_cap: u8,
    /// Whether a copy of a GBC or GAC that was delivered is ignored ([`IgnoreReason::Repeated`]).
    pub deliver_once: bool,
}

impl Limits {
    /// No limit: all frames pass.
    pub const NONE: Limits = Limits {
        forward_rate: 0,
        forward_burst: 0,
        source_rate: 0,
        source_burst: 0,
        own_rate: 0,
        own_burst: 0,
        hop_cap: 0,
        deliver_once: false,
    };
}

impl Default for Limits {
    /// The limits that suit a channel of 6 Mbit/s.
    fn default() -> Limits {
        Limits {
            forward_rate: 100,
            forward_burst: 50,
            source_rate: 20,
            source_burst: 20,
            own_rate: 50,
            own_burst: 50,
            hop_cap: 10,
            deliver_once: true,
        }
    }
}

/// How a station contends: it holds the frame of a GBC that it forwards inside the area. If other
/// stations broadcast the same frame before it is due, it is cancelled. See [`Station::release`].
#[derive(Clone, Copy, Debug, PartialEq, Eq, Hash)]
pub struct Contention {
    /// Least wait, if the sender is `range` metres away or farther, in ms, 0 to `max`.
    pub min: u16,
    /// Greatest wait, if the sender is near, in ms, 1 to 1000.
    pub max: u16,
    /// Distance of the least wait, in metres, from 1.
    pub range: u16,
    /// Copies, each from another station, that cancel a held frame, 1 to 3.
    pub copies: u8,
}

impl Default for Contention {
    /// Waits of 1 to 100 ms, a range of 1000 m, and two copies.
    fn default() -> Contention {
        Contention { min: 1, max: 100, range: 1000, copies: 2 }
    }
}

/// The parameters of a station.
#[derive(Clone, Copy, Debug, PartialEq, Eq, Hash)]
#[non_exhaustive]
pub struct Config {
    /// GN address, not a group address.
    pub address: u64,
    /// In 0.1 microdegree, -900000000 to 900000000.
    pub latitude: i32,
    /// In 0.1 microdegree, -1800000000 to 1800000000.
    pub longitude: i32,
    /// Size of the location table, 1 to 4096.
    pub capacity: u16,
    /// Length of each duplicate packet list, 1 to 64.
    pub remember: u8,
    /// Whether its packets say that it is mobile. Set it to `false` for a road-side unit.
    pub mobile: bool,
    /// Sequence number of its first packet for an area. Choose it at random at each start, or
    /// continue the numbering: other stations remember the last numbers until they have accepted
    /// nothing from this address for 20 s. docs/C.md says more ("Sequence numbers after a
    /// restart").
    pub number: u16,
    /// Limits on what it sends.
    pub limits: Limits,
    /// How it contends; `None`: it forwards at once.
    pub contention: Option<Contention>,
}

impl Config {
    /// Returns the parameters of a mobile station with this address and position. The location
    /// table has 64 entries, each duplicate packet list has length 8, the first sequence number is
    /// 0, the limits are the defaults, and it does not contend.
    pub fn new(address: u64, latitude: i32, longitude: i32) -> Config {
        Config {
            address,
            latitude,
            longitude,
            capacity: 64,
            remember: 8,
            mobile: true,
            number: 0,
            limits: Limits::default(),
            contention: None,
        }
    }
}

/// The position of a station.
#[derive(Clone, Copy, Debug, PartialEq, Eq, Hash)]
pub struct Place {
    /// In 0.1 microdegree, -900000000 to 900000000.
    pub latitude: i32,
    /// In 0.1 microdegree, -1800000000 to 1800000000.
    pub longitude: i32,
    /// Position accuracy indicator (PAI).
    pub accurate: bool,
    /// In 0.01 m/s, -16384 to 16383; negative means backwards.
    pub speed: i16,
    /// In 0.1 degree, clockwise from north.
    pub heading: u16,
}

/// A request for a single-hop broadcast (SHB).
#[derive(Clone, Copy, Debug, Default, PartialEq, Eq, Hash)]
pub struct ShbRequest {
    /// The destination port (BTP-B).
    pub port: u16,
    /// The destination port info.
    pub info: u16,
    /// Traffic class byte.
    pub traffic_class: u8,
}

/// What a single-hop broadcast (SHB) has besides its request: see [`Station::send_shb_with`].
#[derive(Clone, Copy, Debug, PartialEq, Eq, Hash)]
pub struct ShbOptions {
    /// Lifetime byte: 6 bits of multiplier, 2 bits of base (0 = 50 ms, 1 = 1 s, 2 = 10 s, 3 = 100
    /// s).
    pub lifetime: u8,
    /// Media-dependent data, in the order in which they are sent. On ITS-G5 (EN 302 636-4-2), the
    /// first byte is the channel busy ratio that the station measured, the second is the greatest
    /// that its neighbours reported, and the third has its transmit power. Neighbours take zeros
    /// as measured values.
    pub media: [u8; 4],
}

impl Default for ShbOptions {
    /// A lifetime of 60 s (0x1a), and zeros.
    fn default() -> ShbOptions {
        ShbOptions { lifetime: 0x1a, media: [0; 4] }
    }
}

/// A request for a geobroadcast (GBC) or a geoanycast (GAC).
#[derive(Clone, Copy, Debug, PartialEq, Eq, Hash)]
pub struct AreaRequest {
    /// The destination port (BTP-B).
    pub port: u16,
    /// The destination port info.
    pub info: u16,
    /// Traffic class byte: SCF, channel offload, and 6 bits of traffic class ID.
    pub traffic_class: u8,
    /// Lifetime byte: 6 bits of multiplier, 2 bits of base (0 = 50 ms, 1 = 1 s, 2 = 10 s, 3 = 100
    /// s).
    pub lifetime: u8,
    /// Hop limit, from 1. Stations with the default limits do not forward a packet with more than
    /// 10 hops left.
    pub max_hops: u8,
    /// The destination area.
    pub area: Area,
}

impl AreaRequest {
    /// Returns a request for a port in an area, with hop limit 10 and a lifetime of 60 s (0x1a).
    pub fn new(port: u16, area: Area) -> AreaRequest {
        AreaRequest { port, info: 0, traffic_class: 0, lifetime: 0x1a, max_hops: 10, area }
    }

    fn numbers(&self) -> ffi::AreaRequest {
        let (shape, a, b, angle) = self.area.shape.numbers();
        ffi::AreaRequest {
            port: self.port,
            info: self.info,
            traffic_class: self.traffic_class,
            lifetime: self.lifetime,
            max_hops: self.max_hops,
            shape,
            latitude: self.area.latitude,
            longitude: self.area.longitude,
            a,
            b,
            angle,
        }
    }
}

/// Why a frame was ignored. `Display` prints the keyword of the program, such as `own-source`.
#[derive(Clone, Copy, Debug, PartialEq, Eq, Hash)]
#[non_exhaustive]
pub enum IgnoreReason {
    /// The frame is addressed to another link address.
    NotForMe,
    /// The station itself is the source of the packet.
    OwnSource,
    /// A beacon or SHB came from another link address than its source's.
    SenderMismatch,
    /// The sequence number of a GBC or GAC is in the duplicate packet list of its source.
    Duplicate,
    /// The packet was delivered before, within its lifetime (`deliver_once`). A copy has the same
    /// source, sequence number and time stamp. It is neither delivered nor forwarded.
    Repeated,
}

impl fmt::Display for IgnoreReason {
    fn fmt(&self, f: &mut fmt::Formatter<'_>) -> fmt::Result {
        f.write_str(match self {
            IgnoreReason::NotForMe => "not-for-me",
            IgnoreReason::OwnSource => "own-source",
            IgnoreReason::SenderMismatch => "sender-mismatch",
            IgnoreReason::Duplicate => "duplicate",
            IgnoreReason::Repeated => "repeated",
        })
    }
}

/// The result of [`Station::receive`] and [`Station::receive_verified`]. It borrows the received
/// frame or its plain part, and the buffer of `relay`.
#[derive(Clone, Copy, Debug, PartialEq, Eq, Hash)]
#[non_exhaustive]
pub struct Received<'a> {
    /// Why the frame was ignored; `None` if its packet was accepted.
    pub ignored: Option<IgnoreReason>,
    /// The payload that is delivered to an open port. It borrows the received frame, or its plain
    /// part.
    pub delivered: Option<Message<'a>>,
    /// The frame to forward. It borrows the buffer. It is `None` while `due` is `Some`.
    pub relay: Option<&'a [u8]>,
    /// GN address of the packet's source.
    pub source: u64,
    /// Remaining hop limit (RHL) of the packet, from 1.
    pub hops_left: u8,
    /// Traffic class byte. The forwarded frame has the same.
    pub traffic_class: u8,
    /// Sequence number of a GBC or GAC.
    pub number: Option<u16>,
    /// Media-dependent data of an SHB: see [`ShbOptions`].
    pub media: Option<[u8; 4]>,
    /// If the frame to forward is held: the time at which it is due, in ms ([`Station::release`]).
    pub due: Option<u64>,
    /// Whether this frame has cancelled a held one.
    pub cancelled: bool,
}

impl<'a> Received<'a> {
    /// Converts the result of a call, or its error. The payload is a part of `whole`.
    fn shown(
        status: i32,
        r: &ffi::Reception,
        whole: &'a [u8],
        relay: &'a [u8],
    ) -> Result<Received<'a>, Error> {
        let fault = Fault { layer: r.fault, kind: r.fault_kind, at: r.fault_at };
        Error::check_frame(status, fault)?;
        Ok(Received {
            ignored: match r.ignored {
                0 => None,
                1 => Some(IgnoreReason::NotForMe),
                2 => Some(IgnoreReason::OwnSource),
                3 => Some(IgnoreReason::SenderMismatch),
                4 => Some(IgnoreReason::Duplicate),
                _ => Some(IgnoreReason::Repeated),
            },
            delivered: (r.delivered != 0).then(|| Message {
                port: r.port,
                info: r.info,
                payload: &whole[r.payload_start..r.payload_start + r.payload_length],
            }),
            relay: (!relay.is_empty()).then_some(relay),
            source: r.source,
            hops_left: r.hops_left,
            traffic_class: r.traffic_class,
            number: (r.kind == GBC || r.kind == GAC).then_some(r.number),
            media: (r.kind == SHB).then_some(r.media),
            due: (r.held != 0).then_some(r.due),
            cancelled: r.cancelled != 0,
        })
    }
}

/// Number of ignored frames, by [`IgnoreReason`].
#[derive(Clone, Copy, Debug, Default, PartialEq, Eq, Hash)]
pub struct IgnoredCounts {
    /// [`IgnoreReason::NotForMe`]
    pub not_for_me: u64,
    /// [`IgnoreReason::OwnSource`]
    pub own_source: u64,
    /// [`IgnoreReason::SenderMismatch`]
    pub sender_mismatch: u64,
    /// [`IgnoreReason::Duplicate`]
    pub duplicate: u64,
}

/// Number of failed calls, by [`Error`].
#[derive(Clone, Copy, Debug, Default, PartialEq, Eq, Hash)]
pub struct RefusedCounts {
    /// [`Error::MomentEarlier`] (S1)
    pub moment_earlier: u64,
    /// [`Error::MomentTooLate`] (S2)
    pub moment_too_late: u64,
    /// [`Error::BadFrame`] (S3)
    pub frame: u64,
    /// [`Error::TableFull`] (S4)
    pub table_full: u64,
    /// [`Error::NoMemory`] (S5)
    pub no_memory: u64,
    /// All other errors with a code: S6 to S9.
    pub other: u64,
}

/// Number of the station's own packets, by type.
#[derive(Clone, Copy, Debug, Default, PartialEq, Eq, Hash)]
pub struct SentCounts {
    /// BEACON.
    pub beacons: u64,
    /// SHB.
    pub single_hop: u64,
    /// GBC.
    pub geobroadcasts: u64,
    /// GAC.
    pub geoanycasts: u64,
}

/// What a JSON request asked for, and the outcome: see [`Station::handle_line`].
#[derive(Clone, Copy, Debug, PartialEq, Eq, Hash)]
#[non_exhaustive]
pub struct LineResult {
    /// The number of its command: 1 `move`, 2 `open`, 3 `close`, 4 `tick`, 5 `shb`, 6 `gbc`, 7
    /// `gac`, 8 `restart`, 9 `receive`, 10 `next_beacon`, 11 `neighbours`, 12 `look_up`, 13
    /// `read_frame`, 14 `counts`, 15 `seal`, 16 `release`, 17 `next_due`; 0 if it has none.
    pub command: u32,
    /// 0 for a blank line, 1 if it was executed, 2 if it lacks its right, 3 if it was refused, 4 if
    /// its command is missing or unknown, 5 if it is malformed.
    pub outcome: u32,
    /// Why it was refused, as [`Error::status`] numbers it; otherwise 0.
    pub status: i32,
    /// The port that it opens or closes, or to which it sends; otherwise 0.
    pub port: u16,
    /// The sequence number of the GBC or GAC that it sent; otherwise 0.
    pub number: u16,
    /// The length of the payload that it sends or would send; otherwise 0.
    pub payload_length: usize,
    /// The length of the value of `id` in the answer, which begins at byte 6; or 0.
    pub id_length: usize,
    /// The position vector of the station after the line.
    pub vector: Vector,
}

impl LineResult {
    fn told(told: &ffi::LineResult) -> LineResult {
        LineResult {
            command: told.command,
            outcome: told.outcome,
            status: told.status,
            port: told.port,
            number: told.number,
            payload_length: told.payload_length,
            id_length: told.id_length,
            vector: Vector::shown(&told.vector),
        }
    }
}

/// Number of held frames, by their outcome; all 0 without contention.
#[derive(Clone, Copy, Debug, Default, PartialEq, Eq, Hash)]
pub struct ContentionCounts {
    /// Frames that were held.
    pub held: u64,
    /// Frames that [`Station::release`] returned.
    pub released: u64,
    /// Frames that others had sent.
    pub cancelled: u64,
    /// Frames dropped: by a restart, over 1 s late, or by a limit.
    pub dropped: u64,
    /// Frames that were not held because 64 others were.
    pub full: u64,
}

/// Counters of a station since it was created.
#[derive(Clone, Copy, Debug, Default, PartialEq, Eq, Hash)]
pub struct Counts {
    /// Frames passed to [`Station::receive`] and [`Station::receive_verified`], or in JSON.
    pub received: u64,
    /// Frames whose packet was accepted.
    pub accepted: u64,
    /// Payloads that were delivered.
    pub delivered: u64,
    /// Frames to forward. A held frame counts once it is released.
    pub relayed: u64,
    /// Ignored frames.
    pub ignored: IgnoredCounts,
    /// Failed calls.
    pub refused: RefusedCounts,
    /// The station's own packets.
    pub sent: SentCounts,
    /// Frames that were not forwarded because of a limit.
    pub suppressed: u64,
    /// Packets that were ignored because they were delivered before
    /// ([`IgnoreReason::Repeated`]).
    pub repeated: u64,
    /// Calls that failed with [`Error::OverRate`].
    pub over_rate: u64,
    /// Held frames.
    pub contention: ContentionCounts,
}

impl Counts {
    fn shown(told: &ffi::Counts) -> Counts {
        let [not_for_me, own_source, sender_mismatch, duplicate] = told.ignored;
        let [moment_earlier, moment_too_late, frame, table_full, no_memory, other] = told.refused;
        let [beacons, single_hop, geobroadcasts, geoanycasts] = told.sent;
        let [held, released, cancelled, dropped, full] = told.contention;
        Counts {
            received: told.received,
            accepted: told.accepted,
            delivered: told.delivered,
            relayed: told.relayed,
            ignored: IgnoredCounts { not_for_me, own_source, sender_mismatch, duplicate },
            refused: RefusedCounts {
                moment_earlier,
                moment_too_late,
                frame,
                table_full,
                no_memory,
                other,
            },
            sent: SentCounts { beacons, single_hop, geobroadcasts, geoanycasts },
            suppressed: told.suppressed,
            repeated: told.repeated,
            over_rate: told.over_rate,
            contention: ContentionCounts { held, released, cancelled, dropped, full },
        }
    }
}

/// A GeoNetworking and BTP-B station.
///
/// Times (`now`) are in milliseconds and never go back. A call that returns an [`Error`] leaves the
/// station unchanged. `Station` is `Send` but not `Sync`: you can move it to another thread, but
/// you cannot share it between threads.
///
/// ```
/// fn sent<T: Send>() {}
/// sent::<geostation::Station>();
/// ```
///
/// ```compile_fail,E0277
/// fn shared<T: Sync>() {}
/// shared::<geostation::Station>();
/// ```
pub struct Station {
    handle: Handle,
}

impl fmt::Debug for Station {
    fn fmt(&self, f: &mut fmt::Formatter<'_>) -> fmt::Result {
        f.debug_struct("Station").finish_non_exhaustive()
    }
}

impl Station {
    /// Creates a station.
    ///
    /// # Errors
    ///
    /// - [`Error::BadArgument`] if a parameter is out of its range.
    /// - [`Error::NoMemory`] if an allocation fails.
    ///
    /// # Panics
    ///
    /// If the shared library that was loaded has another ABI than this crate.
    pub fn new(config: &Config) -> Result<Station, Error> {
        let (limits, rule) = (config.limits, config.contention.unwrap_or_default());
        let config = ffi::Config {
            address: config.address,
            latitude: config.latitude,
            longitude: config.longitude,
            capacity: config.capacity,
            remember: config.remember.into(),
            mobile: config.mobile.into(),
            number: config.number,
            forward_rate: limits.forward_rate,
            forward_burst: limits.forward_burst,
            source_rate: limits.source_rate,
            source_burst: limits.source_burst,
            own_rate: limits.own_rate,
            own_burst: limits.own_burst,
            hop_cap: limits.hop_cap.into(),
            deliver_once: limits.deliver_once.into(),
            area_forwarding: config.contention.is_some().into(), // contention is 1
            contention_max: rule.max.into(),
            contention_min: rule.min.into(),
            contention_range: rule.range.into(),
            contention_copies: rule.copies.into(),
            ..ffi::usual_config()
        };
        match Handle::new(&config) {
            Ok(handle) => Ok(Station { handle }),
            Err(status) => Err(Error::check(status).err().unwrap_or(Error::NoMemory)),
        }
    }

    /// Sets the position of the station. Its time stamp is `now`.
    ///
    /// # Errors
    ///
    /// - [`Error::MomentEarlier`] if `now` is earlier than in an earlier call,
    ///   [`Error::MomentTooLate`] if it is over [`LAST_MOMENT`](crate::LAST_MOMENT).
    /// - [`Error::BadArgument`] if a value is out of its range.
    pub fn move_to(&mut self, now: u64, place: &Place) -> Result<(), Error> {
        let Place { latitude, longitude, accurate, speed, heading } = *place;
        let there = (latitude, longitude);
        Error::check(self.handle.move_to(now, there, accurate, speed, heading))
    }

    /// Sets the position of the station, with the time stamp of the fix: in ms since 2004-01-01
    /// TAI, modulo 2^32. Use it for a GNSS receiver, which reports a position that is already
    /// slightly old.
    ///
    /// # Errors
    ///
    /// Those of [`Station::move_to`].
    pub fn move_at(&mut self, now: u64, timestamp: u32, place: &Place) -> Result<(), Error> {
        let Place { latitude, longitude, accurate, speed, heading } = *place;
        let there = (latitude, longitude);
        Error::check(self.handle.move_at(now, timestamp, there, accurate, speed, heading))
    }

    /// Opens a port. Payloads are delivered to open ports only.
    ///
    /// # Errors
    ///
    /// - [`Error::MomentEarlier`] if `now` is earlier than in an earlier call,
    ///   [`Error::MomentTooLate`] if it is over [`LAST_MOMENT`](crate::LAST_MOMENT).
    /// - [`Error::PortAlreadyOpen`] if it is already open.
    /// - [`Error::PortsFull`] if 64 ports are open.
    pub fn open_port(&mut self, now: u64, port: u16) -> Result<(), Error> {
        Error::check(self.handle.open_port(now, port))
    }

    /// Closes a port.
    ///
    /// # Errors
    ///
    /// - [`Error::MomentEarlier`] if `now` is earlier than in an earlier call,
    ///   [`Error::MomentTooLate`] if it is over [`LAST_MOMENT`](crate::LAST_MOMENT).
    /// - [`Error::PortNotOpen`] if it is not open.
    pub fn close_port(&mut self, now: u64, port: u16) -> Result<(), Error> {
        Error::check(self.handle.close_port(now, port))
    }

    /// Restarts the station: empties its location table and closes its ports. Its next packet for
    /// an area has this sequence number.
    ///
    /// # Errors
    ///
    /// - [`Error::MomentEarlier`] if `now` is earlier than in an earlier call,
    ///   [`Error::MomentTooLate`] if it is over [`LAST_MOMENT`](crate::LAST_MOMENT).
    pub fn restart(&mut self, now: u64, number: u16) -> Result<(), Error> {
        Error::check(self.handle.restart(now, number))
    }

    /// Writes the frame of a beacon if one is due, and returns it. `jitter` is 0 to 750 ms, chosen
    /// at random for each beacon. [`Station::beacon_at`] says when to call this.
    ///
    /// # Errors
    ///
    /// - [`Error::MomentEarlier`] if `now` is earlier than in an earlier call,
    ///   [`Error::MomentTooLate`] if it is over [`LAST_MOMENT`](crate::LAST_MOMENT).
    /// - [`Error::JitterRange`] if the jitter is over 750 ms.
    /// - [`Error::NoMemory`] if an allocation fails.
    /// - [`Error::NoRoom`] if the buffer is too short.
    pub fn tick<'a, B: Buffer + ?Sized>(
        &mut self,
        now: u64,
        jitter: u16,
        buffer: &'a mut B,
    ) -> Result<Option<&'a [u8]>, Error> {
        let told = self.handle.tick(now, jitter, buffer.room(FRAME_MAX));
        written(buffer, told).map(|frame| (!frame.is_empty()).then_some(frame))
    }

    /// Writes and returns the frame of a single-hop broadcast (SHB), for all stations in radio
    /// range.
    ///
    /// # Errors
    ///
    /// - [`Error::MomentEarlier`] if `now` is earlier than in an earlier call,
    ///   [`Error::MomentTooLate`] if it is over [`LAST_MOMENT`](crate::LAST_MOMENT).
    /// - [`Error::PayloadTooLong`] if the payload is over [`PAYLOAD_MAX`](crate::PAYLOAD_MAX)
    ///   bytes.
    /// - [`Error::NoMemory`] if an allocation fails.
    /// - [`Error::NoRoom`] if the buffer is too short.
    /// - [`Error::OverRate`] if own packets are over their rate.
    pub fn send_shb<'a, B: Buffer + ?Sized>(
        &mut self,
        now: u64,
        request: &ShbRequest,
        payload: &[u8],
        buffer: &'a mut B,
    ) -> Result<&'a [u8], Error> {
        let ShbRequest { port, info, traffic_class } = *request;
        let request = ffi::ShbRequest { port, info, traffic_class };
        let told = self.handle.send_shb(now, &request, payload, buffer.room(FRAME_MAX));
        written(buffer, told)
    }

    /// Writes and returns the frame of a single-hop broadcast (SHB) with this lifetime and these
    /// media-dependent data. [`Station::send_shb`] uses those of [`ShbOptions::default`].
    ///
    /// ```
    /// # use geostation::{Config, ShbOptions, ShbRequest, Station};
    /// # fn main() -> Result<(), geostation::Error> {
    /// # let mut station = Station::new(&Config::new(0x1400_0200_0000_0001, 0, 0))?;
    /// # let mut buffer = Vec::new();
    /// # let request = ShbRequest { port: 2001, info: 0, traffic_class: 2 };
    /// let options = ShbOptions { media: [77, 90, 0, 0], ..ShbOptions::default() };
    /// let frame = station.send_shb_with(1000, &request, &options, b"hi", &mut buffer)?;
    /// # assert_eq!([77, 90, 0, 0], frame[50..54]);
    /// # Ok(())
    /// # }
    /// ```
    ///
    /// # Errors
    ///
    /// Those of [`Station::send_shb`].
    pub fn send_shb_with<'a, B: Buffer + ?Sized>(
        &mut self,
        now: u64,
        request: &ShbRequest,
        options: &ShbOptions,
        payload: &[u8],
        buffer: &'a mut B,
    ) -> Result<&'a [u8], Error> {
        let ShbRequest { port, info, traffic_class } = *request;
        let ShbOptions { lifetime, media } = *options;
        let request = ffi::ShbRequest { port, info, traffic_class };
        let options = ffi::ShbOptions { lifetime, media };
        let room = buffer.room(FRAME_MAX);
        let told = self.handle.send_shb_with(now, &request, &options, payload, room);
        written(buffer, told)
    }

    /// Writes and returns the frame of a single-hop broadcast (SHB) with this lifetime byte: 6 bits
    /// of multiplier, 2 bits of base. [`Station::send_shb`] uses 0x1a, which is 60 s.
    ///
    /// # Errors
    ///
    /// Those of [`Station::send_shb`].
    pub fn send_shb_with_lifetime<'a, B: Buffer + ?Sized>(
        &mut self,
        now: u64,
        request: &ShbRequest,
        lifetime: u8,
        payload: &[u8],
        buffer: &'a mut B,
    ) -> Result<&'a [u8], Error> {
        let options = ShbOptions { lifetime, ..ShbOptions::default() };
        self.send_shb_with(now, request, &options, payload, buffer)
    }

    /// The former name of [`Station::send_shb_with_lifetime`].
    ///
    /// # Errors
    ///
    /// Those of [`Station::send_shb`].
    #[deprecated(note = "use send_shb_with_lifetime")]
    pub fn send_shb_for<'a, B: Buffer + ?Sized>(
        &mut self,
        now: u64,
        request: &ShbRequest,
        lifetime: u8,
        payload: &[u8],
        buffer: &'a mut B,
    ) -> Result<&'a [u8], Error> {
        self.send_shb_with_lifetime(now, request, lifetime, payload, buffer)
    }

    /// Writes and returns the frame of a geobroadcast (GBC), for all stations in an area.
    ///
    /// ```
    /// # use geostation::{Area, AreaRequest, Config, Shape, Station};
    /// # fn main() -> Result<(), geostation::Error> {
    /// let mut station = Station::new(&Config::new(0x1400_0200_0000_0001, 514776500, -10000))?;
    /// let shape = Shape::Circle { radius: 500 };
    /// let area = Area { latitude: 514776500, longitude: -10000, shape };
    /// let mut buffer = Vec::new();
    /// let frame = station.send_gbc(1000, &AreaRequest::new(2002, area), b"ice", &mut buffer)?;
    /// // Send `frame`: here it is read again.
    /// let packet = geostation::read_frame(frame).unwrap();
    /// assert_eq!(b"ice", packet.message().unwrap().payload);
    /// assert_eq!(10, packet.hops_left);
    /// # Ok(())
    /// # }
    /// ```
    ///
    /// # Errors
    ///
    /// - [`Error::MomentEarlier`] if `now` is earlier than in an earlier call,
    ///   [`Error::MomentTooLate`] if it is over [`LAST_MOMENT`](crate::LAST_MOMENT).
    /// - [`Error::BadArgument`] if the area is not valid.
    /// - [`Error::PayloadTooLong`] if the payload is over [`PAYLOAD_MAX`](crate::PAYLOAD_MAX)
    ///   bytes.
    /// - [`Error::HopLimitZero`] if the hop limit is 0.
    /// - [`Error::NoMemory`] if an allocation fails.
    /// - [`Error::NoRoom`] if the buffer is too short.
    /// - [`Error::OverRate`] if own packets are over their rate.
    pub fn send_gbc<'a, B: Buffer + ?Sized>(
        &mut self,
        now: u64,
        request: &AreaRequest,
        payload: &[u8],
        buffer: &'a mut B,
    ) -> Result<&'a [u8], Error> {
        let told = self.handle.send_gbc(now, &request.numbers(), payload, buffer.room(FRAME_MAX));
        written(buffer, told)
    }

    /// Writes and returns the frame of a geoanycast (GAC), for any one station in an area.
    ///
    /// # Errors
    ///
    /// Those of [`Station::send_gbc`].
    pub fn send_gac<'a, B: Buffer + ?Sized>(
        &mut self,
        now: u64,
        request: &AreaRequest,
        payload: &[u8],
        buffer: &'a mut B,
    ) -> Result<&'a [u8], Error> {
        let told = self.handle.send_gac(now, &request.numbers(), payload, buffer.room(FRAME_MAX));
        written(buffer, told)
    }

    /// Processes a received frame. If the packet is to be forwarded, the frame to send is written
    /// to the buffer. On a radio, send it after a random wait below 2 ms: otherwise the frames of
    /// all stations that forward it collide.
    ///
    /// With [`Config::contention`] the station may hold that frame instead: `due` of the result is
    /// the time at which [`Station::release`] returns it.
    ///
    /// In frames of up to 60 bytes, zeros after the packet are ignored: Ethernet pads short frames.
    ///
    /// # Errors
    ///
    /// - [`Error::MomentEarlier`] if `now` is earlier than in an earlier call,
    ///   [`Error::MomentTooLate`] if it is over [`LAST_MOMENT`](crate::LAST_MOMENT).
    /// - [`Error::BadFrame`] if the bytes are not a valid frame.
    /// - [`Error::TableFull`] if the source is new and the location table is full.
    /// - [`Error::NoMemory`] if an allocation fails.
    /// - [`Error::NoRoom`] if the buffer is too short.
    ///
    /// # Borrowing
    ///
    /// The payload borrows the frame, and `relay` borrows the buffer. The borrow checker rejects a
    /// program that drops or reuses either of them too early.
    ///
    /// ```compile_fail,E0597
    /// # use geostation::{Config, Station};
    /// let mut station = Station::new(&Config::new(0x1400_0200_0000_0001, 0, 0)).unwrap();
    /// let mut relay = Vec::new();
    /// let received = {
    ///     let frame = vec![0; 50];
    ///     station.receive(0, &frame, &mut relay)
    /// };
    /// drop(received);
    /// ```
    ///
    /// ```compile_fail,E0499
    /// # use geostation::{Config, Station};
    /// let mut station = Station::new(&Config::new(0x1400_0200_0000_0001, 0, 0)).unwrap();
    /// let mut relay = Vec::new();
    /// let first = station.receive(0, &[0; 50], &mut relay);
    /// let second = station.receive(0, &[0; 50], &mut relay);
    /// drop((first, second));
    /// ```
    pub fn receive<'a, B: Buffer + ?Sized>(
        &mut self,
        now: u64,
        frame: &'a [u8],
        buffer: &'a mut B,
    ) -> Result<Received<'a>, Error> {
        let (status, r) = self.handle.receive(now, frame, buffer.room(FRAME_MAX));
        Received::shown(status, &r, frame, buffer.keep(r.relay_length))
    }

    /// Processes a secured frame whose message was verified: what [`Station::receive`] does with
    /// the same packet in an unsecured frame. If the packet is to be forwarded, the secured frame
    /// to send is written to the buffer: the received one with new link addresses and one hop less.
    ///
    /// `plain` is the plain part that your security entity returned for the frame's message. The
    /// station does not compare the two, and does not judge when the message was signed. The
    /// lifetime, the remaining hop limit and the link addresses are not signed.
    ///
    /// # Errors
    ///
    /// - [`Error::MomentEarlier`] if `now` is earlier than in an earlier call,
    ///   [`Error::MomentTooLate`] if it is over [`LAST_MOMENT`](crate::LAST_MOMENT).
    /// - [`Error::BadFrame`] if the bytes are not a secured frame, or are not a valid packet with
    ///   the plain part (`layer` 6 of the [`Fault`]).
    /// - [`Error::TableFull`] if the source is new and the location table is full.
    /// - [`Error::NoMemory`] if an allocation fails.
    /// - [`Error::NoRoom`] if the buffer is shorter than
    ///   [`SECURED_FRAME_MAX`](crate::SECURED_FRAME_MAX).
    ///
    /// ```
    /// # use geostation::{message_of, plain_part, seal, Area, AreaRequest, Config, Shape, Station};
    /// # fn main() -> Result<(), geostation::Error> {
    /// # let mut car = Station::new(&Config::new(0x1400_0200_0000_0001, 0, 0))?;
    /// # let mut truck = Station::new(&Config::new(0x1400_0200_0000_0002, 449, 0))?;
    /// # truck.open_port(0, 2002)?;
    /// # let circle = Area { latitude: 0, longitude: 0, shape: Shape::Circle { radius: 100 } };
    /// # let sign = |plain: &[u8]| plain.to_vec();
    /// # let verify = |message: &[u8]| message.to_vec();
    /// let (mut sent, mut sealed, mut relay) = (Vec::new(), Vec::new(), Vec::new());
    /// let frame = car.send_gbc(1000, &AreaRequest::new(2002, circle), b"ice", &mut sent)?;
    /// let message = sign(plain_part(frame).unwrap()); // `sign` and `verify` are yours
    /// let secured = seal(frame, &message, &mut sealed)?;
    ///
    /// let plain = verify(message_of(secured).unwrap());
    /// let received = truck.receive_verified(1001, secured, &plain, &mut relay)?;
    /// assert_eq!(b"ice", received.delivered.unwrap().payload);
    /// assert_eq!(Some(&message[..]), message_of(received.relay.unwrap()));
    /// # Ok(())
    /// # }
    /// ```
    pub fn receive_verified<'a, B: Buffer + ?Sized>(
        &mut self,
        now: u64,
        frame: &[u8],
        plain: &'a [u8],
        buffer: &'a mut B,
    ) -> Result<Received<'a>, Error> {
        let room = buffer.room(SECURED_FRAME_MAX);
        let (status, r) = self.handle.receive_verified(now, frame, plain, room);
        Received::shown(status, &r, plain, buffer.keep(r.relay_length))
    }

    /// Writes and returns a held frame that is due, or `None`. Send it at once, and call this again
    /// until it returns `None`. It needs [`Config::contention`].
    ///
    /// Sleep until [`Station::next_due`], on a radio plus a random time below 2 ms that you choose
    /// again when the result has changed. Pass received frames to [`Station::receive`] first: they
    /// may cancel what is due. Frames that were due more than 1000 ms before `now` are dropped. The
    /// call does not change the station's clock.
    ///
    /// # Errors
    ///
    /// - [`Error::MomentEarlier`] if `now` is earlier than in an earlier call,
    ///   [`Error::MomentTooLate`] if it is over [`LAST_MOMENT`](crate::LAST_MOMENT).
    /// - [`Error::NoRoom`] if the buffer is shorter than a held frame:
    ///   [`SECURED_FRAME_MAX`](crate::SECURED_FRAME_MAX) is enough.
    ///
    /// ```
    /// # use geostation::{Area, AreaRequest, Config, Contention, Shape, Station};
    /// # fn main() -> Result<(), geostation::Error> {
    /// # let mut car = Station::new(&Config::new(0x1400_0200_0000_0001, 0, 0))?;
    /// # let circle = Area { latitude: 0, longitude: 0, shape: Shape::Circle { radius: 100 } };
    /// # let (mut sent, mut relay) = (Vec::new(), Vec::new());
    /// let mut config = Config::new(0x1400_0200_0000_0002, 449, 0);
    /// config.contention = Some(Contention::default());
    /// let mut truck = Station::new(&config)?;
    /// let frame = car.send_gbc(1000, &AreaRequest::new(2002, circle), b"ice", &mut sent)?;
    /// let due = truck.receive(1001, frame, &mut relay)?.due.unwrap();
    /// assert_eq!(Some(due), truck.next_due());
    /// assert!(truck.release(due, &mut relay)?.is_some());
    /// assert!(truck.release(due, &mut relay)?.is_none());
    /// # Ok(())
    /// # }
    /// ```
    pub fn release<'a, B: Buffer + ?Sized>(
        &mut self,
        now: u64,
        buffer: &'a mut B,
    ) -> Result<Option<&'a [u8]>, Error> {
        let told = self.handle.release(now, buffer.room(SECURED_FRAME_MAX));
        written(buffer, told).map(|frame| (!frame.is_empty()).then_some(frame))
    }

    /// Returns the earliest time at which [`Station::release`] returns a held frame, in ms; `None`
    /// if no frame is held.
    pub fn next_due(&self) -> Option<u64> {
        Some(self.handle.next_due()).filter(|moment| *moment != u64::MAX)
    }

    /// Returns the earliest time at which [`Station::tick`] with this jitter returns a beacon, in
    /// ms; `None` if the jitter is over 750 ms.
    ///
    /// Choose a jitter at random for each beacon, and pass it to each `tick` until one returns the
    /// beacon. Call `beacon_at` again after you have sent a packet and after a restart, but not
    /// after receiving a frame. The result is never earlier than the time of the last call. So on
    /// a busy channel, a wait that begins again with each frame might never end.
    pub fn beacon_at(&self, jitter: u16) -> Option<u64> {
        Some(self.handle.beacon_at(jitter)).filter(|moment| *moment != u64::MAX)
    }

    /// Returns the earliest time at which [`Station::tick`] with jitter 0 returns a beacon, in ms.
    pub fn next_beacon(&self) -> u64 {
        self.handle.beacon_at(0)
    }

    /// Executes one JSON request at time `now`, as the command `geostation station` does. An `at`
    /// key in the line is ignored.
    ///
    /// Afterwards `answer` holds one JSON object without a line feed; it is empty for a blank line.
    /// Failed calls and malformed lines are reported there. `number` is the line number for a
    /// malformed line. Returns the frame to send, which may be empty. A thread that calls this
    /// should have 96 KB of stack.
    ///
    /// # Errors
    ///
    /// - [`Error::NoMemory`] if an allocation fails.
    /// - [`Error::NoRoom`] if the buffer is too short. A line whose command is `seal` or `release`,
    ///   or `receive` with a key `plain`, needs [`SECURED_FRAME_MAX`](crate::SECURED_FRAME_MAX).
    ///
    /// ```
    /// # use geostation::{Config, Station};
    /// # fn main() -> Result<(), geostation::Error> {
    /// let mut station = Station::new(&Config::new(0x1400_0200_0000_0001, 0, 0))?;
    /// let (mut answer, mut frame) = (Vec::new(), Vec::new());
    /// station.handle_json(7, 1, br#"{"do":"open","port":2002}"#, &mut answer, &mut frame)?;
    /// assert_eq!(answer, br#"{"at":7,"result":"opened"}"#);
    /// # Ok(())
    /// # }
    /// ```
    pub fn handle_json<'b, B: Buffer + ?Sized>(
        &mut self,
        now: u64,
        number: u64,
        line: &[u8],
        answer: &mut Vec<u8>,
        buffer: &'b mut B,
    ) -> Result<&'b [u8], Error> {
        let room = buffer.room(SECURED_FRAME_MAX);
        let done = self.handle.handle_json(now, number, line, answer, room);
        written(buffer, done)
    }

    /// Executes one JSON request at time `now` as [`Station::handle_json`] does, but within the
    /// limits of the station, and only if `rights` has the bit of the right that it needs: 1 to
    /// send (`shb`, `gbc`, `gac`, `tick`), 2 to receive a frame, 4 to move, 8 to open and close
    /// ports, 16 to restart. A line without its right changes nothing. Queries need none. Returns
    /// what was asked, the outcome, and the frame to send, which may be empty.
    ///
    /// # Errors
    ///
    /// Those of [`Station::handle_json`].
    ///
    /// ```
    /// # use geostation::{Config, Station};
    /// # fn main() -> Result<(), geostation::Error> {
    /// let mut station = Station::new(&Config::new(0x1400_0200_0000_0001, 0, 0))?;
    /// let (mut answer, mut frame) = (Vec::new(), Vec::new());
    /// let line = br#"{"do":"open","port":2002}"#;
    /// let (done, _) = station.handle_line(7, 1, line, 1 | 8, &mut answer, &mut frame)?;
    /// assert_eq!((done.outcome, done.port), (1, 2002));
    /// # Ok(())
    /// # }
    /// ```
    pub fn handle_line<'b, B: Buffer + ?Sized>(
        &mut self,
        now: u64,
        number: u64,
        line: &[u8],
        rights: u32,
        answer: &mut Vec<u8>,
        buffer: &'b mut B,
    ) -> Result<(LineResult, &'b [u8]), Error> {
        let room = buffer.room(SECURED_FRAME_MAX);
        let (status, told) = self.handle.handle_line(now, number, line, rights, answer, room);
        let frame = written(buffer, (status, told.frame_length))?;
        Ok((LineResult::told(&told), frame))
    }

    /// The former name of [`Station::handle_json`].
    ///
    /// # Errors
    ///
    /// Those of [`Station::handle_json`].
    #[deprecated(note = "use handle_json")]
    pub fn serve<'b, B: Buffer + ?Sized>(
        &mut self,
        now: u64,
        number: u64,
        line: &[u8],
        answer: &mut Vec<u8>,
        buffer: &'b mut B,
    ) -> Result<&'b [u8], Error> {
        self.handle_json(now, number, line, answer, buffer)
    }

    /// Returns the sequence number of the station's next packet for an area.
    pub fn next_number(&self) -> u16 {
        self.handle.next_number()
    }

    /// Returns the counters of the station. A restart keeps them.
    pub fn counts(&self) -> Counts {
        Counts::shown(&self.handle.counts())
    }

    /// Returns the newest position vector of the live source with this address. A source is live
    /// for 20 s after its last new packet.
    ///
    /// It is `None` at a time before the last call, or over [`LAST_MOMENT`](crate::LAST_MOMENT).
    pub fn look_up(&self, now: u64, address: u64) -> Option<Vector> {
        self.handle.look_up(now, address).as_ref().map(Vector::shown)
    }

    /// Iterates over the position vectors of the live neighbours, by ascending address. A neighbour
    /// is a live source whose frames arrive directly.
    ///
    /// It is empty at a time before the last call, or over [`LAST_MOMENT`](crate::LAST_MOMENT). A
    /// neighbour with address 0 is found by [`Station::look_up`] only.
    ///
    /// ```compile_fail,E0502
    /// # use geostation::{Config, Station};
    /// let mut station = Station::new(&Config::new(0x1400_0200_0000_0001, 0, 0)).unwrap();
    /// for neighbour in station.neighbours(0) {
    ///     station.open_port(0, 2002);
    /// }
    /// ```
    pub fn neighbours(&self, now: u64) -> Neighbours<'_> {
        Neighbours { station: self, now, after: Some(0) }
    }
}

/// An iterator over the position vectors of live neighbours: see [`Station::neighbours`].
#[derive(Debug)]
pub struct Neighbours<'a> {
    station: &'a Station,
    now: u64,
    after: Option<u64>,
}

impl Iterator for Neighbours<'_> {
    type Item = Vector;

    fn next(&mut self) -> Option<Vector> {
        let found = self.station.handle.neighbour(self.now, self.after?);
        self.after = found.as_ref().map(|vector| vector.address);
        found.as_ref().map(Vector::shown)
    }
}

impl FusedIterator for Neighbours<'_> {}
