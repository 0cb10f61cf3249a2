//! The structs and functions of `geostation.h`, with a safe wrapper for each function.
//!
//! All `unsafe` code of this crate is here, one block per call. It rests on these facts:
//!
//! - A [`Handle`] comes from `geostation_new_from_config` and is freed once, when it is dropped.
//! - A handle isn't `Sync`, so it can't be in two calls at once.
//! - Pointers and lengths are those of slices and references.
//! - What a call writes to is borrowed mutably, so it overlaps no other argument.
//! - The library keeps none of these pointers.
//! - The structs are those of the library: its ABI is compared before one is passed to it.

use crate::abi::ABI;
use crate::ANSWER_MAX;
use std::ffi::{c_char, c_int, CStr};
use std::ptr::{null_mut, NonNull};

/// `struct geostation`, of which only the address is known here.
#[repr(C)]
struct Opaque {
    _octets: [u8; 0],
}

/// `struct geostation_reception`.
#[repr(C)]
#[derive(Default)]
pub(crate) struct Reception {
    pub(crate) ignored: u32,
    pub(crate) delivered: u32,
    pub(crate) port: u16,
    pub(crate) info: u16,
    pub(crate) media: [u8; 4],
    pub(crate) payload_start: usize,
    pub(crate) payload_length: usize,
    pub(crate) relay_length: usize,
    pub(crate) fault: u32,
    pub(crate) fault_kind: u32,
    pub(crate) fault_at: usize,
    pub(crate) source: u64,
    pub(crate) kind: u32,
    pub(crate) number: u16,
    pub(crate) traffic_class: u8,
    pub(crate) hops_left: u8,
    pub(crate) due: u64,
    pub(crate) held: u32,
    pub(crate) cancelled: u32,
}

/// `struct geostation_config`.
#[repr(C)]
#[derive(Default)]
pub(crate) struct Config {
    pub(crate) size: u64,
    pub(crate) address: u64,
    pub(crate) latitude: i32,
    pub(crate) longitude: i32,
    pub(crate) capacity: u16,
    pub(crate) remember: u16,
    pub(crate) mobile: u16,
    pub(crate) number: u16,
    pub(crate) forward_rate: u32,
    pub(crate) forward_burst: u32,
    pub(crate) source_rate: u32,
    pub(crate) source_burst: u32,
    pub(crate) own_rate: u32,
    pub(crate) own_burst: u32,
    pub(crate) hop_cap: u32,
    pub(crate) deliver_once: u32,
    pub(crate) area_forwarding: u32,
    pub(crate) contention_max: u32,
    pub(crate) contention_min: u32,
    pub(crate) contention_range: u32,
    pub(crate) contention_copies: u32,
}

/// `struct geostation_counts`.
#[repr(C)]
#[derive(Default)]
pub(crate) struct Counts {
    pub(crate) received: u64,
    pub(crate) accepted: u64,
    pub(crate) delivered: u64,
    pub(crate) relayed: u64,
    pub(crate) ignored: [u64; 4],
    pub(crate) refused: [u64; 6],
    pub(crate) sent: [u64; 4],
    pub(crate) suppressed: u64,
    pub(crate) repeated: u64,
    pub(crate) over_rate: u64,
    pub(crate) contention: [u64; 5],
}

/// `struct geostation_shb_request`.
#[repr(C)]
pub(crate) struct ShbRequest {
    pub(crate) port: u16,
    pub(crate) info: u16,
    pub(crate) traffic_class: u8,
}

/// `struct geostation_shb_options`.
#[repr(C)]
pub(crate) struct ShbOptions {
    pub(crate) lifetime: u8,
    pub(crate) media: [u8; 4],
}

/// `struct geostation_area_request`.
#[repr(C)]
pub(crate) struct AreaRequest {
    pub(crate) port: u16,
    pub(crate) info: u16,
    pub(crate) traffic_class: u8,
    pub(crate) lifetime: u8,
    pub(crate) max_hops: u8,
    pub(crate) shape: u8,
    pub(crate) latitude: i32,
    pub(crate) longitude: i32,
    pub(crate) a: u16,
    pub(crate) b: u16,
    pub(crate) angle: u16,
}

/// `struct geostation_vector`.
#[repr(C)]
#[derive(Default)]
pub(crate) struct Vector {
    pub(crate) address: u64,
    pub(crate) timestamp: u32,
    pub(crate) latitude: i32,
    pub(crate) longitude: i32,
    pub(crate) speed: i16,
    pub(crate) heading: u16,
    pub(crate) accurate: u8,
}

/// `struct geostation_line_result`.
#[repr(C)]
#[derive(Default)]
pub(crate) struct LineResult {
    pub(crate) command: u32,
    pub(crate) outcome: u32,
    pub(crate) status: i32,
    pub(crate) port: u16,
    pub(crate) number: u16,
    pub(crate) payload_length: usize,
    pub(crate) answer_length: usize,
    pub(crate) id_length: usize,
    pub(crate) frame_length: usize,
    pub(crate) vector: Vector,
}

/// `struct geostation_area`.
#[repr(C)]
#[derive(Default)]
pub(crate) struct Area {
    pub(crate) latitude: i32,
    pub(crate) longitude: i32,
    pub(crate) a: u16,
    pub(crate) b: u16,
    pub(crate) angle: u16,
    pub(crate) shape: u8,
}

/// `struct geostation_message`.
#[repr(C)]
#[derive(Default)]
pub(crate) struct Message {
    pub(crate) payload_start: usize,
    pub(crate) payload_length: usize,
    pub(crate) port: u16,
    pub(crate) info: u16,
}

/// `struct geostation_packet`.
#[repr(C)]
#[derive(Default)]
pub(crate) struct Packet {
    pub(crate) target: [u8; 6],
    pub(crate) source: [u8; 6],
    pub(crate) kind: u32,
    pub(crate) vector: Vector,
    pub(crate) hops_left: u8,
    pub(crate) max_hops: u8,
    pub(crate) lifetime: u8,
    pub(crate) traffic_class: u8,
    pub(crate) mobile: u8,
    pub(crate) media: [u8; 4],
    pub(crate) number: u16,
    pub(crate) area: Area,
    pub(crate) message: Message,
    pub(crate) fault: u32,
    pub(crate) fault_kind: u32,
    pub(crate) fault_at: usize,
}

// The sizes that the header asserts. 32-bit targets are not supported.
const _: () = {
    use std::mem::size_of;
    assert!(size_of::<Reception>() == 88 && size_of::<Packet>() == 120);
    assert!(size_of::<Message>() == 24);
    assert!(size_of::<Config>() == 88 && size_of::<Counts>() == 208);
    assert!(size_of::<ShbRequest>() == 6 && size_of::<ShbOptions>() == 5);
    assert!(size_of::<AreaRequest>() == 24);
    assert!(size_of::<Vector>() == 32 && size_of::<Area>() == 16);
    assert!(size_of::<LineResult>() == 80);
};

type SendToArea = unsafe extern "C" fn(
    *mut Opaque,
    u64,
    *const AreaRequest,
    *const u8,
    usize,
    *mut u8,
    usize,
    *mut usize,
) -> c_int;

extern "C" {
    fn geostation_abi() -> u32;
    fn geostation_config_init(config: *mut Config);
    fn geostation_new_from_config(out: *mut *mut Opaque, config: *const Config) -> c_int;
    fn geostation_free(s: *mut Opaque);
    fn geostation_move(
        s: *mut Opaque,
        now: u64,
        latitude: i32,
        longitude: i32,
        accurate: u8,
        speed: i16,
        heading: u16,
    ) -> c_int;
    fn geostation_move_at(
        s: *mut Opaque,
        now: u64,
        timestamp: u32,
        latitude: i32,
        longitude: i32,
        accurate: u8,
        speed: i16,
        heading: u16,
    ) -> c_int;
    fn geostation_open_port(s: *mut Opaque, now: u64, port: u16) -> c_int;
    fn geostation_close_port(s: *mut Opaque, now: u64, port: u16) -> c_int;
    fn geostation_restart(s: *mut Opaque, now: u64, number: u16) -> c_int;
    fn geostation_tick(
        s: *mut Opaque,
        now: u64,
        jitter: u16,
        frame: *mut u8,
        room: usize,
        length: *mut usize,
    ) -> c_int;
    fn geostation_send_shb(
        s: *mut Opaque,
        now: u64,
        request: *const ShbRequest,
        payload: *const u8,
        payload_length: usize,
        frame: *mut u8,
        room: usize,
        length: *mut usize,
    ) -> c_int;
    fn geostation_send_shb_with(
        s: *mut Opaque,
        now: u64,
        request: *const ShbRequest,
        options: *const ShbOptions,
        payload: *const u8,
        payload_length: usize,
        frame: *mut u8,
        room: usize,
        length: *mut usize,
    ) -> c_int;
    fn geostation_send_gbc(
        s: *mut Opaque,
        now: u64,
        request: *const AreaRequest,
        payload: *const u8,
        payload_length: usize,
        frame: *mut u8,
        room: usize,
        length: *mut usize,
    ) -> c_int;
    fn geostation_send_gac(
        s: *mut Opaque,
        now: u64,
        request: *const AreaRequest,
        payload: *const u8,
        payload_length: usize,
        frame: *mut u8,
        room: usize,
        length: *mut usize,
    ) -> c_int;
    fn geostation_receive(
        s: *mut Opaque,
        now: u64,
        frame: *const u8,
        length: usize,
        out: *mut Reception,
        relay: *mut u8,
        room: usize,
    ) -> c_int;
    fn geostation_receive_verified(
        s: *mut Opaque,
        now: u64,
        frame: *const u8,
        length: usize,
        plain: *const u8,
        plain_length: usize,
        out: *mut Reception,
        relay: *mut u8,
        room: usize,
    ) -> c_int;
    fn geostation_release(
        s: *mut Opaque,
        now: u64,
        frame: *mut u8,
        room: usize,
        length: *mut usize,
    ) -> c_int;
    fn geostation_message(
        frame: *const u8,
        length: usize,
        start: *mut usize,
        message_length: *mut usize,
    ) -> c_int;
    fn geostation_plain_part(
        frame: *const u8,
        length: usize,
        start: *mut usize,
        plain_length: *mut usize,
    ) -> c_int;
    fn geostation_seal(
        frame: *const u8,
        length: usize,
        message: *const u8,
        message_length: usize,
        out: *mut u8,
        room: usize,
        out_length: *mut usize,
    ) -> c_int;
    fn geostation_handle_json(
        s: *mut Opaque,
        now: u64,
        number: u64,
        line: *const u8,
        line_length: usize,
        answer: *mut u8,
        answer_room: usize,
        answer_length: *mut usize,
        frame: *mut u8,
        frame_room: usize,
        frame_length: *mut usize,
    ) -> c_int;
    fn geostation_handle_line(
        s: *mut Opaque,
        now: u64,
        number: u64,
        line: *const u8,
        line_length: usize,
        rights: u32,
        answer: *mut u8,
        answer_room: usize,
        frame: *mut u8,
        frame_room: usize,
        out: *mut LineResult,
    ) -> c_int;
    fn geostation_next_due(s: *const Opaque) -> u64;
    fn geostation_next_number(s: *const Opaque) -> u16;
    fn geostation_beacon_at(s: *const Opaque, jitter: u16) -> u64;
    fn geostation_counts(s: *const Opaque, out: *mut Counts);
    fn geostation_frame_length(octets: *const u8, length: usize) -> usize;
    fn geostation_neighbour(s: *const Opaque, now: u64, after: u64, out: *mut Vector) -> c_int;
    fn geostation_look_up(s: *const Opaque, now: u64, address: u64, out: *mut Vector) -> c_int;
    fn geostation_read_frame(frame: *const u8, length: usize, out: *mut Packet) -> c_int;
    fn geostation_status_text(status: c_int) -> *const c_char;
    fn geostation_fault_text(fault: u32, fault_kind: u32) -> *const c_char;
}

/// The result of a call that may write a frame: its status, and the length of the frame.
pub(crate) type Written = (c_int, usize);

/// A station of the library, which is freed with this value.
pub(crate) struct Handle(NonNull<Opaque>);

// SAFETY: the library has no global state and no thread-local data, so a handle is not bound to a
// thread. It isn't `Sync`, because queries count as calls too.
unsafe impl Send for Handle {}

impl Drop for Handle {
    fn drop(&mut self) {
        // SAFETY: the handle comes from `geostation_new_from_config`, and isn't used after this.
        unsafe { geostation_free(self.0.as_ptr()) }
    }
}

impl Handle {
    pub(crate) fn new(config: &Config) -> Result<Handle, c_int> {
        let mut out = null_mut();
        // SAFETY: the call writes a handle or NULL to `out`, and only reads the config.
        let status = unsafe { geostation_new_from_config(&mut out, config) };
        NonNull::new(out).map(Handle).ok_or(status)
    }

    pub(crate) fn move_to(
        &mut self,
        now: u64,
        (latitude, longitude): (i32, i32),
        accurate: bool,
        speed: i16,
        heading: u16,
    ) -> c_int {
        let (s, accurate) = (self.0.as_ptr(), accurate.into());
        // SAFETY: the handle is valid, and in no other call.
        unsafe { geostation_move(s, now, latitude, longitude, accurate, speed, heading) }
    }

    pub(crate) fn move_at(
        &mut self,
        now: u64,
        timestamp: u32,
        (latitude, longitude): (i32, i32),
        accurate: bool,
        speed: i16,
        heading: u16,
    ) -> c_int {
        let (s, accurate) = (self.0.as_ptr(), accurate.into());
        // SAFETY: the handle is valid, and in no other call.
        unsafe {
            geostation_move_at(s, now, timestamp, latitude, longitude, accurate, speed, heading)
        }
    }

    pub(crate) fn open_port(&mut self, now: u64, port: u16) -> c_int {
        // SAFETY: the handle is valid, and in no other call.
        unsafe { geostation_open_port(self.0.as_ptr(), now, port) }
    }

    pub(crate) fn close_port(&mut self, now: u64, port: u16) -> c_int {
        // SAFETY: the handle is valid, and in no other call.
        unsafe { geostation_close_port(self.0.as_ptr(), now, port) }
    }

    pub(crate) fn restart(&mut self, now: u64, number: u16) -> c_int {
        // SAFETY: the handle is valid, and in no other call.
        unsafe { geostation_restart(self.0.as_ptr(), now, number) }
    }

    pub(crate) fn tick(&mut self, now: u64, jitter: u16, frame: &mut [u8]) -> Written {
        let (s, mut length) = (self.0.as_ptr(), 0);
        // SAFETY: the handle is valid, and in no other call; the buffer has the given length.
        let status = unsafe {
            geostation_tick(s, now, jitter, frame.as_mut_ptr(), frame.len(), &mut length)
        };
        (status, length)
    }

    pub(crate) fn send_shb(
        &mut self,
        now: u64,
        request: &ShbRequest,
        payload: &[u8],
        frame: &mut [u8],
    ) -> Written {
        let (s, mut length) = (self.0.as_ptr(), 0);
        let (octets, room) = (frame.as_mut_ptr(), frame.len());
        let (given, count) = (payload.as_ptr(), payload.len());
        // SAFETY: the handle is valid, and in no other call; both slices have the given lengths,
        // and don't overlap, as one of them is borrowed mutably.
        let status = unsafe {
            geostation_send_shb(s, now, request, given, count, octets, room, &mut length)
        };
        (status, length)
    }

    pub(crate) fn send_shb_with(
        &mut self,
        now: u64,
        request: &ShbRequest,
        options: &ShbOptions,
        payload: &[u8],
        frame: &mut [u8],
    ) -> Written {
        let (s, mut length) = (self.0.as_ptr(), 0);
        let (octets, room) = (frame.as_mut_ptr(), frame.len());
        let (given, count) = (payload.as_ptr(), payload.len());
        // SAFETY: as for `geostation_send_shb`.
        let status = unsafe {
            geostation_send_shb_with(
                s,
                now,
                request,
                options,
                given,
                count,
                octets,
                room,
                &mut length,
            )
        };
        (status, length)
    }

    pub(crate) fn send_gbc(
        &mut self,
        now: u64,
        request: &AreaRequest,
        payload: &[u8],
        frame: &mut [u8],
    ) -> Written {
        self.send_to_area(geostation_send_gbc, now, request, payload, frame)
    }

    pub(crate) fn send_gac(
        &mut self,
        now: u64,
        request: &AreaRequest,
        payload: &[u8],
        frame: &mut [u8],
    ) -> Written {
        self.send_to_area(geostation_send_gac, now, request, payload, frame)
    }

    fn send_to_area(
        &mut self,
        call: SendToArea,
        now: u64,
        request: &AreaRequest,
        payload: &[u8],
        frame: &mut [u8],
    ) -> Written {
        let (s, mut length) = (self.0.as_ptr(), 0);
        let (octets, room) = (frame.as_mut_ptr(), frame.len());
        let (given, count) = (payload.as_ptr(), payload.len());
        // SAFETY: as for `geostation_send_shb`; `call` is one of the two above.
        let status = unsafe { call(s, now, request, given, count, octets, room, &mut length) };
        (status, length)
    }

    pub(crate) fn receive(
        &mut self,
        now: u64,
        frame: &[u8],
        relay: &mut [u8],
    ) -> (c_int, Reception) {
        let (s, mut out) = (self.0.as_ptr(), Reception::default());
        let (octets, room) = (relay.as_mut_ptr(), relay.len());
        // SAFETY: the handle is valid, and in no other call; both slices have the given lengths,
        // and don't overlap, as one of them is borrowed mutably.
        let status = unsafe {
            geostation_receive(s, now, frame.as_ptr(), frame.len(), &mut out, octets, room)
        };
        (status, out)
    }

    pub(crate) fn receive_verified(
        &mut self,
        now: u64,
        frame: &[u8],
        plain: &[u8],
        relay: &mut [u8],
    ) -> (c_int, Reception) {
        let (s, mut out) = (self.0.as_ptr(), Reception::default());
        let (octets, length) = (frame.as_ptr(), frame.len());
        let (part, part_length) = (plain.as_ptr(), plain.len());
        let (written, room) = (relay.as_mut_ptr(), relay.len());
        // SAFETY: the handle is valid, and in no other call; the three slices have the given
        // lengths. `frame` and `plain` may overlap, and `relay` overlaps neither, as it is borrowed
        // mutably.
        let status = unsafe {
            geostation_receive_verified(
                s,
                now,
                octets,
                length,
                part,
                part_length,
                &mut out,
                written,
                room,
            )
        };
        (status, out)
    }

    pub(crate) fn release(&mut self, now: u64, frame: &mut [u8]) -> Written {
        let (s, mut length) = (self.0.as_ptr(), 0);
        // SAFETY: the handle is valid, and in no other call; the buffer has the given length.
        let status =
            unsafe { geostation_release(s, now, frame.as_mut_ptr(), frame.len(), &mut length) };
        (status, length)
    }

    /// Afterwards, `answer` holds exactly the answer.
    pub(crate) fn handle_json(
        &mut self,
        now: u64,
        number: u64,
        line: &[u8],
        answer: &mut Vec<u8>,
        frame: &mut [u8],
    ) -> Written {
        answer.resize(ANSWER_MAX, 0);
        let (s, mut told, mut length) = (self.0.as_ptr(), 0, 0);
        let (text, text_room) = (answer.as_mut_ptr(), answer.len());
        let (octets, room) = (frame.as_mut_ptr(), frame.len());
        let (asked, count) = (line.as_ptr(), line.len());
        // SAFETY: the handle is valid, and in no other call; the three slices have the given
        // lengths, and don't overlap, as two of them are borrowed mutably.
        let status = unsafe {
            geostation_handle_json(
                s,
                now,
                number,
                asked,
                count,
                text,
                text_room,
                &mut told,
                octets,
                room,
                &mut length,
            )
        };
        answer.truncate(told);
        (status, length)
    }

    /// Afterwards, `answer` holds exactly the answer.
    pub(crate) fn handle_line(
        &mut self,
        now: u64,
        number: u64,
        line: &[u8],
        rights: u32,
        answer: &mut Vec<u8>,
        frame: &mut [u8],
    ) -> (c_int, LineResult) {
        answer.resize(ANSWER_MAX, 0);
        let (s, mut out) = (self.0.as_ptr(), LineResult::default());
        let (text, text_room) = (answer.as_mut_ptr(), answer.len());
        let (octets, room) = (frame.as_mut_ptr(), frame.len());
        let (asked, count) = (line.as_ptr(), line.len());
        // SAFETY: the handle is valid, and in no other call; the three slices have the given
        // lengths, and don't overlap, as two of them are borrowed mutably.
        let status = unsafe {
            geostation_handle_line(
                s, now, number, asked, count, rights, text, text_room, octets, room, &mut out,
            )
        };
        answer.truncate(out.answer_length);
        (status, out)
    }

    pub(crate) fn next_due(&self) -> u64 {
        // SAFETY: the handle is valid, and in no other call, since it isn't `Sync`.
        unsafe { geostation_next_due(self.0.as_ptr()) }
    }

    pub(crate) fn next_number(&self) -> u16 {
        // SAFETY: the handle is valid, and in no other call, since it isn't `Sync`.
        unsafe { geostation_next_number(self.0.as_ptr()) }
    }

    pub(crate) fn beacon_at(&self, jitter: u16) -> u64 {
        // SAFETY: the handle is valid, and in no other call, since it isn't `Sync`.
        unsafe { geostation_beacon_at(self.0.as_ptr(), jitter) }
    }

    pub(crate) fn counts(&self) -> Counts {
        let mut out = Counts::default();
        // SAFETY: the handle is valid, and in no other call, since it isn't `Sync`.
        unsafe { geostation_counts(self.0.as_ptr(), &mut out) }
        out
    }

    pub(crate) fn neighbour(&self, now: u64, after: u64) -> Option<Vector> {
        let mut out = Vector::default();
        // SAFETY: the handle is valid, and in no other call, since it isn't `Sync`.
        let found = unsafe { geostation_neighbour(self.0.as_ptr(), now, after, &mut out) };
        (found == 1).then_some(out)
    }

    pub(crate) fn look_up(&self, now: u64, address: u64) -> Option<Vector> {
        let mut out = Vector::default();
        // SAFETY: the handle is valid, and in no other call, since it isn't `Sync`.
        let found = unsafe { geostation_look_up(self.0.as_ptr(), now, address, &mut out) };
        (found == 1).then_some(out)
    }
}

/// Panics if the library has another ABI than this crate: it may read and write more than a struct.
fn check_abi() {
    // SAFETY: the call has no arguments, and returns a number.
    let abi = unsafe { geostation_abi() };
    assert!(abi == ABI, "libgeostation has ABI {abi}, but this crate needs ABI {ABI}");
}

/// Returns the default parameters of the library. A station is made of them, so they come first.
pub(crate) fn usual_config() -> Config {
    check_abi();
    let mut config = Config::default();
    // SAFETY: the call writes the struct, which has the layout of the header.
    unsafe { geostation_config_init(&mut config) }
    config
}

/// Returns the length of the frame at the start of a buffer, or 0.
pub(crate) fn frame_length(octets: &[u8]) -> usize {
    // SAFETY: the slice has the given length.
    unsafe { geostation_frame_length(octets.as_ptr(), octets.len()) }
}

/// A part of a frame: the status, its offset and its length.
type Part = (c_int, usize, usize);

/// Finds the message of a secured frame.
pub(crate) fn message(frame: &[u8]) -> Part {
    check_abi();
    let (mut start, mut length) = (0, 0);
    // SAFETY: the slice has the given length.
    let status =
        unsafe { geostation_message(frame.as_ptr(), frame.len(), &mut start, &mut length) };
    (status, start, length)
}

/// Finds the plain part of an unsecured frame.
pub(crate) fn plain_part(frame: &[u8]) -> Part {
    check_abi();
    let (mut start, mut length) = (0, 0);
    // SAFETY: the slice has the given length.
    let status =
        unsafe { geostation_plain_part(frame.as_ptr(), frame.len(), &mut start, &mut length) };
    (status, start, length)
}

/// Writes the secured frame of an unsecured one.
pub(crate) fn seal(frame: &[u8], message: &[u8], out: &mut [u8]) -> Written {
    check_abi();
    let mut length = 0;
    let (octets, count) = (frame.as_ptr(), frame.len());
    let (signed, signed_count) = (message.as_ptr(), message.len());
    let (sealed, room) = (out.as_mut_ptr(), out.len());
    // SAFETY: the three slices have the given lengths, and `out` overlaps no other, as it is
    // borrowed mutably.
    let status =
        unsafe { geostation_seal(octets, count, signed, signed_count, sealed, room, &mut length) };
    (status, length)
}

/// Reads all fields of a frame, or its fault.
pub(crate) fn read_frame(frame: &[u8]) -> (c_int, Packet) {
    check_abi();
    let mut out = Packet::default();
    // SAFETY: the slice has the given length.
    let status = unsafe { geostation_read_frame(frame.as_ptr(), frame.len(), &mut out) };
    (status, out)
}

/// Returns the message for a status.
pub(crate) fn status_text(status: c_int) -> &'static CStr {
    // SAFETY: the call returns a string literal for any number.
    unsafe { CStr::from_ptr(geostation_status_text(status)) }
}

/// Returns the message for the fault of a frame.
pub(crate) fn fault_text(fault: u32, kind: u32) -> &'static CStr {
    // SAFETY: the call returns a string literal for any numbers.
    unsafe { CStr::from_ptr(geostation_fault_text(fault, kind)) }
}
