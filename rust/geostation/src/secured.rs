//! The parts of frames that a security entity signs and verifies, and secured frames.

use crate::buffer::Buffer;
use crate::error::{Error, Fault};
use crate::ffi;
use crate::frame::fault_in;
use crate::SECURED_FRAME_MAX;

/// Returns the message of a secured frame, for the security entity to verify; `None` if the bytes
/// are not a secured frame.
///
/// # Panics
///
/// If the shared library that was loaded has another ABI than this crate.
///
/// ```
/// let secured = [
///     0xff, 0xff, 0xff, 0xff, 0xff, 0xff, 2, 0, 0, 0, 0, 1, 0x89, 0x47, // the link layer's
///     0x12, 0, 0x1a, 1, // the Basic Header of a secured packet
///     3, 0x81, // the message
/// ];
/// assert_eq!(Some(&[3, 0x81][..]), geostation::message_of(&secured));
/// assert_eq!(None, geostation::message_of(&secured[..18]));
/// ```
pub fn message_of(frame: &[u8]) -> Option<&[u8]> {
    let (status, start, length) = ffi::message(frame);
    (status == 0).then(|| &frame[start..start + length])
}

/// Returns the plain part of an unsecured frame, for the security entity to sign: what follows its
/// Basic Header.
///
/// # Errors
///
/// The first [`Fault`] of bytes that are not a valid unsecured frame.
///
/// # Panics
///
/// If the shared library that was loaded has another ABI than this crate.
pub fn plain_part(frame: &[u8]) -> Result<&[u8], Fault> {
    match ffi::plain_part(frame) {
        (0, start, length) => Ok(&frame[start..start + length]),
        _ => Err(fault_in(&ffi::read_frame(frame).1)),
    }
}

/// Writes and returns the secured frame of an unsecured one: the message replaces its plain part.
///
/// # Errors
///
/// - [`Error::BadFrame`] if the bytes are not a valid unsecured frame.
/// - [`Error::BadArgument`] if the message is empty, or the secured frame would be longer than
///   [`SECURED_FRAME_MAX`].
/// - [`Error::NoMemory`] if an allocation fails.
/// - [`Error::NoRoom`] if the buffer is shorter than [`SECURED_FRAME_MAX`].
///
/// # Panics
///
/// If the shared library that was loaded has another ABI than this crate.
pub fn seal<'a, B: Buffer + ?Sized>(
    frame: &[u8],
    message: &[u8],
    buffer: &'a mut B,
) -> Result<&'a [u8], Error> {
    let (status, length) = ffi::seal(frame, message, buffer.room(SECURED_FRAME_MAX));
    let sealed = buffer.keep(length);
    Error::check_frame(status, fault_in(&ffi::read_frame(frame).1)).map(|()| sealed)
}
