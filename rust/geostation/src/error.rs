//! Why a call failed, and why bytes are not a valid frame.

use crate::ffi;
use std::fmt;

/// Why a call failed. The station is unchanged, including its clock, sequence number, location
/// table and open ports.
///
/// `Display` prints a message. [`Error::code`] is a short code for logs.
#[derive(Clone, Copy, Debug, PartialEq, Eq, Hash)]
#[non_exhaustive]
pub enum Error {
    /// S1: the time is earlier than that of the last call.
    MomentEarlier,
    /// S2: the time is over 2^62 ms, [`LAST_MOMENT`](crate::LAST_MOMENT).
    MomentTooLate,
    /// S3: not a valid frame.
    BadFrame(Fault),
    /// S4: the location table is full, and the packet's source is not in it.
    TableFull,
    /// S5: out of memory.
    NoMemory,
    /// S6: the payload is over 1394 octets, [`PAYLOAD_MAX`](crate::PAYLOAD_MAX).
    PayloadTooLong,
    /// S7: the hop limit is 0.
    HopLimitZero,
    /// S8 B2: the port is open.
    PortAlreadyOpen,
    /// S8 B3: 64 other ports are open.
    PortsFull,
    /// S8 B4: the port isn't open.
    PortNotOpen,
    /// S9: the jitter is over 750 ms.
    JitterRange,
    /// An argument is out of its range. It has no code.
    BadArgument,
    /// The buffer is shorter than [`FRAME_MAX`](crate::FRAME_MAX), or
    /// [`SECURED_FRAME_MAX`](crate::SECURED_FRAME_MAX) for a secured frame. It has no code.
    NoRoom,
    /// Own packets are over their rate (`own_rate` and `own_burst`). It has no code.
    OverRate,
    /// A status that this version of the crate does not know. It has no code.
    Unknown(i32),
}

impl Error {
    /// Converts the status of a call that reads no frame.
    pub(crate) fn check(status: i32) -> Result<(), Error> {
        Error::check_frame(status, Fault::default())
    }

    /// Converts the status of a call that reads a frame, with the fault of one that is not valid.
    pub(crate) fn check_frame(status: i32, fault: Fault) -> Result<(), Error> {
        Err(match status {
            0 => return Ok(()),
            1 => Error::MomentEarlier,
            2 => Error::MomentTooLate,
            3 => Error::BadFrame(fault),
            4 => Error::TableFull,
            5 => Error::NoMemory,
            6 => Error::PayloadTooLong,
            7 => Error::HopLimitZero,
            8 => Error::PortAlreadyOpen,
            9 => Error::JitterRange,
            10 => Error::PortsFull,
            11 => Error::PortNotOpen,
            20 => Error::BadArgument,
            21 => Error::NoRoom,
            22 => Error::OverRate,
            other => Error::Unknown(other),
        })
    }

    /// Returns the status of `geostation.h`.
    pub fn status(&self) -> i32 {
        match self {
            Error::MomentEarlier => 1,
            Error::MomentTooLate => 2,
            Error::BadFrame(_) => 3,
            Error::TableFull => 4,
            Error::NoMemory => 5,
            Error::PayloadTooLong => 6,
            Error::HopLimitZero => 7,
            Error::PortAlreadyOpen => 8,
            Error::JitterRange => 9,
            Error::PortsFull => 10,
            Error::PortNotOpen => 11,
            Error::BadArgument => 20,
            Error::NoRoom => 21,
            Error::OverRate => 22,
            Error::Unknown(status) => *status,
        }
    }

    /// Returns a short code for logs, for example `S4`, `S8 B2` or `S3 L5 G9 at 10`. It prints
    /// nothing for an error without a code.
    ///
    /// ```
    /// let error = geostation::Error::PortAlreadyOpen;
    /// assert_eq!("S8 B2", error.code().to_string());
    /// assert_eq!("the port is open", error.to_string());
    /// ```
    pub fn code(&self) -> Code {
        Code::OfCall(*self)
    }
}

impl fmt::Display for Error {
    fn fmt(&self, f: &mut fmt::Formatter<'_>) -> fmt::Result {
        match self {
            Error::BadFrame(fault) => fault.fmt(f),
            other => f.write_str(&ffi::status_text(other.status()).to_string_lossy()),
        }
    }
}

impl std::error::Error for Error {}

/// Why bytes are not a valid frame.
///
/// `Display` prints a message. [`Fault::code`] is a short code for logs.
#[derive(Clone, Copy, Debug, Default, PartialEq, Eq, Hash)]
pub struct Fault {
    /// 1 to 6, for the codes L1 to L6.
    pub layer: u32,
    /// 1 to 12, for G1 to G12, if `layer` is 5 or 6; otherwise 0.
    pub kind: u32,
    /// Offset of the faulty field in the packet, if `layer` is 5 or 6; otherwise 0.
    pub at: usize,
}

impl Fault {
    /// Returns a short code for logs, for example `L1` or `L5 G9 at 10`.
    ///
    /// ```
    /// let fault = geostation::read_frame(&[0]).unwrap_err();
    /// assert_eq!("L1", fault.code().to_string());
    /// assert_eq!("a frame of fewer than 14 octets", fault.to_string());
    /// ```
    pub fn code(&self) -> Code {
        Code::OfFrame(*self)
    }
}

impl fmt::Display for Fault {
    fn fmt(&self, f: &mut fmt::Formatter<'_>) -> fmt::Result {
        f.write_str(&ffi::fault_text(self.layer, self.kind).to_string_lossy())?;
        match self.layer {
            5 | 6 => write!(f, ", at octet {}", self.at),
            _ => Ok(()),
        }
    }
}

impl std::error::Error for Fault {}

/// The short code of an [`Error`] or a [`Fault`]. `Display` prints it.
#[derive(Clone, Copy, Debug, PartialEq, Eq, Hash)]
#[non_exhaustive]
pub enum Code {
    /// The code of a call that failed.
    OfCall(Error),
    /// The code of a fault from [`read_frame`](crate::read_frame) or
    /// [`plain_part`](crate::plain_part).
    OfFrame(Fault),
}

impl fmt::Display for Code {
    fn fmt(&self, f: &mut fmt::Formatter<'_>) -> fmt::Result {
        match self {
            Code::OfFrame(Fault { layer: layer @ (5 | 6), kind, at }) => {
                write!(f, "L{layer} G{kind} at {at}")
            }
            Code::OfFrame(fault) => write!(f, "L{}", fault.layer),
            Code::OfCall(Error::BadFrame(fault)) => write!(f, "S3 {}", fault.code()),
            Code::OfCall(Error::PortAlreadyOpen) => f.write_str("S8 B2"),
            Code::OfCall(Error::PortsFull) => f.write_str("S8 B3"),
            Code::OfCall(Error::PortNotOpen) => f.write_str("S8 B4"),
            Code::OfCall(
                Error::BadArgument | Error::NoRoom | Error::OverRate | Error::Unknown(_),
            ) => Ok(()),
            Code::OfCall(error) => write!(f, "S{}", error.status()),
        }
    }
}
