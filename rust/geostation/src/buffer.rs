//! Buffers for the frames that calls write.

use crate::error::Error;

/// A buffer for a frame that a call writes.
///
/// It is a `Vec<u8>`, which grows and then holds exactly the frame, or an array or slice of at
/// least [`FRAME_MAX`](crate::FRAME_MAX) bytes, or [`SECURED_FRAME_MAX`](crate::SECURED_FRAME_MAX)
/// for a secured frame. With a shorter one the call fails with [`Error::NoRoom`], whatever the
/// length of the frame. If a call fails, a `Vec` is empty afterwards.
pub trait Buffer: sealed::Sealed {}

impl Buffer for [u8] {}
impl<const N: usize> Buffer for [u8; N] {}
impl Buffer for Vec<u8> {}

pub(crate) mod sealed {
    /// The methods of a buffer, for this crate only.
    pub trait Sealed {
        /// Returns the free space for a frame of at most so many bytes.
        fn room(&mut self, most: usize) -> &mut [u8];
        /// Keeps the first bytes, which are the frame, and returns them.
        fn keep(&mut self, length: usize) -> &[u8];
    }
}

impl sealed::Sealed for [u8] {
    fn room(&mut self, _: usize) -> &mut [u8] {
        self
    }

    fn keep(&mut self, length: usize) -> &[u8] {
        &self[..length]
    }
}

impl<const N: usize> sealed::Sealed for [u8; N] {
    fn room(&mut self, _: usize) -> &mut [u8] {
        self
    }

    fn keep(&mut self, length: usize) -> &[u8] {
        &self[..length]
    }
}

impl sealed::Sealed for Vec<u8> {
    fn room(&mut self, most: usize) -> &mut [u8] {
        self.resize(most, 0);
        self
    }

    fn keep(&mut self, length: usize) -> &[u8] {
        self.truncate(length);
        self
    }
}

/// Returns the frame that a call wrote.
pub(crate) fn written<B: Buffer + ?Sized>(
    buffer: &mut B,
    (status, length): (i32, usize),
) -> Result<&[u8], Error> {
    let frame = buffer.keep(length);
    Error::check(status).map(|()| frame)
}
