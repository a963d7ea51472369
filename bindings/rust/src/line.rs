//! The line: check word, message check, frames as bits, NRZI.

use crate::frame::{Frame, Information, Meaning};
use crate::{header, surface, Refusal};

/// A buffer of so many bytes takes every written frame.
pub const FRAME_MOST: usize = header::FRAME_MOST;

/// The most bits that a call may be told of.
pub const BITS_MOST: usize = header::BITS_MOST;

/// The check word over bytes. In a frame it stands low byte first.
///
/// ```
/// assert_eq!(bitbus::check_word(b"123456789"), 0x906E);
/// ```
pub fn check_word(bytes: &[u8]) -> u16 {
    surface::check_word(bytes)
}

/// The message check, of size and length byte only. Refused by 10, 12.
///
/// ```
/// use bitbus::{message_check, Refusal};
/// assert_eq!(message_check(&[7, 0, 5, 0x11, 1]), Ok(()));
/// assert_eq!(message_check(&[8, 0, 5, 0x11, 1]), Err(Refusal::LENGTH_BYTE));
/// ```
pub fn message_check(message: &[u8]) -> Result<(), Refusal> {
    surface::message_check(message)
}

/// What the writer reports.
#[derive(Clone, Copy, Debug, PartialEq, Eq)]
pub struct Written {
    /// The line bits, both flags included.
    pub bits: usize,
    /// How many zeros were inserted.
    pub zeros: usize,
}

/// Writes a frame as line bits, first bit in bit 0 of byte 0; unused bits of the last byte are ones, later bytes stay.
/// Refused by 8, 9, 10, 12, 11.
///
/// ```
/// use bitbus::{read, write, Meaning, FRAME_MOST};
/// let mut line = [0; FRAME_MOST];
/// let written = write(5, Meaning::Rr { nr: 1 }, &[], &mut line)?;
/// assert_eq!(read(&line, written.bits)?.meaning, Meaning::Rr { nr: 1 });
/// # Ok::<(), bitbus::Refusal>(())
/// ```
pub fn write(address: u8, meaning: Meaning, information: &[u8], out: &mut [u8]) -> Result<Written, Refusal> {
    let [bits, zeros] = surface::write(address, meaning.handed(), information, out)?;
    Ok(Written { bits, zeros })
}

/// Reads the first frame out of the first `bits` bits of a buffer. Refused by 2, 1, 3, 4, 5, 6, 7, 8, 9, 10, 12.
pub fn read(buffer: &[u8], bits: usize) -> Result<Frame, Refusal> {
    let ([address, control, _], information) = Information::written(2, |out| surface::read(buffer, bits, out))?;
    Frame::given(address, control, information)
}

/// NRZI from bits to levels: a zero changes the level, a one keeps it, from the level given. Gives the level at the
/// end, from which a next part goes on. The other bits of `out` stay. Refused by 2, 11.
///
/// ```
/// let mut levels = [0xFF];
/// assert_eq!(bitbus::nrzi_encode(true, &[0x7E], 8, &mut levels), Ok(true));
/// assert_eq!(levels, [0x80]);
/// ```
pub fn nrzi_encode(level: bool, bits_in: &[u8], bits: usize, out: &mut [u8]) -> Result<bool, Refusal> {
    surface::nrzi_encode(level, bits_in, bits, out).map(|[level]| level != 0)
}

/// NRZI back from levels to bits, as [`nrzi_encode`]. Refused by 2, 11.
pub fn nrzi_decode(level: bool, levels_in: &[u8], bits: usize, out: &mut [u8]) -> Result<bool, Refusal> {
    surface::nrzi_decode(level, levels_in, bits, out).map(|[level]| level != 0)
}
