//! What a frame is: address, meaning, information.

use crate::{header, Refusal};
use std::fmt;
use std::ops::Deref;

/// What a frame means: its kind with the counts that it carries, each 0 to 7.
///
/// ```
/// use bitbus::{Meaning, Refusal};
/// assert_eq!(Meaning::I { ns: 3, nr: 5 }.control(), Ok(0xB6));
/// assert_eq!(Meaning::of(0x55), Ok(Meaning::Rnr { nr: 2 }));
/// assert_eq!(Meaning::of(0x83), Err(Refusal::CONTROL));
/// ```
#[derive(Clone, Copy, Debug, PartialEq, Eq, Hash)]
pub enum Meaning {
    /// A message, with the sender's send count and receive count.
    I {
        /// The send count.
        ns: u8,
        /// The receive count.
        nr: u8,
    },
    /// Ready to receive.
    Rr {
        /// The receive count.
        nr: u8,
    },
    /// Not ready to receive: the sender's incoming slot is full.
    Rnr {
        /// The receive count.
        nr: u8,
    },
    /// Order: set normal response mode.
    Snrm,
    /// Order: disconnect.
    Disc,
    /// Response: unnumbered acknowledgement.
    Ua,
    /// Response: frame reject.
    Frmr,
}

impl Meaning {
    /// The meaning of a control byte. Refused by 9 where the byte is not in the table.
    pub fn of(control: u8) -> Result<Meaning, Refusal> {
        let nr = control >> 5;
        match control {
            0x93 => Ok(Meaning::Snrm),
            0x53 => Ok(Meaning::Disc),
            0x73 => Ok(Meaning::Ua),
            0x97 => Ok(Meaning::Frmr),
            _ if control & 0x11 == 0x10 => Ok(Meaning::I { ns: control >> 1 & 7, nr }),
            _ if control & 0x1F == 0x11 => Ok(Meaning::Rr { nr }),
            _ if control & 0x1F == 0x15 => Ok(Meaning::Rnr { nr }),
            _ => Err(Refusal::CONTROL),
        }
    }

    /// The control byte. Refused by 9 where a count is above 7.
    pub fn control(self) -> Result<u8, Refusal> {
        match self {
            Meaning::I { ns: 0..=7, nr: 0..=7 } | Meaning::Rr { nr: 0..=7 } | Meaning::Rnr { nr: 0..=7 } => {}
            Meaning::I { .. } | Meaning::Rr { .. } | Meaning::Rnr { .. } => return Err(Refusal::CONTROL),
            Meaning::Snrm | Meaning::Disc | Meaning::Ua | Meaning::Frmr => {}
        }
        Ok(match self {
            Meaning::I { ns, nr } => 0x10 + 2 * ns + 32 * nr,
            Meaning::Rr { nr } => 0x11 + 32 * nr,
            Meaning::Rnr { nr } => 0x15 + 32 * nr,
            Meaning::Snrm => 0x93,
            Meaning::Disc => 0x53,
            Meaning::Ua => 0x73,
            Meaning::Frmr => 0x97,
        })
    }

    /// The byte to hand to a call: one that is not in the table stands for a count above 7, so that the call itself
    /// gives 9, in its place in the order of tests.
    pub(crate) fn handed(self) -> u8 {
        self.control().unwrap_or(0)
    }
}

impl TryFrom<u8> for Meaning {
    type Error = Refusal;

    fn try_from(control: u8) -> Result<Meaning, Refusal> {
        Meaning::of(control)
    }
}

impl TryFrom<Meaning> for u8 {
    type Error = Refusal;

    fn try_from(meaning: Meaning) -> Result<u8, Refusal> {
        meaning.control()
    }
}

/// The information of a frame or a message, in bytes of its own: none, or at most 253. It is used as a slice.
#[derive(Clone)]
pub struct Information {
    bytes: [u8; Information::MOST],
    size: usize,
}

impl Information {
    /// The least size of a message.
    pub const LEAST: usize = header::MESSAGE_LEAST;
    /// The most bytes that a frame carries.
    pub const MOST: usize = header::MESSAGE_MOST;

    /// What a call writes into lent bytes, where it also tells the size.
    pub(crate) fn written<const N: usize>(
        size_at: usize,
        call: impl FnOnce(&mut [u8]) -> Result<[usize; N], Refusal>,
    ) -> Result<([usize; N], Information), Refusal> {
        let mut information = Information { bytes: [0; Information::MOST], size: 0 };
        let values = call(&mut information.bytes)?;
        information.size = values[size_at];
        Ok((values, information))
    }
}

impl Deref for Information {
    type Target = [u8];

    fn deref(&self) -> &[u8] {
        &self.bytes[..self.size]
    }
}

impl PartialEq for Information {
    fn eq(&self, other: &Information) -> bool {
        self[..] == other[..]
    }
}

impl Eq for Information {}

impl fmt::Debug for Information {
    fn fmt(&self, f: &mut fmt::Formatter<'_>) -> fmt::Result {
        write!(f, "{:02X?}", &self[..])
    }
}

/// A frame as it was read, or as an end gives it out.
#[derive(Clone, Debug, PartialEq, Eq)]
pub struct Frame {
    /// The station's address, 1 to 250.
    pub address: u8,
    /// The frame's meaning.
    pub meaning: Meaning,
    /// The message of an I frame; empty for every other frame.
    pub information: Information,
}

impl Frame {
    /// A frame whose address and control byte a call has given.
    pub(crate) fn given(address: usize, control: usize, information: Information) -> Result<Frame, Refusal> {
        Ok(Frame { address: address as u8, meaning: Meaning::of(control as u8)?, information })
    }
}
