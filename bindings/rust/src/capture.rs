//! Captures: their records one by one, and the listing.

use crate::frame::Meaning;
use crate::{header, surface, Refusal};

/// What a record of a capture tells.
#[derive(Clone, Copy, Debug, PartialEq, Eq)]
pub enum What<'a> {
    /// An order of the master.
    Order {
        /// The station's address.
        address: u8,
        /// The frame's meaning.
        meaning: Meaning,
        /// Its information, in the capture itself.
        information: &'a [u8],
    },
    /// A station's response.
    Response {
        /// The station's address.
        address: u8,
        /// The frame's meaning.
        meaning: Meaning,
        /// Its information, in the capture itself.
        information: &'a [u8],
    },
    /// No response came.
    Silence,
}

/// A record of a capture.
#[derive(Clone, Copy, Debug, PartialEq, Eq)]
pub struct Record<'a> {
    /// What it tells.
    pub what: What<'a>,
    /// The place where the next record begins.
    pub next: usize,
}

/// The record that begins at a place of a capture; none at its end. Refused by 18, 8, 9, 10, 12.
///
/// ```
/// use bitbus::{record, What};
/// let capture = [6, 0, 1, 0, 5, 0x93, 4, 0, 3, 0];
/// let mut at = 0;
/// while let Some(record) = record(&capture, at)? {
///     if let What::Silence = record.what {
///         assert_eq!(at, 6);
///     }
///     at = record.next;
/// }
/// # Ok::<(), bitbus::Refusal>(())
/// ```
pub fn record(capture: &[u8], at: usize) -> Result<Option<Record<'_>>, Refusal> {
    let [kind, address, control, size, next] = surface::record(capture, at)?;
    let what = match kind {
        header::RECORD_END => return Ok(None),
        header::RECORD_ORDER | header::RECORD_RESPONSE => {
            let (address, meaning, information) =
                (address as u8, Meaning::of(control as u8)?, &capture[next - size..next]);
            match kind {
                header::RECORD_ORDER => What::Order { address, meaning, information },
                _ => What::Response { address, meaning, information },
            }
        }
        _ => What::Silence,
    };
    Ok(Some(Record { what, next }))
}

/// The listing of a capture, as the program `list` prints it.
///
/// ```
/// assert_eq!(bitbus::list(&[]), "no way node kind ns nr info\n");
/// ```
pub fn list(capture: &[u8]) -> String {
    let mut text = vec![0; header::LISTING_MOST];
    let [size] = surface::list(capture, &mut text).expect("the room takes every listing");
    text.truncate(size);
    String::from_utf8_lossy(&text).into_owned()
}
