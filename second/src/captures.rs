//! Captures as document 01 words them: one record at a place, and the listing of a whole capture.

use crate::wire::{address_check, decode, information_check, Heard, Meaning};

/// The longest capture that is listed.
pub const MOST_CAPTURE: usize = 65_536;

/// What a record holds; orders and responses carry address, meaning and information size.
#[derive(Clone, Copy, PartialEq, Eq, Debug)]
pub enum Record {
    Order(Heard),
    Response(Heard),
    Silence,
}

/// A number of two bytes, little-endian.
fn two_bytes(capture: &[u8], place: usize) -> usize {
    capture[place] as usize + 256 * capture[place + 1] as usize
}

/// The record that begins at a place, and its length: refusals 18, 8, 9, 10, 12. Fewer than 4
/// bytes left, none included, are 18.
pub fn record(capture: &[u8], place: usize) -> Result<(Record, usize), u8> {
    let left = capture.len().saturating_sub(place);
    if left < 4 {
        return Err(18);
    }
    let length = two_bytes(capture, place);
    let kind = two_bytes(capture, place + 2);
    if length < 4 || length > left {
        return Err(18);
    }
    let body = &capture[place + 4..place + length];
    match (kind, body.len()) {
        (1, 2..=255) => Ok((Record::Order(judge(body)?), length)),
        (2, 2..=255) => Ok((Record::Response(judge(body)?), length)),
        (3, 0) => Ok((Record::Silence, length)),
        _ => Err(18),
    }
}

/// The body of an order or a response: refusals 8, 9, 10, 12.
fn judge(body: &[u8]) -> Result<Heard, u8> {
    let address = body[0];
    address_check(address)?;
    let meaning = decode(body[1])?;
    let information = &body[2..];
    information_check(meaning, information)?;
    Ok(Heard {
        address,
        meaning,
        size: information.len(),
    })
}

/// Kind, Ns and Nr as the listing shows them; `-` where a field has no meaning.
fn fields(meaning: Meaning) -> String {
    match meaning {
        Meaning::I { ns, nr } => format!("I {ns} {nr}"),
        Meaning::Rr { nr } => format!("RR - {nr}"),
        Meaning::Rnr { nr } => format!("RNR - {nr}"),
        Meaning::Snrm => "SNRM - -".to_string(),
        Meaning::Disc => "DISC - -".to_string(),
        Meaning::Ua => "UA - -".to_string(),
        Meaning::Frmr => "FRMR - -".to_string(),
    }
}

fn shown(way: char, frame: Heard) -> String {
    format!(
        "{way} {} {} {}",
        frame.address,
        fields(frame.meaning),
        frame.size
    )
}

/// All that the program "list" prints for a capture.
pub fn list(capture: &[u8]) -> String {
    if capture.len() > MOST_CAPTURE {
        return "too long\n".to_string();
    }
    let mut output = "no way node kind ns nr info\n".to_string();
    let mut place = 0;
    let mut number = 1;
    while place < capture.len() {
        match record(capture, place) {
            Err(refusal) => return output + &format!("{number} refused {refusal}\n"),
            Ok((record, length)) => {
                let line = match record {
                    Record::Order(frame) => shown('>', frame),
                    Record::Response(frame) => shown('<', frame),
                    Record::Silence => ". - - - - -".to_string(),
                };
                output += &format!("{number} {line}\n");
                place += length;
            }
        }
        number += 1;
    }
    output
}
