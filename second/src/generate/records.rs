//! Capture records, sound and wild, and whole captures.

use super::frames::{body_of, frame, wild_frame};
use crate::random::Random;

/// The bytes of a record of a kind with a body.
pub fn record_of(kind: u16, body: &[u8]) -> Vec<u8> {
    let length = (4 + body.len()) as u16;
    let mut record = length.to_le_bytes().to_vec();
    record.extend(kind.to_le_bytes());
    record.extend(body);
    record
}

/// A sound record.
pub fn record(random: &mut Random) -> Vec<u8> {
    match random.below(3) {
        0 => record_of(3, &[]),
        kind => record_of(kind as u16, &body_of(&frame(random))),
    }
}

/// A record with something wrong in it: length, kind, size of body, or the frame.
pub fn wild_record(random: &mut Random) -> Vec<u8> {
    let mut record = record(random);
    match random.below(6) {
        0 => record[0] = record[0].wrapping_add(random.one_of(&[1, 2, 255, 254])),
        1 => record[random.between(0, 3)] = random.byte(),
        2 => record.truncate(random.below(record.len())),
        3 => {
            let size = random.one_of(&[0, 1, 2, 255, 256, 300]);
            let kind = random.between(0, 4) as u16;
            record = record_of(kind, &random.bytes(size));
        }
        _ => {
            let kind = random.between(1, 2) as u16;
            let mut body = body_of(&wild_frame(random));
            if random.chance(1, 3) {
                body[1] = random.byte();
            }
            record = record_of(kind, &body);
        }
    }
    record
}

/// A capture of records, mostly sound; now and then near the longest that is listed.
pub fn capture(random: &mut Random) -> Vec<u8> {
    let mut capture = Vec::new();
    for _ in 0..random.below(20) {
        capture.extend(record(random));
    }
    if random.chance(1, 2) {
        capture.extend(wild_record(random));
        capture.extend(record(random));
    }
    if random.chance(1, 50) {
        let most = random.one_of(&[65_532, 65_536, 65_540]);
        while capture.len() + 4 <= most {
            capture.extend(record_of(3, &[]));
        }
    }
    capture
}
