//! Addresses, meanings, messages and frames, sound and wild.

use crate::random::Random;
use crate::wire::{encode, Frame, Meaning, MOST_MESSAGE};

/// An address from 1 to 250, often at the edges.
pub fn address(random: &mut Random) -> u8 {
    match random.below(4) {
        0 => random.one_of(&[1, 2, 249, 250]),
        _ => random.between(1, 250) as u8,
    }
}

/// Any address, often one outside 1 to 250.
pub fn wild_address(random: &mut Random) -> u8 {
    match random.below(2) {
        0 => random.one_of(&[0, 1, 250, 251, 255]),
        _ => random.byte(),
    }
}

/// A meaning that has a control byte; I, RR and RNR as often as all the rest.
pub fn meaning(random: &mut Random) -> Meaning {
    let (ns, nr) = (random.below(8) as u8, random.below(8) as u8);
    match random.below(6) {
        0 => Meaning::I { ns, nr },
        1 => Meaning::Rr { nr },
        2 => Meaning::Rnr { nr },
        _ => random.one_of(&[Meaning::Snrm, Meaning::Disc, Meaning::Ua, Meaning::Frmr]),
    }
}

/// A count of any size, often just at the edge.
pub(super) fn wild_count(random: &mut Random) -> u8 {
    match random.below(3) {
        0 => random.below(8) as u8,
        1 => random.one_of(&[7, 8, 9, 128, 255]),
        _ => random.byte(),
    }
}

/// A meaning whose counts may be above 7.
pub fn wild_meaning(random: &mut Random) -> Meaning {
    let (ns, nr) = (wild_count(random), wild_count(random));
    match random.below(4) {
        0 | 1 => Meaning::I { ns, nr },
        2 => Meaning::Rr { nr },
        _ => Meaning::Rnr { nr },
    }
}

/// Bytes of a size, with now and then long runs of ones.
pub(super) fn filling(random: &mut Random, size: usize) -> Vec<u8> {
    match random.below(4) {
        0 => vec![0xFF; size],
        1 => (0..size)
            .map(|_| random.one_of(&[0xFF, 0x7E, 0x1F, 0xF8, 0x7F, 0xFE, 0, 0x3F]))
            .collect(),
        _ => random.bytes(size),
    }
}

/// A sound message: 5 to 253 bytes, the first of them the size plus 2.
pub fn message(random: &mut Random) -> Vec<u8> {
    let size = match random.below(8) {
        0 => 5,
        1 => MOST_MESSAGE,
        2 => random.between(5, MOST_MESSAGE),
        _ => random.between(5, 12),
    };
    let mut message = filling(random, size);
    message[0] = (size + 2) as u8;
    message
}

/// Bytes that are mostly no message: of a wrong size, with a wrong length byte, or anything.
pub fn wild_message(random: &mut Random) -> Vec<u8> {
    match random.below(4) {
        0 => {
            let size = random.one_of(&[0, 1, 4, 254, 255, 256, 300]);
            let mut message = filling(random, size);
            if let Some(first) = message.first_mut() {
                *first = (size + 2) as u8;
            }
            message
        }
        1 | 2 => {
            let mut message = message(random);
            message[0] = message[0].wrapping_add(random.one_of(&[1, 255, 254, 2, 128]));
            message
        }
        _ => {
            let size = random.below(260);
            random.bytes(size)
        }
    }
}

/// A sound frame: information with I alone.
pub fn frame(random: &mut Random) -> Frame {
    let meaning = if random.coin() {
        Meaning::I {
            ns: random.below(8) as u8,
            nr: random.below(8) as u8,
        }
    } else {
        meaning(random)
    };
    let information = match meaning {
        Meaning::I { .. } => message(random),
        _ => Vec::new(),
    };
    Frame {
        address: address(random),
        meaning,
        information,
    }
}

/// A frame with something wrong in it, most of the time in one place only.
pub fn wild_frame(random: &mut Random) -> Frame {
    let mut frame = frame(random);
    for _ in 0..random.between(1, 2) {
        match random.below(5) {
            0 => frame.address = wild_address(random),
            1 => frame.meaning = wild_meaning(random),
            2 => frame.meaning = meaning(random),
            3 => frame.information = wild_message(random),
            _ => frame.information = message(random),
        }
    }
    frame
}

/// Address, control and information of a frame; a count above 7 is cut to its low bits.
pub(super) fn body_of(frame: &Frame) -> Vec<u8> {
    let meaning = match frame.meaning {
        Meaning::I { ns, nr } => Meaning::I {
            ns: ns & 7,
            nr: nr & 7,
        },
        Meaning::Rr { nr } => Meaning::Rr { nr: nr & 7 },
        Meaning::Rnr { nr } => Meaning::Rnr { nr: nr & 7 },
        other => other,
    };
    let control = encode(meaning).expect("the counts are at most 7");
    let mut body = vec![frame.address, control];
    body.extend(&frame.information);
    body
}
