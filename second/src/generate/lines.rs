//! Lines for the reader: frames sound and damaged, cut, joined and with shared flags; lent buffers.

use super::frames::{body_of, filling, frame, wild_frame};
use crate::random::Random;
use crate::wire::{check_bytes, line_of, set_bit, FLAG, MOST_CONTENT, MOST_MESSAGE};

/// Bits in a packed buffer with the count stated, for a reader or for NRZI.
#[derive(Clone, PartialEq, Eq, Debug)]
pub struct Line {
    pub buffer: Vec<u8>,
    pub count: usize,
}

/// Content whose check word is right: of sound frames, of wild ones, of any bytes.
fn checked_content(random: &mut Random) -> Vec<u8> {
    let mut content = match random.below(10) {
        0..=4 => body_of(&frame(random)),
        5 | 6 => body_of(&wild_frame(random)),
        7 => {
            let mut body = body_of(&frame(random));
            body[1] = random.byte();
            body
        }
        8 => {
            let size = random.one_of(&[0, 1, 2, 3, 254, 255, 256, 300, 600]);
            filling(random, size)
        }
        _ => {
            let size = random.below(12);
            filling(random, size)
        }
    };
    content.extend(check_bytes(&content));
    content
}

/// Bits added, left out or turned, in a few places.
fn damage(random: &mut Random, bits: &mut Vec<bool>) {
    for _ in 0..random.between(1, 3) {
        if bits.is_empty() {
            return;
        }
        let place = random.below(bits.len());
        match random.below(6) {
            0 | 1 => bits[place] = !bits[place],
            2 => {
                bits.remove(place);
            }
            3 => bits.insert(place, random.coin()),
            4 => bits.truncate(place),
            _ => {
                let ones = random.between(5, 9);
                bits.splice(place..place, vec![true; ones]);
            }
        }
    }
}

/// One piece of a line.
fn piece(random: &mut Random) -> Vec<bool> {
    match random.below(10) {
        0 => vec![true; random.below(20)],
        1 => (0..random.below(40)).map(|_| random.coin()).collect(),
        2 => (0..random.below(16)).map(|_| random.chance(4, 5)).collect(),
        3 => FLAG.to_vec(),
        4 | 5 => {
            let mut bits = line_of(&checked_content(random)).0;
            damage(random, &mut bits);
            bits
        }
        6 => {
            let size = random.below(MOST_CONTENT + 3);
            line_of(&filling(random, size)).0
        }
        _ => line_of(&checked_content(random)).0,
    }
}

/// Joins a piece to a line: as it is, with one flag for two, or with the flags' zero shared.
fn join(random: &mut Random, line: &mut Vec<bool>, piece: Vec<bool>) {
    let skip = if line.ends_with(&FLAG) && piece.starts_with(&FLAG) {
        random.one_of(&[0, 1, 8])
    } else {
        0
    };
    line.extend(&piece[skip..]);
}

/// A line of one to four pieces for the reader. The bits past it are anything, and the count
/// stated is now and then too small or too great.
pub fn line(random: &mut Random) -> Line {
    let mut bits = Vec::new();
    for _ in 0..random.between(1, 4) {
        let piece = piece(random);
        join(random, &mut bits, piece);
    }
    if random.chance(1, 10) {
        damage(random, &mut bits);
    }
    let extra = random.one_of(&[0, 0, 1, 5, 1024]);
    let mut buffer = random.bytes(bits.len().div_ceil(8) + extra);
    for (place, bit) in bits.iter().enumerate() {
        set_bit(&mut buffer, place, *bit);
    }
    let count = match random.below(12) {
        0 => random.below(bits.len() + 1),
        1 => bits.len() + random.below(10),
        2 => random.one_of(&[8192, 8193, 8 * buffer.len(), 8 * buffer.len() + 1]),
        3 => 8 * buffer.len(),
        _ => bits.len(),
    };
    Line { buffer, count }
}

/// A lent buffer with bytes of its own: mostly with room for any message, else of a size near one
/// that may matter.
pub fn lent(random: &mut Random) -> Vec<u8> {
    let size = match random.below(10) {
        0 => random.one_of(&[0, 4, 5, 6, 252]),
        1 => random.below(254),
        2 => random.between(254, 320),
        _ => MOST_MESSAGE,
    };
    random.bytes(size)
}

/// A lent buffer of about a size: just so, one byte short, longer, or of any size up to it.
pub fn lent_near(random: &mut Random, size: usize) -> Vec<u8> {
    let any = random.below(size + 1);
    let size = random.one_of(&[size, size, size.saturating_sub(1), size + 1, size + 9, any]);
    random.bytes(size)
}
