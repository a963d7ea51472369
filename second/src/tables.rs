//! For the benchmark: check word, writer, reader and NRZI a byte at a time by tables, without
//! allocation.

use crate::plain::{judge, nrzi_check, Reader, MOST_LINE};
use crate::wire::{address_check, encode, information_check, Heard, Meaning, Written, MOST_BITS};

/// What a byte adds to the check register.
pub const CHECK: [u16; 256] = check_table();

const fn check_table() -> [u16; 256] {
    let mut table = [0; 256];
    let mut byte = 0;
    while byte < 256 {
        let mut register = byte as u16;
        let mut place = 0;
        while place < 8 {
            register = (register >> 1) ^ ((register & 1) * 0x8408);
            place += 1;
        }
        table[byte] = register;
        byte += 1;
    }
    table
}

#[inline]
fn check_byte(register: u16, byte: u8) -> u16 {
    (register >> 8) ^ CHECK[(register as u8 ^ byte) as usize]
}

pub fn check_word(bytes: &[u8]) -> u16 {
    !bytes
        .iter()
        .fold(0xFFFF, |register, byte| check_byte(register, *byte))
}

/// One step of a zero table: the bits that come out, how many, and the ones in a row after.
#[derive(Clone, Copy)]
struct Entry {
    bits: u16,
    count: u8,
    ones: u8,
}

const NONE: Entry = Entry {
    bits: 0,
    count: 0,
    ones: 0,
};

/// Content byte to line bits, for zero to four trailing ones before it.
static INSERT: [[Entry; 256]; 5] = insert_table();

const fn insert_table() -> [[Entry; 256]; 5] {
    let mut table = [[NONE; 256]; 5];
    let mut ones = 0;
    while ones < 5 {
        let mut byte = 0;
        while byte < 256 {
            table[ones][byte] = insert_entry(ones as u8, byte as u16);
            byte += 1;
        }
        ones += 1;
    }
    table
}

const fn insert_entry(ones: u8, byte: u16) -> Entry {
    let mut entry = Entry {
        bits: 0,
        count: 0,
        ones,
    };
    let mut place = 0;
    while place < 8 {
        let bit = byte >> place & 1;
        entry.bits |= bit << entry.count;
        entry.count += 1;
        entry.ones = if bit == 1 { entry.ones + 1 } else { 0 };
        if entry.ones == 5 {
            entry.count += 1;
            entry.ones = 0;
        }
        place += 1;
    }
    entry
}

/// A count of ones that says: six ones in a row, look at each bit.
const SIX: u8 = 6;

/// Line byte to content bits, for zero to five ones in a row before it.
static REMOVE: [[Entry; 256]; 6] = remove_table();

const fn remove_table() -> [[Entry; 256]; 6] {
    let mut table = [[NONE; 256]; 6];
    let mut ones = 0;
    while ones < 6 {
        let mut byte = 0;
        while byte < 256 {
            table[ones][byte] = remove_entry(ones as u8, byte as u16);
            byte += 1;
        }
        ones += 1;
    }
    table
}

const fn remove_entry(ones: u8, byte: u16) -> Entry {
    let mut entry = Entry {
        bits: 0,
        count: 0,
        ones,
    };
    let mut place = 0;
    while place < 8 {
        let bit = byte >> place & 1;
        if entry.ones == 5 {
            if bit == 1 {
                entry.ones = SIX;
                return entry;
            }
            entry.ones = 0;
        } else {
            entry.bits |= bit << entry.count;
            entry.count += 1;
            entry.ones = if bit == 1 { entry.ones + 1 } else { 0 };
        }
        place += 1;
    }
    entry
}

/// A line under construction: whole bytes, and up to seven bits not yet placed.
struct Line {
    bytes: [u8; MOST_LINE],
    whole: usize,
    partial: u32,
    partial_bits: u32,
    ones: u8,
    content_bits: usize,
}

impl Line {
    #[inline]
    fn push(&mut self, bits: u16, count: u8) {
        self.partial |= (bits as u32) << self.partial_bits;
        self.partial_bits += count as u32;
        while self.partial_bits >= 8 {
            self.bytes[self.whole] = self.partial as u8;
            self.whole += 1;
            self.partial >>= 8;
            self.partial_bits -= 8;
        }
    }

    #[inline]
    fn content(&mut self, byte: u8) {
        let entry = INSERT[self.ones as usize][byte as usize];
        self.push(entry.bits, entry.count);
        self.ones = entry.ones;
        self.content_bits += entry.count as usize;
    }
}

pub fn write(
    address: u8,
    meaning: Meaning,
    information: &[u8],
    lent: &mut [u8],
) -> Result<Written, u8> {
    address_check(address)?;
    let control = encode(meaning)?;
    information_check(meaning, information)?;
    let mut line = Line {
        bytes: [0; MOST_LINE],
        whole: 0,
        partial: 0,
        partial_bits: 0,
        ones: 0,
        content_bits: 0,
    };
    let mut register = 0xFFFF;
    line.push(0x7E, 8);
    for byte in [address, control].iter().chain(information) {
        register = check_byte(register, *byte);
        line.content(*byte);
    }
    for byte in (!register).to_le_bytes() {
        line.content(byte);
    }
    line.push(0x7E, 8);
    let line_bits = 16 + line.content_bits;
    let zeros = line.content_bits - 8 * (information.len() + 4);
    if line.partial_bits > 0 {
        line.push(0xFF, 8 - line.partial_bits as u8);
    }
    if line.whole > lent.len() {
        return Err(11);
    }
    lent[..line.whole].copy_from_slice(&line.bytes[..line.whole]);
    Ok(Written { line_bits, zeros })
}

pub fn read(buffer: &[u8], count: usize, lent: &mut [u8]) -> Result<Heard, u8> {
    if count > MOST_BITS || count > 8 * buffer.len() {
        return Err(2);
    }
    let mut reader = Reader::new();
    for (index, byte) in buffer[..count / 8].iter().enumerate() {
        if reader.ones <= 5 {
            let entry = REMOVE[reader.ones as usize][*byte as usize];
            if entry.ones != SIX {
                reader.push(entry.bits as u32, entry.count as u32);
                reader.ones = entry.ones as u32;
                continue;
            }
        }
        for place in 8 * index..8 * index + 8 {
            if reader.bit(buffer, place) {
                return judge(reader.content(buffer, place)?, check_word, lent);
            }
        }
    }
    for place in count / 8 * 8..count {
        if reader.bit(buffer, place) {
            return judge(reader.content(buffer, place)?, check_word, lent);
        }
    }
    Err(1)
}

/// Eight bits to eight levels, from level 0.
static LEVELS: [u8; 256] = level_table();

const fn level_table() -> [u8; 256] {
    let mut table = [0; 256];
    let mut byte = 0;
    while byte < 256 {
        let mut level = 0;
        let mut place = 0;
        while place < 8 {
            level ^= (byte >> place & 1) as u8 ^ 1;
            table[byte] |= level << place;
            place += 1;
        }
        byte += 1;
    }
    table
}

/// Turns whole bytes, then the bits that are left: `turn` gives the byte that comes out,
/// `level_after` the level at its last bit.
#[inline]
fn nrzi(
    input: &[u8],
    count: usize,
    start: bool,
    lent: &mut [u8],
    turn: impl Fn(u8, u8) -> u8,
    level_after: impl Fn(u8, u8, usize) -> u8,
) -> Result<bool, u8> {
    nrzi_check(input, count, lent)?;
    let (whole, rest) = (count / 8, count % 8);
    let mut level = start as u8;
    for (byte, out) in input[..whole].iter().zip(lent.iter_mut()) {
        *out = turn(*byte, level);
        level = level_after(*byte, *out, 7);
    }
    if rest > 0 {
        let mask = (1u8 << rest) - 1;
        let out = turn(input[whole], level);
        level = level_after(input[whole], out, rest - 1);
        lent[whole] = lent[whole] & !mask | out & mask;
    }
    Ok(level == 1)
}

pub fn nrzi_encode(input: &[u8], count: usize, start: bool, lent: &mut [u8]) -> Result<bool, u8> {
    nrzi(
        input,
        count,
        start,
        lent,
        |byte, level| LEVELS[byte as usize] ^ 0u8.wrapping_sub(level),
        |_, out, last| out >> last & 1,
    )
}

pub fn nrzi_decode(input: &[u8], count: usize, start: bool, lent: &mut [u8]) -> Result<bool, u8> {
    nrzi(
        input,
        count,
        start,
        lent,
        |byte, level| !(byte ^ (byte << 1 | level)),
        |byte, _, last| byte >> last & 1,
    )
}
