//! For the benchmark: check word, writer, reader and NRZI bit by bit on byte buffers, without
//! allocation.

use crate::wire::{
    address_check, encode, information_check, Heard, Meaning, Written, MOST_BITS, MOST_CONTENT,
};

/// The bytes of the longest frame on the line.
pub const MOST_LINE: usize = 311;

/// One bit into the check register; the polynomial stands mirrored, lowest power at the top.
#[inline]
fn check_bit(register: u16, bit: u16) -> u16 {
    let carry = (register ^ bit) & 1;
    (register >> 1) ^ (carry * 0x8408)
}

pub fn check_word(bytes: &[u8]) -> u16 {
    let mut register = 0xFFFF;
    for byte in bytes {
        for place in 0..8 {
            register = check_bit(register, (byte >> place) as u16 & 1);
        }
    }
    !register
}

/// The meaning of a control byte by its bits: refusal 9.
pub fn decode(byte: u8) -> Result<Meaning, u8> {
    let nr = byte >> 5;
    match byte {
        0x93 => Ok(Meaning::Snrm),
        0x53 => Ok(Meaning::Disc),
        0x73 => Ok(Meaning::Ua),
        0x97 => Ok(Meaning::Frmr),
        _ if byte & 0x11 == 0x10 => Ok(Meaning::I {
            ns: byte >> 1 & 7,
            nr,
        }),
        _ if byte & 0x1F == 0x11 => Ok(Meaning::Rr { nr }),
        _ if byte & 0x1F == 0x15 => Ok(Meaning::Rnr { nr }),
        _ => Err(9),
    }
}

/// A line under construction. Bytes begin as ones, so that unused bits are ones.
struct Line {
    bytes: [u8; MOST_LINE],
    bits: usize,
    ones: u32,
    zeros: usize,
}

impl Line {
    #[inline]
    fn push(&mut self, bit: u8) {
        if bit == 0 {
            self.bytes[self.bits / 8] &= !(1 << (self.bits % 8));
        }
        self.bits += 1;
    }

    fn flag(&mut self) {
        for place in 0..8 {
            self.push(0x7E >> place & 1);
        }
    }

    fn content(&mut self, byte: u8) {
        for place in 0..8 {
            let bit = byte >> place & 1;
            self.push(bit);
            self.ones = if bit == 1 { self.ones + 1 } else { 0 };
            if self.ones == 5 {
                self.push(0);
                self.zeros += 1;
                self.ones = 0;
            }
        }
    }
}

pub fn write(
    address: u8,
    meaning: Meaning,
    information: &[u8],
    lent: &mut [u8],
) -> Result<Written, u8> {
    address_check(address)?;
    let control = encode(meaning)?;
    information_check(meaning, information)?;
    let mut line = Line {
        bytes: [0xFF; MOST_LINE],
        bits: 0,
        ones: 0,
        zeros: 0,
    };
    let mut register = 0xFFFF;
    line.flag();
    for byte in [address, control].iter().chain(information) {
        for place in 0..8 {
            register = check_bit(register, (byte >> place) as u16 & 1);
        }
        line.content(*byte);
    }
    for byte in (!register).to_le_bytes() {
        line.content(byte);
    }
    line.flag();
    let needed = line.bits.div_ceil(8);
    if needed > lent.len() {
        return Err(11);
    }
    lent[..needed].copy_from_slice(&line.bytes[..needed]);
    Ok(Written {
        line_bits: line.bits,
        zeros: line.zeros,
    })
}

#[inline]
fn bit_at(buffer: &[u8], place: usize) -> u8 {
    buffer[place / 8] >> (place % 8) & 1
}

/// The reader's state. What is gathered runs into the closing flag: its first zero and five of
/// its ones are gathered too.
pub(crate) struct Reader {
    pub bytes: [u8; MOST_CONTENT + 1],
    /// Whole bytes gathered, also those past the room in `bytes`.
    pub whole: usize,
    pub partial: u32,
    pub partial_bits: u32,
    /// Ones in a row; seven stands for more too, and for a run before any zero.
    pub ones: u32,
    /// The place after the flag that opened, if one has.
    pub opened: Option<usize>,
}

impl Reader {
    pub fn new() -> Reader {
        Reader {
            bytes: [0; MOST_CONTENT + 1],
            whole: 0,
            partial: 0,
            partial_bits: 0,
            ones: 7,
            opened: None,
        }
    }

    /// Gathers up to eight bits, the lowest first.
    #[inline]
    pub fn push(&mut self, bits: u32, count: u32) {
        self.partial |= bits << self.partial_bits;
        self.partial_bits += count;
        if self.partial_bits >= 8 {
            if let Some(byte) = self.bytes.get_mut(self.whole) {
                *byte = self.partial as u8;
            }
            self.whole += 1;
            self.partial >>= 8;
            self.partial_bits -= 8;
        }
    }

    /// One bit of the line; true where it ends the flag that closes non-empty content.
    #[inline]
    pub fn bit(&mut self, buffer: &[u8], place: usize) -> bool {
        if bit_at(buffer, place) == 1 {
            self.ones = (self.ones + 1).min(7);
            match self.ones {
                1..=5 => self.push(1, 1),
                7 => self.opened = None,
                _ => {}
            }
            return false;
        }
        match self.ones {
            6 => {
                if self.opened.is_some_and(|begin| place > begin + 7) {
                    return true;
                }
                self.opened = Some(place + 1);
                self.whole = 0;
                self.partial = 0;
                self.partial_bits = 0;
            }
            5 => {}
            _ => self.push(0, 1),
        }
        self.ones = 0;
        false
    }

    /// Refusals 3 to 6 of the content closed by the flag whose last bit is at `place`, then the
    /// content's bytes.
    pub fn content(&self, buffer: &[u8], place: usize) -> Result<&[u8], u8> {
        if (8..=12).all(|back| bit_at(buffer, place - back) == 1) {
            return Err(3);
        }
        if self.partial_bits != 6 {
            return Err(4);
        }
        if self.whole < 4 {
            return Err(5);
        }
        if self.whole > MOST_CONTENT {
            return Err(6);
        }
        Ok(&self.bytes[..self.whole])
    }
}

pub fn read(buffer: &[u8], count: usize, lent: &mut [u8]) -> Result<Heard, u8> {
    if count > MOST_BITS || count > 8 * buffer.len() {
        return Err(2);
    }
    let mut reader = Reader::new();
    for place in 0..count {
        if reader.bit(buffer, place) {
            return judge(reader.content(buffer, place)?, check_word, lent);
        }
    }
    Err(1)
}

/// Refusals 7 to 12 of whole content, then the information.
pub(crate) fn judge(
    content: &[u8],
    check_word: fn(&[u8]) -> u16,
    lent: &mut [u8],
) -> Result<Heard, u8> {
    let (body, check) = content.split_at(content.len() - 2);
    if check != check_word(body).to_le_bytes() {
        return Err(7);
    }
    address_check(body[0])?;
    let meaning = decode(body[1])?;
    let information = &body[2..];
    information_check(meaning, information)?;
    let size = information.len();
    if size > lent.len() {
        return Err(11);
    }
    lent[..size].copy_from_slice(information);
    Ok(Heard {
        address: body[0],
        meaning,
        size,
    })
}

/// Refusals 2 and 11 of NRZI.
pub(crate) fn nrzi_check(input: &[u8], count: usize, lent: &[u8]) -> Result<(), u8> {
    if count > MOST_BITS || count > 8 * input.len() {
        return Err(2);
    }
    if count > 8 * lent.len() {
        return Err(11);
    }
    Ok(())
}

#[inline]
fn set_bit(lent: &mut [u8], place: usize, bit: u8) {
    let byte = &mut lent[place / 8];
    *byte = *byte & !(1 << (place % 8)) | bit << (place % 8);
}

pub fn nrzi_encode(input: &[u8], count: usize, start: bool, lent: &mut [u8]) -> Result<bool, u8> {
    nrzi_check(input, count, lent)?;
    let mut level = start as u8;
    for place in 0..count {
        level ^= bit_at(input, place) ^ 1;
        set_bit(lent, place, level);
    }
    Ok(level == 1)
}

pub fn nrzi_decode(input: &[u8], count: usize, start: bool, lent: &mut [u8]) -> Result<bool, u8> {
    nrzi_check(input, count, lent)?;
    let mut level = start as u8;
    for place in 0..count {
        let new = bit_at(input, place);
        set_bit(lent, place, level ^ new ^ 1);
        level = new;
    }
    Ok(level == 1)
}
