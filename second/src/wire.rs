//! The wire as document 01 words it: a line is a list of bits, a refusal is a number.

/// Content has at most 257 bytes (01, "Bits between flags").
pub const MOST_CONTENT: usize = 257;
/// A message has 5 to 253 bytes (01, "One end of a link").
pub const LEAST_MESSAGE: usize = 5;
pub const MOST_MESSAGE: usize = 253;
/// The most bits that may be stated (01, refusal 2).
pub const MOST_BITS: usize = 8192;
/// A flag is 0, six ones, 0 (01, "Bits between flags").
pub const FLAG: [bool; 8] = [false, true, true, true, true, true, true, false];

/// A frame's meaning: I carries both counts, RR and RNR carry one, the rest none
/// (01, "Control bytes").
#[derive(Clone, Copy, PartialEq, Eq, Debug)]
pub enum Meaning {
    I { ns: u8, nr: u8 },
    Rr { nr: u8 },
    Rnr { nr: u8 },
    Snrm,
    Disc,
    Ua,
    Frmr,
}

/// A frame without its check word: address, control, information.
#[derive(Clone, PartialEq, Eq, Debug)]
pub struct Frame {
    pub address: u8,
    pub meaning: Meaning,
    pub information: Vec<u8>,
}

/// What the writer reports: the total of line bits and the zeros inserted.
#[derive(Clone, Copy, PartialEq, Eq, Debug)]
pub struct Written {
    pub line_bits: usize,
    pub zeros: usize,
}

/// What the reader reports; the information itself goes to the lent buffer.
#[derive(Clone, Copy, PartialEq, Eq, Debug)]
pub struct Heard {
    pub address: u8,
    pub meaning: Meaning,
    pub size: usize,
}

// ---- Bits and bytes: least significant bit first, the first bit is bit 0 of byte 0. ----

pub fn bit_at(buffer: &[u8], place: usize) -> bool {
    buffer[place / 8] >> (place % 8) & 1 == 1
}

pub fn set_bit(buffer: &mut [u8], place: usize, bit: bool) {
    let mask = 1 << (place % 8);
    if bit {
        buffer[place / 8] |= mask;
    } else {
        buffer[place / 8] &= !mask;
    }
}

pub fn bits_of(bytes: &[u8]) -> Vec<bool> {
    (0..8 * bytes.len())
        .map(|place| bit_at(bytes, place))
        .collect()
}

/// The bytes of a list of bits, or none where they are not whole bytes.
pub fn bytes_of(bits: &[bool]) -> Option<Vec<u8>> {
    if !bits.len().is_multiple_of(8) {
        return None;
    }
    let mut bytes = vec![0; bits.len() / 8];
    for (place, bit) in bits.iter().enumerate() {
        set_bit(&mut bytes, place, *bit);
    }
    Some(bytes)
}

/// The first `count` bits of a buffer; refusal 2 where so many may not be stated.
pub fn stated_bits(buffer: &[u8], count: usize) -> Result<Vec<bool>, u8> {
    if count > MOST_BITS || count > 8 * buffer.len() {
        return Err(2);
    }
    Ok((0..count).map(|place| bit_at(buffer, place)).collect())
}

// ---- Check word ----

/// Polynomial 16, 12, 5, 0; preset all ones; over the bits in line order; complemented. The
/// answer is in line order, highest power first, which is "low byte first" on the line.
pub fn check_bits(bits: &[bool]) -> Vec<bool> {
    // remainder[p] is the coefficient of the power p.
    let mut remainder = [true; 16];
    for bit in bits {
        let carry = remainder[15] != *bit;
        for power in (1..16).rev() {
            remainder[power] = remainder[power - 1];
        }
        remainder[0] = false;
        if carry {
            for power in [12, 5, 0] {
                remainder[power] = !remainder[power];
            }
        }
    }
    remainder.iter().rev().map(|bit| !bit).collect()
}

/// The check word as its two bytes, low byte first.
pub fn check_bytes(bytes: &[u8]) -> [u8; 2] {
    let mut word = [0; 2];
    for (place, bit) in check_bits(&bits_of(bytes)).iter().enumerate() {
        set_bit(&mut word, place, *bit);
    }
    word
}

/// The check word as a number.
pub fn check_word(bytes: &[u8]) -> u16 {
    u16::from_le_bytes(check_bytes(bytes))
}

// ---- Inserted zeros ----

/// After each five ones in a row a zero is inserted, also after the last five; with the count of
/// the zeros inserted.
pub fn insert_zeros(content: &[bool]) -> (Vec<bool>, usize) {
    let mut line = Vec::new();
    let mut zeros = 0;
    let mut ones = 0;
    for bit in content {
        line.push(*bit);
        ones = if *bit { ones + 1 } else { 0 };
        if ones == 5 {
            line.push(false);
            zeros += 1;
            ones = 0;
        }
    }
    (line, zeros)
}

/// Content without its inserted zeros; refusal 3 where five ones stand at its very end and no
/// inserted zero after them. It is only asked of content without six ones in a row.
pub fn remove_zeros(content: &[bool]) -> Result<Vec<bool>, u8> {
    let mut bits = Vec::new();
    let mut ones = 0;
    for bit in content {
        if ones == 5 {
            ones = 0;
            continue;
        }
        bits.push(*bit);
        ones = if *bit { ones + 1 } else { 0 };
    }
    if ones == 5 {
        return Err(3);
    }
    Ok(bits)
}

// ---- Control bytes and messages ----

/// All 84 meanings that a control byte can have.
pub fn known_meanings() -> Vec<Meaning> {
    let mut known = vec![Meaning::Snrm, Meaning::Disc, Meaning::Ua, Meaning::Frmr];
    for nr in 0..8 {
        known.push(Meaning::Rr { nr });
        known.push(Meaning::Rnr { nr });
        for ns in 0..8 {
            known.push(Meaning::I { ns, nr });
        }
    }
    known
}

/// Refusal 9 of a meaning: a count above 7.
pub fn meaning_check(meaning: Meaning) -> Result<(), u8> {
    let sound = match meaning {
        Meaning::I { ns, nr } => ns <= 7 && nr <= 7,
        Meaning::Rr { nr } | Meaning::Rnr { nr } => nr <= 7,
        _ => true,
    };
    if sound {
        Ok(())
    } else {
        Err(9)
    }
}

/// The control byte of a meaning (01, the table of "Control bytes").
pub fn encode(meaning: Meaning) -> Result<u8, u8> {
    meaning_check(meaning)?;
    Ok(match meaning {
        Meaning::I { ns, nr } => 16 + 2 * ns + 32 * nr,
        Meaning::Rr { nr } => 17 + 32 * nr,
        Meaning::Rnr { nr } => 21 + 32 * nr,
        Meaning::Snrm => 0x93,
        Meaning::Disc => 0x53,
        Meaning::Ua => 0x73,
        Meaning::Frmr => 0x97,
    })
}

/// The meaning of a control byte: the one whose byte it is, else refusal 9.
pub fn decode(byte: u8) -> Result<Meaning, u8> {
    for meaning in known_meanings() {
        if encode(meaning) == Ok(byte) {
            return Ok(meaning);
        }
    }
    Err(9)
}

/// Refusal 8: address outside 1 to 250.
pub fn address_check(address: u8) -> Result<(), u8> {
    if (1..=250).contains(&address) {
        Ok(())
    } else {
        Err(8)
    }
}

/// The message check: refusal 10 of the size, then 12 of the length byte.
pub fn message_check(information: &[u8]) -> Result<(), u8> {
    if information.len() < LEAST_MESSAGE || information.len() > MOST_MESSAGE {
        return Err(10);
    }
    if information[0] as usize != information.len() + 2 {
        return Err(12);
    }
    Ok(())
}

/// Refusals 10 and 12 of a frame: only I carries information, and then a message.
pub fn information_check(meaning: Meaning, information: &[u8]) -> Result<(), u8> {
    match meaning {
        Meaning::I { .. } => message_check(information),
        _ if information.is_empty() => Ok(()),
        _ => Err(10),
    }
}

// ---- Frames ----

/// The line bits of content already complete: flag, content with zeros inserted, flag; with the
/// count of the zeros.
pub fn line_of(content: &[u8]) -> (Vec<bool>, usize) {
    let (inserted, zeros) = insert_zeros(&bits_of(content));
    let mut line = FLAG.to_vec();
    line.extend(inserted);
    line.extend(FLAG);
    (line, zeros)
}

/// Writing a frame: refusals 8, 9, 10, 12, 11. Unused bits of the last byte are ones, later bytes
/// stay.
pub fn write(
    address: u8,
    meaning: Meaning,
    information: &[u8],
    lent: &mut [u8],
) -> Result<Written, u8> {
    address_check(address)?;
    let control = encode(meaning)?;
    information_check(meaning, information)?;
    let mut content = vec![address, control];
    content.extend(information);
    content.extend(check_bytes(&content));
    let (mut line, zeros) = line_of(&content);
    let line_bits = line.len();
    while !line.len().is_multiple_of(8) {
        line.push(true);
    }
    if line.len() / 8 > lent.len() {
        return Err(11);
    }
    for (place, bit) in line.iter().enumerate() {
        set_bit(lent, place, *bit);
    }
    Ok(Written { line_bits, zeros })
}

/// The places at which a whole flag begins.
pub fn flag_places(line: &[bool]) -> Vec<usize> {
    (0..line.len())
        .filter(|place| line[*place..].starts_with(&FLAG))
        .collect()
}

/// True where seven ones stand in a row.
pub fn has_seven_ones(bits: &[bool]) -> bool {
    bits.windows(7).any(|seven| seven.iter().all(|bit| *bit))
}

/// The first content that is judged: of the bits strictly between one flag and the next, the
/// first that are not empty and hold no seven ones in a row.
pub fn first_content(line: &[bool]) -> Option<&[bool]> {
    let flags = flag_places(line);
    for pair in flags.windows(2) {
        let (begin, end) = (pair[0] + 8, pair[1]);
        // Flags that share their zero are 7 apart: then end is under begin.
        if begin < end && !has_seven_ones(&line[begin..end]) {
            return Some(&line[begin..end]);
        }
    }
    None
}

/// Reading a frame: refusals 2, 1, 3, 4, 5, 6, 7, 8, 9, 10, 12, 11. Bytes past the information
/// stay.
pub fn read(buffer: &[u8], count: usize, lent: &mut [u8]) -> Result<Heard, u8> {
    let line = stated_bits(buffer, count)?;
    let content = first_content(&line).ok_or(1)?;
    let bytes = bytes_of(&remove_zeros(content)?).ok_or(4)?;
    if bytes.len() < 4 {
        return Err(5);
    }
    if bytes.len() > MOST_CONTENT {
        return Err(6);
    }
    let (body, check) = bytes.split_at(bytes.len() - 2);
    if check != check_bytes(body) {
        return Err(7);
    }
    let address = body[0];
    address_check(address)?;
    let meaning = decode(body[1])?;
    let information = &body[2..];
    information_check(meaning, information)?;
    let size = information.len();
    if size > lent.len() {
        return Err(11);
    }
    lent[..size].copy_from_slice(information);
    Ok(Heard {
        address,
        meaning,
        size,
    })
}

// ---- NRZI: a zero changes the level, a one keeps it. ----

/// Refusals 2 and 11 of NRZI, then the bits to be turned.
fn nrzi_bits(input: &[u8], count: usize, lent: &[u8]) -> Result<Vec<bool>, u8> {
    let bits = stated_bits(input, count)?;
    if count > 8 * lent.len() {
        return Err(11);
    }
    Ok(bits)
}

/// Bits to levels; gives the level at the end. The other bits of the lent output stay.
pub fn nrzi_encode(input: &[u8], count: usize, start: bool, lent: &mut [u8]) -> Result<bool, u8> {
    let mut level = start;
    for (place, bit) in nrzi_bits(input, count, lent)?.iter().enumerate() {
        if !*bit {
            level = !level;
        }
        set_bit(lent, place, level);
    }
    Ok(level)
}

/// Levels to bits; gives the level at the end. The other bits of the lent output stay.
pub fn nrzi_decode(input: &[u8], count: usize, start: bool, lent: &mut [u8]) -> Result<bool, u8> {
    let mut level = start;
    for (place, new) in nrzi_bits(input, count, lent)?.iter().enumerate() {
        set_bit(lent, place, *new == level);
        level = *new;
    }
    Ok(level)
}
