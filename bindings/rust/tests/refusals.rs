//! Every refusal, met through the wrapper: its number, its place in the order of tests, and that nothing changes.

use bitbus::*;

const GOOD: [u8; 5] = [7, 0, 5, 0x11, 1];
const I: Meaning = Meaning::I { ns: 0, nr: 0 };

/// Bits between two flags, packed, with the count of all.
fn between_flags(content: &[u8]) -> (Vec<u8>, usize) {
    const FLAG: [u8; 8] = [0, 1, 1, 1, 1, 1, 1, 0];
    let line = [&FLAG, content, &FLAG].concat();
    let packed = line.chunks(8).map(|part| part.iter().rev().fold(0, |byte, bit| 2 * byte + bit)).collect();
    (packed, line.len())
}

/// The content bits of bytes, a zero inserted after each five ones in a row.
fn content(bytes: &[u8]) -> Vec<u8> {
    let (mut bits, mut ones) = (vec![], 0);
    for at in 0..8 * bytes.len() {
        let bit = bytes[at / 8] >> (at % 8) & 1;
        bits.push(bit);
        ones = if bit == 1 { ones + 1 } else { 0 };
        if ones == 5 {
            bits.push(0);
            ones = 0;
        }
    }
    bits
}

/// What the reader says of content bits between two flags.
fn reads(content: &[u8]) -> Result<Frame, Refusal> {
    let (line, bits) = between_flags(content);
    read(&line, bits)
}

/// What the reader says of bytes under their right check word.
fn reads_bytes(bytes: &[u8]) -> Result<Frame, Refusal> {
    reads(&content(&[bytes, &check_word(bytes).to_le_bytes()].concat()))
}

#[test]
fn reading() {
    assert_eq!(read(&[0; 2], 17), Err(Refusal::BIT_COUNT));
    assert_eq!(read(&[0; 2000], BITS_MOST + 1), Err(Refusal::BIT_COUNT));
    assert_eq!(read(&[0x7E, 0x7E], 16), Err(Refusal::NO_CONTENT));
    assert_eq!(reads(&[1; 7]), Err(Refusal::NO_CONTENT));
    assert_eq!(reads(&[1; 5]), Err(Refusal::FIVE_ONES_AT_END));
    assert_eq!(reads(&[1, 1, 1, 1, 1, 0]), Err(Refusal::NOT_WHOLE_BYTES));
    assert_eq!(reads(&content(&[1, 2, 3])), Err(Refusal::TOO_FEW_BYTES));
    assert_eq!(reads(&content(&[0; 258])), Err(Refusal::TOO_MANY_BYTES));
    assert_eq!(reads(&content(&[0; 4])), Err(Refusal::CHECK_WORD));
    assert_eq!(reads_bytes(&[251, 0x83]), Err(Refusal::ADDRESS));
    assert_eq!(reads_bytes(&[250, 0x83]), Err(Refusal::CONTROL));
    assert_eq!(reads_bytes(&[250, 0x10, 9, 9, 9, 9]), Err(Refusal::INFORMATION));
    assert_eq!(reads_bytes(&[250, 0x11, 7, 0, 5, 0x11, 1]), Err(Refusal::INFORMATION));
    assert_eq!(reads_bytes(&[250, 0x10, 8, 0, 5, 0x11, 1]), Err(Refusal::LENGTH_BYTE));
    let frame = reads_bytes(&[&[250, 0x10], &GOOD[..]].concat()).unwrap();
    assert_eq!((frame.address, frame.meaning, &frame.information[..]), (250, I, &GOOD[..]));
}

#[test]
fn writing() {
    let mut out = [0xA5; FRAME_MOST];
    let above_7 = Meaning::I { ns: 8, nr: 0 };
    assert_eq!(write(0, above_7, &[], &mut out), Err(Refusal::ADDRESS));
    assert_eq!(write(5, above_7, &[], &mut out), Err(Refusal::CONTROL));
    assert_eq!(write(5, Meaning::Rnr { nr: 200 }, &GOOD, &mut out), Err(Refusal::CONTROL));
    assert_eq!(write(5, I, &[], &mut out), Err(Refusal::INFORMATION));
    assert_eq!(write(5, Meaning::Ua, &GOOD, &mut out), Err(Refusal::INFORMATION));
    assert_eq!(write(5, I, &[8, 0, 5, 0x11, 1], &mut []), Err(Refusal::LENGTH_BYTE));
    assert_eq!(write(5, Meaning::Ua, &[], &mut out[..5]), Err(Refusal::OUTPUT));
    assert_eq!(out, [0xA5; FRAME_MOST]);
    assert_eq!(write(5, Meaning::Ua, &[], &mut out[..6]), Ok(Written { bits: 48, zeros: 0 }));
}

#[test]
fn nrzi() {
    for way in [nrzi_encode, nrzi_decode] {
        let mut out = [0x5A];
        assert_eq!(way(true, &[0; 2], 17, &mut out), Err(Refusal::BIT_COUNT));
        assert_eq!(way(true, &[0; 2], 9, &mut out), Err(Refusal::OUTPUT));
        assert_eq!((way(true, &[], 0, &mut out), out), (Ok(true), [0x5A]));
    }
}

#[test]
fn messages() {
    assert_eq!(message_check(&[]), Err(Refusal::INFORMATION));
    assert_eq!(message_check(&[0; 4]), Err(Refusal::INFORMATION));
    assert_eq!(message_check(&[0; 254]), Err(Refusal::INFORMATION));
    assert_eq!(message_check(&[0; 5]), Err(Refusal::LENGTH_BYTE));
}

#[test]
fn slave() {
    assert_eq!(Slave::make(0), Err(Refusal::ADDRESS));
    let mut slave = Slave::make(5).unwrap();
    slave.put(&GOOD).unwrap();
    let before = slave.clone();
    assert_eq!(slave.put(&[0; 4]), Err(Refusal::INFORMATION));
    assert_eq!(slave.put(&[0; 5]), Err(Refusal::LENGTH_BYTE));
    assert_eq!(slave.put(&GOOD), Err(Refusal::STILL_HELD));
    assert_eq!(slave.take(), Err(Refusal::SLOT_EMPTY));
    assert_eq!(slave.step(6, Meaning::Rr { nr: 8 }, &[1]), Err(Refusal::CONTROL));
    assert_eq!(slave.step(6, Meaning::Rr { nr: 7 }, &[1]), Err(Refusal::INFORMATION));
    assert_eq!(slave.step(6, I, &[0; 5]), Err(Refusal::LENGTH_BYTE));
    assert_eq!(slave.step(6, I, &GOOD), Err(Refusal::OTHER_ADDRESS));
    assert_eq!(slave, before);
}

#[test]
fn master() {
    assert_eq!(Master::make(251, 0), Err(Refusal::ADDRESS));
    assert_eq!(Master::make(250, 0), Err(Refusal::LIMIT));
    assert_eq!(Master::make(250, 65_536), Err(Refusal::LIMIT));
    let mut master = Master::make(250, 65_535).unwrap();
    assert_eq!(master.silence(), Err(Refusal::NO_ORDER_WAITS));
    assert_eq!(master.response(0, 250, Meaning::Rr { nr: 8 }, &[]), Err(Refusal::NO_ORDER_WAITS));
    master.order(0).unwrap();
    let before = master.clone();
    assert_eq!(master.order(1), Err(Refusal::ORDER_WAITS));
    assert_eq!(master.response(0, 250, Meaning::Rr { nr: 8 }, &[1]), Err(Refusal::CONTROL));
    assert_eq!(master.response(0, 250, Meaning::Ua, &[1]), Err(Refusal::INFORMATION));
    assert_eq!(master.response(0, 250, I, &[0; 5]), Err(Refusal::LENGTH_BYTE));
    assert_eq!(master, before);
    assert_eq!(master.response(0, 251, Meaning::Ua, &[]), Ok(Heard::Silence));
    assert!(!master.order_waits());
}

/// The least and the most of each field that an end's bytes may hold, and what is refused by 30.
#[test]
fn bytes_that_are_no_end() {
    let good = *Master::make(5, 100).unwrap().as_bytes();
    let with = |changes: &[(usize, u8)]| {
        let mut bytes = good;
        changes.iter().for_each(|&(at, byte)| bytes[at] = byte);
        let slave: [u8; Slave::SIZE] = bytes[..Slave::SIZE].try_into().unwrap();
        (Master::from_bytes(bytes).map(|_| ()), Slave::from_bytes(slave).map(|_| ()))
    };
    let (right, wrong) = (Ok(()), Err(Refusal::END));
    assert_eq!(with(&[]), (right, right));
    assert_eq!(with(&[(0, 2)]), (right, wrong)); // a slave has two modes, a master three
    assert_eq!(with(&[(0, 3)]), (wrong, wrong));
    for byte in [0, 251] {
        assert_eq!(with(&[(1, byte)]), (wrong, wrong)); // address
    }
    assert_eq!(with(&[(2, 7), (3, 7)]), (right, right));
    assert_eq!(with(&[(2, 8)]), (wrong, wrong)); // Ns
    assert_eq!(with(&[(3, 8)]), (wrong, wrong)); // Nr
    assert_eq!(with(&[(4, 1)]), (wrong, wrong)); // sent, and nothing held
    assert_eq!(with(&[(5, 2)]), (wrong, wrong)); // doubt mark
    for (size_at, at) in [(6, 22), (14, 275)] {
        assert_eq!(with(&[(size_at, 5), (at, 7)]), (right, right));
        assert_eq!(with(&[(size_at, 4), (at, 6)]), (wrong, wrong));
        assert_eq!(with(&[(size_at, 254), (at, 0)]), (wrong, wrong));
        assert_eq!(with(&[(size_at, 5), (at, 8)]), (wrong, wrong)); // against 12
        assert_eq!(with(&[(size_at, 5), (at, 7), (size_at + 7, 1)]), (wrong, wrong));
        // the size's top byte
    }
    assert_eq!(with(&[(4, 1), (6, 5), (22, 7)]), (right, right));
    assert_eq!(with(&[(528, 2)]), (wrong, right)); // busy
    assert_eq!(with(&[(529, 2)]), (wrong, right)); // order waits
    assert_eq!(with(&[(530, 255), (533, 255)]), (right, right)); // every tick
    assert_eq!(with(&[(534, 0)]), (wrong, right)); // limit 0
    assert_eq!(with(&[(536, 1)]), (wrong, right)); // limit above 65,535
}

#[test]
fn captures() {
    let numbers = |capture: &[u8]| record(capture, 0).map(|_| ()).map_err(Refusal::number);
    assert_eq!(record(&[], 0), Ok(None));
    for bad in
        [&[6][..], &[6, 0, 1], &[3, 0, 1, 0], &[7, 0, 1, 0, 5, 0x93], &[4, 0, 4, 0], &[5, 0, 3, 0, 1], &[5, 0, 1, 0, 5]]
    {
        assert_eq!(numbers(bad), Err(18));
    }
    assert_eq!(numbers(&[6, 0, 1, 0, 0, 0x83]), Err(8));
    assert_eq!(numbers(&[7, 0, 1, 0, 5, 0x83, 1]), Err(9));
    assert_eq!(numbers(&[7, 0, 1, 0, 5, 0x93, 1]), Err(10));
    assert_eq!(numbers(&[11, 0, 1, 0, 5, 0x10, 8, 0, 5, 0x31, 1]), Err(12));
    assert_eq!(list(&[6, 0, 1, 0, 0, 0x83]), "no way node kind ns nr info\n1 refused 8\n");
    for past in [4, 5, usize::MAX] {
        assert_eq!(record(&[4, 0, 3, 0], past), Ok(None));
    }
}

#[test]
fn a_refusal_is_an_error_with_words() {
    assert_eq!(Refusal::END.to_string(), "refused by 30: bytes that are no end, or an end that is not right");
    let error: Box<dyn std::error::Error> = Refusal::CHECK_WORD.into();
    assert_eq!(error.to_string(), "refused by 7: check word wrong");
}
