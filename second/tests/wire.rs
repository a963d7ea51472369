//! The wire against document 01 (P1 to P8, P12), published check words and published frames.

use second::random::Random;
use second::wire::*;
use second::{generate, plain, tables};

/// Bits written as 0 and 1; other signs are skipped.
fn bits(text: &str) -> Vec<bool> {
    text.chars()
        .filter(|sign| "01".contains(*sign))
        .map(|sign| sign == '1')
        .collect()
}

/// A packed buffer of bits and their count; unused bits are zeros.
fn packed(line: &[bool]) -> (Vec<u8>, usize) {
    let mut buffer = vec![0; line.len().div_ceil(8)];
    for (place, bit) in line.iter().enumerate() {
        set_bit(&mut buffer, place, *bit);
    }
    (buffer, line.len())
}

/// Reads a line with room for any message.
fn read_line(line: &[bool]) -> Result<Heard, u8> {
    let (buffer, count) = packed(line);
    read(&buffer, count, &mut [0; 253])
}

/// A message of a size whose other bytes are all `fill`.
fn message(size: usize, fill: u8) -> Vec<u8> {
    let mut message = vec![fill; size];
    message[0] = (size + 2) as u8;
    message
}

/// The line of a body with its check word.
fn checked(body: &[u8]) -> Vec<bool> {
    let mut content = body.to_vec();
    content.extend(check_bytes(body));
    line_of(&content).0
}

const FLAG_TEXT: &str = "01111110";

#[test]
fn p1_to_p4_inserted_zeros() {
    assert_eq!(insert_zeros(&bits_of(&[0xFF])), (bits("111110111"), 1));
    let (two, zeros) = insert_zeros(&bits_of(&[0xFF, 0xFF]));
    assert_eq!((two.len(), zeros), (19, 3));
    assert_eq!(insert_zeros(&bits_of(&[0xF8])), (bits("000111110"), 1));
    assert_eq!(insert_zeros(&bits_of(&[0x7E])), (bits("011111010"), 1));
}

#[test]
fn p5_to_p8_control_bytes() {
    assert_eq!(encode(Meaning::I { ns: 3, nr: 5 }), Ok(0xB6));
    assert_eq!(encode(Meaning::Rr { nr: 7 }), Ok(0xF1));
    assert_eq!(encode(Meaning::Rnr { nr: 2 }), Ok(0x55));
    for byte in [0x83, 0x19, 0x33] {
        assert_eq!(decode(byte), Err(9));
    }
}

#[test]
fn control_bytes_84_known_and_172_refused() {
    let known = (0..=255).filter(|byte| decode(*byte).is_ok()).count();
    assert_eq!((known, known_meanings().len()), (84, 84));
    for byte in 0..=255 {
        assert_eq!(plain::decode(byte), decode(byte));
        if let Ok(meaning) = decode(byte) {
            assert_eq!(encode(meaning), Ok(byte));
        }
    }
    for count in 8..=255 {
        assert_eq!(encode(Meaning::I { ns: count, nr: 0 }), Err(9));
        assert_eq!(encode(Meaning::I { ns: 0, nr: count }), Err(9));
        assert_eq!(encode(Meaning::Rr { nr: count }), Err(9));
        assert_eq!(encode(Meaning::Rnr { nr: count }), Err(9));
    }
}

#[test]
fn p12_nrzi_of_a_flag() {
    let mut lent = [0xAA, 0xAA];
    assert_eq!(nrzi_encode(&[0x7E], 8, true, &mut lent), Ok(true));
    assert_eq!(bits_of(&lent[..1]), bits("00000001"));
    assert_eq!(lent[1], 0xAA);
    let levels = lent;
    assert_eq!(nrzi_decode(&levels, 8, true, &mut lent), Ok(true));
    assert_eq!(lent, [0x7E, 0xAA]);
}

#[test]
fn nrzi_refusals_and_other_bits() {
    let zeros = [0; 1025];
    assert_eq!(nrzi_encode(&[0], 9, false, &mut []), Err(2));
    assert_eq!(nrzi_encode(&zeros, 8193, false, &mut [0; 2000]), Err(2));
    assert_eq!(nrzi_encode(&zeros, 8192, false, &mut [0; 1023]), Err(11));
    assert_eq!(nrzi_encode(&zeros, 8192, false, &mut [0; 1024]), Ok(false));
    assert_eq!(nrzi_decode(&[0], 9, false, &mut []), Err(2));
    assert_eq!(nrzi_decode(&[0, 0], 9, false, &mut [0]), Err(11));
    assert_eq!(nrzi_decode(&[], 0, true, &mut []), Ok(true));
    let mut lent = [0xFF, 0xFF, 0xFF];
    assert_eq!(nrzi_decode(&[0x55, 0x55], 11, true, &mut lent), Ok(true));
    assert_eq!(lent, [0x01, 0xF8, 0xFF]);
}

/// 01 gives the first; the next three are the CRC_B examples of ISO/IEC 14443-3, annex B, the next
/// four the frames of ITU-T X.25, appendix I; the last ones were computed by another program.
#[test]
fn published_check_words() {
    let mut all = [0; 256];
    for (place, byte) in all.iter_mut().enumerate() {
        *byte = place as u8;
    }
    let vectors: [(&[u8], u16); 13] = [
        (b"123456789", 0x906E),
        (&[0, 0, 0], 0xC6CC),
        (&[0x0F, 0xAA, 0xFF], 0xD1FC),
        (&[0x0A, 0x12, 0x34, 0x56], 0xF62C),
        (&[0x03, 0x3F], 0xEC5B),
        (&[0x01, 0x73], 0x5783),
        (&[0x01, 0x3F], 0xDFEB),
        (&[0x03, 0x73], 0x6433),
        (&[], 0),
        (b"A", 0xA3F5),
        (&[0xFF; 4], 0x0F47),
        (&[0; 32], 0xCD70),
        (&all, 0x303C),
    ];
    for (bytes, word) in vectors {
        assert_eq!(check_word(bytes), word);
        assert_eq!(plain::check_word(bytes), word);
        assert_eq!(tables::check_word(bytes), word);
    }
    assert_eq!(check_bytes(b"123456789"), [0x6E, 0x90]);
}

/// RFC 1662: the register over bytes and their check word is always F0B8 hex, and the table's
/// entries begin and end so.
#[test]
fn rfc_1662_residue_and_table() {
    let mut random = Random::new(1662);
    for size in 0..300 {
        let mut bytes = random.bytes(size);
        bytes.extend(check_bytes(&bytes));
        assert_eq!(!check_word(&bytes), 0xF0B8);
    }
    assert_eq!(tables::CHECK[..4], [0x0000, 0x1189, 0x2312, 0x329B]);
    assert_eq!(tables::CHECK[254..], [0x1EF1, 0x0F78]);
}

/// ITU-T X.25, appendix I: four whole frames as bits on the line; UA has 01's control byte too.
#[test]
fn published_frames() {
    let frames = [
        ([0x03, 0x3F], "11000000 11111(0)100 11011010 00110111"),
        ([0x01, 0x73], "10000000 11001110 11000001 11101010"),
        ([0x01, 0x3F], "10000000 11111(0)100 11010111 11(0)111011"),
        ([0x03, 0x73], "11000000 11001110 11001100 00100110"),
    ];
    for (body, content) in frames {
        let line = bits(&[FLAG_TEXT, content, FLAG_TEXT].concat());
        assert_eq!(checked(&body), line);
        if body[1] != 0x73 {
            assert_eq!(read_line(&line), Err(9));
            continue;
        }
        let mut lent = [0x55; 7];
        let written = Written {
            line_bits: 48,
            zeros: 0,
        };
        assert_eq!(write(body[0], Meaning::Ua, &[], &mut lent), Ok(written));
        assert_eq!(bits_of(&lent[..6]), line);
        assert_eq!(lent[6], 0x55);
        let heard = Heard {
            address: body[0],
            meaning: Meaning::Ua,
            size: 0,
        };
        assert_eq!(read_line(&line), Ok(heard));
    }
}

#[test]
fn writing_refuses_in_order_and_leaves_the_buffer() {
    let i = Meaning::I { ns: 0, nr: 0 };
    let bad = Meaning::I { ns: 8, nr: 0 };
    let (four, wrong) = (message(4, 0), vec![0; 5]);
    let cases: [(u8, Meaning, &[u8], u8); 8] = [
        (0, bad, &four, 8),
        (251, bad, &four, 8),
        (1, bad, &four, 9),
        (1, i, &four, 10),
        (1, Meaning::Rr { nr: 0 }, &wrong, 10),
        (1, Meaning::Ua, &[0], 10),
        (250, i, &wrong, 12),
        (250, i, &message(5, 0), 11),
    ];
    for (address, meaning, information, number) in cases {
        let mut lent = [0x33; 10];
        assert_eq!(write(address, meaning, information, &mut lent), Err(number));
        assert_eq!(lent, [0x33; 10]);
    }
    assert_eq!(write(1, i, &vec![0; 254], &mut []), Err(10));
}

#[test]
fn writing_fills_the_last_byte_with_ones() {
    let i = Meaning::I { ns: 7, nr: 7 };
    for size in [5, 6, 100, 252, 253] {
        let information = message(size, 0xFF);
        let mut lent = [0x00; 320];
        let written = write(250, i, &information, &mut lent).unwrap();
        assert!(written.zeros <= 8 * (size + 4) / 5 && written.line_bits <= 2483);
        assert_eq!(written.line_bits, 16 + 8 * (size + 4) + written.zeros);
        let needed = written.line_bits.div_ceil(8);
        assert!((written.line_bits..8 * needed).all(|place| bit_at(&lent, place)));
        assert!(lent[needed..].iter().all(|byte| *byte == 0));
        assert_eq!(
            write(250, i, &information, &mut vec![0; needed]),
            Ok(written)
        );
        let short = &mut vec![0; needed - 1];
        assert_eq!(write(250, i, &information, short), Err(11));
    }
}

#[test]
fn messages_by_size_and_length_byte() {
    for size in 0..400 {
        let mut information = vec![0; size];
        if size > 0 {
            information[0] = (size + 2) as u8;
        }
        let sound = (5..=253).contains(&size);
        assert_eq!(
            message_check(&information),
            if sound { Ok(()) } else { Err(10) }
        );
        if sound {
            information[0] ^= 1;
            assert_eq!(message_check(&information), Err(12));
        }
    }
}

#[test]
fn reading_what_was_written() {
    let mut random = Random::new(1);
    for _ in 0..3000 {
        let frame = generate::frame(&mut random);
        let mut buffer = random.bytes(311);
        let written = write(
            frame.address,
            frame.meaning,
            &frame.information,
            &mut buffer,
        );
        let mut lent = random.bytes(260);
        let before = lent.clone();
        let heard = read(&buffer, written.unwrap().line_bits, &mut lent).unwrap();
        assert_eq!(
            (heard.address, heard.meaning),
            (frame.address, frame.meaning)
        );
        assert_eq!(lent[..heard.size], frame.information);
        assert_eq!(lent[heard.size..], before[heard.size..]);
    }
}
