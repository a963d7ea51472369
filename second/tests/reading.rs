//! The reader at the edges of flags and content, each refusal, and the order of tests.

use second::wire::*;

fn bits(text: &str) -> Vec<bool> {
    text.chars()
        .filter(|sign| "01".contains(*sign))
        .map(|sign| sign == '1')
        .collect()
}

fn read_line(line: &[bool]) -> Result<Heard, u8> {
    let mut buffer = vec![0; line.len().div_ceil(8)];
    for (place, bit) in line.iter().enumerate() {
        set_bit(&mut buffer, place, *bit);
    }
    read(&buffer, line.len(), &mut [0; 253])
}

fn read_text(text: &str) -> Result<Heard, u8> {
    read_line(&bits(&text.replace('F', "01111110")))
}

/// The content of a body with its check word, zeros inserted, as text.
fn content(body: &[u8]) -> String {
    let mut bytes = body.to_vec();
    bytes.extend(check_bytes(body));
    let (line, _) = insert_zeros(&bits_of(&bytes));
    line.iter()
        .map(|bit| if *bit { '1' } else { '0' })
        .collect()
}

fn ua(address: u8) -> Result<Heard, u8> {
    Ok(Heard {
        address,
        meaning: Meaning::Ua,
        size: 0,
    })
}

#[test]
fn refusal_2_of_the_stated_count() {
    let mut lent = [0; 253];
    assert_eq!(read(&[0; 2000], 8193, &mut lent), Err(2));
    assert_eq!(read(&[0; 2000], 8192, &mut lent), Err(1));
    assert_eq!(read(&[0; 4], 33, &mut lent), Err(2));
    assert_eq!(read(&[0; 4], usize::MAX, &mut lent), Err(2));
    assert_eq!(read(&[], 0, &mut lent), Err(1));
}

#[test]
fn flags_at_the_edges() {
    let one = content(&[1, 0x73]);
    assert_eq!(read_text(&format!("F{one}F")), ua(1));
    // The first zero is missing, the last zero is missing.
    assert_eq!(read_text(&format!("1111110{one}F")), Err(1));
    assert_eq!(read_text(&format!("F{one}0111111")), Err(1));
    assert_eq!(read_text("F"), Err(1));
    // All that precedes a flag is skipped.
    assert_eq!(read_text(&format!("010110111111111F{one}F")), ua(1));
    assert_eq!(read_text(&format!("1111111111111110F{one}F")), ua(1));
}

#[test]
fn empty_content_is_skipped() {
    let one = content(&[1, 0x73]);
    assert_eq!(read_text("FF"), Err(1));
    assert_eq!(read_text("F1111110"), Err(1));
    assert_eq!(read_text(&format!("FFF{one}F")), ua(1));
    assert_eq!(read_text(&format!("F1111110{one}F")), ua(1));
    assert_eq!(read_text(&format!("F11111101111110F{one}F")), ua(1));
    // The first content alone is judged; one flag closes and opens.
    let three = content(&[3, 0x73]);
    assert_eq!(read_text(&format!("F{one}F{three}F")), ua(1));
    assert_eq!(read_text(&format!("F0F{one}F")), Err(4));
    assert_eq!(read_text(&format!("F1F{one}F")), Err(4));
}

#[test]
fn seven_ones_drop_what_was_gathered() {
    let one = content(&[1, 0x73]);
    let three = content(&[3, 0x73]);
    assert_eq!(read_text(&format!("F{one}1111111F")), Err(1));
    // The flag after a drop opens, it does not close.
    assert_eq!(read_text(&format!("F{one}1111111F{three}F")), ua(3));
    assert_eq!(read_text(&format!("F1111111F{three}F")), ua(3));
    assert_eq!(read_text(&format!("F1111111111F1111110{three}F")), ua(3));
    assert_eq!(read_text(&format!("F1111111{one}F{three}F")), ua(3));
    assert_eq!(read_text(&format!("F{one}111111111{three}F")), Err(1));
}

#[test]
fn refusals_3_and_4() {
    assert_eq!(read_text("F11111F"), Err(3));
    assert_eq!(read_text("F111110F"), Err(4));
    assert_eq!(read_text("F00011111F"), Err(3));
    assert_eq!(read_text("F000111110F"), Err(5));
    assert_eq!(read_text("F1111101111100F"), Err(4));
    assert_eq!(read_text("F11111011111F"), Err(3));
}

#[test]
fn refusals_5_and_6() {
    for size in 1..4 {
        let (line, _) = line_of(&vec![0; size]);
        assert_eq!(read_line(&line), Err(5));
    }
    assert_eq!(read_line(&line_of(&[0; 4]).0), Err(7));
    assert_eq!(read_line(&line_of(&[0; 257]).0), Err(7));
    assert_eq!(read_line(&line_of(&[0; 258]).0), Err(6));
    let mut long = vec![0xFF; 300];
    long.extend(check_bytes(&long));
    assert_eq!(read_line(&line_of(&long).0), Err(6));
}

#[test]
fn refusals_7_to_12_in_order() {
    let cases: [(u8, u8, Vec<u8>, u8); 8] = [
        (0, 0x83, vec![1; 3], 8),
        (251, 0x83, vec![1; 3], 8),
        (1, 0x83, vec![1; 3], 9),
        (1, 0x73, vec![1; 3], 10),
        (1, 0x11, vec![7, 0, 0, 0, 0], 10),
        (1, 0x10, vec![6, 0, 0, 0], 10),
        (1, 0x10, vec![], 10),
        (250, 0x10, vec![0; 253], 12),
    ];
    for (address, control, information, number) in cases {
        let mut body = vec![address, control];
        body.extend(information);
        assert_eq!(read_text(&format!("F{}F", content(&body))), Err(number));
        let mut wrong = body.clone();
        wrong.extend(check_bytes(&body));
        wrong[0] ^= 1;
        assert_eq!(read_line(&line_of(&wrong).0), Err(7));
    }
}

#[test]
fn refusal_11_is_the_last_and_for_the_size_alone() {
    let mut buffer = [0; 20];
    let meaning = Meaning::I { ns: 0, nr: 0 };
    let written = write(250, meaning, &[7, 1, 2, 3, 4], &mut buffer);
    let count = written.unwrap().line_bits;
    let mut small = [9; 4];
    assert_eq!(read(&buffer, count, &mut small), Err(11));
    assert_eq!(small, [9; 4]);
    let mut room = [9; 6];
    assert_eq!(
        read(&buffer, count, &mut room).map(|heard| heard.size),
        Ok(5)
    );
    assert_eq!(room, [7, 1, 2, 3, 4, 9]);
}

/// Careless programs: no zero inserted after five ones that end the check word.
#[test]
fn zero_after_five_ones_that_end_the_check_word() {
    let mut found = 0;
    for first in 0..=255 {
        for second in 0..64 {
            let information = [7, first, second, 0, 0];
            let body = [&[5, 0x10], &information[..]].concat();
            let text = content(&body);
            if !text.ends_with("111110") || !text[..text.len() - 6].ends_with('0') {
                continue;
            }
            found += 1;
            let mut lent = [0; 311];
            let written = write(5, Meaning::I { ns: 0, nr: 0 }, &information, &mut lent).unwrap();
            assert_eq!(
                bits_of(&lent)[..written.line_bits],
                bits(&format!("01111110{text}01111110"))
            );
            assert!(read_text(&format!("F{text}F")).is_ok());
            assert_eq!(read_text(&format!("F{}F", &text[..text.len() - 1])), Err(3));
        }
    }
    assert!(found > 100);
}

#[test]
fn bits_past_the_stated_count_are_not_there() {
    let mut buffer = [0xFF; 20];
    let written = write(5, Meaning::Disc, &[], &mut buffer).unwrap();
    let mut lent = [0; 253];
    for count in 0..written.line_bits {
        assert_eq!(read(&buffer, count, &mut lent), Err(1));
    }
    for count in written.line_bits..160 {
        assert!(read(&buffer, count, &mut lent).is_ok());
    }
}
