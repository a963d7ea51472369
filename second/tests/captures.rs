//! Captures against document 01: its listing, each refusal, and the limits.

use second::captures::*;
use second::generate::{self, record_of};
use second::random::Random;
use second::wire::{Heard, Meaning};

const HEADER: &str = "no way node kind ns nr info\n";

/// The records of 01's listing.
fn example() -> Vec<u8> {
    let order = [0x0B, 0, 1, 0, 5, 0x10, 7, 0, 5, 0x31, 1];
    let mut capture = vec![6, 0, 1, 0, 5, 0x93, 6, 0, 2, 0, 5, 0x73];
    capture.extend(order);
    capture.extend([4, 0, 3, 0]);
    capture.extend(order);
    capture.extend([6, 0, 2, 0, 5, 0x31]);
    capture
}

#[test]
fn the_listing_of_01() {
    let expected = "no way node kind ns nr info
1 > 5 SNRM - - 0
2 < 5 UA - - 0
3 > 5 I 0 0 5
4 . - - - - -
5 > 5 I 0 0 5
6 < 5 RR - 1 0
";
    assert_eq!(list(&example()), expected);
    assert_eq!(list(&[]), HEADER);
}

#[test]
fn one_to_three_bytes_left() {
    for left in 1..4 {
        let mut capture = example();
        capture.extend(&[4, 0, 3, 0][..left]);
        let listing = list(&capture);
        assert!(listing.starts_with(&list(&example())));
        assert!(listing.ends_with("\n7 refused 18\n"));
        assert_eq!(list(&[4, 0, 3][..left]), format!("{HEADER}1 refused 18\n"));
    }
}

#[test]
fn refusals_of_a_record() {
    let i = |first: u8, size: usize| {
        let mut body = vec![1, 0x10];
        body.extend(vec![first; size]);
        body
    };
    let cases = [
        (vec![3, 0, 3, 0], 18),
        (vec![5, 0, 3, 0], 18),
        (vec![0, 0, 3, 0], 18),
        (record_of(0, &[]), 18),
        (record_of(4, &[1, 0x73]), 18),
        (record_of(0x101, &[1, 0x73]), 18),
        (record_of(3, &[1]), 18),
        (record_of(1, &[]), 18),
        (record_of(2, &[1]), 18),
        (record_of(1, &i(0, 254)), 18),
        (record_of(1, &[0, 0x83, 1]), 8),
        (record_of(2, &[251, 0x83, 1]), 8),
        (record_of(2, &[250, 0x83, 1]), 9),
        (record_of(2, &[1, 0x73, 1]), 10),
        (record_of(1, &i(6, 4)), 10),
        (record_of(1, &i(0, 0)), 10),
        (record_of(1, &i(0, 5)), 12),
        (record_of(1, &i(0, 253)), 12),
    ];
    for (bytes, number) in cases {
        assert_eq!(record(&bytes, 0), Err(number), "{bytes:?}");
        let mut capture = example();
        let place = capture.len();
        capture.extend(&bytes);
        assert_eq!(record(&capture, place), Err(number));
        let expected = format!("{}7 refused {number}\n", list(&example()));
        assert_eq!(list(&capture), expected);
    }
}

#[test]
fn a_record_at_a_place() {
    let capture = example();
    let heard = |meaning, size| Heard {
        address: 5,
        meaning,
        size,
    };
    let i = heard(Meaning::I { ns: 0, nr: 0 }, 5);
    assert_eq!(record(&capture, 12), Ok((Record::Order(i), 11)));
    assert_eq!(record(&capture, 23), Ok((Record::Silence, 4)));
    let rr = heard(Meaning::Rr { nr: 1 }, 0);
    assert_eq!(record(&capture, 38), Ok((Record::Response(rr), 6)));
    assert_eq!(record(&capture, capture.len()), Err(18));
    assert_eq!(record(&capture, usize::MAX), Err(18));
}

/// Either way may carry any known kind; `-` stands where a field has no meaning.
#[test]
fn all_kinds_are_shown() {
    let mut capture = Vec::new();
    for control in [0x93, 0x53, 0x73, 0x97, 0xF1, 0x55] {
        capture.extend(record_of(2, &[250, control]));
    }
    let expected = "1 < 250 SNRM - - 0
2 < 250 DISC - - 0
3 < 250 UA - - 0
4 < 250 FRMR - - 0
5 < 250 RR - 7 0
6 < 250 RNR - 2 0
";
    assert_eq!(list(&capture), format!("{HEADER}{expected}"));
}

#[test]
fn too_long() {
    let silences = |count: usize| record_of(3, &[]).repeat(count);
    let longest = silences(16_384);
    assert_eq!(longest.len(), 65_536);
    let listing = list(&longest);
    assert_eq!(listing.lines().count(), 16_385);
    assert!(listing.ends_with("\n16384 . - - - - -\n"));
    assert_eq!(list(&[&longest[..], &[4]].concat()), "too long\n");
    assert_eq!(list(&silences(16_385)), "too long\n");
}

/// Every line of a listing has seven fields, or is the last and refused; every refusal is met.
#[test]
fn random_captures() {
    let mut random = Random::new(6);
    let mut met = [0; 19];
    for _ in 0..5000 {
        let capture = generate::capture(&mut random);
        let listing = list(&capture);
        if listing == "too long\n" {
            assert!(capture.len() > 65_536);
            continue;
        }
        let count = listing.lines().count();
        for (number, line) in listing.lines().enumerate().skip(1) {
            let fields: Vec<&str> = line.split(' ').collect();
            assert_eq!(fields[0], number.to_string());
            if fields.len() == 3 {
                assert_eq!((fields[1], number), ("refused", count - 1));
                met[fields[2].parse::<usize>().unwrap()] += 1;
            } else {
                assert_eq!(fields.len(), 7);
                met[0] += 1;
            }
        }
    }
    for number in [0, 8, 9, 10, 12, 18] {
        assert!(met[number] > 20, "{met:?}");
    }
}
