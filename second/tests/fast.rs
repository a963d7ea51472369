//! The plain and the table-driven versions against the wire, on random lines, frames and levels.

use second::random::Random;
use second::wire::{Heard, Meaning, Written};
use second::{generate, plain, tables, wire};

type Write = fn(u8, Meaning, &[u8], &mut [u8]) -> Result<Written, u8>;
type Read = fn(&[u8], usize, &mut [u8]) -> Result<Heard, u8>;
type Nrzi = fn(&[u8], usize, bool, &mut [u8]) -> Result<bool, u8>;

#[test]
fn check_words_agree() {
    let mut random = Random::new(2);
    for size in 0..1000 {
        let bytes = random.bytes(size);
        let word = wire::check_word(&bytes);
        assert_eq!(plain::check_word(&bytes), word);
        assert_eq!(tables::check_word(&bytes), word);
    }
}

#[test]
fn writers_agree() {
    let mut random = Random::new(3);
    let writers: [Write; 3] = [wire::write, plain::write, tables::write];
    for turn in 0..30_000 {
        let frame = match turn % 3 {
            0 => generate::wild_frame(&mut random),
            _ => generate::frame(&mut random),
        };
        let needed = match wire::write(
            frame.address,
            frame.meaning,
            &frame.information,
            &mut [0; 311],
        ) {
            Ok(written) => written.line_bits.div_ceil(8),
            Err(_) => 311,
        };
        let before = generate::lent_near(&mut random, needed);
        let outcomes = writers.map(|write| {
            let mut lent = before.clone();
            let answer = write(frame.address, frame.meaning, &frame.information, &mut lent);
            (answer, lent)
        });
        assert_eq!(outcomes[1], outcomes[0]);
        assert_eq!(outcomes[2], outcomes[0]);
        if outcomes[0].0.is_err() {
            assert_eq!(outcomes[0].1, before);
        }
    }
}

/// Every refusal of reading is met many times, and so is success.
#[test]
fn readers_agree() {
    let mut random = Random::new(4);
    let readers: [Read; 3] = [wire::read, plain::read, tables::read];
    let mut met = [0; 13];
    for _ in 0..60_000 {
        let line = generate::line(&mut random);
        let size = match wire::read(&line.buffer, line.count, &mut [0; 253]) {
            Ok(heard) => heard.size,
            Err(_) => 253,
        };
        let before = generate::lent_near(&mut random, size);
        let outcomes = readers.map(|read| {
            let mut lent = before.clone();
            let answer = read(&line.buffer, line.count, &mut lent);
            (answer, lent)
        });
        assert_eq!(outcomes[1], outcomes[0]);
        assert_eq!(outcomes[2], outcomes[0]);
        match outcomes[0].0 {
            Ok(_) => met[0] += 1,
            Err(number) => {
                met[number as usize] += 1;
                assert_eq!(outcomes[0].1, before);
            }
        }
    }
    assert!(met.iter().all(|times| *times > 100), "{met:?}");
}

/// Every line of up to 16 bits after a flag, so that each short shape of flags is met.
#[test]
fn readers_agree_on_all_short_lines() {
    for tail in 0..=u16::MAX {
        let [low, high] = tail.to_le_bytes();
        for buffer in [[0x7E, low, high, 0x7E], [low, high, 0x7E, 0xFF]] {
            for count in [24, 31, 32] {
                let heard = wire::read(&buffer, count, &mut []);
                assert_eq!(plain::read(&buffer, count, &mut []), heard);
                assert_eq!(tables::read(&buffer, count, &mut []), heard);
            }
        }
    }
}

#[test]
fn nrzi_agrees_and_goes_back() {
    let mut random = Random::new(5);
    let ways: [[Nrzi; 3]; 2] = [
        [wire::nrzi_encode, plain::nrzi_encode, tables::nrzi_encode],
        [wire::nrzi_decode, plain::nrzi_decode, tables::nrzi_decode],
    ];
    for _ in 0..20_000 {
        let line = generate::line(&mut random);
        let start = random.coin();
        let before = generate::lent_near(&mut random, line.count.min(9000).div_ceil(8));
        for way in ways {
            let outcomes = way.map(|nrzi| {
                let mut lent = before.clone();
                let answer = nrzi(&line.buffer, line.count, start, &mut lent);
                (answer, lent)
            });
            assert_eq!(outcomes[1], outcomes[0]);
            assert_eq!(outcomes[2], outcomes[0]);
        }
        let mut levels = before.clone();
        let level = wire::nrzi_encode(&line.buffer, line.count, start, &mut levels);
        if level.is_ok() {
            let mut back = levels.clone();
            assert_eq!(
                wire::nrzi_decode(&levels, line.count, start, &mut back),
                level
            );
            let bits = wire::stated_bits(&line.buffer, line.count);
            assert_eq!(wire::stated_bits(&back, line.count), bits);
        }
    }
}

/// Published numbers of splitmix64 from the seed 1234567.
#[test]
fn random_numbers_are_splitmix64() {
    let mut random = Random::new(1_234_567);
    assert_eq!(random.bits(), 6_457_827_717_110_365_317);
    assert_eq!(random.bits(), 3_203_168_211_198_807_973);
    assert_eq!(random.bits(), 9_817_491_932_198_370_423);
}
