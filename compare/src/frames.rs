//! Comparisons of the line: check word, message check, writing, reading, NRZI.

use crate::outcome::{control_of, differ, lend, meaning_of, same, Outcome, BEFORE};
use crate::surface::{self, BITS_MOST, FRAME_MOST};
use crate::tally::Tally;
use second::generate::{self, Line};
use second::random::Random;
use second::tables;
use second::wire::{self, Heard, Meaning, Written};

/// A frame to write: its control byte may be none of the table.
#[derive(Debug)]
struct Given {
    address: u8,
    control: u8,
    information: Vec<u8>,
}

/// The frame of a number: sizes 5 to 253 in turn; random, all FF, all 00, content ending in five ones, or as the second
/// program makes them.
fn sound(random: &mut Random, index: usize) -> Given {
    let size = 5 + index % 249;
    let mut information = match index / 249 % 5 {
        0 | 3 => random.bytes(size),
        1 => vec![0xFF; size],
        2 => vec![0; size],
        _ => {
            let frame = generate::frame(random);
            return Given {
                address: frame.address,
                control: control_of(frame.meaning),
                information: frame.information,
            };
        }
    };
    information[0] = (size + 2) as u8;
    let (ns, nr) = (random.below(8) as u8, random.below(8) as u8);
    let mut given = Given {
        address: generate::address(random),
        control: control_of(Meaning::I { ns, nr }),
        information,
    };
    if index / 249 % 5 == 3 {
        end_in_five_ones(random, &mut given);
    }
    given
}

/// Tries last bytes until the check word, which ends the content, ends in five ones.
fn end_in_five_ones(random: &mut Random, given: &mut Given) {
    let mut body = vec![given.address, given.control];
    body.extend(&given.information);
    let size = body.len();
    while tables::check_word(&body) < 0xF800 {
        body[size - 1] = random.byte();
        body[size - 2] = random.byte();
    }
    given.information.copy_from_slice(&body[2..]);
}

/// Writes a frame both ways and gives the line where it was not refused.
fn write(tally: &mut Tally, random: &mut Random, given: &Given) -> Option<Line> {
    let meaning = meaning_of(given.control);
    let mut most = [0; FRAME_MOST];
    let needed = match tables::write(given.address, meaning, &given.information, &mut most) {
        Ok(written) => written.line_bits.div_ceil(8),
        Err(_) => random.below(FRAME_MOST),
    };
    let lent = generate::lent_near(random, needed);
    let mut values = [BEFORE; 2];
    let (after, number) = lend(&lent, |out| {
        surface::write(
            given.address,
            given.control,
            &given.information,
            out,
            &mut values,
        )
    });
    let ours = Outcome {
        number,
        values,
        lent: after,
        end: vec![],
    };
    let mut after = lent.clone();
    let answer = wire::write(given.address, meaning, &given.information, &mut after);
    let told = |written: Written| [written.line_bits, written.zeros];
    let second = Outcome::second(answer, told, after.clone(), vec![]);
    same(tally, "write", &(given, &lent), ours, second);
    answer.ok().map(|written| Line {
        buffer: after,
        count: written.line_bits,
    })
}

/// Reads a line both ways.
fn read(tally: &mut Tally, line: &Line, lent: &[u8]) -> Result<Heard, u8> {
    let mut values = [BEFORE; 3];
    let (after, number) = lend(lent, |out| {
        surface::read(&line.buffer, line.count, out, &mut values)
    });
    let ours = Outcome {
        number,
        values,
        lent: after,
        end: vec![],
    };
    let mut after = lent.to_vec();
    let answer = wire::read(&line.buffer, line.count, &mut after);
    let told = |heard: Heard| {
        [
            heard.address as usize,
            control_of(heard.meaning) as usize,
            heard.size,
        ]
    };
    let second = Outcome::second(answer, told, after, vec![]);
    same(tally, "read", &(line, lent), ours, second);
    answer
}

fn check_word(tally: &mut Tally, bytes: &[u8]) {
    let (ours, second) = (surface::check_word(bytes), wire::check_word(bytes));
    if ours != second {
        differ("check_word", &bytes, &ours, &second);
    }
    tally.number("check_word", 0);
}

/// True where the content's last bits are five ones and their inserted zero, right before the closing flag.
fn ends_in_five_ones(line: &Line) -> bool {
    let last: Vec<bool> = (line.count - 14..line.count - 8)
        .map(|place| wire::bit_at(&line.buffer, place))
        .collect();
    last == [true, true, true, true, true, false]
}

/// Frames written and read back, with rooms tried until one suffices; for one in eight, a frame with something wrong
/// besides.
pub fn frames(tally: &mut Tally, random: &mut Random, first: usize, count: usize) {
    for index in first..first + count {
        let given = sound(random, index);
        check_word(tally, &given.information);
        let line = (0..100)
            .find_map(|_| write(tally, random, &given))
            .expect("one of many rooms suffices");
        tally.thing(
            "frames with five ones at the very end",
            ends_in_five_ones(&line) as u64,
        );
        let heard = (0..100).find_map(|_| {
            let lent = generate::lent_near(random, given.information.len());
            read(tally, &line, &lent).ok()
        });
        let heard = heard.expect("one of many rooms suffices");
        let back = (heard.address, control_of(heard.meaning), heard.size);
        if back != (given.address, given.control, given.information.len()) {
            differ("a frame read back, by both programs", &given, &back, &back);
        }
        tally.thing("frames written and read back", 1);
        if index % 8 == 0 {
            let wild = generate::wild_frame(random);
            let control = if random.chance(1, 4) {
                random.byte()
            } else {
                control_of(wild.meaning)
            };
            let given = Given {
                address: wild.address,
                control,
                information: wild.information,
            };
            write(tally, random, &given);
            tally.thing("frames with something wrong written", 1);
        }
    }
}

/// A line of the second program's making (pieces sound, damaged, cut, joined, with shared flags), or bits at random,
/// with counts up to the edges and beyond.
fn line(random: &mut Random) -> Line {
    if random.chance(4, 5) {
        return generate::line(random);
    }
    let size = match random.below(4) {
        0 => random.below(6),
        1 => random.one_of(&[1023, 1024, 1025]),
        _ => random.below(80),
    };
    let (part, whole) = random.one_of(&[(1, 2), (5, 7), (9, 10)]);
    let mut buffer = vec![0; size];
    for place in 0..8 * size {
        wire::set_bit(&mut buffer, place, random.chance(part, whole));
    }
    let some = random.below(8 * size + 1);
    let count = random.one_of(&[
        8 * size,
        some,
        some,
        8 * size + 1,
        BITS_MOST,
        BITS_MOST + 1,
        usize::MAX,
    ]);
    Line { buffer, count }
}

type OurNrzi = fn(bool, &[u8], usize, &mut [u8], &mut [usize; 1]) -> u32;
type SecondNrzi = fn(&[u8], usize, bool, &mut [u8]) -> Result<bool, u8>;

/// Turns a line one way.
fn nrzi(
    tally: &mut Tally,
    random: &mut Random,
    name: &'static str,
    ours: OurNrzi,
    second: SecondNrzi,
    line: &Line,
) {
    let level = random.coin();
    let lent = generate::lent_near(random, line.count.min(BITS_MOST).div_ceil(8));
    let mut values = [BEFORE; 1];
    let (after, number) = lend(&lent, |out| {
        ours(level, &line.buffer, line.count, out, &mut values)
    });
    let ours = Outcome {
        number,
        values,
        lent: after,
        end: vec![],
    };
    let mut after = lent.clone();
    let answer = second(&line.buffer, line.count, level, &mut after);
    let second = Outcome::second(answer, |level| [level as usize], after, vec![]);
    same(tally, name, &(line, level, &lent), ours, second);
}

/// Lines read, and turned by NRZI both ways.
pub fn lines(tally: &mut Tally, random: &mut Random, count: usize) {
    for _ in 0..count {
        let line = line(random);
        let room = random.one_of(&[253, 253, 12, 5]);
        let lent = generate::lent_near(random, room);
        read(tally, &line, &lent).ok();
        nrzi(
            tally,
            random,
            "nrzi_encode",
            surface::nrzi_encode,
            wire::nrzi_encode,
            &line,
        );
        nrzi(
            tally,
            random,
            "nrzi_decode",
            surface::nrzi_decode,
            wire::nrzi_decode,
            &line,
        );
        tally.thing("lines read and turned by NRZI", 1);
    }
}

/// Control bytes at random, each written without and with a message and read from a line that carries it.
pub fn controls(tally: &mut Tally, random: &mut Random, count: usize) {
    for _ in 0..count {
        let (address, control) = (generate::wild_address(random), random.byte());
        let message = generate::message(random);
        for information in [vec![], message] {
            let mut content = vec![address, control];
            content.extend(&information);
            content.extend(wire::check_bytes(&content));
            let bits = wire::line_of(&content).0;
            let mut buffer = vec![0xFF; bits.len().div_ceil(8)];
            for (place, bit) in bits.iter().enumerate() {
                wire::set_bit(&mut buffer, place, *bit);
            }
            let lent = generate::lent_near(random, information.len());
            read(
                tally,
                &Line {
                    buffer,
                    count: bits.len(),
                },
                &lent,
            )
            .ok();
            write(
                tally,
                random,
                &Given {
                    address,
                    control,
                    information,
                },
            );
        }
        tally.thing("control bytes", 1);
    }
}

/// Messages, mostly wrong ones, checked.
pub fn messages(tally: &mut Tally, random: &mut Random, count: usize) {
    for _ in 0..count {
        let message = if random.chance(1, 3) {
            generate::message(random)
        } else {
            generate::wild_message(random)
        };
        let number = surface::message_check(&message);
        let ours = Outcome {
            number,
            values: [],
            lent: vec![],
            end: vec![],
        };
        let second = Outcome::second(wire::message_check(&message), |()| [], vec![], vec![]);
        same(tally, "message_check", &message, ours, second);
        check_word(tally, &message);
        tally.thing("messages checked", 1);
    }
}
