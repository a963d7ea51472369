//! Comparisons of captures: one record at a place, and listings.

use crate::outcome::{control_of, differ, lend, same, Outcome, BEFORE};
use crate::surface::{self, CAPTURE_MOST};
use crate::tally::Tally;
use second::captures::{self, Record};
use second::generate;
use second::random::Random;
use second::wire::Heard;

/// What the second program says of a place, as the surface tells it. The second program has no answer for "nothing is
/// left": it refuses such a place by 18, where the surface tells the end of the capture.
fn told(capture: &[u8], at: usize) -> Result<[usize; 5], u8> {
    if at >= capture.len() {
        return match captures::record(capture, at) {
            Err(18) => Ok([0; 5]),
            other => differ("record: nothing left", &(capture, at), &"the end", &other),
        };
    }
    let frame = |way: usize, frame: Heard, length: usize| {
        [
            way,
            frame.address as usize,
            control_of(frame.meaning) as usize,
            frame.size,
            at + length,
        ]
    };
    Ok(match captures::record(capture, at)? {
        (Record::Order(heard), length) => frame(1, heard, length),
        (Record::Response(heard), length) => frame(2, heard, length),
        (Record::Silence, length) => [3, 0, 0, 0, at + length],
    })
}

fn record(tally: &mut Tally, capture: &[u8], at: usize) {
    let mut values = [BEFORE; 5];
    let number = surface::record(capture, at, &mut values);
    let ours = Outcome {
        number,
        values,
        lent: vec![],
        end: vec![],
    };
    let second = Outcome::second(told(capture, at), |values| values, vec![], vec![]);
    same(tally, "record", &(capture, at), ours, second);
    tally.thing("records at a place", 1);
}

/// Records, sound and wild, at the first place, at any place, at the end and past it.
pub fn records(tally: &mut Tally, random: &mut Random, count: usize) {
    for _ in 0..count {
        let before = random.below(5);
        let mut capture = random.bytes(before);
        capture.extend(if random.chance(1, 3) {
            generate::record(random)
        } else {
            generate::wild_record(random)
        });
        if random.coin() {
            capture.extend(generate::record(random));
        }
        let size = capture.len();
        let any = random.below(size + 2);
        let at = random.one_of(&[
            before,
            before,
            before,
            before,
            any,
            size,
            size + 1,
            usize::MAX,
        ]);
        record(tally, &capture, at);
    }
}

fn list(tally: &mut Tally, random: &mut Random, capture: &[u8]) {
    let text = captures::list(capture);
    let lent = generate::lent_near(random, text.len());
    let mut values = [BEFORE; 1];
    let (after, number) = lend(&lent, |out| surface::list(capture, out, &mut values));
    let ours = Outcome {
        number,
        values,
        lent: after,
        end: vec![],
    };
    let mut after = lent.clone();
    let answer = if text.len() > lent.len() {
        Err(11)
    } else {
        after[..text.len()].copy_from_slice(text.as_bytes());
        Ok(text.len())
    };
    let second = Outcome::second(answer, |size| [size], after, vec![]);
    same(tally, "list", &(capture, &lent), ours, second);
    tally.thing("captures listed", 1);
    tally.thing(
        "captures of the longest size or longer",
        (capture.len() >= CAPTURE_MOST) as u64,
    );
}

/// Captures, listed.
pub fn listings(tally: &mut Tally, random: &mut Random, count: usize) {
    for _ in 0..count {
        let mut capture = generate::capture(random);
        if random.chance(1, 100) {
            let size = random.one_of(&[CAPTURE_MOST - 1, CAPTURE_MOST, CAPTURE_MOST + 1]);
            while capture.len() < size {
                capture.extend(generate::record(random));
            }
            capture.truncate(size);
        }
        list(tally, random, &capture);
    }
}
