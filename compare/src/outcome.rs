//! What stands after a call: number, values, lent bytes, end; and the comparison of two of them.

use crate::tally::Tally;
use second::wire::{decode, encode, Meaning};
use std::fmt::Debug;
use std::sync::{Mutex, OnceLock};

/// What a values array holds before each call: a refusal leaves it so.
pub const BEFORE: usize = 0xA5A5_A5A5_A5A5_A5A5;

/// All that a call of the surface can change, as it stands after the call. Where a call takes no end or lends no
/// buffer, the list is empty.
#[derive(Clone, PartialEq, Eq, Debug)]
pub struct Outcome<const N: usize> {
    pub number: u32,
    pub values: [usize; N],
    pub lent: Vec<u8>,
    pub end: Vec<u8>,
}

impl<const N: usize> Outcome<N> {
    /// By the second program: what it tells, or its refusal, after which the values stand as they were.
    pub fn second<T>(
        answer: Result<T, u8>,
        values: impl Fn(T) -> [usize; N],
        lent: Vec<u8>,
        end: Vec<u8>,
    ) -> Outcome<N> {
        match answer {
            Ok(told) => Outcome {
                number: 0,
                values: values(told),
                lent,
                end,
            },
            Err(number) => Outcome {
                number: number as u32,
                values: [BEFORE; N],
                lent,
                end,
            },
        }
    }

    /// Names the first place of each part in which the two are not the same.
    fn apart(&self, other: &Outcome<N>) -> String {
        let place = |part: &str, mine: &[u8], theirs: &[u8]| {
            let at = mine.iter().zip(theirs).position(|(my, their)| my != their);
            at.map(|at| format!(" {part} byte {at} ({} and {});", mine[at], theirs[at]))
                .unwrap_or_default()
        };
        let number = if self.number != other.number {
            " number;"
        } else {
            ""
        };
        let values = if self.values != other.values {
            " values;"
        } else {
            ""
        };
        let lent = place("lent", &self.lent, &other.lent);
        let end = place("end", &self.end, &other.end);
        format!("{number}{values}{lent}{end}")
    }
}

/// Shows a difference in full and ends the program.
pub fn differ(call: &str, input: &dyn Debug, ours: &dyn Debug, second: &dyn Debug) -> ! {
    static ONE: Mutex<()> = Mutex::new(());
    let _first = ONE.lock();
    println!("compare: a difference in {call}");
    println!("input: {input:?}");
    println!("proved code: {ours:?}");
    println!("second program: {second:?}");
    std::process::exit(1)
}

/// Counts a call, and ends the program where the two outcomes are not the same.
pub fn same<const N: usize>(
    tally: &mut Tally,
    call: &'static str,
    input: &dyn Debug,
    ours: Outcome<N>,
    second: Outcome<N>,
) {
    if ours != second {
        let call = format!("{call}:{}", ours.apart(&second));
        differ(&call, input, &ours, &second);
    }
    tally.number(call, ours.number);
}

const GUARD: usize = 16;
const GUARD_BYTE: u8 = 0x5C;

/// Lends a copy of bytes between guard bytes and gives back what became of it; what is written outside of it is a
/// difference too.
pub fn lend<T>(bytes: &[u8], call: impl FnOnce(&mut [u8]) -> T) -> (Vec<u8>, T) {
    let end = GUARD + bytes.len();
    let mut all = Vec::with_capacity(end + GUARD);
    all.resize(GUARD, GUARD_BYTE);
    all.extend_from_slice(bytes);
    all.resize(end + GUARD, GUARD_BYTE);
    let told = call(&mut all[GUARD..end]);
    let outside = all[..GUARD].iter().chain(&all[end..]);
    if outside.clone().any(|byte| *byte != GUARD_BYTE) {
        differ(
            "a lent buffer, written outside",
            &bytes,
            &all,
            &"nothing outside is written",
        );
    }
    all.truncate(end);
    all.drain(..GUARD);
    (all, told)
}

/// The meaning that the second program gives a control byte; for a byte outside the table one that it refuses by 9.
pub fn meaning_of(control: u8) -> Meaning {
    static TABLE: OnceLock<Vec<Meaning>> = OnceLock::new();
    let table = TABLE.get_or_init(|| {
        (0..=255)
            .map(|byte| decode(byte).unwrap_or(Meaning::Rr { nr: 255 }))
            .collect()
    });
    table[control as usize]
}

/// The control byte of a meaning; for one with a count above 7, which has none, one of the bytes outside the table.
pub fn control_of(meaning: Meaning) -> u8 {
    static UNKNOWN: OnceLock<Vec<u8>> = OnceLock::new();
    let any = match meaning {
        Meaning::I { ns, nr } => ns as usize + 31 * nr as usize,
        Meaning::Rr { nr } => nr as usize,
        _ => 0,
    };
    encode(meaning).unwrap_or_else(|_| {
        let unknown =
            UNKNOWN.get_or_init(|| (0..=255).filter(|byte| decode(*byte).is_err()).collect());
        unknown[any % unknown.len()]
    })
}
