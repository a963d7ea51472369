//! The benchmark: the proved code, through its static library, against the second program's plain and table-driven
//! versions, side by side in one run.

use compare::surface::{
    self, BITS_MOST, CAPTURE_MOST, FRAME_MOST, LISTING_MOST, MASTER_SIZE, MESSAGE_MOST, SLAVE_SIZE,
};
use second::captures;
use second::ends::{Master, Slave};
use second::generate::record_of;
use second::random::Random;
use second::wire::{encode, Meaning};
use second::{plain, tables};
use std::hint::black_box;
use std::time::Instant;

const ROUNDS: usize = 400;
const ROUND_NS: f64 = 50_000.0;
const METHOD: &str = "\
Method: ours is called through the static library, plain and tables are the second program's versions, bit by bit and by
tables, compiled in release. The three are timed side by side: in each of 400 rounds every version runs one after the other
for about 50 microseconds on the same input, and the least time of all rounds counts. Ratios are ours over the other: under 1
ours is faster. An exchange is order, step and response at a linked pair, a message each way, with both ends copied anew each
time; a listing is of a capture of 65,536 bytes. Of ends and listings the second program has one version only.";

const ADDRESS: u8 = 17;
const MEANING: Meaning = Meaning::I { ns: 5, nr: 2 };

/// The least time of one call in nanoseconds: ours, plain, tables.
type Times = [Option<f64>; 3];

/// The time of one call, over a round of so many.
fn round(call: &mut impl FnMut(), times: usize) -> f64 {
    let begin = Instant::now();
    for _ in 0..times {
        call();
    }
    begin.elapsed().as_nanos() as f64 / times as f64
}

/// How many calls make a round.
fn times_of(call: &mut impl FnMut()) -> usize {
    let once = (0..5)
        .map(|_| round(call, 10))
        .fold(f64::INFINITY, f64::min);
    (ROUND_NS / once.max(1.0)).ceil() as usize
}

/// Times versions of the same work in interleaved rounds.
fn measure(
    mut ours: impl FnMut(),
    mut plain: Option<impl FnMut()>,
    mut tables: Option<impl FnMut()>,
) -> Times {
    let counts = [
        times_of(&mut ours),
        plain.as_mut().map_or(0, times_of),
        tables.as_mut().map_or(0, times_of),
    ];
    let mut least = [f64::INFINITY; 3];
    for _ in 0..ROUNDS {
        least[0] = least[0].min(round(&mut ours, counts[0]));
        if let Some(call) = plain.as_mut() {
            least[1] = least[1].min(round(call, counts[1]));
        }
        if let Some(call) = tables.as_mut() {
            least[2] = least[2].min(round(call, counts[2]));
        }
    }
    least.map(|time| Some(time).filter(|time| time.is_finite()))
}

/// Keeps an answer from being left out as unused.
#[inline]
fn keep<T>(answer: T) {
    black_box(answer);
}

fn check_word(message: &[u8]) -> Times {
    let word = surface::check_word(message);
    assert!(word == plain::check_word(message) && word == tables::check_word(message));
    measure(
        || keep(surface::check_word(black_box(message))),
        Some(|| keep(plain::check_word(black_box(message)))),
        Some(|| keep(tables::check_word(black_box(message)))),
    )
}

fn write(message: &[u8]) -> Times {
    let control = encode(MEANING).expect("the counts are at most 7");
    let (mut one, mut two, mut three) = ([0; FRAME_MOST], [0; FRAME_MOST], [0; FRAME_MOST]);
    let mut values = [0; 2];
    let times = measure(
        || {
            keep(surface::write(
                ADDRESS,
                control,
                black_box(message),
                &mut one,
                &mut values,
            ))
        },
        Some(|| keep(plain::write(ADDRESS, MEANING, black_box(message), &mut two))),
        Some(|| {
            keep(tables::write(
                ADDRESS,
                MEANING,
                black_box(message),
                &mut three,
            ))
        }),
    );
    assert!(one == two && one == three);
    times
}

/// The line bits of a message's frame.
fn line_of(message: &[u8]) -> (Vec<u8>, usize) {
    let mut line = [0; FRAME_MOST];
    let written = plain::write(ADDRESS, MEANING, message, &mut line).expect("the frame is sound");
    (
        line[..written.line_bits.div_ceil(8)].to_vec(),
        written.line_bits,
    )
}

fn read(message: &[u8]) -> Times {
    let (line, bits) = line_of(message);
    let (mut one, mut two, mut three) = ([0; MESSAGE_MOST], [0; MESSAGE_MOST], [0; MESSAGE_MOST]);
    let mut values = [0; 3];
    let times = measure(
        || keep(surface::read(black_box(&line), bits, &mut one, &mut values)),
        Some(|| keep(plain::read(black_box(&line), bits, &mut two))),
        Some(|| keep(tables::read(black_box(&line), bits, &mut three))),
    );
    assert!(one == two && one == three && one.starts_with(message));
    times
}

fn nrzi_encode(message: &[u8]) -> Times {
    let (line, bits) = line_of(message);
    let (mut one, mut two, mut three) =
        ([0; BITS_MOST / 8], [0; BITS_MOST / 8], [0; BITS_MOST / 8]);
    let mut values = [0; 1];
    let times = measure(
        || {
            keep(surface::nrzi_encode(
                true,
                black_box(&line),
                bits,
                &mut one,
                &mut values,
            ))
        },
        Some(|| keep(plain::nrzi_encode(black_box(&line), bits, true, &mut two))),
        Some(|| {
            keep(tables::nrzi_encode(
                black_box(&line),
                bits,
                true,
                &mut three,
            ))
        }),
    );
    assert!(one == two && one == three);
    times
}

fn nrzi_decode(message: &[u8]) -> Times {
    let (line, bits) = line_of(message);
    let (mut one, mut two, mut three) =
        ([0; BITS_MOST / 8], [0; BITS_MOST / 8], [0; BITS_MOST / 8]);
    let mut values = [0; 1];
    let times = measure(
        || {
            keep(surface::nrzi_decode(
                true,
                black_box(&line),
                bits,
                &mut one,
                &mut values,
            ))
        },
        Some(|| keep(plain::nrzi_decode(black_box(&line), bits, true, &mut two))),
        Some(|| {
            keep(tables::nrzi_decode(
                black_box(&line),
                bits,
                true,
                &mut three,
            ))
        }),
    );
    assert!(one == two && one == three);
    times
}

/// One exchange by ours; gives how many messages were handed over.
fn our_exchange(master: &mut [u8; MASTER_SIZE], slave: &mut [u8; SLAVE_SIZE]) -> usize {
    let (mut order, mut response) = ([0; MESSAGE_MOST], [0; MESSAGE_MOST]);
    let (mut ordered, mut stepped, mut heard) = ([0; 3], [0; 6], [0; 4]);
    surface::master_order(master, 7, &mut order, &mut ordered);
    let (address, control) = (ordered[0] as u8, ordered[1] as u8);
    surface::slave_step(
        slave,
        address,
        control,
        &order[..ordered[2]],
        &mut response,
        &mut stepped,
    );
    let (address, control) = (stepped[0] as u8, stepped[1] as u8);
    surface::master_response(
        master,
        8,
        address,
        control,
        &response[..stepped[2]],
        &mut heard,
    );
    (stepped[4] > 0) as usize + (heard[2] > 0) as usize
}

/// One exchange by the second program; gives the ends and how many messages were handed over.
fn second_exchange(master: Master, slave: Slave) -> (Master, Slave, usize) {
    let (mut order, mut response) = ([0; MESSAGE_MOST], [0; MESSAGE_MOST]);
    let (master, ordered) = master.order(7, &mut order);
    let ordered = ordered.expect("no order waits");
    let (slave, stepped) = slave.step(
        ordered.address,
        ordered.meaning,
        &order[..ordered.size],
        &mut response,
    );
    let stepped = stepped.expect("the order is sound");
    let (master, heard) =
        master.response(8, slave.address, stepped.meaning, &response[..stepped.size]);
    let heard = heard.expect("an order waits");
    let over = stepped.effect.handed_over as usize + heard.effect.handed_over as usize;
    (master, slave, over)
}

fn exchange(message: &[u8]) -> Times {
    let mut master = [0; MASTER_SIZE];
    let mut slave = [0; SLAVE_SIZE];
    surface::master_make(&mut master, ADDRESS, 1000);
    surface::slave_make(&mut slave, ADDRESS);
    let second_master = Master::make(ADDRESS, 1000).expect("address and limit are sound");
    let second_slave = Slave::make(ADDRESS).expect("the address is sound");
    let (mut second_master, mut second_slave) = (second_master, second_slave);
    for _ in 0..2 {
        our_exchange(&mut master, &mut slave);
        (second_master, second_slave, _) = second_exchange(second_master, second_slave);
    }
    surface::master_put(&mut master, message);
    surface::slave_put(&mut slave, message);
    second_master = second_master.put(message).0;
    second_slave = second_slave.put(message).0;
    assert!(our_exchange(&mut master.clone(), &mut slave.clone()) == 2);
    assert!(second_exchange(second_master, second_slave).2 == 2);
    measure(
        || {
            let (mut master, mut slave) = (*black_box(&master), *black_box(&slave));
            our_exchange(&mut master, &mut slave);
            black_box((&master, &slave));
        },
        Some(|| {
            keep(second_exchange(
                *black_box(&second_master),
                *black_box(&second_slave),
            ))
        }),
        None::<fn()>,
    )
}

fn listing(message: &[u8]) -> Times {
    let mut body = vec![ADDRESS, encode(MEANING).expect("the counts are at most 7")];
    body.extend(message);
    let record = record_of(1, &body);
    let mut capture = record.repeat(CAPTURE_MOST / record.len());
    while capture.len() + 4 <= CAPTURE_MOST {
        capture.extend(record_of(3, &[]));
    }
    let mut out = vec![0; LISTING_MOST];
    let mut values = [0; 1];
    let times = measure(
        || keep(surface::list(black_box(&capture), &mut out, &mut values)),
        Some(|| keep(captures::list(black_box(&capture)))),
        None::<fn()>,
    );
    assert!(out.starts_with(captures::list(&capture).as_bytes()));
    times
}

/// One kind of work, measured for a message.
type Work = (&'static str, fn(&[u8]) -> Times);

const WORKS: [Work; 7] = [
    ("check word", check_word),
    ("write", write),
    ("read", read),
    ("NRZI, bits to levels", nrzi_encode),
    ("NRZI, levels to bits", nrzi_decode),
    ("exchange", exchange),
    ("listing", listing),
];

struct Row {
    work: &'static str,
    size: usize,
    times: Times,
}

impl Row {
    fn ratio(&self, version: usize) -> Option<f64> {
        Some(self.times[0]? / self.times[version]?)
    }
}

fn cell(value: Option<f64>, decimals: usize) -> String {
    value.map_or("-".to_string(), |value| format!("{value:.decimals$}"))
}

fn message(size: usize, all_ff: bool) -> Vec<u8> {
    let mut message = if all_ff {
        vec![0xFF; size]
    } else {
        Random::new(size as u64).bytes(size)
    };
    message[0] = (size + 2) as u8;
    message
}

/// Says of a target whether the worst of its rows meets it.
fn target(what: &str, most: f64, found: impl Iterator<Item = f64>) {
    let worst = found.fold(0.0, f64::max);
    let verdict = if worst <= most { "met" } else { "MISSED" };
    println!("{what}: at most {most}; the worst is {worst:.2}: {verdict}");
}

/// Measures every row and prints it.
fn table() -> Vec<Row> {
    println!(
        "{:<20}  size  bytes    ours ns   plain ns  tables ns  ours/plain  ours/tables",
        "work"
    );
    let mut rows = Vec::new();
    for (work, run) in WORKS {
        for size in [5, 64, 253] {
            for (all_ff, bytes) in [(false, "random"), (true, "FF")] {
                let times = run(&message(size, all_ff));
                let row = Row { work, size, times };
                let [ours, plain, tables] = times.map(|time| cell(time, 1));
                let (to_plain, to_tables) = (cell(row.ratio(1), 2), cell(row.ratio(2), 2));
                print!("{work:<20} {size:>5}  {bytes:<6} {ours:>9} {plain:>10} {tables:>10}");
                println!(" {to_plain:>11} {to_tables:>12}");
                rows.push(row);
            }
        }
    }
    rows
}

fn targets(rows: &[Row]) {
    let of = |work: &'static str| rows.iter().filter(move |row| row.work == work);
    let ours = |row: &Row| row.times[0].expect("ours is always measured");
    let ratio = |version: usize| move |row: &Row| row.ratio(version);
    target("write against plain", 1.3, of("write").filter_map(ratio(1)));
    target("read against plain", 1.5, of("read").filter_map(ratio(1)));
    let check_word = of("check word").filter_map(ratio(2));
    target("check word against tables", 1.1, check_word);
    // Two frames are written and read in an exchange of two messages.
    let lines = of("write")
        .zip(of("read"))
        .map(|(write, read)| 2.0 * (ours(write) + ours(read)));
    let parts = of("exchange")
        .zip(lines)
        .filter(|(row, _)| row.size == MESSAGE_MOST)
        .map(|(row, line)| ours(row) / line);
    let what = "exchange of two 253-byte messages against writing and reading its frames";
    target(what, 0.1, parts);
}

fn main() {
    println!("{METHOD}\n");
    let rows = table();
    println!();
    targets(&rows);
}
