//! A master and a charger over a bad cable, in one process: how to drive both ends of a link from Rust.
//!
//! Every frame goes over the line as bits: written, NRZI, lost or damaged, NRZI back, read. Both owners put a message
//! whenever there is room and take one now and then. At the end each message has been delivered once and in order. It
//! makes the same noise as examples/hall.c and prints the same lines.
//!
//!     cargo run --offline --example hall

use bitbus::{nrzi_decode, nrzi_encode, read, write, Frame, Heard, Link, Master, Refusal, Slave, FRAME_MOST};
use std::process::ExitCode;

const NODE: u8 = 5;
const LIMIT: u32 = 100;
const EXCHANGES: u32 = 5000;
const DRAIN: u32 = 200;
const IDLE: bool = true;

/// The same noise in every run (xorshift, 32 bits).
struct Noise(u32);

impl Noise {
    fn below(&mut self, bound: u32) -> u32 {
        self.0 ^= self.0 << 13;
        self.0 ^= self.0 >> 17;
        self.0 ^= self.0 << 5;
        self.0 % bound
    }

    /// A burst: of at most 15 levels the first is turned over, and each other one or not. Read back that is at most 16
    /// bits in a row, for which the check word is made; of longer bursts it lets about one in 65,000 pass.
    fn damage(&mut self, levels: &mut [u8], bits: usize) {
        let first = self.below(bits as u32) as usize;
        for at in first..bits.min(first + 15) {
            if at == first || self.below(2) == 1 {
                levels[at / 8] ^= 1 << (at % 8);
            }
        }
    }
}

/// The cable, and what it did to the frames.
struct Line {
    noise: Noise,
    frames: u32,
    lost: u32,
    damaged: u32,
    refused: u32,
}

impl Line {
    /// Sends a frame to the other end. None where no frame was heard there.
    fn carry(&mut self, sent: &Frame) -> Result<Option<Frame>, Refusal> {
        let (mut line, mut levels, mut back) = ([0; FRAME_MOST], [0; FRAME_MOST], [0; FRAME_MOST]);
        let bits = write(sent.address, sent.meaning, &sent.information, &mut line)?.bits;
        nrzi_encode(IDLE, &line, bits, &mut levels)?;
        self.frames += 1;
        if self.noise.below(10) == 0 {
            self.lost += 1;
            return Ok(None);
        }
        if self.noise.below(10) == 0 {
            self.damaged += 1;
            self.noise.damage(&mut levels, bits);
        }
        nrzi_decode(IDLE, &levels, bits, &mut back)?;
        let heard = read(&back, bits).ok();
        self.refused += u32::from(heard.is_none());
        Ok(heard)
    }
}

/// One way of the link: what its messages have gone through so far.
struct Way {
    name: &'static str,
    /// The flags byte of its messages: MT is set in those of the charger.
    flags: u8,
    put: u32,
    handed_over: u32,
    confirmed: u32,
    taken: u32,
    wrong: u32,
}

impl Way {
    fn new(name: &'static str, flags: u8) -> Way {
        Way { name, flags, put: 0, handed_over: 0, confirmed: 0, taken: 0, wrong: 0 }
    }

    /// Message number k: length, flags, node, tasks, command, then the number and data of a size of its own.
    fn compose(&self, k: u32) -> Vec<u8> {
        let size = 9 + k * 37 % 245;
        let mut message = vec![(size + 2) as u8, self.flags, NODE, 0x11, 0x40];
        message.extend(k.to_le_bytes());
        message.extend((9..size).map(|at| match k % 3 {
            0 => 0xFF,
            _ => (k * at) as u8,
        }));
        message
    }

    /// The messages of a way must come out as they were put, each once and in order.
    fn check(&mut self, message: &[u8]) {
        self.wrong += u32::from(self.compose(self.taken) != message);
        self.taken += 1;
    }

    fn tell(&self) -> bool {
        let Way { name, put, handed_over, confirmed, taken, wrong, .. } = self;
        println!("{name}: put {put}, handed over {handed_over}, confirmed {confirmed}, taken {taken}, wrong {wrong}");
        *put > 0 && handed_over == put && confirmed == put && taken == put && *wrong == 0
    }
}

struct Hall {
    master: Master,
    slave: Slave,
    line: Line,
    down: Way,
    up: Way,
    tick: u32,
    exchanges: u32,
    late: u32,
    silences: u32,
    links_gained: u32,
    links_lost: u32,
}

impl Hall {
    fn new() -> Result<Hall, Refusal> {
        Ok(Hall {
            master: Master::make(NODE, LIMIT)?,
            slave: Slave::make(NODE)?,
            line: Line { noise: Noise(20240229), frames: 0, lost: 0, damaged: 0, refused: 0 },
            down: Way::new("to the charger", 0x00),
            up: Way::new("to the master", 0x80),
            tick: 4_294_900_000, // the tick wraps on the way: ages are modulo 2 to the 32nd
            exchanges: 0,
            late: 0,
            silences: 0,
            links_gained: 0,
            links_lost: 0,
        })
    }

    /// Each owner tries a put; one that finds a message still held (13) tries again later.
    fn put(&mut self) {
        self.down.put += u32::from(self.master.put(&self.down.compose(self.down.put)).is_ok());
        self.up.put += u32::from(self.slave.put(&self.up.compose(self.up.put)).is_ok());
    }

    /// Each owner looks into its incoming slot in two of three rounds; an empty slot (14) is no fault.
    fn take(&mut self) {
        if self.line.noise.below(3) != 0 {
            self.master.take().into_iter().for_each(|message| self.up.check(&message));
        }
        if self.line.noise.below(3) != 0 {
            self.slave.take().into_iter().for_each(|message| self.down.check(&message));
        }
    }

    /// The order goes to the charger and its response comes back. None where no response was heard.
    fn over_and_back(&mut self, order: &Frame) -> Result<Option<Frame>, Refusal> {
        let Some(heard) = self.line.carry(order)? else { return Ok(None) };
        // a frame that the charger refuses gets no response
        let Ok(answer) = self.slave.step(heard.address, heard.meaning, &heard.information) else { return Ok(None) };
        self.up.confirmed += u32::from(answer.confirmed.is_some());
        self.down.handed_over += u32::from(answer.handed_over.is_some());
        self.line.carry(&answer.response)
    }

    /// One order, and its response or silence.
    fn exchange(&mut self) -> Result<(), Refusal> {
        let order = self.master.order(self.tick)?;
        self.exchanges += 1;
        let passed = if self.line.noise.below(50) == 0 { LIMIT } else { LIMIT / 2 };
        self.tick = self.tick.wrapping_add(passed);
        let Some(heard) = self.over_and_back(&order)? else {
            self.silences += 1;
            return self.master.silence();
        };
        match self.master.response(self.tick, heard.address, heard.meaning, &heard.information)? {
            Heard::Silence => {
                self.late += 1;
                self.silences += 1;
            }
            Heard::Response { confirmed, handed_over, link } => {
                self.down.confirmed += u32::from(confirmed.is_some());
                self.up.handed_over += u32::from(handed_over.is_some());
                self.links_gained += u32::from(link == Link::Gained);
                self.links_lost += u32::from(link == Link::Lost);
            }
        }
        Ok(())
    }

    /// Prints the counters. True where every message was delivered once and in order.
    fn tell(&self) -> bool {
        let Hall { line: Line { frames, lost, damaged, refused, .. }, exchanges, late, silences, .. } = self;
        print!("exchanges {exchanges}, frames {frames}, lost {lost}, damaged {damaged}, ");
        println!("refused by the reader {refused}, late {late}, silences {silences}");
        println!("links gained {}, lost {}", self.links_gained, self.links_lost);
        let good = self.down.tell() & self.up.tell() && refused == damaged && self.links_lost == 0;
        good && !self.master.doubt() && !self.slave.doubt()
    }
}

fn main() -> Result<ExitCode, Refusal> {
    let mut hall = Hall::new()?;
    for round in 0..EXCHANGES + DRAIN {
        if round < EXCHANGES {
            hall.put();
        }
        hall.exchange()?;
        hall.take();
    }
    if hall.tell() {
        println!("every message was delivered once and in order");
        return Ok(ExitCode::SUCCESS);
    }
    println!("FAILED: a message was lost, doubled or changed");
    Ok(ExitCode::FAILURE)
}
