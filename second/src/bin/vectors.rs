//! Prints document 01's wire examples and published check words as this program finds them: what crate `vectors` must print.

use second::ends::{Effect, Link, Master, Slave};
use second::wire::{self, Meaning};

fn hex(bytes: &[u8]) -> String {
    bytes.iter().map(|byte| format!("{byte:02x}")).collect()
}

/// A kind with Ns and Nr, `-` where it carries none.
fn named(meaning: Meaning) -> String {
    match meaning {
        Meaning::I { ns, nr } => format!("I {ns} {nr}"),
        Meaning::Rr { nr } => format!("RR - {nr}"),
        Meaning::Rnr { nr } => format!("RNR - {nr}"),
        Meaning::Snrm => "SNRM - -".into(),
        Meaning::Disc => "DISC - -".into(),
        Meaning::Ua => "UA - -".into(),
        Meaning::Frmr => "FRMR - -".into(),
    }
}

fn taken_or(answer: Result<(), u8>) -> String {
    match answer {
        Ok(()) => "taken".into(),
        Err(number) => format!("refused {number}"),
    }
}

/// The nine digits of 01; three examples of ISO/IEC 14443-3, annex B; four frames of ITU-T X.25, appendix I.
/// The words are published, not computed here.
fn check_words() {
    println!("check word");
    let published: [(&[u8], u16); 8] = [
        (b"123456789", 0x906E),
        (&[0, 0, 0], 0xC6CC),
        (&[0x0F, 0xAA, 0xFF], 0xD1FC),
        (&[0x0A, 0x12, 0x34, 0x56], 0xF62C),
        (&[0x03, 0x3F], 0xEC5B),
        (&[0x01, 0x73], 0x5783),
        (&[0x01, 0x3F], 0xDFEB),
        (&[0x03, 0x73], 0x6433),
    ];
    for (bytes, word) in published {
        println!("{} {word:04x}", hex(bytes));
    }
}

fn control_bytes() {
    println!("control byte");
    let mut refused = 0;
    for byte in 0..=255 {
        match wire::decode(byte) {
            Ok(meaning) => println!("{byte:02x} {}", named(meaning)),
            Err(_) => refused += 1,
        }
    }
    println!("{refused} refused 9");
}

fn messages() {
    println!("message");
    let tried: [&[u8]; 5] = [
        &[6, 0, 0, 0],
        &[7, 0, 5, 0x31, 1],
        &[6, 0, 5, 0x31, 1],
        &[0xFF; 253],
        &[0; 254],
    ];
    for message in tried {
        println!("{} {}", message.len(), taken_or(wire::message_check(message)));
    }
}

fn addresses() {
    println!("address");
    for address in [0, 1, 250, 251] {
        println!("{address} {}", taken_or(wire::address_check(address)));
    }
}

fn frames() {
    println!("frame");
    let message: &[u8] = &[7, 0, 5, 0x31, 1];
    both_ways(5, Meaning::Snrm, &[]);
    both_ways(5, Meaning::Ua, &[]);
    both_ways(5, Meaning::I { ns: 0, nr: 0 }, message);
    both_ways(1, Meaning::Rr { nr: 7 }, &[]);
    both_ways(250, Meaning::Rnr { nr: 2 }, &[]);
    both_ways(250, Meaning::I { ns: 7, nr: 7 }, &[0xFF; 253]);
}

fn both_ways(address: u8, meaning: Meaning, information: &[u8]) {
    let mut out = [0; 311];
    match wire::write(address, meaning, information, &mut out) {
        Ok(written) => {
            println!("{} {} {}", written.line_bits, written.zeros, hex(&out));
            heard(&out, written.line_bits);
        }
        Err(number) => println!("refused {number}"),
    }
}

fn strange_lines() {
    println!("line");
    heard(&[0; 8], 64);
    heard(&[0; 8], 65);
    heard(&[0x7E, 0xDF, 0x0F], 21);
    heard(&[0x7E, 0x9F, 0x1F], 22);
    heard(&[0x7E, 0x00, 0x00, 0x7E], 32);
    heard(&[0x3F, 0x00, 0x00, 0x3F], 32);
}

fn heard(buffer: &[u8], bits: usize) {
    let mut information = [0; 253];
    match wire::read(buffer, bits, &mut information) {
        Ok(heard) => println!(
            "{} {} {} {}",
            heard.address,
            named(heard.meaning),
            heard.size,
            hex(&information)
        ),
        Err(number) => println!("refused {number}"),
    }
}

/// 01's P12, and back from its levels.
fn levels() {
    println!("nrzi");
    let mut levels = [0xAA; 2];
    let end = wire::nrzi_encode(&[0x7E], 8, true, &mut levels);
    println!("{} {}", end.map_or(9, u8::from), hex(&levels));
    let mut bits = [0xAA; 2];
    let end = wire::nrzi_decode(&levels, 11, true, &mut bits);
    println!("{} {}", end.map_or(9, u8::from), hex(&bits));
}

/// What becomes of an order and of its response.
#[derive(PartialEq)]
enum Fate {
    Whole,
    OrderLost,
    ResponseLost,
    Late,
}

struct Pair {
    master: Master,
    slave: Slave,
}

/// What an effect brought, with the sizes of the messages that it concerns.
fn told(effect: Effect, held: usize, heard: usize) -> String {
    let link = match effect.link {
        Link::Kept => "",
        Link::Gained => " gained",
        Link::Lost => " lost",
    };
    let confirmed = if effect.confirmed { held } else { 0 };
    let handed = if effect.handed_over { heard } else { 0 };
    format!("confirmed {confirmed} handed {handed}{link}")
}

fn done(answer: Result<(), u8>) -> String {
    answer.map_or_else(|number| format!("refused {number}"), |()| "done".into())
}

fn sent(way: char, address: u8, meaning: Meaning, information: &[u8]) {
    println!("{way} {address} {} {} {}", named(meaning), information.len(), hex(information));
}

impl Pair {
    /// One exchange with a limit of 100 ticks: 99 later is in time, 100 later is late.
    fn exchange(&mut self, tick: u32, fate: Fate) {
        let mut down = [0; 253];
        let (master, order) = self.master.order(tick, &mut down);
        self.master = master;
        let order = order.expect("an order");
        sent('>', order.address, order.meaning, &down[..order.size]);
        if fate == Fate::OrderLost {
            return self.silent();
        }
        let mut up = [0; 253];
        let held = self.slave.side.held_size;
        let (slave, step) = self.slave.step(order.address, order.meaning, &down[..order.size], &mut up);
        self.slave = slave;
        let step = step.expect("a response");
        sent('<', order.address, step.meaning, &up[..step.size]);
        println!("slave {}", told(step.effect, held, order.size));
        if fate == Fate::ResponseLost {
            return self.silent();
        }
        let now = tick + if fate == Fate::Late { 100 } else { 99 };
        let held = self.master.side.held_size;
        let (master, response) = self.master.response(now, order.address, step.meaning, &up[..step.size]);
        self.master = master;
        match response.expect("taken") {
            heard if heard.silence => println!("master silence"),
            heard => println!("master {}", told(heard.effect, held, step.size)),
        }
    }

    fn silent(&mut self) {
        let (master, answer) = self.master.silence();
        self.master = master;
        println!(". {}", done(answer));
    }
}

/// Synchronising, a message each way, a lost response, a late one, a lost order, a restart.
fn exchanges() {
    println!("exchange");
    let mut pair = Pair {
        master: Master::make(5, 100).expect("a master"),
        slave: Slave::make(5).expect("a slave"),
    };
    pair.exchange(0, Fate::Whole);
    pair.exchange(200, Fate::Whole);
    let (master, answer) = pair.master.put(&[7, 0, 5, 0x31, 1]);
    pair.master = master;
    println!("master puts {}", done(answer));
    let (slave, answer) = pair.slave.put(&[8, 0x80, 5, 0x13, 2, 9]);
    pair.slave = slave;
    println!("slave puts {}", done(answer));
    pair.exchange(400, Fate::ResponseLost);
    let mut out = [0; 253];
    let (slave, taken) = pair.slave.take(&mut out);
    pair.slave = slave;
    println!("slave takes {}", hex(&out[..taken.expect("a message")]));
    pair.exchange(600, Fate::Late);
    pair.exchange(800, Fate::OrderLost);
    pair.exchange(1000, Fate::Whole);
    pair.exchange(1200, Fate::Whole);
    let (master, taken) = pair.master.take(&mut out);
    pair.master = master;
    println!("master takes {}", hex(&out[..taken.expect("a message")]));
    let (slave, answer) = pair.slave.restart();
    pair.slave = slave;
    println!("slave restarts {}", done(answer));
    for tick in [1400, 1600, 1800, 2000] {
        pair.exchange(tick, Fate::Whole);
    }
}

fn main() {
    check_words();
    control_bytes();
    messages();
    addresses();
    frames();
    strange_lines();
    levels();
    exchanges();
}
