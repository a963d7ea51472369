//! Histories of a pair of ends for comparison with another program: calls with losses, repeats,
//! late and foreign responses, restarts, wild arguments and ends with wild fields.

use crate::ends::{Master, Ordered, Responded, Slave, Stepped};
use crate::generate;
use crate::random::Random;
use crate::wire::Frame;

/// The two ends of one link.
#[derive(Clone, Copy, PartialEq, Eq, Debug)]
pub struct Pair {
    pub master: Master,
    pub slave: Slave,
}

/// A call for the master with its arguments, the end and the lent buffer apart.
#[derive(Clone, PartialEq, Eq, Debug)]
pub enum MasterCall {
    Make { address: u8, limit: u32 },
    Put { message: Vec<u8> },
    Take,
    Order { now: u32 },
    Response { now: u32, frame: Frame },
    Silence,
    Restart,
    Clear,
}

/// A call for the slave with its arguments, the end and the lent buffer apart.
#[derive(Clone, PartialEq, Eq, Debug)]
pub enum SlaveCall {
    Make { address: u8 },
    Put { message: Vec<u8> },
    Take,
    Step { frame: Frame },
    Restart,
    Clear,
}

/// A call for one end of the pair.
#[derive(Clone, PartialEq, Eq, Debug)]
pub enum Call {
    Master(MasterCall),
    Slave(SlaveCall),
}

/// What a call tells its caller.
#[derive(Clone, Copy, PartialEq, Eq, Debug)]
pub enum Answer {
    Refused(u8),
    Done,
    Taken(usize),
    Ordered(Ordered),
    Stepped(Stepped),
    Responded(Responded),
}

/// All that stands after a call: both ends, the lent buffer, the answer.
#[derive(Clone, PartialEq, Eq, Debug)]
pub struct Outcome {
    pub pair: Pair,
    pub lent: Vec<u8>,
    pub answer: Answer,
}

/// One turn of a history: the ends and the buffer handed in, the call, and what this program makes
/// of it.
#[derive(Clone, PartialEq, Eq, Debug)]
pub struct Turn {
    pub pair: Pair,
    pub lent: Vec<u8>,
    pub call: Call,
    pub outcome: Outcome,
}

/// An end given back, with its answer in the common form.
fn told<E, T>((end, result): (E, Result<T, u8>), told: impl Fn(T) -> Answer) -> (E, Answer) {
    match result {
        Ok(value) => (end, told(value)),
        Err(number) => (end, Answer::Refused(number)),
    }
}

/// A new end, or the old one where none was made.
fn made<E>(old: E, result: Result<E, u8>) -> (E, Answer) {
    match result {
        Ok(new) => (new, Answer::Done),
        Err(number) => (old, Answer::Refused(number)),
    }
}

fn done(_: ()) -> Answer {
    Answer::Done
}

/// Plays a call on a master.
pub fn play_master(master: Master, call: &MasterCall, lent: &mut [u8]) -> (Master, Answer) {
    match call {
        MasterCall::Make { address, limit } => made(master, Master::make(*address, *limit)),
        MasterCall::Put { message } => told(master.put(message), done),
        MasterCall::Take => told(master.take(lent), Answer::Taken),
        MasterCall::Order { now } => told(master.order(*now, lent), Answer::Ordered),
        MasterCall::Response { now, frame } => {
            let given = master.response(*now, frame.address, frame.meaning, &frame.information);
            told(given, Answer::Responded)
        }
        MasterCall::Silence => told(master.silence(), done),
        MasterCall::Restart => told(master.restart(), done),
        MasterCall::Clear => told(master.clear(), done),
    }
}

/// Plays a call on a slave.
pub fn play_slave(slave: Slave, call: &SlaveCall, lent: &mut [u8]) -> (Slave, Answer) {
    match call {
        SlaveCall::Make { address } => made(slave, Slave::make(*address)),
        SlaveCall::Put { message } => told(slave.put(message), done),
        SlaveCall::Take => told(slave.take(lent), Answer::Taken),
        SlaveCall::Step { frame } => {
            let given = slave.step(frame.address, frame.meaning, &frame.information, lent);
            told(given, Answer::Stepped)
        }
        SlaveCall::Restart => told(slave.restart(), done),
        SlaveCall::Clear => told(slave.clear(), done),
    }
}

/// Plays one call on a pair of ends; only the end that the call is for can change.
pub fn play(mut pair: Pair, call: &Call, mut lent: Vec<u8>) -> Outcome {
    let answer;
    match call {
        Call::Master(call) => (pair.master, answer) = play_master(pair.master, call, &mut lent),
        Call::Slave(call) => (pair.slave, answer) = play_slave(pair.slave, call, &mut lent),
    }
    Outcome { pair, lent, answer }
}

/// A history under way: the ends as they last came back and what is in the air between them.
pub struct History {
    random: Random,
    /// No restarts, new ends or strange frames: links last, and their counts go round.
    calm: bool,
    pub pair: Pair,
    now: u32,
    order: Option<Frame>,
    response: Option<Frame>,
}

impl History {
    /// The history of a seed: both ends fresh and of one address, or (one time in four) in any
    /// state that refusal 30 lets pass. Every other history is calm.
    pub fn new(seed: u64) -> History {
        let mut random = Random::new(seed);
        let address = generate::address(&mut random);
        let limit = generate::limit(&mut random);
        let mut pair = Pair {
            master: Master::make(address, limit).expect("address and limit are sound"),
            slave: Slave::make(address).expect("the address is sound"),
        };
        if random.chance(1, 4) {
            pair.master = generate::master(&mut random, address);
            pair.slave = generate::slave(&mut random, address);
        }
        let now = generate::tick(&mut random);
        let calm = random.coin();
        History {
            random,
            calm,
            pair,
            now,
            order: None,
            response: None,
        }
    }

    /// The next turn. One in twelve hands in strange ends; what comes back of those is thrown away.
    pub fn turn(&mut self) -> Turn {
        self.pass_time();
        let call = self.call();
        let strange = self.random.chance(1, 12);
        let pair = if strange {
            self.strange_pair()
        } else {
            self.pair
        };
        let lent = generate::lent(&mut self.random);
        let outcome = play(pair, &call, lent.clone());
        if !strange {
            self.keep(&call, &outcome);
        }
        Turn {
            pair,
            lent,
            call,
            outcome,
        }
    }

    /// Time goes on a little, now and then far.
    fn pass_time(&mut self) {
        let limit = self.pair.master.limit as usize;
        let step = match self.random.below(40) {
            0 => self.random.below(2 * limit + 2),
            1 => self.random.bits() as u32 as usize,
            _ => self.random.below(limit / 6 + 1),
        };
        self.now = self.now.wrapping_add(step as u32);
    }

    /// Ends in any state, sound or with wild fields.
    fn strange_pair(&mut self) -> Pair {
        let random = &mut self.random;
        let mut pair = self.pair;
        if random.coin() {
            pair.master = generate::master(random, pair.master.address);
            pair.slave = generate::slave(random, pair.slave.address);
        }
        if random.coin() {
            pair.master = generate::wild_master(random, pair.master);
            pair.slave = generate::wild_slave(random, pair.slave);
        }
        pair
    }

    /// What stands in the air after a turn that counted.
    fn keep(&mut self, call: &Call, outcome: &Outcome) {
        self.pair = outcome.pair;
        let information = |size: usize| outcome.lent[..size].to_vec();
        match (call, outcome.answer) {
            (_, Answer::Ordered(ordered)) => {
                self.order = Some(Frame {
                    address: ordered.address,
                    meaning: ordered.meaning,
                    information: information(ordered.size),
                });
                self.response = None;
            }
            (_, Answer::Stepped(stepped)) => {
                self.response = Some(Frame {
                    address: self.pair.slave.address,
                    meaning: stepped.meaning,
                    information: information(stepped.size),
                });
                // Now and then the order stays in the air and arrives twice.
                if self.random.chance(19, 20) {
                    self.order = None;
                }
            }
            (Call::Master(MasterCall::Response { .. } | MasterCall::Silence), answer) => {
                let ended = !matches!(answer, Answer::Refused(_));
                if ended && self.random.chance(9, 10) {
                    self.order = None;
                    self.response = None;
                }
            }
            _ => {}
        }
    }

    /// Two times in three the call that carries the exchange on, else any call.
    fn call(&mut self) -> Call {
        if self.random.chance(1, 3) {
            return self.any_call();
        }
        if !self.pair.master.waiting {
            return Call::Master(MasterCall::Order { now: self.now });
        }
        if self.random.chance(1, 12) {
            return Call::Master(MasterCall::Silence);
        }
        if let Some(frame) = self.response.clone() {
            return self.response_call(frame);
        }
        match self.order.clone() {
            Some(frame) => Call::Slave(SlaveCall::Step { frame }),
            None => Call::Master(MasterCall::Silence),
        }
    }

    /// A response as it is, in time or late, or from elsewhere.
    fn response_call(&mut self, mut frame: Frame) -> Call {
        let master = self.pair.master;
        let edge = master.tick.wrapping_add(master.limit);
        let now = match self.random.below(12) {
            0 => edge,
            1 => edge.wrapping_sub(1),
            2 => edge.wrapping_add(self.random.below(50) as u32),
            3 => self.now,
            _ => master
                .tick
                .wrapping_add(self.random.below(master.limit as usize) as u32),
        };
        if self.random.chance(1, 20) {
            frame.address = generate::wild_address(&mut self.random);
        }
        Call::Master(MasterCall::Response { now, frame })
    }

    /// Any call, with arguments sound and wild; in a calm history puts and takes alone.
    fn any_call(&mut self) -> Call {
        if self.random.coin() {
            Call::Master(self.any_master_call())
        } else {
            Call::Slave(self.any_slave_call())
        }
    }

    fn any_master_call(&mut self) -> MasterCall {
        let least = if self.calm { 9 } else { 0 };
        match self.random.between(least, 27) {
            0 => MasterCall::Restart,
            1 => MasterCall::Clear,
            2 => MasterCall::Silence,
            3 => MasterCall::Order { now: self.now },
            4 => MasterCall::Make {
                address: self.made_address(),
                limit: self.made_limit(),
            },
            5..=8 => MasterCall::Response {
                now: self.now,
                frame: self.strange_frame(self.pair.master.address),
            },
            9..=17 => MasterCall::Put {
                message: self.any_message(),
            },
            _ => MasterCall::Take,
        }
    }

    fn any_slave_call(&mut self) -> SlaveCall {
        let least = if self.calm { 7 } else { 0 };
        match self.random.between(least, 27) {
            0 => SlaveCall::Restart,
            1 => SlaveCall::Clear,
            2 => SlaveCall::Make {
                address: self.made_address(),
            },
            3..=6 => SlaveCall::Step {
                frame: self.strange_frame(self.pair.slave.address),
            },
            7..=17 => SlaveCall::Put {
                message: self.any_message(),
            },
            _ => SlaveCall::Take,
        }
    }

    fn any_message(&mut self) -> Vec<u8> {
        if self.random.chance(1, 10) {
            generate::wild_message(&mut self.random)
        } else {
            generate::message(&mut self.random)
        }
    }

    /// An address for a new end: mostly one that both ends had.
    fn made_address(&mut self) -> u8 {
        if self.random.chance(1, 4) {
            self.random.one_of(&[0, 251, 252, 255])
        } else {
            self.pair.slave.address
        }
    }

    fn made_limit(&mut self) -> u32 {
        if self.random.coin() {
            generate::wild_limit(&mut self.random)
        } else {
            generate::limit(&mut self.random)
        }
    }

    /// A frame for an end: mostly for its address, sound or wild.
    fn strange_frame(&mut self, address: u8) -> Frame {
        let mut frame = if self.random.coin() {
            generate::frame(&mut self.random)
        } else {
            generate::wild_frame(&mut self.random)
        };
        if self.random.chance(3, 4) {
            frame.address = address;
        }
        frame
    }
}
