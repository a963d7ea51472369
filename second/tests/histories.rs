//! Whole histories: what every call must keep, that the generator meets everything, and that
//! messages arrive once and in order (01, "Late or strange responses").

use second::ends::{Link, Master, MasterMode, Slave, SlaveMode};
use second::generate;
use second::history::*;
use second::random::Random;

/// Which call it is, as a place in a table.
fn kind(call: &Call) -> usize {
    match call {
        Call::Master(MasterCall::Make { .. }) => 0,
        Call::Master(MasterCall::Put { .. }) => 1,
        Call::Master(MasterCall::Take) => 2,
        Call::Master(MasterCall::Order { .. }) => 3,
        Call::Master(MasterCall::Response { .. }) => 4,
        Call::Master(MasterCall::Silence) => 5,
        Call::Master(MasterCall::Restart) => 6,
        Call::Master(MasterCall::Clear) => 7,
        Call::Slave(SlaveCall::Make { .. }) => 8,
        Call::Slave(SlaveCall::Put { .. }) => 9,
        Call::Slave(SlaveCall::Take) => 10,
        Call::Slave(SlaveCall::Step { .. }) => 11,
        Call::Slave(SlaveCall::Restart) => 12,
        Call::Slave(SlaveCall::Clear) => 13,
    }
}

/// The numbers that each call may give, in the order of `kind` (01, "Numbers given back").
const NUMBERS: [&[u8]; 14] = [
    &[8, 15],
    &[30, 10, 12, 13],
    &[30, 14, 11],
    &[30, 17, 11],
    &[30, 16, 9, 10, 12],
    &[30, 16],
    &[30],
    &[30],
    &[8],
    &[30, 10, 12, 13],
    &[30, 14, 11],
    &[30, 11, 9, 10, 12, 19],
    &[30],
    &[30],
];

/// A refused call changes nothing; another touches its own end alone and gives a sound one back.
fn keeps_the_rules(turn: &Turn) {
    let Turn { pair, outcome, .. } = turn;
    if let Answer::Refused(number) = outcome.answer {
        assert!(NUMBERS[kind(&turn.call)].contains(&number));
        assert_eq!((outcome.pair, &outcome.lent), (*pair, &turn.lent));
        return;
    }
    match turn.call {
        Call::Master(_) => {
            assert_eq!(outcome.pair.slave, pair.slave);
            assert_eq!(outcome.pair.master.check(), Ok(()));
        }
        Call::Slave(_) => {
            assert_eq!(outcome.pair.master, pair.master);
            assert_eq!(outcome.pair.slave.check(), Ok(()));
        }
    }
    let size = match outcome.answer {
        Answer::Taken(size) => size,
        Answer::Ordered(ordered) => ordered.size,
        Answer::Stepped(stepped) => stepped.size,
        _ => 0,
    };
    assert_eq!(outcome.lent[size..], turn.lent[size..]);
}

/// What the histories met: refusals by call and number, and what steps and responses told.
struct Met {
    numbers: [[usize; 31]; 14],
    told: [[usize; 6]; 2],
}

impl Met {
    fn count(&mut self, turn: &Turn) {
        let kind = kind(&turn.call);
        let number = match turn.outcome.answer {
            Answer::Refused(number) => number as usize,
            _ => 0,
        };
        self.numbers[kind][number] += 1;
        let (end, silence, effect) = match turn.outcome.answer {
            Answer::Stepped(stepped) => (0, false, stepped.effect),
            Answer::Responded(responded) => (1, responded.silence, responded.effect),
            _ => return,
        };
        self.told[end][0] += effect.confirmed as usize;
        self.told[end][1] += effect.handed_over as usize;
        self.told[end][2] += (effect.link == Link::Lost) as usize;
        self.told[end][3] += (effect.link == Link::Gained) as usize;
        self.told[end][4] += (effect.confirmed && effect.handed_over) as usize;
        self.told[end][5] += silence as usize;
    }
}

/// 20,000 histories of 200 calls; every number of every call and every effect is met often.
#[test]
fn histories_keep_the_rules_and_meet_everything() {
    let mut met = Met {
        numbers: [[0; 31]; 14],
        told: [[0; 6]; 2],
    };
    for seed in 0..20_000 {
        let mut history = History::new(seed);
        for _ in 0..200 {
            let turn = history.turn();
            keeps_the_rules(&turn);
            met.count(&turn);
        }
    }
    for (call, numbers) in NUMBERS.iter().enumerate() {
        for number in [0].iter().chain(*numbers) {
            let times = met.numbers[call][*number as usize];
            assert!(times > 200, "call {call}, number {number}: {times}");
        }
    }
    for (end, told) in met.told.iter().enumerate() {
        for (place, times) in told.iter().enumerate() {
            let never = end == 0 && place == 5;
            assert!(never || *times > 200, "end {end}, {:?}", met.told);
        }
    }
}

/// A link just synchronised, with what was put and handed over at each end.
struct Run {
    random: Random,
    master: Master,
    slave: Slave,
    put: [Vec<Vec<u8>>; 2],
    handed: [Vec<Vec<u8>>; 2],
    confirmed: [usize; 2],
}

impl Run {
    fn new(seed: u64) -> Run {
        let mut master = Master::make(5, 10).unwrap();
        let mut slave = Slave::make(5).unwrap();
        master.mode = MasterMode::Linked;
        slave.mode = SlaveMode::Nrm;
        Run {
            random: Random::new(seed),
            master,
            slave,
            put: [vec![], vec![]],
            handed: [vec![], vec![]],
            confirmed: [0, 0],
        }
    }

    /// The owners put and take as they like.
    fn owners(&mut self) {
        for end in 0..2 {
            if self.random.chance(1, 2) {
                let message = generate::message(&mut self.random);
                let done;
                match end {
                    0 => (self.master, done) = self.master.put(&message),
                    _ => (self.slave, done) = self.slave.put(&message),
                }
                if done.is_ok() {
                    self.put[end].push(message);
                }
            }
            if self.random.chance(1, 2) {
                match end {
                    0 => self.master = self.master.take(&mut [0; 253]).0,
                    _ => self.slave = self.slave.take(&mut [0; 253]).0,
                }
            }
        }
    }

    /// One exchange, in which the order or the response may be lost or late.
    fn exchange(&mut self, now: u32) {
        let (mut order, mut response) = ([0; 253], [0; 253]);
        let (master, ordered) = self.master.order(now, &mut order);
        let ordered = ordered.unwrap();
        self.master = master;
        if self.random.chance(1, 4) {
            self.master = self.master.silence().0;
            return;
        }
        let information = &order[..ordered.size];
        let (slave, stepped) = self
            .slave
            .step(5, ordered.meaning, information, &mut response);
        let stepped = stepped.unwrap();
        self.slave = slave;
        assert_eq!(stepped.effect.link, Link::Kept);
        self.confirmed[1] += stepped.effect.confirmed as usize;
        if stepped.effect.handed_over {
            self.handed[1].push(information.to_vec());
        }
        self.owners();
        let late = now.wrapping_add(self.random.below(14) as u32);
        let information = &response[..stepped.size];
        let (master, responded) = self.master.response(late, 5, stepped.meaning, information);
        let responded = responded.unwrap();
        self.master = master;
        assert_eq!(responded.effect.link, Link::Kept);
        self.confirmed[0] += responded.effect.confirmed as usize;
        if responded.effect.handed_over {
            self.handed[0].push(information.to_vec());
        }
    }
}

/// What was handed over at one end is what was put at the other, in order and once; what was
/// confirmed was handed over; what is still held may or may not have been.
#[test]
fn messages_arrive_once_and_in_order() {
    let mut most = 0;
    for seed in 0..2000 {
        let mut run = Run::new(seed);
        for turn in 0..100u32 {
            run.owners();
            run.exchange(turn.wrapping_mul(1000).wrapping_sub(50_000));
            for (from, to) in [(0, 1), (1, 0)] {
                let handed = run.handed[to].len();
                assert_eq!(run.handed[to], run.put[from][..handed]);
                assert!(handed >= run.confirmed[from] && handed <= run.confirmed[from] + 1);
                most = most.max(handed);
            }
        }
    }
    assert!(most > 30);
}

/// After a restart of both ends DISC and SNRM link them again.
#[test]
fn restarted_ends_link_in_two_exchanges() {
    let mut run = Run::new(7);
    run.master = run.master.restart().0;
    run.slave = run.slave.restart().0;
    for now in 0..2 {
        let mut lent = [0; 253];
        let (master, ordered) = run.master.order(now, &mut lent);
        let (slave, stepped) = run.slave.step(5, ordered.unwrap().meaning, &[], &mut lent);
        run.slave = slave;
        let (master, _) = master.response(now, 5, stepped.unwrap().meaning, &[]);
        run.master = master;
    }
    assert_eq!(run.master.mode, MasterMode::Linked);
    assert_eq!(run.slave.mode, SlaveMode::Nrm);
}
