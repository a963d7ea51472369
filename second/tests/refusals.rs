//! The refusals of the calls on ends, their order, and that a refused call changes nothing.

use second::ends::*;
use second::generate;
use second::history::*;
use second::random::Random;
use second::wire::{Frame, Meaning};

const MESSAGE: [u8; 5] = [7, 0, 5, 0x31, 1];

fn pair() -> Pair {
    Pair {
        master: Master::make(5, 10).unwrap(),
        slave: Slave::make(5).unwrap(),
    }
}

/// Plays a call that must be refused by a number and leave everything as it was.
fn refused(pair: Pair, call: Call, room: usize, number: u8) {
    let lent = vec![0x5A; room];
    let outcome = play(pair, &call, lent.clone());
    assert_eq!(outcome.answer, Answer::Refused(number), "{call:?}");
    assert_eq!((outcome.pair, outcome.lent), (pair, lent));
}

fn frame(address: u8, meaning: Meaning, information: &[u8]) -> Frame {
    Frame {
        address,
        meaning,
        information: information.to_vec(),
    }
}

/// Frames that 9, 10 or 12 refuse, each also against the numbers after it.
fn bad_frames() -> [(Frame, u8); 6] {
    let bad_count = Meaning::I { ns: 8, nr: 0 };
    let i = Meaning::I { ns: 0, nr: 0 };
    [
        (frame(6, bad_count, &[1]), 9),
        (frame(6, Meaning::Rr { nr: 8 }, &[1]), 9),
        (frame(6, i, &[0; 4]), 10),
        (frame(6, i, &[0; 254]), 10),
        (frame(6, Meaning::Rnr { nr: 0 }, &MESSAGE), 10),
        (frame(6, i, &[0; 5]), 12),
    ]
}

#[test]
fn put_10_12_13() {
    for full in [false, true] {
        let mut pair = pair();
        if full {
            pair.master = pair.master.put(&MESSAGE).0;
            pair.slave = pair.slave.put(&MESSAGE).0;
        }
        for (message, number) in [
            (vec![6; 4], 10),
            (vec![0; 254], 10),
            (vec![], 10),
            (vec![8; 5], 12),
            (MESSAGE.to_vec(), 13),
        ] {
            if number == 13 && !full {
                continue;
            }
            let (for_master, for_slave) = (message.clone(), message);
            let call = Call::Master(MasterCall::Put {
                message: for_master,
            });
            refused(pair, call, 0, number);
            let call = Call::Slave(SlaveCall::Put { message: for_slave });
            refused(pair, call, 0, number);
        }
    }
}

#[test]
fn take_14_11() {
    let mut pair = pair();
    refused(pair, Call::Master(MasterCall::Take), 0, 14);
    refused(pair, Call::Slave(SlaveCall::Take), 0, 14);
    for side in [&mut pair.master.side, &mut pair.slave.side] {
        side.incoming[..5].copy_from_slice(&MESSAGE);
        side.incoming_size = 5;
    }
    refused(pair, Call::Master(MasterCall::Take), 4, 11);
    refused(pair, Call::Slave(SlaveCall::Take), 4, 11);
    let outcome = play(pair, &Call::Slave(SlaveCall::Take), vec![0x5A; 6]);
    assert_eq!(outcome.answer, Answer::Taken(5));
    assert_eq!(outcome.lent, [7, 0, 5, 0x31, 1, 0x5A]);
    assert_eq!(outcome.pair.slave.side.incoming, pair.slave.side.incoming);
    assert_eq!(outcome.pair.slave.side.incoming_size, 0);
}

#[test]
fn order_17_11() {
    let mut pair = pair();
    refused(pair, Call::Master(MasterCall::Order { now: 1 }), 252, 11);
    pair.master.waiting = true;
    refused(pair, Call::Master(MasterCall::Order { now: 1 }), 0, 17);
    refused(pair, Call::Master(MasterCall::Order { now: 1 }), 253, 17);
}

#[test]
fn response_16_9_10_12() {
    for waiting in [false, true] {
        let mut pair = pair();
        pair.master.waiting = waiting;
        for (frame, number) in bad_frames() {
            let number = if waiting { number } else { 16 };
            let now = 1000;
            refused(
                pair,
                Call::Master(MasterCall::Response { now, frame }),
                0,
                number,
            );
        }
    }
    refused(pair(), Call::Master(MasterCall::Silence), 0, 16);
}

#[test]
fn step_11_9_10_12_19() {
    for (frame, number) in bad_frames() {
        let call = Call::Slave(SlaveCall::Step { frame });
        refused(pair(), call.clone(), 252, 11);
        refused(pair(), call, 253, number);
    }
    for address in [0, 4, 6, 251] {
        let frame = frame(address, Meaning::Snrm, &[]);
        let call = Call::Slave(SlaveCall::Step { frame });
        refused(pair(), call.clone(), 252, 11);
        refused(pair(), call, 253, 19);
    }
}

/// Every way in which an end can be against 30.
fn spoiled_sides() -> Vec<Side> {
    let mut sound = Slave::make(5).unwrap().put(&MESSAGE).0.side;
    sound.incoming = sound.held;
    sound.incoming_size = 5;
    let spoils: [fn(&mut Side); 13] = [
        |side| side.ns = 8,
        |side| side.nr = 255,
        |side| side.held_size = 4,
        |side| side.held_size = 254,
        |side| side.held_size = usize::MAX,
        |side| side.held_size = 6,
        |side| side.held[0] = 8,
        |side| side.incoming_size = 1,
        |side| side.incoming_size = 254,
        |side| side.incoming_size = usize::MAX,
        |side| side.incoming_size = 6,
        |side| side.incoming[0] = 0,
        |side| {
            side.held_size = 0;
            side.sent = true;
        },
    ];
    spoils
        .map(|spoil| {
            let mut side = sound;
            spoil(&mut side);
            side
        })
        .to_vec()
}

fn spoiled_pairs() -> Vec<Pair> {
    let mut pairs = Vec::new();
    for side in spoiled_sides() {
        let mut pair = pair();
        pair.master.side = side;
        pair.slave.side = side;
        pairs.push(pair);
    }
    for address in [0, 251] {
        let mut pair = pair();
        pair.master.address = address;
        pair.slave.address = address;
        pairs.push(pair);
    }
    pairs
}

/// All calls that are handed an end, with arguments that other numbers would refuse.
fn calls() -> Vec<Call> {
    let message = vec![0; 3];
    let wild = frame(0, Meaning::I { ns: 9, nr: 9 }, &[1]);
    vec![
        Call::Master(MasterCall::Put {
            message: message.clone(),
        }),
        Call::Master(MasterCall::Take),
        Call::Master(MasterCall::Order { now: 0 }),
        Call::Master(MasterCall::Response {
            now: 0,
            frame: wild.clone(),
        }),
        Call::Master(MasterCall::Silence),
        Call::Master(MasterCall::Restart),
        Call::Master(MasterCall::Clear),
        Call::Slave(SlaveCall::Put { message }),
        Call::Slave(SlaveCall::Take),
        Call::Slave(SlaveCall::Step { frame: wild }),
        Call::Slave(SlaveCall::Restart),
        Call::Slave(SlaveCall::Clear),
    ]
}

#[test]
fn every_call_tests_30_before_all_others() {
    for mut pair in spoiled_pairs() {
        for waiting in [false, true] {
            pair.master.waiting = waiting;
            for call in calls() {
                refused(pair, call.clone(), 0, 30);
                refused(pair, call, 253, 30);
            }
        }
    }
    for limit in [0, 65_536, u32::MAX] {
        let mut pair = pair();
        pair.master.limit = limit;
        for call in calls() {
            if matches!(call, Call::Master(_)) {
                refused(pair, call, 253, 30);
            }
        }
    }
}

/// What 30 does not look at: tick, busy, doubt, mode and the bytes past a size.
#[test]
fn ends_in_any_state_pass_30() {
    let mut random = Random::new(30);
    for _ in 0..2000 {
        let address = generate::address(&mut random);
        assert_eq!(generate::master(&mut random, address).check(), Ok(()));
        assert_eq!(generate::slave(&mut random, address).check(), Ok(()));
    }
}
