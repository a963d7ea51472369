//! Comparisons of both ends: histories of calls, every end byte for byte in its layout, and ends of wild layout bytes.

use crate::layout::{master_bytes, master_of, slave_bytes, slave_of, MASTER_MARKS, SLAVE_MARKS};
use crate::outcome::{control_of, lend, same, Outcome, BEFORE};
use crate::surface::{self, MasterBytes, SlaveBytes};
use crate::tally::Tally;
use second::ends::{Effect, Link, Master, Slave};
use second::history::{
    play_master, play_slave, Answer, Call, History, MasterCall, SlaveCall, Turn,
};
use second::random::Random;
use second::wire::{Frame, Meaning};

const CALLS_OF_ONE: usize = 200;

fn master_name(call: &MasterCall) -> &'static str {
    match call {
        MasterCall::Make { .. } => "master_make",
        MasterCall::Put { .. } => "master_put",
        MasterCall::Take => "master_take",
        MasterCall::Order { .. } => "master_order",
        MasterCall::Response { .. } => "master_response",
        MasterCall::Silence => "master_silence",
        MasterCall::Restart => "master_restart",
        MasterCall::Clear => "master_clear",
    }
}

fn slave_name(call: &SlaveCall) -> &'static str {
    match call {
        SlaveCall::Make { .. } => "slave_make",
        SlaveCall::Put { .. } => "slave_put",
        SlaveCall::Take => "slave_take",
        SlaveCall::Step { .. } => "slave_step",
        SlaveCall::Restart => "slave_restart",
        SlaveCall::Clear => "slave_clear",
    }
}

/// The first of the values that a call has; it leaves the rest as they were.
fn first<const N: usize>(all: &mut [usize; 6]) -> &mut [usize; N] {
    all.first_chunk_mut()
        .expect("a call has at most six values")
}

/// Plays a call on a master's bytes through the surface.
fn our_master(bytes: &MasterBytes, call: &MasterCall, lent: &[u8]) -> Outcome<6> {
    let mut values = [BEFORE; 6];
    let v = &mut values;
    let (end, (lent, number)) = lend(bytes, |end| {
        let end: &mut MasterBytes = end.try_into().expect("a master's bytes");
        lend(lent, |out| match call {
            MasterCall::Make { address, limit } => surface::master_make(end, *address, *limit),
            MasterCall::Put { message } => surface::master_put(end, message),
            MasterCall::Take => surface::master_take(end, out, first(v)),
            MasterCall::Order { now } => surface::master_order(end, *now, out, first(v)),
            MasterCall::Response {
                now,
                frame:
                    Frame {
                        address,
                        meaning,
                        information,
                    },
            } => surface::master_response(
                end,
                *now,
                *address,
                control_of(*meaning),
                information,
                first(v),
            ),
            MasterCall::Silence => surface::master_silence(end),
            MasterCall::Restart => surface::master_restart(end),
            MasterCall::Clear => surface::master_clear(end),
        })
    });
    Outcome {
        number,
        values,
        lent,
        end,
    }
}

/// Plays a call on a slave's bytes through the surface.
fn our_slave(bytes: &SlaveBytes, call: &SlaveCall, lent: &[u8]) -> Outcome<6> {
    let mut values = [BEFORE; 6];
    let v = &mut values;
    let (end, (lent, number)) = lend(bytes, |end| {
        let end: &mut SlaveBytes = end.try_into().expect("a slave's bytes");
        lend(lent, |out| match call {
            SlaveCall::Make { address } => surface::slave_make(end, *address),
            SlaveCall::Put { message } => surface::slave_put(end, message),
            SlaveCall::Take => surface::slave_take(end, out, first(v)),
            SlaveCall::Step {
                frame:
                    Frame {
                        address,
                        meaning,
                        information,
                    },
            } => surface::slave_step(end, *address, control_of(*meaning), information, out, v),
            SlaveCall::Restart => surface::slave_restart(end),
            SlaveCall::Clear => surface::slave_clear(end),
        })
    });
    Outcome {
        number,
        values,
        lent,
        end,
    }
}

/// An effect as the surface tells it: the second program says yes or no where the surface says a size, that of the
/// message held before the call and that of the frame's information.
fn effect_values(effect: Effect, held: usize, information: usize) -> [usize; 3] {
    let link = match effect.link {
        Link::Kept => 0,
        Link::Gained => 1,
        Link::Lost => 2,
    };
    let confirmed = if effect.confirmed { held } else { 0 };
    let handed_over = if effect.handed_over { information } else { 0 };
    [confirmed, handed_over, link]
}

fn count_effect(tally: &mut Tally, effect: Effect, confirmed: &str, handed_over: &str) {
    tally.thing(confirmed, effect.confirmed as u64);
    tally.thing(handed_over, effect.handed_over as u64);
    tally.thing("links gained", (effect.link == Link::Gained) as u64);
    tally.thing("links lost", (effect.link == Link::Lost) as u64);
}

fn frame_values(address: u8, meaning: Meaning, size: usize) -> [usize; 3] {
    [address as usize, control_of(meaning) as usize, size]
}

/// What the second program told, as the surface's number and values; `held` is the size held before the call and
/// `information` that of the frame handed in.
fn told(
    tally: &mut Tally,
    answer: Answer,
    own: u8,
    held: usize,
    information: usize,
) -> (u32, [usize; 6]) {
    let mut values = [BEFORE; 6];
    match answer {
        Answer::Refused(number) => return (number as u32, values),
        Answer::Done => {}
        Answer::Taken(size) => values[0] = size,
        Answer::Ordered(ordered) => {
            values[..3].copy_from_slice(&frame_values(
                ordered.address,
                ordered.meaning,
                ordered.size,
            ));
        }
        Answer::Stepped(stepped) => {
            values[..3].copy_from_slice(&frame_values(own, stepped.meaning, stepped.size));
            values[3..].copy_from_slice(&effect_values(stepped.effect, held, information));
            let (confirmed, handed_over) = (
                "held messages confirmed to a slave",
                "messages handed over to a slave",
            );
            count_effect(tally, stepped.effect, confirmed, handed_over);
        }
        Answer::Responded(responded) => {
            values[0] = responded.silence as usize;
            values[1..4].copy_from_slice(&effect_values(responded.effect, held, information));
            let (confirmed, handed_over) = (
                "held messages confirmed to a master",
                "messages handed over to a master",
            );
            count_effect(tally, responded.effect, confirmed, handed_over);
            tally.thing("responses counted as silence", responded.silence as u64);
        }
    }
    (0, values)
}

/// Holds our outcome on a master against the second program's.
fn judge_master(
    tally: &mut Tally,
    before: &Master,
    call: &MasterCall,
    lent: &[u8],
    (after, lent_after, answer): (&Master, &[u8], Answer),
) {
    let bytes = master_bytes(before);
    let information = match call {
        MasterCall::Response { frame, .. } => frame.information.len(),
        _ => 0,
    };
    let (number, values) = told(
        tally,
        answer,
        before.address,
        before.side.held_size,
        information,
    );
    let second = Outcome {
        number,
        values,
        lent: lent_after.to_vec(),
        end: master_bytes(after).to_vec(),
    };
    let ours = our_master(&bytes, call, lent);
    same(
        tally,
        master_name(call),
        &(before, call, lent),
        ours,
        second,
    );
}

/// Holds our outcome on a slave against the second program's.
fn judge_slave(
    tally: &mut Tally,
    before: &Slave,
    call: &SlaveCall,
    lent: &[u8],
    (after, lent_after, answer): (&Slave, &[u8], Answer),
) {
    let bytes = slave_bytes(before);
    let information = match call {
        SlaveCall::Step { frame } => frame.information.len(),
        _ => 0,
    };
    let (number, values) = told(
        tally,
        answer,
        before.address,
        before.side.held_size,
        information,
    );
    let second = Outcome {
        number,
        values,
        lent: lent_after.to_vec(),
        end: slave_bytes(after).to_vec(),
    };
    let ours = our_slave(&bytes, call, lent);
    same(tally, slave_name(call), &(before, call, lent), ours, second);
}

/// Spoils bytes of a layout: a mode or a mark, something in the sizes, anything, or all of it.
fn spoil(random: &mut Random, bytes: &mut [u8], marks: &[usize]) {
    match random.below(8) {
        0..=3 => {
            let place = random.one_of(marks);
            bytes[place] = random.one_of(&[0, 1, 2, 3, 4, 127, 128, 254, 255]);
        }
        4 => {
            let place = random.between(6, 21);
            bytes[place] = random.one_of(&[0, 1, 5, 253, 254, 255]);
        }
        5 => bytes[random.between(0, 5)] = random.byte(),
        6 => {
            let place = random.below(bytes.len());
            bytes[place] = random.byte();
        }
        _ => {
            let any = random.bytes(bytes.len());
            bytes.copy_from_slice(&any);
        }
    }
}

/// A call on bytes that are no end: every call but make refuses them by 30 and changes nothing; make does not look at
/// them.
fn no_end<E>(
    made: Option<Result<E, u8>>,
    bytes: &[u8],
    lent: &[u8],
    layout: impl Fn(&E) -> Vec<u8>,
) -> Outcome<6> {
    let (number, end) = match made {
        Some(Ok(end)) => (0, layout(&end)),
        Some(Err(number)) => (number as u32, bytes.to_vec()),
        None => (30, bytes.to_vec()),
    };
    Outcome {
        number,
        values: [BEFORE; 6],
        lent: lent.to_vec(),
        end,
    }
}

/// A call on a master's bytes spoilt; true where they are no end.
fn wild_master(tally: &mut Tally, random: &mut Random, turn: &Turn, call: &MasterCall) -> bool {
    let mut bytes = master_bytes(&turn.pair.master);
    spoil(random, &mut bytes, &MASTER_MARKS);
    if let Some(before) = master_of(&bytes) {
        let mut lent = turn.lent.clone();
        let (after, answer) = play_master(before, call, &mut lent);
        judge_master(tally, &before, call, &turn.lent, (&after, &lent, answer));
        return false;
    }
    let made = match call {
        MasterCall::Make { address, limit } => Some(Master::make(*address, *limit)),
        _ => None,
    };
    let second = no_end(made, &bytes, &turn.lent, |end| master_bytes(end).to_vec());
    let ours = our_master(&bytes, call, &turn.lent);
    let input = (&bytes[..], call, &turn.lent);
    same(tally, master_name(call), &input, ours, second);
    true
}

/// A call on a slave's bytes spoilt; true where they are no end.
fn wild_slave(tally: &mut Tally, random: &mut Random, turn: &Turn, call: &SlaveCall) -> bool {
    let mut bytes = slave_bytes(&turn.pair.slave);
    spoil(random, &mut bytes, &SLAVE_MARKS);
    if let Some(before) = slave_of(&bytes) {
        let mut lent = turn.lent.clone();
        let (after, answer) = play_slave(before, call, &mut lent);
        judge_slave(tally, &before, call, &turn.lent, (&after, &lent, answer));
        return false;
    }
    let made = match call {
        SlaveCall::Make { address } => Some(Slave::make(*address)),
        _ => None,
    };
    let second = no_end(made, &bytes, &turn.lent, |end| slave_bytes(end).to_vec());
    let ours = our_slave(&bytes, call, &turn.lent);
    let input = (&bytes[..], call, &turn.lent);
    same(tally, slave_name(call), &input, ours, second);
    true
}

/// The call of a turn once more, on the end's bytes spoilt.
fn wild_layout(tally: &mut Tally, random: &mut Random, turn: &Turn) {
    let no_end = match &turn.call {
        Call::Master(call) => wild_master(tally, random, turn, call),
        Call::Slave(call) => wild_slave(tally, random, turn, call),
    };
    tally.thing("calls on wild layout bytes", 1);
    tally.thing("of these, bytes that are no end", no_end as u64);
}

/// Histories by their seeds, and one call in sixteen once more on wild layout bytes.
pub fn histories(tally: &mut Tally, random: &mut Random, first: usize, count: usize) {
    for seed in first..first + count {
        let mut history = History::new(seed as u64);
        for _ in 0..CALLS_OF_ONE {
            let turn = history.turn();
            let outcome = &turn.outcome;
            match &turn.call {
                Call::Master(call) => {
                    let after = (&outcome.pair.master, &outcome.lent[..], outcome.answer);
                    judge_master(tally, &turn.pair.master, call, &turn.lent, after);
                }
                Call::Slave(call) => {
                    let after = (&outcome.pair.slave, &outcome.lent[..], outcome.answer);
                    judge_slave(tally, &turn.pair.slave, call, &turn.lent, after);
                }
            }
            if random.chance(1, 16) {
                wild_layout(tally, random, &turn);
            }
        }
        tally.thing("calls of histories", CALLS_OF_ONE as u64);
        tally.thing("histories", 1);
    }
}
