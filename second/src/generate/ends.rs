//! Ends: such as refusal 30 lets pass in any state, and such with wild fields.

use super::frames::{message, wild_address, wild_count};
use crate::ends::{Master, MasterMode, Side, Slave, SlaveMode};
use crate::random::Random;
use crate::wire::MOST_MESSAGE;

/// Fills a slot: the bytes past the message are anything.
fn slot(random: &mut Random, full: bool) -> ([u8; MOST_MESSAGE], usize) {
    let mut bytes = [0; MOST_MESSAGE];
    bytes.copy_from_slice(&random.bytes(MOST_MESSAGE));
    if !full {
        return (bytes, 0);
    }
    let message = message(random);
    bytes[..message.len()].copy_from_slice(&message);
    (bytes, message.len())
}

/// A side that refusal 30 lets pass, otherwise anyhow.
fn side(random: &mut Random) -> Side {
    let (holds, full) = (random.coin(), random.coin());
    let (held, held_size) = slot(random, holds);
    let (incoming, incoming_size) = slot(random, full);
    Side {
        ns: random.below(8) as u8,
        nr: random.below(8) as u8,
        held,
        held_size,
        sent: holds && random.coin(),
        incoming,
        incoming_size,
        doubt: random.coin(),
    }
}

/// A slave that refusal 30 lets pass, otherwise anyhow.
pub fn slave(random: &mut Random, address: u8) -> Slave {
    Slave {
        mode: random.one_of(&[SlaveMode::Ndm, SlaveMode::Nrm, SlaveMode::Nrm]),
        address,
        side: side(random),
    }
}

/// A tick, often near the wrap.
pub fn tick(random: &mut Random) -> u32 {
    match random.below(3) {
        0 => random.below(20) as u32,
        1 => u32::MAX - random.below(20) as u32,
        _ => random.bits() as u32,
    }
}

/// An answer limit from 1 to 65,535.
pub fn limit(random: &mut Random) -> u32 {
    match random.below(4) {
        0 => random.one_of(&[1, 2, 65_534, 65_535]),
        1 => random.between(1, 65_535) as u32,
        _ => random.between(10, 100) as u32,
    }
}

/// An answer limit against refusal 15.
pub fn wild_limit(random: &mut Random) -> u32 {
    random.one_of(&[0, 65_536, 65_537, 131_071, u32::MAX])
}

/// A master that refusal 30 lets pass, otherwise anyhow.
pub fn master(random: &mut Random, address: u8) -> Master {
    Master {
        mode: random.one_of(&[
            MasterMode::Disconnecting,
            MasterMode::Connecting,
            MasterMode::Linked,
            MasterMode::Linked,
        ]),
        address,
        limit: limit(random),
        tick: tick(random),
        busy: random.coin(),
        waiting: random.coin(),
        side: side(random),
    }
}

/// A size that no slot may have, or one that its message may not fit.
fn wild_size(random: &mut Random) -> usize {
    random.one_of(&[1, 2, 3, 4, 5, 6, 100, 252, 253, 254, 255, 256, 65_536])
}

/// One field of a side goes wild.
fn spoil_side(random: &mut Random, side: &mut Side) {
    match random.below(7) {
        0 => side.ns = wild_count(random),
        1 => side.nr = wild_count(random),
        2 => side.held_size = wild_size(random),
        3 => side.incoming_size = wild_size(random),
        4 => side.held[0] = random.byte(),
        5 => side.incoming[0] = random.byte(),
        _ => side.sent = true,
    }
}

/// A slave with wild fields; now and then it still passes refusal 30.
pub fn wild_slave(random: &mut Random, mut slave: Slave) -> Slave {
    for _ in 0..random.between(1, 2) {
        match random.below(8) {
            0 => slave.address = wild_address(random),
            _ => spoil_side(random, &mut slave.side),
        }
    }
    slave
}

/// A master with wild fields; now and then it still passes refusal 30.
pub fn wild_master(random: &mut Random, mut master: Master) -> Master {
    for _ in 0..random.between(1, 2) {
        match random.below(8) {
            0 => master.address = wild_address(random),
            1 => master.limit = wild_limit(random),
            _ => spoil_side(random, &mut master.side),
        }
    }
    master
}
