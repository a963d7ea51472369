//! The second program's ends in the layout of include/bitbus.h, and back where the bytes are some end.

use crate::surface::{MasterBytes, SlaveBytes, MASTER_SIZE, MESSAGE_MOST, SLAVE_SIZE};
use second::ends::{Master, MasterMode, Side, Slave, SlaveMode};

const SENT: usize = 4;
const DOUBT: usize = 5;
const HELD_SIZE: usize = 6;
const WAITING_SIZE: usize = 14;
const HELD: usize = 22;
const INCOMING: usize = 275;
const BUSY: usize = 528;
const ORDER_WAITS: usize = 529;
const TICK: usize = 530;
const LIMIT: usize = 534;

/// The places of modes and marks, where not every byte is some end's.
pub const SLAVE_MARKS: [usize; 3] = [0, SENT, DOUBT];
pub const MASTER_MARKS: [usize; 5] = [0, SENT, DOUBT, BUSY, ORDER_WAITS];

fn side_to(bytes: &mut [u8], mode: u8, address: u8, side: &Side) {
    bytes[0] = mode;
    bytes[1] = address;
    bytes[2] = side.ns;
    bytes[3] = side.nr;
    bytes[SENT] = side.sent as u8;
    bytes[DOUBT] = side.doubt as u8;
    bytes[HELD_SIZE..WAITING_SIZE].copy_from_slice(&(side.held_size as u64).to_le_bytes());
    bytes[WAITING_SIZE..HELD].copy_from_slice(&(side.incoming_size as u64).to_le_bytes());
    bytes[HELD..INCOMING].copy_from_slice(&side.held);
    bytes[INCOMING..SLAVE_SIZE].copy_from_slice(&side.incoming);
}

pub fn slave_bytes(slave: &Slave) -> SlaveBytes {
    let mut bytes = [0; SLAVE_SIZE];
    side_to(&mut bytes, slave.mode as u8, slave.address, &slave.side);
    bytes
}

pub fn master_bytes(master: &Master) -> MasterBytes {
    let mut bytes = [0; MASTER_SIZE];
    side_to(&mut bytes, master.mode as u8, master.address, &master.side);
    bytes[BUSY] = master.busy as u8;
    bytes[ORDER_WAITS] = master.waiting as u8;
    bytes[TICK..LIMIT].copy_from_slice(&master.tick.to_le_bytes());
    bytes[LIMIT..].copy_from_slice(&master.limit.to_le_bytes());
    bytes
}

fn mark(byte: u8) -> Option<bool> {
    match byte {
        0 => Some(false),
        1 => Some(true),
        _ => None,
    }
}

fn size(bytes: &[u8], place: usize) -> usize {
    let eight: [u8; 8] = bytes[place..place + 8].try_into().expect("eight bytes");
    u64::from_le_bytes(eight) as usize
}

fn four(bytes: &[u8], place: usize) -> u32 {
    u32::from_le_bytes(bytes[place..place + 4].try_into().expect("four bytes"))
}

fn slot(bytes: &[u8], place: usize) -> [u8; MESSAGE_MOST] {
    bytes[place..place + MESSAGE_MOST]
        .try_into()
        .expect("a slot's bytes")
}

fn side_of(bytes: &[u8]) -> Option<Side> {
    Some(Side {
        ns: bytes[2],
        nr: bytes[3],
        held: slot(bytes, HELD),
        held_size: size(bytes, HELD_SIZE),
        sent: mark(bytes[SENT])?,
        incoming: slot(bytes, INCOMING),
        incoming_size: size(bytes, WAITING_SIZE),
        doubt: mark(bytes[DOUBT])?,
    })
}

/// The slave that the bytes are, or none: a mode or a mark outside its values.
pub fn slave_of(bytes: &SlaveBytes) -> Option<Slave> {
    let mode = match bytes[0] {
        0 => SlaveMode::Ndm,
        1 => SlaveMode::Nrm,
        _ => return None,
    };
    Some(Slave {
        mode,
        address: bytes[1],
        side: side_of(bytes)?,
    })
}

/// The master that the bytes are, or none: a mode or a mark outside its values.
pub fn master_of(bytes: &MasterBytes) -> Option<Master> {
    let mode = match bytes[0] {
        0 => MasterMode::Disconnecting,
        1 => MasterMode::Connecting,
        2 => MasterMode::Linked,
        _ => return None,
    };
    Some(Master {
        mode,
        address: bytes[1],
        limit: four(bytes, LIMIT),
        tick: four(bytes, TICK),
        busy: mark(bytes[BUSY])?,
        waiting: mark(bytes[ORDER_WAITS])?,
        side: side_of(bytes)?,
    })
}
