//! Things to try, sound and unsound, all from the fixed-seed generator.

mod ends;
mod frames;
mod lines;
mod records;

pub use ends::{limit, master, slave, tick, wild_limit, wild_master, wild_slave};
pub use frames::{
    address, frame, meaning, message, wild_address, wild_frame, wild_meaning, wild_message,
};
pub use lines::{lent, lent_near, line, Line};
pub use records::{capture, record, record_of, wild_record};
