//! Both ends of a link as document 01 words them: an end goes in by value and is given back.

mod master;
mod side;
mod slave;

pub use master::{limit_check, Master, MasterMode, Ordered, Responded};
pub use side::{next_count, Effect, Link, Side};
pub use slave::{Slave, SlaveMode, Stepped};
