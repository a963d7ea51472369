//! Both ends of a BITBUS link for Rust: safe types over the C surface (include/bitbus.h) of the proved library.
//!
//! A [`Master`] and a [`Slave`] own their bytes. Their owners put and take messages when they like; the line's program
//! carries frames between them: [`Master::order`], [`write()`], the line, [`read()`], [`Slave::step`], and back to
//! [`Master::response`], or [`Master::silence`] where nothing came.
//!
//! ```
//! use bitbus::{Master, Refusal, Slave};
//!
//! let mut master = Master::make(5, 100)?;
//! let mut slave = Slave::make(5)?;
//! slave.put(&[7, 0x80, 5, 0x11, 1])?;
//! for tick in 0..4 {
//!     let order = master.order(tick)?;
//!     let answer = slave.step(order.address, order.meaning, &order.information)?;
//!     let response = answer.response;
//!     master.response(tick, response.address, response.meaning, &response.information)?;
//! }
//! assert_eq!(master.take()?[..], [7, 0x80, 5, 0x11, 1]);
//! assert_eq!(master.take(), Err(Refusal::SLOT_EMPTY));
//! # Ok::<(), Refusal>(())
//! ```
//!
//! Every function takes every input; what the rules forbid comes back as a [`Refusal`], and then nothing has changed.
//! Each function names its refusals in the order in which it tests; it gives no other.

#![deny(missing_docs)]
#![deny(unsafe_code)]

mod capture;
mod ends;
mod frame;
mod line;
mod refusal;

/// The constants of include/bitbus.h, under their names there less `BITBUS_`.
#[allow(dead_code)]
mod header {
    include!(concat!(env!("OUT_DIR"), "/header.rs"));
}

#[allow(unsafe_code)]
mod surface;

pub use capture::{list, record, Record, What};
pub use ends::{Answer, Heard, Link, Master, MasterMode, Slave, SlaveMode};
pub use frame::{Frame, Information, Meaning};
pub use line::{check_word, message_check, nrzi_decode, nrzi_encode, read, write, Written, BITS_MOST, FRAME_MOST};
pub use refusal::Refusal;
