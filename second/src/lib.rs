//! The second program: the BITBUS link of document 01, written from that document alone and in
//! the simplest way, so that each line can be held against it. Refusals are 01's plain numbers.
#![deny(unsafe_code)]

pub mod captures;
pub mod ends;
pub mod generate;
pub mod history;
pub mod plain;
pub mod random;
pub mod tables;
pub mod wire;
