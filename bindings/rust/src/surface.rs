//! The C surface, each call once, as a function of slices and arrays. The only unsafe code stands here.
//!
//! Why the calls are sound: include/bitbus.h asks that a pointer leads to as many bytes as its size says, that ends and
//! values arrays have their stated sizes, and that a lent output overlaps nothing else. Slices, arrays and `&mut` give
//! all three, and the library keeps no pointer.

use crate::header::{MASTER_SIZE, SLAVE_SIZE};
use crate::Refusal;

/// The header's declarations in its order; an array's size is the header's.
#[rustfmt::skip]
mod c {
    use super::{master, slave};

    type Values<const N: usize> = [usize; N];

    extern "C" {
        pub fn bitbus_check_word(bytes: *const u8, size: usize) -> u16;
        pub fn bitbus_message_check(message: *const u8, size: usize) -> u32;
        pub fn bitbus_write(address: u8, control: u8, information: *const u8, size: usize,
                            out: *mut u8, room: usize, values: &mut Values<2>) -> u32;
        pub fn bitbus_read(buffer: *const u8, size: usize, bits: usize,
                           out: *mut u8, room: usize, values: &mut Values<3>) -> u32;
        pub fn bitbus_nrzi_encode(level: bool, input: *const u8, size: usize, bits: usize,
                                  out: *mut u8, room: usize, values: &mut Values<1>) -> u32;
        pub fn bitbus_nrzi_decode(level: bool, input: *const u8, size: usize, bits: usize,
                                  out: *mut u8, room: usize, values: &mut Values<1>) -> u32;

        pub fn bitbus_slave_make(end: &mut slave::Bytes, address: u8) -> u32;
        pub fn bitbus_slave_put(end: &mut slave::Bytes, message: *const u8, size: usize) -> u32;
        pub fn bitbus_slave_take(end: &mut slave::Bytes, out: *mut u8, room: usize, values: &mut Values<1>) -> u32;
        pub fn bitbus_slave_step(end: &mut slave::Bytes, address: u8, control: u8, information: *const u8, size: usize,
                                 out: *mut u8, room: usize, values: &mut Values<6>) -> u32;
        pub fn bitbus_slave_restart(end: &mut slave::Bytes) -> u32;
        pub fn bitbus_slave_clear(end: &mut slave::Bytes) -> u32;

        pub fn bitbus_master_make(end: &mut master::Bytes, address: u8, limit: u32) -> u32;
        pub fn bitbus_master_put(end: &mut master::Bytes, message: *const u8, size: usize) -> u32;
        pub fn bitbus_master_take(end: &mut master::Bytes, out: *mut u8, room: usize, values: &mut Values<1>) -> u32;
        pub fn bitbus_master_order(end: &mut master::Bytes, tick: u32,
                                   out: *mut u8, room: usize, values: &mut Values<3>) -> u32;
        pub fn bitbus_master_response(end: &mut master::Bytes, tick: u32, address: u8, control: u8,
                                      information: *const u8, size: usize, values: &mut Values<4>) -> u32;
        pub fn bitbus_master_silence(end: &mut master::Bytes) -> u32;
        pub fn bitbus_master_restart(end: &mut master::Bytes) -> u32;
        pub fn bitbus_master_clear(end: &mut master::Bytes) -> u32;

        pub fn bitbus_record(capture: *const u8, size: usize, at: usize, values: &mut Values<5>) -> u32;
        pub fn bitbus_list(capture: *const u8, size: usize,
                           out: *mut u8, room: usize, values: &mut Values<1>) -> u32;
    }
}

/// Lends a values array to a call, and gives it where the call is not refused.
fn valued<const N: usize>(call: impl FnOnce(&mut [usize; N]) -> u32) -> Result<[usize; N], Refusal> {
    let mut values = [0; N];
    Refusal::judge(call(&mut values))?;
    Ok(values)
}

pub fn check_word(bytes: &[u8]) -> u16 {
    unsafe { c::bitbus_check_word(bytes.as_ptr(), bytes.len()) }
}

pub fn message_check(message: &[u8]) -> Result<(), Refusal> {
    Refusal::judge(unsafe { c::bitbus_message_check(message.as_ptr(), message.len()) })
}

pub fn write(address: u8, control: u8, information: &[u8], out: &mut [u8]) -> Result<[usize; 2], Refusal> {
    let (from, size, to, room) = (information.as_ptr(), information.len(), out.as_mut_ptr(), out.len());
    valued(|values| unsafe { c::bitbus_write(address, control, from, size, to, room, values) })
}

pub fn read(buffer: &[u8], bits: usize, out: &mut [u8]) -> Result<[usize; 3], Refusal> {
    let (from, size, to, room) = (buffer.as_ptr(), buffer.len(), out.as_mut_ptr(), out.len());
    valued(|values| unsafe { c::bitbus_read(from, size, bits, to, room, values) })
}

pub fn nrzi_encode(level: bool, input: &[u8], bits: usize, out: &mut [u8]) -> Result<[usize; 1], Refusal> {
    let (from, size, to, room) = (input.as_ptr(), input.len(), out.as_mut_ptr(), out.len());
    valued(|values| unsafe { c::bitbus_nrzi_encode(level, from, size, bits, to, room, values) })
}

pub fn nrzi_decode(level: bool, input: &[u8], bits: usize, out: &mut [u8]) -> Result<[usize; 1], Refusal> {
    let (from, size, to, room) = (input.as_ptr(), input.len(), out.as_mut_ptr(), out.len());
    valued(|values| unsafe { c::bitbus_nrzi_decode(level, from, size, bits, to, room, values) })
}

/// A module with the calls that both ends have.
macro_rules! end {
    ($end:ident, $size:expr, $put:ident, $take:ident, $restart:ident, $clear:ident) => {
        pub mod $end {
            use super::*;

            pub type Bytes = [u8; $size];

            pub fn put(end: &mut Bytes, message: &[u8]) -> Result<(), Refusal> {
                Refusal::judge(unsafe { c::$put(end, message.as_ptr(), message.len()) })
            }

            pub fn take(end: &mut Bytes, out: &mut [u8]) -> Result<[usize; 1], Refusal> {
                valued(|values| unsafe { c::$take(end, out.as_mut_ptr(), out.len(), values) })
            }

            pub fn restart(end: &mut Bytes) -> Result<(), Refusal> {
                Refusal::judge(unsafe { c::$restart(end) })
            }

            pub fn clear(end: &mut Bytes) -> Result<(), Refusal> {
                Refusal::judge(unsafe { c::$clear(end) })
            }
        }
    };
}

end!(slave, SLAVE_SIZE, bitbus_slave_put, bitbus_slave_take, bitbus_slave_restart, bitbus_slave_clear);
end!(master, MASTER_SIZE, bitbus_master_put, bitbus_master_take, bitbus_master_restart, bitbus_master_clear);

pub fn slave_make(address: u8) -> Result<slave::Bytes, Refusal> {
    let mut end = [0; SLAVE_SIZE];
    Refusal::judge(unsafe { c::bitbus_slave_make(&mut end, address) })?;
    Ok(end)
}

pub fn slave_step(
    end: &mut slave::Bytes,
    address: u8,
    control: u8,
    information: &[u8],
    out: &mut [u8],
) -> Result<[usize; 6], Refusal> {
    let (from, size, to, room) = (information.as_ptr(), information.len(), out.as_mut_ptr(), out.len());
    valued(|values| unsafe { c::bitbus_slave_step(end, address, control, from, size, to, room, values) })
}

pub fn master_make(address: u8, limit: u32) -> Result<master::Bytes, Refusal> {
    let mut end = [0; MASTER_SIZE];
    Refusal::judge(unsafe { c::bitbus_master_make(&mut end, address, limit) })?;
    Ok(end)
}

pub fn master_order(end: &mut master::Bytes, tick: u32, out: &mut [u8]) -> Result<[usize; 3], Refusal> {
    valued(|values| unsafe { c::bitbus_master_order(end, tick, out.as_mut_ptr(), out.len(), values) })
}

pub fn master_response(
    end: &mut master::Bytes,
    tick: u32,
    address: u8,
    control: u8,
    information: &[u8],
) -> Result<[usize; 4], Refusal> {
    let (from, size) = (information.as_ptr(), information.len());
    valued(|values| unsafe { c::bitbus_master_response(end, tick, address, control, from, size, values) })
}

pub fn master_silence(end: &mut master::Bytes) -> Result<(), Refusal> {
    Refusal::judge(unsafe { c::bitbus_master_silence(end) })
}

pub fn record(capture: &[u8], at: usize) -> Result<[usize; 5], Refusal> {
    valued(|values| unsafe { c::bitbus_record(capture.as_ptr(), capture.len(), at, values) })
}

pub fn list(capture: &[u8], out: &mut [u8]) -> Result<[usize; 1], Refusal> {
    let (from, size, to, room) = (capture.as_ptr(), capture.len(), out.as_mut_ptr(), out.len());
    valued(|values| unsafe { c::bitbus_list(from, size, to, room, values) })
}
