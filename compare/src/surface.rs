//! The C surface of include/bitbus.h as functions over slices. All that is unsafe stands here: each function hands over
//! slices as pointer and size, and Rust's own rules give what the header asks of what is lent.

pub const SLAVE_SIZE: usize = 528;
pub const MASTER_SIZE: usize = 538;
pub const MESSAGE_MOST: usize = 253;
pub const FRAME_MOST: usize = 311;
pub const BITS_MOST: usize = 8192;
pub const CAPTURE_MOST: usize = 65_536;
pub const LISTING_MOST: usize = 283_838;

pub type SlaveBytes = [u8; SLAVE_SIZE];
pub type MasterBytes = [u8; MASTER_SIZE];

mod c {
    extern "C" {
        pub fn bitbus_check_word(bytes: *const u8, size: usize) -> u16;
        pub fn bitbus_message_check(message: *const u8, size: usize) -> u32;
        pub fn bitbus_write(
            address: u8,
            control: u8,
            information: *const u8,
            size: usize,
            out: *mut u8,
            room: usize,
            values: *mut usize,
        ) -> u32;
        pub fn bitbus_read(
            buffer: *const u8,
            size: usize,
            bits: usize,
            out: *mut u8,
            room: usize,
            values: *mut usize,
        ) -> u32;
        pub fn bitbus_nrzi_encode(
            level: bool,
            input: *const u8,
            size: usize,
            bits: usize,
            out: *mut u8,
            room: usize,
            values: *mut usize,
        ) -> u32;
        pub fn bitbus_nrzi_decode(
            level: bool,
            input: *const u8,
            size: usize,
            bits: usize,
            out: *mut u8,
            room: usize,
            values: *mut usize,
        ) -> u32;
        pub fn bitbus_slave_make(end: *mut u8, address: u8) -> u32;
        pub fn bitbus_slave_put(end: *mut u8, message: *const u8, size: usize) -> u32;
        pub fn bitbus_slave_take(
            end: *mut u8,
            out: *mut u8,
            room: usize,
            values: *mut usize,
        ) -> u32;
        pub fn bitbus_slave_step(
            end: *mut u8,
            address: u8,
            control: u8,
            information: *const u8,
            size: usize,
            out: *mut u8,
            room: usize,
            values: *mut usize,
        ) -> u32;
        pub fn bitbus_slave_restart(end: *mut u8) -> u32;
        pub fn bitbus_slave_clear(end: *mut u8) -> u32;
        pub fn bitbus_master_make(end: *mut u8, address: u8, limit: u32) -> u32;
        pub fn bitbus_master_put(end: *mut u8, message: *const u8, size: usize) -> u32;
        pub fn bitbus_master_take(
            end: *mut u8,
            out: *mut u8,
            room: usize,
            values: *mut usize,
        ) -> u32;
        pub fn bitbus_master_order(
            end: *mut u8,
            tick: u32,
            out: *mut u8,
            room: usize,
            values: *mut usize,
        ) -> u32;
        pub fn bitbus_master_response(
            end: *mut u8,
            tick: u32,
            address: u8,
            control: u8,
            information: *const u8,
            size: usize,
            values: *mut usize,
        ) -> u32;
        pub fn bitbus_master_silence(end: *mut u8) -> u32;
        pub fn bitbus_master_restart(end: *mut u8) -> u32;
        pub fn bitbus_master_clear(end: *mut u8) -> u32;
        pub fn bitbus_record(capture: *const u8, size: usize, at: usize, values: *mut usize)
            -> u32;
        pub fn bitbus_list(
            capture: *const u8,
            size: usize,
            out: *mut u8,
            room: usize,
            values: *mut usize,
        ) -> u32;
    }
}

// ---- The line ----

#[inline]
pub fn check_word(bytes: &[u8]) -> u16 {
    unsafe { c::bitbus_check_word(bytes.as_ptr(), bytes.len()) }
}

#[inline]
pub fn message_check(message: &[u8]) -> u32 {
    unsafe { c::bitbus_message_check(message.as_ptr(), message.len()) }
}

#[inline]
pub fn write(
    address: u8,
    control: u8,
    information: &[u8],
    out: &mut [u8],
    values: &mut [usize; 2],
) -> u32 {
    let (information, size) = (information.as_ptr(), information.len());
    let (out, room) = (out.as_mut_ptr(), out.len());
    unsafe {
        c::bitbus_write(
            address,
            control,
            information,
            size,
            out,
            room,
            values.as_mut_ptr(),
        )
    }
}

#[inline]
pub fn read(buffer: &[u8], bits: usize, out: &mut [u8], values: &mut [usize; 3]) -> u32 {
    let (buffer, size) = (buffer.as_ptr(), buffer.len());
    let (out, room) = (out.as_mut_ptr(), out.len());
    unsafe { c::bitbus_read(buffer, size, bits, out, room, values.as_mut_ptr()) }
}

#[inline]
pub fn nrzi_encode(
    level: bool,
    input: &[u8],
    bits: usize,
    out: &mut [u8],
    values: &mut [usize; 1],
) -> u32 {
    let (input, size) = (input.as_ptr(), input.len());
    let (out, room) = (out.as_mut_ptr(), out.len());
    unsafe { c::bitbus_nrzi_encode(level, input, size, bits, out, room, values.as_mut_ptr()) }
}

#[inline]
pub fn nrzi_decode(
    level: bool,
    input: &[u8],
    bits: usize,
    out: &mut [u8],
    values: &mut [usize; 1],
) -> u32 {
    let (input, size) = (input.as_ptr(), input.len());
    let (out, room) = (out.as_mut_ptr(), out.len());
    unsafe { c::bitbus_nrzi_decode(level, input, size, bits, out, room, values.as_mut_ptr()) }
}

// ---- The slave's end ----

#[inline]
pub fn slave_make(end: &mut SlaveBytes, address: u8) -> u32 {
    unsafe { c::bitbus_slave_make(end.as_mut_ptr(), address) }
}

#[inline]
pub fn slave_put(end: &mut SlaveBytes, message: &[u8]) -> u32 {
    unsafe { c::bitbus_slave_put(end.as_mut_ptr(), message.as_ptr(), message.len()) }
}

#[inline]
pub fn slave_take(end: &mut SlaveBytes, out: &mut [u8], values: &mut [usize; 1]) -> u32 {
    unsafe {
        c::bitbus_slave_take(
            end.as_mut_ptr(),
            out.as_mut_ptr(),
            out.len(),
            values.as_mut_ptr(),
        )
    }
}

#[inline]
pub fn slave_step(
    end: &mut SlaveBytes,
    address: u8,
    control: u8,
    information: &[u8],
    out: &mut [u8],
    values: &mut [usize; 6],
) -> u32 {
    let (information, size) = (information.as_ptr(), information.len());
    let (end, out, room) = (end.as_mut_ptr(), out.as_mut_ptr(), out.len());
    unsafe {
        c::bitbus_slave_step(
            end,
            address,
            control,
            information,
            size,
            out,
            room,
            values.as_mut_ptr(),
        )
    }
}

#[inline]
pub fn slave_restart(end: &mut SlaveBytes) -> u32 {
    unsafe { c::bitbus_slave_restart(end.as_mut_ptr()) }
}

#[inline]
pub fn slave_clear(end: &mut SlaveBytes) -> u32 {
    unsafe { c::bitbus_slave_clear(end.as_mut_ptr()) }
}

// ---- The master's end ----

#[inline]
pub fn master_make(end: &mut MasterBytes, address: u8, limit: u32) -> u32 {
    unsafe { c::bitbus_master_make(end.as_mut_ptr(), address, limit) }
}

#[inline]
pub fn master_put(end: &mut MasterBytes, message: &[u8]) -> u32 {
    unsafe { c::bitbus_master_put(end.as_mut_ptr(), message.as_ptr(), message.len()) }
}

#[inline]
pub fn master_take(end: &mut MasterBytes, out: &mut [u8], values: &mut [usize; 1]) -> u32 {
    unsafe {
        c::bitbus_master_take(
            end.as_mut_ptr(),
            out.as_mut_ptr(),
            out.len(),
            values.as_mut_ptr(),
        )
    }
}

#[inline]
pub fn master_order(
    end: &mut MasterBytes,
    tick: u32,
    out: &mut [u8],
    values: &mut [usize; 3],
) -> u32 {
    unsafe {
        c::bitbus_master_order(
            end.as_mut_ptr(),
            tick,
            out.as_mut_ptr(),
            out.len(),
            values.as_mut_ptr(),
        )
    }
}

#[inline]
pub fn master_response(
    end: &mut MasterBytes,
    tick: u32,
    address: u8,
    control: u8,
    information: &[u8],
    values: &mut [usize; 4],
) -> u32 {
    let (information, size) = (information.as_ptr(), information.len());
    let end = end.as_mut_ptr();
    unsafe {
        c::bitbus_master_response(
            end,
            tick,
            address,
            control,
            information,
            size,
            values.as_mut_ptr(),
        )
    }
}

#[inline]
pub fn master_silence(end: &mut MasterBytes) -> u32 {
    unsafe { c::bitbus_master_silence(end.as_mut_ptr()) }
}

#[inline]
pub fn master_restart(end: &mut MasterBytes) -> u32 {
    unsafe { c::bitbus_master_restart(end.as_mut_ptr()) }
}

#[inline]
pub fn master_clear(end: &mut MasterBytes) -> u32 {
    unsafe { c::bitbus_master_clear(end.as_mut_ptr()) }
}

// ---- Captures ----

#[inline]
pub fn record(capture: &[u8], at: usize, values: &mut [usize; 5]) -> u32 {
    unsafe { c::bitbus_record(capture.as_ptr(), capture.len(), at, values.as_mut_ptr()) }
}

#[inline]
pub fn list(capture: &[u8], out: &mut [u8], values: &mut [usize; 1]) -> u32 {
    let (capture, size) = (capture.as_ptr(), capture.len());
    unsafe {
        c::bitbus_list(
            capture,
            size,
            out.as_mut_ptr(),
            out.len(),
            values.as_mut_ptr(),
        )
    }
}
