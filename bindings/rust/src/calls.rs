//! The library's calls, as `include/juqhanep.h` has them.

use std::ffi::c_char;

#[repr(C)]
pub struct Handle {
    full: bool,
    at: *mut u8,
}

impl Handle {
    pub const NONE: Handle = Handle { full: false, at: std::ptr::null_mut() };
}

#[repr(C)]
#[derive(Default)]
pub struct Fault {
    pub cause: u32,
    pub a: u32,
    pub b: u32,
    pub length: usize,
}

#[repr(C)]
#[derive(Default)]
pub struct Event {
    pub kind: u32,
    pub peer: u32,
    pub to: u32,
    pub number: u32,
    pub plan: u32,
    pub length: usize,
}

extern "C" {
    #[rustfmt::skip]
    pub fn juq_open(h: *mut Handle, layers: *const u8, length: usize, bypass: bool, group: u32, stamp: u32, members: u8, me: u8, fault: *mut Fault, sentence: *mut u8, room: usize) -> u32;
    pub fn juq_cast(h: *mut Handle, body: *const u8, length: usize) -> u32;
    pub fn juq_send(h: *mut Handle, rank: u32, body: *const u8, length: usize) -> u32;
    pub fn juq_leave(h: *mut Handle) -> u32;
    pub fn juq_tick(h: *mut Handle, moment: u32) -> u32;
    pub fn juq_receive(h: *mut Handle, datagram: *const u8, length: usize) -> u32;
    pub fn juq_next(h: *mut Handle, event: *mut Event, room: *mut u8, size: usize) -> u32;
    pub fn juq_close(h: *mut Handle) -> u32;
    pub fn juq_version() -> *const c_char;
}
