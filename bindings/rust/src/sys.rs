//! The exports of `crates/priority_channel_c`, as `bindings/c/apc.h` declares them. The proof says
//! nothing of these declarations.

use std::ffi::c_void;

#[repr(C)]
pub struct Handle {
    pub at: *mut c_void,
}

impl Handle {
    pub const EMPTY: Handle = Handle {
        at: std::ptr::null_mut(),
    };
}

#[repr(C)]
#[derive(Clone, Copy, Debug, PartialEq, Eq, PartialOrd, Ord)]
pub struct Words {
    pub high: u64,
    pub low: u64,
}

#[repr(C)]
#[derive(Clone, Copy)]
pub struct Reply {
    pub code: u32,
    pub has_due: bool,
    pub ticket: u64,
    pub message: u64,
    pub priority: Words,
}

#[repr(C)]
#[derive(Clone, Copy)]
pub struct Waiter {
    pub waker: u64,
    pub has_ticket: bool,
    pub ticket: u64,
}

pub const DONE: u32 = 0;
pub const FULL: u32 = 1;
pub const CLOSED: u32 = 3;
pub const MEMORY: u32 = 4;
pub const PENDING: u32 = 5;

#[allow(improper_ctypes)]
unsafe extern "C" {
    pub fn apc_open_bounded(out: *mut Handle, capacity: u64) -> u32;
    pub fn apc_open_reserved(out: *mut Handle, capacity: u64) -> u32;
    pub fn apc_open_unbounded(out: *mut Handle) -> u32;
    pub fn apc_free(handle: Handle, out: *mut Handle) -> u32;
    pub fn apc_try_send(handle: Handle, out: *mut Handle, message: u64, priority: Words) -> Reply;
    pub fn apc_try_recv(handle: Handle, out: *mut Handle) -> Reply;
    pub fn apc_poll_send(
        handle: Handle,
        out: *mut Handle,
        message: u64,
        priority: Words,
        waiter: Waiter,
    ) -> Reply;
    pub fn apc_poll_recv(handle: Handle, out: *mut Handle, waiter: Waiter) -> Reply;
    pub fn apc_give_up(handle: Handle, out: *mut Handle, ticket: u64) -> Reply;
    pub fn apc_try_reserve(handle: Handle, out: *mut Handle) -> Reply;
    pub fn apc_try_lease(handle: Handle, out: *mut Handle) -> Reply;
    pub fn apc_put(handle: Handle, out: *mut Handle, message: u64, priority: Words) -> Reply;
    pub fn apc_free_place(handle: Handle, out: *mut Handle) -> Reply;
    pub fn apc_close(handle: Handle, out: *mut Handle) -> Reply;
    pub fn apc_close_when_done(handle: Handle, out: *mut Handle) -> Reply;
    pub fn apc_clone_sender(handle: Handle, out: *mut Handle) -> Reply;
    pub fn apc_clone_receiver(handle: Handle, out: *mut Handle) -> Reply;
    pub fn apc_drop_sender(handle: Handle, out: *mut Handle) -> Reply;
    pub fn apc_drop_receiver(handle: Handle, out: *mut Handle) -> Reply;
    pub fn apc_next_due(handle: Handle, out: *mut Handle, waker: *mut u64) -> bool;
    pub fn apc_len(handle: Handle, out: *mut Handle) -> u64;
    pub fn apc_capacity(handle: Handle, out: *mut Handle) -> u64;
    pub fn apc_is_full(handle: Handle, out: *mut Handle) -> bool;
    pub fn apc_is_closed(handle: Handle, out: *mut Handle) -> bool;
    pub fn apc_sender_count(handle: Handle, out: *mut Handle) -> usize;
    pub fn apc_receiver_count(handle: Handle, out: *mut Handle) -> usize;
}
