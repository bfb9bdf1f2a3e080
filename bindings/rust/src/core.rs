//! The core's calls, safe to make: one owner, and no call after the end.

use crate::sys::{self, Handle, Reply, Waiter, Words};

/// An open channel of the core.
pub struct Core {
    handle: Handle,
}

// SAFETY: the core is proved to be `Send`: it keeps nothing of a thread's, and any thread may free
// its memory.
unsafe impl Send for Core {}

macro_rules! calls {
    ($($call:ident = $export:ident ( $($name:ident : $type:ty),* ) -> $result:ty;)*) => { $(
        #[inline]
        pub fn $call(&mut self $(, $name: $type)*) -> $result {
            let open = std::mem::replace(&mut self.handle, Handle::EMPTY);
            // SAFETY: the handle is open, and only this call has it. The place to which it comes
            // back is empty.
            unsafe { sys::$export(open, &mut self.handle $(, $name)*) }
        }
    )* };
}

impl Core {
    pub fn bounded(capacity: u64) -> Core {
        // SAFETY: the handle is empty.
        Core::open(|out| unsafe { sys::apc_open_bounded(out, capacity) })
    }

    pub fn reserved(capacity: u64) -> Core {
        // SAFETY: the handle is empty.
        Core::open(|out| unsafe { sys::apc_open_reserved(out, capacity) })
    }

    pub fn unbounded() -> Core {
        // SAFETY: the handle is empty.
        Core::open(|out| unsafe { sys::apc_open_unbounded(out) })
    }

    fn open(call: impl FnOnce(&mut Handle) -> u32) -> Core {
        let mut handle = Handle::EMPTY;
        let code = call(&mut handle);
        assert_eq!(code, sys::DONE, "no memory for a channel");
        Core { handle }
    }

    calls! {
        try_send = apc_try_send(message: u64, priority: Words) -> Reply;
        try_recv = apc_try_recv() -> Reply;
        poll_send = apc_poll_send(message: u64, priority: Words, waiter: Waiter) -> Reply;
        poll_recv = apc_poll_recv(waiter: Waiter) -> Reply;
        give_up = apc_give_up(ticket: u64) -> Reply;
        try_reserve = apc_try_reserve() -> Reply;
        try_lease = apc_try_lease() -> Reply;
        put = apc_put(message: u64, priority: Words) -> Reply;
        free_place = apc_free_place() -> Reply;
        close = apc_close() -> Reply;
        close_when_done = apc_close_when_done() -> Reply;
        clone_sender = apc_clone_sender() -> Reply;
        clone_receiver = apc_clone_receiver() -> Reply;
        drop_sender = apc_drop_sender() -> Reply;
        drop_receiver = apc_drop_receiver() -> Reply;
        len = apc_len() -> u64;
        capacity = apc_capacity() -> u64;
        is_full = apc_is_full() -> bool;
        is_closed = apc_is_closed() -> bool;
        sender_count = apc_sender_count() -> usize;
        receiver_count = apc_receiver_count() -> usize;
    }

    /// Fetches a waker that is due.
    pub fn next_due(&mut self) -> Option<u64> {
        let mut waker = 0;
        let open = std::mem::replace(&mut self.handle, Handle::EMPTY);
        // SAFETY: as in `calls`.
        unsafe { sys::apc_next_due(open, &mut self.handle, &mut waker) }.then_some(waker)
    }
}

impl Drop for Core {
    fn drop(&mut self) {
        while self.next_due().is_some() {}
        let open = std::mem::replace(&mut self.handle, Handle::EMPTY);
        // SAFETY: the handle is open, and nobody is due.
        unsafe { sys::apc_free(open, &mut self.handle) };
    }
}
