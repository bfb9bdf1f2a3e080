//! A channel for threads and tasks in which the most urgent message comes out first.
//!
//! The names are those of `async-priority-channel` 0.2.0. Below them is a proved core: the order of
//! the messages, the limit, the close, the held places, the counts of handles and the lists of
//! waiters. This crate keeps the messages and the wakers, and it has the lock. It is tested, and
//! not proved.
//!
//! ```
//! let (sender, receiver) = async_priority_channel::bounded(10);
//! sender.try_send("tidy up", 1)?;
//! sender.try_send("put out the fire", 9)?;
//! assert_eq!(receiver.recv_blocking(), Ok(("put out the fire", 9)));
//! # Ok::<(), async_priority_channel::TrySendError<(&str, i32)>>(())
//! ```
//!
//! Besides, a message can be leased ([`Receiver::try_lease`]), the channel can close once all is
//! done ([`Sender::close_when_done`]), and threads can wait, also for a limited time.
//!
//! No message is lost where memory is refused to the core or to the tables of this crate: it comes
//! back. Under the lock nothing of the caller's is dropped or called but the iterator of a bulk
//! send and the conversion of its priorities.

#![warn(missing_docs, rust_2018_idioms)]

mod blocking;
mod channel;
mod core;
mod errors;
mod handles;
mod lease;
mod memory;
mod priority;
mod slab;
mod sys;
mod waiters;
mod waits;

pub use crate::errors::{RecvError, SendError, TryRecvError, TrySendError};
pub use crate::handles::{Receiver, Sender};
pub use crate::lease::Lease;
pub use crate::priority::Priority;
pub use crate::waits::{LeaseNext, Recv, Send};

#[cfg(feature = "refuse")]
pub use crate::memory::refuse;

use crate::channel::Channel;
use std::sync::Arc;

/// A channel for at most `cap` pending messages.
///
/// # Panics
///
/// If `cap` is 0, or memory for the channel is refused.
pub fn bounded<T, P: Priority>(cap: u64) -> (Sender<T, P>, Receiver<T, P>) {
    assert!(cap > 0, "cap must be positive");
    handles::pair(Arc::new(Channel::open(core::Core::bounded(cap))))
}

/// A channel with memory in the core for `cap` messages, for good.
///
/// # Panics
///
/// If `cap` is 0, or 2^63 or more, or memory is refused.
pub fn bounded_reserved<T, P: Priority>(cap: u64) -> (Sender<T, P>, Receiver<T, P>) {
    assert!(
        cap > 0 && cap < 1 << 63,
        "cap must be positive and below 2^63"
    );
    handles::pair(Arc::new(Channel::open(core::Core::reserved(cap))))
}

/// A channel whose only limit is memory.
///
/// # Panics
///
/// If memory for the channel is refused.
pub fn unbounded<T, P: Priority>() -> (Sender<T, P>, Receiver<T, P>) {
    handles::pair(Arc::new(Channel::open(core::Core::unbounded())))
}
