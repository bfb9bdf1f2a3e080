//! The two sides of a channel.

use crate::blocking::block_on;
use crate::channel::{Channel, State};
use crate::errors::{RecvError, SendError, TryRecvError, TrySendError};
use crate::lease::Lease;
use crate::priority::{self, Priority};
use crate::sys;
use crate::waits::{LeaseNext, Recv, Room, Send};
use std::fmt;
use std::iter::Peekable;
use std::sync::Arc;
use std::time::{Duration, Instant};

/// The send side. The last one that is dropped closes the channel.
pub struct Sender<T, P> {
    channel: Arc<Channel<T, P>>,
}

/// The receive side. The last one that is dropped closes the channel.
pub struct Receiver<T, P> {
    channel: Arc<Channel<T, P>>,
}

pub fn pair<T, P>(channel: Arc<Channel<T, P>>) -> (Sender<T, P>, Receiver<T, P>) {
    let sender = Sender {
        channel: channel.clone(),
    };
    (sender, Receiver { channel })
}

macro_rules! handle {
    ($side:ident, $clone:ident, $drop:ident) => {
        impl<T, P> Drop for $side<T, P> {
            fn drop(&mut self) {
                self.channel.hold(|state| {
                    let reply = state.core.$drop();
                    state.told(reply);
                });
            }
        }

        impl<T, P> Clone for $side<T, P> {
            /// Panics if there are more than `usize::MAX / 2`.
            fn clone(&self) -> Self {
                let reply = self.channel.hold(|state| state.core.$clone());
                assert_eq!(reply.code, sys::DONE, "too many handles");
                $side {
                    channel: self.channel.clone(),
                }
            }
        }

        impl<T, P> fmt::Debug for $side<T, P> {
            fn fmt(&self, f: &mut fmt::Formatter<'_>) -> fmt::Result {
                f.write_str(concat!(stringify!($side), " { .. }"))
            }
        }

        impl<T, P> $side<T, P> {
            /// Closes the channel for good. True if it was open.
            pub fn close(&self) -> bool {
                self.channel.hold(|state| {
                    let reply = state.core.close();
                    state.told(reply).code == sys::DONE
                })
            }

            /// From now on the channel closes once nothing is pending or leased, which may be at
            /// once.
            pub fn close_when_done(&self) {
                self.channel.hold(|state| {
                    let reply = state.core.close_when_done();
                    state.told(reply);
                });
            }

            /// Whether the channel is closed.
            pub fn is_closed(&self) -> bool {
                self.channel.hold(|state| state.core.is_closed())
            }

            /// Whether nothing is pending.
            pub fn is_empty(&self) -> bool {
                self.len() == 0
            }

            /// Whether there is no room.
            pub fn is_full(&self) -> bool {
                self.channel.hold(|state| state.core.is_full())
            }

            /// The number of pending messages.
            pub fn len(&self) -> u64 {
                self.channel.hold(|state| state.core.len())
            }

            /// The greatest number of pending messages, if it is limited.
            pub fn capacity(&self) -> Option<u64> {
                match self.channel.hold(|state| state.core.capacity()) {
                    u64::MAX => None,
                    capacity => Some(capacity),
                }
            }

            /// The number of receivers.
            pub fn receiver_count(&self) -> usize {
                self.channel.hold(|state| state.core.receiver_count())
            }

            /// The number of senders.
            pub fn sender_count(&self) -> usize {
                self.channel.hold(|state| state.core.sender_count())
            }
        }
    };
}
handle!(Sender, clone_sender, drop_sender);
handle!(Receiver, clone_receiver, drop_receiver);

fn after(limit: Duration) -> Option<Instant> {
    Instant::now().checked_add(limit)
}

/// Sends one more pair of a list, which is there. Nothing of the caller's runs between the place
/// that is held and the pair that goes into it.
fn send_next<T, P: Priority, I: Iterator<Item = (T, P)>>(
    state: &mut State<T, P>,
    msgs: &mut Peekable<I>,
) -> Result<(), u32> {
    let Some((_, priority)) = msgs.peek() else {
        return Ok(());
    };
    let words = priority::words(priority);
    let reserved = state.core.try_reserve();
    if reserved.code != sys::DONE {
        return Err(reserved.code);
    }
    if !state.pairs.reserve() {
        let reply = state.core.free_place();
        state.told(reply);
        return Err(sys::MEMORY);
    }
    let next = msgs.next().and_then(|pair| state.pairs.insert(pair).ok());
    let key = next.expect("it was peeked, and its slot is there");
    let reply = state.core.put(key, words);
    debug_assert_eq!(reply.code, sys::DONE);
    state.told(reply);
    Ok(())
}

impl<T, P: Priority> Sender<T, P> {
    /// Sends a message, if the channel is open and has room.
    ///
    /// # Errors
    ///
    /// The message comes back: `Closed`, `Full` or `Memory`, which are checked in this order.
    pub fn try_send(&self, msg: T, priority: P) -> Result<(), TrySendError<(T, P)>> {
        let words = priority::words(&priority);
        self.channel
            .hold(|state| state.send((msg, priority), words))
    }

    /// Sends as many messages as there is room for, while nobody else sends. The iterator runs
    /// under the lock: it may not use this channel.
    ///
    /// # Errors
    ///
    /// What was not sent comes back. An empty list is refused by a closed channel and by a full
    /// one.
    pub fn try_sendv<I>(&self, mut msgs: Peekable<I>) -> Result<(), TrySendError<Peekable<I>>>
    where
        I: Iterator<Item = (T, P)>,
    {
        self.channel.hold(|state| {
            if state.core.is_closed() {
                return Err(TrySendError::Closed(msgs));
            }
            if state.core.is_full() {
                return Err(TrySendError::Full(msgs));
            }
            while msgs.peek().is_some() {
                match send_next(state, &mut msgs) {
                    Ok(()) => {}
                    Err(sys::FULL) => return Err(TrySendError::Full(msgs)),
                    Err(sys::CLOSED) => return Err(TrySendError::Closed(msgs)),
                    Err(_) => return Err(TrySendError::Memory(msgs)),
                }
            }
            Ok(())
        })
    }

    /// Sends a message, and waits while there is no room. While memory is refused, the future asks
    /// to be polled again.
    ///
    /// # Errors
    ///
    /// The channel is closed, and the message comes back.
    pub fn send(&self, msg: T, priority: P) -> Send<'_, T, P> {
        Send::new(&self.channel, (msg, priority))
    }

    /// Sends messages, and waits while there is no room.
    ///
    /// # Errors
    ///
    /// The channel is closed, and what was not sent comes back.
    pub async fn sendv<I>(&self, msgs: Peekable<I>) -> Result<(), SendError<Peekable<I>>>
    where
        I: Iterator<Item = (T, P)>,
    {
        let mut left = msgs;
        loop {
            left = match self.try_sendv(left) {
                Ok(()) => return Ok(()),
                Err(TrySendError::Closed(msgs)) => return Err(SendError(msgs)),
                Err(TrySendError::Full(msgs)) => msgs,
                Err(TrySendError::Memory(msgs)) => {
                    yield_once().await;
                    msgs
                }
            };
            Room::new(&self.channel).await;
        }
    }

    /// As [`send`](Sender::send), and blocks the thread.
    ///
    /// # Errors
    ///
    /// The channel is closed, and the message comes back.
    pub fn send_blocking(&self, msg: T, priority: P) -> Result<(), SendError<(T, P)>> {
        // A try costs no waker.
        match self.try_send(msg, priority) {
            Ok(()) => Ok(()),
            Err(TrySendError::Closed(pair)) => Err(SendError(pair)),
            Err(TrySendError::Full((msg, priority)) | TrySendError::Memory((msg, priority))) => {
                block_on(self.send(msg, priority), None).expect("there is no time limit")
            }
        }
    }

    /// As [`send`](Sender::send), and blocks the thread for a limited time.
    ///
    /// # Errors
    ///
    /// The message comes back: `Closed`, or `Full` if the time is over.
    pub fn send_timeout(
        &self,
        msg: T,
        priority: P,
        limit: Duration,
    ) -> Result<(), TrySendError<(T, P)>> {
        let mut send = self.send(msg, priority);
        match block_on(&mut send, after(limit)) {
            Some(Ok(())) => Ok(()),
            Some(Err(SendError(pair))) => Err(TrySendError::Closed(pair)),
            None => {
                let pair = send.pair.take().expect("it was not sent");
                Err(TrySendError::Full(pair))
            }
        }
    }
}

/// Lets other tasks run.
async fn yield_once() {
    let mut is_first = true;
    std::future::poll_fn(|cx| {
        if !std::mem::take(&mut is_first) {
            return std::task::Poll::Ready(());
        }
        cx.waker().wake_by_ref();
        std::task::Poll::Pending
    })
    .await;
}

impl<T, P> Receiver<T, P> {
    /// Receives the most urgent message, and among equals the first.
    ///
    /// # Errors
    ///
    /// `Empty`, or `Closed` if nothing will come.
    pub fn try_recv(&self) -> Result<(T, P), TryRecvError> {
        self.channel.hold(State::recv)
    }

    /// As [`try_recv`](Receiver::try_recv), and waits while the channel is empty.
    ///
    /// # Errors
    ///
    /// The channel is empty and closed.
    pub fn recv(&self) -> Recv<'_, T, P> {
        Recv::new(&self.channel)
    }

    /// As [`recv`](Receiver::recv), and blocks the thread.
    ///
    /// # Errors
    ///
    /// The channel is empty and closed.
    pub fn recv_blocking(&self) -> Result<(T, P), RecvError> {
        match self.try_recv() {
            Ok(pair) => Ok(pair),
            Err(TryRecvError::Closed) => Err(RecvError),
            Err(TryRecvError::Empty) => {
                block_on(self.recv(), None).expect("there is no time limit")
            }
        }
    }

    /// As [`recv`](Receiver::recv), and blocks the thread for a limited time.
    ///
    /// # Errors
    ///
    /// `Closed`, or `Empty` if the time is over.
    pub fn recv_timeout(&self, limit: Duration) -> Result<(T, P), TryRecvError> {
        match block_on(self.recv(), after(limit)) {
            Some(Ok(pair)) => Ok(pair),
            Some(Err(RecvError)) => Err(TryRecvError::Closed),
            None => Err(TryRecvError::Empty),
        }
    }

    /// Receives a message, and holds its place until the lease ends.
    ///
    /// # Errors
    ///
    /// As [`try_recv`](Receiver::try_recv).
    pub fn try_lease(&self) -> Result<Lease<'_, T, P>, TryRecvError> {
        self.channel.hold(|state| Lease::take(&self.channel, state))
    }

    /// As [`try_lease`](Receiver::try_lease), and waits while the channel is empty.
    ///
    /// # Errors
    ///
    /// The channel is empty and closed, and nothing is leased.
    pub fn lease(&self) -> LeaseNext<'_, T, P> {
        LeaseNext::new(&self.channel)
    }

    /// As [`lease`](Receiver::lease), and blocks the thread.
    ///
    /// # Errors
    ///
    /// The channel is empty and closed, and nothing is leased.
    pub fn lease_blocking(&self) -> Result<Lease<'_, T, P>, RecvError> {
        block_on(self.lease(), None).expect("there is no time limit")
    }
}
