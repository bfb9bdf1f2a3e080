//! The futures of sends, receives and leases.

use crate::channel::{Channel, Listed, Side};
use crate::errors::{RecvError, SendError, TryRecvError, TrySendError};
use crate::lease::Lease;
use crate::priority::{self, Priority};
use std::fmt;
use std::future::Future;
use std::pin::Pin;
use std::task::{Context, Poll, Waker};

/// The place of a future in a waiting list, which it leaves when it is dropped.
struct Wait<'a, T, P> {
    channel: &'a Channel<T, P>,
    listed: Option<Listed>,
}

impl<'a, T, P> Wait<'a, T, P> {
    fn new(channel: &'a Channel<T, P>) -> Self {
        Wait {
            channel,
            listed: None,
        }
    }

    /// Tries, and if that has to wait lists the task in the same hold of the lock. While memory for
    /// that is refused, the task is to poll again.
    fn poll<R>(
        &mut self,
        cx: &mut Context<'_>,
        side: Side,
        attempt: impl FnOnce(&mut crate::channel::State<T, P>) -> Option<R>,
    ) -> Poll<R> {
        // Cloned and dropped while the lock is free.
        let mut waker: Option<Waker> = Some(cx.waker().clone());
        let mut old = None;
        let listed = &mut self.listed;
        let (answer, is_listed) = self.channel.hold(|state| match attempt(state) {
            Some(answer) => {
                old = state.leave(listed);
                (Some(answer), true)
            }
            None => (None, state.list(side, listed, &mut waker, &mut old)),
        });
        match answer {
            Some(answer) => Poll::Ready(answer),
            None => {
                if !is_listed {
                    cx.waker().wake_by_ref();
                }
                Poll::Pending
            }
        }
    }
}

impl<T, P> Drop for Wait<'_, T, P> {
    fn drop(&mut self) {
        if self.listed.is_some() {
            let listed = &mut self.listed;
            drop(self.channel.hold(|state| state.leave(listed)));
        }
    }
}

/// The future of [`Sender::send`](crate::Sender::send).
#[must_use = "a future does nothing before it is polled"]
pub struct Send<'a, T, P> {
    pub(crate) pair: Option<(T, P)>,
    wait: Wait<'a, T, P>,
}

// No part of it is pinned.
impl<T, P> Unpin for Send<'_, T, P> {}

impl<'a, T, P: Priority> Send<'a, T, P> {
    pub(crate) fn new(channel: &'a Channel<T, P>, pair: (T, P)) -> Self {
        Send {
            pair: Some(pair),
            wait: Wait::new(channel),
        }
    }
}

impl<T, P: Priority> Future for Send<'_, T, P> {
    type Output = Result<(), SendError<(T, P)>>;

    fn poll(self: Pin<&mut Self>, cx: &mut Context<'_>) -> Poll<Self::Output> {
        let this = self.get_mut();
        let words = priority::words(&this.pair.as_ref().expect("polled after it was ready").1);
        let kept = &mut this.pair;
        let mut is_out_of_memory = false;
        let polled = this.wait.poll(cx, Side::Room, |state| {
            let pair = kept.take()?;
            match state.send(pair, words) {
                Ok(()) => Some(Ok(())),
                Err(TrySendError::Closed(pair)) => Some(Err(SendError(pair))),
                Err(TrySendError::Full(pair)) => {
                    *kept = Some(pair);
                    None
                }
                Err(TrySendError::Memory(pair)) => {
                    *kept = Some(pair);
                    is_out_of_memory = true;
                    Some(Ok(()))
                }
            }
        });
        if is_out_of_memory {
            cx.waker().wake_by_ref();
            return Poll::Pending;
        }
        polled
    }
}

/// The future of [`Receiver::recv`](crate::Receiver::recv).
#[must_use = "a future does nothing before it is polled"]
pub struct Recv<'a, T, P> {
    wait: Wait<'a, T, P>,
}

impl<'a, T, P> Recv<'a, T, P> {
    pub(crate) fn new(channel: &'a Channel<T, P>) -> Self {
        Recv {
            wait: Wait::new(channel),
        }
    }
}

impl<T, P> Future for Recv<'_, T, P> {
    type Output = Result<(T, P), RecvError>;

    fn poll(self: Pin<&mut Self>, cx: &mut Context<'_>) -> Poll<Self::Output> {
        self.get_mut()
            .wait
            .poll(cx, Side::Message, |state| match state.recv() {
                Ok(pair) => Some(Ok(pair)),
                Err(TryRecvError::Closed) => Some(Err(RecvError)),
                Err(TryRecvError::Empty) => None,
            })
    }
}

/// The future of [`Receiver::lease`](crate::Receiver::lease).
#[must_use = "a future does nothing before it is polled"]
pub struct LeaseNext<'a, T, P> {
    wait: Wait<'a, T, P>,
}

impl<'a, T, P> LeaseNext<'a, T, P> {
    pub(crate) fn new(channel: &'a Channel<T, P>) -> Self {
        LeaseNext {
            wait: Wait::new(channel),
        }
    }
}

impl<'a, T, P> Future for LeaseNext<'a, T, P> {
    type Output = Result<Lease<'a, T, P>, RecvError>;

    fn poll(self: Pin<&mut Self>, cx: &mut Context<'_>) -> Poll<Self::Output> {
        let this = self.get_mut();
        let channel = this.wait.channel;
        this.wait.poll(cx, Side::Message, |state| {
            match Lease::take(channel, state) {
                Ok(lease) => Some(Ok(lease)),
                Err(TryRecvError::Closed) => Some(Err(RecvError)),
                Err(TryRecvError::Empty) => None,
            }
        })
    }
}

/// Waits until there is room, or the channel is closed.
pub(crate) struct Room<'a, T, P> {
    wait: Wait<'a, T, P>,
}

impl<'a, T, P> Room<'a, T, P> {
    pub(crate) fn new(channel: &'a Channel<T, P>) -> Self {
        Room {
            wait: Wait::new(channel),
        }
    }
}

impl<T, P> Future for Room<'_, T, P> {
    type Output = ();

    fn poll(self: Pin<&mut Self>, cx: &mut Context<'_>) -> Poll<()> {
        self.get_mut().wait.poll(cx, Side::Room, |state| {
            (state.core.is_closed() || !state.core.is_full()).then_some(())
        })
    }
}

macro_rules! debug {
    ($($name:ident)*) => { $(
        impl<T, P> fmt::Debug for $name<'_, T, P> {
            fn fmt(&self, f: &mut fmt::Formatter<'_>) -> fmt::Result {
                f.write_str(concat!(stringify!($name), " { .. }"))
            }
        }
    )* };
}
debug!(Send Recv LeaseNext);
