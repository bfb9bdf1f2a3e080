//! What the handles share: the core, the messages and the wakers, under a lock.

use crate::core::Core;
use crate::errors::{TryRecvError, TrySendError};
use crate::slab::Slab;
use crate::sys::{self, Reply, Waiter, Words};
use crate::waiters::Waiters;
use std::sync::{Mutex, MutexGuard, PoisonError};
use std::task::Waker;

/// What is under the lock.
pub struct State<T, P> {
    pub core: Core,
    pub pairs: Slab<(T, P)>,
    waiters: Waiters,
}

/// A task that is listed: its ticket in the core, and the key of its waker.
#[derive(Clone, Copy)]
pub struct Listed {
    ticket: u64,
    key: u64,
}

/// On which side a task waits.
#[derive(Clone, Copy)]
pub enum Side {
    Room,
    Message,
}

pub struct Channel<T, P> {
    state: Mutex<State<T, P>>,
}

impl<T, P> State<T, P> {
    /// Notes whom the call woke.
    #[inline]
    pub fn told(&mut self, reply: Reply) -> Reply {
        if reply.has_due {
            while let Some(key) = self.core.next_due() {
                self.waiters.mark_due(key);
            }
        }
        reply
    }

    fn refusal(&mut self, pair: (T, P)) -> TrySendError<(T, P)> {
        if self.core.is_closed() {
            TrySendError::Closed(pair)
        } else if self.core.is_full() {
            TrySendError::Full(pair)
        } else {
            TrySendError::Memory(pair)
        }
    }

    #[inline]
    pub fn send(&mut self, pair: (T, P), words: Words) -> Result<(), TrySendError<(T, P)>> {
        let key = match self.pairs.insert(pair) {
            Ok(key) => key,
            Err(pair) => return Err(self.refusal(pair)),
        };
        let reply = self.core.try_send(key, words);
        match self.told(reply).code {
            sys::DONE => Ok(()),
            sys::CLOSED => Err(TrySendError::Closed(self.pairs.remove(key))),
            sys::FULL => Err(TrySendError::Full(self.pairs.remove(key))),
            _ => Err(TrySendError::Memory(self.pairs.remove(key))),
        }
    }

    #[inline]
    pub fn recv(&mut self) -> Result<(T, P), TryRecvError> {
        let reply = self.core.try_recv();
        match self.told(reply).code {
            sys::DONE => Ok(self.pairs.remove(reply.message)),
            sys::CLOSED => Err(TryRecvError::Closed),
            _ => Err(TryRecvError::Empty),
        }
    }

    /// Lists a task that has to wait: for room in a full channel, or for a message in an empty one.
    /// False if memory is refused; then it is in no list. What has to be dropped once the lock is
    /// free is left in `waker` and in `old`.
    pub fn list(
        &mut self,
        side: Side,
        listed: &mut Option<Listed>,
        waker: &mut Option<Waker>,
        old: &mut Option<Waker>,
    ) -> bool {
        let Some(key) = self.waiters.keep(listed.map(|listed| listed.key), waker) else {
            *old = self.leave(listed);
            return false;
        };
        let waiter = Waiter {
            waker: key,
            has_ticket: listed.is_some(),
            ticket: listed.map_or(0, |listed| listed.ticket),
        };
        let reply = match side {
            // The channel is full, so this pair is not accepted.
            Side::Room => self.core.poll_send(0, Words { high: 0, low: 0 }, waiter),
            Side::Message => self.core.poll_recv(waiter),
        };
        debug_assert!(reply.code == sys::PENDING || reply.code == sys::MEMORY);
        *listed = (reply.code == sys::PENDING).then_some(Listed {
            ticket: reply.ticket,
            key,
        });
        if listed.is_none() {
            *old = self.waiters.remove(key);
        }
        listed.is_some()
    }

    /// Takes a task off the lists. Its waker is to be dropped once the lock is free.
    pub fn leave(&mut self, listed: &mut Option<Listed>) -> Option<Waker> {
        let listed = listed.take()?;
        self.core.give_up(listed.ticket);
        self.waiters.remove(listed.key)
    }
}

impl<T, P> Channel<T, P> {
    pub fn open(core: Core) -> Self {
        Channel {
            state: Mutex::new(State {
                core,
                pairs: Slab::new(),
                waiters: Waiters::new(),
            }),
        }
    }

    #[inline]
    fn lock(&self) -> MutexGuard<'_, State<T, P>> {
        self.state.lock().unwrap_or_else(PoisonError::into_inner)
    }

    /// Makes calls under the lock. Whoever is woken by them is woken once it is free.
    #[inline]
    pub fn hold<R>(&self, call: impl FnOnce(&mut State<T, P>) -> R) -> R {
        let mut state = self.lock();
        let answer = call(&mut state);
        let (waker, is_more) = state.waiters.next_due();
        drop(state);
        if let Some(waker) = waker {
            waker.wake();
            if is_more {
                self.wake_others();
            }
        }
        answer
    }

    fn wake_others(&self) {
        loop {
            let (waker, _) = self.lock().waiters.next_due();
            match waker {
                Some(waker) => waker.wake(),
                None => return,
            }
        }
    }
}
