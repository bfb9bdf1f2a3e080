//! A message in hand whose place in the channel stays held.

use crate::channel::{Channel, State};
use crate::errors::TryRecvError;
use crate::sys::{self, Words};
use std::fmt;

/// A message in hand. When it is dropped without [`finish`](Lease::finish), the message goes back
/// into the channel, behind its equals, also if that is closed.
///
/// While it lives, its place counts against the capacity, and a channel that closes when all is
/// done does not close.
#[must_use = "a lease that is dropped puts its message back"]
pub struct Lease<'a, T, P> {
    channel: &'a Channel<T, P>,
    /// The message's key, which is kept for its return.
    key: u64,
    words: Words,
    pair: Option<(T, P)>,
}

impl<'a, T, P> Lease<'a, T, P> {
    pub(crate) fn take(
        channel: &'a Channel<T, P>,
        state: &mut State<T, P>,
    ) -> Result<Self, TryRecvError> {
        let reply = state.core.try_lease();
        match reply.code {
            sys::DONE => Ok(Lease {
                channel,
                key: reply.message,
                words: reply.priority,
                pair: Some(state.pairs.lend(reply.message)),
            }),
            sys::CLOSED => Err(TryRecvError::Closed),
            // With 2^64 - 1 messages accepted there is no number for the return; none ever is.
            _ => Err(TryRecvError::Empty),
        }
    }

    fn pair(&self) -> &(T, P) {
        self.pair.as_ref().expect("it goes only with the lease")
    }

    /// The message.
    pub fn message(&self) -> &T {
        &self.pair().0
    }

    /// Its priority.
    pub fn priority(&self) -> &P {
        &self.pair().1
    }

    /// Keeps the message, and frees its place.
    pub fn finish(mut self) -> (T, P) {
        let pair = self.pair.take().expect("it goes only with the lease");
        let key = self.key;
        self.channel.hold(|state| {
            state.pairs.forget(key);
            let reply = state.core.free_place();
            state.told(reply);
        });
        pair
    }
}

impl<T, P> Drop for Lease<'_, T, P> {
    fn drop(&mut self) {
        if let Some(pair) = self.pair.take() {
            let (key, words) = (self.key, self.words);
            self.channel.hold(|state| {
                state.pairs.put_back(key, pair);
                let reply = state.core.put(key, words);
                debug_assert_eq!(reply.code, sys::DONE);
                state.told(reply);
            });
        }
    }
}

impl<T: fmt::Debug, P: fmt::Debug> fmt::Debug for Lease<'_, T, P> {
    fn fmt(&self, f: &mut fmt::Formatter<'_>) -> fmt::Result {
        f.debug_tuple("Lease")
            .field(self.message())
            .field(self.priority())
            .finish()
    }
}
