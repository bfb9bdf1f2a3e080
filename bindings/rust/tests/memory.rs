//! Each request of the core for memory is refused in turn: no message is lost.
#![cfg(feature = "refuse")]

use async_priority_channel::{refuse, unbounded, TrySendError};
use std::future::Future;
use std::pin::pin;
use std::task::{Context, Poll, Waker};

#[test]
fn no_message_is_lost() {
    for granted in 0..12 {
        let (sender, receiver) = unbounded();
        refuse::after(granted);
        let mut accepted = 0;
        let mut refused = 0;
        for message in 0..40u64 {
            match sender.try_send(message, message) {
                Ok(()) => accepted += 1,
                Err(TrySendError::Memory(pair)) => {
                    assert_eq!(pair, (message, message));
                    refused += 1;
                }
                Err(other) => panic!("{other}"),
            }
            let list = [(message, 1), (message, 2)];
            match sender.try_sendv(list.into_iter().peekable()) {
                Ok(()) => accepted += 2,
                Err(TrySendError::Memory(rest)) => {
                    let rest = rest.count();
                    accepted += 2 - rest;
                    refused += rest;
                }
                Err(other) => panic!("{other}"),
            }
        }
        assert_eq!(accepted + refused, 120);
        assert_eq!(sender.len() as usize, accepted);
        // A future neither ends nor loses its message while memory is refused.
        let mut cx = Context::from_waker(Waker::noop());
        let mut send = pin!(sender.send(7, 7));
        let first = send.as_mut().poll(&mut cx);
        refuse::never();
        if first.is_pending() {
            assert_eq!(send.as_mut().poll(&mut cx), Poll::Ready(Ok(())));
        }
        let pending = std::iter::from_fn(|| receiver.try_recv().ok()).count();
        assert_eq!(pending, accepted + 1);
        // Nor does a receive.
        refuse::after(0);
        let mut recv = pin!(receiver.recv());
        assert!(recv.as_mut().poll(&mut cx).is_pending());
        refuse::never();
        sender.try_send(1, 1).unwrap();
        assert_eq!(recv.as_mut().poll(&mut cx), Poll::Ready(Ok((1, 1))));
    }
}
