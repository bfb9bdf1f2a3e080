//! The names, the replies and the texts of async-priority-channel 0.2.0.

use async_priority_channel::{
    bounded, unbounded, Receiver, RecvError, SendError, Sender, TryRecvError, TrySendError,
};
use std::future::Future;
use std::pin::{pin, Pin};
use std::task::{Context, Poll, Waker};

fn poll<F: Future>(future: Pin<&mut F>) -> Poll<F::Output> {
    future.poll(&mut Context::from_waker(Waker::noop()))
}

fn ready<F: Future>(future: F) -> F::Output {
    match poll(pin!(future)) {
        Poll::Ready(answer) => answer,
        Poll::Pending => panic!("it would wait"),
    }
}

#[test]
fn messages_come_by_priority_and_then_in_order() {
    let (sender, receiver) = unbounded();
    for (message, priority) in [("a", 1), ("b", 9), ("c", -3), ("d", 9), ("e", 1)] {
        assert_eq!(sender.try_send(message, priority), Ok(()));
    }
    let got: Vec<_> = std::iter::from_fn(|| receiver.try_recv().ok()).collect();
    assert_eq!(got, [("b", 9), ("d", 9), ("a", 1), ("e", 1), ("c", -3)]);
    assert_eq!(receiver.try_recv(), Err(TryRecvError::Empty));
}

#[test]
fn a_full_channel_gives_the_message_back() {
    let (sender, receiver) = bounded(1);
    assert_eq!((sender.capacity(), receiver.capacity()), (Some(1), Some(1)));
    assert_eq!(sender.try_send(String::from("a"), 1), Ok(()));
    assert!(sender.is_full() && receiver.is_full() && !sender.is_empty());
    let refused = sender.try_send(String::from("b"), 2).unwrap_err();
    assert!(refused.is_full() && !refused.is_closed());
    assert_eq!(refused.into_inner(), (String::from("b"), 2));
    assert_eq!(receiver.len(), 1);
}

#[test]
fn a_closed_channel_gives_the_message_back_and_empties() {
    let (sender, receiver) = bounded(1);
    assert_eq!(ready(sender.send("a", 1)), Ok(()));
    assert!(sender.close() && !receiver.close() && receiver.is_closed());
    // Closed comes before full.
    assert_eq!(sender.try_send("b", 2), Err(TrySendError::Closed(("b", 2))));
    assert_eq!(ready(sender.send("b", 2)), Err(SendError(("b", 2))));
    assert_eq!(ready(receiver.recv()), Ok(("a", 1)));
    assert_eq!(ready(receiver.recv()), Err(RecvError));
    assert_eq!(receiver.try_recv(), Err(TryRecvError::Closed));
}

#[test]
fn handles_are_counted_and_the_last_one_closes() {
    let (sender, receiver): (Sender<u8, u8>, Receiver<u8, u8>) = unbounded();
    assert_eq!(sender.capacity(), None);
    let (second, other) = (sender.clone(), receiver.clone());
    assert_eq!((sender.sender_count(), sender.receiver_count()), (2, 2));
    drop(sender);
    assert!(!second.is_closed());
    drop(second);
    assert!(receiver.is_closed());
    assert_eq!((other.sender_count(), other.receiver_count()), (0, 2));
    let (sender, receiver): (Sender<u8, u8>, Receiver<u8, u8>) = unbounded();
    drop(receiver);
    assert_eq!(sender.try_send(1, 1), Err(TrySendError::Closed((1, 1))));
}

#[test]
fn a_bulk_send_gives_back_what_had_no_room() {
    let (sender, receiver) = bounded(2);
    let refused = sender
        .try_sendv([("a", 1), ("b", 2), ("c", 3)].into_iter().peekable())
        .unwrap_err();
    assert!(refused.is_full());
    assert_eq!(refused.into_inner().collect::<Vec<_>>(), [("c", 3)]);
    assert_eq!(receiver.try_recv(), Ok(("b", 2)));
    assert!(sender.try_sendv([("d", 4)].into_iter().peekable()).is_ok());
    let mut rest = pin!(sender.sendv([("e", 5), ("f", 6)].into_iter().peekable()));
    assert!(poll(rest.as_mut()).is_pending());
    assert_eq!(receiver.try_recv(), Ok(("d", 4)));
    assert!(poll(rest.as_mut()).is_pending());
    sender.close();
    let Poll::Ready(Err(SendError(unsent))) = poll(rest.as_mut()) else {
        panic!("the channel is closed")
    };
    assert_eq!(unsent.collect::<Vec<_>>(), [("f", 6)]);
    assert_eq!(receiver.len(), 2);
}

#[test]
fn texts() {
    let show = |error: &dyn std::error::Error| format!("{error} / {error:?}");
    let wanted = [
        (
            show(&TrySendError::Full(1)),
            "sending into a full channel / Full(..)",
        ),
        (
            show(&TrySendError::Closed(1)),
            "sending into a closed channel / Closed(..)",
        ),
        (
            show(&SendError(1)),
            "sending into a closed channel / SendError(..)",
        ),
        (
            show(&TryRecvError::Empty),
            "receiving from an empty channel / Empty",
        ),
        (
            show(&TryRecvError::Closed),
            "receiving from an empty and closed channel / Closed",
        ),
        (
            show(&RecvError),
            "receiving from an empty and closed channel / RecvError",
        ),
    ];
    for (text, wanted) in wanted {
        assert_eq!(text, wanted);
    }
}

#[test]
#[should_panic(expected = "cap must be positive")]
fn no_capacity() {
    let _ = bounded::<u8, u8>(0);
}

#[test]
fn handles_and_futures_cross_threads() {
    fn crosses<T: Send>(_: &T) {}
    let (sender, receiver) = bounded::<Vec<u8>, u8>(1);
    crosses(&(sender.clone(), receiver.clone()));
    crosses(&sender.send(vec![], 1));
    crosses(&receiver.recv());
    crosses(&sender.sendv(Vec::new().into_iter().peekable()));
}
