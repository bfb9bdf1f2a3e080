//! Futures, wakers, leases and threads.

use async_priority_channel::{bounded, unbounded, RecvError, TryRecvError, TrySendError};
use std::collections::HashSet;
use std::future::Future;
use std::pin::{pin, Pin};
use std::sync::atomic::{AtomicUsize, Ordering};
use std::sync::Arc;
use std::task::{Context, Poll, Wake, Waker};
use std::thread;
use std::time::Duration;

#[derive(Default)]
struct Count(AtomicUsize);

impl Wake for Count {
    fn wake(self: Arc<Self>) {
        self.0.fetch_add(1, Ordering::SeqCst);
    }
}

struct Task {
    woken: Arc<Count>,
    waker: Waker,
}

impl Task {
    fn new() -> Task {
        let woken = Arc::new(Count::default());
        Task {
            waker: Waker::from(woken.clone()),
            woken,
        }
    }

    fn poll<F: Future>(&self, future: Pin<&mut F>) -> Poll<F::Output> {
        future.poll(&mut Context::from_waker(&self.waker))
    }

    fn wakes(&self) -> usize {
        self.woken.0.load(Ordering::SeqCst)
    }
}

#[test]
fn a_message_wakes_all_who_wait_and_the_first_gets_it() {
    let (sender, receiver) = unbounded();
    let tasks = [Task::new(), Task::new(), Task::new()];
    let mut waits: Vec<_> = tasks.iter().map(|_| Box::pin(receiver.recv())).collect();
    for (task, wait) in tasks.iter().zip(&mut waits) {
        assert!(task.poll(wait.as_mut()).is_pending());
    }
    sender.try_send("a", 1).unwrap();
    assert!(tasks.iter().all(|task| task.wakes() == 1));
    assert_eq!(tasks[1].poll(waits[1].as_mut()), Poll::Ready(Ok(("a", 1))));
    assert!(tasks[0].poll(waits[0].as_mut()).is_pending());
    sender.close();
    assert_eq!(
        tasks[0].poll(waits[0].as_mut()),
        Poll::Ready(Err(RecvError))
    );
    assert_eq!(tasks[0].wakes(), 2);
    // It was not polled since its wake, so it is in no list.
    assert_eq!(tasks[2].wakes(), 1);
}

#[test]
fn a_future_that_is_dropped_leaves_its_list_and_its_waker() {
    let (sender, receiver) = bounded::<_, i32>(1);
    let task = Task::new();
    {
        let mut wait = pin!(receiver.recv());
        assert!(task.poll(wait.as_mut()).is_pending());
        // Polled again, it keeps one waker.
        assert!(task.poll(wait.as_mut()).is_pending());
    }
    assert_eq!(Arc::strong_count(&task.woken), 2);
    sender.try_send("a", 1).unwrap();
    assert_eq!(task.wakes(), 0);
    {
        let mut send = pin!(sender.send("b", 2));
        assert!(task.poll(send.as_mut()).is_pending());
        assert_eq!(receiver.try_recv(), Ok(("a", 1)));
        assert_eq!(task.wakes(), 1);
    }
    assert_eq!(Arc::strong_count(&task.woken), 2);
    // What was not sent is gone with its future.
    assert_eq!(receiver.try_recv(), Err(TryRecvError::Empty));
}

#[test]
fn a_channel_that_goes_drops_what_is_pending_and_who_waits() {
    let held = Arc::new(());
    let (sender, receiver) = unbounded();
    sender.try_send(held.clone(), 1).unwrap();
    sender.try_send(held.clone(), 2).unwrap();
    assert_eq!(Arc::strong_count(&held), 3);
    drop((sender, receiver));
    assert_eq!(Arc::strong_count(&held), 1);
}

#[test]
fn a_lease_goes_back_behind_its_equals_or_is_finished() {
    let (sender, receiver) = bounded(2);
    sender.try_send("a", 5).unwrap();
    sender.try_send("b", 5).unwrap();
    let lease = receiver.try_lease().unwrap();
    assert_eq!((*lease.message(), *lease.priority()), ("a", 5));
    // Its place is still held.
    assert_eq!(sender.try_send("c", 9), Err(TrySendError::Full(("c", 9))));
    drop(lease);
    assert_eq!(receiver.try_recv(), Ok(("b", 5)));
    assert_eq!(receiver.try_lease().unwrap().finish(), ("a", 5));
    assert_eq!(sender.try_send("c", 9), Ok(()));
}

#[test]
fn a_channel_closes_when_all_is_done() {
    let (sender, receiver) = unbounded();
    sender.try_send(8u64, 1).unwrap();
    sender.close_when_done();
    let lease = receiver.try_lease().unwrap();
    let task = Task::new();
    let mut next = pin!(receiver.lease());
    assert!(task.poll(next.as_mut()).is_pending());
    lease.finish();
    assert_eq!(task.wakes(), 1);
    assert!(matches!(
        task.poll(next.as_mut()),
        Poll::Ready(Err(RecvError))
    ));
    assert!(sender.is_closed());
}

#[test]
fn waits_with_a_limit() {
    let (sender, receiver) = bounded(1);
    let short = Duration::from_millis(5);
    assert_eq!(receiver.recv_timeout(short), Err(TryRecvError::Empty));
    assert_eq!(sender.send_timeout("a", 1, short), Ok(()));
    assert_eq!(
        sender.send_timeout("b", 2, short),
        Err(TrySendError::Full(("b", 2)))
    );
    assert_eq!(receiver.recv_timeout(short), Ok(("a", 1)));
    sender.close();
    assert_eq!(
        sender.send_timeout("c", 3, short),
        Err(TrySendError::Closed(("c", 3)))
    );
    assert_eq!(receiver.recv_timeout(short), Err(TryRecvError::Closed));
}

#[test]
fn threads_lose_and_repeat_nothing() {
    const EACH: usize = 5000;
    const SIDES: usize = 4;
    for capacity in [1, 7, u64::MAX] {
        let (sender, receiver) = bounded(capacity);
        let got = thread::scope(|scope| {
            for side in 0..SIDES {
                let sender = sender.clone();
                scope.spawn(move || {
                    for at in 0..EACH {
                        let message = side * EACH + at;
                        sender.send_blocking(message, message % 5).unwrap();
                    }
                });
            }
            drop(sender);
            let receivers: Vec<_> = (0..SIDES)
                .map(|side| {
                    let receiver = receiver.clone();
                    scope.spawn(move || {
                        let mut got = Vec::new();
                        if side % 2 == 0 {
                            while let Ok((message, _)) = receiver.recv_blocking() {
                                got.push(message);
                            }
                        } else {
                            while let Ok(lease) = receiver.lease_blocking() {
                                // Every seventh comes back once.
                                if lease.message() % 7 == 0 && got.len() % 2 == 0 {
                                    got.push(usize::MAX);
                                    continue;
                                }
                                got.push(lease.finish().0);
                            }
                        }
                        got
                    })
                })
                .collect();
            receivers
                .into_iter()
                .flat_map(|receiver| receiver.join().unwrap())
                .filter(|message| *message != usize::MAX)
                .collect::<Vec<_>>()
        });
        assert_eq!(got.len(), SIDES * EACH);
        assert_eq!(got.into_iter().collect::<HashSet<_>>().len(), SIDES * EACH);
    }
}
