//! Random calls beside a plain model.

use async_priority_channel::{bounded, Priority, TryRecvError, TrySendError};
use std::cmp::Reverse;

struct Random(u64);

impl Random {
    fn below(&mut self, limit: u64) -> u64 {
        self.0 ^= self.0 << 13;
        self.0 ^= self.0 >> 7;
        self.0 ^= self.0 << 17;
        self.0 % limit
    }
}

/// The pending pairs in the order of acceptance.
struct Model<P> {
    pending: Vec<(u64, P)>,
    capacity: usize,
    held: usize,
}

impl<P: Ord + Copy> Model<P> {
    fn is_full(&self) -> bool {
        self.pending.len() + self.held == self.capacity
    }

    fn take(&mut self) -> Option<(u64, P)> {
        let mut best = 0;
        for at in 1..self.pending.len() {
            if self.pending[at].1 > self.pending[best].1 {
                best = at;
            }
        }
        (!self.pending.is_empty()).then(|| self.pending.remove(best))
    }
}

fn script<P: Priority + Copy + std::fmt::Debug>(seed: u64, priorities: &[P]) {
    let mut random = Random(seed);
    let capacity = 1 + random.below(9);
    let (sender, receiver) = bounded::<u64, P>(capacity);
    let mut model = Model {
        pending: Vec::new(),
        capacity: capacity as usize,
        held: 0,
    };
    let mut leases = Vec::new();
    for message in 0..200 {
        let priority = priorities[random.below(priorities.len() as u64) as usize];
        match random.below(8) {
            0..=2 => {
                let sent = sender.try_send(message, priority);
                if model.is_full() {
                    assert_eq!(sent, Err(TrySendError::Full((message, priority))));
                } else {
                    assert_eq!(sent, Ok(()));
                    model.pending.push((message, priority));
                }
            }
            3 => {
                let list = [(message, priority), (message + 1000, priority)];
                let sent = sender.try_sendv(list.into_iter().peekable());
                let room = model.capacity - model.pending.len() - model.held;
                model.pending.extend(&list[..room.min(2)]);
                match sent {
                    Ok(()) => assert!(room >= 2),
                    Err(error) => {
                        assert!(error.is_full());
                        let rest: Vec<_> = error.into_inner().collect();
                        assert_eq!(rest, &list[room..]);
                    }
                }
            }
            4 | 5 => {
                assert_eq!(receiver.try_recv().ok(), model.take());
            }
            6 => match receiver.try_lease() {
                Ok(lease) => {
                    assert_eq!(Some((*lease.message(), *lease.priority())), model.take());
                    model.held += 1;
                    leases.push(lease);
                }
                Err(error) => {
                    assert_eq!(error, TryRecvError::Empty);
                    assert!(model.take().is_none());
                }
            },
            _ => {
                if let Some(lease) = leases.pop() {
                    model.held -= 1;
                    if random.below(2) == 0 {
                        model.pending.push((*lease.message(), *lease.priority()));
                        drop(lease);
                    } else {
                        lease.finish();
                    }
                }
            }
        }
        assert_eq!(receiver.len() as usize, model.pending.len());
        assert_eq!(sender.is_full(), model.is_full());
    }
}

#[test]
fn random_scripts() {
    for seed in 1..=500 {
        script(seed, &[0u8, 1, 2, 255]);
        script(seed, &[i64::MIN, -1, 0, i64::MAX]);
        script(seed, &[Reverse(i8::MIN), Reverse(0), Reverse(i8::MAX)]);
        script(
            seed,
            &[(true, -5i32), (false, 7), (true, 7), (false, i32::MIN)],
        );
    }
}

#[test]
fn keys_are_in_the_order_of_what_they_stand_for() {
    fn check<P: Priority + std::fmt::Debug>(all: &[P]) {
        for one in all {
            for other in all {
                assert_eq!(
                    one.key().cmp(&other.key()),
                    one.cmp(other),
                    "{one:?} {other:?}"
                );
            }
        }
    }
    check(&[u128::MIN, 1, u128::MAX]);
    check(&[i128::MIN, -1, 0, 1, i128::MAX]);
    check(&[isize::MIN, -1, 0, isize::MAX]);
    check(&['a', 'z', char::MAX]);
    check(&[false, true]);
    check(&[Reverse(u64::MAX), Reverse(0), Reverse(1)]);
    check(&[
        (Reverse(1u64), i16::MIN),
        (Reverse(1), 5),
        (Reverse(0), -1),
        (Reverse(9), 0),
    ]);
}
