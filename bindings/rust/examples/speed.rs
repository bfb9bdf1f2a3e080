//! What a message costs, beside a heap under a lock by hand.
//!
//! `cargo run --release --example speed`. Each row is the best of seven rounds.

use async_priority_channel::bounded;
use std::collections::BinaryHeap;
use std::hint::black_box;
use std::sync::Mutex;
use std::time::Instant;

const MESSAGES: u64 = 500_000;
const PENDING: u64 = 100;

struct Random(u64);

impl Random {
    fn next(&mut self) -> u64 {
        self.0 ^= self.0 << 13;
        self.0 ^= self.0 >> 7;
        self.0 ^= self.0 << 17;
        self.0
    }
}

fn row(name: &str, mut round: impl FnMut() -> u64) {
    let mut best = f64::MAX;
    for _ in 0..7 {
        let start = Instant::now();
        let messages = round();
        best = best.min(start.elapsed().as_nanos() as f64 / messages as f64);
    }
    println!("{name}: {best:.0} ns a message");
}

fn main() {
    row("one thread, this crate", || {
        let (sender, receiver) = bounded::<u64, u64>(1000);
        let mut random = Random(88172645463325252);
        for message in 0..PENDING {
            sender.try_send(message, message).unwrap();
        }
        for message in 0..MESSAGES {
            sender.try_send(message, random.next()).unwrap();
            black_box(receiver.try_recv().unwrap());
        }
        MESSAGES
    });
    row("one thread, a heap under a lock", || {
        let heap = Mutex::new(BinaryHeap::new());
        let mut random = Random(88172645463325252);
        for message in 0..PENDING {
            heap.lock().unwrap().push((message, message));
        }
        for message in 0..MESSAGES {
            heap.lock().unwrap().push((random.next(), message));
            black_box(heap.lock().unwrap().pop().unwrap());
        }
        MESSAGES
    });
    row("a sender and a receiver, blocking", || {
        let (sender, receiver) = bounded::<u64, u64>(1000);
        let thread = std::thread::spawn(move || {
            for message in 0..MESSAGES {
                sender.send_blocking(message, message % 8).unwrap();
            }
        });
        let mut received = 0;
        while receiver.recv_blocking().is_ok() {
            received += 1;
        }
        thread.join().unwrap();
        received
    });
}
