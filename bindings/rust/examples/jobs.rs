//! Workers that take jobs by their urgency. A job that fails comes again.
//!
//! `cargo run --example jobs`

use async_priority_channel::unbounded;
use std::thread;

fn main() {
    let (sender, receiver) = unbounded();
    for (job, urgency) in [
        ("tidy up", 1),
        ("put out the fire", 9),
        ("sweep the floor", 1),
    ] {
        sender.try_send(job, urgency).expect("it is open");
    }
    // The loops of the workers end once no job is pending or in hand.
    sender.close_when_done();

    let worker = thread::spawn(move || {
        let mut tries = 0;
        while let Ok(lease) = receiver.lease_blocking() {
            tries += 1;
            if tries == 1 {
                println!("{} failed", lease.message());
                continue; // The lease is dropped: the job goes back.
            }
            let (job, urgency) = lease.finish();
            println!("{job} ({urgency})");
        }
    });
    worker.join().expect("it does not panic");
    assert!(sender.is_closed());
}
