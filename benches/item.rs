//! A pending message in the standard library's heap.
use std::cmp::{Ordering, Reverse};

/// The greater priority first, and of equal ones the one that was sent first.
pub struct Item<T> {
    pub place: (i64, Reverse<u64>),
    pub msg: T,
}

impl<T> Ord for Item<T> {
    fn cmp(&self, other: &Item<T>) -> Ordering {
        self.place.cmp(&other.place)
    }
}

impl<T> PartialOrd for Item<T> {
    fn partial_cmp(&self, other: &Item<T>) -> Option<Ordering> {
        Some(self.cmp(other))
    }
}

impl<T> PartialEq for Item<T> {
    fn eq(&self, other: &Item<T>) -> bool {
        self.cmp(other) == Ordering::Equal
    }
}

impl<T> Eq for Item<T> {}
