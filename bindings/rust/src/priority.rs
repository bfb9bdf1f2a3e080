//! Priorities that the core can compare.

use crate::sys::Words;
use std::cmp::Reverse;

/// A priority with a key of 128 bits in the same order. The core compares the keys.
///
/// `a.key() < b.key()` exactly if `a < b`, and the keys are equal exactly if `a` and `b` are.
/// Otherwise the channel's order is that of the keys.
pub trait Priority: Ord {
    /// The key.
    fn key(&self) -> u128;
}

pub(crate) fn words(priority: &impl Priority) -> Words {
    let key = priority.key();
    Words {
        high: (key >> 64) as u64,
        low: key as u64,
    }
}

macro_rules! unsigned {
    ($($number:ty)*) => { $(
        impl Priority for $number {
            fn key(&self) -> u128 {
                *self as u128
            }
        }
    )* };
}
unsigned!(u8 u16 u32 u64 u128 usize bool char);

macro_rules! signed {
    ($($number:ty)*) => { $(
        impl Priority for $number {
            fn key(&self) -> u128 {
                // The negative numbers come below the others.
                (*self as i128 as u128) ^ (1 << 127)
            }
        }
    )* };
}
signed!(i8 i16 i32 i64 i128 isize);

impl Priority for () {
    fn key(&self) -> u128 {
        0
    }
}

impl<P: Priority> Priority for Reverse<P> {
    fn key(&self) -> u128 {
        !self.0.key()
    }
}

impl<P: Priority> Priority for &P {
    fn key(&self) -> u128 {
        (**self).key()
    }
}

/// A priority whose key has 64 bits, so that two of them make a pair.
trait Half: Ord {
    fn half(&self) -> u64;
}

macro_rules! halves {
    ($($number:ty)*) => { $(
        impl Half for $number {
            fn half(&self) -> u64 {
                *self as u64
            }
        }

        impl Half for Reverse<$number> {
            fn half(&self) -> u64 {
                !self.0.half()
            }
        }
    )* };
}
halves!(u8 u16 u32 u64 usize bool);

macro_rules! signed_halves {
    ($($number:ty)*) => { $(
        impl Half for $number {
            fn half(&self) -> u64 {
                (*self as i64 as u64) ^ (1 << 63)
            }
        }

        impl Half for Reverse<$number> {
            fn half(&self) -> u64 {
                !self.0.half()
            }
        }
    )* };
}
signed_halves!(i8 i16 i32 i64 isize);

#[allow(private_bounds)]
impl<A: Half, B: Half> Priority for (A, B) {
    fn key(&self) -> u128 {
        u128::from(self.0.half()) << 64 | u128::from(self.1.half())
    }
}
