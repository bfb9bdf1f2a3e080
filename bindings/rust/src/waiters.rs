//! The wakers of tasks that wait. To wake takes no memory.

use std::task::Waker;

const NONE: u32 = u32::MAX;

enum Stand {
    /// In a waiting list of the core.
    Listed,
    /// Taken off it, and to be woken.
    Due,
    Free,
}

struct Slot {
    waker: Option<Waker>,
    stand: Stand,
    /// How often the slot was freed, so that an old key finds nothing.
    uses: u32,
    /// The next slot of the same list: of those that are due, or of those that are free.
    next: u32,
}

/// Wakers under keys, which the core has as numbers.
pub struct Waiters {
    slots: Vec<Slot>,
    free: u32,
    due: u32,
}

impl Waiters {
    pub const fn new() -> Self {
        Waiters {
            slots: Vec::new(),
            free: NONE,
            due: NONE,
        }
    }

    fn listed(&mut self, key: u64) -> Option<&mut Slot> {
        let slot = self.slots.get_mut(key as u32 as usize)?;
        let is_there = slot.uses == (key >> 32) as u32 && matches!(slot.stand, Stand::Listed);
        is_there.then_some(slot)
    }

    /// Keeps a waker, under its old key if it is still listed. What has to be dropped is left in
    /// `waker`. None if memory is refused.
    pub fn keep(&mut self, key: Option<u64>, waker: &mut Option<Waker>) -> Option<u64> {
        if let Some(key) = key {
            if let Some(slot) = self.listed(key) {
                std::mem::swap(&mut slot.waker, waker);
                return Some(key);
            }
        }
        let at = if self.free == NONE {
            let at = u32::try_from(self.slots.len())
                .ok()
                .filter(|at| *at != NONE)?;
            self.slots.try_reserve(1).ok()?;
            self.slots.push(Slot {
                waker: None,
                stand: Stand::Free,
                uses: 0,
                next: NONE,
            });
            at
        } else {
            self.free
        };
        let slot = &mut self.slots[at as usize];
        self.free = slot.next;
        slot.waker = waker.take();
        slot.stand = Stand::Listed;
        Some(u64::from(slot.uses) << 32 | u64::from(at))
    }

    /// The core has taken it off its list.
    pub fn mark_due(&mut self, key: u64) {
        let due = self.due;
        if let Some(slot) = self.listed(key) {
            slot.stand = Stand::Due;
            slot.next = due;
            self.due = key as u32;
        }
    }

    /// A waker to be woken, and whether there are more.
    pub fn next_due(&mut self) -> (Option<Waker>, bool) {
        while self.due != NONE {
            let at = self.due;
            self.due = self.slots[at as usize].next;
            if let Some(waker) = self.free(at) {
                return (Some(waker), self.due != NONE);
            }
        }
        (None, false)
    }

    fn free(&mut self, at: u32) -> Option<Waker> {
        let slot = &mut self.slots[at as usize];
        slot.stand = Stand::Free;
        slot.uses = slot.uses.wrapping_add(1);
        slot.next = self.free;
        self.free = at;
        slot.waker.take()
    }

    /// Forgets who no longer waits. The waker is to be dropped once the lock is free.
    pub fn remove(&mut self, key: u64) -> Option<Waker> {
        let at = key as u32;
        let slot = self.slots.get_mut(at as usize)?;
        if slot.uses != (key >> 32) as u32 {
            return None;
        }
        match slot.stand {
            Stand::Listed => self.free(at),
            // It stays in the list of those that are due, and nobody is woken for it.
            Stand::Due => slot.waker.take(),
            Stand::Free => None,
        }
    }
}
