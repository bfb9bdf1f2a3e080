//! Values under keys. A key is an index, and a removal takes no memory.

/// The messages of a channel: the core has their keys.
pub struct Slab<V> {
    slots: Vec<Slot<V>>,
    free: usize,
}

enum Slot<V> {
    /// A value.
    Full(V),
    /// No value, but the key is still in use.
    Lent,
    /// The next free slot, or the number of slots.
    Free(usize),
}

impl<V> Slab<V> {
    pub const fn new() -> Self {
        Slab {
            slots: Vec::new(),
            free: 0,
        }
    }

    /// Makes a slot, so that the next insertion takes no memory. False if memory is refused.
    pub fn reserve(&mut self) -> bool {
        self.free < self.slots.len() || self.slots.try_reserve(1).is_ok()
    }

    /// Gives the value back if memory is refused.
    #[inline]
    pub fn insert(&mut self, value: V) -> Result<u64, V> {
        if !self.reserve() {
            return Err(value);
        }
        let key = self.free;
        match self.slots.get_mut(key) {
            Some(slot) => {
                let Slot::Free(next) = *slot else {
                    unreachable!("the list of free slots has only such slots")
                };
                self.free = next;
                *slot = Slot::Full(value);
            }
            None => {
                self.slots.push(Slot::Full(value));
                self.free = self.slots.len();
            }
        }
        Ok(key as u64)
    }

    /// Takes the value, and frees the key.
    #[inline]
    pub fn remove(&mut self, key: u64) -> V {
        let slot = std::mem::replace(&mut self.slots[key as usize], Slot::Free(self.free));
        self.free = key as usize;
        let Slot::Full(value) = slot else {
            unreachable!("a key that the core gives back has a value")
        };
        value
    }

    /// Takes the value, and keeps the key.
    pub fn lend(&mut self, key: u64) -> V {
        let slot = std::mem::replace(&mut self.slots[key as usize], Slot::Lent);
        let Slot::Full(value) = slot else {
            unreachable!("a key that the core gives back has a value")
        };
        value
    }

    /// Puts a value back under a key whose value was lent.
    pub fn put_back(&mut self, key: u64, value: V) {
        self.slots[key as usize] = Slot::Full(value);
    }

    /// Frees a key whose value was lent.
    pub fn forget(&mut self, key: u64) {
        self.slots[key as usize] = Slot::Free(self.free);
        self.free = key as usize;
    }
}
