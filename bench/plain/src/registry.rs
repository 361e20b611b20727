//! A bounded map from handles to entries: a free list over a `Vec`.

use std::collections::TryReserveError;

/// Names an entry for good: no ticket is given twice.
#[derive(Clone, Copy, Debug)]
pub struct Key {
    pub slot: usize,
    pub ticket: u64,
}

enum Slot<T> {
    Used { ticket: u64, entry: T },
    Free { next: Option<usize> },
}

/// At most `capacity` entries. The slot freed last is taken first, and unused slots by rising number after all freed ones.
pub struct Registry<T> {
    /// All slots that were ever used.
    slots: Vec<Slot<T>>,
    capacity: usize,
    freed_last: Option<usize>,
    len: usize,
    next_ticket: u64,
}

impl<T> Registry<T> {
    /// Takes the room for `capacity` entries at once.
    pub fn new(capacity: usize) -> Result<Self, TryReserveError> {
        let mut slots = Vec::new();
        slots.try_reserve_exact(capacity)?;
        Ok(Registry {
            slots,
            capacity,
            freed_last: None,
            len: 0,
            next_ticket: 0,
        })
    }

    pub fn len(&self) -> usize {
        self.len
    }

    pub fn is_empty(&self) -> bool {
        self.len == 0
    }

    /// The entries by rising slot.
    pub fn iter(&self) -> impl Iterator<Item = &T> {
        self.slots.iter().filter_map(|slot| match slot {
            Slot::Used { entry, .. } => Some(entry),
            Slot::Free { .. } => None,
        })
    }

    pub fn get(&self, key: Key) -> Option<&T> {
        match self.slots.get(key.slot) {
            Some(Slot::Used { ticket, entry }) if *ticket == key.ticket => Some(entry),
            _ => None,
        }
    }

    /// Refuses an entry where no room or no ticket is left.
    pub fn add(&mut self, entry: T) -> Option<Key> {
        if self.len == self.capacity || self.next_ticket == u64::MAX {
            return None;
        }
        let ticket = self.next_ticket;
        let used = Slot::Used { ticket, entry };
        let slot = match self.freed_last {
            Some(slot) => {
                if let Slot::Free { next } = self.slots[slot] {
                    self.freed_last = next;
                }
                self.slots[slot] = used;
                slot
            }
            None => {
                self.slots.push(used);
                self.slots.len() - 1
            }
        };
        self.next_ticket += 1;
        self.len += 1;
        Some(Key { slot, ticket })
    }

    /// Whether `key` named an entry, which is gone now.
    pub fn remove(&mut self, key: Key) -> bool {
        let found = self.get(key).is_some();
        if found {
            self.free(key.slot);
        }
        found
    }

    /// Removes the entries for which `is_dead` says so, asking by rising slot.
    pub fn remove_where(&mut self, mut is_dead: impl FnMut(&T) -> bool) {
        let mut start = 0;
        while let Some(passed) = self.slots[start..]
            .iter()
            .position(|slot| matches!(slot, Slot::Used { entry, .. } if is_dead(entry)))
        {
            self.free(start + passed);
            start += passed + 1;
        }
    }

    fn free(&mut self, slot: usize) {
        self.slots[slot] = Slot::Free {
            next: self.freed_last,
        };
        self.freed_last = Some(slot);
        self.len -= 1;
    }
}
