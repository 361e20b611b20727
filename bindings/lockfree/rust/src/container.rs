//! The entries of one kind, in slots that threads share.

use std::sync::atomic::{AtomicBool, AtomicU32, AtomicU64, Ordering};
use std::thread;
use std::time::{Duration, Instant};

/// Where a thread is interrupted now and then, for as long as others need for some calls.
fn interrupted() {
    #[cfg(feature = "slow")]
    {
        static PASSES: AtomicU32 = AtomicU32::new(0);
        if PASSES.fetch_add(1, Ordering::Relaxed) % 5 == 0 {
            thread::sleep(Duration::from_micros(20));
        }
    }
}

/// Waiting for other calls: for two seconds in all, since what does not come by then was lost.
#[derive(Default)]
pub struct Patience {
    is_over: AtomicBool,
}

/// Waiting for one thing.
pub struct Wait<'a> {
    patience: &'a Patience,
    since: Option<Instant>,
}

impl Patience {
    pub fn begin(&self) -> Wait<'_> {
        let patience = self;
        Wait {
            patience,
            since: None,
        }
    }
}

impl Wait<'_> {
    /// Waits for what another thread does. Returns whether to try again.
    pub fn once_more(&mut self) -> bool {
        let since = *self.since.get_or_insert_with(Instant::now);
        if since.elapsed() > Duration::from_secs(2) {
            self.patience.is_over.store(true, Ordering::SeqCst);
        }
        thread::yield_now();
        !self.patience.is_over.load(Ordering::SeqCst)
    }
}

#[derive(Clone, Copy, PartialEq, Eq)]
pub struct Handle {
    pub slot: usize,
    pub ticket: u64,
}

#[derive(Clone, Copy, PartialEq, Eq)]
pub enum State {
    Free = 0,
    Comes = 1,
    Live = 2,
    Goes = 3,
}

pub enum Refusal {
    Full,
    Locked,
}

/// What stands in a slot, as one number: a ticket, how many ports have the node, and a state.
#[derive(Clone, Copy, PartialEq, Eq)]
pub struct Cell(u64);

const ONE_PORT: u64 = 4;

impl Cell {
    fn of(ticket: u64, state: State) -> Self {
        Cell(ticket << 16 | state as u64)
    }

    fn ticket(self) -> u64 {
        self.0 >> 16
    }

    pub fn ports(self) -> u64 {
        self.0 >> 2 & 0x3fff
    }

    fn state(self) -> State {
        [State::Free, State::Comes, State::Live, State::Goes][(self.0 & 3) as usize]
    }

    pub fn with(self, state: State) -> Self {
        Cell(self.0 & !3 | state as u64)
    }

    /// One port more or less.
    pub fn with_port(self, comes: bool) -> Self {
        Cell(if comes {
            self.0 + ONE_PORT
        } else {
            self.0 - ONE_PORT
        })
    }
}

/// The free slots, as a stack of indices. Each change of the head has a tag of its own, so that a
/// head which came back is another one.
struct FreeList {
    next: Vec<AtomicU32>,
    head: AtomicU64,
}

const NONE: u32 = u32::MAX;

fn index(head: u64) -> u32 {
    head as u32
}

/// The head with this index, after another one.
fn tagged(before: u64, index: u32) -> u64 {
    if cfg!(feature = "no-tag") {
        u64::from(index)
    } else {
        (before >> 32).wrapping_add(1) << 32 | u64::from(index)
    }
}

impl FreeList {
    fn new(slots: usize) -> Self {
        let after = |slot| {
            if slot + 1 == slots {
                NONE
            } else {
                slot as u32 + 1
            }
        };
        FreeList {
            next: (0..slots).map(|slot| AtomicU32::new(after(slot))).collect(),
            head: AtomicU64::new(if slots == 0 { u64::from(NONE) } else { 0 }),
        }
    }

    /// Takes a slot off, where there is one.
    fn take(&self) -> Option<usize> {
        loop {
            let head = self.head.load(Ordering::Acquire);
            if index(head) == NONE {
                return None;
            }
            let slot = index(head) as usize;
            let next = self.next[slot].load(Ordering::Relaxed);
            interrupted();
            if self.change(head, next) {
                return Some(slot);
            }
        }
    }

    fn put_back(&self, slot: usize) {
        loop {
            let head = self.head.load(Ordering::Relaxed);
            self.next[slot].store(index(head), Ordering::Relaxed);
            if self.change(head, slot as u32) {
                return;
            }
        }
    }

    fn change(&self, head: u64, to: u32) -> bool {
        let (after, both) = (tagged(head, to), Ordering::AcqRel);
        let changed = self
            .head
            .compare_exchange(head, after, both, Ordering::Relaxed);
        changed.is_ok()
    }
}

#[derive(Default)]
#[repr(align(64))]
struct Slot {
    cell: AtomicU64,
    id: AtomicU64,
    node: AtomicU64,
}

// The word: the entries, whether the service is locked, and the next ticket.
const LOCK: u64 = 1 << 16;
const FIRST_TICKET: u64 = 1 << 17;

fn entries(word: u64) -> usize {
    (word & 0xffff) as usize
}

pub struct Container {
    free: FreeList,
    slots: Vec<Slot>,
    word: AtomicU64,
    /// The next ticket, where it is read and stored apart.
    apart: AtomicU64,
}

impl Container {
    pub fn new(capacity: usize) -> Self {
        Container {
            free: FreeList::new(capacity),
            slots: (0..capacity).map(|_| Slot::default()).collect(),
            word: AtomicU64::new(0),
            apart: AtomicU64::new(0),
        }
    }

    /// An entry of these ids comes.
    pub fn add(&self, id: u64, node: u64, patience: &Patience) -> Result<Handle, Refusal> {
        let mut wait = patience.begin();
        loop {
            if self.is_locked() {
                return Err(Refusal::Locked);
            }
            if let Some(slot) = self.free.take() {
                return self.put(slot, id, node);
            }
            // Else an entry comes or goes.
            if self.count() == self.slots.len() || !wait.once_more() {
                return Err(Refusal::Full);
            }
        }
    }

    fn put(&self, slot: usize, id: u64, node: u64) -> Result<Handle, Refusal> {
        let at = &self.slots[slot];
        at.cell
            .store(Cell::of(0, State::Comes).0, Ordering::Release);
        at.id.store(id, Ordering::SeqCst);
        at.node.store(node, Ordering::SeqCst);
        let word = self.count_more();
        if word & LOCK != 0 {
            self.word.fetch_sub(1, Ordering::AcqRel); // No entry comes any more.
            at.cell.store(Cell::of(0, State::Free).0, Ordering::Release);
            self.free.put_back(slot);
            return Err(Refusal::Locked);
        }
        let ticket = word / FIRST_TICKET;
        at.cell
            .store(Cell::of(ticket, State::Live).0, Ordering::Release);
        Ok(Handle { slot, ticket })
    }

    /// What stands in the handle's slot, once nothing goes there; none where it is stale.
    pub fn find(&self, handle: Handle, patience: &Patience) -> Option<Cell> {
        let mut wait = patience.begin();
        loop {
            let cell = self.load(handle.slot);
            if cell.ticket() != handle.ticket || cell.state() == State::Free {
                return None;
            }
            if cell.state() == State::Live {
                return Some(cell);
            }
            if !wait.once_more() {
                return None;
            }
        }
    }

    /// Changes what stands in a slot, where that is still there.
    pub fn change(&self, slot: usize, from: Cell, to: Cell) -> bool {
        let (cell, all) = (&self.slots[slot].cell, Ordering::SeqCst);
        cell.compare_exchange(from.0, to.0, all, all).is_ok()
    }

    /// The entry in this slot, which goes already, is gone. Returns whether entries are left.
    pub fn end(&self, slot: usize, cell: Cell, locks: bool) -> bool {
        let are_left = self.count_less(locks);
        let free = cell.with(State::Free);
        self.slots[slot].cell.store(free.0, Ordering::Release);
        self.free.put_back(slot);
        are_left
    }

    /// The slot of a node, where it is registered.
    pub fn slot_of(&self, id: u64, patience: &Patience) -> Option<Handle> {
        let mut wait = patience.begin();
        (0..self.slots.len()).find_map(|slot| loop {
            let cell = self.load(slot);
            let is_of = self.slots[slot].id.load(Ordering::SeqCst) == id;
            if cell.state() == State::Free || !is_of {
                return None;
            }
            if cell.state() == State::Live {
                let ticket = cell.ticket();
                return Some(Handle { slot, ticket });
            }
            if !wait.once_more() {
                return None;
            }
        })
    }

    /// Whether an entry of this node is there; not while one comes or goes.
    pub fn has_entry_of(&self, node: u64) -> bool {
        (0..self.slots.len()).any(|slot| {
            let cell = self.load(slot);
            let is_of = self.node_of(slot) == node;
            cell.state() == State::Live && is_of && self.load(slot) == cell
        })
    }

    pub fn node_of(&self, slot: usize) -> u64 {
        self.slots[slot].node.load(Ordering::SeqCst)
    }

    pub fn count(&self) -> usize {
        entries(self.word.load(Ordering::SeqCst))
    }

    pub fn is_locked(&self) -> bool {
        self.word.load(Ordering::SeqCst) & LOCK != 0
    }

    /// All entries by rising slot, as they were at one time.
    pub fn list(&self, patience: &Patience) -> Vec<u64> {
        let mut wait = patience.begin();
        loop {
            let word = self.word.load(Ordering::SeqCst);
            let ids = self.collect();
            let is_same = word == self.word.load(Ordering::SeqCst);
            if let Some(ids) = ids.filter(|ids| is_same && ids.len() == entries(word)) {
                return ids;
            }
            if !wait.once_more() {
                return Vec::new();
            }
        }
    }

    /// The ids of all slots, each read while nothing changed there; none while one comes or goes.
    fn collect(&self) -> Option<Vec<u64>> {
        let mut ids = Vec::new();
        for (slot, at) in self.slots.iter().enumerate() {
            let cell = self.load(slot);
            let id = at.id.load(Ordering::SeqCst);
            match cell.state() {
                _ if self.load(slot) != cell => return None,
                State::Comes | State::Goes => return None,
                State::Live => ids.push(id),
                State::Free => {}
            }
        }
        Some(ids)
    }

    fn load(&self, slot: usize) -> Cell {
        Cell(self.slots[slot].cell.load(Ordering::SeqCst))
    }

    /// Counts one entry more. Returns the word before, with the ticket that was taken.
    fn count_more(&self) -> u64 {
        if cfg!(feature = "ticket-apart") {
            let ticket = self.apart.load(Ordering::SeqCst);
            interrupted();
            self.apart.store(ticket + 1, Ordering::SeqCst);
            let word = self.word.fetch_add(FIRST_TICKET + 1, Ordering::AcqRel);
            return (ticket * FIRST_TICKET) | (word & (FIRST_TICKET - 1));
        }
        self.word.fetch_add(FIRST_TICKET + 1, Ordering::AcqRel)
    }

    /// Counts one entry less, and locks where it was the last one. Returns whether some are left.
    fn count_less(&self, locks: bool) -> bool {
        if cfg!(feature = "lock-after") {
            let before = entries(self.word.fetch_sub(1, Ordering::SeqCst));
            interrupted();
            if before == 1 && locks {
                self.word.fetch_or(LOCK, Ordering::SeqCst);
            }
            return before != 1;
        }
        let less = |word: u64| {
            let is_last = entries(word) == 1;
            Some((word - 1) | if is_last && locks { LOCK } else { 0 })
        };
        let all = Ordering::SeqCst;
        let before = self.word.fetch_update(all, all, less).unwrap_or_default();
        entries(before) != 1
    }
}
