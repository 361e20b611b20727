//! A plain service: slots in a `Vec`, a free list, the details in the slot.

use crate::Capacities;
use std::hint::black_box;

#[derive(Clone, Copy, Debug, PartialEq, Eq)]
pub struct NodeId(u128);

#[derive(Clone, Copy, Debug, PartialEq, Eq)]
pub struct PortId(u128);

#[derive(Clone, Copy, Debug, PartialEq, Eq)]
pub enum Role {
    Node,
    Publisher,
    Subscriber,
}

/// Names an entry of a service for good.
#[derive(Clone, Copy, Debug)]
pub struct Handle {
    service: u64,
    role: Role,
    slot: usize,
    ticket: u64,
}

#[derive(Clone, Copy, Debug)]
pub struct Port {
    id: PortId,
    node: NodeId,
    kind: Kind,
}

/// What is known of a port beside its ids.
#[derive(Clone, Copy, Debug)]
enum Kind {
    Publisher {
        _number_of_samples: usize,
        _max_slice_len: usize,
        _is_static: bool,
        _max_number_of_segments: u8,
    },
    Subscriber {
        _buffer_size: usize,
    },
}

impl Port {
    fn role(&self) -> Role {
        match self.kind {
            Kind::Publisher { .. } => Role::Publisher,
            Kind::Subscriber { .. } => Role::Subscriber,
        }
    }
}

#[derive(Clone, Copy, Debug, PartialEq, Eq)]
pub enum Cleanup {
    RemovePort,
    SkipPort,
}

#[derive(Debug)]
struct Entry<T> {
    ticket: u64,
    details: T,
}

/// A bounded map from handles to details.
#[derive(Debug)]
struct Registry<T> {
    /// All slots that were ever used.
    slots: Vec<Option<Entry<T>>>,
    /// Those of them that are free.
    free: Vec<usize>,
    capacity: usize,
    next_ticket: u64,
}

impl<T> Registry<T> {
    fn new(capacity: usize) -> Self {
        Registry {
            slots: Vec::with_capacity(capacity),
            free: Vec::with_capacity(capacity),
            capacity,
            next_ticket: 0,
        }
    }

    fn len(&self) -> usize {
        self.slots.len() - self.free.len()
    }

    /// The details by rising slot.
    fn iter(&self) -> impl Iterator<Item = &T> {
        self.slots.iter().flatten().map(|entry| &entry.details)
    }

    /// The slot and the ticket of a new entry, where there is room.
    fn add(&mut self, details: T) -> Option<(usize, u64)> {
        let ticket = self.next_ticket;
        let entry = Some(Entry { ticket, details });
        let slot = match self.free.pop() {
            Some(slot) => {
                self.slots[slot] = entry;
                slot
            }
            None if self.slots.len() == self.capacity => return None,
            None => {
                self.slots.push(entry);
                self.slots.len() - 1
            }
        };
        self.next_ticket += 1;
        Some((slot, ticket))
    }

    fn get(&self, handle: Handle) -> Option<&T> {
        match self.slots.get(handle.slot) {
            Some(Some(entry)) if entry.ticket == handle.ticket => Some(&entry.details),
            _ => None,
        }
    }

    /// Whether there was an entry of this handle.
    fn remove(&mut self, handle: Handle) -> bool {
        let is_there = self.get(handle).is_some();
        if is_there {
            self.slots[handle.slot] = None;
            self.free.push(handle.slot);
        }
        is_there
    }

    fn remove_where(&mut self, mut goes: impl FnMut(&T) -> bool) {
        for (slot, entry) in self.slots.iter_mut().enumerate() {
            if entry.as_ref().is_some_and(|entry| goes(&entry.details)) {
                *entry = None;
                self.free.push(slot);
            }
        }
    }
}

/// Who is attached to a publish-subscribe service.
#[derive(Debug)]
pub struct Service {
    number: u64,
    nodes: Registry<NodeId>,
    is_locked: bool,
    publishers: Registry<Port>,
    subscribers: Registry<Port>,
}

impl Service {
    fn ports_of_role(&self, role: Role) -> Option<&Registry<Port>> {
        match role {
            Role::Node => None,
            Role::Publisher => Some(&self.publishers),
            Role::Subscriber => Some(&self.subscribers),
        }
    }

    fn handle(&self, role: Role, (slot, ticket): (usize, u64)) -> Handle {
        Handle {
            service: self.number,
            role,
            slot,
            ticket,
        }
    }

    /// Asks about each port of the node, and removes the node where none of its ports stays.
    pub fn remove_dead(&mut self, dead: NodeId, mut ask: impl FnMut(PortId) -> Cleanup) {
        let mut stays = false;
        for ports in [&mut self.publishers, &mut self.subscribers] {
            ports.remove_where(|port| {
                if port.node != dead {
                    return false;
                }
                let goes = ask(port.id) == Cleanup::RemovePort;
                stays |= !goes;
                goes
            });
        }
        if !stays && self.nodes.len() != 0 {
            self.nodes.remove_where(|node| *node == dead);
            self.is_locked = self.nodes.len() == 0;
        }
    }

    pub fn count_ports(&self, role: Role) -> Option<usize> {
        self.ports_of_role(role).map(Registry::len)
    }

    pub fn ports(&self, role: Role) -> Option<Vec<Port>> {
        let ports = self.ports_of_role(role)?;
        let mut list = Vec::with_capacity(ports.len());
        list.extend(ports.iter());
        Some(list)
    }

    pub fn ports_of_node(&self, node: NodeId) -> Vec<Port> {
        let ports = self.publishers.iter().chain(self.subscribers.iter());
        ports.filter(|port| port.node == node).copied().collect()
    }
}

/// The id of process 1 with these nanoseconds and this counter.
fn id(nanoseconds: u32, counter: u32) -> u128 {
    1 << 96 | u128::from(nanoseconds) << 32 | u128::from(counter)
}

impl crate::Service for Service {
    type Node = NodeId;
    type Port = Port;
    type Handle = Handle;

    fn node(counter: u32) -> NodeId {
        NodeId(id(0, counter))
    }

    fn subscriber(node: NodeId, counter: u32) -> Port {
        Port {
            id: PortId(id(1, counter)),
            node,
            kind: Kind::Subscriber { _buffer_size: 2 },
        }
    }

    fn publisher(node: NodeId, counter: u32) -> Port {
        Port {
            id: PortId(id(2, counter)),
            node,
            kind: Kind::Publisher {
                _number_of_samples: 2,
                _max_slice_len: 1,
                _is_static: true,
                _max_number_of_segments: 1,
            },
        }
    }

    fn make(capacities: Capacities) -> Option<Self> {
        Some(Service {
            number: 7,
            nodes: Registry::new(capacities.nodes as usize),
            is_locked: false,
            publishers: Registry::new(capacities.publishers as usize),
            subscribers: Registry::new(capacities.subscribers as usize),
        })
    }

    fn register(&mut self, node: NodeId) -> Option<Handle> {
        if self.is_locked {
            return None;
        }
        let added = self.nodes.add(node)?;
        Some(self.handle(Role::Node, added))
    }

    fn attach(&mut self, port: Port) -> Option<Handle> {
        if self.is_locked || !self.nodes.iter().any(|node| *node == port.node) {
            return None;
        }
        let role = port.role();
        let added = match role {
            Role::Publisher => self.publishers.add(port)?,
            _ => self.subscribers.add(port)?,
        };
        Some(self.handle(role, added))
    }

    fn release(&mut self, port: Handle) -> bool {
        let is_here = port.service == self.number;
        is_here
            && match port.role {
                Role::Node => false,
                Role::Publisher => self.publishers.remove(port),
                Role::Subscriber => self.subscribers.remove(port),
            }
    }

    fn die(&mut self, node: NodeId) -> u64 {
        let mut ports = 0;
        self.remove_dead(node, |_| {
            ports += 1;
            Cleanup::RemovePort
        });
        ports
    }

    fn port(&self, port: Handle) -> Option<Port> {
        if port.service != self.number {
            return None;
        }
        self.ports_of_role(port.role)?.get(port).copied()
    }

    fn count_subscribers(&self) -> usize {
        self.count_ports(Role::Subscriber).unwrap_or_default()
    }

    fn subscribers(&self) -> usize {
        black_box(self.ports(Role::Subscriber)).map_or(0, |ports| ports.len())
    }

    fn ports_of(&self, node: NodeId) -> usize {
        black_box(self.ports_of_node(node)).len()
    }
}
