//! Who is attached to a service, by types.

use crate::registry::{Key, Registry};
use std::collections::TryReserveError;

pub type Id = u128;

#[derive(Clone, Copy, Debug, PartialEq, Eq)]
#[allow(dead_code)]
pub enum Role {
    Node,
    Publisher,
    Subscriber,
    Listener,
    Notifier,
    Server,
    Client,
    Reader,
    Writer,
}

#[derive(Clone, Copy, Debug)]
#[allow(dead_code)]
pub enum Pattern {
    PublishSubscribe,
    Event,
    RequestResponse,
    Blackboard,
}

/// Names an entry of a service for good.
#[derive(Clone, Copy, Debug)]
pub struct Handle {
    service: u64,
    role: Role,
    key: Key,
}

#[derive(Clone, Copy, Debug)]
pub struct Port {
    pub id: Id,
    pub node: Id,
    pub kind: PortKind,
}

/// What is known of a port beside its ids.
#[derive(Clone, Copy, Debug)]
#[allow(dead_code)]
pub enum PortKind {
    Publisher {
        number_of_samples: usize,
        max_slice_len: usize,
        may_grow: bool,
        max_number_of_segments: u8,
    },
    Subscriber {
        buffer_size: usize,
    },
    Listener,
    Notifier,
    Server {
        request_buffer_size: usize,
        max_slice_len: usize,
        may_grow: bool,
        max_number_of_segments: u8,
    },
    Client {
        number_of_requests: usize,
        response_buffer_size: usize,
        may_grow: bool,
        max_number_of_segments: u8,
    },
    Reader,
    Writer,
}

impl PortKind {
    pub fn role(&self) -> Role {
        match self {
            PortKind::Publisher { .. } => Role::Publisher,
            PortKind::Subscriber { .. } => Role::Subscriber,
            PortKind::Listener => Role::Listener,
            PortKind::Notifier => Role::Notifier,
            PortKind::Server { .. } => Role::Server,
            PortKind::Client { .. } => Role::Client,
            PortKind::Reader => Role::Reader,
            PortKind::Writer => Role::Writer,
        }
    }
}

/// Why nobody joined, or why nobody left.
#[derive(Clone, Copy, Debug)]
pub enum Refusal {
    Locked,
    NotRegistered,
    Full,
    WrongPattern,
    NotOwned,
    PortsAttached,
}

#[derive(Clone, Copy, Debug, PartialEq, Eq)]
pub enum Owners {
    Some,
    None,
}

#[derive(Clone, Copy, Debug, PartialEq, Eq)]
#[allow(dead_code)]
pub enum Cleanup {
    RemovePort,
    SkipPort,
}

#[derive(Clone, Copy, Debug, PartialEq, Eq)]
#[allow(dead_code)]
pub enum Progress {
    Continue,
    Stop,
}

#[derive(Clone, Copy, Debug)]
enum Side {
    First,
    Second,
}

pub struct Service {
    number: u64,
    pattern: Pattern,
    nodes: Registry<Id>,
    /// Set for good when the last node goes.
    locked: bool,
    first: Registry<Port>,
    second: Registry<Port>,
}

impl Service {
    pub fn new(
        pattern: Pattern,
        number: u64,
        nodes: usize,
        first: usize,
        second: usize,
    ) -> Result<Self, TryReserveError> {
        Ok(Service {
            number,
            pattern,
            nodes: Registry::new(nodes)?,
            locked: false,
            first: Registry::new(first)?,
            second: Registry::new(second)?,
        })
    }

    pub fn register(&mut self, node: Id) -> Result<Handle, Refusal> {
        if self.locked {
            return Err(Refusal::Locked);
        }
        let key = self.nodes.add(node).ok_or(Refusal::Full)?;
        Ok(self.handle(Role::Node, key))
    }

    pub fn deregister(&mut self, handle: Handle) -> Result<Owners, Refusal> {
        if handle.service != self.number || handle.role != Role::Node {
            return Err(Refusal::NotOwned);
        }
        let &node = self.nodes.get(handle.key).ok_or(Refusal::NotOwned)?;
        if self.has_ports(node) && self.nodes.iter().filter(|&&other| other == node).count() == 1 {
            return Err(Refusal::PortsAttached);
        }
        self.nodes.remove(handle.key);
        self.locked = self.nodes.is_empty();
        Ok(self.owners())
    }

    pub fn attach(&mut self, port: Port) -> Result<Handle, Refusal> {
        let role = port.kind.role();
        let side = self.pattern.side(role).ok_or(Refusal::WrongPattern)?;
        if self.locked {
            return Err(Refusal::Locked);
        }
        if !self.nodes.iter().any(|&node| node == port.node) {
            return Err(Refusal::NotRegistered);
        }
        let key = self.ports_mut(side).add(port).ok_or(Refusal::Full)?;
        Ok(self.handle(role, key))
    }

    pub fn release(&mut self, handle: Handle) -> Result<(), Refusal> {
        let side = self.pattern.side(handle.role).ok_or(Refusal::NotOwned)?;
        if handle.service != self.number || !self.ports_mut(side).remove(handle.key) {
            return Err(Refusal::NotOwned);
        }
        Ok(())
    }

    /// Asks about each port of the dead node, and removes the node where none of its ports stays.
    pub fn remove_dead(&mut self, dead: Id, mut ask: impl FnMut(Role, Id) -> Cleanup) -> Owners {
        let mut skipped = false;
        for ports in [&mut self.first, &mut self.second] {
            ports.remove_where(|port| {
                if port.node != dead {
                    return false;
                }
                let goes = ask(port.kind.role(), port.id) == Cleanup::RemovePort;
                skipped |= !goes;
                goes
            });
        }
        if !skipped && !self.nodes.is_empty() {
            self.nodes.remove_where(|&node| node == dead);
            self.locked = self.nodes.is_empty();
        }
        self.owners()
    }

    /// Shows the ports of the role until the callback stops. `false` where the pattern has no such ports.
    pub fn list_ports(&self, role: Role, mut show: impl FnMut(&Port) -> Progress) -> bool {
        let Some(side) = self.pattern.side(role) else {
            return false;
        };
        for port in self.ports_of(side).iter() {
            if show(port) == Progress::Stop {
                break;
            }
        }
        true
    }

    pub fn nodes(&self) -> Result<Vec<Id>, TryReserveError> {
        collected(&self.nodes)
    }

    pub fn ports(&self, role: Role) -> Result<Option<Vec<Port>>, TryReserveError> {
        match self.pattern.side(role) {
            Some(side) => collected(self.ports_of(side)).map(Some),
            None => Ok(None),
        }
    }

    fn handle(&self, role: Role, key: Key) -> Handle {
        Handle {
            service: self.number,
            role,
            key,
        }
    }

    fn owners(&self) -> Owners {
        if self.locked {
            Owners::None
        } else {
            Owners::Some
        }
    }

    fn has_ports(&self, node: Id) -> bool {
        self.first.iter().any(|port| port.node == node)
            || self.second.iter().any(|port| port.node == node)
    }

    fn ports_of(&self, side: Side) -> &Registry<Port> {
        match side {
            Side::First => &self.first,
            Side::Second => &self.second,
        }
    }

    fn ports_mut(&mut self, side: Side) -> &mut Registry<Port> {
        match side {
            Side::First => &mut self.first,
            Side::Second => &mut self.second,
        }
    }
}

fn collected<T: Copy>(entries: &Registry<T>) -> Result<Vec<T>, TryReserveError> {
    let mut list = Vec::new();
    list.try_reserve_exact(entries.len())?;
    list.extend(entries.iter());
    Ok(list)
}

impl Pattern {
    /// The side of a role, or `None` where the pattern has no such role.
    fn side(self, role: Role) -> Option<Side> {
        match (self, role) {
            (Pattern::PublishSubscribe, Role::Publisher) => Some(Side::First),
            (Pattern::PublishSubscribe, Role::Subscriber) => Some(Side::Second),
            (Pattern::Event, Role::Listener) => Some(Side::First),
            (Pattern::Event, Role::Notifier) => Some(Side::Second),
            (Pattern::RequestResponse, Role::Server) => Some(Side::First),
            (Pattern::RequestResponse, Role::Client) => Some(Side::Second),
            (Pattern::Blackboard, Role::Reader) => Some(Side::First),
            (Pattern::Blackboard, Role::Writer) => Some(Side::Second),
            _ => None,
        }
    }
}
