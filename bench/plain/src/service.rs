//! One service: who is attached to it, and what each command does.

use crate::registry::{Key, Registry};
use crate::reply::{self, Reply};
use std::collections::TryReserveError;

#[derive(Clone, Copy, Debug)]
pub enum Pattern {
    PublishSubscribe,
    Event,
    RequestResponse,
    Blackboard,
}

#[derive(Clone, Copy, Debug)]
pub enum Role {
    Publisher,
    Subscriber,
    Notifier,
    Listener,
    Client,
    Server,
    Reader,
    Writer,
}

/// For how many nodes and ports of both kinds a service has room.
#[derive(Clone, Copy, Debug)]
pub struct Room {
    pub nodes: usize,
    pub first: usize,
    pub second: usize,
}

#[derive(Clone, Copy, Debug)]
pub struct Port {
    pub id: u128,
    pub node: u128,
}

/// What a line tells a service to do. `Deregister` and `Release` name an earlier command by its number.
#[derive(Debug)]
pub enum Command {
    Register(u128),
    Deregister(usize),
    Nodes,
    Add(Role, Port),
    Release(usize),
    List(Role),
    Count(Role),
    /// All of the node goes but the ports to skip; with a skipped port of it, the node stays too.
    Dead {
        node: u128,
        skip: Vec<u128>,
    },
}

/// The two kinds of ports of a pattern, in the order in which a dead node's ports are removed.
#[derive(Clone, Copy, Debug)]
pub enum Side {
    First,
    Second,
}

/// An entry of the nodes, or of the ports of a side.
#[derive(Clone, Copy, Debug)]
pub enum Handle {
    Node(Key),
    Port(Side, Key),
}

pub struct Service {
    pattern: Pattern,
    nodes: Registry<u128>,
    /// Set for good when the last node goes.
    locked: bool,
    first: Registry<Port>,
    second: Registry<Port>,
    /// What each command was answered with.
    handles: Vec<Option<Handle>>,
}

impl Service {
    pub fn new(pattern: Pattern, room: Room) -> Result<Self, TryReserveError> {
        Ok(Service {
            pattern,
            nodes: Registry::new(room.nodes)?,
            locked: false,
            first: Registry::new(room.first)?,
            second: Registry::new(room.second)?,
            handles: Vec::new(),
        })
    }

    /// Carries out the next command and appends its reply line. Where there is no memory for that, nothing is done.
    pub fn carry_out(
        &mut self,
        command: Command,
        output: &mut Vec<u8>,
    ) -> Result<(), TryReserveError> {
        self.handles.try_reserve(1)?;
        output.try_reserve(reply::LONGEST)?;
        let reply = match command {
            Command::Register(node) => self.register(node),
            Command::Deregister(earlier) => self.deregister(earlier),
            Command::Nodes => {
                reply::write_list(self.nodes.iter().copied(), self.nodes.len(), output)?;
                Reply::Listed
            }
            Command::Add(role, port) => self.add(role, port),
            Command::Release(earlier) => self.release(earlier),
            Command::List(role) => match self.pattern.side(role) {
                Some(side) => {
                    let ports = self.ports(side);
                    reply::write_list(ports.iter().map(|port| port.id), ports.len(), output)?;
                    Reply::Listed
                }
                None => Reply::WrongPattern,
            },
            Command::Count(role) => match self.pattern.side(role) {
                Some(side) => Reply::Count(self.ports(side).len()),
                None => Reply::WrongPattern,
            },
            Command::Dead { node, skip } => self.remove_dead(node, &skip),
        };
        reply.write(output);
        self.handles.push(reply.handle());
        Ok(())
    }

    fn register(&mut self, node: u128) -> Reply {
        if self.locked {
            return Reply::Locked;
        }
        self.nodes
            .add(node)
            .map_or(Reply::Full, |key| Reply::Handle(Handle::Node(key)))
    }

    fn deregister(&mut self, earlier: usize) -> Reply {
        let key = match self.handle(earlier) {
            Some(Handle::Node(key)) => key,
            Some(Handle::Port(..)) => return Reply::NotOwned,
            None => return Reply::NoHandle,
        };
        let Some(&node) = self.nodes.get(key) else {
            return Reply::NotOwned;
        };
        if self.has_ports(node)
            && self
                .nodes
                .iter()
                .filter(|&&other| other == node)
                .nth(1)
                .is_none()
        {
            return Reply::PortsAttached;
        }
        self.nodes.remove(key);
        self.locked = self.nodes.is_empty();
        self.owners()
    }

    fn add(&mut self, role: Role, port: Port) -> Reply {
        let Some(side) = self.pattern.side(role) else {
            return Reply::WrongPattern;
        };
        if self.locked {
            return Reply::Locked;
        }
        if !self.nodes.iter().any(|&node| node == port.node) {
            return Reply::NotRegistered;
        }
        self.ports_mut(side)
            .add(port)
            .map_or(Reply::Full, |key| Reply::Handle(Handle::Port(side, key)))
    }

    fn release(&mut self, earlier: usize) -> Reply {
        match self.handle(earlier) {
            Some(Handle::Port(side, key)) if self.ports_mut(side).remove(key) => Reply::Released,
            Some(_) => Reply::NotOwned,
            None => Reply::NoHandle,
        }
    }

    fn remove_dead(&mut self, dead: u128, skip: &[u128]) -> Reply {
        let mut skipped = false;
        for ports in [&mut self.first, &mut self.second] {
            ports.remove_where(|port| {
                if port.node != dead {
                    return false;
                }
                let stays = skip.contains(&port.id);
                skipped |= stays;
                !stays
            });
        }
        if !skipped && !self.nodes.is_empty() {
            self.nodes.remove_where(|&node| node == dead);
            self.locked = self.nodes.is_empty();
        }
        self.owners()
    }

    fn owners(&self) -> Reply {
        if self.locked {
            Reply::NoOwners
        } else {
            Reply::HasOwners
        }
    }

    fn handle(&self, command: usize) -> Option<Handle> {
        *self.handles.get(command)?
    }

    fn has_ports(&self, node: u128) -> bool {
        self.first.iter().any(|port| port.node == node)
            || self.second.iter().any(|port| port.node == node)
    }

    fn ports(&self, side: Side) -> &Registry<Port> {
        match side {
            Side::First => &self.first,
            Side::Second => &self.second,
        }
    }

    fn ports_mut(&mut self, side: Side) -> &mut Registry<Port> {
        match side {
            Side::First => &mut self.first,
            Side::Second => &mut self.second,
        }
    }
}

impl Pattern {
    /// The side of a role, or `None` where the pattern has no such role.
    fn side(self, role: Role) -> Option<Side> {
        match (self, role) {
            (Pattern::PublishSubscribe, Role::Publisher) => Some(Side::First),
            (Pattern::PublishSubscribe, Role::Subscriber) => Some(Side::Second),
            (Pattern::Event, Role::Listener) => Some(Side::First),
            (Pattern::Event, Role::Notifier) => Some(Side::Second),
            (Pattern::RequestResponse, Role::Server) => Some(Side::First),
            (Pattern::RequestResponse, Role::Client) => Some(Side::Second),
            (Pattern::Blackboard, Role::Reader) => Some(Side::First),
            (Pattern::Blackboard, Role::Writer) => Some(Side::Second),
            _ => None,
        }
    }
}
