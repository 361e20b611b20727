//! Calls on who is attached to a service.

use crate::service::{Cleanup, Handle, Id, Pattern, Port, PortKind, Progress, Role, Service};
use std::collections::TryReserveError;

#[derive(Clone, Copy, Debug)]
pub struct Capacities {
    pub nodes: u32,
    pub subscribers: u32,
    pub publishers: u32,
}

/// A publish-subscribe service, and the handles of its nodes and subscribers.
pub struct Attached {
    capacities: Capacities,
    service: Service,
    nodes: Vec<Handle>,
    subscribers: Vec<Handle>,
}

impl Attached {
    pub fn new(capacities: Capacities) -> Result<Self, TryReserveError> {
        let (nodes, first, second) = (
            capacities.nodes as usize,
            capacities.publishers as usize,
            capacities.subscribers as usize,
        );
        Ok(Attached {
            capacities,
            service: Service::new(Pattern::PublishSubscribe, 7, nodes, first, second)?,
            nodes: Vec::with_capacity(nodes),
            subscribers: Vec::with_capacity(second),
        })
    }

    pub fn with_nodes(capacities: Capacities) -> Result<Self, TryReserveError> {
        let mut attached = Self::new(capacities)?;
        attached.register(capacities.nodes);
        Ok(attached)
    }

    pub fn full(capacities: Capacities) -> Result<Self, TryReserveError> {
        let mut attached = Self::with_nodes(capacities)?;
        attached.attach_subscribers(capacities.subscribers);
        attached.attach_publishers(capacities.publishers);
        Ok(attached)
    }

    pub fn register(&mut self, count: u32) -> u64 {
        for number in 0..count {
            if let Ok(handle) = self.service.register(id(0, number + 1)) {
                self.nodes.push(handle);
            }
        }
        self.nodes.len() as u64
    }

    pub fn attach_subscribers(&mut self, count: u32) -> u64 {
        for number in 0..count {
            let port = Port {
                id: id(1, number),
                node: id(0, self.capacities.nodes.saturating_sub(number)),
                kind: PortKind::Subscriber { buffer_size: 2 },
            };
            if let Ok(handle) = self.service.attach(port) {
                self.subscribers.push(handle);
            }
        }
        self.subscribers.len() as u64
    }

    pub fn attach_publishers(&mut self, count: u32) {
        for number in 0..count {
            let _handle = self.service.attach(Port {
                id: id(2, number),
                node: id(0, self.capacities.nodes.saturating_sub(number)),
                kind: PortKind::Publisher {
                    number_of_samples: 2,
                    max_slice_len: 1,
                    may_grow: false,
                    max_number_of_segments: 1,
                },
            });
        }
    }

    pub fn list(&self, count: u32) -> u64 {
        let mut digest = 0u64;
        for _ in 0..count {
            self.service.list_ports(Role::Subscriber, |port| {
                digest = digest.wrapping_add(u64::from(port.id as u32));
                Progress::Continue
            });
        }
        digest
    }

    pub fn nodes(&self, count: u32) -> Result<u64, TryReserveError> {
        let mut digest = 0u64;
        for _ in 0..count {
            digest = digest.wrapping_add(last(&self.service.nodes()?, |node| *node));
        }
        Ok(digest)
    }

    pub fn ports(&self, count: u32) -> Result<u64, TryReserveError> {
        let mut digest = 0u64;
        for _ in 0..count {
            if let Some(ports) = self.service.ports(Role::Subscriber)? {
                digest = digest.wrapping_add(last(&ports, |port| port.id));
            }
        }
        Ok(digest)
    }

    pub fn release(&mut self, count: u32) -> u64 {
        let mut gone = 0;
        for &handle in self.subscribers.iter().take(count as usize) {
            gone += u64::from(self.service.release(handle).is_ok());
        }
        gone
    }

    pub fn deregister(&mut self, count: u32) -> u64 {
        let mut gone = 0;
        for &handle in self.nodes.iter().take(count as usize) {
            gone += u64::from(self.service.deregister(handle).is_ok());
        }
        gone
    }

    pub fn die(&mut self, count: u32) -> u64 {
        let mut ports = 0;
        for number in 0..count {
            let dead = id(0, self.capacities.nodes.saturating_sub(number));
            self.service.remove_dead(dead, |_role, _port| {
                ports += 1;
                Cleanup::RemovePort
            });
        }
        ports
    }
}

/// The last 32 bits of the id of a list's last entry.
fn last<T>(list: &[T], id: impl Fn(&T) -> Id) -> u64 {
    list.last().map_or(0, |entry| u64::from(id(entry) as u32))
}

/// The id of process 1 with these nanoseconds and this counter.
fn id(nanoseconds: u32, counter: u32) -> Id {
    1 << 96 | Id::from(nanoseconds) << 32 | Id::from(counter)
}
