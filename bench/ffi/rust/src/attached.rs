//! The calls, on a service whose nodes and ports are those of `bench_calls`. What is passed and
//! returned is a black box to the compiler.

use crate::{Capacities, Service};
use std::hint::black_box;

/// A service with all its nodes and ports.
pub struct Attached<S: Service> {
    service: S,
    /// Those of the ports: the last one for the first port, and so on.
    nodes: Vec<S::Node>,
    subscribers: Vec<S::Handle>,
    publishers: Vec<S::Handle>,
}

/// Makes this many services, and drops each.
pub fn make<S: Service>(capacities: Capacities, calls: u32) -> Option<u64> {
    for _ in 0..calls {
        black_box(S::make(black_box(capacities))?);
    }
    Some(u64::from(calls))
}

impl<S: Service> Attached<S> {
    pub fn full(capacities: Capacities) -> Option<Self> {
        let mut service = S::make(capacities)?;
        let nodes: Vec<_> = (1..=capacities.nodes).rev().map(S::node).collect();
        for node in nodes.iter().rev() {
            service.register(*node)?;
        }
        let mut subscribers = Vec::new();
        for (number, node) in (0..capacities.subscribers).zip(&nodes) {
            subscribers.push(service.attach(S::subscriber(*node, number))?);
        }
        let mut publishers = Vec::new();
        for (number, node) in (0..capacities.publishers).zip(&nodes) {
            publishers.push(service.attach(S::publisher(*node, number))?);
        }
        Some(Attached {
            service,
            nodes,
            subscribers,
            publishers,
        })
    }

    /// Releases a publisher of the last node and attaches it again.
    pub fn attach_and_release(&mut self, calls: u32) -> Option<u64> {
        let port = S::publisher(self.nodes[0], 0);
        let handle = &mut self.publishers[0];
        let mut released = 0;
        for _ in 0..calls {
            released += u64::from(self.service.release(black_box(*handle)));
            *handle = self.service.attach(*black_box(&port))?;
        }
        Some(released)
    }

    /// So many nodes die, the last one first.
    pub fn die(&mut self, calls: u32) -> u64 {
        let dead = self.nodes.iter().take(calls as usize);
        dead.map(|node| self.service.die(*black_box(node))).sum()
    }

    pub fn port(&self, calls: u32) -> Option<u64> {
        for handle in self.subscribers.iter().cycle().take(calls as usize) {
            black_box(&self.service.port(*black_box(handle))?);
        }
        Some(u64::from(calls))
    }

    pub fn count(&self, calls: u32) -> u64 {
        let one = || black_box(&self.service).count_subscribers() as u64;
        (0..calls).map(|_| one()).sum()
    }

    pub fn list(&self, calls: u32) -> u64 {
        let one = || black_box(&self.service).subscribers() as u64;
        (0..calls).map(|_| one()).sum()
    }

    pub fn list_of_nodes(&self, calls: u32) -> u64 {
        let nodes = self.nodes.iter().cycle().take(calls as usize);
        nodes
            .map(|node| black_box(&self.service).ports_of(*black_box(node)) as u64)
            .sum()
    }
}
