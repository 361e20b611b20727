//! Which call is made, how often, and among how many nodes and ports.

use crate::attached::{Attached, Capacities};
use crate::described::{self, Sizes};
use std::collections::TryReserveError;

#[derive(Clone, Copy, Debug)]
enum Call {
    Register,
    Attach,
    List,
    Nodes,
    Ports,
    Release,
    Deregister,
    Death,
    Layout,
    Verification,
    HashText,
}

/// A line of standard input: in each round all is set up anew, and then the call is made this often.
#[derive(Clone, Copy, Debug)]
pub struct Task {
    call: Call,
    capacities: Capacities,
    rounds: u32,
    calls: u32,
}

impl Task {
    /// The task of a line `CALL NODES SUBSCRIBERS PUBLISHERS ROUNDS CALLS`. For layouts the three numbers behind the
    /// call are the size of the header, the alignment, and the size of an element.
    pub fn read(line: &str) -> Option<Self> {
        let mut words = line.split_whitespace();
        let call = Call::named(words.next()?)?;
        let mut number = || words.next()?.parse().ok();
        let capacities = Capacities {
            nodes: number()?,
            subscribers: number()?,
            publishers: number()?,
        };
        Some(Task {
            call,
            capacities,
            rounds: number()?,
            calls: number()?,
        })
    }

    /// What all rounds answered.
    pub fn digest(&self) -> Result<u64, TryReserveError> {
        let mut digest = 0u64;
        for _ in 0..self.rounds {
            digest = digest.wrapping_add(self.round()?);
        }
        Ok(digest)
    }

    fn round(&self) -> Result<u64, TryReserveError> {
        match self.call {
            Call::Layout => Ok(described::layouts(self.sizes(), self.calls)),
            Call::Verification => Ok(described::verifications(self.calls)),
            Call::HashText => Ok(described::hash_texts(self.calls)),
            Call::Register => Ok(Attached::new(self.capacities)?.register(self.calls)),
            Call::Attach => Ok(Attached::with_nodes(self.capacities)?.attach_subscribers(self.calls)),
            _ => self.calls_on(&mut Attached::full(self.capacities)?),
        }
    }

    fn sizes(&self) -> Sizes {
        Sizes {
            header: self.capacities.nodes as usize,
            element: self.capacities.publishers as usize,
            alignment: self.capacities.subscribers as usize,
        }
    }

    fn calls_on(&self, attached: &mut Attached) -> Result<u64, TryReserveError> {
        Ok(match self.call {
            Call::List => attached.list(self.calls),
            Call::Nodes => attached.nodes(self.calls)?,
            Call::Ports => attached.ports(self.calls)?,
            Call::Release => attached.release(self.calls),
            Call::Deregister => attached.deregister(self.calls),
            Call::Death => attached.die(self.calls),
            _ => 0,
        })
    }
}

impl Call {
    fn named(name: &str) -> Option<Self> {
        Some(match name {
            "register" => Call::Register,
            "attach" => Call::Attach,
            "list" => Call::List,
            "nodes" => Call::Nodes,
            "ports" => Call::Ports,
            "release" => Call::Release,
            "deregister" => Call::Deregister,
            "death" => Call::Death,
            "layout" => Call::Layout,
            "verification" => Call::Verification,
            "hash-text" => Call::HashText,
            _ => return None,
        })
    }
}
