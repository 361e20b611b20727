//! The registry of `registry.hpp`, which says how it works and when each call takes effect.

use crate::container::{Container, Handle, Patience, Refusal, State};
use iox2sd::container::Role;
use iox2sd::log::Reply;

/// An event service: its nodes, listeners and notifiers. Its calls reply as `docs/SCRIPT.md` says.
pub struct Registry {
    patience: Patience,
    nodes: Container,
    listeners: Container,
    notifiers: Container,
}

impl Registry {
    pub fn new(nodes: usize, listeners: usize, notifiers: usize) -> Self {
        Registry {
            patience: Patience::default(),
            nodes: Container::new(nodes),
            listeners: Container::new(listeners),
            notifiers: Container::new(notifiers),
        }
    }

    pub fn register(&self, node: u64) -> Result<Handle, Reply> {
        let made = self.nodes.add(node, node, &self.patience);
        made.map_err(reply_of)
    }

    pub fn deregister(&self, handle: Handle) -> Reply {
        let mut wait = self.patience.begin();
        while let Some(cell) = self.nodes.find(handle, &self.patience) {
            let node = self.nodes.node_of(handle.slot);
            let going = cell.with(State::Goes);
            if cell.ports() == 0 && self.nodes.change(handle.slot, cell, going) {
                return if self.nodes.end(handle.slot, going, true) {
                    Reply::HasOwners
                } else {
                    Reply::NoOwners
                };
            }
            let has_ports = self.listeners.has_entry_of(node) || self.notifiers.has_entry_of(node);
            if has_ports && self.nodes.find(handle, &self.patience).is_some() {
                return Reply::PortsAttached;
            }
            if !wait.once_more() {
                break; // A port that comes or goes was lost.
            }
        }
        Reply::NotOwned
    }

    pub fn attach(&self, role: Role, port: u64, node: u64) -> Result<Handle, Reply> {
        let owner = self.nodes.slot_of(node, &self.patience);
        let Some(owner) = owner.filter(|owner| self.count_port(*owner, true)) else {
            let is_locked = self.nodes.is_locked();
            return Err(if is_locked {
                Reply::Locked
            } else {
                Reply::NotRegistered
            });
        };
        self.of(role)
            .add(port, node, &self.patience)
            .map_err(|refusal| {
                self.count_port(owner, false);
                reply_of(refusal)
            })
    }

    pub fn release(&self, role: Role, handle: Handle) -> Reply {
        let ports = self.of(role);
        while let Some(cell) = ports.find(handle, &self.patience) {
            let node = ports.node_of(handle.slot);
            let owner = self.nodes.slot_of(node, &self.patience);
            let going = cell.with(State::Goes);
            if ports.change(handle.slot, cell, going) {
                ports.end(handle.slot, going, false);
                if let Some(owner) = owner {
                    self.count_port(owner, false);
                }
                return Reply::Released;
            }
        }
        Reply::NotOwned
    }

    pub fn nodes(&self) -> Vec<u64> {
        self.nodes.list(&self.patience)
    }

    pub fn ports(&self, role: Role) -> Vec<u64> {
        self.of(role).list(&self.patience)
    }

    pub fn count(&self, role: Role) -> usize {
        self.of(role).count()
    }

    fn of(&self, role: Role) -> &Container {
        if role == Role::Listener {
            &self.listeners
        } else {
            &self.notifiers
        }
    }

    /// A port of the node comes or goes: while one is there, the node does not go. Returns whether
    /// the node is there.
    fn count_port(&self, node: Handle, comes: bool) -> bool {
        while let Some(cell) = self.nodes.find(node, &self.patience) {
            if self.nodes.change(node.slot, cell, cell.with_port(comes)) {
                return true;
            }
        }
        false
    }
}

fn reply_of(refusal: Refusal) -> Reply {
    match refusal {
        Refusal::Full => Reply::Full,
        Refusal::Locked => Reply::Locked,
    }
}
