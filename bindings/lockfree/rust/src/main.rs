//! Makes random calls on the registry from several threads without pauses, and writes the log of
//! what they saw, which `iox2-conform` judges, to standard output.
//!
//! ```text
//! record THREADS CALLS SEED [SERVICES]
//! ```
//!
//! At most eight `THREADS` together make about `CALLS` calls on each of the `SERVICES`, one service
//! after another. Where there is one service, a node of the main thread stays registered until the
//! others are done, so that it is not locked before.
#![forbid(unsafe_code)]

mod container;
mod registry;

use container::Handle;
use iox2sd::container::Role;
use iox2sd::dynamic_config::event::DynamicConfigSettings;
use iox2sd::identifiers::{UniqueListenerId, UniqueNodeId, UniqueNotifierId, UniquePortId};
use iox2sd::log::{Caller, Command, LogError, LogWriter, Reply};
use registry::Registry;
use std::env;
use std::error::Error;
use std::sync::atomic::{AtomicU64, AtomicUsize, Ordering};
use std::thread;

const NODES: usize = 6;
const PORTS: [usize; 2] = [5, 4];
const ROLES: [Role; 2] = [Role::Listener, Role::Notifier];
/// The most threads, the main one with them.
const THREADS: usize = 9;

/// Numbers that look random, by xorshift.
struct Dice(u64);

impl Dice {
    fn below(&mut self, bound: usize) -> usize {
        self.0 ^= self.0 << 13;
        self.0 ^= self.0 >> 7;
        self.0 ^= self.0 << 17;
        (self.0 >> 20) as usize % bound
    }
}

/// A handle that other threads may try to remove too.
#[derive(Default)]
struct Shared(AtomicU64);

impl Shared {
    fn set(&self, handle: Handle) {
        let packed = (handle.ticket + 1) << 8 | handle.slot as u64;
        self.0.store(packed, Ordering::Release);
    }

    fn get(&self) -> Option<Handle> {
        let packed = self.0.load(Ordering::Acquire);
        let ticket = (packed >> 8).checked_sub(1)?;
        let slot = (packed & 0xff) as usize;
        Some(Handle { slot, ticket })
    }
}

/// A service, and what its threads share.
struct Service {
    registry: Registry,
    nodes: [Shared; THREADS],
    ports: [[Shared; THREADS]; 2],
    waiting: AtomicUsize,
}

/// A thread that calls the registry, and writes down what it saw.
struct Thread<'a> {
    service: &'a Service,
    number: u32,
    dice: Dice,
    caller: Caller<'a>,
    nodes: [Option<Handle>; 2],
    ports: u32,
}

fn packed(process: u32, counter: u32) -> u64 {
    u64::from(process) << 32 | u64::from(counter)
}

fn node_of(id: u64) -> UniqueNodeId {
    UniqueNodeId::new((id >> 32) as u32, 0, 0, id as u32).expect("the id of a node")
}

fn port_of(role: Role, id: u64) -> UniquePortId {
    let (process, counter) = ((id >> 32) as u32, id as u32);
    if role == Role::Listener {
        UniquePortId::Listener(UniqueListenerId::new(process, 0, 0, counter))
    } else {
        UniquePortId::Notifier(UniqueNotifierId::new(process, 0, 0, counter))
    }
}

fn handle_reply(handle: Handle) -> Reply {
    let Handle { slot, ticket } = handle;
    Reply::Handle { slot, ticket }
}

impl<'a> Thread<'a> {
    fn new(log: &'a LogWriter, service: &'a Service, number: u32, seed: u64) -> Self {
        let name = char::from(b'A' + number as u8).to_string();
        let seed = (seed * 64 + u64::from(number)).wrapping_mul(0x9E37_79B9_7F4A_7C15) | 1;
        Thread {
            service,
            number,
            dice: Dice(seed),
            caller: log.caller(&name).expect("a name, and memory"),
            nodes: [None; 2],
            ports: 0,
        }
    }

    /// Waits for the others, so that all begin together, and makes the calls.
    fn run(mut self, calls: usize) -> Result<(), LogError> {
        self.caller.reserve(calls)?;
        self.service.waiting.fetch_sub(1, Ordering::SeqCst);
        while self.service.waiting.load(Ordering::SeqCst) > 0 {
            thread::yield_now();
        }
        (0..calls).try_for_each(|_| self.step())
    }

    fn step(&mut self) -> Result<(), LogError> {
        let kind = self.dice.below(16);
        let (which, role) = (self.dice.below(2), self.dice.below(2));
        let other = self.dice.below(THREADS - 1);
        match (kind, self.nodes[which]) {
            (0..=4, Some(handle)) => self.leave(which, handle),
            (0..=4, None) => self.register(which),
            (5..=7, _) => self.attach(which, role),
            (8..=10, _) => self.release(role, self.number as usize),
            (11, _) => self.release(role, other),
            (12, _) => self.remove_other(other),
            (13, _) => self.list_nodes(),
            (14, _) => self.list_ports(ROLES[role]),
            _ => self.count(ROLES[role]),
        }
    }

    fn node(&self, which: usize) -> u64 {
        packed(self.number + 1, which as u32)
    }

    fn register(&mut self, which: usize) -> Result<(), LogError> {
        let node = self.node(which);
        let call = self.caller.begin(Command::Register(node_of(node)))?;
        let made = self.service.registry.register(node);
        let handle = made.as_ref().ok().copied();
        call.end(made.map_or_else(|reply| reply, handle_reply));
        if let Some(handle) = handle {
            self.service.nodes[self.number as usize].set(handle);
        }
        self.nodes[which] = handle;
        Ok(())
    }

    /// Removes a node of the thread's own.
    fn leave(&mut self, which: usize, handle: Handle) -> Result<(), LogError> {
        if self.deregister(handle)? != Reply::PortsAttached {
            self.nodes[which] = None;
        }
        Ok(())
    }

    fn deregister(&mut self, handle: Handle) -> Result<Reply, LogError> {
        let Handle { slot, ticket } = handle;
        let call = self.caller.begin(Command::Deregister { slot, ticket })?;
        let reply = self.service.registry.deregister(handle);
        call.end(reply.clone());
        Ok(reply)
    }

    fn remove_other(&mut self, other: usize) -> Result<(), LogError> {
        match self.service.nodes[other].get() {
            Some(handle) => self.deregister(handle).map(|_| ()),
            None => Ok(()),
        }
    }

    fn attach(&mut self, which: usize, role: usize) -> Result<(), LogError> {
        let (node, port) = (self.node(which), packed(self.number + 1, self.ports));
        self.ports += 1;
        let command = Command::Add(port_of(ROLES[role], port), node_of(node));
        let call = self.caller.begin(command)?;
        let made = self.service.registry.attach(ROLES[role], port, node);
        let handle = made.as_ref().ok().copied();
        call.end(made.map_or_else(|reply| reply, handle_reply));
        if let Some(handle) = handle {
            self.service.ports[role][self.number as usize].set(handle);
        }
        Ok(())
    }

    fn release(&mut self, at: usize, other: usize) -> Result<(), LogError> {
        let Some(handle) = self.service.ports[at][other].get() else {
            return Ok(());
        };
        let (role, Handle { slot, ticket }) = (ROLES[at], handle);
        let call = self.caller.begin(Command::Release { role, slot, ticket })?;
        call.end(self.service.registry.release(role, handle));
        Ok(())
    }

    fn list_nodes(&mut self) -> Result<(), LogError> {
        let call = self.caller.begin(Command::Nodes)?;
        let ids = self.service.registry.nodes();
        call.end(Reply::Nodes(ids.into_iter().map(node_of).collect()));
        Ok(())
    }

    fn list_ports(&mut self, role: Role) -> Result<(), LogError> {
        let call = self.caller.begin(Command::List(role))?;
        let ids = self.service.registry.ports(role);
        call.end(Reply::Ports(
            ids.into_iter().map(|id| port_of(role, id)).collect(),
        ));
        Ok(())
    }

    fn count(&mut self, role: Role) -> Result<(), LogError> {
        let call = self.caller.begin(Command::Count(role))?;
        call.end(Reply::Count(self.service.registry.count(role)));
        Ok(())
    }
}

/// Makes calls on a service by so many threads. Returns its log.
fn run(number: u64, threads: usize, calls: usize, seed: u64, stays_open: bool) -> String {
    let settings = DynamicConfigSettings {
        number_of_listeners: PORTS[0],
        number_of_notifiers: PORTS[1],
    };
    let mut log = LogWriter::new(settings, NODES, number);
    let service = Service {
        registry: Registry::new(NODES, PORTS[0], PORTS[1]),
        nodes: Default::default(),
        ports: Default::default(),
        waiting: AtomicUsize::new(threads),
    };
    let mut main = Thread::new(&log, &service, THREADS as u32 - 1, seed);
    if stays_open {
        main.register(1).expect("memory");
    }
    thread::scope(|scope| {
        for at in 0..threads {
            let caller = Thread::new(&log, &service, at as u32, seed);
            scope.spawn(move || caller.run(calls / threads).expect("memory"));
        }
    });
    if let Some(handle) = main.nodes[1] {
        main.leave(1, handle).expect("memory");
    }
    drop(main);
    log.text()
}

/// Prints a log. Where others stand above it, each begin of a call has the number of its service.
fn print(log: &str, number: u64, is_alone: bool) {
    for line in log.lines() {
        let sign = line.find(['<', '>', '!', ' ']);
        if !is_alone && sign.is_some_and(|at| line[at..].starts_with('>')) {
            print!("{number}: ");
        }
        println!("{line}");
    }
}

fn main() -> Result<(), Box<dyn Error>> {
    let words: Vec<String> = env::args().skip(1).collect();
    let [threads, calls, seed, rest @ ..] = words.as_slice() else {
        return Err("record THREADS CALLS SEED [SERVICES]".into());
    };
    let (threads, calls, seed): (usize, usize, u64) =
        (threads.parse()?, calls.parse()?, seed.parse()?);
    let services = rest.first().map_or(Ok(1), |services| services.parse())?;
    for number in 1..=services {
        let is_alone = services == 1;
        print(
            &run(number, threads, calls, seed + number, is_alone),
            number,
            is_alone,
        );
    }
    Ok(())
}
