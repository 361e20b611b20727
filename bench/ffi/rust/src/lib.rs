//! Makes one kind of call as often as a line of standard input says, and writes a number of what
//! was answered: on the crate `iox2sd`, or on a plain program. A line is that of `bench_calls`,
//! `CALL NODES SUBSCRIBERS PUBLISHERS ROUNDS CALLS`: in each round all is set up anew.

mod attached;
mod from_rust;
pub mod plain;

use attached::Attached;
use std::io;

/// How many nodes and ports a service can have at a time.
#[derive(Clone, Copy, Debug)]
pub struct Capacities {
    nodes: u32,
    subscribers: u32,
    publishers: u32,
}

/// A publish-subscribe service, and the calls on it that are measured.
pub trait Service: Sized {
    type Node: Copy;
    type Port: Copy;
    type Handle: Copy;

    fn node(counter: u32) -> Self::Node;
    fn subscriber(node: Self::Node, counter: u32) -> Self::Port;
    fn publisher(node: Self::Node, counter: u32) -> Self::Port;

    fn make(capacities: Capacities) -> Option<Self>;
    fn register(&mut self, node: Self::Node) -> Option<Self::Handle>;
    fn attach(&mut self, port: Self::Port) -> Option<Self::Handle>;
    fn release(&mut self, port: Self::Handle) -> bool;
    /// How many ports the node had, which all go with it.
    fn die(&mut self, node: Self::Node) -> u64;
    fn port(&self, port: Self::Handle) -> Option<Self::Port>;
    fn count_subscribers(&self) -> usize;
    fn subscribers(&self) -> usize;
    fn ports_of(&self, node: Self::Node) -> usize;
}

/// Carries out the line of standard input.
pub fn main<S: Service>() -> io::Result<()> {
    let mut line = String::new();
    io::stdin().read_line(&mut line)?;
    match digest::<S>(&line) {
        Some(digest) => println!("{digest}"),
        None => println!("no such call, or it was refused"),
    }
    Ok(())
}

/// What the calls of all rounds answered.
fn digest<S: Service>(line: &str) -> Option<u64> {
    let mut words = line.split_whitespace();
    let call = words.next()?;
    let mut number = || words.next()?.parse().ok();
    let (nodes, subscribers, publishers) = (number()?, number()?, number()?);
    let capacities = Capacities {
        nodes,
        subscribers,
        publishers,
    };
    let (rounds, calls) = (number()?, number()?);
    let mut digest = 0;
    for _ in 0..rounds {
        digest += round::<S>(call, capacities, calls)?;
    }
    Some(digest)
}

fn round<S: Service>(call: &str, capacities: Capacities, calls: u32) -> Option<u64> {
    let mut all = Attached::<S>::full(capacities)?;
    match call {
        "make" => attached::make::<S>(capacities, calls),
        "attach-release" => all.attach_and_release(calls),
        "death" => Some(all.die(calls)),
        "port" => all.port(calls),
        "count" => Some(all.count(calls)),
        "ports" => Some(all.list(calls)),
        "ports-of" => Some(all.list_of_nodes(calls)),
        _ => None,
    }
}
