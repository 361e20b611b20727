//! The lines of a log.

use super::record::{Event, Record};
use super::{Command, Reply};
use crate::container::Role;
use crate::dynamic_config::MessagingPatternSettings;
use crate::library;
use crate::plain::Plain;
use crate::sys;
use std::fmt::{self, Write};

/// The line of a service.
pub(crate) fn service(
    settings: &MessagingPatternSettings,
    max_nodes: usize,
    number: u64,
) -> String {
    let (pattern, [first, second]) = settings.parts();
    let pattern = library::pattern_str(pattern.as_c());
    format!("service {pattern} {number} {max_nodes} {first} {second}\n")
}

/// The line of a service, and below it what was recorded, in the order of time.
pub(crate) fn text(service: &str, records: &[Record]) -> String {
    let mut text = service.to_string();
    let events = records.iter().map(|record| {
        let name = record.name();
        (name, record.events().peekable())
    });
    let mut callers: Vec<_> = events.collect();
    while let Some((name, event)) = callers
        .iter_mut()
        .filter_map(|(name, events)| Some((events.peek()?.0, name, events)))
        .min_by_key(|(number, ..)| *number)
        .and_then(|(_, name, events)| Some((name, events.next()?.1)))
    {
        write_event(&mut text, name, &event).expect("a string takes all texts");
    }
    text
}

fn write_event(text: &mut String, name: &str, event: &Event<'_>) -> fmt::Result {
    text.push_str(name);
    match event {
        Event::Begin(command) => {
            text.push_str("> ");
            write_command(text, command)?;
        }
        Event::End(reply) => {
            text.push_str("< ");
            write_reply(text, reply)?;
        }
        Event::Death => text.push('!'),
    }
    text.push('\n');
    Ok(())
}

fn write_command(text: &mut String, command: &Command) -> fmt::Result {
    match command {
        Command::Register(node) => write!(text, "register {}", Dotted(node.as_c())),
        Command::Deregister { slot, ticket } => write!(text, "deregister {slot} {ticket}"),
        Command::Add(port, node) => {
            let (role, port) = (word_of(port.role()), Dotted(port.parts()));
            write!(text, "add {role} {port} {}", Dotted(node.as_c()))
        }
        Command::Release { role, slot, ticket } => {
            write!(text, "release {} {slot} {ticket}", word_of(*role))
        }
        Command::Dead(node, skipped) => {
            write!(text, "dead {}", Dotted(node.as_c()))?;
            text.push_str(if skipped.is_empty() { "" } else { " skip" });
            let mut ports = skipped.iter();
            ports.try_for_each(|port| write!(text, " {}", Dotted(port.parts())))
        }
        Command::Nodes => text.write_str("nodes"),
        Command::List(role) => write!(text, "list {}", word_of(*role)),
        Command::Count(role) => write!(text, "count {}", word_of(*role)),
        Command::NodesWeak => text.write_str("nodes?"),
        Command::ListWeak(role) => write!(text, "list? {}", word_of(*role)),
    }
}

fn write_reply(text: &mut String, reply: &Reply) -> fmt::Result {
    let word = match reply {
        Reply::Handle { slot, ticket } => return write!(text, "handle {slot} {ticket}"),
        Reply::Count(ports) => return write!(text, "count {ports}"),
        Reply::Nodes(nodes) => return write_list(text, nodes),
        Reply::Ports(ports) => return write_list(text, ports),
        Reply::Locked => "locked",
        Reply::NotRegistered => "not-registered",
        Reply::Full => "full",
        Reply::WrongPattern => "wrong-pattern",
        Reply::HasOwners => "has-owners",
        Reply::NoOwners => "no-owners",
        Reply::PortsAttached => "ports-attached",
        Reply::Released => "released",
        Reply::NotOwned => "not-owned",
    };
    text.write_str(word)
}

/// Ids as replies have them.
fn write_list(text: &mut String, ids: &[impl fmt::Display]) -> fmt::Result {
    text.push_str("list");
    ids.iter().try_for_each(|id| write!(text, " {id}"))
}

/// An id as commands have it.
struct Dotted(sys::iox2sd_id);

impl fmt::Display for Dotted {
    fn fmt(&self, f: &mut fmt::Formatter<'_>) -> fmt::Result {
        let sys::iox2sd_id {
            process,
            seconds,
            nanoseconds,
            counter,
        } = self.0;
        write!(f, "{process}.{seconds}.{nanoseconds}.{counter}")
    }
}

/// A role as commands have it.
fn word_of(role: Role) -> &'static str {
    library::role_str(role.as_c())
}
