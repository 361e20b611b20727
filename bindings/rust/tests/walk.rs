//! Random calls on a service answer what the same calls as a script do, and their log conforms.
#![forbid(unsafe_code)]

mod common;

use common::{port, settings, KINDS};
use iox2sd::conform::{check_log, Recorder, Verdict};
use iox2sd::container::{ContainerHandle, Role};
use iox2sd::dynamic_config::*;
use iox2sd::identifiers::UniqueNodeId;
use iox2sd::messaging_pattern::MessagingPattern;
use iox2sd::script::{self, ScriptError};
use std::fmt::Display;

/// Numbers that look random, by xorshift.
struct Random(u64);

impl Random {
    fn below(&mut self, bound: usize) -> usize {
        self.0 ^= self.0 << 13;
        self.0 ^= self.0 >> 7;
        self.0 ^= self.0 << 17;
        (self.0 % bound as u64) as usize
    }

    fn id(&mut self) -> [u32; 4] {
        // A few nodes, two of which share process and counter.
        [[1, 1, 0, 1], [1, 2, 0, 1], [0, 0, 0, 2], [3, 0, 9, 0]][self.below(4)]
    }
}

fn node([process, seconds, nanoseconds, counter]: [u32; 4]) -> UniqueNodeId {
    UniqueNodeId::new(process, seconds, nanoseconds, counter).unwrap()
}

fn dotted(id: [u32; 4]) -> String {
    id.map(|part| part.to_string()).join(".")
}

fn listed(ids: impl Iterator<Item = impl Display>) -> String {
    ids.fold("list".to_string(), |line, id| format!("{line} {id}"))
}

fn state(state: DeregisterNodeState) -> &'static str {
    match state {
        DeregisterNodeState::HasOwners => "has-owners",
        DeregisterNodeState::NoMoreOwners => "no-owners",
    }
}

/// A service, the handles that its commands gave, and its run as a script and as replies.
struct Walk {
    service: Recorder,
    handles: Vec<Option<ContainerHandle>>,
    script: String,
    replies: String,
}

impl Walk {
    /// Notes a command, and its reply in the words of a script.
    fn note(&mut self, line: &str, reply: Result<ContainerHandle, String>) {
        let text = match &reply {
            Ok(handle) => format!("handle {} {}", handle.slot(), handle.ticket()),
            Err(text) => text.clone(),
        };
        self.script += &format!("{line}\n");
        self.replies += &format!("{text}\n");
        self.handles.push(reply.ok());
    }

    fn register(&mut self, random: &mut Random) {
        let id = random.id();
        let reply = self
            .service
            .register_node_id(node(id))
            .map_err(|error| match error {
                RegisterNodeResult::MarkedForDestruction => "locked".into(),
                RegisterNodeResult::ExceedsMaxNumberOfNodes => "full".into(),
            });
        self.note(&format!("register {}", dotted(id)), reply);
    }

    /// An earlier command with what it gave: mostly one that gave a handle of a node, or of a port.
    fn earlier(&self, of_node: bool, random: &mut Random) -> (usize, Option<ContainerHandle>) {
        let gave = |number: &usize| {
            let handle: Option<ContainerHandle> = self.handles[*number];
            handle.is_some_and(|handle| (handle.role() == Role::Node) == of_node)
        };
        let suitable: Vec<_> = (0..self.handles.len()).filter(gave).collect();
        let number = match suitable.len() {
            0 => random.below(self.handles.len() + 1),
            _ if random.below(8) == 0 => random.below(self.handles.len() + 1),
            length => suitable[random.below(length)],
        };
        (number, self.handles.get(number).copied().flatten())
    }

    fn deregister(&mut self, random: &mut Random) {
        let (number, handle) = self.earlier(true, random);
        use DeregisterError::{ContainerHandleNotOwnedByContainer, PortsStillAttached};
        let text = match handle.map(|handle| self.service.deregister_node_id(handle)) {
            None => "no-handle",
            Some(Ok(left)) => state(left),
            Some(Err(PortsStillAttached)) => "ports-attached",
            Some(Err(ContainerHandleNotOwnedByContainer)) => "not-owned",
            Some(Err(other)) => panic!("{other}"),
        };
        self.note(&format!("deregister {number}"), Err(text.into()));
    }

    fn release(&mut self, random: &mut Random) {
        let (number, handle) = self.earlier(false, random);
        let text = match handle.map(|handle| self.service.release_port(handle)) {
            None => "no-handle",
            Some(Ok(())) => "released",
            Some(Err(_)) => "not-owned",
        };
        self.note(&format!("release {number}"), Err(text.to_string()));
    }

    fn role(&self, random: &mut Random) -> Role {
        let (first, second) = self.service.service().port_roles();
        let (_, other, another) = KINDS[random.below(4)];
        [first, second, first, second, other, another][random.below(6)]
    }

    fn add(&mut self, random: &mut Random) {
        let (role, owner) = (self.role(random), random.id());
        let id = [7, 0, 0, random.below(5) as u32];
        let reply = self.service.attach(port(role, id, node(owner)));
        let reply = reply.map_err(|error| match error {
            AttachError::RoleNotInPattern => "wrong-pattern".into(),
            AttachError::ServiceIsLocked => "locked".into(),
            AttachError::NodeNotRegistered => "not-registered".into(),
            AttachError::OutOfSpace => "full".into(),
            other => panic!("{other}"),
        });
        let name = role.to_string().to_lowercase();
        let line = format!("add {name} {} {}", dotted(id), dotted(owner));
        self.note(&line, reply);
    }

    fn ask(&mut self, random: &mut Random) {
        let role = self.role(random);
        let name = role.to_string().to_lowercase();
        let (line, reply) = match random.below(3) {
            0 => ("nodes".to_string(), Some(listed(self.service.nodes()))),
            1 => {
                let ports = self.service.ports(role);
                let reply = ports.map(|ports| listed(ports.map(|port| port.port_id())));
                (format!("list {name}"), reply)
            }
            _ => {
                let count = self.service.count_ports(role);
                let reply = count.map(|count| format!("count {count}"));
                (format!("count {name}"), reply)
            }
        };
        self.note(&line, Err(reply.unwrap_or("wrong-pattern".to_string())));
    }

    fn dead(&mut self, random: &mut Random) {
        let id = random.id();
        let kept = (0..random.below(4)).map(|_| (self.role(random), random.below(5)));
        let kept: Vec<_> = kept.collect();
        let mut skipped = String::new();
        let left = self.service.remove_dead_node_id(&node(id), |port| {
            let counter = port.value() as u32 as usize;
            if !kept.contains(&(port.role(), counter)) {
                return PortCleanupAction::RemovePort;
            }
            skipped += &format!(" {}", dotted([7, 0, 0, counter as u32]));
            PortCleanupAction::SkipPort
        });
        let skip = if skipped.is_empty() { "" } else { " skip" };
        let line = format!("dead {}{skip}{skipped}", dotted(id));
        self.note(&line, Err(state(left).into()));
    }
}

fn walk(kind: MessagingPattern, random: &mut Random, steps: usize) -> Walk {
    let (nodes, ports) = (random.below(6), [random.below(5), random.below(5)]);
    let name = match kind {
        MessagingPattern::PublishSubscribe => "publish-subscribe",
        MessagingPattern::Event => "event",
        MessagingPattern::RequestResponse => "request-response",
        MessagingPattern::Blackboard => "blackboard",
    };
    let mut walk = Walk {
        service: Recorder::new(settings(kind, ports), nodes, 7).unwrap(),
        handles: Vec::new(),
        script: format!("service {name} 7 {nodes} {} {}\n", ports[0], ports[1]),
        replies: String::new(),
    };
    for _ in 0..steps {
        match random.below(16) {
            0..=2 => walk.register(random),
            3 => walk.deregister(random),
            4..=8 => walk.add(random),
            9..=10 => walk.release(random),
            11..=14 => walk.ask(random),
            _ => walk.dead(random),
        }
    }
    walk
}

#[test]
fn random_calls_are_those_of_a_script() {
    let mut random = Random(0x9E37_79B9_7F4A_7C15);
    let mut seen = String::new();
    for (kind, ..) in KINDS {
        for _ in 0..100 {
            let steps = 1 + random.below(60);
            let walk = walk(kind, &mut random, steps);
            let replies = script::run(&walk.script);
            assert_eq!(replies.as_ref(), Ok(&walk.replies), "{}", walk.script);
            // A handle of the other kind is not owned, and has no line in a log.
            let log = walk.service.log();
            let written: Vec<_> = log
                .lines()
                .filter_map(|line| line.strip_prefix("A< "))
                .collect();
            let owned = |reply: &&str| !["no-handle", "not-owned"].contains(reply);
            let expected = walk.replies.lines().filter(owned);
            assert!(expected.eq(written.iter().copied().filter(owned)), "{log}");
            let calls = written.len();
            assert_eq!(check_log(&log), Ok(Verdict::Conforms { calls }));
            seen += &walk.replies;
        }
    }
    let words = "handle locked full not-registered wrong-pattern has-owners no-owners \
                 ports-attached released not-owned no-handle count list";
    for word in words.split_whitespace() {
        let is_it = |line: &&str| line.split(' ').next() == Some(word);
        assert!(seen.lines().filter(is_it).count() > 20, "{word}");
    }
}

#[test]
fn a_script_ends_at_its_first_bad_line() {
    for (script, line) in [
        ("", 1),
        ("service event 7 1 2 2", 1),
        ("register 1.0.0.1\n", 1),
        ("service event 7 1 2 2\nregister 1.0.0.1\n\nnodes\n", 3),
        (
            "service event 7 1 2 2\nregister 1.0.0.1\nregister 0.0.0.0\n",
            3,
        ),
    ] {
        let error = script::run(script).unwrap_err();
        let replies = if line == 3 { "handle 0 0\n" } else { "" }.to_string();
        assert_eq!(error, ScriptError::BadLine { line, replies });
        assert_eq!(error.to_string(), format!("bad line {line}"));
    }
    let long = "service event 7 1 2 2\n".to_string() + &"register 1.0.0.1\n".repeat(500);
    let replies = script::run(&long).unwrap();
    assert_eq!(replies, "handle 0 0\n".to_string() + &"full\n".repeat(499));
    let huge = "service event 7 18446744073709551615 2 2\n";
    assert_eq!(script::run(huge), Err(ScriptError::NoMemory));
    assert_eq!(ScriptError::NoMemory.to_string(), "no memory");
}
