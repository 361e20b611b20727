//! Logs: verdicts, with a short and a long report, and logs that threads write.
#![forbid(unsafe_code)]

use std::collections::HashSet;
use std::thread;

use iox2sd::conform::{check_log, Configuration, Expected, Refusal, Verdict};
use iox2sd::container::Role;
use iox2sd::dynamic_config::{blackboard, event, publish_subscribe, request_response};
use iox2sd::identifiers::{UniqueListenerId, UniqueNodeId, UniqueNotifierId, UniquePortId};
use iox2sd::log::{Caller, Command, LogError, LogWriter, Reply};

const SERVICE: &str = "service event 7 200 2 2\n";

/// Nodes and ports by their counters.
fn told(made: &[usize], possible: &str, nodes: &[u32], ports: &[u128]) -> Configuration {
    Configuration {
        made: made.to_vec(),
        possible: possible.to_string(),
        nodes: nodes.iter().copied().map(node).collect(),
        ports: ports.iter().map(|counter| (1 << 96) + counter).collect(),
    }
}

fn node(counter: u32) -> UniqueNodeId {
    UniqueNodeId::new(1, 0, 0, counter).unwrap()
}

/// The reply in a line is refused, to the command in another one.
fn no_order(
    (line, words): (usize, &str),
    (call, command): (usize, &str),
    needed: &[usize],
    told: Vec<Configuration>,
) -> Verdict {
    Verdict::NoOrder(Refusal {
        line,
        reply_line: line,
        words: words.to_string(),
        call,
        command: command.to_string(),
        window: needed[0],
        needed: needed.to_vec(),
        configurations: told,
    })
}

#[test]
fn a_log_conforms_with_its_calls() {
    for calls in [0, 1, 30] {
        let log = SERVICE.to_string() + &"count listener\n# a note\n= count 0\n".repeat(calls);
        assert_eq!(check_log(&log), Ok(Verdict::Conforms { calls }));
    }
}

#[test]
fn a_line_is_not_what_is_expected() {
    let cases = [
        ("nodes\n", 3, Expected::Reply),
        ("nodes\n= list A\n", 3, Expected::Reply),
        ("\nleave\n", 3, Expected::Call),
        ("overlap\n", 2, Expected::Call),
        ("A> nodes\nA> nodes\n", 3, Expected::IdleCaller),
        ("A< list\n", 2, Expected::OpenCall),
        ("A> nodes\nA!\nA!\n", 4, Expected::LiveCaller),
        ("A!\n", 2, Expected::KnownCaller),
        ("nodes\n= list\nnodes\n= list", 5, Expected::Newline),
        ("nodes\r\n", 2, Expected::NoCarriageReturn),
        ("state nodes 3\nstate nodes 4\n", 3, Expected::State),
    ];
    for (rest, line, expected) in cases {
        let found = check_log(&(SERVICE.to_string() + rest));
        assert_eq!(found, Ok(Verdict::BadLine { line, expected }), "{rest}");
    }
    let expected = Expected::Service;
    assert_eq!(check_log(""), Ok(Verdict::BadLine { line: 1, expected }));
}

#[test]
fn a_reply_is_refused_with_what_it_could_have_been() {
    for nodes in [1, 200] {
        let registered: String = (0..nodes)
            .map(|k| format!("register 1.0.0.1\n= handle {k} {k}\n"))
            .collect();
        let calls = "add listener 1.0.0.11 1.0.0.1\n= handle 1 0\nrelease 0\n= released\n";
        let each = vec![told(&[], "not-owned", &vec![1; nodes], &[11])];
        let line = 2 * nodes + 5;
        let found = check_log(&(SERVICE.to_string() + &registered + calls));
        let release = (line - 1, "release 0");
        let refused = no_order((line, "released"), release, &[line], each);
        assert_eq!(found, Ok(refused));
    }
}

#[test]
fn calls_that_overlapped_have_an_order_or_none() {
    let both = "service event 7 1 0 0\nA> register 1.0.0.1\nB> register 1.0.0.2\n".to_string();
    let one = check_log(&(both.clone() + "A< handle 0 0\nB< full\n"));
    assert_eq!(one, Ok(Verdict::Conforms { calls: 2 }));
    let two = check_log(&(both + "A< handle 0 0\nB< handle 0 1\n"));
    let full = vec![told(&[], "full", &[1], &[])];
    let register = (3, "B> register 1.0.0.2");
    let refused = no_order((5, "handle 0 1"), register, &[2, 3], full);
    assert_eq!(two, Ok(refused));
}

/// The first node is registered again and gets a port, while it is removed as a dead one: first,
/// last, or after the port was attached and before it is registered.
const THREE: &str = "\
register 1.0.0.1
= handle 0 0
register 1.0.0.2
= handle 1 1
A> dead 1.0.0.1
B> register 1.0.0.1
C> add listener 1.0.0.9 1.0.0.1
A< has-owners
B< handle 2 2
C< handle 0 0
";

#[test]
fn a_refusal_has_each_configuration() {
    let with = |calls: &str| check_log(&(SERVICE.to_string() + THREE + calls));
    let Ok(Verdict::NoOrder(refusal)) = with("count listener\n= count 7\n") else {
        panic!("no order explains it");
    };
    assert_eq!((refusal.line, refusal.window), (13, 13));
    assert_eq!(refusal.needed, [13]);
    assert_eq!(refusal.words, "count 7");
    assert_eq!(
        (refusal.call, refusal.command.as_str()),
        (12, "count listener")
    );
    let each = [
        told(&[], "count 1", &[2, 1], &[9]),
        told(&[], "count 0", &[2], &[]),
        told(&[], "count 0", &[2, 1], &[]),
    ];
    let found: HashSet<_> = refusal.configurations.iter().collect();
    assert_eq!(found, each.iter().collect());
    assert_eq!(refusal.configurations.len(), 3);
    // The port is there, so that one state is left.
    let conforms = with("count listener\n= count 1\nrelease listener 0 0\n= released\n");
    assert_eq!(conforms, Ok(Verdict::Conforms { calls: 7 }));
}

#[test]
fn open_calls_are_told_by_their_lines() {
    let listed = "list 1000000000000000000000001";
    let log = format!("A> register 1.0.0.1\nnodes\n= {listed}\nnodes\n= list\n");
    let found = check_log(&format!("service event 7 1 0 0\n{log}"));
    let made = vec![told(&[2], listed, &[1], &[])];
    let refused = no_order((6, "list"), (5, "nodes"), &[2, 4, 6], made);
    assert_eq!(found, Ok(refused));
}

/// A listing sees a node whose registration is open, until a reply says that it was not registered.
#[test]
fn a_reply_below_decides() {
    let listed = "list 1000000000000000000000001";
    let with = |calls: &str| {
        let open = "A> register 1.0.0.1\nB> nodes\n";
        check_log(&format!("{SERVICE}{open}B< {listed}\n{calls}"))
    };
    assert_eq!(with("A< handle 0 0\n"), Ok(Verdict::Conforms { calls: 2 }));
    assert_eq!(with(""), Ok(Verdict::Conforms { calls: 2 }));
    let each = vec![told(&[], "list", &[], &[])];
    let refused = no_order((4, listed), (3, "B> nodes"), &[2, 3], each);
    let Verdict::NoOrder(mut refusal) = refused else {
        unreachable!()
    };
    refusal.line = 6;
    let found = with("# a note\nA< handle 0 5\n");
    let text = "line 6: seen in line 4: list 1000000000000000000000001; call: B> nodes (line 3); \
                possible: list";
    assert_eq!(refusal.to_string(), text);
    assert_eq!(found, Ok(Verdict::NoOrder(refusal)));
}

#[test]
fn at_most_64_calls_are_open() {
    let open = |calls: usize| {
        let lines: String = (0..calls).map(|k| format!("c{k}> nodes\n")).collect();
        check_log(&(SERVICE.to_string() + &lines))
    };
    assert_eq!(open(64), Ok(Verdict::Conforms { calls: 64 }));
    assert_eq!(open(65), Ok(Verdict::TooManyOpenCalls { line: 66 }));
}

/// So many times a node is registered again before or after it is removed as a dead one, which
/// doubles the configurations.
fn doubled(times: usize) -> String {
    let nodes = 0..14;
    let first: String = nodes
        .map(|k| format!("register 1.0.0.{k}\n= handle {k} {k}\n"))
        .collect();
    let twice = (0..times).map(|k| {
        let (begins, handle) = (
            format!("A> dead 1.0.0.{k}\nB> register 1.0.0.{k}\n"),
            k + 14,
        );
        format!("{begins}A< has-owners\nB< handle {handle} {handle}\n")
    });
    SERVICE.to_string() + &first + &twice.collect::<String>()
}

#[test]
fn at_most_4096_configurations_are_followed() {
    let most = check_log(&doubled(12));
    assert_eq!(most, Ok(Verdict::Conforms { calls: 38 }));
    let Ok(Verdict::TooManyConfigurations { line }) = check_log(&doubled(13)) else {
        panic!("more than 4,096 configurations");
    };
    // One of the four lines of the last node, of which two end calls.
    assert!((78..=81).contains(&line), "{line}");
}

#[test]
fn verdicts_differ_by_each_field() {
    let one = told(&[2], "list", &[1], &[2]);
    let refusal = |told| no_order((3, "x"), (2, "c"), &[2, 3], vec![told]);
    let Verdict::NoOrder(mut above) = refusal(one.clone()) else {
        unreachable!()
    };
    above.reply_line = 2;
    let bad = |expected| Verdict::BadLine { line: 3, expected };
    let different = [
        no_order((4, "x"), (2, "c"), &[2, 3], vec![one.clone()]),
        no_order((3, "y"), (2, "c"), &[2, 3], vec![one.clone()]),
        no_order((3, "x"), (1, "c"), &[2, 3], vec![one.clone()]),
        no_order((3, "x"), (2, "d"), &[2, 3], vec![one.clone()]),
        no_order((3, "x"), (2, "c"), &[3], vec![one.clone()]),
        no_order((3, "x"), (2, "c"), &[2, 4], vec![one.clone()]),
        no_order((3, "x"), (2, "c"), &[2, 3], vec![one.clone(), one.clone()]),
        Verdict::NoOrder(above),
        refusal(told(&[], "list", &[1], &[2])),
        refusal(told(&[2], "count 1", &[1], &[2])),
        refusal(told(&[2], "list", &[2], &[2])),
        refusal(told(&[2], "list", &[1], &[3])),
        refusal(one),
        Verdict::TooManyConfigurations { line: 3 },
        Verdict::TooManyConfigurations { line: 4 },
        Verdict::TooManyOpenCalls { line: 3 },
        Verdict::TooManyOpenCalls { line: 4 },
        Verdict::Conforms { calls: 3 },
        bad(Expected::Reply),
        bad(Expected::IdleCaller),
        bad(Expected::OpenCall),
    ];
    for (at, one) in different.iter().enumerate() {
        let equal = different.iter().filter(|other| *other == one).count();
        assert_eq!(equal, 1, "{at}");
        assert_eq!(*one, one.clone());
    }
    assert_eq!(
        different.iter().collect::<HashSet<_>>().len(),
        different.len()
    );
}

// ---- Logs that threads write ----

fn a_log() -> LogWriter {
    let ports = event::DynamicConfigSettings {
        number_of_listeners: 3,
        number_of_notifiers: 2,
    };
    LogWriter::new(ports, 4, 7)
}

/// What stands below the line of the service.
fn lines(mut log: LogWriter) -> String {
    let text = log.text();
    let rest = text.strip_prefix("service event 7 4 3 2\n");
    rest.expect("the line of the service").to_string()
}

#[test]
fn each_service_has_its_line() {
    let publish_subscribe = publish_subscribe::DynamicConfigSettings {
        number_of_publishers: 1,
        number_of_subscribers: 2,
    };
    let request_response = request_response::DynamicConfigSettings {
        number_of_servers: 1,
        number_of_clients: 2,
    };
    let blackboard = blackboard::DynamicConfigSettings {
        number_of_readers: 1,
        number_of_writers: 2,
    };
    let texts = [
        LogWriter::new(publish_subscribe, 4, 7).text(),
        LogWriter::new(request_response, 4, 7).text(),
        LogWriter::new(blackboard, 4, 7).text(),
    ];
    assert_eq!(
        texts,
        ["publish-subscribe", "request-response", "blackboard"]
            .map(|pattern| format!("service {pattern} 7 4 1 2\n"))
    );
}

#[test]
fn each_command_has_its_line() {
    let port = UniquePortId::Listener(UniqueListenerId::new(u32::MAX, 0, 10, 3));
    let (slot, ticket) = (12, u64::MAX);
    let commands = [
        (Command::Register(node(1)), "register 1.0.0.1"),
        (
            Command::Deregister { slot, ticket },
            "deregister 12 18446744073709551615",
        ),
        (
            Command::Add(port, node(1)),
            "add listener 4294967295.0.10.3 1.0.0.1",
        ),
        (
            Command::Release {
                role: Role::Notifier,
                slot,
                ticket: 0,
            },
            "release notifier 12 0",
        ),
        (Command::Dead(node(1), vec![]), "dead 1.0.0.1"),
        (
            Command::Dead(node(1), vec![port, port]),
            "dead 1.0.0.1 skip 4294967295.0.10.3 4294967295.0.10.3",
        ),
        (Command::Nodes, "nodes"),
        (Command::List(Role::Client), "list client"),
        (Command::Count(Role::Writer), "count writer"),
        (Command::NodesWeak, "nodes?"),
        (Command::ListWeak(Role::Server), "list? server"),
    ];
    for (command, line) in commands {
        let log = a_log();
        let mut caller = log.caller("worker1").unwrap();
        caller.begin(command).unwrap().end(Reply::Full);
        drop(caller);
        assert_eq!(lines(log), format!("worker1> {line}\nworker1< full\n"));
    }
}

#[test]
fn each_reply_has_its_line() {
    let port = UniquePortId::Notifier(UniqueNotifierId::new(0, 0, 0, 11));
    let (slot, ticket) = (0, u64::MAX);
    let replies = [
        (
            Reply::Handle { slot, ticket },
            "handle 0 18446744073709551615",
        ),
        (Reply::Count(17), "count 17"),
        (Reply::Nodes(vec![]), "list"),
        (
            Reply::Nodes(vec![node(1), node(2)]),
            "list 1000000000000000000000001 1000000000000000000000002",
        ),
        (Reply::Ports(vec![port]), "list b"),
        (Reply::Locked, "locked"),
        (Reply::NotRegistered, "not-registered"),
        (Reply::Full, "full"),
        (Reply::WrongPattern, "wrong-pattern"),
        (Reply::HasOwners, "has-owners"),
        (Reply::NoOwners, "no-owners"),
        (Reply::PortsAttached, "ports-attached"),
        (Reply::Released, "released"),
        (Reply::NotOwned, "not-owned"),
    ];
    for (reply, line) in replies {
        let log = a_log();
        let mut caller = log.caller("A").unwrap();
        caller.begin(Command::Nodes).unwrap().end(reply);
        drop(caller);
        assert_eq!(lines(log), format!("A> nodes\nA< {line}\n"));
    }
}

#[test]
fn lines_stand_in_the_order_of_time() {
    let log = a_log();
    let (mut a, mut b) = (log.caller("A").unwrap(), log.caller("B").unwrap());
    let first = b.begin(Command::Register(node(1))).unwrap();
    a.begin(Command::Nodes).unwrap().end(Reply::Nodes(vec![]));
    let second = a.begin(Command::Nodes).unwrap();
    first.end(Reply::Handle { slot: 2, ticket: 0 });
    second.end(Reply::Nodes(vec![node(1)]));
    drop(b.begin(Command::Nodes).unwrap());
    assert_eq!(b.begin(Command::Nodes).unwrap_err(), LogError::CallerIsBusy);
    drop(a.begin(Command::Nodes).unwrap());
    a.died();
    b.died();
    log.caller("C").unwrap().died(); // It has begun no call.
    let text = lines(log);
    assert!(
        text.ends_with(
            "A< list\nA> nodes\nB< handle 2 0\nA< list 1000000000000000000000001\n\
             B> nodes\nA> nodes\nA!\nB!\n"
        ) || text.ends_with(
            "A< list\nA> nodes\nB< handle 2 0\nA< list 1000000000000000000000001\n\
             A> nodes\nB> nodes\nA!\nB!\n"
        ),
        "{text}"
    );
}

/// A node and a listener come to the registry.
fn come(caller: &mut Caller<'_>, counter: u32, slot: usize, ticket: u64) {
    let handle = Reply::Handle { slot, ticket };
    let node = node(counter);
    let register = caller.begin(Command::Register(node)).unwrap();
    register.end(handle.clone());
    let add = caller.begin(Command::Add(listener(counter), node)).unwrap();
    add.end(handle);
}

fn listener(counter: u32) -> UniquePortId {
    UniquePortId::Listener(UniqueListenerId::new(1, 0, 0, counter))
}

/// The line of the reply to a listing where it is refused. 9 stays all through the call, 10 leaves
/// in it, and 11 comes then.
fn refused(listing: Command, reply: Reply) -> Option<usize> {
    let mut log = a_log();
    let (mut a, mut b) = (log.caller("A").unwrap(), log.caller("B").unwrap());
    come(&mut b, 9, 0, 0);
    come(&mut b, 10, 1, 1);
    let open = a.begin(listing).unwrap();
    let (role, slot, ticket) = (Role::Listener, 1, 1);
    let release = b.begin(Command::Release { role, slot, ticket }).unwrap();
    release.end(Reply::Released);
    let deregister = b.begin(Command::Deregister { slot, ticket }).unwrap();
    deregister.end(Reply::HasOwners);
    come(&mut b, 11, 1, 2);
    open.end(reply);
    drop((a, b));
    match check_log(&log.text()) {
        Ok(Verdict::Conforms { calls: 9 }) => None,
        Ok(Verdict::NoOrder(refusal)) => Some(refusal.line),
        other => panic!("{other:?}"),
    }
}

#[test]
fn weak_listings_have_what_stays_and_others_are_snapshots() {
    let nodes = |listing, seen: &[u32]| {
        let seen = seen.iter().copied().map(node).collect();
        refused(listing, Reply::Nodes(seen))
    };
    let ports = |listing, seen: &[u32]| {
        let seen = seen.iter().copied().map(listener).collect();
        refused(listing, Reply::Ports(seen))
    };
    let weak = Command::ListWeak(Role::Listener);
    for (seen, line) in [
        (&[9, 10, 11][..], None),
        (&[9], None),
        (&[10, 11], Some(19)),
        (&[9, 12], Some(19)),
    ] {
        assert_eq!(nodes(Command::NodesWeak, seen), line, "{seen:?}");
        assert_eq!(ports(weak.clone(), seen), line, "{seen:?}");
    }
    assert_eq!(nodes(Command::Nodes, &[9, 10, 11]), Some(19));
    assert_eq!(ports(Command::List(Role::Listener), &[9, 10, 11]), Some(19));
}

#[test]
fn a_role_is_that_of_a_port() {
    let (role, slot, ticket) = (Role::Node, 0, 0);
    for command in [
        Command::Release { role, slot, ticket },
        Command::List(role),
        Command::Count(role),
        Command::ListWeak(role),
    ] {
        let log = a_log();
        let mut caller = log.caller("A").unwrap();
        assert_eq!(caller.begin(command).unwrap_err(), LogError::NoPort);
    }
}

#[test]
fn names_have_one_to_sixteen_letters_and_digits() {
    let log = a_log();
    for name in ["a", "A12345678901234b"] {
        assert!(log.caller(name).is_ok());
    }
    for name in ["", "A12345678901234bc", "A>", "a b", "\u{e4}", "a\0"] {
        assert_eq!(log.caller(name).unwrap_err(), LogError::NoName);
    }
}

/// A name is taken exactly where the judge reads it as that of a caller.
#[test]
fn names_are_those_that_the_judge_reads() {
    let log = a_log();
    let letters = (0..=u8::MAX).map(char::from);
    let lengths = (0..40).map(|length| "A".repeat(length));
    for name in letters.map(String::from).chain(lengths) {
        let judged = check_log(&format!("{SERVICE}{name}> nodes\n"));
        let is_read = judged == Ok(Verdict::Conforms { calls: 1 });
        assert_eq!(log.caller(&name).is_ok(), is_read, "{name:?}");
    }
}

#[test]
fn threads_write_one_log() {
    let log = a_log();
    thread::scope(|scope| {
        for name in ["A", "B", "C", "D"] {
            let mut caller = log.caller(name).unwrap();
            scope.spawn(move || {
                for _ in 0..500 {
                    let call = caller.begin(Command::Count(Role::Listener)).unwrap();
                    call.end(Reply::Count(0));
                }
            });
        }
    });
    let mut log = log;
    assert_eq!(
        check_log(&log.text()),
        Ok(Verdict::Conforms { calls: 2000 })
    );
}
