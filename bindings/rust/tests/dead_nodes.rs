//! What becomes of the ports of a dead node.
#![forbid(unsafe_code)]

mod common;

use common::{node, ports_of_kind, service, settings, KINDS};
use iox2sd::conform::{check_log, Recorder, Verdict};
use iox2sd::dynamic_config::{
    DeregisterNodeState, DynamicConfig, ListenerDetails, NotifierDetails, PortCleanupAction,
    PortDetails,
};
use iox2sd::identifiers::{UniqueListenerId, UniqueNotifierId, UniquePortId};
use iox2sd::messaging_pattern::MessagingPattern;
use iox2sd::CallbackProgression;
use std::panic::{catch_unwind, AssertUnwindSafe};

/// A service where the nodes 1 and 2 are registered twice, and have two ports of each kind.
fn busy(kind: MessagingPattern) -> DynamicConfig {
    let mut service = service(kind, 4, [4, 4]);
    for counter in [1, 2, 1, 2] {
        service.register_node_id(node(counter)).unwrap();
    }
    for counter in 1..=4 {
        for port in ports_of_kind(kind, node(1 + counter % 2), counter) {
            service.attach(port).unwrap();
        }
    }
    service
}

fn ports_of(service: &DynamicConfig, counter: u32) -> Vec<PortDetails> {
    service.ports_of(&node(counter)).collect()
}

#[test]
fn ports_of_a_node_are_those_of_the_first_kind_and_then_of_the_second() {
    for (kind, first, second) in KINDS {
        let service = busy(kind);
        let ports = ports_of(&service, 1);
        assert_eq!(ports.len(), 4);
        assert!(ports.iter().all(|port| port.node_id() == node(1)));
        let roles: Vec<_> = ports.iter().map(PortDetails::role).collect();
        assert_eq!(roles, [first, first, second, second]);
        let counters: Vec<_> = ports.iter().map(|p| p.port_id().value() as u32).collect();
        assert_eq!(counters, [2, 4, 2, 4]);
        assert!(ports_of(&service, 3).is_empty());
    }
}

#[test]
fn a_dead_node_goes_with_its_ports() {
    for (kind, ..) in KINDS {
        let mut service = busy(kind);
        let others = ports_of(&service, 2);
        let mut asked = Vec::new();
        let expected: Vec<_> = service
            .ports_of(&node(1))
            .map(|port| port.port_id())
            .collect();
        let state = service.remove_dead_node_id(&node(1), |port| {
            asked.push(port);
            PortCleanupAction::RemovePort
        });
        assert_eq!(asked, expected);
        assert_eq!(state, DeregisterNodeState::HasOwners);
        assert_eq!(service.nodes().collect::<Vec<_>>(), [node(2), node(2)]);
        assert!(ports_of(&service, 1).is_empty());
        assert_eq!(ports_of(&service, 2), others);

        let state = service.remove_dead_node_id(&node(2), |_| PortCleanupAction::RemovePort);
        assert_eq!(state, DeregisterNodeState::NoMoreOwners);
        assert!(service.is_locked());
        assert_eq!(service.number_of_nodes(), 0);
    }
}

#[test]
fn a_port_that_stays_keeps_its_node() {
    for (kind, ..) in KINDS {
        let mut service = busy(kind);
        let [kept, ..] = ports_of(&service, 1)[..] else {
            panic!("there are ports");
        };
        let state = service.remove_dead_node_id(&node(1), |port| {
            if port == kept.port_id() {
                PortCleanupAction::SkipPort
            } else {
                PortCleanupAction::RemovePort
            }
        });
        assert_eq!(state, DeregisterNodeState::HasOwners);
        assert_eq!(ports_of(&service, 1), [kept]);
        assert_eq!(service.number_of_nodes(), 4);
        assert_eq!(ports_of(&service, 2).len(), 4);
    }
}

/// A service whose node 1 has so many ports of the first kind, of which the ids fall as the slots rise.
fn with_ports(kind: MessagingPattern, count: u32) -> (DynamicConfig, Vec<PortDetails>) {
    let mut service = service(kind, 2, [count as usize, 0]);
    service.register_node_id(node(1)).unwrap();
    let ports: Vec<_> = (0..count)
        .rev()
        .map(|counter| ports_of_kind(kind, node(1), counter)[0])
        .collect();
    for port in &ports {
        service.attach(*port).unwrap();
    }
    (service, ports)
}

/// Short lists and long ones are written to memory of different kinds.
#[test]
fn lists_of_each_length_are_whole() {
    for (kind, first, _) in KINDS {
        for count in (0..20).chain([100, 1000]) {
            let (service, ports) = with_ports(kind, count);
            assert_eq!(ports_of(&service, 1), ports);
            assert!(service.ports(first).unwrap().eq(ports.iter().copied()));
            let mut listed = Vec::new();
            assert!(service.list_ports(first, |port| {
                listed.push(*port);
                CallbackProgression::Continue
            }));
            assert_eq!(listed, ports);
        }
    }
}

#[test]
fn of_many_ports_those_that_are_skipped_stay() {
    for (kind, ..) in KINDS {
        for step in [1, 2, 3, 50] {
            let (mut service, mut ports) = with_ports(kind, 100);
            let is_skipped = |port: &UniquePortId| port.value() % step == 0;
            service.remove_dead_node_id(&node(1), |port| match is_skipped(&port) {
                true => PortCleanupAction::SkipPort,
                false => PortCleanupAction::RemovePort,
            });
            ports.retain(|port| is_skipped(&port.port_id()));
            assert_eq!(ports_of(&service, 1), ports);
        }
    }
}

#[test]
fn a_port_is_skipped_without_the_one_of_another_kind_whose_id_has_the_same_value() {
    let mut service = service(MessagingPattern::Event, 1, [1, 1]);
    let node_id = node(1);
    let listener_id = UniqueListenerId::new(1, 2, 3, 4);
    let notifier_id = UniqueNotifierId::new(1, 2, 3, 4);
    let skipped = UniquePortId::Listener(listener_id);
    assert_ne!(skipped, UniquePortId::Notifier(notifier_id));
    service.register_node_id(node_id).unwrap();
    let listener = ListenerDetails {
        listener_id,
        node_id,
    };
    service.attach(listener).unwrap();
    let notifier = NotifierDetails {
        notifier_id,
        node_id,
    };
    service.attach(notifier).unwrap();
    for (skipped, left) in [
        (skipped, PortDetails::from(listener)),
        (notifier_id.into(), notifier.into()),
    ] {
        let state = service.remove_dead_node_id(&node_id, |port| {
            if port == skipped {
                PortCleanupAction::SkipPort
            } else {
                PortCleanupAction::RemovePort
            }
        });
        assert_eq!(state, DeregisterNodeState::HasOwners);
        assert_eq!(ports_of(&service, 1), [left]);
        let _ = service.attach(listener);
        let _ = service.attach(notifier);
    }
}

#[test]
fn nobody_is_details_where_a_node_without_ports() {
    let mut service = busy(MessagingPattern::Event);
    let state = service.remove_dead_node_id(&node(3), |_| panic!("nobody is asked about"));
    assert_eq!(state, DeregisterNodeState::HasOwners);
    assert_eq!(service.number_of_nodes(), 4);
}

#[test]
fn a_callback_that_panics_leaves_the_service_as_it_was() {
    let mut service = busy(MessagingPattern::Event);
    let before = (ports_of(&service, 1), service.number_of_nodes());
    let mut asked = 0;
    let panicked = catch_unwind(AssertUnwindSafe(|| {
        service.remove_dead_node_id(&node(1), |_| {
            asked += 1;
            assert!(asked < 3, "it panics at the third port");
            PortCleanupAction::RemovePort
        })
    }));
    assert!(panicked.is_err());
    assert_eq!((ports_of(&service, 1), service.number_of_nodes()), before);
}

/// A line of a log has no kinds of ports, so a recorder keeps those of one number together.
#[test]
fn a_recorder_keeps_ports_of_one_number_together() {
    let mut service = Recorder::new(settings(MessagingPattern::Event, [2, 2]), 1, 7).unwrap();
    let node_id = node(1);
    service.register_node_id(node_id).unwrap();
    for counter in [1, 2] {
        let listener_id = UniqueListenerId::new(1, 0, 0, counter);
        let notifier_id = UniqueNotifierId::new(1, 0, 0, counter);
        service
            .attach(ListenerDetails {
                listener_id,
                node_id,
            })
            .unwrap();
        service
            .attach(NotifierDetails {
                notifier_id,
                node_id,
            })
            .unwrap();
    }
    let kept = UniquePortId::Notifier(UniqueNotifierId::new(1, 0, 0, 2));
    let mut answered = 0;
    let state = service.remove_dead_node_id(&node_id, |port| {
        answered += 1;
        match port == kept {
            true => PortCleanupAction::SkipPort,
            false => PortCleanupAction::RemovePort,
        }
    });
    assert_eq!((state, answered), (DeregisterNodeState::HasOwners, 4));
    let listener = UniquePortId::Listener(UniqueListenerId::new(1, 0, 0, 2));
    let left = service.service().ports_of(&node_id);
    assert!(left.map(|port| port.port_id()).eq([listener, kept]));
    let conforms = Verdict::Conforms { calls: 6 };
    assert_eq!(check_log(&service.log()), Ok(conforms));
}
