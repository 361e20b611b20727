//! Who is attached to a service: each call on it, and each refusal with its text.
#![forbid(unsafe_code)]

#[macro_use]
mod common;

use common::{node, ports_of_kind, service, settings, KINDS};
use iox2sd::container::{ContainerHandle, ContainerRemoveError, Role};
use iox2sd::dynamic_config::{
    AllocError, AttachError, DeregisterError, DeregisterNodeState, DynamicConfig, PortDetails,
    RegisterNodeResult,
};
use iox2sd::messaging_pattern::MessagingPattern;
use iox2sd::CallbackProgression;

#[test]
fn a_new_service_has_room_and_nobody() {
    for (kind, first, second) in KINDS {
        let service = service(kind, 3, [2, 1]);
        assert_eq!(service.kind(), kind);
        assert_eq!(service.service_number(), 7);
        assert_eq!(service.port_roles(), (first, second));
        assert_eq!((service.number_of_nodes(), service.max_nodes()), (0, 3));
        assert!(service.has_room_for_node());
        assert!(!service.is_locked());
        for role in Role::ALL {
            let of_pattern = role == first || role == second;
            assert_eq!(service.has_role(role), of_pattern);
            assert_eq!(service.count_ports(role), of_pattern.then_some(0));
            assert_eq!(service.has_room(role), of_pattern.then_some(true));
            assert_eq!(service.ports(role).is_some(), of_pattern);
            let mut calls = 0;
            let listed = service.list_ports(role, |_| {
                calls += 1;
                CallbackProgression::Continue
            });
            assert_eq!((listed, calls), (of_pattern, 0));
        }
        assert_eq!(service.max_ports(first), Some(2));
        assert_eq!(service.max_ports(second), Some(1));
        assert_eq!(service.max_ports(Role::Node), None);
    }
}

#[test]
fn each_kind_of_ports_is_attached_found_and_released() {
    for (kind, ..) in KINDS {
        let mut service = service(kind, 1, [1, 1]);
        let owner = service.register_node_id(node(1)).unwrap();
        assert_eq!(service.node(owner), Some(node(1)));
        assert_eq!(service.port(owner), None);
        for port in ports_of_kind(kind, node(1), 5) {
            let handle = service.attach(port).unwrap();
            equal! {
                handle.role() => port.role();
                (handle.service(), handle.slot(), handle.ticket()) => (7, 0, 0);
                service.port(handle) => Some(port);
                service.node(handle) => None;
                service.count_ports(port.role()) => Some(1);
                service.has_room(port.role()) => Some(false);
                service.ports(port.role()).unwrap().collect::<Vec<_>>() => [port];
                service.attach(port) => Err(AttachError::OutOfSpace);
                service.release_port(handle) => Ok(());
            }
            let error = ContainerRemoveError::ContainerHandleNotOwnedByContainer;
            assert_eq!(service.release_port(handle), Err(error));
            assert_eq!(service.port(handle), None);
            let again = service.attach(port).unwrap();
            assert_eq!((again.slot(), again.ticket()), (0, 1));
            assert_ne!(again, handle);
        }
    }
}

#[test]
fn ports_are_listed_by_their_types() {
    let mut services: Vec<_> = KINDS.map(|(kind, ..)| service(kind, 1, [2, 2])).into();
    for service in &mut services {
        service.register_node_id(node(1)).unwrap();
        for counter in [5, 6] {
            for port in ports_of_kind(service.kind(), node(1), counter) {
                service.attach(port).unwrap();
            }
        }
    }
    /// Counts, lists by a callback, lists by a callback that stops, and lists by an iterator.
    macro_rules! check {
        ($($pattern:ident $variant:ident $id:ident: $number:ident $list:ident $all:ident,)*) => {
            $(
                let ports = services.iter().find_map(|service| service.$pattern()).unwrap();
                assert_eq!(ports.$number(), 2);
                let mut seen = Vec::new();
                ports.$list(|details| {
                    seen.push(PortDetails::$variant(*details));
                    CallbackProgression::Continue
                });
                let mut calls = 0;
                ports.$list(|_| {
                    calls += 1;
                    CallbackProgression::Stop
                });
                assert_eq!(calls, 1);
                assert_eq!(ports.$all().map(PortDetails::$variant).collect::<Vec<_>>(), seen);
                let ids: Vec<_> = ports.$all().map(|details| details.$id.value()).collect();
                assert_eq!(ids.len(), 2);
                assert!(ids[0] < ids[1]);
                assert!(ports.$all().all(|details| details.node_id == node(1)));
            )*
        };
    }
    check! {
        as_publish_subscribe Publisher publisher_id:
            number_of_publishers list_publishers publishers,
        as_publish_subscribe Subscriber subscriber_id:
            number_of_subscribers list_subscribers subscribers,
        as_event Listener listener_id: number_of_listeners list_listeners listeners,
        as_event Notifier notifier_id: number_of_notifiers list_notifiers notifiers,
        as_request_response Server server_id: number_of_servers list_servers servers,
        as_request_response Client client_id: number_of_clients list_clients clients,
        as_blackboard Reader reader_id: number_of_readers list_readers readers,
        as_blackboard Writer writer_id: number_of_writers list_writers writers,
    }
}

#[test]
fn patterns_are_details_where() {
    for (kind, ..) in KINDS {
        let service = service(kind, 1, [1, 1]);
        assert_eq!(
            [
                service.is_publish_subscribe(),
                service.is_event(),
                service.is_request_response(),
                service.is_blackboard(),
            ],
            KINDS.map(|(other, ..)| other == kind)
        );
    }
}

#[test]
#[should_panic(expected = "the pattern is Event, not Blackboard")]
fn ports_of_another_pattern_are_not_lent() {
    let _ = service(MessagingPattern::Event, 1, [1, 1]).blackboard();
}

#[test]
fn nodes_are_registered_and_deregistered() {
    let mut service = service(MessagingPattern::Event, 2, [1, 1]);
    let first = service.register_node_id(node(1)).unwrap();
    let again = service.register_node_id(node(1)).unwrap();
    assert_eq!((first.slot(), first.ticket()), (0, 0));
    assert_eq!((again.slot(), again.ticket()), (1, 1));
    assert_eq!(first.role(), Role::Node);
    let full = service.register_node_id(node(2));
    assert_eq!(full, Err(RegisterNodeResult::ExceedsMaxNumberOfNodes));
    assert!(!service.has_room_for_node());
    assert_eq!(service.number_of_nodes(), 2);
    assert_eq!(service.nodes().collect::<Vec<_>>(), [node(1), node(1)]);
    let mut calls = 0;
    service.list_node_ids(|id| {
        assert_eq!(*id, node(1));
        calls += 1;
        CallbackProgression::Stop
    });
    assert_eq!(calls, 1);

    let state = service.deregister_node_id(first);
    assert_eq!(state, Ok(DeregisterNodeState::HasOwners));
    let other = service.register_node_id(node(2)).unwrap();
    assert_eq!((other.slot(), other.ticket()), (0, 2));
    let stale = service.deregister_node_id(first);
    equal! {
        stale => Err(DeregisterError::ContainerHandleNotOwnedByContainer);
    }
    assert!(service.deregister_node_id(other).is_ok());
    let state = service.deregister_node_id(again);
    assert_eq!(state, Ok(DeregisterNodeState::NoMoreOwners));
    assert!(service.is_locked());
    assert!(!service.has_room_for_node());
    let locked = service.register_node_id(node(1));
    assert_eq!(locked, Err(RegisterNodeResult::MarkedForDestruction));
}

#[test]
fn a_port_stands_on_a_registered_node() {
    for (kind, ..) in KINDS {
        let mut service = service(kind, 2, [1, 1]);
        for port in ports_of_kind(kind, node(1), 5) {
            assert_eq!(service.attach(port), Err(AttachError::NodeNotRegistered));
        }
        let first = service.register_node_id(node(1)).unwrap();
        let second = service.register_node_id(node(1)).unwrap();
        let [port, _] = ports_of_kind(kind, node(1), 5);
        let handle = service.attach(port).unwrap();
        assert!(service.deregister_node_id(first).is_ok());
        let last = service.deregister_node_id(second);
        assert_eq!(last, Err(DeregisterError::PortsStillAttached));
        assert_eq!(service.ports_of(&node(1)).collect::<Vec<_>>(), [port]);
        service.release_port(handle).unwrap();
        let state = service.deregister_node_id(second);
        assert_eq!(state, Ok(DeregisterNodeState::NoMoreOwners));
        assert_eq!(service.attach(port), Err(AttachError::ServiceIsLocked));
        assert_eq!(service.has_room(port.role()), Some(false));
    }
}

#[test]
fn a_port_of_another_pattern_is_refused_first() {
    for (kind, ..) in KINDS {
        let mut service = service(kind, 1, [1, 1]);
        for (other, ..) in KINDS {
            if other != kind {
                for port in ports_of_kind(other, node(1), 5) {
                    assert_eq!(service.attach(port), Err(AttachError::RoleNotInPattern));
                }
            }
        }
    }
}

#[test]
fn foreign_handles_are_refused() {
    let (event, kind) = (MessagingPattern::Event, MessagingPattern::Blackboard);
    let mut service = service(event, 2, [1, 1]);
    let owner = service.register_node_id(node(1)).unwrap();
    let [port, _] = ports_of_kind(event, node(1), 5);
    let port = service.attach(port).unwrap();
    let of_other_number = ContainerHandle::from_parts(8, Role::Node, 0, 0);
    let of_other_role = ContainerHandle::from_parts(7, Role::Reader, 0, 0);
    let of_other_slot = ContainerHandle::from_parts(7, Role::Node, 1, 0);
    let of_other_ticket = ContainerHandle::from_parts(7, Role::Node, 0, 1);
    for handle in [
        port,
        of_other_number,
        of_other_role,
        of_other_slot,
        of_other_ticket,
    ] {
        let error = DeregisterError::ContainerHandleNotOwnedByContainer;
        assert_eq!(service.deregister_node_id(handle), Err(error));
        assert_eq!(service.node(handle), None);
    }
    for handle in [owner, of_other_number, of_other_role] {
        let error = ContainerRemoveError::ContainerHandleNotOwnedByContainer;
        assert_eq!(service.release_port(handle), Err(error));
        assert_eq!(service.port(handle), None);
    }
    assert_eq!(owner, ContainerHandle::from_parts(7, Role::Node, 0, 0));
    assert_eq!(service.number_of_nodes(), 1);
    assert_eq!(common::service(kind, 1, [1, 1]).node(owner), None);
}

#[test]
fn tickets_run_out() {
    let settings = settings(MessagingPattern::Event, [2, 2]);
    let mut service = DynamicConfig::with_tickets(settings, 2, 7, 1).unwrap();
    service.register_node_id(node(1)).unwrap();
    assert!(!service.has_room_for_node());
    let full = service.register_node_id(node(1));
    assert_eq!(full, Err(RegisterNodeResult::ExceedsMaxNumberOfNodes));
    for port in ports_of_kind(MessagingPattern::Event, node(1), 5) {
        let handle = service.attach(port).unwrap();
        service.release_port(handle).unwrap();
        assert_eq!(service.attach(port), Err(AttachError::OutOfSpace));
        assert_eq!(service.has_room(port.role()), Some(false));
    }
}

#[test]
fn memory_is_refused() {
    for (kind, ..) in KINDS {
        for (nodes, ports) in [
            (usize::MAX, [1, 1]),
            (1, [usize::MAX, 1]),
            (1, [1, usize::MAX]),
        ] {
            let made = DynamicConfig::new(settings(kind, ports), nodes, 7);
            assert_eq!(made.unwrap_err(), AllocError);
        }
        assert_eq!(service(kind, 0, [0, 0]).max_nodes(), 0);
    }
}

#[test]
fn a_service_shows_who_is_attached() {
    let mut service = service(MessagingPattern::Event, 1, [1, 1]);
    service.register_node_id(node(1)).unwrap();
    for port in ports_of_kind(MessagingPattern::Event, node(1), 5) {
        service.attach(port).unwrap();
    }
    let text = format!("{service:?}");
    assert!(text.starts_with("DynamicConfig { kind: Event, service_number: 7, nodes: ["));
    assert!(
        text.contains("ListenerDetails") && text.contains("NotifierDetails"),
        "{text}"
    );
    let text = format!("{:?}", service.event());
    assert!(
        text.starts_with("DynamicConfig { listeners: [ListenerDetails {"),
        "{text}"
    );
}
