//! Services on several threads.
#![forbid(unsafe_code)]

mod common;

use common::{node, ports_of_kind, service, KINDS};
use iox2sd::container::{ContainerHandle, Role};
use iox2sd::dynamic_config::{DeregisterNodeState, DynamicConfig};
use std::sync::mpsc::channel;
use std::sync::{Arc, Mutex};
use std::thread;

/// Registers, attaches, lists, releases and deregisters, again and again.
fn use_service(service: &mut DynamicConfig, rounds: usize) {
    let keeper = service.register_node_id(node(1)).unwrap();
    for _ in 0..rounds {
        let owner = service.register_node_id(node(2)).unwrap();
        let handles = ports_of_kind(service.kind(), node(2), 5).map(|port| {
            let handle = service.attach(port).unwrap();
            assert_eq!(service.port(handle), Some(port));
            handle
        });
        assert_eq!(service.ports_of(&node(2)).len(), 2);
        for handle in handles {
            service.release_port(handle).unwrap();
        }
        service.deregister_node_id(owner).unwrap();
    }
    let state = service.deregister_node_id(keeper);
    assert_eq!(state, Ok(DeregisterNodeState::NoMoreOwners));
}

#[test]
fn sixteen_threads_have_a_service_each() {
    let threads = (0..16).map(|number| {
        thread::spawn(move || {
            let (kind, ..) = KINDS[number % KINDS.len()];
            use_service(&mut service(kind, 2, [1, 1]), 200);
        })
    });
    for thread in threads.collect::<Vec<_>>() {
        thread.join().unwrap();
    }
}

#[test]
fn a_service_moves_from_thread_to_thread() {
    let (sender, receiver) = channel();
    let made = thread::spawn(move || {
        let mut service = service(KINDS[0].0, 2, [1, 1]);
        service.register_node_id(node(1)).unwrap();
        sender.send(service).unwrap();
    });
    let mut service = receiver.recv().unwrap();
    made.join().unwrap();
    for port in ports_of_kind(service.kind(), node(1), 5) {
        let attached = thread::spawn(move || {
            service.attach(port).unwrap();
            service
        });
        service = attached.join().unwrap();
    }
    assert_eq!(service.ports_of(&node(1)).len(), 2);
    thread::spawn(move || drop(service)).join().unwrap();
}

/// All that a service answers.
fn answers(service: &DynamicConfig) -> String {
    let nodes: Vec<_> = service.nodes().collect();
    let ports = service.ports_of(&node(1));
    let roles = Role::ALL.map(|role| {
        let ports: Option<Vec<_>> = service.ports(role).map(Iterator::collect);
        let room = (service.has_room(role), service.max_ports(role));
        (
            service.has_role(role),
            service.count_ports(role),
            room,
            ports,
        )
    });
    let handles = Role::ALL.map(|role| {
        let first = ContainerHandle::from_parts(service.service_number(), role, 0, 0);
        (service.node(first), service.port(first))
    });
    format!(
        "{service:?} {:?} {:?} {} {} {} {} {nodes:?} {ports:?} {:?} {roles:?} {handles:?}",
        service.kind(),
        service.port_roles(),
        service.number_of_nodes(),
        service.max_nodes(),
        service.has_room_for_node(),
        service.is_locked(),
        service.ports_of(&node(2)),
    )
}

#[test]
fn sixteen_threads_ask_one_service_at_once() {
    for (kind, ..) in KINDS {
        let mut service = service(kind, 2, [1, 1]);
        service.register_node_id(node(1)).unwrap();
        for port in ports_of_kind(kind, node(1), 5) {
            service.attach(port).unwrap();
        }
        let wanted = answers(&service);
        assert!(wanted.contains("Some("), "{wanted}");
        thread::scope(|threads| {
            for _ in 0..16 {
                threads.spawn(|| (0..200).for_each(|_| assert_eq!(answers(&service), wanted)));
            }
        });
    }
}

#[test]
fn threads_share_a_service_behind_a_lock() {
    let shared = Arc::new(Mutex::new(service(KINDS[1].0, 16, [1, 1])));
    let threads = (1..=16).map(|counter| {
        let shared = Arc::clone(&shared);
        thread::spawn(move || {
            shared
                .lock()
                .unwrap()
                .register_node_id(node(counter))
                .unwrap();
        })
    });
    for thread in threads.collect::<Vec<_>>() {
        thread.join().unwrap();
    }
    let mut nodes: Vec<_> = shared.lock().unwrap().nodes().collect();
    nodes.sort();
    assert_eq!(nodes, (1..=16).map(node).collect::<Vec<_>>());
}

#[test]
fn values_and_services_are_sent_and_shared() {
    fn is_sent_and_shared<T: Send + Sync>() {}
    is_sent_and_shared::<iox2sd::attribute::AttributeVerifier>();
    is_sent_and_shared::<iox2sd::config::Config>();
    is_sent_and_shared::<iox2sd::static_config::StaticConfig>();
    is_sent_and_shared::<iox2sd::container::ContainerHandle>();
    is_sent_and_shared::<iox2sd::dynamic_config::PortDetails>();
    is_sent_and_shared::<DynamicConfig>();
}
