//! Ids: numbers, texts and order.
#![forbid(unsafe_code)]

#[macro_use]
mod common;

use iox2sd::identifiers::{ProcessId, Time, UniqueNodeId, UniqueServiceId};

#[test]
fn ids_have_four_parts() {
    let id = UniqueServiceId::new(u32::MAX, 2, 3, 4);
    equal! {
        id.value() => 0xffff_ffff_0000_0002_0000_0003_0000_0004;
        id.to_string() => "ffffffff000000020000000300000004";
        format!("{id:?}") => format!("UniqueServiceId({id})");
        id.pid() => ProcessId::new(u32::MAX);
        id.pid().to_string() => "4294967295";
        id.creation_time() => Time::new(2, 3);
        (id.creation_time().seconds(), id.creation_time().nanoseconds()) => (2, 3);
        UniqueServiceId::new(0, 0, 0, 0).to_string() => "0";
        format!("[{:>3}]", UniqueServiceId::new(0, 0, 0, 10)) => "[  a]";
    }
}

#[test]
fn an_id_of_a_node_has_a_process_or_a_counter() {
    assert_eq!(UniqueNodeId::new(0, 7, 7, 0), None);
    let node = UniqueNodeId::new(0, 0, 0, 1).unwrap();
    assert_eq!(node.owner_id(), 1);
    let node = UniqueNodeId::new(2, 5, 6, 3).unwrap();
    equal! {
        node.owner_id() => 0x2_0000_0003;
        node.owner_id() => UniqueNodeId::new(2, 8, 9, 3).unwrap().owner_id();
    }
    assert_ne!(node, UniqueNodeId::new(2, 8, 9, 3).unwrap());
}
