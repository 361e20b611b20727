//! A liveness monitor: it takes dead nodes out of a service, and keeps the ports that somebody else
//! cleans up.
//
// It prints:
//     1000000000000000000000002 is removed
//     1000000000000000000000003 is removed
//     2000000000000000000000002 is removed
//     2000000000000000000000003 is busy
//     1 node is left
//     2000000000000000000000003 is removed
//     the service is locked
#![forbid(unsafe_code)]

use iox2sd::prelude::*;
use std::error::Error;

/// Removes all ports of the dead nodes but those that are busy, and then the nodes that have none
/// left.
fn remove_dead_nodes(service: &mut DynamicConfig, dead: &[UniqueNodeId], busy: &[UniquePortId]) {
    for node in dead {
        service.remove_dead_node_id(node, |port| {
            let is_busy = busy.contains(&port);
            println!("{port} is {}", if is_busy { "busy" } else { "removed" });
            match is_busy {
                true => PortCleanupAction::SkipPort,
                false => PortCleanupAction::RemovePort,
            }
        });
    }
}

fn main() -> Result<(), Box<dyn Error>> {
    let mut service = DynamicConfig::with_capacities(&Config::default().defaults.event, 7)?;
    let mut nodes = Vec::new();
    for process in [1, 2] {
        let node_id = UniqueNodeId::new(process, 0, 0, 1).ok_or("the id of no node")?;
        service.register_node_id(node_id)?;
        let listener_id = UniqueListenerId::new(process, 0, 0, 2);
        service.attach(ListenerDetails {
            listener_id,
            node_id,
        })?;
        let notifier_id = UniqueNotifierId::new(process, 0, 0, 3);
        service.attach(NotifierDetails {
            notifier_id,
            node_id,
        })?;
        nodes.push(node_id);
    }

    let busy = UniqueNotifierId::new(2, 0, 0, 3);
    remove_dead_nodes(&mut service, &nodes, &[busy.into()]);
    println!("{} node is left", service.number_of_nodes());
    remove_dead_nodes(&mut service, &nodes, &[]);
    assert!(service.is_locked());
    println!("the service is locked");
    Ok(())
}
