//! Discovery: who is attached to a service, by node, and where its files lie.
#![forbid(unsafe_code)]

use iox2sd::prelude::*;
use std::collections::BTreeMap;
use std::error::Error;

/// The file of the service's description.
fn description_file(config: &Config, service: &StaticConfig) -> Result<FilePath, Box<dyn Error>> {
    let global = &config.global;
    let (prefix, hash) = (&global.prefix, service.service_hash());
    let suffix = &global.service.static_config_storage_suffix;
    let name = format!("{prefix}{hash}{suffix}").parse()?;
    Ok(FilePath::from_path_and_file(&global.service_dir()?, &name)?)
}

/// The ports of each node, by rising node.
fn roster(service: &DynamicConfig) -> BTreeMap<UniqueNodeId, Vec<PortDetails>> {
    service
        .nodes()
        .map(|node| (node, service.ports_of(&node).collect()))
        .collect()
}

fn main() -> Result<(), Box<dyn Error>> {
    let config = Config::default();
    let name = ServiceName::new("map/tiles")?;
    let id = UniqueServiceId::new(1, 0, 0, 1);
    let description = StaticConfig::new_request_response(&name, &config, id)?;
    println!(
        "{name} is described in {}",
        description_file(&config, &description)?
    );

    let limits = description.request_response();
    let mut service = DynamicConfig::with_capacities(&description, 1)?;
    let server_node = UniqueNodeId::new(3, 0, 0, 1).ok_or("the id of no node")?;
    let client_node = UniqueNodeId::new(2, 0, 0, 1).ok_or("the id of no node")?;
    service.register_node_id(server_node)?;
    service.register_node_id(client_node)?;
    service.attach(ServerDetails {
        server_id: UniqueServerId::new(3, 0, 0, 2),
        node_id: server_node,
        request_buffer_size: limits.max_active_requests_per_client(),
        number_of_responses: limits
            .required_amount_of_chunks_per_server_data_segment(2)
            .ok_or("too many responses")?,
        max_slice_len: 1,
        data_segment_type: DataSegmentType::Static,
        max_number_of_segments: 1,
    })?;
    service.attach(ClientDetails {
        client_id: UniqueClientId::new(2, 0, 0, 2),
        node_id: client_node,
        number_of_requests: limits
            .required_amount_of_chunks_per_client_data_segment(limits.max_loaned_requests())
            .ok_or("too many requests")?,
        response_buffer_size: limits.max_response_buffer_size(),
        max_slice_len: 1,
        data_segment_type: DataSegmentType::Static,
        max_number_of_segments: 1,
    })?;

    for (node, ports) in roster(&service) {
        println!("node {node}");
        for port in ports {
            println!("    {} {}", port.role(), port.port_id());
        }
    }
    for server in service.request_response().servers() {
        println!(
            "{} has {} responses",
            server.server_id, server.number_of_responses
        );
    }
    assert_eq!(roster(&service).len(), 2);
    Ok(())
}
