use iox2sd::prelude::*;

fn main() -> Result<(), Box<dyn std::error::Error>> {
    let file = Config::from_toml_file("iceoryx2.toml")?;
    let id = UniqueServiceId::new(1, 0, 0, 2); // process, seconds, nanoseconds, counter
    let description = StaticConfig::new_event(&"My/Event".parse()?, &file.config, id)?;
    let mut service = DynamicConfig::with_capacities(&description, 7)?; // its number
    let node = service.register_node_id(UniqueNodeId::new(1, 0, 0, 1).ok_or("no node")?)?;
    println!("slot {} of service {}", node.slot(), node.service());
    if service.deregister_node_id(node)? == DeregisterNodeState::NoMoreOwners {
        println!("it is locked");
    }
    Ok(())
}
