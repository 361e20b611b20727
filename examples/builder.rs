//! A service builder: it creates a publish-subscribe service, and opens it for other nodes.
//!
//! An opener is refused with the first that the service does not meet, and then its node is not
//! registered.
//
// It prints:
//     lidar/front has the hash text yH9mP7Jze15z04pbvAClUWzzzZ0
//     opened in slot 0, with messages of 12040 bytes
//     refused: AttributeVerificationError::IncompatibleAttribute(("site", "south"))
//     refused: the payload has another type name
//     refused: max_nodes: a setting is not what the opener requires
#![forbid(unsafe_code)]

use iox2sd::prelude::*;
use iox2sd::static_config::messaging_pattern::MessagingPattern as Required;
use iox2sd::static_config::publish_subscribe;
use std::error::Error;

/// The slot of the opener's node, and the size of a message of 1000 elements.
fn open(
    description: &StaticConfig,
    service: &mut DynamicConfig,
    (required, attributes): (publish_subscribe::StaticConfig, &AttributeVerifier),
) -> Result<(usize, usize), Box<dyn Error>> {
    description.verify_opener(&Required::PublishSubscribe(required), attributes)?;
    // The service's types say where the parts of a message lie, and not those of the opener.
    let types = &description.publish_subscribe().message_type_details;
    let message = types.sample_layout(1000)?;
    let node = UniqueNodeId::new(2, 0, 0, 1).ok_or("the id of no node")?;
    Ok((service.register_node_id(node)?.slot(), message.size()))
}

fn main() -> Result<(), Box<dyn Error>> {
    let (site, north) = ("site".parse()?, "north".parse()?);
    let attributes = AttributeSpecifier::new().define(&site, &north)?;
    let id = UniqueServiceId::new(1, 0, 0, 1);
    let mut description =
        StaticConfig::new_publish_subscribe(&"lidar/front".parse()?, &Config::default(), id)?
            .with_attributes(attributes.attributes());
    description.publish_subscribe_mut().message_type_details =
        MessageTypeDetails::from::<[u64; 3], u32, [f32; 3]>(TypeVariant::Dynamic)?;
    let mut service = DynamicConfig::with_capacities(&description, 1)?;
    let (name, hash) = (description.name(), description.service_hash());
    println!("{name} has the hash text {hash}");

    let required = *description.publish_subscribe();
    let north = AttributeVerifier::new().require(&site, &north)?;
    let (slot, bytes) = open(&description, &mut service, (required, &north))?;
    println!("opened in slot {slot}, with messages of {bytes} bytes");

    let south = AttributeVerifier::new().require(&site, &"south".parse()?)?;
    let (mut types, mut more) = (required, required);
    types.message_type_details =
        MessageTypeDetails::from::<[u64; 3], u32, [f64; 3]>(TypeVariant::Dynamic)?;
    more.max_nodes += 1;
    for opener in [(required, &south), (types, &north), (more, &north)] {
        let refused = open(&description, &mut service, opener).unwrap_err();
        println!("refused: {refused}");
    }
    assert_eq!(service.number_of_nodes(), 1);
    Ok(())
}
