//! The part of a port factory that attaches publishers and says which memory each of them needs.
#![forbid(unsafe_code)]

use iox2sd::prelude::*;
use iox2sd::static_config::publish_subscribe::StaticConfig;
use std::alloc::Layout;
use std::error::Error;

/// The memory of a publisher: so many blocks of one size that lie end to end.
struct DataSegment {
    block: Layout,
    blocks: usize,
}

/// Attaches a publisher that may have taken so many samples and not yet sent, of at most so many
/// elements. The handle of the publisher, and its memory.
fn attach_publisher(
    description: &StaticConfig,
    service: &mut DynamicConfig,
    publisher_id: UniquePublisherId,
    node_id: UniqueNodeId,
    [loaned, elements]: [usize; 2],
) -> Result<(ContainerHandle, DataSegment), Box<dyn Error>> {
    let blocks = description
        .required_amount_of_samples_per_data_segment(loaned)
        .ok_or("too many samples")?;
    let block = description.message_type_details().sample_layout(elements)?;
    let handle = service.attach(PublisherDetails {
        publisher_id,
        node_id,
        number_of_samples: blocks,
        max_slice_len: elements,
        data_segment_type: DataSegmentType::Static,
        max_number_of_segments: 1,
    })?;
    Ok((handle, DataSegment { block, blocks }))
}

fn main() -> Result<(), Box<dyn Error>> {
    let mut description = StaticConfig::new(&Config::default());
    description.message_type_details =
        MessageTypeDetails::from::<u64, u32, [f32; 3]>(TypeVariant::Dynamic)?;
    let mut service = DynamicConfig::with_capacities(&description, 1)?;
    let node = UniqueNodeId::new(2, 0, 0, 1).ok_or("the id of no node")?;
    service.register_node_id(node)?;

    for counter in 2.. {
        let id = UniquePublisherId::new(2, 0, 0, counter);
        match attach_publisher(&description, &mut service, id, node, [2, 1000]) {
            Ok((handle, segment)) => println!(
                "{id} has slot {}, and {} blocks of {} bytes",
                handle.slot(),
                segment.blocks,
                segment.block.size()
            ),
            Err(refused) => {
                println!("refused: {refused}");
                break;
            }
        }
    }
    let attached = service.count_ports(Role::Publisher);
    assert_eq!(attached, Some(description.max_publishers()));
    Ok(())
}
