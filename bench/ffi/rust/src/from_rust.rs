//! The calls of the crate `iox2sd`.

use crate::{Capacities, Service};
use iox2sd::config::DataSegmentType;
use iox2sd::container::{ContainerHandle, Role};
use iox2sd::dynamic_config::{
    publish_subscribe, DynamicConfig, PortCleanupAction, PortDetails, PublisherDetails,
    SubscriberDetails,
};
use iox2sd::identifiers::{UniqueNodeId, UniquePublisherId, UniqueSubscriberId};
use std::hint::black_box;

impl Service for DynamicConfig {
    type Node = UniqueNodeId;
    type Port = PortDetails;
    type Handle = ContainerHandle;

    fn node(counter: u32) -> UniqueNodeId {
        UniqueNodeId::new(1, 0, 0, counter).expect("the id of a node")
    }

    fn subscriber(node_id: UniqueNodeId, counter: u32) -> PortDetails {
        PortDetails::Subscriber(SubscriberDetails {
            subscriber_id: UniqueSubscriberId::new(1, 0, 1, counter),
            node_id,
            buffer_size: 2,
        })
    }

    fn publisher(node_id: UniqueNodeId, counter: u32) -> PortDetails {
        PortDetails::Publisher(PublisherDetails {
            publisher_id: UniquePublisherId::new(1, 0, 2, counter),
            node_id,
            number_of_samples: 2,
            max_slice_len: 1,
            data_segment_type: DataSegmentType::Static,
            max_number_of_segments: 1,
        })
    }

    #[inline]
    fn make(capacities: Capacities) -> Option<Self> {
        let ports = publish_subscribe::DynamicConfigSettings {
            number_of_publishers: capacities.publishers as usize,
            number_of_subscribers: capacities.subscribers as usize,
        };
        DynamicConfig::new(ports, capacities.nodes as usize, 7).ok()
    }

    #[inline]
    fn register(&mut self, node: UniqueNodeId) -> Option<ContainerHandle> {
        self.register_node_id(node).ok()
    }

    #[inline]
    fn attach(&mut self, port: PortDetails) -> Option<ContainerHandle> {
        self.attach(port).ok()
    }

    #[inline]
    fn release(&mut self, port: ContainerHandle) -> bool {
        self.release_port(port).is_ok()
    }

    #[inline]
    fn die(&mut self, node: UniqueNodeId) -> u64 {
        let mut ports = 0;
        self.remove_dead_node_id(&node, |_| {
            ports += 1;
            PortCleanupAction::RemovePort
        });
        ports
    }

    #[inline]
    fn port(&self, port: ContainerHandle) -> Option<PortDetails> {
        self.port(port)
    }

    #[inline]
    fn count_subscribers(&self) -> usize {
        self.count_ports(Role::Subscriber).unwrap_or_default()
    }

    #[inline]
    fn subscribers(&self) -> usize {
        black_box(self.publish_subscribe().subscribers()).len()
    }

    #[inline]
    fn ports_of(&self, node: UniqueNodeId) -> usize {
        black_box(self.ports_of(&node)).len()
    }
}
