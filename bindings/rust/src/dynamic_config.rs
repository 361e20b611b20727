//! Who is attached to a service: its nodes, and their ports.
//!
//! ```
//! use iox2sd::dynamic_config::{event, DeregisterNodeState, DynamicConfig, ListenerDetails};
//! use iox2sd::identifiers::{UniqueListenerId, UniqueNodeId};
//! use iox2sd::CallbackProgression;
//!
//! let ports = event::DynamicConfigSettings { number_of_listeners: 2, number_of_notifiers: 2 };
//! let mut service = DynamicConfig::new(ports, 1, 7)?;
//! let node_id = UniqueNodeId::new(1, 0, 0, 1).expect("the id of a node");
//! let listener_id = UniqueListenerId::new(1, 0, 0, 2);
//! let node = service.register_node_id(node_id)?;
//! let port = service.attach(ListenerDetails { listener_id, node_id })?;
//! service.event().list_listeners(|listener| {
//!     println!("{} of {}", listener.listener_id, listener.node_id);
//!     CallbackProgression::Continue
//! });
//!
//! service.release_port(port)?;
//! assert_eq!(service.deregister_node_id(node)?, DeregisterNodeState::NoMoreOwners);
//! assert!(service.is_locked());
//! # Ok::<(), Box<dyn std::error::Error>>(())
//! ```

mod answers;
mod details;
mod listing;
mod service;

pub use answers::{
    AllocError, AttachError, DeregisterError, DeregisterNodeState, PortCleanupAction,
    RegisterNodeResult,
};
pub use details::{
    ClientDetails, ListenerDetails, NotifierDetails, OtherRole, PortDetails, PublisherDetails,
    ReaderDetails, ServerDetails, SubscriberDetails, WriterDetails,
};
pub use service::{Capacities, DynamicConfig, MessagingPatternSettings};

listing::ports_of_pattern! {
    "a publish-subscribe" PublishSubscribe publish_subscribe iox2sd_publish_subscribe_capacities:
    publishers number_of_publishers max_publishers PublisherDetails,
    subscribers number_of_subscribers max_subscribers SubscriberDetails,
}

listing::ports_of_pattern! {
    "an event" Event event iox2sd_event_capacities:
    listeners number_of_listeners max_listeners ListenerDetails,
    notifiers number_of_notifiers max_notifiers NotifierDetails,
}

listing::ports_of_pattern! {
    "a request-response" RequestResonse request_response iox2sd_request_response_capacities:
    servers number_of_servers max_servers ServerDetails,
    clients number_of_clients max_clients ClientDetails,
}

listing::ports_of_pattern! {
    "a blackboard" Blackboard blackboard iox2sd_blackboard_capacities:
    readers number_of_readers max_readers ReaderDetails,
    writers number_of_writers max_writers WriterDetails,
}
