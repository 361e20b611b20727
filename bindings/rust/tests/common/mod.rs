//! Services and ports for tests.
#![allow(dead_code)] // Not every test needs all of it.

/// A value with some fields changed, where it cannot be written out.
#[allow(unused_macros)]
macro_rules! with {
    ($value:expr; $($field:ident: $new:expr),* $(,)?) => {{
        let mut value = $value;
        $(value.$field = $new;)*
        value
    }};
}

/// Each value is equal to the one that is expected.
#[allow(unused_macros)]
macro_rules! equal {
    ($($found:expr => $expected:expr;)+) => {
        $(assert_eq!($found, $expected, "{}", stringify!($found));)+
    };
}

use iox2sd::config::{Config, DataSegmentType};
use iox2sd::container::Role;
use iox2sd::dynamic_config::*;
use iox2sd::identifiers::*;
use iox2sd::messaging_pattern::MessagingPattern::{self, *};
use iox2sd::static_config::StaticConfig;

/// The patterns with the roles of their two kinds of ports.
pub const KINDS: [(MessagingPattern, Role, Role); 4] = [
    (PublishSubscribe, Role::Publisher, Role::Subscriber),
    (Event, Role::Listener, Role::Notifier),
    (RequestResponse, Role::Server, Role::Client),
    (Blackboard, Role::Reader, Role::Writer),
];

pub fn node(counter: u32) -> UniqueNodeId {
    UniqueNodeId::new(1, 0, 0, counter).unwrap()
}

pub fn settings(kind: MessagingPattern, [first, second]: [usize; 2]) -> MessagingPatternSettings {
    macro_rules! of {
        ($module:ident $first:ident $second:ident) => {
            $module::DynamicConfigSettings {
                $first: first,
                $second: second,
            }
            .into()
        };
    }
    match kind {
        PublishSubscribe => of!(publish_subscribe number_of_publishers number_of_subscribers),
        Event => of!(event number_of_listeners number_of_notifiers),
        RequestResponse => of!(request_response number_of_servers number_of_clients),
        Blackboard => of!(blackboard number_of_readers number_of_writers),
    }
}

/// A service with the number 7.
pub fn service(kind: MessagingPattern, nodes: usize, ports: [usize; 2]) -> DynamicConfig {
    DynamicConfig::new(settings(kind, ports), nodes, 7).unwrap()
}

/// A description of each pattern, in the order of `KINDS`, of a service called `a`.
pub fn descriptions(config: &Config, id: UniqueServiceId) -> [StaticConfig; 4] {
    let name = "a".parse().unwrap();
    [
        StaticConfig::new_publish_subscribe(&name, config, id).unwrap(),
        StaticConfig::new_event(&name, config, id).unwrap(),
        StaticConfig::new_request_response(&name, config, id).unwrap(),
        StaticConfig::new_blackboard(&name, config, id).unwrap(),
    ]
}

/// A port of this role, where no two of all fields are alike.
pub fn port(role: Role, id: [u32; 4], node_id: UniqueNodeId) -> PortDetails {
    let [process, seconds, nanoseconds, counter] = id;
    macro_rules! details {
        ($details:ident $id:ident: $id_type:ident $($field:ident: $value:expr,)*) => {
            $details {
                $id: $id_type::new(process, seconds, nanoseconds, counter),
                node_id,
                $($field: $value,)*
            }
            .into()
        };
    }
    match role {
        Role::Publisher => details! {
            PublisherDetails publisher_id: UniquePublisherId number_of_samples: 11,
            max_slice_len: 12, data_segment_type: DataSegmentType::Dynamic,
            max_number_of_segments: 13,
        },
        Role::Subscriber => details! {
            SubscriberDetails subscriber_id: UniqueSubscriberId buffer_size: 14,
        },
        Role::Listener => details! { ListenerDetails listener_id: UniqueListenerId },
        Role::Notifier => details! { NotifierDetails notifier_id: UniqueNotifierId },
        Role::Server => details! {
            ServerDetails server_id: UniqueServerId request_buffer_size: 15,
            number_of_responses: 16, max_slice_len: 17, data_segment_type: DataSegmentType::Static,
            max_number_of_segments: 18,
        },
        Role::Client => details! {
            ClientDetails client_id: UniqueClientId number_of_requests: 19,
            response_buffer_size: 20, max_slice_len: 21,
            data_segment_type: DataSegmentType::Dynamic, max_number_of_segments: 255,
        },
        Role::Reader => details! { ReaderDetails reader_id: UniqueReaderId },
        Role::Writer => details! { WriterDetails writer_id: UniqueWriterId },
        Role::Node => unreachable!("a port is no node"),
    }
}

/// A port of each kind of a pattern.
pub fn ports_of_kind(kind: MessagingPattern, node: UniqueNodeId, counter: u32) -> [PortDetails; 2] {
    let (_, first, second) = KINDS[kind as usize];
    [
        port(first, [2, 0, 0, counter], node),
        port(second, [3, 0, 0, counter], node),
    ]
}
