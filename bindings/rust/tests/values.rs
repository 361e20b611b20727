//! Each field of each value counts: a value with one field changed is unequal, and hashed, ordered
//! and printed otherwise.
#![forbid(unsafe_code)]

mod common;

use common::{descriptions, ports_of_kind, KINDS};
use iox2sd::attribute::*;
use iox2sd::config::*;
use iox2sd::container::{ContainerHandle, Role};
use iox2sd::dynamic_config::*;
use iox2sd::identifiers::*;
use iox2sd::messaging_pattern::MessagingPattern;
use iox2sd::paths::{FileName, Path};
use iox2sd::service_name::ServiceName;
use iox2sd::static_config::event::Deadline;
use iox2sd::static_config::message_type_details::*;
use iox2sd::static_config::StaticConfig;
use std::collections::hash_map::DefaultHasher;
use std::fmt::Debug;
use std::hash::{Hash, Hasher};
use std::time::Duration;

/// Each value is unequal to each other one, and printed otherwise.
fn differ<T: PartialEq + Debug>(values: &[T]) {
    for (i, one) in values.iter().enumerate() {
        for (j, other) in values.iter().enumerate() {
            assert_eq!(one == other, i == j, "{one:?} and {other:?}");
            assert_eq!(one != other, i != j, "{one:?} and {other:?}");
            assert_eq!(format!("{one:?}") == format!("{other:?}"), i == j);
        }
    }
}

fn hash(value: &impl Hash) -> u64 {
    let mut hasher = DefaultHasher::new();
    value.hash(&mut hasher);
    hasher.finish()
}

/// The same, and each is hashed otherwise.
fn differ_hashed<T: PartialEq + Debug + Hash>(values: &[T]) {
    differ(values);
    for (i, one) in values.iter().enumerate() {
        for (j, other) in values.iter().enumerate() {
            assert_eq!(hash(one) == hash(other), i == j, "{one:?} and {other:?}");
        }
    }
}

/// The same of values in rising order.
fn differ_ordered<T: Ord + Debug + Hash>(values: &[T]) {
    differ_hashed(values);
    for (i, one) in values.iter().enumerate() {
        for (j, other) in values.iter().enumerate() {
            assert_eq!(one.cmp(other), i.cmp(&j), "{one:?} and {other:?}");
            assert_eq!(one.partial_cmp(other), Some(i.cmp(&j)));
        }
    }
}

/// A value, and copies with one field changed in turn.
macro_rules! changed {
    ($value:expr; $($field:ident$(.$inner:ident)* = $new:expr),* $(,)?) => {{
        let value = $value;
        vec![value.clone(), $({
            let mut value = value.clone();
            value.$field$(.$inner)* = $new;
            value
        }),*]
    }};
}

fn node(counter: u32) -> UniqueNodeId {
    UniqueNodeId::new(1, 2, 3, counter).unwrap()
}

fn detail(name: &str) -> TypeDetail {
    TypeDetail::from_parts(TypeVariant::FixedSize, name, 4, 2).unwrap()
}

fn message(name: &str) -> MessageTypeDetails {
    MessageTypeDetails {
        header: detail("h"),
        user_header: detail("u"),
        payload: detail(name),
    }
}

/// Defines a test of the ids of each kind: each part counts, and numbers and texts are read back.
macro_rules! ids {
    ($($name:ident)*) => {
        $(
            let made = |p, s, n, c| $name::from_parts_of_a_test(p, s, n, c);
            let all = [made(1, 1, 1, 1), made(1, 1, 1, 2), made(1, 1, 2, 1), made(1, 2, 1, 1),
                made(2, 1, 1, 1), made(u32::MAX, u32::MAX, u32::MAX, u32::MAX)];
            differ_ordered(&all);
            for id in all {
                assert_eq!($name::try_from(id.value()), Ok(id));
                assert_eq!(id.to_string().parse(), Ok(id));
            }
            for wrong in ["", "0a", "A", "+a", " a", "a ", "0x1", "g", "-1", "00",
                "100000000000000000000000000000000"] {
                assert_eq!(wrong.parse::<$name>(), Err(IdError::NoText), "{wrong}");
            }
        )*
    };
}

/// Makes any id of four parts.
trait OfParts {
    fn from_parts_of_a_test(p: u32, s: u32, n: u32, c: u32) -> Self;
}

macro_rules! of_parts {
    ($($name:ident)*) => {
        $(
            impl OfParts for $name {
                fn from_parts_of_a_test(p: u32, s: u32, n: u32, c: u32) -> Self {
                    $name::new(p, s, n, c)
                }
            }
        )*
    };
}

of_parts! {
    UniquePublisherId UniqueSubscriberId UniqueNotifierId UniqueListenerId UniqueClientId
    UniqueServerId UniqueReaderId UniqueWriterId UniqueServiceId
}

impl OfParts for UniqueNodeId {
    fn from_parts_of_a_test(p: u32, s: u32, n: u32, c: u32) -> Self {
        UniqueNodeId::new(p, s, n, c).unwrap()
    }
}

#[test]
fn ids_differ_and_are_read_back() {
    ids! {
        UniquePublisherId UniqueSubscriberId UniqueNotifierId UniqueListenerId UniqueClientId
        UniqueServerId UniqueReaderId UniqueWriterId UniqueServiceId UniqueNodeId
    }
    assert_eq!("0".parse(), Ok(UniqueServiceId::new(0, 0, 0, 0)));
    assert_eq!("0".parse::<UniqueNodeId>(), Err(IdError::NoNode));
    let later = UniqueServiceId::new(0, 1, 1, 0);
    assert_eq!(UniqueNodeId::try_from(later.value()), Err(IdError::NoNode));
    assert_eq!(IdError::NoText.to_string(), "not the text of an id");
    assert_eq!(IdError::NoNode.to_string(), "not the id of a node");
}

#[test]
fn ids_of_ports_differ_by_their_kinds() {
    let ids: [UniquePortId; 8] = [
        UniquePublisherId::new(1, 1, 1, 1).into(),
        UniqueSubscriberId::new(1, 1, 1, 1).into(),
        UniqueNotifierId::new(1, 1, 1, 1).into(),
        UniqueListenerId::new(1, 1, 1, 1).into(),
        UniqueClientId::new(1, 1, 1, 1).into(),
        UniqueServerId::new(1, 1, 1, 1).into(),
        UniqueReaderId::new(1, 1, 1, 1).into(),
        UniqueWriterId::new(1, 1, 1, 1).into(),
    ];
    differ_hashed(&ids);
    assert_eq!(
        ids[3],
        UniquePortId::Listener(UniqueListenerId::new(1, 1, 1, 1))
    );
    let value = UniqueServiceId::new(1, 1, 1, 1);
    for id in ids {
        assert_eq!(
            (id.value(), id.to_string()),
            (value.value(), value.to_string())
        );
    }
}

#[test]
fn handles_times_and_numbers_differ() {
    let handle = ContainerHandle::from_parts;
    differ_ordered(&[
        handle(7, Role::Node, 1, 2),
        handle(7, Role::Node, 1, 3),
        handle(7, Role::Node, 2, 2),
        handle(7, Role::Publisher, 1, 2),
        handle(8, Role::Node, 1, 2),
    ]);
    differ_ordered(&Role::ALL);
    differ_hashed(&[Time::new(1, 2), Time::new(2, 2), Time::new(1, 3)]);
    differ_hashed(&[ProcessId::new(1), ProcessId::new(2)]);
    differ_hashed(&[EventId::new(1), EventId::new(2)]);
    let deadline = Deadline {
        creation_time: Time::new(1, 2),
        value: Duration::new(3, 4),
    };
    differ_hashed(&changed!(deadline;
        creation_time = Time::new(1, 3), value = Duration::new(3, 5)));
    let cause = Incompatibility {
        part: MessagePart::Header,
        cause: IncompatibilityCause::OtherName,
    };
    differ_hashed(&changed!(cause;
        part = MessagePart::Payload, cause = IncompatibilityCause::OtherSize));
}

#[test]
fn texts_and_attributes_differ() -> Result<(), Box<dyn std::error::Error>> {
    let names = ["a", "aa", "b"].map(|name| name.parse::<ServiceName>().unwrap());
    differ_ordered(&names);
    let name = names[0];
    let (owned, other) = (String::from("a"), String::from("b"));
    assert!(name == *"a" && name == "a" && name == owned);
    assert!(*"a" == name && "a" == name && owned == name);
    assert!(name != *"b" && name != "b" && name != other);
    assert!(*"b" != name && "b" != name && other != name);
    assert_eq!(ServiceName::try_from(owned), Ok(name));
    assert_eq!("a".parse::<Path>()?, Path::new(b"a")?);
    let attribute =
        |key: &str, value: &str| Attribute::new(&key.parse().unwrap(), &value.parse().unwrap());
    differ_ordered(&[
        attribute("a", "v"),
        attribute("a", "w"),
        attribute("b", "v"),
    ]);
    let set = |pairs: &[(&str, &str)]| {
        let mut set = AttributeSet::new();
        for pair in pairs.iter().map(|(key, value)| attribute(key, value)) {
            set.add(pair.key(), pair.value()).unwrap();
        }
        set
    };
    let (av, bv) = (("a", "v"), ("b", "v"));
    let aw = ("a", "w");
    let rising: [&[_]; 8] = [
        &[],
        &[av],
        &[av, av],
        &[av, av, bv],
        &[av, bv],
        &[av, bv, bv],
        &[aw],
        &[bv],
    ];
    differ_ordered(&rising.map(set));
    assert_eq!(set(&[av, bv, av]), set(&[bv, av, av]));
    let (key, value) = ("a".parse()?, "v".parse()?);
    differ(&[
        AttributeVerificationError::NonExistingKey(key),
        AttributeVerificationError::NonExistingKey("b".parse()?),
        AttributeVerificationError::IncompatibleAttribute((key, value)),
        AttributeVerificationError::IncompatibleAttribute((key, "w".parse()?)),
        AttributeVerificationError::IncompatibleAttribute(("b".parse()?, value)),
    ]);
    Ok(())
}

#[test]
fn details_of_ports_differ() {
    let other = DataSegmentType::Static;
    let ports = KINDS.map(|(kind, ..)| ports_of_kind(kind, node(4), 1));
    let [[publisher, subscriber], [listener, notifier], [server, client], [reader, writer]] = ports;
    /// Details with one id, the node and further fields changed in turn.
    macro_rules! changed_port {
        ($details:ident $port:ident $id:ident $id_type:ident $($field:ident = $new:expr),*) => {
            differ_hashed(
                &changed!($details::try_from($port).unwrap(); $id = $id_type::new(9, 9, 9, 9),
                node_id = node(5) $(, $field = $new)*),
            );
        };
    }
    changed_port!(PublisherDetails publisher publisher_id UniquePublisherId
        number_of_samples = 9, max_slice_len = 9, data_segment_type = other,
        max_number_of_segments = 9);
    changed_port!(SubscriberDetails subscriber subscriber_id UniqueSubscriberId buffer_size = 9);
    changed_port!(ListenerDetails listener listener_id UniqueListenerId);
    changed_port!(NotifierDetails notifier notifier_id UniqueNotifierId);
    changed_port!(ServerDetails server server_id UniqueServerId
        request_buffer_size = 9, number_of_responses = 9, max_slice_len = 9,
        data_segment_type = DataSegmentType::Dynamic, max_number_of_segments = 9);
    changed_port!(ClientDetails client client_id UniqueClientId
        number_of_requests = 9, response_buffer_size = 9, max_slice_len = 9,
        data_segment_type = other, max_number_of_segments = 9);
    changed_port!(ReaderDetails reader reader_id UniqueReaderId);
    changed_port!(WriterDetails writer writer_id UniqueWriterId);
    differ_hashed(&ports.concat());
    let room = event::DynamicConfigSettings {
        number_of_listeners: 1,
        number_of_notifiers: 2,
    };
    let rooms = changed!(room; number_of_listeners = 9, number_of_notifiers = 9);
    let rooms = rooms.into_iter().map(MessagingPatternSettings::from);
    differ_hashed(&rooms.collect::<Vec<_>>());
}

#[test]
fn types_differ() {
    let made = |variant, name, size, alignment| {
        TypeDetail::from_parts(variant, name, size, alignment).unwrap()
    };
    differ_hashed(&[
        detail("t"),
        made(TypeVariant::Dynamic, "t", 4, 2),
        detail("s"),
        made(TypeVariant::FixedSize, "t", 5, 2),
        made(TypeVariant::FixedSize, "t", 4, 4),
        TypeDetail::default(),
    ]);
    differ_hashed(&changed!(message("p");
        header = detail("x"), user_header = detail("x"), payload = detail("x")));
}

#[test]
fn settings_differ() {
    let retry = BackpressureStrategy::DiscardData;
    let best = AllocationStrategy::BestFit;
    let other = || Path::new(b"other").unwrap();
    let name = || FileName::new(b"other").unwrap();
    differ(&changed!(Config::default();
        global.prefix = name(), global.creation_timeout = Duration::new(0, 1),
        global.service.directory = other(), global.service.data_segment_suffix = name(),
        global.service.static_config_storage_suffix = name(),
        global.service.dynamic_config_storage_suffix = name(),
        global.service.connection_suffix = name(),
        global.service.event_connection_suffix = name(),
        global.service.blackboard_mgmt_suffix = name(),
        global.service.blackboard_data_suffix = name(),
        global.service.cleanup_dead_nodes_on_open = false,
        global.node.directory = other(), global.node.monitor_suffix = name(),
        global.node.static_config_suffix = name(), global.node.service_tag_suffix = name(),
        global.node.port_tag_suffix = name(), global.node.global_mgmt_suffix = name(),
        global.node.cleanup_dead_nodes_on_creation = false,
        global.node.cleanup_dead_nodes_on_destruction = false,
        defaults.publish_subscribe.max_subscribers = 99,
        defaults.publish_subscribe.max_publishers = 99,
        defaults.publish_subscribe.max_nodes = 99,
        defaults.publish_subscribe.subscriber_max_buffer_size = 99,
        defaults.publish_subscribe.subscriber_max_borrowed_samples = 99,
        defaults.publish_subscribe.publisher_max_loaned_samples = 99,
        defaults.publish_subscribe.publisher_history_size = 99,
        defaults.publish_subscribe.enable_safe_overflow = false,
        defaults.publish_subscribe.backpressure_strategy = retry,
        defaults.publish_subscribe.subscriber_expired_connection_buffer = 99,
        defaults.publish_subscribe.publisher_allocation_strategy = best,
        defaults.event.max_listeners = 99, defaults.event.max_notifiers = 99,
        defaults.event.max_nodes = 99, defaults.event.event_id_max_value = 99,
        defaults.event.deadline = Some(Duration::new(1, 2)),
        defaults.event.notifier_created_event = Some(9),
        defaults.event.notifier_dropped_event = Some(9),
        defaults.event.notifier_dead_event = Some(9),
        defaults.request_response.enable_safe_overflow_for_requests = false,
        defaults.request_response.enable_safe_overflow_for_responses = false,
        defaults.request_response.max_active_requests_per_client = 99,
        defaults.request_response.max_response_buffer_size = 99,
        defaults.request_response.max_servers = 99, defaults.request_response.max_clients = 99,
        defaults.request_response.max_nodes = 99,
        defaults.request_response.max_borrowed_responses_per_pending_response = 99,
        defaults.request_response.max_loaned_requests = 99,
        defaults.request_response.server_max_loaned_responses_per_request = 99,
        defaults.request_response.client_backpressure_strategy = retry,
        defaults.request_response.server_backpressure_strategy = retry,
        defaults.request_response.client_expired_connection_buffer = 99,
        defaults.request_response.server_expired_connection_buffer = 99,
        defaults.request_response.enable_fire_and_forget_requests = false,
        defaults.request_response.client_allocation_strategy = best,
        defaults.request_response.server_allocation_strategy = best,
        defaults.blackboard.max_readers = 99, defaults.blackboard.max_nodes = 99));
    let mut moved = Config::default();
    moved.global.set_root_path(&other());
    assert_ne!(moved, Config::default());
}

#[test]
fn descriptions_differ() {
    let config = Config::default();
    let id = |counter| UniqueServiceId::new(1, 2, 3, counter);
    let made = |name: &str, counter| {
        StaticConfig::new_event(&name.parse().unwrap(), &config, id(counter)).unwrap()
    };
    let (key, value) = ("a".parse().unwrap(), "v".parse().unwrap());
    let specifier = AttributeSpecifier::new().define(&key, &value).unwrap();
    let mut fewer = made("a", 4);
    fewer.event_mut().max_nodes = 1;
    let mut all = descriptions(&config, id(4)).to_vec();
    all.extend([
        made("b", 4),
        made("a", 5),
        made("a", 4).with_attributes(specifier.attributes()),
        fewer,
    ]);
    differ(&all);
    let samples = *all[0].publish_subscribe();
    differ(
        &changed!(samples; max_subscribers = 99, max_publishers = 99, max_nodes = 99,
        history_size = 99, subscriber_max_buffer_size = 99, subscriber_max_borrowed_samples = 99,
        enable_safe_overflow = false, message_type_details = message("p")),
    );
    differ_ordered(&MessagingPattern::ALL);
}
