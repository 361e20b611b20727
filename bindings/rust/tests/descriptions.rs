//! Configurations, descriptions of services, hash texts and counts of chunks.
#![forbid(unsafe_code)]

#[macro_use]
mod common;

use common::{descriptions, KINDS};
use iox2sd::config::*;
use iox2sd::dynamic_config::{DeregisterNodeState, PortCleanupAction};
use iox2sd::identifiers::UniqueServiceId;
use iox2sd::messaging_pattern::MessagingPattern as Kind;
use iox2sd::paths::Path;
use iox2sd::semantic_string::SemanticStringError;
use iox2sd::service_hash::ServiceHash;
use iox2sd::service_name::ServiceName;
use iox2sd::static_config::message_type_details::TypeVariant;
use iox2sd::static_config::{publish_subscribe, request_response};
use iox2sd::CallbackProgression;
use std::time::Duration;

fn id() -> UniqueServiceId {
    UniqueServiceId::new(1, 2, 3, 4)
}

#[test]
fn settings_have_defaults() {
    let expected = with!(Defaults::default();
        publish_subscribe: with!(PublishSubscribe::default();
            max_subscribers: 8, max_publishers: 2, max_nodes: 20, subscriber_max_buffer_size: 2,
            subscriber_max_borrowed_samples: 2, publisher_max_loaned_samples: 2,
            publisher_history_size: 0, enable_safe_overflow: true,
            backpressure_strategy: BackpressureStrategy::RetryUntilDelivered,
            subscriber_expired_connection_buffer: 128,
            publisher_allocation_strategy: AllocationStrategy::Static,
        ),
        event: with!(Event::default();
            max_listeners: 16, max_notifiers: 16, max_nodes: 36, event_id_max_value: 255,
            deadline: None, notifier_created_event: None, notifier_dropped_event: None,
            notifier_dead_event: None,
        ),
        request_response: with!(RequestResonse::default();
            enable_safe_overflow_for_requests: true, enable_safe_overflow_for_responses: true,
            max_active_requests_per_client: 4, max_response_buffer_size: 2, max_servers: 2,
            max_clients: 8, max_nodes: 20, max_borrowed_responses_per_pending_response: 2,
            max_loaned_requests: 2, server_max_loaned_responses_per_request: 2,
            client_backpressure_strategy: BackpressureStrategy::RetryUntilDelivered,
            server_backpressure_strategy: BackpressureStrategy::RetryUntilDelivered,
            client_expired_connection_buffer: 128, server_expired_connection_buffer: 128,
            enable_fire_and_forget_requests: true,
            client_allocation_strategy: AllocationStrategy::Static,
            server_allocation_strategy: AllocationStrategy::Static,
        ),
        blackboard: with!(Blackboard::default();
            max_readers: 8, max_nodes: 20,
        ),
    );
    assert_eq!(Config::default().defaults, expected);
}

#[test]
fn files_have_default_names() {
    let global = Config::default().global;
    assert_eq!(global.root_path(), &Path::new(b"/tmp/iceoryx2/").unwrap());
    assert_eq!(global.creation_timeout, Duration::from_millis(500));
    assert!(global.service.cleanup_dead_nodes_on_open);
    assert!(global.node.cleanup_dead_nodes_on_creation);
    assert!(global.node.cleanup_dead_nodes_on_destruction);
    equal! {
        global.prefix => "iox2_";
        global.service.directory => "services";
        global.service.data_segment_suffix => ".data";
        global.service.static_config_storage_suffix => ".service";
        global.service.dynamic_config_storage_suffix => ".dynamic";
        global.service.connection_suffix => ".connection";
        global.service.event_connection_suffix => ".event";
        global.service.blackboard_mgmt_suffix => ".blackboard_mgmt";
        global.service.blackboard_data_suffix => ".blackboard_data";
        global.node.directory => "nodes";
        global.node.monitor_suffix => ".node_monitor";
        global.node.static_config_suffix => ".details";
        global.node.service_tag_suffix => ".service_tag";
        global.node.port_tag_suffix => ".port_tag";
        global.node.global_mgmt_suffix => ".global_mgmt";
        Config::default_config_file_name() => "iceoryx2.toml";
        Config::default_config_file_path() => "config/iceoryx2.toml";
        Config::relative_config_path() => "iceoryx2";
        Config::default_user_config_file_path() => "iceoryx2/iceoryx2.toml";
    }
}

#[test]
fn directories_lie_below_the_root_path() {
    let mut global = Config::default().global;
    assert_eq!(global.service_dir().unwrap(), "/tmp/iceoryx2/services");
    assert_eq!(global.node_dir().unwrap(), "/tmp/iceoryx2/nodes");
    global.set_root_path(&"".try_into().unwrap());
    assert_eq!(global.node_dir().unwrap(), "nodes");
    global.node.directory = "other".try_into().unwrap();
    assert_eq!(global.node_dir().unwrap(), "other");
    global.set_root_path(&"r".repeat(250).as_str().try_into().unwrap());
    let error = SemanticStringError::ExceedsMaximumLength;
    assert_eq!(global.service_dir(), Err(error));
    assert_eq!(global.node_dir(), Err(error));
    global.node.directory = "1234".try_into().unwrap();
    assert_eq!(global.node_dir().unwrap().len(), 255);
}

#[test]
fn a_description_has_what_it_was_made_of() {
    let config = Config::default();
    let name = ServiceName::new("a").unwrap();
    let names = ["PublishSubscribe", "Event", "RequestResponse", "Blackboard"];
    for ((service, (kind, ..)), text) in descriptions(&config, id()).iter().zip(KINDS).zip(names) {
        equal! {
            service.name() => &name;
            service.unique_service_id() => id();
            service.service_hash() => &ServiceHash::new(&name, kind).unwrap();
            service.messaging_pattern().kind() => kind;
            service.messaging_pattern().to_string() => text;
            kind.to_string() => text;
        }
        assert!(service.attributes().is_empty());
    }
}

#[test]
fn patterns_are_the_same_whatever_is_fixed_by_them() {
    let config = Config::default();
    let mut other = config.clone();
    other.defaults.event.event_id_max_value -= 1;
    other.defaults.publish_subscribe.max_nodes -= 1;
    other.defaults.request_response.max_nodes -= 1;
    other.defaults.blackboard.max_nodes -= 1;
    assert_ne!(config, other);
    let (ones, others) = (descriptions(&config, id()), descriptions(&other, id()));
    for (i, one) in ones.iter().enumerate() {
        for (j, other) in others.iter().enumerate() {
            let (pattern, other_pattern) = (one.messaging_pattern(), other.messaging_pattern());
            assert_eq!(one.has_same_messaging_pattern(other), i == j);
            assert_eq!(pattern.is_same_pattern(other_pattern), i == j);
            assert!(one != other && pattern != other_pattern);
        }
        let is = [
            one.is_publish_subscribe(),
            one.is_event(),
            one.is_request_response(),
        ];
        assert_eq!(is, [i == 0, i == 1, i == 2]);
        assert_eq!(one.is_blackboard(), i == 3);
    }
}

#[test]
fn what_is_fixed_comes_from_the_defaults() {
    let mut config = Config::default();
    let events = &mut config.defaults.event;
    events.deadline = Some(Duration::new(3, 4));
    events.notifier_created_event = Some(8);
    events.notifier_dead_event = Some(9);
    events.max_listeners = 15;
    let samples = &mut config.defaults.publish_subscribe;
    samples.publisher_history_size = 5;
    samples.subscriber_max_buffer_size = 6;
    samples.subscriber_max_borrowed_samples = 7;
    let requests = &mut config.defaults.request_response;
    requests.enable_fire_and_forget_requests = false;
    requests.enable_safe_overflow_for_responses = false;
    requests.max_loaned_requests = 9;
    requests.max_response_buffer_size = 10;
    requests.max_borrowed_responses_per_pending_response = 11;
    config.defaults.blackboard.max_readers = 3;
    let [publish_subscribe, event, request_response, blackboard] = descriptions(&config, id());

    let service = publish_subscribe.publish_subscribe();
    equal! {
        service.history_size() => 5;
        (service.max_publishers(), service.max_subscribers()) => (2, 8);
        service.max_nodes() => 20;
        service.subscriber_max_buffer_size() => 6;
        service.subscriber_max_borrowed_samples() => 7;
    }
    assert!(service.has_safe_overflow());
    assert!(!service.message_type_details().has_alignments());

    let service = event.event();
    equal! {
        service.deadline() => Some(Duration::new(3, 4));
        service.notifier_dead_event() => Some(EventId::new(9));
        service.notifier_dead_event().unwrap().to_string() => "9";
        service.notifier_created_event() => Some(EventId::new(8));
        service.notifier_dropped_event() => None;
        (service.max_listeners(), service.max_notifiers()) => (15, 16);
        (service.max_nodes(), service.event_id_max_value()) => (36, 255);
    }

    let service = request_response.request_response();
    assert!(!service.does_support_fire_and_forget_requests());
    assert!(service.has_safe_overflow_for_requests());
    assert!(!service.has_safe_overflow_for_responses());
    equal! {
        (service.max_servers(), service.max_clients()) => (2, 8);
        (service.max_nodes(), service.max_loaned_requests()) => (20, 9);
        service.max_active_requests_per_client() => 4;
        service.max_response_buffer_size() => 10;
        service.max_borrowed_responses_per_pending_response() => 11;
    }

    let service = blackboard.blackboard();
    assert_eq!((service.max_readers(), service.max_writers), (3, 1));
    assert_eq!(service.max_nodes(), 20);
    assert_eq!(service.type_details().alignment(), 0);
}

#[test]
fn a_description_is_changed_in_place() {
    let [mut one, mut two, mut three, mut four] = descriptions(&Config::default(), id());
    one.publish_subscribe_mut().max_nodes = 1;
    two.event_mut().max_nodes = 2;
    three.request_response_mut().max_nodes = 3;
    four.blackboard_mut().max_nodes = 4;
    assert_eq!(one.publish_subscribe().max_nodes(), 1);
    assert_eq!(one.messaging_pattern().publish_subscribe().max_nodes(), 1);
    assert_eq!(two.event().max_nodes(), 2);
    assert_eq!(three.request_response().max_nodes(), 3);
    assert_eq!(three.messaging_pattern().request_response().max_nodes(), 3);
    assert_eq!(four.blackboard().max_nodes(), 4);

    let (key, value) = ("k".parse().unwrap(), "v".parse().unwrap());
    let mut attributes = one.attributes().clone();
    attributes.add(&key, &value).unwrap();
    let described = one.clone().with_attributes(&attributes);
    assert_eq!(described.attributes(), &attributes);
    assert_eq!(described.messaging_pattern(), one.messaging_pattern());
    assert_ne!(described, one);
}

#[test]
#[should_panic(expected = "the pattern is Event, not PublishSubscribe")]
fn a_getter_for_another_pattern_panics() {
    let [_, event, ..] = descriptions(&Config::default(), id());
    let _ = event.publish_subscribe();
}

#[test]
#[should_panic(expected = "the pattern is Blackboard, not RequestResponse")]
fn a_getter_of_a_pattern_for_another_one_panics() {
    let [.., blackboard] = descriptions(&Config::default(), id());
    let _ = blackboard.messaging_pattern().request_response();
}

#[test]
fn hash_texts_are_names_of_files() {
    let name = ServiceName::new("My/Funk/ServiceName").unwrap();
    let hash = ServiceHash::new(&name, Kind::PublishSubscribe).unwrap();
    // The SHA-1 of "0My/Funk/ServiceName" in base64url without padding, by `sha1sum` and `base64`.
    assert_eq!(hash.as_str(), "Tqyt8mlaP0suuVSFdZJGzhoqqQY");
    assert_eq!(hash.to_string(), "Tqyt8mlaP0suuVSFdZJGzhoqqQY");
    let hash = ServiceHash::new(&name, Kind::Blackboard).unwrap();
    assert_eq!(hash.as_str(), "8ZRQL1Kpi704mo5NDmLcXtD9lzI");
    let internal = ServiceName::internal_new_prefixed("x").unwrap();
    equal! {
        ServiceHash::new(&internal, Kind::Event).unwrap().as_str().len() => 27;
        ServiceHash::max_number_of_characters() => 64;
    }
}

#[test]
fn chunks_are_counted() {
    let mut service = publish_subscribe::StaticConfig::new(&Config::default());
    service.max_subscribers = 3;
    service.subscriber_max_buffer_size = 5;
    service.subscriber_max_borrowed_samples = 7;
    service.history_size = 11;
    // 3 * (5 + 7) + 11 + 13
    let samples = service.required_amount_of_samples_per_data_segment(13);
    service.subscriber_max_buffer_size = usize::MAX;
    let too_many = service.required_amount_of_samples_per_data_segment(13);
    assert_eq!((samples, too_many), (Some(60), None));

    let mut service = request_response::StaticConfig::new(&Config::default());
    service.max_servers = 3;
    service.max_clients = 5;
    service.max_active_requests_per_client = 7;
    service.max_response_buffer_size = 11;
    service.max_borrowed_responses_per_pending_response = 13;
    // 3 * (7 + 7) + 17, and 5 * (7 + 7) * (11 + 13 + 17)
    equal! {
        service.required_amount_of_chunks_per_client_data_segment(17) => Some(59);
        service.required_amount_of_chunks_per_server_data_segment(17) => Some(2870);
        service.required_amount_of_chunks_per_client_data_segment(usize::MAX) => None;
        service.required_amount_of_chunks_per_server_data_segment(usize::MAX) => None;
    }
}

#[test]
fn choices_show_their_names() {
    equal! {
        BackpressureStrategy::DiscardData.to_string() => "DiscardData";
        AllocationStrategy::PowerOfTwo.to_string() => "PowerOfTwo";
        DataSegmentType::Dynamic.to_string() => "Dynamic";
        TypeVariant::FixedSize.to_string() => "FixedSize";
        DeregisterNodeState::HasOwners.to_string() => "HasOwners";
        PortCleanupAction::SkipPort.to_string() => "SkipPort";
        CallbackProgression::Stop.to_string() => "Stop";
    }
}
