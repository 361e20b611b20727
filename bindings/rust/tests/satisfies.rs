//! Whether services meet what openers require, capacities by settings, and numbers for services.
#![forbid(unsafe_code)]

#[macro_use]
mod common;

use iox2sd::config::{
    Blackboard, Config, Event, PatternSettings, PublishSubscribe, RequestResonse,
};
use iox2sd::container::ServiceNumbers;
use iox2sd::dynamic_config::{publish_subscribe as publish_subscribe_ports, Capacities};
use iox2sd::identifiers::Time;
use iox2sd::messaging_pattern::MessagingPattern;
use iox2sd::static_config::event::Deadline;
use iox2sd::static_config::setting::Setting;
use iox2sd::static_config::{blackboard, event, publish_subscribe, request_response};
use std::time::Duration;

#[test]
fn samples_are_as_required() {
    let service = publish_subscribe::StaticConfig::new(&Config::default());
    let is_unmet = |change: fn(&mut publish_subscribe::StaticConfig), setting| {
        let mut required = service;
        change(&mut required);
        assert_eq!(service.first_unmet(&required), Some(setting));
        assert!(!service.satisfies(&required));
    };
    is_unmet(|r| r.max_subscribers += 1, Setting::MaxSubscribers);
    is_unmet(|r| r.max_publishers += 1, Setting::MaxPublishers);
    is_unmet(|r| r.max_nodes += 1, Setting::MaxNodes);
    is_unmet(|r| r.history_size += 1, Setting::HistorySize);
    is_unmet(
        |r| r.subscriber_max_buffer_size += 1,
        Setting::SubscriberMaxBufferSize,
    );
    is_unmet(
        |r| r.subscriber_max_borrowed_samples += 1,
        Setting::SubscriberMaxBorrowedSamples,
    );
    is_unmet(
        |r| r.enable_safe_overflow = false,
        Setting::EnableSafeOverflow,
    );
    let fewer = with!(service; max_nodes: 19);
    assert!(service.satisfies(&fewer) && service.satisfies(&service));
}

#[test]
fn events_are_as_required() {
    let mut service = event::StaticConfig::new(&Config::default());
    service.deadline = Some(Deadline {
        creation_time: Time::new(1, 2),
        value: Duration::new(3, 4),
    });
    let is_unmet = |change: fn(&mut event::StaticConfig), setting| {
        let mut required = service;
        change(&mut required);
        assert_eq!(service.first_unmet(&required), Some(setting));
    };
    is_unmet(|r| r.max_notifiers += 1, Setting::MaxNotifiers);
    is_unmet(|r| r.max_listeners += 1, Setting::MaxListeners);
    is_unmet(|r| r.max_nodes += 1, Setting::MaxNodes);
    is_unmet(|r| r.event_id_max_value += 1, Setting::EventIdMaxValue);
    is_unmet(|r| r.deadline = None, Setting::Deadline);
    is_unmet(
        |r| r.notifier_created_event = Some(0),
        Setting::NotifierCreatedEvent,
    );
    is_unmet(
        |r| r.notifier_dropped_event = Some(0),
        Setting::NotifierDroppedEvent,
    );
    is_unmet(
        |r| r.notifier_dead_event = Some(0),
        Setting::NotifierDeadEvent,
    );
    let mut later = service;
    later.deadline = Some(Deadline {
        creation_time: Time::new(5, 6),
        value: Duration::new(3, 4),
    });
    assert_eq!(service.first_unmet(&later), None);
}

#[test]
fn requests_are_as_required() {
    let service = request_response::StaticConfig::new(&Config::default());
    let is_unmet = |change: fn(&mut request_response::StaticConfig), setting| {
        let mut required = service;
        change(&mut required);
        assert_eq!(service.first_unmet(&required), Some(setting));
    };
    is_unmet(
        |r| r.enable_safe_overflow_for_requests = false,
        Setting::EnableSafeOverflowForRequests,
    );
    is_unmet(
        |r| r.enable_safe_overflow_for_responses = false,
        Setting::EnableSafeOverflowForResponses,
    );
    is_unmet(
        |r| r.enable_fire_and_forget_requests = false,
        Setting::EnableFireAndForgetRequests,
    );
    is_unmet(
        |r| r.max_active_requests_per_client += 1,
        Setting::MaxActiveRequestsPerClient,
    );
    is_unmet(|r| r.max_loaned_requests += 1, Setting::MaxLoanedRequests);
    is_unmet(
        |r| r.max_response_buffer_size += 1,
        Setting::MaxResponseBufferSize,
    );
    is_unmet(|r| r.max_servers += 1, Setting::MaxServers);
    is_unmet(|r| r.max_clients += 1, Setting::MaxClients);
    is_unmet(|r| r.max_nodes += 1, Setting::MaxNodes);
    is_unmet(
        |r| r.max_borrowed_responses_per_pending_response += 1,
        Setting::MaxBorrowedResponsesPerPendingResponse,
    );
    assert!(service.satisfies(&service));
}

#[test]
fn values_are_as_required() {
    let service = blackboard::StaticConfig::new(&Config::default());
    let is_unmet = |change: fn(&mut blackboard::StaticConfig), setting| {
        let mut required = service;
        change(&mut required);
        assert_eq!(service.first_unmet(&required), Some(setting));
    };
    is_unmet(|r| r.max_readers += 1, Setting::MaxReaders);
    is_unmet(|r| r.max_writers += 1, Setting::MaxWriters);
    is_unmet(|r| r.max_nodes += 1, Setting::MaxNodes);
    assert!(service.satisfies(&service));
}

#[test]
fn settings_print_as_their_fields() {
    for (i, setting) in Setting::ALL.iter().enumerate() {
        let shown: String = format!("{setting:?}").to_lowercase();
        assert_eq!(setting.to_string().replace('_', ""), shown);
        assert!(Setting::ALL[i + 1..].iter().all(|other| other > setting));
    }
    assert_eq!(format!("{:>10}", Setting::MaxNodes), " max_nodes");
}

#[test]
fn capacities_are_those_of_settings() {
    let room = with!(PublishSubscribe::default(); max_publishers: 4, max_subscribers: 5);
    let ports = publish_subscribe_ports::DynamicConfigSettings::from(&room);
    equal! {
        room.capacities().ports => ports.into();
        room.capacities().ports => common::settings(MessagingPattern::PublishSubscribe, [4, 5]);
    }
    let room = with!(Event::default(); max_listeners: 4, max_notifiers: 5, max_nodes: 6);
    assert_eq!(
        Capacities::from(&room),
        Capacities {
            max_nodes: 6,
            ports: common::settings(MessagingPattern::Event, [4, 5]),
        }
    );
    let room = with!(RequestResonse::default(); max_servers: 4, max_clients: 5);
    equal! {
        room.capacities().ports => common::settings(MessagingPattern::RequestResponse, [4, 5]);
    }
    let room = with!(Blackboard::default(); max_readers: 4);
    equal! {
        room.capacities().ports => common::settings(MessagingPattern::Blackboard, [4, 1]);
    }
}

#[test]
fn numbers_for_services_rise_to_the_greatest() {
    let mut numbers = ServiceNumbers::default();
    assert_eq!(numbers.last_number(), 0);
    assert!(numbers.by_ref().take(3).eq(1..4));
    assert_eq!(numbers.last_number(), 3);
    let mut last = ServiceNumbers::after(u64::MAX - 1);
    equal! {
        [last.next(), last.next(), last.next()] => [Some(u64::MAX), None, None];
        last.last_number() => u64::MAX;
    }
}
