//! Conversions and paths of names.
#![forbid(unsafe_code)]

#[macro_use]
mod common;

use common::settings;
use iox2sd::attribute::*;
use iox2sd::config::Config;
use iox2sd::dynamic_config::{
    blackboard, event, publish_subscribe, request_response, MessagingPatternSettings,
};
use iox2sd::identifiers::{UniqueNodeId, UniqueServiceId};
use iox2sd::messaging_pattern::MessagingPattern;
use iox2sd::paths::{FileName, FilePath, RestrictedFileName};
use iox2sd::semantic_string::SemanticStringError;
use iox2sd::service::dynamic_config::publish_subscribe::PublisherDetails;
use iox2sd::service_hash::ServiceHash;
use iox2sd::service_name::{ServiceName, INTERNAL_SERVICE_PREFIX};
use iox2sd::static_config::message_type_details::TypeName;
use iox2sd::static_config::StaticConfig;
use std::any::TypeId;
use std::collections::hash_map::DefaultHasher;
use std::error::Error;
use std::hash::{Hash, Hasher};

fn hash(value: &impl Hash) -> u64 {
    let mut hasher = DefaultHasher::new();
    value.hash(&mut hasher);
    hasher.finish()
}

#[test]
fn versions_are_those_of_the_crate_and_of_the_layer() {
    assert_eq!(iox2sd::version(), env!("CARGO_PKG_VERSION"));
    assert_eq!(iox2sd::layer_version(), "0.9.3");
}

#[test]
fn the_prefix_is_that_of_the_library() {
    assert!(ServiceName::has_iox2_prefix(INTERNAL_SERVICE_PREFIX));
    let shorter = &INTERNAL_SERVICE_PREFIX[..INTERNAL_SERVICE_PREFIX.len() - 1];
    assert!(!ServiceName::has_iox2_prefix(shorter));
    let empty = ServiceName::internal_new_prefixed("");
    assert_eq!(empty.unwrap(), INTERNAL_SERVICE_PREFIX);
}

#[test]
fn values_of_ids_are_the_numbers_that_they_print() {
    let parts = [0, 1, 0xffff, 0x8000_0000, u32::MAX];
    for process in parts {
        for (seconds, nanoseconds) in parts.into_iter().zip(parts.into_iter().rev()) {
            for counter in parts {
                let id = UniqueServiceId::new(process, seconds, nanoseconds, counter);
                assert_eq!(u128::from_str_radix(&id.to_string(), 16), Ok(id.value()));
                assert_eq!(UniqueServiceId::try_from(id.value()), Ok(id));
                assert_eq!(id.to_string().parse(), Ok(id));
            }
        }
    }
    assert_eq!(UniqueNodeId::new(1, 2, 3, 4).map(|id| id.value()), {
        Some(0x1_0000_0002_0000_0003_0000_0004)
    });
}

#[test]
fn texts_are_made_of_texts_of_all_kinds() {
    for text in ["", "a", "a/b", "a\0"] {
        let wanted = FileName::new(text.as_bytes());
        assert_eq!(FileName::try_from(text), wanted);
        assert_eq!(FileName::try_from(text.to_string()), wanted);
        assert_eq!(text.parse(), wanted);
        let wanted = TypeName::try_from(text);
        assert_eq!(TypeName::try_from(text.to_string()), wanted);
        assert_eq!(text.parse(), wanted);
    }
}

#[test]
fn names_of_files_come_from_hash_texts_and_paths() -> Result<(), Box<dyn Error>> {
    let hash = ServiceHash::new(&"lidar/front".parse()?, MessagingPattern::Event)?;
    assert_eq!(FileName::from(hash), FileName::try_from(hash.as_str())?);
    let restricted = RestrictedFileName::from(hash);
    assert_eq!(FileName::from(restricted), hash.as_str());

    for (path, name) in [("a", "a"), ("/a", "a"), ("a/b", "b"), ("//a//b.c", "b.c")] {
        let path: FilePath = path.parse()?;
        assert_eq!(path.file_name(), name);
        assert_eq!(path.file_name(), FileName::try_from(name)?);
        let path: &std::path::Path = path.as_ref();
        assert_eq!(path.file_name(), Some(name.as_ref()));
    }
    let directory = Config::default().global.service_dir()?;
    let file: FileName = "x.service".parse()?;
    let directory_path: &std::path::Path = directory.as_ref();
    let joined = FilePath::from_path_and_file(&directory, &file)?;
    equal! {
        directory_path.join(file) => AsRef::<std::path::Path>::as_ref(&joined);
    }
    Ok(())
}

#[test]
fn sets_are_ordered_hashed_and_taken_apart() -> Result<(), Box<dyn Error>> {
    let pair = |key: &str, value: &str| -> Result<Attribute, SemanticStringError> {
        Ok(Attribute::new(&key.parse()?, &value.parse()?))
    };
    let set = |pairs: &[Attribute]| -> Result<AttributeSet, Box<dyn Error>> {
        let mut set = AttributeSet::new();
        for pair in pairs {
            set.add(pair.key(), pair.value())?;
        }
        Ok(set)
    };
    let (a, b) = (pair("a", "2")?, pair("b", "1")?);
    let taken: Vec<Attribute> = set(&[b, a])?.into_iter().collect();
    assert_eq!(taken, [a, b]);

    let define = |pair: Attribute| AttributeSpecifier::new().define(pair.key(), pair.value());
    assert_eq!(define(a)?, define(a)?);
    assert_ne!(define(a)?, define(b)?);
    assert_eq!(hash(&define(a)?), hash(&define(a)?));
    let require = |pair: Attribute| AttributeVerifier::new().require(pair.key(), pair.value());
    assert_eq!(require(a)?, require(a)?);
    assert_ne!(require(a)?, require(b)?);
    assert_ne!(require(a)?, require(a)?.require_key(a.key())?);
    assert_eq!(hash(&require(a)?), hash(&require(a)?));
    Ok(())
}

#[test]
fn room_is_that_of_descriptions_and_of_defaults() -> Result<(), Box<dyn Error>> {
    let mut config = Config::default();
    config.defaults.event.max_listeners = 3;
    config.defaults.event.max_notifiers = 4;
    config.defaults.publish_subscribe.max_publishers = 5;
    config.defaults.publish_subscribe.max_subscribers = 6;
    config.defaults.request_response.max_servers = 7;
    config.defaults.request_response.max_clients = 9;
    config.defaults.blackboard.max_readers = 10;
    let (name, id) = ("front".parse()?, UniqueServiceId::new(1, 0, 0, 1));
    let ports = |config: &Config| -> Result<_, Box<dyn Error>> {
        let all = [
            StaticConfig::new_publish_subscribe(&name, config, id)?,
            StaticConfig::new_event(&name, config, id)?,
            StaticConfig::new_request_response(&name, config, id)?,
            StaticConfig::new_blackboard(&name, config, id)?,
        ];
        Ok(all.map(|made| MessagingPatternSettings::from(made.messaging_pattern())))
    };
    let expected = [
        settings(MessagingPattern::PublishSubscribe, [5, 6]),
        settings(MessagingPattern::Event, [3, 4]),
        settings(MessagingPattern::RequestResponse, [7, 9]),
        settings(MessagingPattern::Blackboard, [10, 1]),
    ];
    assert_eq!(ports(&config)?, expected);
    let defaults = [
        publish_subscribe::DynamicConfigSettings::default().into(),
        event::DynamicConfigSettings::default().into(),
        request_response::DynamicConfigSettings::default().into(),
        blackboard::DynamicConfigSettings::default().into(),
    ];
    assert_eq!(ports(&Config::default())?, defaults);
    Ok(())
}

/// What is kept of the defaults is as it was when it is asked for again.
#[test]
fn defaults_are_not_changed_by_those_who_have_them() -> Result<(), Box<dyn Error>> {
    let first = Config::default();
    let mut changed = first.clone();
    changed.global.prefix = "other_".parse()?;
    changed.global.service.directory = "others".parse()?;
    changed.global.node.cleanup_dead_nodes_on_creation = false;
    assert_ne!(changed, first);
    assert_ne!(hash(&changed), hash(&first));
    assert_eq!(Config::default(), first);
    assert_eq!(hash(&Config::default()), hash(&first));
    assert_eq!(first.global.service, iox2sd::config::Service::default());
    assert_eq!(first.global.node, iox2sd::config::Node::default());
    Ok(())
}

/// The details of ports stand in the modules of their patterns, as in iceoryx2.
#[test]
fn details_stand_in_the_modules_of_their_patterns() {
    use iox2sd::dynamic_config as all;
    fn same<A: 'static, B: 'static>() -> bool {
        TypeId::of::<A>() == TypeId::of::<B>()
    }
    assert!(same::<PublisherDetails, all::PublisherDetails>());
    assert!(same::<
        publish_subscribe::SubscriberDetails,
        all::SubscriberDetails,
    >());
    assert!(same::<event::ListenerDetails, all::ListenerDetails>());
    assert!(same::<event::NotifierDetails, all::NotifierDetails>());
    assert!(same::<request_response::ServerDetails, all::ServerDetails>());
    assert!(same::<request_response::ClientDetails, all::ClientDetails>());
    assert!(same::<blackboard::ReaderDetails, all::ReaderDetails>());
    assert!(same::<blackboard::WriterDetails, all::WriterDetails>());
}
