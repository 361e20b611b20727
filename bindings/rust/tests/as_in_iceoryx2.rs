//! Code as it is written for iceoryx2, but for its `use` lines and for what `docs/RUST.md` lists.
#![forbid(unsafe_code)]
#![allow(clippy::needless_borrows_for_generic_args)] // As it is written there.

use iox2sd::identifiers::{UniqueNodeId, UniquePublisherId, UniqueServiceId};
use iox2sd::prelude::*;
use iox2sd::service::attribute::{AttributeKey, AttributeValue};
use iox2sd::service::dynamic_config::publish_subscribe::DynamicConfigSettings;
use iox2sd::service::dynamic_config::{DynamicConfig, MessagingPatternSettings, PublisherDetails};
use iox2sd::service::service_hash::ServiceHash;
use iox2sd::service::service_name::ServiceNameError;
use iox2sd::service::static_config::message_type_details::{MessageTypeDetails, TypeVariant};
use iox2sd::service::static_config::{self, StaticConfig};
use std::error::Error;

#[test]
fn names_are_copied_compared_and_lent() -> Result<(), Box<dyn Error>> {
    let name: ServiceName = "My/Funk/ServiceName".try_into()?;
    let reference = &name;
    let copy: ServiceName = *reference;
    assert!(copy == name && name == "My/Funk/ServiceName" && *reference == "My/Funk/ServiceName");
    assert!(name.starts_with("My/") && name.len() <= ServiceName::max_len());
    let lent: &str = &name;
    assert_eq!(lent, name.as_str());
    assert_eq!(ServiceName::new(""), Err(ServiceNameError::InvalidContent));
    Ok(())
}

#[test]
fn attributes_are_specified_required_and_listed() -> Result<(), Box<dyn Error>> {
    let specifier = AttributeSpecifier::new()
        .define(&"some attribute key".try_into()?, &"some value".try_into()?)?
        .define(
            &"some attribute key".try_into()?,
            &"another value".try_into()?,
        )?
        .define(&"another key".try_into()?, &"its value".try_into()?)?;
    let verifier = AttributeVerifier::new()
        .require(&"another key".try_into()?, &"its value".try_into()?)?
        .require_key(&"some attribute key".try_into()?)?;
    verifier.verify_requirements(specifier.attributes())?;

    let pairs: Vec<(AttributeKey, AttributeValue)> = specifier
        .attributes()
        .iter()
        .map(|attribute| (*attribute.key(), *attribute.value()))
        .collect();
    assert_eq!(pairs.len(), AttributeSet::capacity() - 13);
    assert_eq!(pairs[0].0, "another key");
    specifier
        .attributes()
        .iter_key_values(&"another key".try_into()?, |value| {
            assert_eq!(*value, "its value");
            CallbackProgression::Stop
        });
    Ok(())
}

#[test]
fn settings_are_overridden() -> Result<(), Box<dyn Error>> {
    let mut custom = Config::default();
    custom.defaults.publish_subscribe.max_publishers = 5;
    custom.defaults.publish_subscribe.backpressure_strategy = BackpressureStrategy::DiscardData;
    custom.defaults.event.notifier_dead_event = Some(EventId::new(7).as_value());
    custom.global.prefix = FileName::new(b"robot_")?;
    custom.global.service.directory = "another_service_dir".parse()?;
    let same = custom.clone();
    assert_eq!(same, custom);
    assert_ne!(same, Config::default());
    let pattern = static_config::publish_subscribe::StaticConfig::new(&custom);
    let copy = pattern;
    assert_eq!((copy, pattern.max_publishers()), (pattern, 5));
    Ok(())
}

#[test]
fn a_service_is_described_and_its_publishers_are_listed() -> Result<(), Box<dyn Error>> {
    let name = ServiceName::new("My/Funk/ServiceName")?;
    let id = UniqueServiceId::new(1, 2, 3, 4);
    let service = StaticConfig::new_publish_subscribe(&name, &Config::default(), id)?;
    let hash: ServiceHash = *service.service_hash();
    assert!(hash.as_str().len() <= ServiceHash::max_number_of_characters());
    assert_eq!(
        service.messaging_pattern().kind(),
        MessagingPattern::PublishSubscribe
    );

    let types = MessageTypeDetails::from::<i64, i64, i64>(TypeVariant::FixedSize)?;
    let same_types = types;
    assert!(types.is_compatible_to(&same_types));

    let settings = MessagingPatternSettings::PublishSubscribe(DynamicConfigSettings {
        number_of_subscribers: service.publish_subscribe().max_subscribers(),
        number_of_publishers: service.publish_subscribe().max_publishers(),
    });
    let mut dynamic = DynamicConfig::new(&settings, service.publish_subscribe().max_nodes(), 1)?;
    let node_id = UniqueNodeId::new(1, 2, 3, 5).ok_or("the id of no node")?;
    dynamic.register_node_id(node_id)?;
    let details = PublisherDetails {
        publisher_id: UniquePublisherId::new(1, 2, 3, 6),
        node_id,
        number_of_samples: 34,
        max_slice_len: 1,
        data_segment_type: iox2sd::config::DataSegmentType::Static,
        max_number_of_segments: 1,
    };
    dynamic.attach(details)?;
    let dynamic_config = dynamic.publish_subscribe();
    assert_eq!(dynamic_config.number_of_publishers(), 1);
    assert_eq!(dynamic_config.number_of_subscribers(), 0);
    let mut listed = None;
    dynamic_config.list_publishers(|publisher| {
        listed = Some(*publisher);
        CallbackProgression::Continue
    });
    assert_eq!(listed, Some(details));
    Ok(())
}
