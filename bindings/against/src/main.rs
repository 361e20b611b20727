//! Compares iox2sd with iceoryx2 0.9.3: the default configuration, names, attributes and what is
//! required of them, types, and the hash texts of services. It prints each difference, and how much
//! was compared; its status is 1 where something differs.

use std::error::Error;
use std::fmt::Debug;
use std::process::ExitCode;

/// What was compared so far.
#[derive(Default)]
struct Comparison {
    compared: usize,
    differ: usize,
}

impl Comparison {
    /// Compares what both say of one thing.
    fn of<T: Debug + PartialEq>(&mut self, what: &str, original: T, ours: T) {
        self.compared += 1;
        if original != ours {
            self.differ += 1;
            println!("{what}: iceoryx2 has {original:?}, iox2sd has {ours:?}");
        }
    }
}

/// Compares fields of two values: texts by what they print, all others by what `Debug` prints.
macro_rules! fields {
    ($comparison:ident, $original:expr, $ours:expr; texts: $($text:ident)*; values: $($value:ident)*) => {
        $($comparison.of(
            concat!(stringify!($ours), ".", stringify!($text)),
            $original.$text.to_string(),
            $ours.$text.to_string(),
        );)*
        $($comparison.of(
            concat!(stringify!($ours), ".", stringify!($value)),
            format!("{:?}", $original.$value),
            format!("{:?}", $ours.$value),
        );)*
    };
}

/// The default configuration, field by field.
fn defaults(comparison: &mut Comparison) {
    let original = iceoryx2::config::Config::default();
    let ours = iox2sd::config::Config::default();
    let (theirs, global) = (&original.global, &ours.global);
    comparison.of(
        "global.root_path",
        theirs.root_path().to_string(),
        global.root_path().to_string(),
    );
    fields!(comparison, theirs, global; texts: prefix; values: creation_timeout);
    fields!(comparison, theirs.service, global.service;
        texts: directory data_segment_suffix static_config_storage_suffix
            dynamic_config_storage_suffix connection_suffix event_connection_suffix
            blackboard_mgmt_suffix blackboard_data_suffix;
        values: cleanup_dead_nodes_on_open);
    fields!(comparison, theirs.node, global.node;
        texts: directory monitor_suffix static_config_suffix service_tag_suffix port_tag_suffix
            global_mgmt_suffix;
        values: cleanup_dead_nodes_on_creation cleanup_dead_nodes_on_destruction);
    let (theirs, defaults) = (&original.defaults, &ours.defaults);
    fields!(comparison, theirs.publish_subscribe, defaults.publish_subscribe; texts:;
        values: max_subscribers max_publishers max_nodes subscriber_max_buffer_size
            subscriber_max_borrowed_samples publisher_max_loaned_samples publisher_history_size
            enable_safe_overflow backpressure_strategy subscriber_expired_connection_buffer
            publisher_allocation_strategy);
    fields!(comparison, theirs.event, defaults.event; texts:;
        values: max_listeners max_notifiers max_nodes event_id_max_value deadline
            notifier_created_event notifier_dropped_event notifier_dead_event);
    fields!(comparison, theirs.request_response, defaults.request_response; texts:;
        values: enable_safe_overflow_for_requests enable_safe_overflow_for_responses
            max_active_requests_per_client max_response_buffer_size max_servers max_clients
            max_nodes max_borrowed_responses_per_pending_response max_loaned_requests
            server_max_loaned_responses_per_request client_backpressure_strategy
            server_backpressure_strategy client_expired_connection_buffer
            enable_fire_and_forget_requests server_expired_connection_buffer
            client_allocation_strategy server_allocation_strategy);
    fields!(comparison, theirs.blackboard, defaults.blackboard; texts:;
        values: max_readers max_nodes);
}

/// Texts of each length at which something changes, and with each kind of byte.
fn texts() -> Vec<String> {
    let mut texts: Vec<String> = [0, 1, 63, 64, 65, 254, 255, 256, 257, 300]
        .iter()
        .map(|&length| "n".repeat(length))
        .collect();
    texts.extend(
        [
            "My/Funk/ServiceName",
            " ",
            "a b",
            "iox2://",
            "iox2://x",
            "iox2:/x",
            "IOX2://x",
            "xiox2://",
        ]
        .map(String::from),
    );
    texts.extend((0..=127u8).map(|byte| format!("a{}", char::from(byte))));
    texts.extend(["é", "日本", "a\u{80}", "\u{10ffff}"].map(String::from));
    texts
}

/// Which texts are names of services, and which are keys and values of attributes.
fn names(comparison: &mut Comparison) {
    use iceoryx2::prelude as original;
    for text in texts() {
        comparison.of(
            &format!("the service name {text:?}"),
            original::ServiceName::new(&text)
                .map(|name| name.to_string())
                .map_err(|error| format!("{error:?}")),
            iox2sd::prelude::ServiceName::new(&text)
                .map(|name| name.to_string())
                .map_err(|error| format!("{error:?}")),
        );
        comparison.of(
            &format!("the key {text:?}"),
            original::AttributeKey::try_from(text.as_str())
                .ok()
                .map(|key| key.to_string()),
            iox2sd::prelude::AttributeKey::try_from(text.as_str())
                .ok()
                .map(|key| key.to_string()),
        );
        comparison.of(
            &format!("the value {text:?}"),
            original::AttributeValue::try_from(text.as_str())
                .ok()
                .map(|value| value.to_string()),
            iox2sd::prelude::AttributeValue::try_from(text.as_str())
                .ok()
                .map(|value| value.to_string()),
        );
    }
}

/// The words of keys and values, of which a number picks one.
const WORDS: [&str; 4] = ["north", "site", "south", "zone"];

/// A number that follows another one, for choices that are the same in each run.
fn next(seed: &mut u64) -> usize {
    *seed = seed.wrapping_mul(6_364_136_223_846_793_005).wrapping_add(1);
    usize::try_from(*seed >> 33).expect("31 bits")
}

/// What is said of a service's attributes and of what is required of them, as text, by either
/// crate.
macro_rules! verified {
    ($library:ident, $seed:expr) => {{
        use $library::prelude::{AttributeSpecifier, AttributeVerifier};
        use $library::service::attribute::AttributeVerificationError;
        let seed = &mut $seed.clone();
        let mut service = AttributeSpecifier::new();
        let mut required = AttributeVerifier::new();
        for _ in 0..next(seed) % 7 {
            let (key, value) = (WORDS[next(seed) % 4], WORDS[next(seed) % 4]);
            service = service.define(&key.try_into()?, &value.try_into()?)?;
        }
        for _ in 0..next(seed) % 3 {
            let (key, value) = (WORDS[next(seed) % 4], WORDS[next(seed) % 4]);
            required = required.require(&key.try_into()?, &value.try_into()?)?;
        }
        for _ in 0..next(seed) % 3 {
            required = required.require_key(&WORDS[next(seed) % 4].try_into()?)?;
        }
        let listed: Vec<String> = service
            .attributes()
            .iter()
            .map(|attribute| format!("{}={}", attribute.key(), attribute.value()))
            .collect();
        let verdict = match required.verify_requirements(service.attributes()) {
            Ok(()) => String::from("yes"),
            Err(AttributeVerificationError::NonExistingKey(key)) => format!("no key {key}"),
            Err(AttributeVerificationError::IncompatibleAttribute((key, value))) => {
                format!("no pair {key}={value}")
            }
        };
        (listed, verdict)
    }};
}

/// Sets of attributes and what is required of them, chosen at random.
fn attributes(comparison: &mut Comparison) -> Result<(), Box<dyn Error>> {
    for seed in 0..10_000u64 {
        comparison.of(
            &format!("attributes {seed}"),
            verified!(iceoryx2, seed),
            verified!(iox2sd, seed),
        );
    }
    Ok(())
}

/// Compares the details of each of the types.
macro_rules! types {
    ($comparison:ident; $($type:ty)*) => {$(
        let original = iceoryx2::service::static_config::message_type_details::TypeDetail::new::<
            $type,
        >(iceoryx2::service::static_config::message_type_details::TypeVariant::FixedSize);
        let ours = iox2sd::prelude::TypeDetail::new::<$type>(iox2sd::prelude::TypeVariant::FixedSize)?;
        $comparison.of(
            stringify!($type),
            (original.type_name().to_string(), original.size(), original.alignment()),
            (ours.type_name().to_string(), ours.size(), ours.alignment()),
        );
    )*};
}

/// The details of plain types.
fn types(comparison: &mut Comparison) -> Result<(), Box<dyn Error>> {
    types!(comparison; u8 u16 u32 u64 i8 i16 i32 i64 f32 f64 bool usize);
    Ok(())
}

/// The hash texts of services that the original makes, in this process, and then lists.
fn hashes(comparison: &mut Comparison) -> Result<(), Box<dyn Error>> {
    use iceoryx2::prelude::*;
    use iceoryx2::service::static_config::messaging_pattern::MessagingPattern as Settings;
    use iox2sd::messaging_pattern::MessagingPattern as Pattern;
    let node = NodeBuilder::new().create::<local::Service>()?;
    let (mut events, mut messages) = (Vec::new(), Vec::new());
    for text in texts().iter().filter(|text| ServiceName::new(text).is_ok()) {
        let name = ServiceName::new(text)?;
        events.push(node.service_builder(&name).event().create()?);
        messages.push(
            node.service_builder(&name)
                .publish_subscribe::<u64>()
                .create()?,
        );
    }
    let mut listed = 0;
    local::Service::list(Config::global_config(), |service| {
        let described = &service.static_details;
        let pattern = match described.messaging_pattern() {
            Settings::Event(_) => Pattern::Event,
            _ => Pattern::PublishSubscribe,
        };
        let ours = iox2sd::prelude::ServiceName::new(described.name().as_str())
            .map(|name| iox2sd::service_hash::ServiceHash::new(&name, pattern));
        comparison.of(
            &format!(
                "the hash text of the {pattern:?} service {:?}",
                described.name().as_str()
            ),
            Some(described.service_hash().as_str().to_string()),
            ours.ok()
                .and_then(Result::ok)
                .map(|hash| hash.as_str().to_string()),
        );
        listed += 1;
        CallbackProgression::Continue
    })?;
    comparison.of(
        "how many services are listed",
        events.len() + messages.len(),
        listed,
    );
    Ok(())
}

fn main() -> Result<ExitCode, Box<dyn Error>> {
    let mut comparison = Comparison::default();
    defaults(&mut comparison);
    names(&mut comparison);
    attributes(&mut comparison)?;
    types(&mut comparison)?;
    hashes(&mut comparison)?;
    println!(
        "{} compared, {} differ",
        comparison.compared, comparison.differ
    );
    Ok(ExitCode::from(u8::from(comparison.differ > 0)))
}
