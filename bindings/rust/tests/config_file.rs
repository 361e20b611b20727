//! Files of settings: what is read, what is refused and why, and what is written.
#![forbid(unsafe_code)]

#[macro_use]
mod common;

use iox2sd::config::{
    AllocationStrategy, BackpressureStrategy, Blackboard, Config, ConfigError, ConfigFault,
    ConfigFileError, ConfigWriteError, Defaults, Event, Fault, Likeness, Position,
    PublishSubscribe, RequestResonse, SettingKind, TomlType,
};
use iox2sd::paths::{FileName, Path};
use iox2sd::semantic_string::SemanticStringError::{ExceedsMaximumLength, InvalidContent};
use std::error::Error;
use std::io::ErrorKind;
use std::time::Duration;
use std::{env, fs, process};

fn config(text: &str) -> Config {
    Config::from_toml(text).unwrap().config
}

/// The line and the column of a position, 0 where there is none.
fn numbers(position: Option<Position>) -> (usize, usize) {
    position.map_or((0, 0), |position| (position.line, position.column))
}

fn faults(text: &str) -> Vec<ConfigFault> {
    match Config::from_toml(text) {
        Err(ConfigError::Faults(faults)) => faults,
        other => panic!("{other:?}"),
    }
}

#[test]
fn an_empty_text_has_the_defaults() {
    let file = Config::from_toml("").unwrap();
    assert_eq!(file.config, Config::default());
    assert!(file.unknown.is_empty());
}

/// Every setting, each number with a value of its own.
const EACH_SETTING: &str = "\
[global]
root-path = '/r'
prefix = 'p_'
creation-timeout = {secs = 3, nanos = 4}
[global.service]
directory = 's'
data-segment-suffix = '.a'
static-config-storage-suffix = '.b'
dynamic-config-storage-suffix = '.c'
connection-suffix = '.d'
event-connection-suffix = '.e'
blackboard-mgmt-suffix = '.f'
blackboard-data-suffix = '.g'
cleanup-dead-nodes-on-open = false
[global.node]
directory = 'n'
monitor-suffix = '.h'
static-config-suffix = '.i'
service-tag-suffix = '.j'
port-tag-suffix = '.k'
global-mgmt-suffix = '.l'
cleanup-dead-nodes-on-creation = false
cleanup-dead-nodes-on-destruction = true
[defaults.publish-subscribe]
max-subscribers = 101
max-publishers = 102
max-nodes = 103
subscriber-max-buffer-size = 104
subscriber-max-borrowed-samples = 105
publisher-max-loaned-samples = 106
publisher-history-size = 107
enable-safe-overflow = false
backpressure-strategy = 'DiscardData'
subscriber-expired-connection-buffer = 108
publisher-allocation-strategy = 'BestFit'
[defaults.event]
max-listeners = 201
max-notifiers = 202
max-nodes = 203
event-id-max-value = 204
deadline = {secs = 205, nanos = 206}
notifier-created-event = 207
notifier-dropped-event = 208
notifier-dead-event = 209
[defaults.request-response]
enable-safe-overflow-for-requests = false
enable-safe-overflow-for-responses = true
max-active-requests-per-client = 301
max-response-buffer-size = 302
max-servers = 303
max-clients = 304
max-nodes = 305
max-borrowed-responses-per-pending-response = 306
max-loaned-requests = 307
server-max-loaned-responses-per-request = 308
client-backpressure-strategy = 'DiscardData'
server-backpressure-strategy = 'RetryUntilDelivered'
client-expired-connection-buffer = 309
server-expired-connection-buffer = 310
enable-fire-and-forget-requests = false
client-allocation-strategy = 'Static'
server-allocation-strategy = 'PowerOfTwo'
[defaults.blackboard]
max-readers = 401
max-nodes = 402
";

#[test]
fn each_setting_is_read_and_written() {
    let mut wanted = Config::default();
    let name = |text: &str| FileName::new(text.as_bytes()).unwrap();
    let path = |text: &str| Path::new(text.as_bytes()).unwrap();
    let global = &mut wanted.global;
    global.set_root_path(&path("/r"));
    global.prefix = name("p_");
    global.creation_timeout = Duration::new(3, 4);
    let service = &mut global.service;
    service.directory = path("s");
    service.data_segment_suffix = name(".a");
    service.static_config_storage_suffix = name(".b");
    service.dynamic_config_storage_suffix = name(".c");
    service.connection_suffix = name(".d");
    service.event_connection_suffix = name(".e");
    service.blackboard_mgmt_suffix = name(".f");
    service.blackboard_data_suffix = name(".g");
    service.cleanup_dead_nodes_on_open = false;
    let node = &mut global.node;
    node.directory = path("n");
    node.monitor_suffix = name(".h");
    node.static_config_suffix = name(".i");
    node.service_tag_suffix = name(".j");
    node.port_tag_suffix = name(".k");
    node.global_mgmt_suffix = name(".l");
    node.cleanup_dead_nodes_on_creation = false;
    wanted.defaults = with!(Defaults::default();
        publish_subscribe: with!(PublishSubscribe::default();
            max_subscribers: 101, max_publishers: 102, max_nodes: 103,
            subscriber_max_buffer_size: 104, subscriber_max_borrowed_samples: 105,
            publisher_max_loaned_samples: 106, publisher_history_size: 107,
            enable_safe_overflow: false, backpressure_strategy: BackpressureStrategy::DiscardData,
            subscriber_expired_connection_buffer: 108,
            publisher_allocation_strategy: AllocationStrategy::BestFit,
        ),
        event: with!(Event::default();
            max_listeners: 201, max_notifiers: 202, max_nodes: 203, event_id_max_value: 204,
            deadline: Some(Duration::new(205, 206)), notifier_created_event: Some(207),
            notifier_dropped_event: Some(208), notifier_dead_event: Some(209),
        ),
        request_response: with!(RequestResonse::default();
            enable_safe_overflow_for_requests: false, enable_safe_overflow_for_responses: true,
            max_active_requests_per_client: 301, max_response_buffer_size: 302, max_servers: 303,
            max_clients: 304, max_nodes: 305, max_borrowed_responses_per_pending_response: 306,
            max_loaned_requests: 307, server_max_loaned_responses_per_request: 308,
            client_backpressure_strategy: BackpressureStrategy::DiscardData,
            server_backpressure_strategy: BackpressureStrategy::RetryUntilDelivered,
            client_expired_connection_buffer: 309, server_expired_connection_buffer: 310,
            enable_fire_and_forget_requests: false,
            client_allocation_strategy: AllocationStrategy::Static,
            server_allocation_strategy: AllocationStrategy::PowerOfTwo,
        ),
        blackboard: with!(Blackboard::default();
            max_readers: 401, max_nodes: 402,
        ),
    );
    for text in [EACH_SETTING, &wanted.to_toml().unwrap()] {
        let file = Config::from_toml(text).unwrap();
        assert_eq!(file.config, wanted);
        assert!(file.unknown.is_empty());
    }
}

#[test]
fn each_fault_is_told_with_its_key() {
    let (found, wanted) = (TomlType::String, SettingKind::Table);
    let cases = [
        ("global = ''", "global", Fault::WrongType { found, wanted }),
        (
            "defaults.event.max-nodes = -1",
            "defaults.event.max-nodes",
            Fault::BelowZero,
        ),
        (
            "global.root-path = '\u{e4}'",
            "global.root-path",
            Fault::NoPath(InvalidContent),
        ),
        (
            "global.prefix = ''",
            "global.prefix",
            Fault::NoFileName(InvalidContent),
        ),
        (
            "defaults.publish-subscribe.backpressure-strategy = 'no'",
            "defaults.publish-subscribe.backpressure-strategy",
            Fault::UnknownVariant(SettingKind::Backpressure),
        ),
        (
            "global.creation-timeout = {}",
            "global.creation-timeout",
            Fault::NoDuration,
        ),
        (
            "defaults.event.deadline = {secs = 1, nanos = 4_294_967_296}",
            "defaults.event.deadline",
            Fault::NanosTooLarge,
        ),
    ];
    for (text, key, fault) in cases {
        let found = faults(text);
        assert_eq!(found.len(), 1, "{text}");
        assert_eq!((found[0].key.as_str(), found[0].fault), (key, fault));
        assert_eq!(found[0].file, None);
        assert_eq!(
            found[0].to_string(),
            format!("1:1: {key}: {}", found[0].reason)
        );
    }
    let long = "x".repeat(256);
    let path = format!("global.root-path = '{long}'\nglobal.prefix = '{long}'\n");
    let found: Vec<_> = faults(&path).iter().map(|fault| fault.fault).collect();
    let expected = [
        Fault::NoPath(ExceedsMaximumLength),
        Fault::NoFileName(ExceedsMaximumLength),
    ];
    assert_eq!(found, expected);
}

#[test]
fn types_are_told_that_are_found_and_wanted() {
    let flag = "global.node.cleanup-dead-nodes-on-creation";
    let backpressure = "defaults.publish-subscribe.backpressure-strategy";
    let allocation = "defaults.publish-subscribe.publisher-allocation-strategy";
    let cases = [
        (flag, "''", TomlType::String, SettingKind::Flag),
        (flag, "1", TomlType::Integer, SettingKind::Flag),
        (flag, "1.5", TomlType::Float, SettingKind::Flag),
        (flag, "1979-05-27", TomlType::Datetime, SettingKind::Flag),
        (flag, "[]", TomlType::Array, SettingKind::Flag),
        (flag, "{}", TomlType::Table, SettingKind::Flag),
        (
            "defaults.event.max-nodes",
            "true",
            TomlType::Boolean,
            SettingKind::Number,
        ),
        ("global", "1", TomlType::Integer, SettingKind::Table),
        (
            "global.root-path",
            "1",
            TomlType::Integer,
            SettingKind::Path,
        ),
        (
            "global.prefix",
            "1",
            TomlType::Integer,
            SettingKind::FileName,
        ),
        (
            "global.creation-timeout",
            "1",
            TomlType::Integer,
            SettingKind::Duration,
        ),
        (
            backpressure,
            "1",
            TomlType::Integer,
            SettingKind::Backpressure,
        ),
        (allocation, "1", TomlType::Integer, SettingKind::Allocation),
    ];
    for (key, value, found, wanted) in cases {
        let told = faults(&format!("{key} = {value}"));
        assert_eq!(told[0].fault, Fault::WrongType { found, wanted }, "{key}");
    }
}

#[test]
fn a_text_that_is_nested_too_deeply_is_refused() {
    for text in [
        "a.".repeat(1000) + "b = 1",
        "a = ".to_string() + &"[".repeat(100_000),
    ] {
        match Config::from_toml(&text) {
            Err(ConfigError::TooDeep(fault)) => {
                assert_eq!(fault.position.unwrap().line, 1);
                assert!(fault.reason.contains("more than 32 deep"), "{fault}");
            }
            other => panic!("{other:?}"),
        }
    }
}

#[test]
fn all_faults_are_told_in_the_order_of_the_file() {
    let text =
        "[defaults.blackboard]\nmax-nodes = 1.5\n  max-readers = true\n[global]\nprefix = 1\n";
    let refused = Config::from_toml(text).unwrap_err();
    let lines = "2:1: defaults.blackboard.max-nodes: is a float, and an integer is wanted\n\
                 3:3: defaults.blackboard.max-readers: is a boolean, and an integer is wanted\n\
                 5:1: global.prefix: is an integer, and a string with the name of a file is wanted";
    assert_eq!(refused.to_string(), lines);
    let places: Vec<_> = faults(text)
        .iter()
        .map(|fault| numbers(fault.position))
        .collect();
    assert_eq!(places, [(2, 1), (3, 3), (5, 1)]);
    let ConfigError::NotToml(fault) = Config::from_toml("[global]\nprefix\n").unwrap_err() else {
        panic!();
    };
    assert_eq!(
        (fault.file.as_ref(), numbers(fault.position)),
        (None, (2, 7))
    );
    assert_eq!(fault.to_string(), format!("2:7: {}", fault.reason));
}

#[test]
fn a_text_past_128_kib_has_no_positions() {
    let faulty = "[global]\nprefix = 1\nother = 1\n#";
    for (size, found) in [(131_072, (2, 1)), (131_073, (0, 0))] {
        let text = faulty.to_string() + &"x".repeat(size - faulty.len());
        let fault = &faults(&text)[0];
        assert_eq!(numbers(fault.position), found);
        assert_eq!(
            fault.to_string().starts_with("global.prefix: "),
            found.0 == 0
        );
    }
}

#[test]
fn unknown_keys_come_with_what_was_meant() {
    let text = "[defaults.publish-subscribe]\n  max-publisher = 3\n[global]\n\
                nothing-like-it = 1\nPREFIX = 1\n'node.directory' = 1\n\
                [global.node]\ncreation-timeout = 1\n";
    let file = Config::from_toml(text).unwrap();
    let told: Vec<_> = file.unknown.iter().map(ToString::to_string).collect();
    let expected = [
        "2:3: defaults.publish-subscribe.max-publisher: this table has no such key, \
         defaults.publish-subscribe.max-publishers may be meant",
        "4:1: global.nothing-like-it: this table has no such key",
        "5:1: global.PREFIX: this table has no such key, global.prefix may be meant",
        "6:1: global.\"node.directory\": this table has no such key, \
         global.node.directory without the quotes may be meant",
        "8:1: global.node.creation-timeout: this table has no such key, \
         global.creation-timeout may be meant",
    ];
    assert_eq!(told, expected);
    let meant: Vec<_> = file
        .unknown
        .iter()
        .map(|key| (key.meant.as_deref(), key.likeness))
        .collect();
    let expected = [
        (
            Some("defaults.publish-subscribe.max-publishers"),
            Some(Likeness::Near),
        ),
        (None, None),
        (Some("global.prefix"), Some(Likeness::Spelling)),
        (Some("global.node.directory"), Some(Likeness::Quoted)),
        (Some("global.creation-timeout"), Some(Likeness::OtherTable)),
    ];
    assert_eq!(meant, expected);
    assert_eq!(file.config, Config::default());
}

#[test]
fn numbers_that_toml_lacks_are_not_written() {
    let mut large = Config::default();
    large.defaults.event.deadline = Some(Duration::new(1 << 63, 0));
    large.defaults.blackboard.max_nodes = usize::MAX;
    let key = "defaults.event.deadline".to_string();
    let refused = ConfigWriteError::OutOfRange { key };
    assert_eq!(
        refused.to_string(),
        "defaults.event.deadline: TOML has no integer above 2^63 - 1"
    );
    assert_eq!(large.to_toml(), Err(refused));
    large.defaults.event.deadline = Some(Duration::new((1 << 63) - 1, 999_999_999));
    large.defaults.blackboard.max_nodes = (1 << 63) - 1;
    assert_eq!(config(&large.to_toml().unwrap()), large);
}

#[test]
fn files_are_read() {
    let path = env::temp_dir().join(format!("iox2sd_config_{}.toml", process::id()));
    fs::write(&path, "[global]\nprefix = 'own_'\n").unwrap();
    let file = Config::from_toml_file(&path).unwrap();
    assert_eq!(file.config.global.prefix, "own_");
    fs::write(&path, "max").unwrap();
    match Config::from_toml_file(&path).unwrap_err() {
        ConfigFileError::Content(ConfigError::NotToml(fault)) => {
            assert_eq!(fault.file.as_ref(), Some(&path));
            assert_eq!(numbers(fault.position), (1, 4));
        }
        other => panic!("{other:?}"),
    }
    let shown = path.display();
    fs::write(&path, "[global]\n  prefix = 1\nother = 1\n").unwrap();
    let refused = Config::from_toml_file(&path).unwrap_err();
    assert!(refused
        .to_string()
        .starts_with(&format!("{shown}:2:3: global.prefix: is an integer")));
    fs::write(&path, "[global]\n  other = 1\n").unwrap();
    let unknown = &Config::from_toml_file(&path).unwrap().unknown[0];
    assert_eq!(unknown.file.as_ref(), Some(&path));
    assert_eq!(
        unknown.to_string(),
        format!("{shown}:2:3: global.other: this table has no such key")
    );
    fs::write(&path, b"\xff").unwrap();
    let refused: Box<dyn Error> = Config::from_toml_file(&path).unwrap_err().into();
    assert!(refused.to_string().contains("UTF-8"));
    fs::remove_file(&path).unwrap();
    match Config::from_toml_file(&path) {
        Err(ConfigFileError::Read {
            path: named,
            ref error,
        }) => {
            assert_eq!((&named, error.kind()), (&path, ErrorKind::NotFound));
        }
        other => panic!("{other:?}"),
    }
}
