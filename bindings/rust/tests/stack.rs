//! Each call runs on a thread with as much of a stack as the page says that it takes.
#![forbid(unsafe_code)]

mod common;

use common::{node, ports_of_kind, service, KINDS};
use iox2sd::conform::{check_log, Recorder};
use iox2sd::prelude::*;
use iox2sd::script;
use std::thread::Builder;

/// What a call takes at most, in bytes, in a debug build too.
const STACK: usize = 256 * 1024;

fn on_stack(calls: fn()) {
    let thread = Builder::new().stack_size(STACK).spawn(calls);
    thread.unwrap().join().unwrap();
}

#[test]
fn texts_and_attributes() {
    on_stack(|| {
        let (key, value) = ("site".parse().unwrap(), "north".parse().unwrap());
        let mut set = AttributeSet::new();
        while set.len() < AttributeSet::capacity() {
            set.add(&key, &value).unwrap();
        }
        let verifier = AttributeVerifier::new().require(&key, &value).unwrap();
        let verifier = verifier.require_key(&key).unwrap();
        assert_eq!(verifier.verify_requirements(&set), Ok(()));
        assert_eq!(set.key_values(&key).count(), AttributeSet::capacity());
        assert!(ServiceName::check("a\0").is_err());
        assert!(ServiceName::internal_new_prefixed("discovery").is_ok());
        assert!(!format!("{verifier:?} {set:?}").is_empty());
    });
}

#[test]
fn services() {
    on_stack(|| {
        for (kind, ..) in KINDS {
            let mut service = service(kind, 2, [32, 32]);
            let handle = service.register_node_id(node(1)).unwrap();
            for counter in 0..32 {
                for port in ports_of_kind(kind, node(1), counter) {
                    service.attach(port).unwrap();
                }
            }
            assert_eq!(service.ports_of(&node(1)).len(), 64);
            assert!(service.node(handle).is_some() && !format!("{service:?}").is_empty());
            service.remove_dead_node_id(&node(1), |_| PortCleanupAction::RemovePort);
            assert!(service.is_locked());
        }
    });
}

#[test]
fn descriptions_and_messages() {
    on_stack(|| {
        let (name, id) = ("a".parse().unwrap(), UniqueServiceId::new(1, 0, 0, 1));
        let config = Config::default();
        for service in [
            StaticConfig::new_publish_subscribe(&name, &config, id).unwrap(),
            StaticConfig::new_event(&name, &config, id).unwrap(),
            StaticConfig::new_request_response(&name, &config, id).unwrap(),
            StaticConfig::new_blackboard(&name, &config, id).unwrap(),
        ] {
            let required = *service.messaging_pattern();
            let met = service.verify_opener(&required, &AttributeVerifier::new());
            assert!(!format!("{met:?} {service:?}").is_empty());
        }
        let types = MessageTypeDetails::from::<u64, (), u8>(TypeVariant::Dynamic).unwrap();
        assert!(types.sample_layout(3).is_ok() && types.is_compatible_to(&types));
    });
}

#[test]
fn scripts_and_logs() {
    on_stack(|| {
        let mut service = Recorder::with_capacities(&Config::default().defaults.event, 7).unwrap();
        assert_eq!(service.nodes().len(), 0);
        assert!(check_log(&service.log()).unwrap().conforms());
        assert!(!check_log("service event 7 1 0 0\nnodes\n= locked\n")
            .unwrap()
            .conforms());
        assert!(script::run("service event 7 1 2 2\nregister 1.0.0.1\n").is_ok());
    });
}

#[test]
fn files_of_settings() {
    on_stack(|| {
        let text = Config::default().to_toml().unwrap();
        assert_eq!(Config::from_toml(&text).unwrap().config, Config::default());
        assert_eq!(
            Config::from_toml("[global]\nprefx = 1\n")
                .unwrap()
                .unknown
                .len(),
            1
        );
        let deep = [
            "a.".repeat(54) + "a = 1",
            "a = ".to_string() + &"{a = ".repeat(80),
            "a = ".to_string() + &"[".repeat(80) + &"]".repeat(80),
            "[a.".to_string() + &"a.".repeat(77) + "a]\na.a.a = 1",
        ];
        let wrong = ["=", "global = 1\ndefaults.event.max-nodes = -1\n"].map(String::from);
        for text in wrong.into_iter().chain(deep) {
            let read = Config::from_toml(&text).map(|file| file.unknown.len());
            assert!(read.is_ok() || !read.unwrap_err().to_string().is_empty());
        }
    });
}
