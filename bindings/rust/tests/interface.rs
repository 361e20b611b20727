//! What Rust programs expect of types: texts that are padded and parsed, causes and places, maps by
//! text, conversions that are refused, iterators, and one call for all that an opener requires.
#![forbid(unsafe_code)]

#[macro_use]
mod common;

use common::{descriptions, node, ports_of_kind, service, KINDS};
use iox2sd::attribute::*;
use iox2sd::config::*;
use iox2sd::conform::{check_log, Expected, Verdict};
use iox2sd::container::{ContainerRemoveError, Entries, Role};
use iox2sd::dynamic_config::*;
use iox2sd::identifiers::*;
use iox2sd::messaging_pattern::MessagingPattern;
use iox2sd::paths::{FileName, FilePath, Path, RestrictedFileName};
use iox2sd::script::ScriptError;
use iox2sd::semantic_string::{SemanticStringError, StringModificationError, TextCause, TextFault};
use iox2sd::service_hash::{ServiceHash, ServiceHashError};
use iox2sd::service_name::{ServiceName, ServiceNameError};
use iox2sd::static_config::message_type_details::*;
use iox2sd::static_config::messaging_pattern::MessagingPattern as Pattern;
use iox2sd::static_config::setting::Setting;
use iox2sd::static_config::{self as fixed, StaticConfig, Unmet};
use iox2sd::{CallbackProgression, UnknownName};
use std::collections::{BTreeMap, HashMap};
use std::error::Error;
use std::fmt::{Debug, Display};
use std::path::PathBuf;
use std::{env, fs, process};

type Tested = Result<(), Box<dyn Error>>;

/// A value is shown with a width, an alignment, a fill and a precision as its text is.
fn is_padded(shown: &dyn Display) {
    let text = shown.to_string();
    let width = text.chars().count() + 3;
    assert_eq!(format!("{shown:width$}"), format!("{text:width$}"));
    assert_eq!(format!("{shown:>width$}"), format!("   {text}"));
    assert_eq!(format!("{shown:*^width$}"), format!("{text:*^width$}"));
    assert_eq!(format!("{shown:.2}"), format!("{text:.2}"));
}

macro_rules! padded {
    ($($shown:expr,)*) => {
        $(is_padded(&$shown);)*
    };
}

/// Choices are listed in their order, told apart by their texts, and parsed from these.
macro_rules! choices {
    ($($name:ident)*) => {
        $(
            let all = $name::ALL;
            assert!(all.windows(2).all(|two| two[0] < two[1]));
            for (at, choice) in all.into_iter().enumerate() {
                assert_eq!(choice.to_string(), choice.name());
                assert_eq!(all.iter().position(|other| other.name() == choice.name()), Some(at));
                assert_eq!(choice.name().parse(), Ok(choice));
                is_padded(&choice);
            }
            for wrong in ["", " ", "no", "writer", "max-nodes"] {
                assert_eq!(wrong.parse::<$name>(), Err(UnknownName), "{wrong}");
            }
        )*
    };
}

#[test]
fn choices_are_listed_parsed_and_padded() {
    choices! {
        Role MessagingPattern BackpressureStrategy AllocationStrategy DataSegmentType TypeVariant
        Setting TomlType SettingKind MessagePart IncompatibilityCause Expected TextCause
    }
    assert_eq!(Setting::ALL.len(), 25);
    assert_eq!(Role::ALL[8], Role::Writer);
    let as_error: Box<dyn Error> = UnknownName.into();
    assert_eq!(as_error.to_string(), "no choice has this name");
}

#[test]
fn each_text_is_padded() -> Tested {
    let text: Path = "a/b".parse()?;
    let fault = AttributeKey::check(b"").unwrap_err();
    let place = AttributeKey::check(b"a\0").unwrap_err();
    let (key, value) = ("k".parse::<AttributeKey>()?, "v".parse::<AttributeValue>()?);
    let conforms = check_log("service event 7 1 0 0\nnodes\n= list\n")?;
    let bad = check_log("")?;
    let no_order = check_log("service event 7 1 0 0\nnodes\n= locked\n")?;
    let open_calls = Verdict::TooManyOpenCalls { line: 3 };
    let too_many = Verdict::TooManyConfigurations { line: 3 };
    let unknown = Config::from_toml("a = 1\n[global]\nprefx = 2\n")?.unknown;
    let faults = Config::from_toml("global.prefix = 1\nglobal.node = 2\n").unwrap_err();
    let ConfigError::Faults(each) = &faults else {
        panic!("{faults}")
    };
    let not_toml = Config::from_toml("=").unwrap_err();
    let unread = Config::from_toml_file("no/such/file").unwrap_err();
    let content = ConfigFileError::from(faults.clone());
    let mut large = Config::default();
    large.defaults.event.max_nodes = usize::MAX;
    let unwritten = large.to_toml().unwrap_err();
    let script = iox2sd::script::run("no\n").unwrap_err();
    let hash = ServiceHash::new(&"a".parse()?, MessagingPattern::Event)?;
    let pattern = Pattern::Event(fixed::event::StaticConfig::new(&Config::default()));
    let one = MessageTypeDetails::from::<u64, (), u8>(TypeVariant::FixedSize)?;
    let other = MessageTypeDetails::from::<u64, (), i8>(TypeVariant::FixedSize)?;
    let incompatible = other.check_compatible_to(&one).unwrap_err();
    let (service, required) = (MessagingPattern::Event, MessagingPattern::Blackboard);
    let unmet: [Unmet; 7] = [
        Unmet::Pattern { service, required },
        Unmet::Attributes(Box::new(AttributeVerificationError::NonExistingKey(key))),
        Unmet::Types(incompatible),
        Unmet::RequestTypes(incompatible),
        Unmet::ResponseTypes(incompatible),
        Unmet::KeyType(IncompatibilityCause::OtherSize),
        Unmet::Setting(Setting::MaxNodes),
    ];
    let (found, wanted) = (Role::Reader, Role::Writer);
    let id = UniqueNodeId::new(1, 2, 3, 4).ok_or("no node")?;
    let port = UniquePortId::Reader(UniqueReaderId::new(1, 2, 3, 4));
    padded! {
        text, fault, place, key, value, conforms, bad, no_order, open_calls, too_many, unknown[0],
        unknown[1], faults, each[0], each[1], not_toml, unread, content, unwritten, script, hash,
        pattern, incompatible, unmet[0], unmet[1], unmet[2], unmet[3], unmet[4], unmet[5],
        unmet[6], OtherRole { found, wanted }, id, port, UnknownName, AllocError, ConfigError::NoMemory,
        ConfigWriteError::NoMemory, ScriptError::NoMemory,
        AttributeVerificationError::NonExistingKey(key),
        AttributeVerificationError::IncompatibleAttribute((key, value)), IdError::NoText,
        IdError::NoNode, TypeName::try_from("u8")?, ServiceName::new("a")?, Role::Node,
        Setting::MaxNodes, TomlType::Float, DeregisterNodeState::HasOwners,
        PortCleanupAction::SkipPort, CallbackProgression::Stop,
    }
    let numbers = format!("[{:4}|{:<4}]", ProcessId::new(12), EventId::new(12));
    assert_eq!(numbers, "[  12|12  ]");
    Ok(())
}

/// Errors print as the paths of their variants.
#[test]
fn errors_are_told_by_their_paths() {
    fn by_path<E: Error + Debug>(path: &str, error: E) {
        assert_eq!(error.to_string(), path);
        is_padded(&error);
    }
    macro_rules! by_path {
        ($($name:ident: $($variant:ident)+;)+) => {
            $($(by_path(concat!(stringify!($name), "::", stringify!($variant)), $name::$variant);)+)+
        };
    }
    by_path! {
        RegisterNodeResult: MarkedForDestruction ExceedsMaxNumberOfNodes;
        DeregisterError: ContainerHandleNotOwnedByContainer PortsStillAttached;
        AttachError: RoleNotInPattern ServiceIsLocked NodeNotRegistered OutOfSpace;
        ContainerRemoveError: ContainerHandleNotOwnedByContainer;
        AttributeDefinitionError: ExceedsMaxSupportedAttributes;
        SemanticStringError: InvalidContent ExceedsMaximumLength;
        StringModificationError: InsertWouldExceedCapacity InvalidCharacter;
        ServiceNameError: InvalidContent ExceedsMaximumLength;
        ServiceHashError: IllegalText;
        LayoutError: DetailsNotGiven TooLarge;
        TypeDetailError: AlignmentNotPowerOfTwo;
        ConfigCreationError: FailedToReadConfigFileContents UnableToDeserializeContents
            InsufficientPermissions ConfigFileDoesNotExist UnableToOpenConfigFile;
    }
    let name = TypeDetailError::Name(StringModificationError::InvalidCharacter);
    by_path("TypeDetailError::Name(InvalidCharacter)", name);
    assert_eq!(AllocError.to_string(), "memory allocation failed");
}

#[test]
fn values_are_ordered() {
    assert!(ProcessId::new(1) < ProcessId::new(2));
    assert!(Time::new(1, 9) < Time::new(2, 0) && Time::new(1, 1) < Time::new(1, 2));
    assert!(EventId::new(1) < EventId::new(2));
    let ids: [UniquePortId; 3] = [
        UniquePublisherId::new(0, 0, 0, 9).into(),
        UniqueWriterId::new(0, 0, 0, 1).into(),
        UniqueWriterId::new(0, 0, 0, 2).into(),
    ];
    assert!(ids[0] < ids[1] && ids[1] < ids[2]);
    assert!(AttachError::RoleNotInPattern < AttachError::OutOfSpace);
    assert!(MessagingPattern::PublishSubscribe < MessagingPattern::Blackboard);
}

#[test]
fn maps_are_asked_by_texts() -> Tested {
    let names: HashMap<ServiceName, u8> = [("a".parse()?, 1), ("b".parse()?, 2)].into();
    assert_eq!((names.get("b"), names.get("c")), (Some(&2), None));
    let keys: BTreeMap<AttributeKey, u8> = [("a".parse()?, 1), ("aa".parse()?, 2)].into();
    assert_eq!((keys.get("aa"), keys.get("")), (Some(&2), None));
    let types: HashMap<TypeName, u8> = [("u8".parse()?, 1)].into();
    assert_eq!(types.get("u8"), Some(&1));
    let hash = ServiceHash::new(&"a".parse()?, MessagingPattern::Event)?;
    let hashes: HashMap<ServiceHash, u8> = [(hash, 1)].into();
    assert_eq!(hashes.get(hash.as_str()), Some(&1));
    let files: HashMap<FileName, u8> = [(hash.into(), 1)].into();
    assert_eq!(files.get(hash.as_str()), Some(&1));
    Ok(())
}

#[test]
fn ids_are_shown_as_numbers() {
    let id = UniqueNodeId::new(1, 2, 3, 0xab).unwrap();
    assert_eq!(format!("{id:x}"), id.to_string());
    assert_eq!(format!("{id:#x}"), format!("0x{id}"));
    assert_eq!(format!("{id:032x}"), "000000010000000200000003000000ab");
    let port = UniquePortId::Writer(UniqueWriterId::new(0, 0, 0, 0xab));
    assert_eq!(format!("{port:x} {port:#06x}"), "ab 0x00ab");
    let service = UniqueServiceId::new(0, 0, 0, 10);
    assert_eq!(format!("{service:x}"), "a");
}

#[test]
fn a_text_is_refused_with_cause_and_place() {
    fn told(fault: Result<(), TextFault>) -> (TextCause, usize) {
        let fault = fault.unwrap_err();
        (fault.cause, fault.at)
    }
    use TextCause::{Empty, IllegalByte, NoFileName, ReservedPrefix, TooLong};
    let long = [b'a'; 300];
    assert_eq!(told(AttributeKey::check(b"")), (Empty, 0));
    assert_eq!(told(AttributeKey::check(&long)), (TooLong, 64));
    assert_eq!(told(AttributeValue::check(&long)), (TooLong, 256));
    assert_eq!(told(AttributeValue::check(b"ab\x80c")), (IllegalByte, 2));
    assert_eq!(told(Path::check(b"\0")), (IllegalByte, 0));
    assert_eq!(told(FileName::check(b"a/b")), (IllegalByte, 1));
    assert_eq!(told(FileName::check(b"..")).0, NoFileName);
    assert_eq!(told(FilePath::check(b"a/")).0, NoFileName);
    assert_eq!(told(RestrictedFileName::check(b"ab c")), (IllegalByte, 2));
    assert_eq!(told(ServiceName::check("")), (Empty, 0));
    assert_eq!(told(ServiceName::check("iox2://a")).0, ReservedPrefix);
    assert_eq!(told(ServiceName::check("n\u{e4}me")), (IllegalByte, 1));
    assert_eq!(told(ServiceName::check(&"a".repeat(256))), (TooLong, 255));
    assert_eq!(ServiceName::check("a"), Ok(()));
    assert_eq!(Path::check(b""), Ok(()));
    let fault = FileName::check(b"..").unwrap_err();
    equal! {
        fault.to_string() => "not the name of a file";
        SemanticStringError::from(fault) => SemanticStringError::InvalidContent;
    }
    let fault = ServiceName::check(&"a".repeat(256)).unwrap_err();
    equal! {
        fault.to_string() => "the text is too long, at byte 255";
        ServiceNameError::from(fault) => ServiceNameError::ExceedsMaximumLength;
    }
}

/// The details and the id of a port are those of one kind alone.
macro_rules! of_one_kind {
    ($ports:ident: $($role:ident $details:ident $id:ident;)*) => {
        $(
            for port in &$ports {
                let refused = OtherRole { found: port.role(), wanted: Role::$role };
                let (made, id) = ($details::try_from(*port), $id::try_from(port.port_id()));
                assert_eq!(port.port_id().role(), port.role());
                if port.role() == Role::$role {
                    assert_eq!(made.map(PortDetails::from), Ok(*port));
                    assert_eq!(id.map(UniquePortId::from), Ok(port.port_id()));
                } else {
                    assert_eq!((made, id), (Err(refused), Err(refused)));
                }
            }
        )*
    };
}

#[test]
fn details_and_ids_are_those_of_their_kinds() {
    let of = |(kind, ..): (MessagingPattern, _, _)| ports_of_kind(kind, node(1), 5);
    let ports: Vec<PortDetails> = KINDS.into_iter().flat_map(of).collect();
    assert_eq!(ports.len(), 8);
    of_one_kind! {
        ports:
        Publisher PublisherDetails UniquePublisherId;
        Subscriber SubscriberDetails UniqueSubscriberId;
        Listener ListenerDetails UniqueListenerId;
        Notifier NotifierDetails UniqueNotifierId;
        Server ServerDetails UniqueServerId;
        Client ClientDetails UniqueClientId;
        Reader ReaderDetails UniqueReaderId;
        Writer WriterDetails UniqueWriterId;
    }
}

#[test]
fn listings_and_values_have_iterators_of_their_own() -> Tested {
    let mut service = service(MessagingPattern::Event, 2, [2, 2]);
    let nodes = [node(1), node(2)];
    for node in nodes {
        service.register_node_id(node)?;
        for port in ports_of_kind(MessagingPattern::Event, node, 5) {
            service.attach(port)?;
        }
    }
    let mut listed: Entries<UniqueNodeId> = service.nodes();
    assert_eq!((listed.len(), listed.size_hint()), (2, (2, Some(2))));
    assert!(listed.clone().eq(nodes));
    equal! {
        listed.next_back() => Some(node(2));
        listed.as_slice() => [node(1)];
        [listed.next(), listed.next(), listed.next()] => [Some(node(1)), None, None];
    }
    let listeners: Entries<ListenerDetails> = service.event().listeners();
    let ports: Entries<PortDetails> = service.ports(Role::Listener).ok_or("no listeners")?;
    assert!(listeners.map(PortDetails::from).eq(ports));
    let of_node: Entries<PortDetails> = service.ports_of(&node(1));
    equal! {
        of_node.rev().map(|port| port.role()).next() => Some(Role::Notifier);
    }

    let (site, robot) = ("site".parse()?, "robot".parse()?);
    let mut set = AttributeSet::new();
    set.add(&site, &"north".parse()?)?;
    set.add(&robot, &"r2".parse()?)?;
    set.add(&site, &"east".parse()?)?;
    let mut values: KeyValues<'_> = set.key_values(&site);
    equal! {
        (values.len(), values.clone().count()) => (2, 2);
        values.next() => Some(&"east".parse()?);
        values.size_hint() => (1, Some(1));
        [values.next(), values.next()] => [Some(&"north".parse()?), None];
    }
    let taken: IntoIter = set.clone().into_iter();
    assert_eq!(taken.len(), 3);
    assert!(taken.eq(set.iter().copied()));
    Ok(())
}

#[test]
fn what_is_of_one_pattern_is_lent_or_not() -> Tested {
    let (name, id) = ("a".parse()?, UniqueServiceId::new(1, 0, 0, 1));
    let (config, mut at) = (Config::default(), 0);
    /// What is of one pattern is of the description and the service at this index alone.
    macro_rules! lent {
        ($($module:ident $as:ident $as_mut:ident;)+) => {
            $(
                let made = StaticConfig::new(&name, &config.defaults.$module, id)?;
                assert_eq!(made, descriptions(&config, id)[at]);
                for (other, mut description) in descriptions(&config, id).into_iter().enumerate() {
                    let service = DynamicConfig::with_capacities(&description, 7)?;
                    assert_eq!(service.kind(), description.messaging_pattern().kind());
                    let lent = [description.$as().is_some(), service.$as().is_some()];
                    assert_eq!((lent, description.$as_mut().is_some()), ([at == other; 2], at == other));
                }
                at += 1;
            )+
        };
    }
    lent! {
        publish_subscribe as_publish_subscribe as_publish_subscribe_mut;
        event as_event as_event_mut;
        request_response as_request_response as_request_response_mut;
        blackboard as_blackboard as_blackboard_mut;
    }
    assert_eq!(at, KINDS.len());
    Ok(())
}

#[test]
fn capacities_come_from_settings_and_descriptions() -> Tested {
    let settings = with!(Config::default().defaults.event;
        max_listeners: 3, max_notifiers: 4, max_nodes: 5);
    let ports = common::settings(MessagingPattern::Event, [3, 4]);
    let expected = Capacities {
        max_nodes: 5,
        ports,
    };
    let made = fixed::event::StaticConfig::from(&settings);
    let id = UniqueServiceId::new(1, 0, 0, 1);
    let description = StaticConfig::new(&"a".parse()?, &settings, id)?;
    let all: [Capacities; 4] = [
        (&settings).into(),
        (&made).into(),
        (&description).into(),
        description.messaging_pattern().into(),
    ];
    equal! {
        all => [expected; 4];
        event::DynamicConfigSettings::from(&settings).number_of_notifiers => 4;
    }
    let service = DynamicConfig::with_capacities(expected, 7)?;
    equal! {
        (service.max_nodes(), service.max_ports(Role::Notifier)) => (5, Some(4));
    }
    let ports = &expected.ports;
    assert!(DynamicConfig::new(ports, 5, 7)?.is_event());
    let service = DynamicConfig::new(expected.ports, 5, 7)?;
    assert_eq!(service.max_ports(Role::Listener), Some(3));
    let recorder = iox2sd::conform::Recorder::with_capacities(&description, 7)?;
    assert_eq!(recorder.log(), "service event 7 5 3 4\n");
    let refused = DynamicConfig::with_capacities(with!(expected; max_nodes: usize::MAX), 7);
    assert_eq!(refused.unwrap_err(), AllocError);
    Ok(())
}

/// The first that is not met is reported: of pattern, attributes, types and settings.
#[test]
fn an_opener_is_refused_with_the_first_reason() -> Tested {
    let config = Config::default();
    let [mut samples, mut events, mut requests, mut board] =
        descriptions(&config, UniqueServiceId::new(1, 0, 0, 1));
    let none = AttributeVerifier::new();
    let (site, north) = ("site".parse()?, "north".parse()?);
    let types = MessageTypeDetails::from::<u64, (), u8>(TypeVariant::FixedSize)?;
    let other_types = MessageTypeDetails::from::<u64, (), i8>(TypeVariant::FixedSize)?;
    let told = |answer: Result<(), Unmet>| answer.unwrap_err().to_string();

    let attributes = AttributeSpecifier::new().define(&site, &north)?;
    samples = samples.with_attributes(attributes.attributes());
    samples.publish_subscribe_mut().message_type_details = types;
    let mut required = *samples.publish_subscribe();
    let mut verifier = AttributeVerifier::new().require(&site, &north)?;
    let ask = |required, verifier: &AttributeVerifier| {
        samples.verify_opener(&Pattern::PublishSubscribe(required), verifier)
    };
    assert_eq!(ask(required, &verifier), Ok(()));
    required.max_nodes += 1;
    equal! {
        ask(required, &verifier) => Err(Unmet::Setting(Setting::MaxNodes));
    }
    let pattern = samples.messaging_pattern();
    assert!(!pattern.satisfies(&Pattern::PublishSubscribe(required)));
    required.message_type_details = other_types;
    assert!(matches!(ask(required, &verifier), Err(Unmet::Types(_))));
    equal! {
        told(ask(required, &verifier)) => "the payload has another type name";
    }
    verifier = verifier.require_key(&"robot".parse()?)?;
    let lacked = AttributeVerificationError::NonExistingKey("robot".parse()?);
    equal! {
        told(ask(required, &verifier)) => lacked.to_string();
        ask(required, &verifier) => Err(Unmet::Attributes(Box::new(lacked)));
    }
    let other = *events.messaging_pattern();
    let refused = samples.verify_opener(&other, &verifier);
    let (required, service) = (MessagingPattern::Event, MessagingPattern::PublishSubscribe);
    equal! {
        refused => Err(Unmet::Pattern { service, required });
        told(refused) => "the service has the pattern PublishSubscribe, not Event";
    }
    assert!(!pattern.satisfies(&other) && pattern.satisfies(pattern));

    let fixed = requests.request_response_mut();
    fixed.request_message_type_details = types;
    fixed.response_message_type_details = types;
    let mut required = *fixed;
    let ask = |required| requests.verify_opener(&Pattern::RequestResponse(required), &none);
    assert_eq!(ask(required), Ok(()));
    required.response_message_type_details = other_types;
    assert!(matches!(ask(required), Err(Unmet::ResponseTypes(_))));
    equal! {
        told(ask(required)) => "of responses, the payload has another type name";
    }
    required.request_message_type_details = other_types;
    equal! {
        told(ask(required)) => "of requests, the payload has another type name";
    }

    let mut required = *board.blackboard();
    let ask =
        |board: &StaticConfig, required| board.verify_opener(&Pattern::Blackboard(required), &none);
    let not_given = Err(Unmet::KeyType(IncompatibilityCause::DetailsNotGiven));
    assert_eq!(ask(&board, required), not_given);
    board.blackboard_mut().type_details = types.header;
    required.type_details = types.header;
    assert_eq!(ask(&board, required), Ok(()));
    required.type_details = types.payload;
    assert_eq!(told(ask(&board, required)), "the key has another type name");

    let required = Pattern::Event(with!(*events.event(); notifier_dead_event: Some(3)));
    let refused = events.verify_opener(&required, &none);
    assert_eq!(refused, Err(Unmet::Setting(Setting::NotifierDeadEvent)));
    events.event_mut().notifier_dead_event = Some(3);
    assert_eq!(events.verify_opener(&required, &none), Ok(()));
    Ok(())
}

#[test]
fn a_verdict_is_told_in_words() -> Tested {
    let judged = |rest: &str| check_log(&format!("service event 7 1 0 0\n{rest}"));
    let conforms = judged("nodes\n= list\n")?;
    assert!(conforms.conforms());
    assert_eq!(conforms.to_string(), "conforms, 1 call");
    assert_eq!(judged("")?.to_string(), "conforms, 0 calls");
    assert_eq!(conforms.into_result(), Ok(1));

    let refused = judged("nodes\n= locked\n")?;
    assert!(!refused.conforms());
    let error: Box<dyn Error> = refused.into_result().unwrap_err().into();
    assert_eq!(
        error.to_string(),
        "line 3: seen: locked; call: nodes (line 2); possible: list"
    );
    let refusal = error.source().ok_or("no source")?;
    assert_eq!(refusal.to_string(), error.to_string());

    let bad = judged("leave\n")?;
    equal! {
        bad.to_string() => "line 2: the line of a service, a call or an event is expected";
    }
    assert!(bad.source().is_none() && !bad.conforms());
    let many = Verdict::TooManyConfigurations { line: 4 }.to_string();
    assert!(many.starts_with("line 4: orders of the calls lead to more than"));
    let open = Verdict::TooManyOpenCalls { line: 4 }.to_string();
    assert_eq!(open, "line 4: more than 64 calls are open");
    Ok(())
}

/// A file of this test in the folder for temporary ones, which is removed where it is dropped.
struct Temporary(PathBuf);

impl Temporary {
    fn new(name: &str, content: &[u8]) -> Self {
        let path = env::temp_dir().join(format!("iox2sd_{name}_{}.toml", process::id()));
        fs::write(&path, content).unwrap();
        Temporary(path)
    }

    fn path(&self) -> FilePath {
        self.0.to_str().unwrap().parse().unwrap()
    }
}

impl Drop for Temporary {
    fn drop(&mut self) {
        fs::remove_file(&self.0).unwrap();
    }
}

#[test]
fn files_are_read_as_iceoryx2_reads_them() {
    use ConfigCreationError::*;
    let good = Temporary::new("good", b"[global]\nprefix = 'own_'\nother = 1\n");
    equal! {
        Config::from_file(&good.path()).unwrap().global.prefix => "own_";
    }
    let bad = Temporary::new("bad", b"[global]\nprefix = 1\n");
    let no_text = Temporary::new("no_text", b"\xff");
    let below_file = format!("{}/a", good.path()).parse().unwrap();
    for (file, error) in [
        (bad.path(), UnableToDeserializeContents),
        (no_text.path(), FailedToReadConfigFileContents),
        ("no/such/file".parse().unwrap(), ConfigFileDoesNotExist),
        (below_file, UnableToOpenConfigFile),
    ] {
        assert_eq!(Config::from_file(&file), Err(error));
    }
}

#[test]
fn a_file_is_refused_with_its_source() {
    let refused = Config::from_toml_file("no/such/file").unwrap_err();
    assert!(refused.to_string().starts_with("no/such/file: "));
    let source = refused.source().and_then(|source| source.downcast_ref());
    let kind = source.map(std::io::Error::kind);
    assert_eq!(kind, Some(std::io::ErrorKind::NotFound));
    let read = || -> Result<Config, ConfigFileError> {
        Ok(Config::from_toml("global.prefix = 1\n")?.config)
    };
    let refused = read().unwrap_err();
    assert!(matches!(refused, ConfigFileError::Content(_)));
    let source = refused.source().map(ToString::to_string);
    assert_eq!(source, Some(refused.to_string()));
}

/// The prelude has no `Path`, so that one has that of the standard library.
#[test]
fn the_prelude_is_used_beside_the_paths_of_the_standard_library() {
    use iox2sd::prelude::*;
    use std::path::Path;
    let config = Config::default();
    let file: FileName = Config::default_config_file_name();
    assert_eq!(Path::new("a").join(file), Path::new("a/iceoryx2.toml"));
    assert!(DynamicConfig::with_capacities(&config.defaults.event, 7).is_ok());
}

#[test]
fn settings_count_their_messages() {
    let defaults = Config::default().defaults;
    let samples = with!(defaults.publish_subscribe; publisher_max_loaned_samples: 12);
    let fixed = fixed::publish_subscribe::StaticConfig::from(&samples);
    let count = samples.required_amount_of_samples_per_data_segment();
    assert_eq!(count, fixed.required_amount_of_samples_per_data_segment(12));
    assert_eq!(count, Some(44));
    let requests = with!(defaults.request_response;
        max_loaned_requests: 5, server_max_loaned_responses_per_request: usize::MAX);
    equal! {
        requests.required_amount_of_chunks_per_client_data_segment() => Some(21);
        requests.required_amount_of_chunks_per_server_data_segment() => None;
    }
}
