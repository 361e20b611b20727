//! Names, keys, values and paths: what is taken, and each refusal with its text.
#![forbid(unsafe_code)]

use iox2sd::attribute::*;
use iox2sd::paths::*;
use iox2sd::semantic_string::{Content, SemanticString, SemanticStringError};
use iox2sd::service_hash::ServiceHash;
use iox2sd::service_name::{ServiceName, ServiceNameError};
use std::any::TypeId;
use std::collections::HashSet;

fn text_of(length: usize) -> String {
    "a".repeat(length)
}

#[test]
fn names_are_taken_up_to_their_greatest_length() {
    assert_eq!(ServiceName::max_len(), 255);
    for length in [1, 2, 254, 255] {
        let text = text_of(length);
        let name = ServiceName::new(&text).unwrap();
        assert_eq!(name, text.as_str());
        assert_eq!(name.len(), length);
        assert_eq!(name.to_string(), text);
        assert_eq!(format!("{name:?}"), format!("{text:?}"));
    }
}

#[test]
fn names_are_refused_by_their_cause() {
    use ServiceNameError::{ExceedsMaximumLength, InvalidContent};
    let (long, long_prefixed) = (text_of(256), format!("iox2://{}", text_of(300)));
    let long_illegal = format!("{}\u{80}", text_of(256));
    for (text, error) in [
        ("", InvalidContent),
        ("iox2://", InvalidContent),
        ("iox2://x", InvalidContent),
        (&long_prefixed, InvalidContent),
        (&long, ExceedsMaximumLength),
        (&long_illegal, ExceedsMaximumLength),
        ("a\0b", InvalidContent),
        ("näme", InvalidContent),
    ] {
        assert_eq!(ServiceName::new(text), Err(error), "{text:?}");
    }
}

/// The text is zeros that nobody has written, for which the system keeps no memory.
#[test]
fn a_length_of_more_than_32_bits_is_not_cut() {
    let length = usize::try_from((1_u64 << 32) + 1).unwrap();
    let text = String::from_utf8(vec![0; length]).unwrap();
    let refused = ServiceName::new(&text);
    assert_eq!(refused, Err(ServiceNameError::ExceedsMaximumLength));
    let refused = AttributeKey::new(text.as_bytes());
    assert_eq!(refused, Err(SemanticStringError::ExceedsMaximumLength));
}

#[test]
fn the_conversion_of_iceoryx2_alone_takes_the_prefix_that_new_refuses() {
    let text = "iox2://discovery";
    let name: ServiceName = text.try_into().unwrap();
    let refused = Err(ServiceNameError::InvalidContent);
    assert_eq!(ServiceName::new(text), refused);
    assert_eq!(text.parse::<ServiceName>(), refused);
    assert_eq!(ServiceName::try_from(text.to_string()), refused);
    assert_eq!(ServiceName::internal_new("iox2://discovery"), Ok(name));
    assert_eq!(ServiceName::internal_new_prefixed("discovery"), Ok(name));
    assert!(ServiceName::has_iox2_prefix(&name));
    assert!(!ServiceName::has_iox2_prefix("iox2:/"));
    assert_eq!(ServiceName::internal_new_prefixed("").unwrap(), "iox2://");
    assert!(ServiceName::internal_new_prefixed(&text_of(248)).is_ok());
    let long = ServiceName::internal_new_prefixed(&text_of(249));
    assert_eq!(long, Err(ServiceNameError::ExceedsMaximumLength));
    assert_eq!(ServiceName::internal_new_prefixed("\u{7f}\u{80}"), refused);
    assert_eq!(ServiceName::try_from(""), refused);
}

#[test]
fn texts_are_values() {
    let [one, other] = ["a", "b"].map(|text| ServiceName::new(text).unwrap());
    let copy = one;
    assert_eq!(copy, one);
    assert_eq!(HashSet::from([one, copy, other]).len(), 2);
    assert_eq!(format!("[{one:>3}|{other:<3}|{other:.0}]"), "[  a|b  |]");
    let [short, long] = ["a", "aa"].map(|text| text.parse::<AttributeKey>().unwrap());
    assert!(short < long);
    assert_eq!(HashSet::from([short, short, long]).len(), 2);
    assert_eq!(format!("[{short:>3}]"), "[  a]");
    assert_eq!(long.as_bytes(), b"aa");
    assert_eq!(long.as_ref(), "aa");
}

fn is_refused<C: Content>(text: &[u8], error: SemanticStringError) {
    assert_eq!(SemanticString::<C>::new(text), Err(error), "{text:?}");
    if let Ok(text) = std::str::from_utf8(text) {
        assert_eq!(SemanticString::<C>::try_from(text), Err(error));
    }
}

fn goes_up_to<C: Content + 'static>(greatest: usize) {
    assert_eq!(SemanticString::<C>::capacity(), greatest);
    for length in [1, greatest - 1, greatest] {
        let text = text_of(length);
        let made = SemanticString::<C>::new(text.as_bytes()).unwrap();
        assert_eq!((made.as_str(), made.len()), (text.as_str(), length));
        assert!(!made.is_empty());
    }
    let long = text_of(greatest + 1);
    is_refused::<C>(long.as_bytes(), SemanticStringError::ExceedsMaximumLength);
    let may_be_empty = TypeId::of::<C>() == TypeId::of::<PathContent>();
    let illegal: [&[u8]; 4] = [b"a\0", b"\x80", b"\xff", b""];
    for text in &illegal[..4 - usize::from(may_be_empty)] {
        is_refused::<C>(text, SemanticStringError::InvalidContent);
    }
}

#[test]
fn each_kind_of_texts_has_its_limits() {
    const LIMITS: [usize; 5] = [
        AttributeKey::capacity(),
        AttributeValue::capacity(),
        AttributeSet::capacity(),
        ServiceName::max_len(),
        ServiceHash::max_number_of_characters(),
    ];
    assert_eq!(LIMITS, [64, 256, 16, 255, 64]);
    goes_up_to::<AttributeKeyContent>(64);
    goes_up_to::<AttributeValueContent>(256);
    goes_up_to::<PathContent>(255);
    goes_up_to::<FileNameContent>(255);
    goes_up_to::<FilePathContent>(255);
    goes_up_to::<RestrictedFileNameContent>(64);
    assert!(Path::new(b"").unwrap().is_empty());
}

#[test]
fn names_of_files_have_a_form() {
    let error = SemanticStringError::InvalidContent;
    for text in [".", "..", "a/b", "/"] {
        assert_eq!(FileName::try_from(text), Err(error), "{text:?}");
    }
    for text in ["a/", "a/.", "a/..", ".", "/"] {
        assert_eq!(FilePath::try_from(text), Err(error), "{text:?}");
    }
    for text in ["a b", "a/b", "ä", ".", ".."] {
        assert_eq!(RestrictedFileName::try_from(text), Err(error), "{text:?}");
    }
    assert_eq!(FileName::try_from("...").unwrap(), "...");
    assert_eq!(FilePath::try_from("a/../b").unwrap(), "a/../b");
    assert_eq!(RestrictedFileName::try_from("A-z.0:_").unwrap(), "A-z.0:_");
}

#[test]
fn paths_are_joined_by_one_slash() {
    for (path, entry, joined) in [
        ("", "a", "a"),
        ("a", "b", "a/b"),
        ("a/", "b", "a/b"),
        ("a", "", "a/"),
        ("/", "a", "/a"),
    ] {
        let mut path = Path::try_from(path).unwrap();
        path.add_path_entry(&entry.try_into().unwrap()).unwrap();
        assert_eq!(path, joined);
    }
    let too_long = SemanticStringError::ExceedsMaximumLength;
    let mut path: Path = text_of(200).parse().unwrap();
    let before = path;
    let file = |length| text_of(length).parse::<FileName>().unwrap();
    assert_eq!(
        path.add_path_entry(&text_of(55).parse().unwrap()),
        Err(too_long)
    );
    assert_eq!(path, before);
    assert_eq!(
        FilePath::from_path_and_file(&path, &file(55)),
        Err(too_long)
    );
    let longest = FilePath::from_path_and_file(&path, &file(54));
    assert_eq!(longest.map(|path| path.len()), Ok(255));
}
