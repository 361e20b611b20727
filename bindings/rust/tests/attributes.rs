//! Sets of attributes, and what openers require of them.
#![forbid(unsafe_code)]

#[macro_use]
mod common;

use iox2sd::attribute::{
    Attribute, AttributeDefinitionError, AttributeKey, AttributeSet, AttributeSpecifier,
    AttributeValue, AttributeVerificationError, AttributeVerifier,
};
use iox2sd::CallbackProgression;

fn key(text: &str) -> AttributeKey {
    text.try_into().unwrap()
}

fn value(text: &str) -> AttributeValue {
    text.try_into().unwrap()
}

fn set(pairs: &[(&str, &str)]) -> AttributeSet {
    let mut set = AttributeSet::new();
    for (name, text) in pairs {
        set.add(&key(name), &value(text)).unwrap();
    }
    set
}

/// A verifier that requires these, in this order: pairs, and keys without a value.
fn requiring(all: &[(&str, Option<&str>)]) -> AttributeVerifier {
    let require = |verifier: AttributeVerifier, (name, text): &(&str, Option<&str>)| match text {
        Some(text) => verifier.require(&key(name), &value(text)).unwrap(),
        None => verifier.require_key(&key(name)).unwrap(),
    };
    all.iter().fold(AttributeVerifier::default(), require)
}

fn texts(set: &AttributeSet) -> Vec<(&str, &str)> {
    set.iter()
        .map(|a| (a.key().as_str(), a.value().as_str()))
        .collect()
}

#[test]
fn sets_are_in_the_order_of_keys_and_values() {
    let set = set(&[("b", "1"), ("a", "2"), ("b", "0"), ("a", "10"), ("b", "1")]);
    let sorted = [("a", "10"), ("a", "2"), ("b", "0"), ("b", "1"), ("b", "1")];
    assert_eq!(texts(&set), sorted);
    assert_eq!(set.number_of_attributes(), 5);
    assert_eq!(set.len(), 5);
    assert_eq!((&set).into_iter().count(), 5);
    assert!(set.windows(2).all(|pair| pair[0] <= pair[1]));
}

#[test]
fn equal_sets_have_the_same_pairs_in_any_order() {
    equal! {
        set(&[("a", "1"), ("b", "2")]) => set(&[("b", "2"), ("a", "1")]);
    }
    assert_ne!(set(&[("a", "1")]), set(&[("a", "1"), ("a", "1")]));
    assert_eq!(AttributeSet::new(), AttributeSet::default());
}

#[test]
fn values_of_a_key_are_counted_listed_and_picked() {
    let set = set(&[
        ("k", "c"),
        ("k", "a"),
        ("other", "z"),
        ("k", "b"),
        ("k", "a"),
    ]);
    assert_eq!(set.number_of_key_values(&key("k")), 4);
    assert_eq!(set.number_of_key_values(&key("none")), 0);
    assert_eq!(set.key_values(&key("k")).count(), 4);
    let listed: Vec<_> = set.key_values(&key("k")).map(|v| v.as_str()).collect();
    assert_eq!(listed, ["a", "a", "b", "c"]);
    assert_eq!(set.key_value(&key("k"), 2), Some(&value("b")));
    assert_eq!(set.key_value(&key("k"), 4), None);
    assert_eq!(set.key_value(&key("none"), 0), None);

    let mut seen = Vec::new();
    set.iter_key_values(&key("k"), |v| {
        seen.push(v.to_string());
        if v == &value("b") {
            CallbackProgression::Stop
        } else {
            CallbackProgression::Continue
        }
    });
    assert_eq!(seen, ["a", "a", "b"]);
}

#[test]
fn a_set_takes_sixteen_pairs() {
    assert_eq!(AttributeSet::capacity(), 16);
    let mut full = AttributeSpecifier::new();
    for number in 0..16 {
        let defined = full.define(&key("k"), &value(&format!("{number:02}")));
        full = defined.unwrap();
    }
    let mut set = full.attributes().clone();
    let error = AttributeDefinitionError::ExceedsMaxSupportedAttributes;
    equal! {
        set.add(&key("a"), &value("a")) => Err(error);
        &set => full.attributes();
        full.define(&key("a"), &value("a")).unwrap_err() => error;
    }
}

#[test]
fn a_verifier_takes_sixteen_pairs_and_keys_together() {
    let error = AttributeDefinitionError::ExceedsMaxSupportedAttributes;
    for pairs in [0, 1, 8, 15, 16] {
        let mut verifier = AttributeVerifier::new();
        for number in 0..pairs {
            let text = format!("{number}");
            verifier = verifier.require(&key(&text), &value("v")).unwrap();
        }
        for number in pairs..16 {
            verifier = verifier.require_key(&key(&format!("{number}"))).unwrap();
        }
        assert_eq!(verifier.required_attributes().len(), pairs);
        assert_eq!(verifier.required_keys().len(), 16 - pairs);
        let one_more = verifier.clone().require(&key("a"), &value("a"));
        assert_eq!(one_more.unwrap_err(), error);
        assert_eq!(verifier.require_key(&key("a")).unwrap_err(), error);
    }
}

#[test]
fn what_is_required_is_kept() {
    let verifier = requiring(&[("b", Some("2")), ("z", None), ("a", Some("1")), ("y", None)]);
    equal! {
        texts(verifier.required_attributes()) => [("a", "1"), ("b", "2")];
        verifier.required_keys() => [key("z"), key("y")];
    }
}

#[test]
fn a_set_is_verified() {
    let service = set(&[("site", "north"), ("site", "east"), ("robot", "r2")]);
    let verifier = AttributeVerifier::new();
    assert_eq!(verifier.verify_requirements(&AttributeSet::new()), Ok(()));
    let east = ("site", Some("east"));
    let verifier = requiring(&[east, east, ("robot", None)]);
    assert_eq!(verifier.verify_requirements(&service), Ok(()));
}

#[test]
fn the_least_missing_pair_is_reported_before_the_first_missing_key() {
    let service = set(&[("site", "north")]);
    let refused = |all: &[_]| requiring(all).verify_requirements(&service).unwrap_err();
    let keys = [("z", None), ("a", None)];
    let error = refused(&keys);
    equal! {
        error => AttributeVerificationError::NonExistingKey(key("z"));
        error.to_string() => "AttributeVerificationError::NonExistingKey(\"z\")";
    }
    let (west, north) = (("site", Some("west")), ("site", Some("north")));
    let error = refused(&[keys[0], keys[1], west, north, ("robot", Some("\"r2\""))]);
    let missing = (key("robot"), value("\"r2\""));
    let text = "AttributeVerificationError::IncompatibleAttribute((\"robot\", \"\"r2\"\"))";
    assert_eq!(
        error,
        AttributeVerificationError::IncompatibleAttribute(missing)
    );
    assert_eq!(error.to_string(), text);
}

#[test]
fn a_pair_is_its_key_and_its_value() {
    let pair = Attribute::new(&key("a"), &value("1"));
    assert_eq!((pair.key(), pair.value()), (&key("a"), &value("1")));
    assert!(pair < Attribute::new(&key("a"), &value("2")));
    assert!(pair < Attribute::new(&key("b"), &value("0")));
}
