//! Calls on the description of a service.

use crate::description::{Attribute, Attributes, TypeDetail, Types, Verifier, hash_text};

const PUBLISH_SUBSCRIBE: u8 = 0;

#[derive(Clone, Copy, Debug)]
pub struct Sizes {
    pub header: usize,
    pub element: usize,
    pub alignment: usize,
}

pub fn layouts(given: Sizes, count: u32) -> u64 {
    if !given.alignment.is_power_of_two() {
        return 0;
    }
    let types = Types {
        header: detail("Header", false, given.header, given.alignment),
        user_header: detail("Counter", false, 4, 4),
        payload: detail("Point", true, given.element, given.alignment),
    };
    let mut sizes = 0u64;
    for elements in 0..count {
        if let Some(layout) = types.layout(elements as usize) {
            sizes = sizes.wrapping_add(layout.size as u64);
        }
    }
    sizes
}

fn detail(name: &str, is_dynamic: bool, size: usize, alignment: usize) -> TypeDetail {
    TypeDetail {
        name: name.to_string(),
        is_dynamic,
        size,
        alignment,
    }
}

pub fn verifications(count: u32) -> u64 {
    let (attributes, verifier) = attributes();
    let mut met = 0;
    for _ in 0..count {
        met += u64::from(verifier.verify(&attributes).is_ok());
    }
    met
}

fn attributes() -> (Attributes, Verifier) {
    let mut attributes = Attributes::default();
    let mut verifier = Verifier::default();
    for number in 0..16u8 {
        let text = format!("camera-parameter-{}", char::from(b'a' + number));
        let attribute = Attribute {
            key: text.clone(),
            value: text.clone(),
        };
        attributes.add(attribute.clone());
        if number % 2 == 0 {
            verifier.pairs.add(attribute);
        } else {
            verifier.keys.push(text);
        }
    }
    (attributes, verifier)
}

pub fn hash_texts(count: u32) -> u64 {
    let mut digest = 0u64;
    for _ in 0..count {
        let text = hash_text(PUBLISH_SUBSCRIBE, "My/Funk/ServiceName");
        digest = digest.wrapping_add(text[0].into());
    }
    digest
}
