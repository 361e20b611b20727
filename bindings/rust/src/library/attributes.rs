//! Calls on attributes.

use super::{done, text};
use crate::attribute::{Attribute, AttributeKey};
use crate::sys;

/// What a set lacks, by its index among what is required.
pub(crate) enum Missing {
    Pair(usize),
    Key(usize),
}

/// The pairs for the library, whose pointers lead into the attributes.
fn pairs(attributes: &[Attribute]) -> Vec<sys::iox2sd_attribute> {
    let pair = |attribute: &Attribute| {
        let (key, value) = (attribute.key().as_bytes(), attribute.value().as_bytes());
        sys::iox2sd_attribute {
            key: key.as_ptr(),
            key_length: key.len(),
            value: value.as_ptr(),
            value_length: value.len(),
        }
    };
    attributes.iter().map(pair).collect()
}

/// The attributes of a set in their order.
pub(crate) fn sorted(attributes: &[Attribute]) -> Result<Vec<Attribute>, u32> {
    let mut pairs = pairs(attributes);
    // SAFETY: the array is a slice, and its texts are those of attributes that live on. The call moves
    // its elements.
    let answer = unsafe { sys::iox2sd_attributes_sort_at(pairs.as_mut_ptr(), pairs.len()) };
    done(answer.status)?;
    let of = |pair: &sys::iox2sd_attribute| {
        let is_same = |a: &&Attribute| a.key().as_bytes().as_ptr() == pair.key;
        attributes.iter().find(is_same).copied()
    };
    Ok(pairs.iter().filter_map(of).collect())
}

pub(crate) fn attribute_values(attributes: &[Attribute], key: &AttributeKey) -> Result<usize, u32> {
    let (pairs, key) = (pairs(attributes), key.as_bytes());
    // SAFETY: as above; the key is a slice.
    let answer = unsafe {
        sys::iox2sd_attributes_number_of_key_values_at(
            pairs.as_ptr(),
            pairs.len(),
            key.as_ptr(),
            key.len(),
        )
    };
    done(answer.status)?;
    Ok(answer.count)
}

pub(crate) fn attribute_value(
    attributes: &[Attribute],
    key: &AttributeKey,
    index: usize,
) -> Result<String, u32> {
    let (pairs, key) = (pairs(attributes), key.as_bytes());
    // SAFETY: as above; `out` is a slice that overlaps no other argument.
    text(|out| unsafe {
        sys::iox2sd_attributes_key_value_at(
            pairs.as_ptr(),
            pairs.len(),
            key.as_ptr(),
            key.len(),
            index,
            out.as_mut_ptr(),
            out.len(),
        )
    })
}

/// Whether a set has the required pairs and keys: what it lacks, or `None`.
pub(crate) fn verify(
    attributes: &[Attribute],
    required: &[Attribute],
    required_keys: &[AttributeKey],
) -> Result<Option<Missing>, u32> {
    let (pairs, required) = (pairs(attributes), self::pairs(required));
    let key = |key: &AttributeKey| sys::iox2sd_key {
        text: key.as_bytes().as_ptr(),
        length: key.as_bytes().len(),
    };
    let keys: Vec<_> = required_keys.iter().map(key).collect();
    // SAFETY: the arrays are slices, and their texts are those of attributes and keys that live on.
    let answer = unsafe {
        sys::iox2sd_attributes_verify_at(
            pairs.as_ptr(),
            pairs.len(),
            required.as_ptr(),
            required.len(),
            keys.as_ptr(),
            keys.len(),
        )
    };
    match answer.status {
        sys::IOX2SD_STATUS_DONE => Ok(None),
        sys::IOX2SD_STATUS_MISSING_PAIR => Ok(Some(Missing::Pair(answer.at))),
        sys::IOX2SD_STATUS_MISSING_KEY => Ok(Some(Missing::Key(answer.at))),
        refusal => Err(refusal),
    }
}
