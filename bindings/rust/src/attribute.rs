//! The attributes of services: pairs of a key and a value that stay as they are as long as a
//! service lives.
//!
//! ```
//! use iox2sd::attribute::{AttributeSpecifier, AttributeVerifier};
//!
//! let specifier = AttributeSpecifier::new()
//!     .define(&"site".try_into()?, &"north".try_into()?)?
//!     .define(&"site".try_into()?, &"east".try_into()?)?
//!     .define(&"robot".try_into()?, &"r2".try_into()?)?;
//! for attribute in specifier.attributes().iter() {
//!     println!("{} = {}", attribute.key(), attribute.value());
//! }
//!
//! let verifier = AttributeVerifier::new()
//!     .require(&"site".try_into()?, &"north".try_into()?)?
//!     .require_key(&"robot".try_into()?)?;
//! verifier.verify_requirements(specifier.attributes())?;
//! # Ok::<(), Box<dyn std::error::Error>>(())
//! ```

mod set;
mod specifier;
mod verifier;

pub use set::{AttributeDefinitionError, AttributeSet, IntoIter, KeyValues};
pub use specifier::AttributeSpecifier;
pub use verifier::{AttributeVerificationError, AttributeVerifier};

use crate::display::getters;
use crate::semantic_string::kind::kind;
use crate::semantic_string::SemanticString;

kind! {
    "attribute" "site" "" check_attribute_key ATTRIBUTE_KEY
    /// What the key of an attribute allows: every byte from 1 to 127, but not none at all.
    AttributeKeyContent
    /// The key of an attribute.
    AttributeKey
}

kind! {
    "attribute" "north" "" check_attribute_value ATTRIBUTE_VALUE
    /// What the value of an attribute allows: every byte from 1 to 127, but not none at all.
    AttributeValueContent
    /// The value of an attribute.
    AttributeValue
}

/// A key with a value. Attributes are compared by their keys, and then by their values.
///
#[doc = example!(attributes)]
/// assert_eq!(set[0].key(), set[1].key());
/// assert!(set[0] < set[1]);
#[doc = example!(end)]
#[derive(Clone, Copy, Debug, PartialEq, Eq, PartialOrd, Ord, Hash)]
pub struct Attribute {
    key: AttributeKey,
    value: AttributeValue,
}

impl Attribute {
    /// The attribute with this key and this value.
    ///
    #[doc = example!(attributes)]
    /// assert_eq!(set[0], Attribute::new(&site, &east));
    #[doc = example!(end)]
    #[must_use]
    pub fn new(key: &AttributeKey, value: &AttributeValue) -> Self {
        Attribute {
            key: *key,
            value: *value,
        }
    }

    getters! {
        {
            /// use iox2sd::attribute::Attribute;
            ///
            /// let attribute = Attribute::new(&"site".try_into()?, &"north".try_into()?);
        }
        /// The key.
        key -> &AttributeKey = |attribute| &attribute.key, "attribute.key(), \"site\"";
        /// The value.
        value -> &AttributeValue = |attribute| &attribute.value, "attribute.value(), \"north\"";
    }
}
