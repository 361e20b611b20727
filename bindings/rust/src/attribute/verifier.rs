use super::{AttributeDefinitionError, AttributeKey, AttributeSet, AttributeValue};
use crate::display::padded;
use crate::library::{self, Missing};
use std::error::Error;
use std::fmt;

/// What a set of attributes lacks.
///
#[doc = example!(attributes)]
/// let verifier = AttributeVerifier::new().require(&robot, &north)?;
/// let refused = verifier.verify_requirements(&set).unwrap_err();
/// let text = r#"AttributeVerificationError::IncompatibleAttribute(("robot", "north"))"#;
/// assert_eq!(refused.to_string(), text);
#[doc = example!(end)]
#[derive(Clone, Debug, PartialEq, Eq, Hash)]
#[allow(clippy::large_enum_variant)] // Texts are copied by value, and none is boxed.
pub enum AttributeVerificationError {
    /// No attribute has this key, the first of the required keys that lacks one. This is reported
    /// only where no required pair is missing.
    NonExistingKey(AttributeKey),
    /// This pair is missing, the least of the required pairs that are. The key may have other
    /// values, or none.
    IncompatibleAttribute((AttributeKey, AttributeValue)),
}

/// The path of the variant with the key, or the key and the value, as they are between quotes.
impl fmt::Display for AttributeVerificationError {
    fn fmt(&self, f: &mut fmt::Formatter<'_>) -> fmt::Result {
        match self {
            Self::NonExistingKey(key) => padded(
                f,
                format_args!("AttributeVerificationError::NonExistingKey(\"{key}\")"),
            ),
            Self::IncompatibleAttribute((key, value)) => padded(
                f,
                format_args!(
                    "AttributeVerificationError::IncompatibleAttribute((\"{key}\", \"{value}\"))"
                ),
            ),
        }
    }
}

impl Error for AttributeVerificationError {}

/// The pairs and the keys that a set of attributes must have, at most
/// [`AttributeSet::capacity`] together.
///
/// ```
/// use iox2sd::attribute::{AttributeSet, AttributeVerifier};
///
/// let service = AttributeSet::new();
/// assert_eq!(AttributeVerifier::new().verify_requirements(&service), Ok(()));
/// ```
#[derive(Clone, Debug, Default, PartialEq, Eq, Hash)]
pub struct AttributeVerifier {
    attributes: AttributeSet,
    keys: Vec<AttributeKey>,
}

impl AttributeVerifier {
    /// A verifier that requires nothing.
    ///
    /// ```
    /// use iox2sd::attribute::AttributeVerifier;
    ///
    /// let verifier = AttributeVerifier::new();
    /// assert!(verifier.required_attributes().is_empty() && verifier.required_keys().is_empty());
    /// ```
    #[must_use]
    pub fn new() -> Self {
        Self::default()
    }

    /// Requires a pair too. A key may be required with several values.
    ///
    /// # Errors
    ///
    /// Refused where pairs and keys are [`AttributeSet::capacity`] together, and then the verifier
    /// is spent.
    ///
    /// # Examples
    ///
    #[doc = example!(attributes)]
    /// let mut verifier = AttributeVerifier::new();
    /// for _ in 0..AttributeSet::capacity() {
    ///     verifier = verifier.require(&site, &north)?;
    /// }
    /// let refused = verifier.require(&site, &north).unwrap_err();
    /// assert_eq!(refused, AttributeDefinitionError::ExceedsMaxSupportedAttributes);
    #[doc = example!(end)]
    pub fn require(
        mut self,
        key: &AttributeKey,
        value: &AttributeValue,
    ) -> Result<Self, AttributeDefinitionError> {
        self.attributes.add(key, value)?;
        self.within_limits()
    }

    /// Requires a key too, with any value.
    ///
    /// # Errors
    ///
    /// Refused where pairs and keys are [`AttributeSet::capacity`] together, and then the verifier
    /// is spent.
    ///
    /// # Examples
    ///
    #[doc = example!(attributes)]
    /// let verifier = AttributeVerifier::new().require_key(&site)?;
    /// assert_eq!(verifier.verify_requirements(&set), Ok(()));
    #[doc = example!(end)]
    pub fn require_key(mut self, key: &AttributeKey) -> Result<Self, AttributeDefinitionError> {
        self.keys.push(*key);
        self.within_limits()
    }

    /// The verifier, unless it requires too much.
    fn within_limits(self) -> Result<Self, AttributeDefinitionError> {
        match library::verify(&[], &self.attributes, &self.keys) {
            Ok(_) => Ok(self),
            Err(refusal) => Err(AttributeDefinitionError::of(refusal)),
        }
    }

    /// The pairs that are required.
    ///
    #[doc = example!(attributes)]
    /// let verifier = AttributeVerifier::new().require(&site, &north)?;
    /// assert_eq!(verifier.required_attributes()[0].value(), &north);
    #[doc = example!(end)]
    #[must_use]
    pub fn required_attributes(&self) -> &AttributeSet {
        &self.attributes
    }

    /// The keys that are required, in the order in which they were.
    ///
    #[doc = example!(attributes)]
    /// let verifier = AttributeVerifier::new().require_key(&site)?.require_key(&robot)?;
    /// assert_eq!(verifier.required_keys(), ["site", "robot"]);
    #[doc = example!(end)]
    #[must_use]
    pub fn required_keys(&self) -> &[AttributeKey] {
        &self.keys
    }

    /// Whether the attributes have each required pair, and for each required key some pair with
    /// it. A pair that is required twice is met by one.
    ///
    /// # Errors
    ///
    /// Refused with the least required pair that is missing, or else with the first required key
    /// that no pair has.
    ///
    /// # Examples
    ///
    #[doc = example!(attributes)]
    /// let verifier = AttributeVerifier::new().require_key(&robot)?;
    /// let refused = verifier.verify_requirements(&set).unwrap_err();
    /// assert_eq!(refused, AttributeVerificationError::NonExistingKey(robot));
    #[doc = example!(end)]
    #[allow(clippy::result_large_err)] // Texts are copied by value, and none is boxed.
    pub fn verify_requirements(
        &self,
        attributes: &AttributeSet,
    ) -> Result<(), AttributeVerificationError> {
        match library::verify(attributes, &self.attributes, &self.keys) {
            Ok(None) => Ok(()),
            Ok(Some(Missing::Pair(index))) => {
                let pair = &self.attributes[index];
                Err(AttributeVerificationError::IncompatibleAttribute((
                    *pair.key(),
                    *pair.value(),
                )))
            }
            Ok(Some(Missing::Key(index))) => {
                Err(AttributeVerificationError::NonExistingKey(self.keys[index]))
            }
            Err(other) => library::unexpected(other),
        }
    }
}
