use super::{Attribute, AttributeKey, AttributeValue};
use crate::callback_progression::visit;
use crate::container::Entries;
use crate::display::errors;
use crate::library;
use crate::limits;
use crate::sys;
use crate::CallbackProgression;
use std::iter::FusedIterator;
use std::ops::{Deref, Range};
use std::slice;

errors! {
    /// Why an attribute or a key was not added.
    ///
    #[doc = example!(attributes)]
    /// while set.len() < AttributeSet::capacity() {
    ///     set.add(&site, &north)?;
    /// }
    /// let refused = set.add(&site, &north).unwrap_err();
    /// assert_eq!(refused.to_string(), "AttributeDefinitionError::ExceedsMaxSupportedAttributes");
    #[doc = example!(end)]
    AttributeDefinitionError {
        /// There are as many already as there may be.
        ExceedsMaxSupportedAttributes = IOX2SD_STATUS_TOO_MANY | IOX2SD_STATUS_TOO_MANY_REQUIRED,
    }
}

/// The attributes of a service, at most [`AttributeSet::capacity`] of them, in the order of their
/// keys and then of their values. A key may have several values, and a pair may stand there twice.
///
#[doc = example!(attributes)]
/// assert!(set.key_values(&site).eq(["east", "north"]));
/// while set.len() < AttributeSet::capacity() {
///     set.add(&robot, &"r2".parse()?)?;
/// }
/// let refused = set.add(&robot, &"r3".parse()?);
/// assert_eq!(refused, Err(AttributeDefinitionError::ExceedsMaxSupportedAttributes));
#[doc = example!(end)]
#[derive(Clone, Debug, Default, PartialEq, Eq, PartialOrd, Ord, Hash)]
pub struct AttributeSet {
    attributes: Vec<Attribute>,
}

impl AttributeSet {
    /// The set without attributes.
    ///
    /// ```
    /// use iox2sd::attribute::AttributeSet;
    /// assert!(AttributeSet::new().is_empty());
    /// ```
    #[must_use]
    pub fn new() -> Self {
        Self::default()
    }

    /// Adds an attribute.
    ///
    /// # Errors
    ///
    /// Refused where there are [`AttributeSet::capacity`] already, and then the set stays as it
    /// was.
    ///
    /// # Examples
    ///
    #[doc = example!(attributes)]
    /// assert_eq!((set[0].value(), set[1].value()), (&east, &north));
    #[doc = example!(end)]
    pub fn add(
        &mut self,
        key: &AttributeKey,
        value: &AttributeValue,
    ) -> Result<(), AttributeDefinitionError> {
        let mut attributes = self.attributes.clone();
        attributes.push(Attribute::new(key, value));
        self.attributes = library::sorted(&attributes).map_err(AttributeDefinitionError::of)?;
        Ok(())
    }

    /// How many attributes there are.
    ///
    #[doc = example!(attributes)]
    /// assert_eq!((set.number_of_attributes(), set.len()), (2, 2));
    #[doc = example!(end)]
    #[must_use]
    pub fn number_of_attributes(&self) -> usize {
        self.attributes.len()
    }

    /// How many attributes there may be.
    ///
    /// ```
    /// use iox2sd::attribute::AttributeSet;
    /// assert_eq!(AttributeSet::capacity(), 16);
    /// ```
    #[must_use]
    pub const fn capacity() -> usize {
        limits::ATTRIBUTES
    }

    /// How many values a key has.
    ///
    #[doc = example!(attributes)]
    /// assert_eq!((set.number_of_key_values(&site), set.number_of_key_values(&robot)), (2, 0));
    #[doc = example!(end)]
    #[must_use]
    pub fn number_of_key_values(&self, key: &AttributeKey) -> usize {
        library::attribute_values(self, key).unwrap_or_else(|status| library::unexpected(status))
    }

    /// The value with this index among the values that a key has, or `None` where it has no more.
    ///
    #[doc = example!(attributes)]
    /// assert_eq!((set.key_value(&site, 0), set.key_value(&site, 2)), (Some(&east), None));
    #[doc = example!(end)]
    pub fn key_value(&self, key: &AttributeKey, index: usize) -> Option<&AttributeValue> {
        match library::attribute_value(self, key, index) {
            Ok(text) => {
                let is_it = |a: &&Attribute| a.key() == key && a.value().as_str() == text;
                self.iter().find(is_it).map(Attribute::value)
            }
            Err(sys::IOX2SD_STATUS_NO_SUCH_VALUE) => None,
            Err(other) => library::unexpected(other),
        }
    }

    /// Calls the callback on the values that a key has, up to and with the first answer
    /// [`Stop`](CallbackProgression::Stop).
    ///
    #[doc = example!(attributes)]
    /// let mut seen = Vec::new();
    /// set.iter_key_values(&site, |value| {
    ///     seen.push(*value);
    ///     iox2sd::CallbackProgression::Stop
    /// });
    /// assert_eq!(seen, ["east"]);
    #[doc = example!(end)]
    pub fn iter_key_values<F: FnMut(&AttributeValue) -> CallbackProgression>(
        &self,
        key: &AttributeKey,
        callback: F,
    ) {
        visit(self.key_values(key), callback);
    }

    /// The values that a key has, in their order.
    ///
    #[doc = example!(attributes)]
    /// set.add(&robot, &"r2".parse()?)?;
    /// assert!(set.key_values(&site).eq(["east", "north"]));
    #[doc = example!(end)]
    #[must_use]
    pub fn key_values(&self, key: &AttributeKey) -> KeyValues<'_> {
        KeyValues {
            set: self,
            key: *key,
            indices: 0..self.number_of_key_values(key),
        }
    }
}

/// The values that a key has, in their order.
///
#[doc = example!(attributes)]
/// let mut values = set.key_values(&site);
/// assert_eq!((values.len(), values.next()), (2, Some(&east)));
#[doc = example!(end)]
#[derive(Clone, Debug)]
pub struct KeyValues<'a> {
    set: &'a AttributeSet,
    key: AttributeKey,
    indices: Range<usize>,
}

impl<'a> Iterator for KeyValues<'a> {
    type Item = &'a AttributeValue;

    fn next(&mut self) -> Option<&'a AttributeValue> {
        let index = self.indices.next()?;
        self.set.key_value(&self.key, index)
    }

    fn size_hint(&self) -> (usize, Option<usize>) {
        self.indices.size_hint()
    }
}

impl ExactSizeIterator for KeyValues<'_> {}

impl FusedIterator for KeyValues<'_> {}

/// The attributes in their order.
impl Deref for AttributeSet {
    type Target = [Attribute];

    fn deref(&self) -> &[Attribute] {
        &self.attributes
    }
}

/// The attributes of a set that was taken apart, in their order.
///
#[doc = example!(attributes)]
/// let pairs: IntoIter = set.into_iter();
/// assert!(pairs.eq([Attribute::new(&site, &east), Attribute::new(&site, &north)]));
#[doc = example!(end)]
pub type IntoIter = Entries<Attribute>;

impl IntoIterator for AttributeSet {
    type Item = Attribute;
    type IntoIter = IntoIter;

    fn into_iter(self) -> IntoIter {
        self.attributes.into_iter().collect()
    }
}

impl<'a> IntoIterator for &'a AttributeSet {
    type Item = &'a Attribute;
    type IntoIter = slice::Iter<'a, Attribute>;

    fn into_iter(self) -> Self::IntoIter {
        self.iter()
    }
}
