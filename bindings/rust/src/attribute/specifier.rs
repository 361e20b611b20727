use super::{AttributeDefinitionError, AttributeKey, AttributeSet, AttributeValue};

/// The attributes that a service is created with.
///
/// ```
/// use iox2sd::attribute::AttributeSpecifier;
///
/// let specifier = AttributeSpecifier::new()
///     .define(&"site".try_into()?, &"north".try_into()?)?
///     .define(&"robot".try_into()?, &"r2".try_into()?)?;
/// assert_eq!(specifier.attributes()[0].key(), "robot");
/// # Ok::<(), Box<dyn std::error::Error>>(())
/// ```
#[derive(Clone, Debug, Default, PartialEq, Eq, Hash)]
pub struct AttributeSpecifier {
    attributes: AttributeSet,
}

impl AttributeSpecifier {
    /// A specifier without attributes.
    ///
    /// ```
    /// use iox2sd::attribute::AttributeSpecifier;
    /// assert!(AttributeSpecifier::new().attributes().is_empty());
    /// ```
    #[must_use]
    pub fn new() -> Self {
        Self::default()
    }

    /// Defines a value of a key too. A key may have several.
    ///
    /// # Errors
    ///
    /// Refused where there are [`AttributeSet::capacity`] already, and then the specifier is spent.
    ///
    /// # Examples
    ///
    #[doc = example!(attributes)]
    /// let specifier = AttributeSpecifier::new().define(&site, &north)?;
    /// assert_eq!(specifier.attributes().number_of_attributes(), 1);
    #[doc = example!(end)]
    pub fn define(
        mut self,
        key: &AttributeKey,
        value: &AttributeValue,
    ) -> Result<Self, AttributeDefinitionError> {
        self.attributes.add(key, value)?;
        Ok(self)
    }

    /// The attributes.
    ///
    #[doc = example!(attributes)]
    /// let specifier = AttributeSpecifier::new().define(&site, &north)?.define(&site, &east)?;
    /// assert_eq!(specifier.attributes(), &set);
    #[doc = example!(end)]
    #[must_use]
    pub fn attributes(&self) -> &AttributeSet {
        &self.attributes
    }
}
