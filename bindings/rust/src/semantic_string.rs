//! Texts with a meaning, which allows some contents alone.
//!
//! Their kinds are [`AttributeKey`](crate::attribute::AttributeKey),
//! [`AttributeValue`](crate::attribute::AttributeValue), and those of [`paths`](crate::paths).
//!
//! ```
//! use iox2sd::attribute::AttributeKey;
//! use iox2sd::semantic_string::SemanticStringError;
//!
//! let key = AttributeKey::new(b"site")?;
//! assert_eq!(key.as_str(), "site");
//! assert_eq!(AttributeKey::new(b"\0"), Err(SemanticStringError::InvalidContent));
//! # Ok::<(), SemanticStringError>(())
//! ```

use crate::display::{errors, getters};
use crate::plain::Plain;
use crate::text::{made_of_texts, shown_as_text, Text};
pub use crate::text::{TextCause, TextFault};
use std::marker::PhantomData;

errors! {
    /// Why a text is no semantic string.
    ///
    /// ```
    /// use iox2sd::paths::FileName;
    /// use iox2sd::semantic_string::SemanticStringError;
    ///
    /// let refused = FileName::new(b"a/b").unwrap_err();
    /// assert_eq!(refused, SemanticStringError::InvalidContent);
    /// assert_eq!(refused.to_string(), "SemanticStringError::InvalidContent");
    /// ```
    SemanticStringError {
        /// The text is empty, or has a byte or a form, that its kind does not allow.
        InvalidContent = IOX2SD_STATUS_EMPTY | IOX2SD_STATUS_ILLEGAL_BYTE | IOX2SD_STATUS_NO_FILE_NAME,
        /// The text has more bytes than its kind allows. This is reported before an illegal byte.
        ExceedsMaximumLength = IOX2SD_STATUS_TOO_LONG,
    }
}

impl From<TextFault> for SemanticStringError {
    fn from(fault: TextFault) -> Self {
        SemanticStringError::of(fault.cause.as_c())
    }
}

errors! {
    /// Why a text of a type's name was not made.
    ///
    /// ```
    /// use iox2sd::semantic_string::StringModificationError;
    /// use iox2sd::static_config::message_type_details::TypeName;
    ///
    /// let refused = TypeName::try_from("a".repeat(257).as_str()).unwrap_err();
    /// assert_eq!(refused, StringModificationError::InsertWouldExceedCapacity);
    /// ```
    StringModificationError {
        /// The text has too many bytes. This is reported before an illegal byte.
        InsertWouldExceedCapacity = IOX2SD_STATUS_TOO_LONG,
        /// The text has a byte that is not from 1 to 127.
        InvalidCharacter = IOX2SD_STATUS_ILLEGAL_BYTE,
    }
}

/// A kind of semantic strings. The kinds are those of this crate.
///
/// ```
/// use iox2sd::semantic_string::{Content, SemanticString};
///
/// fn longest<C: Content>(texts: &[SemanticString<C>]) -> usize {
///     texts.iter().map(SemanticString::len).max().unwrap_or_default()
/// }
/// let keys = ["site".try_into()?, "robot".try_into()?];
/// assert_eq!(longest::<iox2sd::attribute::AttributeKeyContent>(&keys), 5);
/// # Ok::<(), iox2sd::semantic_string::SemanticStringError>(())
/// ```
pub trait Content: kind::Kind {}

impl<K: kind::Kind> Content for K {}

pub(crate) mod kind {
    use crate::sys;
    use std::fmt::Debug;
    use std::hash::Hash;

    /// A kind of semantic strings, by the check of the library.
    pub trait Kind: Copy + Debug + Ord + Hash {
        #[doc(hidden)]
        fn check(text: &[u8]) -> sys::iox2sd_place_answer;

        #[doc(hidden)]
        const CAPACITY: usize;
    }

    /// Defines a kind and its texts, by the check that the library makes, by the most bytes that it
    /// lets through, and by a text that the kind allows and one that it does not.
    macro_rules! kind {
        (
            $module:literal $good:literal $bad:literal $check:ident $capacity:ident
            $(#[$allowed:meta])*
            $content:ident
            $(#[$documentation:meta])*
            $name:ident
        ) => {
            $(#[$allowed])*
            ///
            /// ```
            /// use iox2sd::semantic_string::SemanticString;
            #[doc = concat!("use iox2sd::", $module, "::", stringify!($content), ";")]
            ///
            #[doc = concat!(
                "assert!(SemanticString::<", stringify!($content), ">::new(b\"", $good,
                "\").is_ok());"
            )]
            #[doc = concat!(
                "assert!(SemanticString::<", stringify!($content), ">::new(b\"", $bad,
                "\").is_err());"
            )]
            /// ```
            #[derive(Clone, Copy, Debug, PartialEq, Eq, PartialOrd, Ord, Hash)]
            pub enum $content {}

            impl $crate::semantic_string::kind::Kind for $content {
                fn check(text: &[u8]) -> $crate::sys::iox2sd_place_answer {
                    $crate::library::$check(text)
                }

                const CAPACITY: usize = $crate::limits::$capacity;
            }

            $(#[$documentation])*
            ///
            /// ```
            #[doc = concat!("use iox2sd::", $module, "::", stringify!($name), ";")]
            ///
            #[doc = concat!("assert_eq!(", stringify!($name), "::new(b\"", $good, "\")?, \"", $good, "\");")]
            #[doc = concat!("assert!(", stringify!($name), "::new(b\"", $bad, "\").is_err());")]
            /// # Ok::<(), iox2sd::semantic_string::SemanticStringError>(())
            /// ```
            pub type $name = SemanticString<$content>;
        };
    }
    pub(crate) use kind;
}

/// A text that the kind `C` allows, copied by value. Texts are compared by their bytes.
///
/// ```
/// use iox2sd::attribute::AttributeKey;
/// use iox2sd::semantic_string::SemanticStringError;
///
/// let key = AttributeKey::new(b"site")?;
/// assert_eq!(key, "site");
/// assert_eq!("site".try_into(), Ok(key));
/// assert_eq!(AttributeKey::new(b""), Err(SemanticStringError::InvalidContent));
/// # Ok::<(), SemanticStringError>(())
/// ```
#[derive(Clone, Copy, PartialEq, Eq, PartialOrd, Ord, Hash)]
pub struct SemanticString<C: Content> {
    text: Text,
    kind: PhantomData<fn() -> C>,
}

impl<C: Content> SemanticString<C> {
    /// The semantic string of these bytes.
    ///
    /// # Errors
    ///
    /// Refused are, in this order, no byte at all where the kind does not allow that
    /// ([`InvalidContent`](SemanticStringError::InvalidContent)), more bytes than
    /// [`capacity`](Self::capacity)
    /// ([`ExceedsMaximumLength`](SemanticStringError::ExceedsMaximumLength)), and another content
    /// that is not allowed: a byte that is not from 1 to 127, or what the kind forbids
    /// ([`InvalidContent`](SemanticStringError::InvalidContent)).
    ///
    /// # Examples
    ///
    /// ```
    /// use iox2sd::attribute::AttributeValue;
    /// use iox2sd::semantic_string::SemanticStringError;
    ///
    /// assert_eq!(AttributeValue::new(b"north")?, "north");
    /// let long = [b'a'; 300];
    /// assert_eq!(AttributeValue::new(&long), Err(SemanticStringError::ExceedsMaximumLength));
    /// # Ok::<(), SemanticStringError>(())
    /// ```
    pub fn new(bytes: &[u8]) -> Result<Self, SemanticStringError> {
        Self::check(bytes)?;
        // The library takes bytes up to 127 alone, which are UTF-8.
        let text = std::str::from_utf8(bytes).map_err(|_| SemanticStringError::InvalidContent)?;
        Ok(Self::of_legal(text))
    }

    /// Whether these bytes are such a text.
    ///
    /// # Errors
    ///
    /// Refused as by [`SemanticString::new`], with the cause and the index of the byte.
    ///
    /// # Examples
    ///
    /// ```
    /// use iox2sd::paths::FileName;
    /// use iox2sd::semantic_string::TextCause;
    ///
    /// assert_eq!(FileName::check(b"iceoryx2.toml"), Ok(()));
    /// let fault = FileName::check(b"config/iceoryx2.toml").unwrap_err();
    /// assert_eq!((fault.cause, fault.at), (TextCause::IllegalByte, 6));
    /// ```
    pub fn check(bytes: &[u8]) -> Result<(), TextFault> {
        TextFault::checked(&C::check(bytes))
    }

    /// The semantic string of a text that the library made or took.
    pub(crate) fn of_legal(text: &str) -> Self {
        SemanticString {
            text: Text::copy_of(text),
            kind: PhantomData,
        }
    }

    getters! {
        {
            /// use iox2sd::paths::Path;
            ///
            /// let text: Path = "robot".parse()?;
        }
        /// The text.
        as_str -> &str = |text| text.text.as_str(), "text.as_str(), \"robot\"";
        /// The bytes of the text.
        as_bytes -> &[u8] = |text| text.as_str().as_bytes(), "text.as_bytes(), b\"robot\"";
        /// The number of bytes.
        len -> usize = |text| text.as_bytes().len(), "text.len(), text.as_bytes().len()";
        /// Whether there is no byte.
        is_empty -> bool = |text| text.as_bytes().is_empty(), "text.is_empty(), false";
    }

    /// The greatest number of bytes of this kind.
    ///
    /// ```
    /// use iox2sd::attribute::AttributeKey;
    /// assert_eq!(AttributeKey::capacity(), 64);
    /// ```
    #[must_use]
    pub const fn capacity() -> usize {
        C::CAPACITY
    }
}

impl<C: Content> TryFrom<&str> for SemanticString<C> {
    type Error = SemanticStringError;

    /// As [`SemanticString::new`] of the text's bytes.
    fn try_from(text: &str) -> Result<Self, SemanticStringError> {
        Self::new(text.as_bytes())
    }
}

made_of_texts!({C: Content} SemanticString<C>: SemanticStringError, |text| Self::new(text.as_bytes()));
shown_as_text!({C: Content} SemanticString<C>);
