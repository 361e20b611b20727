//! Short texts that are copied by value.

use crate::display::{choices, padded};
use crate::plain::Plain;
use crate::sys;
use std::cmp::Ordering;
use std::error::Error;
use std::fmt;
use std::hash::{Hash, Hasher};

/// The capacity of a short text in bytes: enough for each text that the library takes, which says
/// itself how long each kind may be.
const CAPACITY: usize = 256;

/// A text that the library took.
#[derive(Clone, Copy)]
pub(crate) struct Text {
    bytes: [u8; CAPACITY],
    length: u16,
}

impl Text {
    /// The empty text.
    pub(crate) const EMPTY: Text = Text {
        bytes: [0; CAPACITY],
        length: 0,
    };

    /// A copy of a text that the library took. Panics where it does not fit.
    pub(crate) fn copy_of(text: &str) -> Self {
        let mut bytes = [0; CAPACITY];
        bytes[..text.len()].copy_from_slice(text.as_bytes());
        Text {
            bytes,
            length: u16::try_from(text.len()).expect("the text fits"),
        }
    }

    pub(crate) fn as_str(&self) -> &str {
        std::str::from_utf8(&self.bytes[..usize::from(self.length)])
            .expect("the bytes are those of a text")
    }
}

impl PartialEq for Text {
    fn eq(&self, other: &Self) -> bool {
        self.as_str() == other.as_str()
    }
}

impl Eq for Text {}

impl PartialOrd for Text {
    fn partial_cmp(&self, other: &Self) -> Option<Ordering> {
        Some(self.cmp(other))
    }
}

impl Ord for Text {
    fn cmp(&self, other: &Self) -> Ordering {
        self.as_str().cmp(other.as_str())
    }
}

impl Hash for Text {
    fn hash<H: Hasher>(&self, state: &mut H) {
        self.as_str().hash(state);
    }
}

/// Shows a type with `as_str` as its text, lends it as one, and compares it with texts.
macro_rules! shown_as_text {
    ($({$($generics:tt)*})? $name:ty) => {
        impl$(<$($generics)*>)? ::std::fmt::Display for $name {
            fn fmt(&self, f: &mut ::std::fmt::Formatter<'_>) -> ::std::fmt::Result {
                f.pad(self.as_str())
            }
        }

        impl$(<$($generics)*>)? ::std::fmt::Debug for $name {
            fn fmt(&self, f: &mut ::std::fmt::Formatter<'_>) -> ::std::fmt::Result {
                ::std::fmt::Debug::fmt(self.as_str(), f)
            }
        }

        impl$(<$($generics)*>)? AsRef<str> for $name {
            fn as_ref(&self) -> &str {
                self.as_str()
            }
        }

        /// It is compared and hashed as its text, so a map finds it by that.
        impl$(<$($generics)*>)? ::std::borrow::Borrow<str> for $name {
            fn borrow(&self) -> &str {
                self.as_str()
            }
        }

        $crate::text::compared_with!($({$($generics)*})? $name, str);
        $crate::text::compared_with!($({$($generics)*})? $name, &str);
        $crate::text::compared_with!($({$($generics)*})? $name, String);
    };
}
pub(crate) use shown_as_text;

/// Makes a type of a `String` and of a text that is parsed, by what makes it of a `&str`.
macro_rules! made_of_texts {
    ($({$($generics:tt)*})? $name:ty: $error:ty, |$text:ident| $made:expr) => {
        impl$(<$($generics)*>)? TryFrom<String> for $name {
            type Error = $error;

            /// As it is parsed.
            fn try_from(text: String) -> Result<Self, $error> {
                text.parse()
            }
        }

        impl$(<$($generics)*>)? ::std::str::FromStr for $name {
            type Err = $error;

            fn from_str($text: &str) -> Result<Self, $error> {
                $made
            }
        }
    };
}
pub(crate) use made_of_texts;

/// Compares a type with `as_str` with another type of texts, both ways.
macro_rules! compared_with {
    ($({$($generics:tt)*})? $name:ty, $other:ty) => {
        impl$(<$($generics)*>)? PartialEq<$other> for $name {
            fn eq(&self, other: &$other) -> bool {
                self.as_str() == AsRef::<str>::as_ref(other)
            }
        }

        impl$(<$($generics)*>)? PartialEq<$name> for $other {
            fn eq(&self, other: &$name) -> bool {
                other == self
            }
        }
    };
}
pub(crate) use compared_with;

choices! {
    /// Why a text is refused.
    ///
    /// ```
    /// use iox2sd::semantic_string::TextCause;
    /// assert_eq!(TextCause::Empty.to_string(), "the text is empty");
    /// ```
    #[non_exhaustive]
    TextCause of u32 in "semantic_string" {
        /// It has no byte.
        Empty = IOX2SD_STATUS_EMPTY, "the text is empty";
        /// It has more bytes than its kind allows.
        TooLong = IOX2SD_STATUS_TOO_LONG, "the text is too long";
        /// It has a byte that its kind does not allow.
        IllegalByte = IOX2SD_STATUS_ILLEGAL_BYTE, "a byte may not stand in the text";
        /// It is no name of a file, or does not end in one: it is `.` or `..`, or ends in `/`.
        NoFileName = IOX2SD_STATUS_NO_FILE_NAME, "not the name of a file";
        /// It begins with the prefix of the system's own services.
        ReservedPrefix = IOX2SD_STATUS_RESERVED_PREFIX, "the name begins with a reserved prefix";
    }
}

/// Why a text is refused, and where.
///
/// ```
/// use iox2sd::attribute::AttributeKey;
/// use iox2sd::semantic_string::{SemanticStringError, TextCause};
///
/// let fault = AttributeKey::check(b"si\0te").unwrap_err();
/// assert_eq!((fault.cause, fault.at), (TextCause::IllegalByte, 2));
/// assert_eq!(fault.to_string(), "a byte may not stand in the text, at byte 2");
/// assert_eq!(SemanticStringError::from(fault), SemanticStringError::InvalidContent);
/// ```
#[derive(Clone, Copy, Debug, PartialEq, Eq, Hash)]
#[non_exhaustive]
pub struct TextFault {
    /// Why it is refused.
    pub cause: TextCause,
    /// The index of the first byte that is not allowed, or that is one too many; 0 where the cause
    /// is of the whole text.
    pub at: usize,
}

impl TextFault {
    /// The answer of a check: the fault, if there is one.
    pub(crate) fn checked(answer: &sys::iox2sd_place_answer) -> Result<(), Self> {
        if answer.status == sys::IOX2SD_STATUS_DONE {
            return Ok(());
        }
        Err(TextFault {
            cause: TextCause::of_c(&answer.status),
            at: answer.at,
        })
    }
}

impl fmt::Display for TextFault {
    fn fmt(&self, f: &mut fmt::Formatter<'_>) -> fmt::Result {
        let TextFault { cause, at } = self;
        match cause {
            TextCause::TooLong | TextCause::IllegalByte => {
                padded(f, format_args!("{cause}, at byte {at}"))
            }
            whole => whole.fmt(f),
        }
    }
}

impl Error for TextFault {}
