//! The types of the parts of messages, where these lie, and the layout of a message.
//!
#![doc = example!(types)]
//! let layout = details.sample_layout(100)?;
//! assert!(layout.size() >= 8 + 4 + 100 && layout.align() == 8);
//! assert_eq!(details.user_header_ptr_from_header(4096)?, 4104);
//! assert_eq!(details.payload_ptr_from_header(4096)?, 4108);
#![doc = example!(end)]

use crate::display::{choices, error_by_path, errors, getters, padded};
use crate::library;
use crate::plain::Plain;
use crate::semantic_string::StringModificationError;
use crate::sys;
use crate::text::{made_of_texts, shown_as_text, Text};
use std::alloc::Layout;
use std::any::type_name;
use std::error::Error;
use std::fmt;
use std::mem::{align_of, size_of};

choices! {
    /// How many values of a type a message has.
    ///
    /// ```
    /// use iox2sd::static_config::message_type_details::TypeVariant;
    ///
    /// assert_eq!(TypeVariant::default(), TypeVariant::FixedSize);
    /// assert_eq!(TypeVariant::Dynamic.to_string(), "Dynamic");
    /// ```
    #[derive(Default)]
    TypeVariant of u32 in "static_config::message_type_details" {
        /// One.
        #[default]
        FixedSize = IOX2SD_VARIANT_FIXED_SIZE;
        /// A number that is known only at run time, one after another.
        Dynamic = IOX2SD_VARIANT_DYNAMIC;
    }
}

/// The name of a type. The default is the empty one.
///
/// ```
/// use iox2sd::semantic_string::StringModificationError;
/// use iox2sd::static_config::message_type_details::TypeName;
///
/// assert_eq!(TypeName::try_from("u64")?, "u64");
/// assert_eq!(TypeName::try_from("Größe"), Err(StringModificationError::InvalidCharacter));
/// # Ok::<(), StringModificationError>(())
/// ```
#[derive(Clone, Copy, PartialEq, Eq, PartialOrd, Ord, Hash)]
pub struct TypeName {
    text: Text,
}

impl TypeName {
    /// The text of the name.
    ///
    /// ```
    /// use iox2sd::static_config::message_type_details::TypeName;
    ///
    /// assert_eq!(TypeName::try_from("u64")?.as_str(), "u64");
    /// assert_eq!(TypeName::default().as_str(), "");
    /// # Ok::<(), Box<dyn std::error::Error>>(())
    /// ```
    #[must_use]
    pub fn as_str(&self) -> &str {
        self.text.as_str()
    }
}

impl Default for TypeName {
    fn default() -> Self {
        TypeName { text: Text::EMPTY }
    }
}

impl TryFrom<&str> for TypeName {
    type Error = StringModificationError;

    /// The name of a type, which may be empty.
    ///
    /// # Errors
    ///
    /// Refused are more than 256 bytes
    /// ([`InsertWouldExceedCapacity`](StringModificationError::InsertWouldExceedCapacity)), and
    /// then a byte that is not from 1 to 127
    /// ([`InvalidCharacter`](StringModificationError::InvalidCharacter)).
    fn try_from(name: &str) -> Result<Self, StringModificationError> {
        match library::check_type_name(name) {
            sys::IOX2SD_STATUS_DONE => Ok(TypeName {
                text: Text::copy_of(name),
            }),
            refusal => Err(StringModificationError::of(refusal)),
        }
    }
}

made_of_texts!(TypeName: StringModificationError, |name| Self::try_from(name));
shown_as_text!(TypeName);

/// Why there are no details of a type.
///
#[doc = example!(types)]
/// let refused = TypeDetail::from_parts(TypeVariant::FixedSize, "Größe", 8, 3).unwrap_err();
/// assert_eq!(refused.to_string(), "TypeDetailError::Name(InvalidCharacter)");
#[doc = example!(end)]
#[derive(Clone, Copy, Debug, PartialEq, Eq, Hash)]
#[non_exhaustive]
pub enum TypeDetailError {
    /// The text is no name of a type.
    Name(StringModificationError),
    /// The alignment is no power of two. This is reported after what is wrong with the name.
    AlignmentNotPowerOfTwo,
}

error_by_path!(TypeDetailError);

/// What a service knows of a type: its name, how many of its values a message has, their size in
/// bytes, and their alignment.
///
/// The alignment is a power of two, but for the default details, which stand where none were given:
/// their alignment and size are 0, and their name is empty.
///
#[doc = example!(types)]
/// assert_eq!(details.header, TypeDetail::from_parts(TypeVariant::FixedSize, "u64", 8, 8)?);
/// assert_eq!(TypeDetail::default().alignment(), 0);
#[doc = example!(end)]
#[derive(Clone, Copy, Debug, Default, PartialEq, Eq, Hash)]
pub struct TypeDetail {
    variant: TypeVariant,
    type_name: TypeName,
    size: usize,
    alignment: usize,
}

impl TypeDetail {
    /// The details of the type `T`: what [`type_name`], [`size_of`] and [`align_of`] say.
    ///
    /// # Errors
    ///
    /// Refused with [`TypeDetailError::Name`] where the name of `T` is no name of a type here: it
    /// is too long, or not plain ASCII. [`TypeDetail::from_parts`] takes a name of the caller's.
    ///
    /// # Examples
    ///
    #[doc = example!(types)]
    /// let detail = TypeDetail::new::<u32>(TypeVariant::FixedSize)?;
    /// assert_eq!(detail, details.user_header);
    /// assert_eq!((detail.type_name().as_str(), detail.size()), ("u32", 4));
    #[doc = example!(end)]
    pub fn new<T>(variant: TypeVariant) -> Result<Self, TypeDetailError> {
        Self::from_parts(variant, type_name::<T>(), size_of::<T>(), align_of::<T>())
    }

    /// The details with these parts.
    ///
    /// # Errors
    ///
    /// Refused are a name that is none, and then an alignment that is no power of two.
    ///
    /// # Examples
    ///
    #[doc = example!(types)]
    /// details.payload = TypeDetail::from_parts(TypeVariant::Dynamic, "Point3", 12, 4)?;
    /// let refused = TypeDetail::from_parts(TypeVariant::Dynamic, "Point3", 12, 3);
    /// assert_eq!(refused, Err(TypeDetailError::AlignmentNotPowerOfTwo));
    #[doc = example!(end)]
    pub fn from_parts(
        variant: TypeVariant,
        type_name: &str,
        size: usize,
        alignment: usize,
    ) -> Result<Self, TypeDetailError> {
        let detail = TypeDetail {
            variant,
            type_name: TypeName::try_from(type_name).map_err(TypeDetailError::Name)?,
            size,
            alignment,
        };
        match library::check_type(&detail) {
            sys::IOX2SD_STATUS_DONE => Ok(detail),
            sys::IOX2SD_STATUS_BAD_ALIGNMENT => Err(TypeDetailError::AlignmentNotPowerOfTwo),
            other => library::unexpected(other),
        }
    }

    getters! {
        {
            /// use iox2sd::static_config::message_type_details::{TypeDetail, TypeVariant};
            ///
            /// let (variant, name, size, alignment) = (TypeVariant::Dynamic, "Point", 12, 4);
            /// let detail = TypeDetail::from_parts(variant, name, size, alignment)?;
        }
        /// How many values of the type a message has.
        variant -> TypeVariant = |detail| detail.variant,
            "detail.variant(), variant";
        /// The name of the type.
        type_name -> &TypeName = |detail| &detail.type_name, "detail.type_name(), &name";
        /// How many bytes a value takes.
        size -> usize = |detail| detail.size, "detail.size(), size";
        /// The alignment of each value: a power of two, or 0 in the default details.
        alignment -> usize = |detail| detail.alignment, "detail.alignment(), alignment";
    }
}

/// The types of the parts of a message, which lie one after another.
///
#[doc = example!(types)]
/// details.user_header = details.header;
/// assert_eq!(details, MessageTypeDetails::from::<u64, u64, u8>(TypeVariant::Dynamic)?);
#[doc = example!(end)]
#[derive(Clone, Copy, Debug, Default, PartialEq, Eq, Hash)]
pub struct MessageTypeDetails {
    /// The type of the header, which belongs to the system.
    pub header: TypeDetail,
    /// The type of the user header.
    pub user_header: TypeDetail,
    /// The type of the elements of the payload.
    pub payload: TypeDetail,
}

errors! {
    /// Why a message has no layout or no offsets.
    ///
    #[doc = example!(types)]
    /// let refused = MessageTypeDetails::default().sample_layout(1).unwrap_err();
    /// assert_eq!(refused.to_string(), "LayoutError::DetailsNotGiven");
    #[doc = example!(end)]
    #[non_exhaustive]
    LayoutError {
        /// The details of a part were not given: they are the default ones.
        DetailsNotGiven = IOX2SD_STATUS_BAD_ALIGNMENT,
        /// A message would need more than 2^63 - 1 bytes, or the offset of its payload would pass
        /// 2^64 - 1.
        TooLarge = IOX2SD_STATUS_TOO_LARGE,
    }
}

impl MessageTypeDetails {
    /// The details of a message with one `Header`, one `UserHeader` and so many `Payload` as the
    /// variant says.
    ///
    /// # Errors
    ///
    /// Refused as [`TypeDetail::new`] is, of the first part that is.
    ///
    /// # Examples
    ///
    #[doc = example!(types)]
    /// assert_eq!((details.header.alignment(), details.user_header.size()), (8, 4));
    /// assert_eq!(details.payload.type_name(), &"u8");
    #[doc = example!(end)]
    pub fn from<Header, UserHeader, Payload>(
        payload_variant: TypeVariant,
    ) -> Result<Self, TypeDetailError> {
        Ok(MessageTypeDetails {
            header: TypeDetail::new::<Header>(TypeVariant::FixedSize)?,
            user_header: TypeDetail::new::<UserHeader>(TypeVariant::FixedSize)?,
            payload: TypeDetail::new::<Payload>(payload_variant)?,
        })
    }

    /// Those of a message that has one type in each part, of which the header is compared first.
    pub(super) fn of_one(detail: &TypeDetail) -> Self {
        MessageTypeDetails {
            header: *detail,
            user_header: *detail,
            payload: *detail,
        }
    }

    /// Whether the details of all parts were given.
    ///
    #[doc = example!(types)]
    /// assert!(details.has_alignments() && !MessageTypeDetails::default().has_alignments());
    #[doc = example!(end)]
    #[must_use]
    pub fn has_alignments(&self) -> bool {
        library::layout(self, 0) != Err(sys::IOX2SD_STATUS_BAD_ALIGNMENT)
    }

    /// Whether a message with its header at the offset `header` has an offset for its payload.
    ///
    #[doc = example!(types)]
    /// assert!(details.has_places(4096) && !details.has_places(usize::MAX));
    #[doc = example!(end)]
    #[must_use]
    pub fn has_places(&self, header: usize) -> bool {
        library::places(self, header).is_ok()
    }

    /// The offset of the user header in a message with its header at the offset `header`, by the
    /// service's details. Offsets are numbers: nothing is read there.
    ///
    /// # Errors
    ///
    /// Refused where the details of a part were not given, and where the offset of the payload
    /// would pass 2^64 - 1.
    ///
    /// # Examples
    ///
    #[doc = example!(types)]
    /// assert_eq!(details.user_header_ptr_from_header(8), Ok(16));
    /// let refused = details.user_header_ptr_from_header(usize::MAX);
    /// assert_eq!(refused, Err(LayoutError::TooLarge));
    #[doc = example!(end)]
    pub fn user_header_ptr_from_header(&self, header: usize) -> Result<usize, LayoutError> {
        let (user_header, _) = library::places(self, header).map_err(LayoutError::of)?;
        Ok(user_header)
    }

    /// The offset of the payload in a message with its header at the offset `header`, by the
    /// service's details.
    ///
    /// # Errors
    ///
    /// Refused as [`user_header_ptr_from_header`](Self::user_header_ptr_from_header) is.
    ///
    /// # Examples
    ///
    #[doc = example!(types)]
    /// assert_eq!(details.payload_ptr_from_header(4096)?, 4108);
    #[doc = example!(end)]
    pub fn payload_ptr_from_header(&self, header: usize) -> Result<usize, LayoutError> {
        let (_, payload) = library::places(self, header).map_err(LayoutError::of)?;
        Ok(payload)
    }

    /// The layout of a message whose payload has so many elements.
    ///
    /// Wherever the header begins at a multiple of its alignment, all parts lie inside the layout,
    /// apart and aligned, for the service and for every compatible opener. The same holds of
    /// messages that lie end to end. A smaller layout may be possible.
    ///
    /// Call it on the service's details: those of an opener, with smaller alignments, give other
    /// offsets and smaller sizes.
    ///
    /// # Errors
    ///
    /// Refused where the details of a part were not given, and where it would pass 2^63 - 1 bytes.
    ///
    /// # Examples
    ///
    #[doc = example!(types)]
    /// assert!(details.sample_layout(2)?.size() >= 14);
    /// assert_eq!(details.sample_layout(usize::MAX), Err(LayoutError::TooLarge));
    /// let none = MessageTypeDetails::default();
    /// assert_eq!(none.sample_layout(2), Err(LayoutError::DetailsNotGiven));
    #[doc = example!(end)]
    pub fn sample_layout(&self, number_of_elements: usize) -> Result<Layout, LayoutError> {
        let (size, alignment) =
            library::layout(self, number_of_elements).map_err(LayoutError::of)?;
        Layout::from_size_align(size, alignment).map_err(|_| LayoutError::TooLarge)
    }

    /// Whether an opener with these details may use the messages of a service with the details
    /// `rhs`: [`check_compatible_to`](Self::check_compatible_to) refuses nothing.
    ///
    #[doc = example!(types)]
    /// let opener = MessageTypeDetails::from::<u64, u32, i8>(TypeVariant::Dynamic)?;
    /// assert!(opener.is_compatible_to(&opener) && !opener.is_compatible_to(&details));
    #[doc = example!(end)]
    #[must_use]
    pub fn is_compatible_to(&self, rhs: &Self) -> bool {
        self.check_compatible_to(rhs).is_ok()
    }

    /// Whether an opener with these details may use the messages of a service with the details
    /// `rhs`: the headers are equal, and user headers and payloads are equal but for their
    /// alignments, which are at most those of the service.
    ///
    /// # Errors
    ///
    /// Refused with the first part that keeps the opener out, and why. Details that were not given
    /// keep everybody out, and that is reported first.
    ///
    /// # Examples
    ///
    #[doc = example!(types)]
    /// let opener = MessageTypeDetails::from::<u64, u32, i8>(TypeVariant::Dynamic)?;
    /// let refused = opener.check_compatible_to(&details).unwrap_err();
    /// assert_eq!(refused.part, MessagePart::Payload);
    /// assert_eq!(refused.cause, IncompatibilityCause::OtherName);
    #[doc = example!(end)]
    pub fn check_compatible_to(&self, rhs: &Self) -> Result<(), Incompatibility> {
        let answer = library::compatible(self, rhs);
        if answer.status == sys::IOX2SD_STATUS_DONE {
            return Ok(());
        }
        Err(Incompatibility {
            part: MessagePart::of_c(&answer.part),
            cause: IncompatibilityCause::of_c(&answer.status),
        })
    }
}

choices! {
    /// A part of a message, which prints in words.
    ///
    /// ```
    /// use iox2sd::static_config::message_type_details::MessagePart;
    /// assert_eq!(MessagePart::UserHeader.to_string(), "user header");
    /// ```
    MessagePart of u32 in "static_config::message_type_details" {
        /// The header, which belongs to the system.
        Header = IOX2SD_PART_HEADER, "header";
        /// The user header.
        UserHeader = IOX2SD_PART_USER_HEADER, "user header";
        /// The payload.
        Payload = IOX2SD_PART_PAYLOAD, "payload";
    }
}

choices! {
    /// What of a part keeps an opener out: what the part has, in words.
    ///
    /// ```
    /// use iox2sd::static_config::message_type_details::IncompatibilityCause;
    /// assert_eq!(IncompatibilityCause::OtherName.to_string(), "another type name");
    /// ```
    #[non_exhaustive]
    IncompatibilityCause of u32 in "static_config::message_type_details" {
        /// Its details were not given, by the opener or by the service.
        DetailsNotGiven = IOX2SD_STATUS_BAD_ALIGNMENT, "no details";
        /// The names of the types differ.
        OtherName = IOX2SD_STATUS_OTHER_NAME, "another type name";
        /// The numbers of values differ: one, and any number.
        OtherVariant = IOX2SD_STATUS_OTHER_VARIANT, "another variant";
        /// The sizes differ.
        OtherSize = IOX2SD_STATUS_OTHER_SIZE, "another size";
        /// The alignments of the headers differ.
        OtherAlignment = IOX2SD_STATUS_OTHER_ALIGNMENT, "another alignment";
        /// The opener's alignment is greater than the service's.
        GreaterAlignment = IOX2SD_STATUS_GREATER_ALIGNMENT, "a greater alignment than the service's";
    }
}

/// Why an opener may not use the messages of a service.
///
#[doc = example!(types)]
/// let opener = MessageTypeDetails::from::<u64, i32, u8>(TypeVariant::Dynamic)?;
/// let refused = opener.check_compatible_to(&details).unwrap_err();
/// assert_eq!(refused.to_string(), "the user header has another type name");
#[doc = example!(end)]
#[derive(Clone, Copy, Debug, PartialEq, Eq, Hash)]
pub struct Incompatibility {
    /// The first part that keeps it out.
    pub part: MessagePart,
    /// What of the part does.
    pub cause: IncompatibilityCause,
}

impl fmt::Display for Incompatibility {
    fn fmt(&self, f: &mut fmt::Formatter<'_>) -> fmt::Result {
        padded(f, format_args!("the {} has {}", self.part, self.cause))
    }
}

impl Error for Incompatibility {}
