//! The names of services.
//!
//! ```
//! use iox2sd::service_name::ServiceName;
//!
//! let name = ServiceName::new("My/Funk/ServiceName")?;
//! assert_eq!(name, "My/Funk/ServiceName");
//! # Ok::<(), iox2sd::service_name::ServiceNameError>(())
//! ```

use crate::display::errors;
use crate::library;
use crate::limits;
use crate::plain::Plain;
use crate::text::{made_of_texts, shown_as_text, Text, TextFault};
use std::ops::Deref;

/// What the names of the system's own services begin with.
///
/// ```
/// use iox2sd::service_name::{ServiceName, INTERNAL_SERVICE_PREFIX};
///
/// assert!(ServiceName::has_iox2_prefix(INTERNAL_SERVICE_PREFIX));
/// assert_eq!(ServiceName::internal_new_prefixed("")?, INTERNAL_SERVICE_PREFIX);
/// # Ok::<(), iox2sd::service_name::ServiceNameError>(())
/// ```
pub const INTERNAL_SERVICE_PREFIX: &str = limits::INTERNAL_SERVICE_PREFIX;

errors! {
    /// Why a text is no service name.
    ///
    /// ```
    /// use iox2sd::service_name::{ServiceName, ServiceNameError};
    ///
    /// let refused = ServiceName::new("lidar\0front").unwrap_err();
    /// assert_eq!(refused, ServiceNameError::InvalidContent);
    /// assert_eq!(refused.to_string(), "ServiceNameError::InvalidContent");
    /// ```
    ServiceNameError {
        /// The name is empty, has a byte that is not from 1 to 127, or begins with the prefix of the
        /// system's own services where that is refused.
        InvalidContent = IOX2SD_STATUS_RESERVED_PREFIX | IOX2SD_STATUS_EMPTY | IOX2SD_STATUS_ILLEGAL_BYTE,
        /// The name has more than [`ServiceName::max_len`] bytes. This is reported before an illegal
        /// byte.
        ExceedsMaximumLength = IOX2SD_STATUS_TOO_LONG,
    }
}

impl From<TextFault> for ServiceNameError {
    fn from(fault: TextFault) -> Self {
        ServiceNameError::of(fault.cause.as_c())
    }
}

/// The name of a service: at least one byte and at most [`ServiceName::max_len`], each from 1 to
/// 127. Names are compared by their bytes, and lent as `str`.
///
/// ```
/// use iox2sd::service_name::ServiceName;
///
/// let name: ServiceName = "lidar/front".try_into()?;
/// let copy = name;
/// assert_eq!(copy, name);
/// assert_eq!(name.split('/').next(), Some("lidar"));
/// # Ok::<(), iox2sd::service_name::ServiceNameError>(())
/// ```
#[derive(Clone, Copy, PartialEq, Eq, PartialOrd, Ord, Hash)]
pub struct ServiceName {
    text: Text,
}

impl ServiceName {
    /// A name that a user gives.
    ///
    /// # Errors
    ///
    /// Refused are, in this order, a name that begins with the prefix of the system's own services
    /// and the empty one ([`InvalidContent`](ServiceNameError::InvalidContent)), too many bytes
    /// ([`ExceedsMaximumLength`](ServiceNameError::ExceedsMaximumLength)), and a byte that is not
    /// from 1 to 127 ([`InvalidContent`](ServiceNameError::InvalidContent)).
    ///
    /// # Examples
    ///
    /// ```
    /// use iox2sd::service_name::{ServiceName, ServiceNameError};
    ///
    /// assert!(ServiceName::new("lidar/front").is_ok());
    /// assert_eq!(ServiceName::new(""), Err(ServiceNameError::InvalidContent));
    /// assert_eq!(ServiceName::new("iox2://discovery"), Err(ServiceNameError::InvalidContent));
    /// let long = "a".repeat(ServiceName::max_len() + 1);
    /// assert_eq!(ServiceName::new(&long), Err(ServiceNameError::ExceedsMaximumLength));
    /// ```
    pub fn new(name: &str) -> Result<Self, ServiceNameError> {
        Self::check(name)?;
        Ok(Self::of_legal(name))
    }

    /// Whether a text is a name that a user gives.
    ///
    /// # Errors
    ///
    /// Refused as by [`ServiceName::new`], with the cause and the index of the byte.
    ///
    /// # Examples
    ///
    /// ```
    /// use iox2sd::semantic_string::TextCause;
    /// use iox2sd::service_name::ServiceName;
    ///
    /// assert_eq!(ServiceName::check("lidar/front"), Ok(()));
    /// let fault = ServiceName::check("lidar\0front").unwrap_err();
    /// assert_eq!((fault.cause, fault.at), (TextCause::IllegalByte, 5));
    /// let fault = ServiceName::check("iox2://discovery").unwrap_err();
    /// assert_eq!(fault.cause, TextCause::ReservedPrefix);
    /// ```
    pub fn check(name: &str) -> Result<(), TextFault> {
        TextFault::checked(&library::check_service_name(name.as_bytes()))
    }

    /// A name that may be that of one of the system's own services.
    ///
    /// # Errors
    ///
    /// Refused as by [`ServiceName::new`], but for the prefix.
    ///
    /// # Examples
    ///
    /// ```
    /// use iox2sd::service_name::{ServiceName, ServiceNameError};
    ///
    /// assert!(ServiceName::internal_new("iox2://discovery").is_ok());
    /// assert_eq!(ServiceName::internal_new(""), Err(ServiceNameError::InvalidContent));
    /// ```
    pub fn internal_new(name: &str) -> Result<Self, ServiceNameError> {
        TextFault::checked(&library::check_internal_service_name(name.as_bytes()))?;
        Ok(Self::of_legal(name))
    }

    /// The name of one of the system's own services: the prefix and `name`, which may be empty.
    ///
    /// # Errors
    ///
    /// Refused as by [`ServiceName::internal_new`] of both together.
    ///
    /// # Examples
    ///
    /// ```
    /// use iox2sd::service_name::ServiceName;
    ///
    /// let name = ServiceName::internal_new_prefixed("discovery")?;
    /// assert!(ServiceName::has_iox2_prefix(&name));
    /// # Ok::<(), iox2sd::service_name::ServiceNameError>(())
    /// ```
    pub fn internal_new_prefixed(name: &str) -> Result<Self, ServiceNameError> {
        let text = library::internal_service_name(name).map_err(ServiceNameError::of)?;
        Ok(Self::of_legal(&text))
    }

    /// The name of a text that the library made or took.
    fn of_legal(name: &str) -> Self {
        ServiceName {
            text: Text::copy_of(name),
        }
    }

    /// The text of the name.
    ///
    /// ```
    /// use iox2sd::service_name::ServiceName;
    /// assert_eq!(ServiceName::new("lidar/front")?.as_str(), "lidar/front");
    /// # Ok::<(), iox2sd::service_name::ServiceNameError>(())
    /// ```
    #[must_use]
    pub fn as_str(&self) -> &str {
        self.text.as_str()
    }

    /// Whether `name` begins with the prefix of the system's own services.
    ///
    /// ```
    /// use iox2sd::service_name::ServiceName;
    ///
    /// assert!(ServiceName::has_iox2_prefix("iox2://discovery"));
    /// assert!(!ServiceName::has_iox2_prefix("discovery"));
    /// ```
    #[must_use]
    pub fn has_iox2_prefix(name: &str) -> bool {
        library::has_internal_prefix(name)
    }

    /// The greatest number of bytes of a name.
    ///
    /// ```
    /// use iox2sd::service_name::ServiceName;
    /// assert_eq!(ServiceName::max_len(), 255);
    /// ```
    #[must_use]
    pub const fn max_len() -> usize {
        limits::SERVICE_NAME
    }
}

impl TryFrom<&str> for ServiceName {
    type Error = ServiceNameError;

    /// As [`ServiceName::internal_new`], so a name with the prefix is taken, as in iceoryx2. One that
    /// is parsed, or made of a `String`, is made as by [`ServiceName::new`], which refuses it.
    fn try_from(name: &str) -> Result<Self, ServiceNameError> {
        Self::internal_new(name)
    }
}

made_of_texts!(ServiceName: ServiceNameError, |name| Self::new(name));

impl Deref for ServiceName {
    type Target = str;

    fn deref(&self) -> &str {
        self.as_str()
    }
}

shown_as_text!(ServiceName);
