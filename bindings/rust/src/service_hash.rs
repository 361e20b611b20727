//! The hash texts of services.
//!
//! ```
//! use iox2sd::messaging_pattern::MessagingPattern;
//! use iox2sd::service_hash::ServiceHash;
//!
//! let name = "My/Funk/ServiceName".try_into()?;
//! let hash = ServiceHash::new(&name, MessagingPattern::PublishSubscribe)?;
//! assert_eq!(hash, "Tqyt8mlaP0suuVSFdZJGzhoqqQY");
//! # Ok::<(), Box<dyn std::error::Error>>(())
//! ```

use crate::display::errors;
use crate::library;
use crate::messaging_pattern::MessagingPattern;
use crate::paths::RestrictedFileName;
use crate::plain::Plain;
use crate::service_name::ServiceName;
use crate::sys;
use crate::text::shown_as_text;

errors! {
    /// Why a service has no hash text.
    ///
    /// ```
    /// use iox2sd::service_hash::ServiceHashError;
    /// assert_eq!(ServiceHashError::IllegalText.to_string(), "ServiceHashError::IllegalText");
    /// ```
    #[non_exhaustive]
    ServiceHashError {
        /// The text cannot be the name of a file. The library's hasher, SHA-1, is proved to make no such
        /// text.
        IllegalText = IOX2SD_STATUS_ILLEGAL_HASH,
    }
}

/// The hash text of a service, under which its files are found: the name of a file. Hash texts are
/// compared by their bytes.
///
/// ```
/// use iox2sd::messaging_pattern::MessagingPattern;
/// use iox2sd::service_hash::ServiceHash;
///
/// let name = "lidar/front".try_into()?;
/// let hash = ServiceHash::new(&name, MessagingPattern::PublishSubscribe)?;
/// assert_eq!(hash.as_str().len(), 27);
/// assert_ne!(hash, ServiceHash::new(&name, MessagingPattern::Event)?);
/// # Ok::<(), Box<dyn std::error::Error>>(())
/// ```
#[derive(Clone, Copy, PartialEq, Eq, PartialOrd, Ord, Hash)]
pub struct ServiceHash {
    text: RestrictedFileName,
}

impl ServiceHash {
    /// The hash text of a service's pattern and name, by SHA-1.
    ///
    /// # Errors
    ///
    /// Refused with [`ServiceHashError::IllegalText`]. SHA-1 is proved to make no such text.
    ///
    /// # Examples
    ///
    /// ```
    /// use iox2sd::messaging_pattern::MessagingPattern;
    /// use iox2sd::service_hash::ServiceHash;
    ///
    /// let (front, rear) = ("lidar/front".try_into()?, "lidar/rear".try_into()?);
    /// let hash = ServiceHash::new(&front, MessagingPattern::Event)?;
    /// assert_eq!(hash, ServiceHash::new(&front, MessagingPattern::Event)?);
    /// assert_ne!(hash, ServiceHash::new(&rear, MessagingPattern::Event)?);
    /// # Ok::<(), Box<dyn std::error::Error>>(())
    /// ```
    pub fn new(name: &ServiceName, pattern: MessagingPattern) -> Result<Self, ServiceHashError> {
        match library::hash_text(pattern.as_c(), name) {
            Ok(text) => Ok(ServiceHash {
                text: RestrictedFileName::of_legal(&text),
            }),
            Err(refusal) => Err(ServiceHashError::of(refusal)),
        }
    }

    /// The hash text of a description that the library made.
    pub(crate) fn made(made: &sys::iox2sd_description) -> Self {
        let text = std::str::from_utf8(&made.hash[..made.hash_length]);
        ServiceHash {
            text: RestrictedFileName::of_legal(text.expect("the library writes texts")),
        }
    }

    /// The greatest number of bytes of a hash text.
    ///
    /// ```
    /// use iox2sd::service_hash::ServiceHash;
    /// assert_eq!(ServiceHash::max_number_of_characters(), 64);
    /// ```
    #[must_use]
    pub const fn max_number_of_characters() -> usize {
        RestrictedFileName::capacity()
    }

    /// The text.
    ///
    /// ```
    /// use iox2sd::messaging_pattern::MessagingPattern;
    /// use iox2sd::service_hash::ServiceHash;
    ///
    /// let hash = ServiceHash::new(&"lidar/front".try_into()?, MessagingPattern::Event)?;
    /// assert_eq!(hash.as_str(), hash.to_string());
    /// # Ok::<(), Box<dyn std::error::Error>>(())
    /// ```
    #[must_use]
    pub fn as_str(&self) -> &str {
        self.text.as_str()
    }
}

shown_as_text!(ServiceHash);
