//! The limits that the library sets, in bytes of texts and in pairs, and what the names of the
//! system's own services begin with. They stand here alone, so that they are constants, and tests
//! compare each with what the library answers.

pub(crate) const ATTRIBUTES: usize = 16;
pub(crate) const ATTRIBUTE_KEY: usize = 64;
pub(crate) const ATTRIBUTE_VALUE: usize = 256;
pub(crate) const PATH: usize = 255;
pub(crate) const FILE_NAME: usize = 255;
pub(crate) const FILE_PATH: usize = 255;
pub(crate) const RESTRICTED_FILE_NAME: usize = 64;
pub(crate) const SERVICE_NAME: usize = 255;
pub(crate) const INTERNAL_SERVICE_PREFIX: &str = "iox2://";
pub(crate) const CALLER_NAME: usize = 16;
