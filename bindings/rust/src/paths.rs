//! Paths and names of files.
//!
//! ```
//! use iox2sd::paths::{FileName, FilePath, Path};
//!
//! let mut directory = Path::new(b"/tmp")?;
//! directory.add_path_entry(&Path::new(b"iceoryx2")?)?;
//! let file = FilePath::from_path_and_file(&directory, &FileName::new(b"iceoryx2.toml")?)?;
//! assert_eq!(file, "/tmp/iceoryx2/iceoryx2.toml");
//! # Ok::<(), iox2sd::semantic_string::SemanticStringError>(())
//! ```

use crate::library;
use crate::semantic_string::kind::kind;
use crate::semantic_string::{SemanticString, SemanticStringError};
use crate::service_hash::ServiceHash;
use std::ffi::OsStr;

kind! {
    "paths" "robots/one" "a\0" check_path PATH
    /// What a path allows: every byte from 1 to 127, and none at all.
    PathContent
    /// A path, which may be empty.
    Path
}

kind! {
    "paths" "robots" "robots/one" check_file_name FILE_NAME
    /// What the name of a file allows: any byte from 1 to 127 but `/`; not `.` and not `..`.
    FileNameContent
    /// The name of a file.
    FileName
}

kind! {
    "paths" "robots/one" "robots/.." check_file_path FILE_PATH
    /// What the path of a file allows: any byte from 1 to 127, where the bytes after the last `/`
    /// are the name of a file.
    FilePathContent
    /// The path of a file.
    FilePath
}

kind! {
    "paths" "a-Z_.:" "a b" check_restricted_name RESTRICTED_FILE_NAME
    /// What a restricted name of a file allows: letters, digits, `-`, `.`, `:` and `_`; not `.` and
    /// not `..`.
    RestrictedFileNameContent
    /// A name of a file as hash texts are.
    RestrictedFileName
}

impl Path {
    /// Joins an entry to the path, with one `/` between them unless the path is empty or ends in
    /// `/`.
    ///
    /// # Errors
    ///
    /// Refused with [`ExceedsMaximumLength`](SemanticStringError::ExceedsMaximumLength) where that
    /// would be longer than a path may be, and then the path stays as it was.
    ///
    /// # Examples
    ///
    /// ```
    /// use iox2sd::paths::Path;
    ///
    /// let mut path = Path::new(b"/tmp/iceoryx2/")?;
    /// path.add_path_entry(&Path::new(b"services")?)?;
    /// assert_eq!(path, "/tmp/iceoryx2/services");
    /// # Ok::<(), iox2sd::semantic_string::SemanticStringError>(())
    /// ```
    pub fn add_path_entry(&mut self, entry: &Path) -> Result<(), SemanticStringError> {
        let joined = library::path_join(self.as_str(), entry.as_str());
        *self = Self::of_legal(&joined.map_err(SemanticStringError::of)?);
        Ok(())
    }
}

impl FilePath {
    /// The name of the file: what follows the last `/`, or all where there is none.
    ///
    /// ```
    /// use iox2sd::paths::FilePath;
    ///
    /// assert_eq!(FilePath::new(b"/tmp/iceoryx2.toml")?.file_name(), "iceoryx2.toml");
    /// assert_eq!(FilePath::new(b"iceoryx2.toml")?.file_name(), "iceoryx2.toml");
    /// # Ok::<(), iox2sd::semantic_string::SemanticStringError>(())
    /// ```
    #[must_use]
    pub fn file_name(&self) -> FileName {
        let path: &std::path::Path = self.as_ref();
        let name = path.file_name().and_then(OsStr::to_str);
        FileName::of_legal(name.unwrap_or(self.as_str()))
    }

    /// The path of a file in a directory, joined as by [`Path::add_path_entry`].
    ///
    /// # Errors
    ///
    /// Refused with [`ExceedsMaximumLength`](SemanticStringError::ExceedsMaximumLength) where it
    /// would be longer than a path may be.
    ///
    /// # Examples
    ///
    /// ```
    /// use iox2sd::paths::{FileName, FilePath, Path};
    ///
    /// let path = Path::new(b"config")?;
    /// let file = FileName::new(b"iceoryx2.toml")?;
    /// assert_eq!(FilePath::from_path_and_file(&path, &file)?, "config/iceoryx2.toml");
    /// # Ok::<(), iox2sd::semantic_string::SemanticStringError>(())
    /// ```
    pub fn from_path_and_file(path: &Path, file: &FileName) -> Result<Self, SemanticStringError> {
        let joined = library::file_path_join(path.as_str(), file.as_str());
        Ok(Self::of_legal(&joined.map_err(SemanticStringError::of)?))
    }
}

impl From<RestrictedFileName> for FileName {
    fn from(name: RestrictedFileName) -> Self {
        FileName::of_legal(name.as_str())
    }
}

impl From<ServiceHash> for FileName {
    fn from(hash: ServiceHash) -> Self {
        FileName::of_legal(hash.as_str())
    }
}

impl From<ServiceHash> for RestrictedFileName {
    fn from(hash: ServiceHash) -> Self {
        RestrictedFileName::of_legal(hash.as_str())
    }
}

/// Lends paths and names of files as those of the standard library.
macro_rules! lent_as_path {
    ($($name:ident)*) => {
        $(
            impl AsRef<std::path::Path> for $name {
                fn as_ref(&self) -> &std::path::Path {
                    std::path::Path::new(self.as_str())
                }
            }
        )*
    };
}

lent_as_path!(Path FileName FilePath RestrictedFileName);
