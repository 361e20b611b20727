//! The file of the settings, `iceoryx2.toml`: read, judged and written.

use super::{Blackboard, Config, Defaults, Event, Global, PublishSubscribe, RequestResonse};
use super::{Likeness, SettingKind, TomlType};
use crate::display::{error_by_path, padded};
use crate::library;
use crate::paths::FilePath;
use crate::plain::Plain;
use crate::semantic_string::SemanticStringError;
use crate::sys;
use std::error::Error;
use std::fmt;
use std::fs;
use std::io::{self, ErrorKind, Read};
use std::path::{self, PathBuf};

/// What stands in a file of settings.
///
/// ```
/// use iox2sd::config::Config;
///
/// let file = Config::from_toml("[defaults.event]\nmax-node = 3\n")?;
/// assert_eq!(file.config, Config::default());
/// assert_eq!(
///     file.unknown[0].to_string(),
///     "2:1: defaults.event.max-node: this table has no such key, \
///      defaults.event.max-nodes may be meant"
/// );
/// # Ok::<(), iox2sd::config::ConfigError>(())
/// ```
#[derive(Clone, Debug, PartialEq, Eq)]
#[non_exhaustive]
pub struct ConfigFile {
    /// The settings, where each key that the file does not have has its default.
    pub config: Config,
    /// The keys that no setting has, in the order of the file.
    pub unknown: Vec<UnknownKey>,
}

/// Where something stands in a file: its line and its column.
///
/// ```
/// use iox2sd::config::Config;
///
/// let file = Config::from_toml("[global]\n  other = 1\n")?;
/// let position = file.unknown[0].position.unwrap();
/// assert_eq!((position.line, position.column), (2, 3));
/// assert_eq!(position.to_string(), "2:3");
/// # Ok::<(), iox2sd::config::ConfigError>(())
/// ```
#[derive(Clone, Copy, Debug, PartialEq, Eq, PartialOrd, Ord, Hash)]
#[non_exhaustive]
pub struct Position {
    /// The line, from 1.
    pub line: usize,
    /// The column, in bytes from 1.
    pub column: usize,
}

impl Position {
    /// The position that the library gives, 0 where there is none.
    fn of(line: usize, column: usize) -> Option<Self> {
        (line != 0).then_some(Position { line, column })
    }
}

impl fmt::Display for Position {
    fn fmt(&self, f: &mut fmt::Formatter<'_>) -> fmt::Result {
        padded(f, format_args!("{}:{}", self.line, self.column))
    }
}

/// The file and the position, in front of what is said there.
fn position_text(file: Option<&path::Path>, position: Option<Position>) -> String {
    let file = file.map(|file| file.display().to_string());
    let position = position.map(|position| position.to_string());
    let known: Vec<_> = file.into_iter().chain(position).collect();
    if known.is_empty() {
        String::new()
    } else {
        known.join(":") + ": "
    }
}

/// A key of a file that no setting has.
///
/// ```
/// use iox2sd::config::Config;
///
/// let file = Config::from_toml("global = { prefx = 'a' }\nother = 1\n")?;
/// assert_eq!(file.unknown[0].meant.as_deref(), Some("global.prefix"));
/// assert_eq!(file.unknown[1].key, "other");
/// assert_eq!(file.unknown[1].meant, None);
/// # Ok::<(), iox2sd::config::ConfigError>(())
/// ```
#[derive(Clone, Debug, PartialEq, Eq)]
#[non_exhaustive]
pub struct UnknownKey {
    /// The file; none of a text.
    pub file: Option<PathBuf>,
    /// Where the key begins; none in a file of more than 128 KiB.
    pub position: Option<Position>,
    /// The path of the key, as TOML writes it.
    pub key: String,
    /// The path of the known key that was probably meant: the same key but for `-`, `_` and case, or
    /// else such a key of another table, the one whose path stands in quotes, or the nearest one.
    pub meant: Option<String>,
    /// How that key is like this one.
    pub likeness: Option<Likeness>,
    /// What is wrong and was probably meant, in words.
    pub reason: String,
}

/// `FILE:LINE:COLUMN: KEY: REASON`, without what there is not.
impl fmt::Display for UnknownKey {
    fn fmt(&self, f: &mut fmt::Formatter<'_>) -> fmt::Result {
        let at = position_text(self.file.as_deref(), self.position);
        padded(f, format_args!("{at}{}: {}", self.key, self.reason))
    }
}

/// What is wrong with the value of a key.
///
/// ```
/// use iox2sd::config::{Config, ConfigError, Fault, SettingKind, TomlType};
///
/// let refused = Config::from_toml("defaults.event.deadline = 5").unwrap_err();
/// let ConfigError::Faults(faults) = refused else { panic!() };
/// let (found, wanted) = (TomlType::Integer, SettingKind::Duration);
/// assert_eq!(faults[0].fault, Fault::WrongType { found, wanted });
/// ```
#[derive(Clone, Copy, Debug, PartialEq, Eq, Hash)]
#[non_exhaustive]
pub enum Fault {
    /// It is of another type than the one that is wanted.
    WrongType {
        /// What it is.
        found: TomlType,
        /// What is wanted.
        wanted: SettingKind,
    },
    /// It is below 0.
    BelowZero,
    /// It is no path.
    NoPath(SemanticStringError),
    /// It is not the name of a file.
    NoFileName(SemanticStringError),
    /// It is not the name of a strategy of the kind.
    UnknownVariant(SettingKind),
    /// It is not a table of the integers `secs` and `nanos` alone.
    NoDuration,
    /// Its `nanos` are 2^32 or more.
    NanosTooLarge,
}

impl Fault {
    fn of(fault: &sys::iox2sd_config_fault) -> Self {
        use SemanticStringError::{ExceedsMaximumLength, InvalidContent};
        let wanted = || SettingKind::of_c(&fault.wanted);
        match fault.status {
            sys::IOX2SD_STATUS_WRONG_TYPE => Fault::WrongType {
                found: TomlType::of_c(&fault.found),
                wanted: wanted(),
            },
            sys::IOX2SD_STATUS_BELOW_ZERO => Fault::BelowZero,
            sys::IOX2SD_STATUS_BAD_PATH => Fault::NoPath(InvalidContent),
            sys::IOX2SD_STATUS_NO_FILE_NAME => Fault::NoFileName(InvalidContent),
            sys::IOX2SD_STATUS_TOO_LONG if wanted() == SettingKind::Path => {
                Fault::NoPath(ExceedsMaximumLength)
            }
            sys::IOX2SD_STATUS_TOO_LONG => Fault::NoFileName(ExceedsMaximumLength),
            sys::IOX2SD_STATUS_UNKNOWN_VARIANT => Fault::UnknownVariant(wanted()),
            sys::IOX2SD_STATUS_NO_DURATION => Fault::NoDuration,
            sys::IOX2SD_STATUS_BAD_DURATION => Fault::NanosTooLarge,
            other => library::unexpected(other),
        }
    }
}

/// What is wrong with the value of a key, where, and which key it is.
///
/// ```
/// use iox2sd::config::{Config, ConfigError};
///
/// let text = "[defaults.publish-subscribe]\nbackpressure-strategy = 'discarddata'\n";
/// let ConfigError::Faults(faults) = Config::from_toml(text).unwrap_err() else { panic!() };
/// assert_eq!(faults[0].key, "defaults.publish-subscribe.backpressure-strategy");
/// assert_eq!(faults[0].reason, "is not \"RetryUntilDelivered\" or \"DiscardData\"");
/// assert_eq!(faults[0].position.unwrap().line, 2);
/// ```
#[derive(Clone, Debug, PartialEq, Eq)]
#[non_exhaustive]
pub struct ConfigFault {
    /// The file; none of a text.
    pub file: Option<PathBuf>,
    /// Where the key begins; none in a file of more than 128 KiB.
    pub position: Option<Position>,
    /// The path of the key.
    pub key: String,
    /// What is wrong with its value.
    pub fault: Fault,
    /// The same in words.
    pub reason: String,
}

/// `FILE:LINE:COLUMN: KEY: REASON`, without what there is not.
impl fmt::Display for ConfigFault {
    fn fmt(&self, f: &mut fmt::Formatter<'_>) -> fmt::Result {
        let at = position_text(self.file.as_deref(), self.position);
        padded(f, format_args!("{at}{}: {}", self.key, self.reason))
    }
}

/// Why a text is no file of settings, and where.
///
/// ```
/// use iox2sd::config::{Config, ConfigError};
///
/// let refused = Config::from_toml("[global]\nprefix\n").unwrap_err();
/// let ConfigError::NotToml(fault) = refused else { panic!() };
/// assert_eq!(fault.position.unwrap().line, 2);
/// ```
#[derive(Clone, Debug, PartialEq, Eq)]
#[non_exhaustive]
pub struct ConfigTextFault {
    /// The file; none of a text.
    pub file: Option<PathBuf>,
    /// Where it was found.
    pub position: Option<Position>,
    /// What is wrong, in words.
    pub reason: String,
}

/// `FILE:LINE:COLUMN: REASON`, without what there is not.
impl fmt::Display for ConfigTextFault {
    fn fmt(&self, f: &mut fmt::Formatter<'_>) -> fmt::Result {
        let at = position_text(self.file.as_deref(), self.position);
        padded(f, format_args!("{at}{}", self.reason))
    }
}

/// Why the text of a file gives no settings.
///
/// ```
/// use iox2sd::config::{Config, ConfigError};
///
/// let text = "[defaults.event]\nmax-nodes = -1\nmax-listeners = true\n";
/// let refused = Config::from_toml(text).unwrap_err();
/// assert_eq!(
///     refused.to_string(),
///     "2:1: defaults.event.max-nodes: is not an integer from 0 to 9223372036854775807\n\
///      3:1: defaults.event.max-listeners: is a boolean, and an integer is wanted"
/// );
/// assert!(matches!(Config::from_toml("max"), Err(ConfigError::NotToml(_))));
/// ```
#[derive(Clone, Debug, PartialEq, Eq)]
#[non_exhaustive]
pub enum ConfigError {
    /// It is no TOML.
    NotToml(ConfigTextFault),
    /// Its tables and arrays are more than 32 deep in one another. Each dot of a key counts too.
    /// This is found before anything else.
    TooDeep(ConfigTextFault),
    /// Values are not allowed: all of them, in the order of the file.
    Faults(Vec<ConfigFault>),
    /// There was no memory.
    NoMemory,
}

/// What is wrong; a line for each fault.
impl fmt::Display for ConfigError {
    fn fmt(&self, f: &mut fmt::Formatter<'_>) -> fmt::Result {
        match self {
            ConfigError::NotToml(fault) | ConfigError::TooDeep(fault) => fault.fmt(f),
            ConfigError::NoMemory => f.pad("no memory"),
            ConfigError::Faults(faults) => {
                let lines: Vec<_> = faults.iter().map(ToString::to_string).collect();
                f.pad(&lines.join("\n"))
            }
        }
    }
}

impl Error for ConfigError {}

impl ConfigError {
    /// The same of the text of a file.
    fn of_file(mut self, path: &path::Path) -> Self {
        match &mut self {
            ConfigError::NotToml(fault) | ConfigError::TooDeep(fault) => {
                fault.file = Some(path.to_path_buf());
            }
            ConfigError::Faults(faults) => {
                for fault in faults {
                    fault.file = Some(path.to_path_buf());
                }
            }
            ConfigError::NoMemory => {}
        }
        self
    }
}

/// Why a file gives no settings.
///
/// ```
/// use iox2sd::config::{Config, ConfigFileError};
/// use std::error::Error;
///
/// let refused = Config::from_toml_file("no/such/iceoryx2.toml").unwrap_err();
/// assert!(refused.to_string().starts_with("no/such/iceoryx2.toml: "));
/// assert!(refused.source().is_some());
/// assert!(matches!(refused, ConfigFileError::Read { .. }));
/// ```
#[derive(Debug)]
#[non_exhaustive]
pub enum ConfigFileError {
    /// It was not read, or is not UTF-8.
    Read {
        /// The file.
        path: PathBuf,
        /// What was reported.
        error: io::Error,
    },
    /// Its text gives no settings.
    Content(ConfigError),
}

/// What is wrong, with the name of a file that was not read.
impl fmt::Display for ConfigFileError {
    fn fmt(&self, f: &mut fmt::Formatter<'_>) -> fmt::Result {
        match self {
            ConfigFileError::Read { path, error } => {
                padded(f, format_args!("{}: {error}", path.display()))
            }
            ConfigFileError::Content(error) => error.fmt(f),
        }
    }
}

impl Error for ConfigFileError {
    fn source(&self) -> Option<&(dyn Error + 'static)> {
        match self {
            ConfigFileError::Read { error, .. } => Some(error),
            ConfigFileError::Content(error) => Some(error),
        }
    }
}

impl From<ConfigError> for ConfigFileError {
    fn from(error: ConfigError) -> Self {
        ConfigFileError::Content(error)
    }
}

/// Why [`Config::from_file`] gives no settings.
///
/// ```
/// use iox2sd::config::{Config, ConfigCreationError};
///
/// let refused = Config::from_file(&"no/such/iceoryx2.toml".parse()?).unwrap_err();
/// assert_eq!(refused, ConfigCreationError::ConfigFileDoesNotExist);
/// assert_eq!(refused.to_string(), "ConfigCreationError::ConfigFileDoesNotExist");
/// # Ok::<(), iox2sd::semantic_string::SemanticStringError>(())
/// ```
#[derive(Clone, Copy, Debug, PartialEq, Eq, PartialOrd, Ord, Hash)]
pub enum ConfigCreationError {
    /// The file was opened, and not read, or is not UTF-8.
    FailedToReadConfigFileContents,
    /// Its text gives no settings, as [`Config::from_toml`] says.
    UnableToDeserializeContents,
    /// The file may not be opened.
    InsufficientPermissions,
    /// There is no such file.
    ConfigFileDoesNotExist,
    /// The file was not opened, for another reason.
    UnableToOpenConfigFile,
}

error_by_path!(ConfigCreationError);

/// Why settings give no text.
///
/// ```
/// use iox2sd::config::{Config, ConfigWriteError};
///
/// let mut config = Config::default();
/// config.defaults.blackboard.max_readers = usize::MAX;
/// let refused = config.to_toml().unwrap_err();
/// let key = "defaults.blackboard.max-readers".to_string();
/// assert_eq!(refused, ConfigWriteError::OutOfRange { key });
/// ```
#[derive(Clone, Debug, PartialEq, Eq)]
#[non_exhaustive]
pub enum ConfigWriteError {
    /// A number, or the seconds of a duration, are above 2^63 - 1, which TOML does not have.
    OutOfRange {
        /// The path of the first such key.
        key: String,
    },
    /// There was no memory.
    NoMemory,
}

impl fmt::Display for ConfigWriteError {
    fn fmt(&self, f: &mut fmt::Formatter<'_>) -> fmt::Result {
        match self {
            ConfigWriteError::OutOfRange { key } => {
                let reason = library::status_text(sys::IOX2SD_STATUS_NO_TOML_INTEGER);
                padded(f, format_args!("{key}: {}", reason.unwrap_or_default()))
            }
            ConfigWriteError::NoMemory => f.pad("no memory"),
        }
    }
}

impl Error for ConfigWriteError {}

/// The text at the front of an array.
fn front(bytes: &[u8], length: usize) -> String {
    String::from_utf8_lossy(&bytes[..length.min(bytes.len())]).into_owned()
}

/// Why a text is no file of settings.
fn text_fault(fault: &sys::iox2sd_config_fault) -> ConfigTextFault {
    ConfigTextFault {
        file: None,
        position: Position::of(fault.line, fault.column),
        reason: front(&fault.reason, fault.reason_length),
    }
}

/// Why a text with this first fault gives no settings.
fn refusal(text: &str, first: &sys::iox2sd_config_fault) -> ConfigError {
    match first.status {
        sys::IOX2SD_STATUS_NO_MEMORY => return ConfigError::NoMemory,
        sys::IOX2SD_STATUS_NOT_TOML => return ConfigError::NotToml(text_fault(first)),
        sys::IOX2SD_STATUS_TOO_DEEP => return ConfigError::TooDeep(text_fault(first)),
        _ => {}
    }
    let Ok(faults) = library::config_faults(text) else {
        return ConfigError::NoMemory;
    };
    let fault = |fault: &sys::iox2sd_config_fault| ConfigFault {
        file: None,
        position: Position::of(fault.line, fault.column),
        key: front(&fault.key, fault.key_length),
        fault: Fault::of(fault),
        reason: front(&fault.reason, fault.reason_length),
    };
    ConfigError::Faults(faults.iter().map(fault).collect())
}

/// The unknown keys of a text that gives settings.
fn unknown(text: &str) -> Result<Vec<UnknownKey>, ConfigError> {
    let (keys, paths) = match library::config_unknown(text) {
        Ok(found) => found,
        Err(sys::IOX2SD_STATUS_NO_MEMORY) => return Err(ConfigError::NoMemory),
        Err(other) => library::unexpected(other),
    };
    let mut rest = paths.as_str();
    let key = |key: &sys::iox2sd_unknown_key| {
        let (path, others) = rest.split_at(key.key_length);
        rest = others;
        let is_meant = key.likeness != 0;
        UnknownKey {
            file: None,
            position: Position::of(key.line, key.column),
            key: path.to_string(),
            meant: is_meant.then(|| front(&key.meant, key.meant_length)),
            likeness: is_meant.then(|| Likeness::of_c(&key.likeness)),
            reason: front(&key.reason, key.reason_length),
        }
    };
    Ok(keys.iter().map(key).collect())
}

impl Config {
    /// The settings of the text of a file `iceoryx2.toml`. A key that it does not have has its
    /// default; keys that no setting has are listed beside the settings.
    ///
    /// # Errors
    ///
    /// Refused where the text is no TOML, where values are not allowed, and where memory is
    /// refused.
    ///
    /// # Examples
    ///
    /// ```
    /// use iox2sd::config::Config;
    ///
    /// let file = Config::from_toml("[global]\nprefix = 'own_'\n")?;
    /// assert_eq!(file.config.global.prefix, "own_");
    /// assert!(file.unknown.is_empty());
    /// # Ok::<(), iox2sd::config::ConfigError>(())
    /// ```
    pub fn from_toml(text: &str) -> Result<ConfigFile, ConfigError> {
        let made = library::config_read(text).map_err(|fault| refusal(text, &fault))?;
        Ok(ConfigFile {
            config: Config::of(&made),
            unknown: unknown(text)?,
        })
    }

    /// The settings of a file, as [`from_toml`](Self::from_toml) of its text.
    ///
    /// # Errors
    ///
    /// Refused where the file is not read or is not UTF-8, and as its text is.
    ///
    /// # Examples
    ///
    /// ```no_run
    /// use iox2sd::config::Config;
    ///
    /// let file = Config::from_toml_file("config/iceoryx2.toml")?;
    /// for key in &file.unknown {
    ///     eprintln!("{key}");
    /// }
    /// # Ok::<(), iox2sd::config::ConfigFileError>(())
    /// ```
    pub fn from_toml_file(
        path: impl AsRef<std::path::Path>,
    ) -> Result<ConfigFile, ConfigFileError> {
        let path = path.as_ref();
        let text = fs::read_to_string(path).map_err(|error| ConfigFileError::Read {
            path: path.to_path_buf(),
            error,
        })?;
        let mut read = Config::from_toml(&text).map_err(|error| error.of_file(path))?;
        for key in &mut read.unknown {
            key.file = Some(path.to_path_buf());
        }
        Ok(read)
    }

    /// The settings of a file, as iceoryx2 reads them: unknown keys are not listed.
    ///
    /// # Errors
    ///
    /// Refused where the file is not opened or not read, and where its text gives no settings;
    /// [`from_toml_file`](Self::from_toml_file) says which of its values are not allowed.
    ///
    /// # Examples
    ///
    /// ```no_run
    /// use iox2sd::config::Config;
    ///
    /// let config = Config::from_file(&Config::default_config_file_path())?;
    /// println!("{}", config.global.prefix);
    /// # Ok::<(), iox2sd::config::ConfigCreationError>(())
    /// ```
    pub fn from_file(config_file: &FilePath) -> Result<Config, ConfigCreationError> {
        let opened = fs::File::open(config_file).map_err(|error| match error.kind() {
            ErrorKind::NotFound => ConfigCreationError::ConfigFileDoesNotExist,
            ErrorKind::PermissionDenied => ConfigCreationError::InsufficientPermissions,
            _ => ConfigCreationError::UnableToOpenConfigFile,
        });
        let mut text = String::new();
        let read = opened?.read_to_string(&mut text);
        read.map_err(|_| ConfigCreationError::FailedToReadConfigFileContents)?;
        let made = Config::from_toml(&text);
        Ok(made
            .map_err(|_| ConfigCreationError::UnableToDeserializeContents)?
            .config)
    }

    /// The settings as the text of a file, each below a comment with what it is and its default.
    ///
    /// # Errors
    ///
    /// Refused where a number, or the seconds of a duration, are above 2^63 - 1, and where memory
    /// is refused.
    ///
    /// # Examples
    ///
    /// ```
    /// use iox2sd::config::Config;
    ///
    /// let text = Config::default().to_toml()?;
    /// assert!(text.contains("\n[global]\n"));
    /// assert_eq!(Config::from_toml(&text)?.config, Config::default());
    /// # Ok::<(), Box<dyn std::error::Error>>(())
    /// ```
    pub fn to_toml(&self) -> Result<String, ConfigWriteError> {
        library::config_write(self).map_err(|answer| match answer.status {
            sys::IOX2SD_STATUS_NO_TOML_INTEGER => ConfigWriteError::OutOfRange {
                key: front(&answer.key, answer.key_length),
            },
            sys::IOX2SD_STATUS_NO_MEMORY => ConfigWriteError::NoMemory,
            other => library::unexpected(other),
        })
    }

    /// The settings that the library gives.
    fn of(settings: &sys::iox2sd_config) -> Self {
        Config {
            global: Global::of(settings),
            defaults: Defaults {
                publish_subscribe: PublishSubscribe::of(&settings.publish_subscribe),
                event: Event::of(&settings.event),
                request_response: RequestResonse::of(&settings.request_response),
                blackboard: Blackboard::of(&settings.blackboard),
            },
        }
    }
}
