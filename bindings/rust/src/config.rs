//! The configuration: where the system's files lie, how they are called, and the limits that
//! services have where nothing else is said.
//!
//! ```
//! use iox2sd::config::Config;
//! use iox2sd::paths::Path;
//!
//! let mut config = Config::default();
//! config.defaults.publish_subscribe.max_publishers = 5;
//! config.global.service.directory = Path::new(b"other_services")?;
//! assert_eq!(config.global.service_dir()?, "/tmp/iceoryx2/other_services");
//! # Ok::<(), Box<dyn std::error::Error>>(())
//! ```

mod choices;
mod global;
mod patterns;
mod toml;
mod toml_kinds;

pub use choices::{AllocationStrategy, BackpressureStrategy, DataSegmentType, EventId};
pub use global::{Global, Node, Service};
pub use patterns::{Blackboard, Event, PatternSettings, PublishSubscribe, RequestResonse};
pub use toml::{
    ConfigCreationError, ConfigError, ConfigFault, ConfigFile, ConfigFileError, ConfigTextFault,
    ConfigWriteError,
};
pub use toml::{Fault, Position, UnknownKey};
pub use toml_kinds::{Likeness, SettingKind, TomlType};

use crate::library;
use crate::paths::{FileName, FilePath, Path};
use crate::semantic_string::{Content, SemanticString};
use crate::sys;

/// All settings: those of the system, and those that services get by default.
///
/// ```
/// use iox2sd::config::Config;
///
/// let config = Config::default();
/// assert_eq!(config.global.prefix, "iox2_");
/// assert_eq!(config.defaults.event.max_nodes, 36);
/// ```
#[derive(Clone, Debug, Default, PartialEq, Eq, Hash)]
#[non_exhaustive]
pub struct Config {
    /// The settings that all services and nodes of one system share.
    pub global: Global,
    /// The settings of services of each pattern.
    pub defaults: Defaults,
}

/// The settings that services of each pattern get where nothing else is said.
///
/// ```
/// use iox2sd::config::Defaults;
///
/// let defaults = Defaults::default();
/// assert_eq!(defaults.publish_subscribe.max_subscribers, 8);
/// assert_eq!(defaults.blackboard.max_readers, 8);
/// ```
#[derive(Clone, Debug, Default, PartialEq, Eq, Hash)]
#[non_exhaustive]
pub struct Defaults {
    /// Those of publish-subscribe services.
    pub publish_subscribe: PublishSubscribe,
    /// Those of event services.
    pub event: Event,
    /// Those of request-response services.
    pub request_response: RequestResonse,
    /// Those of blackboard services.
    pub blackboard: Blackboard,
}

/// Defines the paths of configuration files, each with the line of an example.
macro_rules! default_texts {
    ($($(#[$documentation:meta])* => $(#[$shown:meta])* $name:ident -> $type:ty = $number:ident;)*) => {
        impl Config {
            $(
                $(#[$documentation])*
                ///
                /// ```
                /// use iox2sd::config::Config;
                $(#[$shown])*
                /// ```
                #[must_use]
                pub fn $name() -> $type {
                    default_text(sys::$number)
                }
            )*
        }
    };
}

default_texts! {
    /// The name of a configuration file.
    =>
    /// assert_eq!(Config::default_config_file_name(), "iceoryx2.toml");
    default_config_file_name -> FileName = IOX2SD_TEXT_CONFIG_FILE_NAME;
    /// The configuration file of a working directory.
    =>
    /// assert_eq!(Config::default_config_file_path(), "config/iceoryx2.toml");
    default_config_file_path -> FilePath = IOX2SD_TEXT_CONFIG_FILE_PATH;
    /// The directory, below one for configurations, that has this system's configuration.
    =>
    /// assert_eq!(Config::relative_config_path(), "iceoryx2");
    relative_config_path -> Path = IOX2SD_TEXT_RELATIVE_CONFIG_PATH;
    /// The configuration file below a user's directory for configurations.
    =>
    /// assert_eq!(Config::default_user_config_file_path(), "iceoryx2/iceoryx2.toml");
    default_user_config_file_path -> FilePath = IOX2SD_TEXT_USER_CONFIG_FILE_PATH;
}

/// A text that stands where nothing else is said.
fn default_text<C: Content>(which: u32) -> SemanticString<C> {
    let text = library::default_text(which).unwrap_or_else(|status| library::unexpected(status));
    SemanticString::of_legal(&text)
}
