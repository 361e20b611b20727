use super::default_text;
use crate::library;
use crate::paths::{FileName, Path};
use crate::plain::Plain;
use crate::semantic_string::{Content, SemanticString, SemanticStringError};
use crate::sys;
use std::str;
use std::sync::OnceLock;
use std::time::Duration;

/// Where texts come from: the defaults of the library, or what it read.
enum Texts<'a> {
    Defaults,
    Read(&'a sys::iox2sd_config_texts),
}

impl Texts<'_> {
    /// The text with this number among the defaults, which is this field of what was read.
    fn text<C: Content>(
        &self,
        number: u32,
        field: fn(&sys::iox2sd_config_texts) -> &sys::iox2sd_config_text,
    ) -> SemanticString<C> {
        match self {
            Texts::Defaults => default_text(number),
            Texts::Read(texts) => {
                let text = field(texts);
                let text = str::from_utf8(&text.bytes[..text.length]);
                SemanticString::of_legal(text.expect("the library writes texts"))
            }
        }
    }
}

/// Writes a text into a struct of zeros.
fn lend<C: Content>(text: &SemanticString<C>, out: &mut sys::iox2sd_config_text) {
    out.bytes[..text.len()].copy_from_slice(text.as_bytes());
    out.length = text.len();
}

/// Defines where files of one kind lie: the texts with their fields and numbers in the library, and
/// the flags.
macro_rules! files {
    (
        $(#[$documentation:meta])*
        $name:ident of $in_global:ident {
            $($(#[$text_documentation:meta])* $text:ident: $type:ty = $c:ident $number:ident,)*
        } and {
            $($(#[$flag_documentation:meta])* $flag:ident,)*
        }
    ) => {
        $(#[$documentation])*
        #[derive(Clone, Debug, PartialEq, Eq, Hash)]
        #[non_exhaustive]
        pub struct $name {
            $($(#[$text_documentation])* pub $text: $type,)*
            $($(#[$flag_documentation])* pub $flag: bool,)*
        }

        impl $name {
            fn of(settings: &sys::iox2sd_global_settings, texts: &Texts<'_>) -> Self {
                $name {
                    $($text: texts.text(sys::$number, |texts| &texts.$c),)*
                    $($flag: settings.$flag,)*
                }
            }

            fn lend(
                &self,
                settings: &mut sys::iox2sd_global_settings,
                texts: &mut sys::iox2sd_config_texts,
            ) {
                $(lend(&self.$text, &mut texts.$c);)*
                $(settings.$flag = self.$flag;)*
            }
        }

        impl Default for $name {
            fn default() -> Self {
                defaults().$in_global.clone()
            }
        }
    };
}

files! {
    /// Where the files of services lie, and how their names end.
    ///
    /// ```
    /// use iox2sd::config::Service;
    ///
    /// let files = Service::default();
    /// assert_eq!(files.directory, "services");
    /// assert_eq!(files.static_config_storage_suffix, ".service");
    /// assert!(files.cleanup_dead_nodes_on_open);
    /// ```
    Service of service {
        /// The directory of services, below the root path.
        directory: Path = service_directory IOX2SD_TEXT_SERVICE_DIRECTORY,
        /// The end of the name of a port's data segment.
        data_segment_suffix: FileName = data_segment_suffix IOX2SD_TEXT_DATA_SEGMENT_SUFFIX,
        /// The end of the name of a service's static configuration.
        static_config_storage_suffix: FileName = static_config_storage_suffix IOX2SD_TEXT_STATIC_CONFIG_STORAGE_SUFFIX,
        /// The end of the name of a service's dynamic configuration.
        dynamic_config_storage_suffix: FileName = dynamic_config_storage_suffix IOX2SD_TEXT_DYNAMIC_CONFIG_STORAGE_SUFFIX,
        /// The end of the name of a connection between two ports.
        connection_suffix: FileName = connection_suffix IOX2SD_TEXT_CONNECTION_SUFFIX,
        /// The end of the name of a connection for events.
        event_connection_suffix: FileName = event_connection_suffix IOX2SD_TEXT_EVENT_CONNECTION_SUFFIX,
        /// The end of the name of the segment by which a blackboard is managed.
        blackboard_mgmt_suffix: FileName = blackboard_mgmt_suffix IOX2SD_TEXT_BLACKBOARD_MGMT_SUFFIX,
        /// The end of the name of the segment with a blackboard's values.
        blackboard_data_suffix: FileName = blackboard_data_suffix IOX2SD_TEXT_BLACKBOARD_DATA_SUFFIX,
    } and {
        /// Whether somebody who opens a service first removes what dead nodes left. By default true.
        cleanup_dead_nodes_on_open,
    }
}

files! {
    /// Where the files of nodes lie, and how their names end.
    ///
    /// ```
    /// use iox2sd::config::Node;
    ///
    /// let files = Node::default();
    /// assert_eq!(files.directory, "nodes");
    /// assert_eq!(files.static_config_suffix, ".details");
    /// assert!(files.cleanup_dead_nodes_on_creation && files.cleanup_dead_nodes_on_destruction);
    /// ```
    Node of node {
        /// The directory of nodes, below the root path.
        directory: Path = node_directory IOX2SD_TEXT_NODE_DIRECTORY,
        /// The end of the name of the token by which others see that a node lives.
        monitor_suffix: FileName = monitor_suffix IOX2SD_TEXT_MONITOR_SUFFIX,
        /// The end of the name of a node's static configuration.
        static_config_suffix: FileName = node_static_config_suffix IOX2SD_TEXT_NODE_STATIC_CONFIG_SUFFIX,
        /// The end of the name of the tag that a node leaves for each service that it uses.
        service_tag_suffix: FileName = service_tag_suffix IOX2SD_TEXT_SERVICE_TAG_SUFFIX,
        /// The end of the name of the tag that a node leaves for each of its ports.
        port_tag_suffix: FileName = port_tag_suffix IOX2SD_TEXT_PORT_TAG_SUFFIX,
        /// The end of the name of the segment with which nodes are managed.
        global_mgmt_suffix: FileName = global_mgmt_suffix IOX2SD_TEXT_GLOBAL_MGMT_SUFFIX,
    } and {
        /// Whether somebody who creates a node first removes what dead nodes left. By default true.
        cleanup_dead_nodes_on_creation,
        /// Whether a node that is dropped removes what dead nodes left. By default true.
        cleanup_dead_nodes_on_destruction,
    }
}

/// The settings that all services and nodes of one system share.
///
/// ```
/// use iox2sd::config::Global;
/// use std::time::Duration;
///
/// let mut global = Global::default();
/// assert_eq!(global.creation_timeout, Duration::from_millis(500));
/// global.prefix = "robot_".try_into()?;
/// assert_ne!(global, Global::default());
/// # Ok::<(), iox2sd::semantic_string::SemanticStringError>(())
/// ```
#[derive(Clone, Debug, PartialEq, Eq, Hash)]
#[non_exhaustive]
pub struct Global {
    root_path: Path,
    /// What the name of each file begins with.
    pub prefix: FileName,
    /// The settings of services' files.
    pub service: Service,
    /// The settings of nodes' files.
    pub node: Node,
    /// For how long somebody who opens a thing waits until its creator has made it; half a second
    /// by default.
    pub creation_timeout: Duration,
}

/// The defaults, which are read from the library once.
fn defaults() -> &'static Global {
    static DEFAULTS: OnceLock<Global> = OnceLock::new();
    DEFAULTS.get_or_init(|| Global::made(&library::global_defaults(), &Texts::Defaults))
}

impl Default for Global {
    fn default() -> Self {
        defaults().clone()
    }
}

impl Global {
    fn made(settings: &sys::iox2sd_global_settings, texts: &Texts<'_>) -> Self {
        Global {
            root_path: texts.text(sys::IOX2SD_TEXT_ROOT_PATH, |texts| &texts.root_path),
            prefix: texts.text(sys::IOX2SD_TEXT_PREFIX, |texts| &texts.prefix),
            service: Service::of(settings, texts),
            node: Node::of(settings, texts),
            creation_timeout: Duration::of_c(&settings.creation_timeout),
        }
    }

    /// The settings that the library gives.
    pub(super) fn of(made: &sys::iox2sd_config) -> Self {
        Self::made(&made.global, &Texts::Read(&made.texts))
    }

    /// Writes the settings, as the library takes them, into a struct of zeros.
    pub(crate) fn lend(&self, made: &mut sys::iox2sd_config) {
        let (settings, texts) = (&mut made.global, &mut made.texts);
        settings.creation_timeout = self.creation_timeout.as_c();
        lend(&self.root_path, &mut texts.root_path);
        lend(&self.prefix, &mut texts.prefix);
        self.service.lend(settings, texts);
        self.node.lend(settings, texts);
    }

    /// The path below which everything else lies.
    ///
    /// ```
    /// use iox2sd::config::Global;
    /// assert_eq!(Global::default().root_path(), "/tmp/iceoryx2/");
    /// ```
    #[must_use]
    pub fn root_path(&self) -> &Path {
        &self.root_path
    }

    /// Sets the path below which everything else lies.
    ///
    /// ```
    /// use iox2sd::config::Global;
    ///
    /// let mut global = Global::default();
    /// global.set_root_path(&"/run/robot".try_into()?);
    /// assert_eq!(global.root_path(), "/run/robot");
    /// # Ok::<(), iox2sd::semantic_string::SemanticStringError>(())
    /// ```
    pub fn set_root_path(&mut self, value: &Path) {
        self.root_path = *value;
    }

    /// The directory of services: the root path and `service.directory`, joined as by
    /// [`Path::add_path_entry`].
    ///
    /// # Errors
    ///
    /// Refused with [`ExceedsMaximumLength`](SemanticStringError::ExceedsMaximumLength) where it
    /// would be longer than a path may be.
    ///
    /// # Examples
    ///
    /// ```
    /// use iox2sd::config::Config;
    ///
    /// let mut config = Config::default();
    /// assert_eq!(config.global.service_dir()?, "/tmp/iceoryx2/services");
    /// config.global.set_root_path(&"/run/robot".try_into()?);
    /// assert_eq!(config.global.service_dir()?, "/run/robot/services");
    /// # Ok::<(), iox2sd::semantic_string::SemanticStringError>(())
    /// ```
    pub fn service_dir(&self) -> Result<Path, SemanticStringError> {
        self.below_root(&self.service.directory)
    }

    /// The directory of nodes: the root path and `node.directory`, joined in the same way.
    ///
    /// # Errors
    ///
    /// Refused as [`service_dir`](Self::service_dir) is.
    ///
    /// # Examples
    ///
    /// ```
    /// use iox2sd::config::Config;
    /// assert_eq!(Config::default().global.node_dir()?, "/tmp/iceoryx2/nodes");
    /// # Ok::<(), iox2sd::semantic_string::SemanticStringError>(())
    /// ```
    pub fn node_dir(&self) -> Result<Path, SemanticStringError> {
        self.below_root(&self.node.directory)
    }

    fn below_root(&self, directory: &Path) -> Result<Path, SemanticStringError> {
        let mut path = self.root_path;
        path.add_path_entry(directory)?;
        Ok(path)
    }
}
