//! The service layer of the zero-copy middleware iceoryx2 0.9.3, over a proved library: what a
//! service is, and which nodes and ports are attached to it. It is for service builders, liveness
//! monitors, discovery and port factories.
//!
//! Modules, types, methods and texts have their names of iceoryx2. Most modules stand in its module
//! `service`; here they stand in [`service`], and one level above.
//!
//! | Module | What it has |
//! |---|---|
//! | [`service_name`], [`attribute`], [`paths`] | texts that are checked when they are made |
//! | [`identifiers`] | the ids of nodes, ports and services |
//! | [`config`] | the settings, and what they are by default |
//! | [`static_config`], [`service_hash`] | the description of a service |
//! | [`dynamic_config`], [`container`] | who is attached to a service |
//! | [`script`] | runs of services as text |
//! | [`conform`], [`log`] | logs of calls that overlapped: judged, and written while threads call |
//!
//! ```
//! use iox2sd::prelude::*;
//!
//! let mut service = DynamicConfig::with_capacities(&Config::default().defaults.event, 7)?;
//! let node = UniqueNodeId::new(1, 0, 0, 1).expect("the id of a node");
//! let handle = service.register_node_id(node)?;
//! assert_eq!(service.nodes().collect::<Vec<_>>(), [node]);
//! service.deregister_node_id(handle)?;
//! assert!(service.is_locked());
//! # Ok::<(), Box<dyn std::error::Error>>(())
//! ```
//!
//! # What is proved
//!
//! Each export of the library `libiox2sd` is proved to return what its definitions say. This crate
//! keeps values, and calls exports for each rule: which texts are legal, how a set is sorted and
//! verified, how a message is laid out, who may attach. The crate itself is tested, not proved. Its
//! `unsafe` calls of C are all in one module; users need none, and may write
//! `#![forbid(unsafe_code)]`.

#![deny(unsafe_code, unsafe_op_in_unsafe_fn)]
#![warn(
    missing_docs,
    missing_debug_implementations,
    clippy::undocumented_unsafe_blocks
)]

#[macro_use]
mod examples;

pub mod attribute;
pub mod config;
pub mod conform;
pub mod container;
pub mod dynamic_config;
pub mod identifiers;
pub mod log;
pub mod messaging_pattern;
pub mod paths;
pub mod prelude;
pub mod script;
pub mod semantic_string;
pub mod service_hash;
pub mod service_name;
pub mod static_config;

mod callback_progression;
mod display;
#[allow(unsafe_code)]
mod library;
mod limits;
mod plain;
// Names are those of the headers.
#[allow(missing_debug_implementations, clippy::struct_field_names)]
mod sys;
mod text;

pub use callback_progression::CallbackProgression;
pub use display::UnknownName;

/// The modules of this crate that stand in the module `service` of iceoryx2.
///
/// ```
/// use iox2sd::service::service_name::ServiceName;
///
/// let name: iox2sd::service_name::ServiceName = ServiceName::new("lidar/front")?;
/// assert_eq!(name, "lidar/front");
/// # Ok::<(), iox2sd::service::service_name::ServiceNameError>(())
/// ```
pub mod service {
    pub use crate::{
        attribute, dynamic_config, messaging_pattern, service_hash, service_name, static_config,
    };
}

/// The version of the library, as `0.1.0`.
///
/// ```
/// assert_eq!(iox2sd::version().split('.').count(), 3);
/// ```
#[must_use]
pub fn version() -> String {
    library::version().unwrap_or_else(|status| library::unexpected(status))
}

/// The version of iceoryx2 whose layer this is, as `0.9.3`.
///
/// ```
/// assert_eq!(iox2sd::layer_version(), "0.9.3");
/// ```
#[must_use]
pub fn layer_version() -> String {
    library::layer_version().unwrap_or_else(|status| library::unexpected(status))
}

/// Runs the example of the README as a test.
#[cfg(doctest)]
#[doc = include_str!("../README.md")]
struct ReadMe;

/// What an opener requires has a type of its own, so that the wrong order does not compile.
///
/// ```
/// use iox2sd::prelude::*;
/// use iox2sd::static_config::messaging_pattern::MessagingPattern as Required;
/// fn opens(service: &StaticConfig, required: &Required, attributes: &AttributeVerifier) -> bool {
///     service.verify_opener(required, attributes).is_ok()
/// }
/// ```
///
/// ```compile_fail,E0599
/// use iox2sd::prelude::*;
/// use iox2sd::static_config::messaging_pattern::MessagingPattern as Required;
/// fn opens(service: &StaticConfig, required: &Required, attributes: &AttributeVerifier) -> bool {
///     required.verify_opener(service, attributes).is_ok()
/// }
/// ```
///
/// A description has no check that leaves out types and attributes: its pattern has it.
///
/// ```compile_fail,E0599
/// use iox2sd::prelude::*;
/// use iox2sd::static_config::messaging_pattern::MessagingPattern as Required;
/// fn satisfies(service: &StaticConfig, required: &Required) -> bool {
///     service.satisfies(required)
/// }
/// ```
///
/// Settings may grow, so that none are written out.
///
/// ```compile_fail,E0639
/// let settings = iox2sd::config::Blackboard { max_readers: 3, max_nodes: 4 };
/// ```
#[cfg(doctest)]
struct DoesNotCompile;
