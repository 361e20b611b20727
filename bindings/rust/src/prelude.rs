//! The names that a program begins with. It has no `Path`, which is one of the standard library too.
//!
//! ```
//! use iox2sd::prelude::*;
//!
//! let name: ServiceName = "My/Funk/ServiceName".parse()?;
//! let specifier = AttributeSpecifier::new().define(&"site".try_into()?, &"north".try_into()?)?;
//! println!("{name} has {} attributes", specifier.attributes().number_of_attributes());
//! # Ok::<(), Box<dyn std::error::Error>>(())
//! ```

pub use crate::attribute::{
    AttributeKey, AttributeSet, AttributeSpecifier, AttributeValue, AttributeVerifier,
};
pub use crate::callback_progression::CallbackProgression;
pub use crate::config::{
    AllocationStrategy, BackpressureStrategy, Config, DataSegmentType, EventId,
};
pub use crate::container::{ContainerHandle, Role};
pub use crate::dynamic_config::{
    ClientDetails, DeregisterNodeState, DynamicConfig, ListenerDetails, MessagingPatternSettings,
    NotifierDetails, PortCleanupAction, PortDetails, PublisherDetails, ReaderDetails,
    ServerDetails, SubscriberDetails, WriterDetails,
};
pub use crate::identifiers::{
    UniqueClientId, UniqueListenerId, UniqueNodeId, UniqueNotifierId, UniquePortId,
    UniquePublisherId, UniqueReaderId, UniqueServerId, UniqueServiceId, UniqueSubscriberId,
    UniqueWriterId,
};
pub use crate::messaging_pattern::MessagingPattern;
pub use crate::paths::{FileName, FilePath};
pub use crate::semantic_string::SemanticString;
pub use crate::service_name::ServiceName;
pub use crate::static_config::message_type_details::{MessageTypeDetails, TypeDetail, TypeVariant};
pub use crate::static_config::StaticConfig;
