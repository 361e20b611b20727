//! What is fixed of a service: its description.
//!
//! ```
//! use iox2sd::config::Config;
//! use iox2sd::identifiers::UniqueServiceId;
//! use iox2sd::static_config::message_type_details::{MessageTypeDetails, TypeVariant};
//! use iox2sd::static_config::StaticConfig;
//!
//! let name = "lidar/front".try_into()?;
//! let id = UniqueServiceId::new(1, 2, 3, 4);
//! let mut service = StaticConfig::new_publish_subscribe(&name, &Config::default(), id)?;
//! service.publish_subscribe_mut().message_type_details =
//!     MessageTypeDetails::from::<u64, (), [f32; 3]>(TypeVariant::Dynamic)?;
//!
//! let samples = service.publish_subscribe().required_amount_of_samples_per_data_segment(2);
//! assert_eq!(samples, Some(34));
//! # Ok::<(), Box<dyn std::error::Error>>(())
//! ```

pub mod blackboard;
pub mod event;
pub mod message_type_details;
pub mod messaging_pattern;
pub mod publish_subscribe;
pub mod request_response;
pub mod setting;

mod fixed;
mod opener;

pub use opener::Unmet;

use crate::attribute::{AttributeSet, AttributeVerifier};
use crate::config::{Config, PatternSettings};
use crate::display::getters;
use crate::identifiers::UniqueServiceId;
use crate::plain::Plain;
use crate::service_hash::{ServiceHash, ServiceHashError};
use crate::service_name::ServiceName;
use messaging_pattern::MessagingPattern;
use opener::Both;

/// The description of a service: its name, its hash text, its id, its attributes, and what is fixed
/// by its pattern.
///
#[doc = example!(description of event)]
/// assert_eq!(service, service.clone());
/// assert_eq!((service.name(), service.unique_service_id()), (&name, id));
#[doc = example!(end)]
#[derive(Clone, Debug, PartialEq, Eq, Hash)]
pub struct StaticConfig {
    service_hash: ServiceHash,
    service_name: ServiceName,
    unique_service_id: UniqueServiceId,
    attributes: AttributeSet,
    messaging_pattern: MessagingPattern,
}

/// Defines, for one pattern, the maker of descriptions and the getters of what is fixed by it.
macro_rules! of_pattern {
    (
        $kind:literal $variant:ident $module:ident $make:ident $is:ident
        $get_mut:ident $as:ident $as_mut:ident
    ) => {
        #[doc = concat!("The description of ", $kind, " service with the defaults of a")]
        /// configuration and without attributes.
        ///
        /// # Errors
        ///
        /// Refused as [`ServiceHash::new`] is for the name and the pattern.
        ///
        /// # Examples
        ///
        #[doc = example!(description of $module)]
        #[doc = concat!("let other = StaticConfig::", stringify!($make), "(&name, &Config::default(), id)?;")]
        /// assert_eq!(other, service);
        #[doc = example!(end)]
        pub fn $make(
            service_name: &ServiceName,
            config: &Config,
            unique_service_id: UniqueServiceId,
        ) -> Result<Self, ServiceHashError> {
            Self::new(service_name, &config.defaults.$module, unique_service_id)
        }

        #[doc = concat!("Whether it is ", $kind, " service.")]
        ///
        #[doc = example!(description of $module)]
        #[doc = concat!("assert!(service.", stringify!($is), "());")]
        #[doc = example!(end)]
        #[must_use]
        pub fn $is(&self) -> bool {
            self.$as().is_some()
        }

        #[doc = concat!("What is fixed of ", $kind, " service; `None` for each other pattern.")]
        ///
        #[doc = example!(description of $module)]
        #[doc = concat!("let fixed = service.", stringify!($as), "().ok_or(\"another pattern\")?;")]
        /// assert_eq!(fixed.max_nodes(), settings.max_nodes);
        #[doc = example!(end)]
        #[must_use]
        pub fn $as(&self) -> Option<&$module::StaticConfig> {
            match &self.messaging_pattern {
                MessagingPattern::$variant(fixed) => Some(fixed),
                _ => None,
            }
        }

        #[doc = concat!("The same as [`", stringify!($as), "`](Self::", stringify!($as), "),")]
        /// to be changed.
        ///
        #[doc = example!(description of $module)]
        #[doc = concat!("if let Some(fixed) = service.", stringify!($as_mut), "() {")]
        ///     fixed.max_nodes = 1;
        /// }
        #[doc = concat!("assert_eq!(service.", stringify!($module), "().max_nodes(), 1);")]
        #[doc = example!(end)]
        #[must_use]
        pub fn $as_mut(&mut self) -> Option<&mut $module::StaticConfig> {
            match &mut self.messaging_pattern {
                MessagingPattern::$variant(fixed) => Some(fixed),
                _ => None,
            }
        }

        #[doc = concat!("What is fixed of ", $kind, " service.")]
        ///
        /// # Panics
        ///
        #[doc = concat!("Where [`Self::", stringify!($as), "`] is `None`.")]
        ///
        #[doc = example!(description of $module)]
        #[doc = concat!("let fixed = service.", stringify!($module), "();")]
        /// assert_eq!(fixed.max_nodes(), settings.max_nodes);
        #[doc = example!(end)]
        #[must_use]
        pub fn $module(&self) -> &$module::StaticConfig {
            match &self.messaging_pattern {
                MessagingPattern::$variant(fixed) => fixed,
                other => panic!(concat!("the pattern is {}, not ", stringify!($variant)), other),
            }
        }

        #[doc = concat!("What is fixed of ", $kind, " service, to be changed.")]
        ///
        /// # Panics
        ///
        #[doc = concat!("Where [`Self::", stringify!($as), "`] is `None`.")]
        ///
        #[doc = example!(description of $module)]
        #[doc = concat!("service.", stringify!($get_mut), "().max_nodes = 1;")]
        #[doc = concat!("assert_eq!(service.", stringify!($module), "().max_nodes(), 1);")]
        #[doc = example!(end)]
        #[must_use]
        pub fn $get_mut(&mut self) -> &mut $module::StaticConfig {
            match &mut self.messaging_pattern {
                MessagingPattern::$variant(fixed) => fixed,
                other => panic!(concat!("the pattern is {}, not ", stringify!($variant)), other),
            }
        }
    };
}

impl StaticConfig {
    /// The description of a service with the settings of its pattern and without attributes.
    ///
    /// # Errors
    ///
    /// Refused as [`ServiceHash::new`] is for the name and the pattern.
    ///
    /// # Examples
    ///
    #[doc = example!(description of event)]
    /// assert_eq!(service.event().max_listeners(), settings.max_listeners);
    #[doc = example!(end)]
    pub fn new<S: PatternSettings>(
        service_name: &ServiceName,
        settings: &S,
        unique_service_id: UniqueServiceId,
    ) -> Result<Self, ServiceHashError> {
        let made = settings.describe(service_name, unique_service_id.as_c());
        let made = made.map_err(ServiceHashError::of)?;
        Ok(StaticConfig {
            service_hash: ServiceHash::made(&made),
            service_name: *service_name,
            unique_service_id,
            attributes: AttributeSet::new(),
            messaging_pattern: S::fixed_by(&made),
        })
    }

    of_pattern! {
        "a request-response" RequestResponse request_response new_request_response is_request_response
        request_response_mut as_request_response as_request_response_mut
    }

    of_pattern! {
        "an event" Event event new_event is_event
        event_mut as_event as_event_mut
    }

    of_pattern! {
        "a publish-subscribe" PublishSubscribe publish_subscribe new_publish_subscribe is_publish_subscribe
        publish_subscribe_mut as_publish_subscribe as_publish_subscribe_mut
    }

    of_pattern! {
        "a blackboard" Blackboard blackboard new_blackboard is_blackboard
        blackboard_mut as_blackboard as_blackboard_mut
    }

    /// The same service with these attributes in place of those that it had.
    ///
    #[doc = example!(description of event)]
    /// let specifier = AttributeSpecifier::new().define(&"site".parse()?, &"north".parse()?)?;
    /// service = service.with_attributes(specifier.attributes());
    /// assert_eq!(service.attributes(), specifier.attributes());
    #[doc = example!(end)]
    #[must_use]
    pub fn with_attributes(self, attributes: &AttributeSet) -> Self {
        StaticConfig {
            attributes: attributes.clone(),
            ..self
        }
    }

    getters! {
        {
            /// # use iox2sd::{prelude::*, service_hash::ServiceHash};
            /// let (name, id) = ("front".parse()?, UniqueServiceId::new(1, 0, 0, 1));
            /// let service = StaticConfig::new_event(&name, &Config::default(), id)?;
        }
        /// The attributes of the service.
        attributes -> &AttributeSet = |service| &service.attributes,
            "service.attributes(), &AttributeSet::new()";
        /// The hash text of the service.
        service_hash -> &ServiceHash = |service| &service.service_hash,
            "service.service_hash(), &ServiceHash::new(&name, MessagingPattern::Event)?";
        /// The id of the service.
        unique_service_id -> UniqueServiceId = |service| service.unique_service_id,
            "service.unique_service_id(), id";
        /// The name of the service.
        name -> &ServiceName = |service| &service.service_name, "service.name(), \"front\"";
        /// The pattern of the service, with what is fixed by it.
        messaging_pattern -> &MessagingPattern = |service| &service.messaging_pattern,
            "service.messaging_pattern().kind().name(), \"Event\"";
    }

    /// Whether both services have one pattern, whatever is fixed by it.
    ///
    #[doc = example!(description of event)]
    /// let board = StaticConfig::new_blackboard(&name, &Config::default(), id)?;
    /// assert!(service.has_same_messaging_pattern(&service));
    /// assert!(!service.has_same_messaging_pattern(&board));
    #[doc = example!(end)]
    #[must_use]
    pub fn has_same_messaging_pattern(&self, rhs: &StaticConfig) -> bool {
        self.messaging_pattern
            .is_same_pattern(&rhs.messaging_pattern)
    }

    /// Whether the service meets all that an opener requires: of its pattern, its attributes, the
    /// types of its messages or keys, and its settings. Types of keys are compared as headers are.
    ///
    /// # Errors
    ///
    /// Refused with the first of them that it does not meet, in this order.
    ///
    /// # Examples
    ///
    #[doc = example!(description of event)]
    /// use iox2sd::static_config::Unmet;
    ///
    /// let required = *service.messaging_pattern();
    /// assert_eq!(service.verify_opener(&required, &AttributeVerifier::new()), Ok(()));
    /// let verifier = AttributeVerifier::new().require_key(&"site".parse()?)?;
    /// let refused = service.verify_opener(&required, &verifier).unwrap_err();
    /// assert!(matches!(refused, Unmet::Attributes(_)));
    #[doc = example!(end)]
    pub fn verify_opener(
        &self,
        required: &MessagingPattern,
        attributes: &AttributeVerifier,
    ) -> Result<(), Unmet> {
        let both = Both::of(&self.messaging_pattern, required).ok_or(Unmet::Pattern {
            service: self.messaging_pattern.kind(),
            required: required.kind(),
        })?;
        let verified = attributes.verify_requirements(&self.attributes);
        verified.map_err(|lacked| Unmet::Attributes(Box::new(lacked)))?;
        both.verify_types()?;
        both.first_unmet()
            .map_or(Ok(()), |setting| Err(Unmet::Setting(setting)))
    }
}
