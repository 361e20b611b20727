//! The pattern of a service, with what is fixed by it.
//!
//! ```
//! use iox2sd::config::Config;
//! use iox2sd::static_config::event::StaticConfig;
//! use iox2sd::static_config::messaging_pattern::MessagingPattern;
//!
//! let pattern = MessagingPattern::Event(StaticConfig::new(&Config::default()));
//! assert_eq!(pattern.to_string(), "Event");
//! ```

use super::opener::Both;
use super::{blackboard, event, publish_subscribe, request_response};
use crate::messaging_pattern::MessagingPattern as Kind;
use std::fmt;

/// The pattern of a service, with what is fixed by it.
///
#[doc = example!(description of event)]
/// use iox2sd::static_config::messaging_pattern::MessagingPattern;
///
/// let pattern = MessagingPattern::Event(*service.event());
/// assert_eq!(service.messaging_pattern(), &pattern);
#[doc = example!(end)]
#[derive(Clone, Copy, Debug, PartialEq, Eq, Hash)]
#[allow(clippy::large_enum_variant)] // Texts are copied by value, and none is boxed.
#[non_exhaustive]
pub enum MessagingPattern {
    /// Clients send requests, and servers answer them.
    RequestResponse(request_response::StaticConfig),
    /// Publishers send samples to all subscribers.
    PublishSubscribe(publish_subscribe::StaticConfig),
    /// Notifiers wake listeners.
    Event(event::StaticConfig),
    /// A writer keeps values that readers look up by key.
    Blackboard(blackboard::StaticConfig),
}

/// The name of the variant.
impl fmt::Display for MessagingPattern {
    fn fmt(&self, f: &mut fmt::Formatter<'_>) -> fmt::Result {
        fmt::Display::fmt(&self.kind(), f)
    }
}

/// Defines the getter of what is fixed by one pattern.
macro_rules! getter {
    ($kind:literal $variant:ident $module:ident) => {
        #[doc = concat!("What is fixed of ", $kind, " service.")]
        ///
        /// # Panics
        ///
        /// Where the pattern is another, as [`kind`](Self::kind) says.
        ///
        #[doc = example!(description of $module)]
        #[doc = concat!(
                    "assert_eq!(service.messaging_pattern().", stringify!($module), "(), service.",
                    stringify!($module), "());"
                )]
        #[doc = example!(end)]
        #[must_use]
        pub fn $module(&self) -> &$module::StaticConfig {
            match self {
                MessagingPattern::$variant(fixed) => fixed,
                other => panic!(
                    concat!("the pattern is {}, not ", stringify!($variant)),
                    other
                ),
            }
        }
    };
}

impl MessagingPattern {
    /// The pattern alone.
    ///
    #[doc = example!(description of event)]
    /// assert_eq!(service.messaging_pattern().kind(), MessagingPattern::Event);
    #[doc = example!(end)]
    #[must_use]
    pub fn kind(&self) -> Kind {
        match self {
            MessagingPattern::RequestResponse(_) => Kind::RequestResponse,
            MessagingPattern::PublishSubscribe(_) => Kind::PublishSubscribe,
            MessagingPattern::Event(_) => Kind::Event,
            MessagingPattern::Blackboard(_) => Kind::Blackboard,
        }
    }

    /// Whether both are one pattern, whatever is fixed by it.
    ///
    #[doc = example!(description of event)]
    /// let one = *service.messaging_pattern();
    /// service.event_mut().max_listeners = 1;
    /// let other = service.messaging_pattern();
    /// assert!(one.is_same_pattern(other) && one != *other);
    #[doc = example!(end)]
    #[must_use]
    pub fn is_same_pattern(&self, rhs: &MessagingPattern) -> bool {
        self.kind() == rhs.kind()
    }

    /// Whether a service with this pattern meets what an opener requires: the pattern is the same,
    /// and its settings satisfy those of the opener. Types and attributes are no part of it: those
    /// [`StaticConfig::verify_opener`](super::StaticConfig::verify_opener) compares too.
    ///
    #[doc = example!(description of event)]
    /// let board = StaticConfig::new_blackboard(&name, &Config::default(), id)?;
    /// let (events, board) = (service.messaging_pattern(), board.messaging_pattern());
    /// assert!(events.satisfies(events) && !events.satisfies(board));
    #[doc = example!(end)]
    #[must_use]
    pub fn satisfies(&self, required: &Self) -> bool {
        Both::of(self, required).is_some_and(|both| both.first_unmet().is_none())
    }

    getter!("a request-response" RequestResponse request_response);
    getter!("a publish-subscribe" PublishSubscribe publish_subscribe);
}
