//! The messaging patterns of services.
//!
//! ```
//! use iox2sd::messaging_pattern::MessagingPattern;
//! use iox2sd::service_hash::ServiceHash;
//!
//! let name = "lidar/front".try_into()?;
//! let images = ServiceHash::new(&name, MessagingPattern::PublishSubscribe)?;
//! assert_ne!(images, ServiceHash::new(&name, MessagingPattern::Blackboard)?);
//! # Ok::<(), Box<dyn std::error::Error>>(())
//! ```

use crate::display::choices;

choices! {
    /// How the ports of a service talk to one another.
    ///
    /// ```
    /// use iox2sd::messaging_pattern::MessagingPattern;
    /// assert_eq!(MessagingPattern::Event.to_string(), "Event");
    /// ```
    MessagingPattern of u64 in "messaging_pattern" {
        /// Publishers send samples to all subscribers.
        PublishSubscribe = IOX2SD_PATTERN_PUBLISH_SUBSCRIBE;
        /// Notifiers wake listeners.
        Event = IOX2SD_PATTERN_EVENT;
        /// Clients send requests, and servers answer them.
        RequestResponse = IOX2SD_PATTERN_REQUEST_RESPONSE;
        /// A writer keeps values that readers look up by key.
        Blackboard = IOX2SD_PATTERN_BLACKBOARD;
    }
}
