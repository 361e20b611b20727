//! What is fixed of an event service.
//!
#![doc = example!(fixed event)]
//! assert_eq!(fixed.event_id_max_value(), 255);
#![doc = example!(end)]

use super::fixed::fixed;
use crate::config::EventId;
use crate::identifiers::Time;
use std::time::Duration;

/// How long listeners wait for a notification before one counts as missed.
///
/// ```
/// use iox2sd::config::Config;
/// use iox2sd::identifiers::Time;
/// use iox2sd::static_config::event::{Deadline, StaticConfig};
/// use std::time::Duration;
///
/// let value = Duration::from_secs(2);
/// let mut config = Config::default();
/// config.defaults.event.deadline = Some(value);
/// let expected = Deadline { creation_time: Time::default(), value };
/// assert_eq!(StaticConfig::new(&config).deadline, Some(expected));
/// ```
#[derive(Clone, Copy, Debug, PartialEq, Eq, Hash)]
pub struct Deadline {
    /// When the deadline was set.
    pub creation_time: Time,
    /// The longest time between two notifications.
    pub value: Duration,
}

fixed! {
    "an event" event Event:
    /// Each number must be at least the required one, and the deadline and each event the same;
    /// when a deadline was set does not count.
    StaticConfig of iox2sd_event_config {
        /// How many notifiers there may be at once.
        max_notifiers: usize,
        /// How many listeners there may be at once.
        max_listeners: usize,
        /// How many nodes may have the service open at once.
        max_nodes: usize,
        /// The greatest number that an event may have.
        event_id_max_value: usize,
        /// The deadline, if there is one.
        deadline: Option<Deadline> as _,
        /// The number of the event that reports a new notifier, if there is one.
        notifier_created_event: Option<usize> as _,
        /// The number of the event that reports that a notifier was dropped, if there is one.
        notifier_dropped_event: Option<usize> as _,
        /// The number of the event that reports a notifier whose node died, if there is one.
        notifier_dead_event: Option<usize> as _,
    } and {
    }
}

/// Defines the getter of an event, by what it reports.
macro_rules! event_of {
    ($getter:ident, $reports:literal) => {
        #[doc = concat!("The event that reports ", $reports, ", if there is one.")]
        ///
        /// ```
        /// use iox2sd::config::{Config, EventId};
        /// use iox2sd::static_config::event::StaticConfig;
        ///
        /// let mut config = Config::default();
        #[doc = concat!("assert_eq!(StaticConfig::new(&config).", stringify!($getter), "(), None);")]
        #[doc = concat!("config.defaults.event.", stringify!($getter), " = Some(2);")]
        #[doc = concat!("let event = StaticConfig::new(&config).", stringify!($getter), "();")]
        /// assert_eq!(event, Some(EventId::new(2)));
        /// ```
        #[must_use]
        pub fn $getter(&self) -> Option<EventId> {
            self.$getter.map(EventId::new)
        }
    };
}

impl StaticConfig {
    /// The longest time between two notifications, if there is such a limit.
    ///
    /// ```
    /// use iox2sd::config::Config;
    /// use iox2sd::static_config::event::StaticConfig;
    /// use std::time::Duration;
    ///
    /// let mut config = Config::default();
    /// assert_eq!(StaticConfig::new(&config).deadline(), None);
    /// config.defaults.event.deadline = Some(Duration::from_secs(2));
    /// assert_eq!(StaticConfig::new(&config).deadline(), Some(Duration::from_secs(2)));
    /// ```
    #[must_use]
    pub fn deadline(&self) -> Option<Duration> {
        self.deadline.map(|deadline| deadline.value)
    }

    event_of!(notifier_created_event, "a new notifier");
    event_of!(notifier_dropped_event, "that a notifier was dropped");
    event_of!(notifier_dead_event, "a notifier whose node died");
}
