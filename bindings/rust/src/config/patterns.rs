use super::{AllocationStrategy, BackpressureStrategy};
use crate::dynamic_config::{blackboard, event, publish_subscribe, request_response, Capacities};
use crate::library::Settings;
use crate::plain::plain_struct;
use crate::static_config as fixed;
use std::time::Duration;

/// The settings of the services of one pattern: those of this module.
///
/// ```
/// use iox2sd::config::{Config, PatternSettings};
/// use iox2sd::dynamic_config::{AllocError, DynamicConfig};
///
/// fn serve(settings: &impl PatternSettings) -> Result<DynamicConfig, AllocError> {
///     DynamicConfig::with_capacities(settings.capacities(), 7)
/// }
/// let defaults = Config::default().defaults;
/// assert!(serve(&defaults.event)?.is_event());
/// assert!(serve(&defaults.blackboard)?.is_blackboard());
/// # Ok::<(), AllocError>(())
/// ```
pub trait PatternSettings: Settings {
    /// The capacities of a service with these settings.
    ///
    /// ```
    /// use iox2sd::config::{Event, PatternSettings};
    /// assert_eq!(Event::default().capacities().max_nodes, 36);
    /// ```
    fn capacities(&self) -> Capacities;
}

/// Defines the settings of the services of one pattern.
macro_rules! settings {
    ($(#[$documentation:meta])* $name:ident of $c:ident for $module:ident { $($fields:tt)* }) => {
        plain_struct! {
            $(#[$documentation])*
            #[derive(Clone, Debug, PartialEq, Eq, Hash)]
            #[non_exhaustive]
            $name of $c {
                $($fields)*
            }
        }

        impl Default for $name {
            fn default() -> Self {
                Self::of(&Self::defaults())
            }
        }

        impl PatternSettings for $name {
            fn capacities(&self) -> Capacities {
                let room = self.room();
                Capacities {
                    max_nodes: room.nodes,
                    ports: $module::DynamicConfigSettings::of(&room).into(),
                }
            }
        }
    };
}

settings! {
    /// The settings that a publish-subscribe service gets by default.
    ///
    /// ```
    /// use iox2sd::config::PublishSubscribe;
    ///
    /// let mut settings = PublishSubscribe::default();
    /// settings.max_publishers = 5;
    /// assert_eq!((settings.max_publishers, settings.max_nodes), (5, 20));
    /// ```
    PublishSubscribe of iox2sd_publish_subscribe_settings for publish_subscribe {
        /// How many subscribers may be attached at once.
        max_subscribers: usize,
        /// How many publishers may be attached at once.
        max_publishers: usize,
        /// How many nodes may use the service at once.
        max_nodes: usize,
        /// The capacity of a subscriber's buffer, in samples.
        subscriber_max_buffer_size: usize,
        /// How many samples a subscriber may hold at once.
        subscriber_max_borrowed_samples: usize,
        /// How many samples a publisher may have taken and not yet sent.
        publisher_max_loaned_samples: usize,
        /// How many of the last samples a publisher keeps for subscribers that come later.
        publisher_history_size: usize,
        /// Whether a new sample replaces the oldest one where a buffer is full.
        enable_safe_overflow: bool,
        /// What a publisher does where a buffer is full and may not overflow.
        backpressure_strategy: BackpressureStrategy,
        /// How many connections of publishers that are gone a subscriber keeps.
        subscriber_expired_connection_buffer: usize,
        /// How a publisher's data segment grows for payloads whose length is known only at run time.
        publisher_allocation_strategy: AllocationStrategy,
    }
}

settings! {
    /// The settings that an event service gets by default.
    ///
    /// ```
    /// use iox2sd::config::Event;
    ///
    /// let mut settings = Event::default();
    /// settings.notifier_dead_event = Some(1);
    /// assert_eq!((settings.event_id_max_value, settings.deadline), (255, None));
    /// ```
    Event of iox2sd_event_settings for event {
        /// How many listeners may be attached at once.
        max_listeners: usize,
        /// How many notifiers may be attached at once.
        max_notifiers: usize,
        /// How many nodes may use the service at once.
        max_nodes: usize,
        /// The greatest number of an event.
        event_id_max_value: usize,
        /// The longest time that may pass between two events, if there is such a limit.
        deadline: Option<Duration>,
        /// The number of the event that reports a new notifier, if any does.
        notifier_created_event: Option<usize>,
        /// The number of the event that reports that a notifier was dropped, if any does.
        notifier_dropped_event: Option<usize>,
        /// The number of the event that reports a notifier whose node died, if any does.
        notifier_dead_event: Option<usize>,
    }
}

settings! {
    /// The settings that a request-response service gets by default. The name is that of iceoryx2,
    /// misspelt as there.
    ///
    /// ```
    /// use iox2sd::config::RequestResonse;
    ///
    /// let mut settings = RequestResonse::default();
    /// settings.max_servers = 1;
    /// assert_eq!((settings.max_servers, settings.max_clients), (1, 8));
    /// ```
    RequestResonse of iox2sd_request_response_settings for request_response {
        /// Whether a new request replaces the oldest one where a server's buffer is full.
        enable_safe_overflow_for_requests: bool,
        /// Whether a new response replaces the oldest one where a client's buffer is full.
        enable_safe_overflow_for_responses: bool,
        /// How many requests of one client may be open at each server at once.
        max_active_requests_per_client: usize,
        /// The capacity of a client's buffer for the responses to one request.
        max_response_buffer_size: usize,
        /// How many servers may be attached at once.
        max_servers: usize,
        /// How many clients may be attached at once.
        max_clients: usize,
        /// How many nodes may use the service at once.
        max_nodes: usize,
        /// How many responses to one request a client may hold at once.
        max_borrowed_responses_per_pending_response: usize,
        /// How many requests a client may have taken and not yet sent.
        max_loaned_requests: usize,
        /// How many responses to one request a server may have taken and not yet sent.
        server_max_loaned_responses_per_request: usize,
        /// What a client does where a server's buffer is full and may not overflow.
        client_backpressure_strategy: BackpressureStrategy,
        /// What a server does where a client's buffer is full and may not overflow.
        server_backpressure_strategy: BackpressureStrategy,
        /// How many connections of gone servers and gone pending responses a client keeps.
        client_expired_connection_buffer: usize,
        /// How many connections of gone clients each server keeps.
        server_expired_connection_buffer: usize,
        /// Whether a client may send a request and take no response.
        enable_fire_and_forget_requests: bool,
        /// How a client's data segment grows for requests whose length is known only at run time.
        client_allocation_strategy: AllocationStrategy,
        /// How a server's data segment grows for responses whose length is known only at run time.
        server_allocation_strategy: AllocationStrategy,
    }
}

settings! {
    /// The settings that a blackboard service gets by default.
    ///
    /// ```
    /// use iox2sd::config::Blackboard;
    ///
    /// let mut settings = Blackboard::default();
    /// settings.max_readers = 3;
    /// assert_eq!((settings.max_readers, settings.max_nodes), (3, 20));
    /// ```
    Blackboard of iox2sd_blackboard_settings for blackboard {
        /// How many readers may be attached at once.
        max_readers: usize,
        /// How many nodes may use the service at once.
        max_nodes: usize,
    }
}

/// Defines how many messages the settings require of a port's data segment.
macro_rules! required {
    ($settings:ident $module:ident $count:ident $loaned:ident, $of:literal) => {
        impl $settings {
            #[doc = concat!("The greatest number of ", $of, " that can be in use at once, as")]
            #[doc = concat!(
                "[`StaticConfig`](crate::static_config::", stringify!($module), "::StaticConfig::",
                stringify!($count), ")"
            )]
            /// counts them, with as many taken and not yet sent as the settings allow.
            ///
            /// ```
            #[doc = concat!("use iox2sd::config::", stringify!($settings), ";")]
            ///
            #[doc = concat!("let settings = ", stringify!($settings), "::default();")]
            #[doc = concat!(
                "let fixed = iox2sd::static_config::", stringify!($module),
                "::StaticConfig::from(&settings);"
            )]
            #[doc = concat!(
                "assert_eq!(settings.", stringify!($count), "(), fixed.", stringify!($count),
                "(settings.", stringify!($loaned), "));"
            )]
            /// ```
            #[must_use]
            pub fn $count(&self) -> Option<usize> {
                fixed::$module::StaticConfig::from(self).$count(self.$loaned)
            }
        }
    };
}

required! {
    PublishSubscribe publish_subscribe required_amount_of_samples_per_data_segment
    publisher_max_loaned_samples, "one publisher's samples"
}

required! {
    RequestResonse request_response required_amount_of_chunks_per_client_data_segment
    max_loaned_requests, "one client's requests"
}

required! {
    RequestResonse request_response required_amount_of_chunks_per_server_data_segment
    server_max_loaned_responses_per_request, "one server's responses"
}
