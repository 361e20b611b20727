//! The settings that an opener requires of a service.
//!
//! ```
//! use iox2sd::config::Config;
//! use iox2sd::static_config::event::StaticConfig;
//! use iox2sd::static_config::setting::Setting;
//!
//! let service = StaticConfig::new(&Config::default());
//! let mut required = service;
//! required.max_nodes += 1;
//! assert_eq!(service.first_unmet(&required), Some(Setting::MaxNodes));
//! ```

use crate::display::choices;

choices! {
    /// A setting of a service, as openers require it. It prints as its name.
    ///
    /// ```
    /// use iox2sd::static_config::setting::Setting;
    /// assert_eq!(Setting::MaxNodes.to_string(), "max_nodes");
    /// ```
    #[non_exhaustive]
    Setting of u32 in "static_config::setting" {
        /// The longest time between two notifications.
        Deadline = IOX2SD_FIELD_DEADLINE, "deadline";
        /// How many subscribers there may be at once.
        MaxSubscribers = IOX2SD_FIELD_MAX_SUBSCRIBERS, "max_subscribers";
        /// How many publishers there may be at once.
        MaxPublishers = IOX2SD_FIELD_MAX_PUBLISHERS, "max_publishers";
        /// How many past samples a publisher keeps.
        HistorySize = IOX2SD_FIELD_HISTORY_SIZE, "history_size";
        /// How many samples wait for a subscriber at most.
        SubscriberMaxBufferSize = IOX2SD_FIELD_SUBSCRIBER_MAX_BUFFER_SIZE, "subscriber_max_buffer_size";
        /// How many samples a subscriber reads at once at most.
        SubscriberMaxBorrowedSamples = IOX2SD_FIELD_SUBSCRIBER_MAX_BORROWED_SAMPLES,
            "subscriber_max_borrowed_samples";
        /// Whether a full buffer gives up its oldest sample.
        EnableSafeOverflow = IOX2SD_FIELD_ENABLE_SAFE_OVERFLOW, "enable_safe_overflow";
        /// How many notifiers there may be at once.
        MaxNotifiers = IOX2SD_FIELD_MAX_NOTIFIERS, "max_notifiers";
        /// How many listeners there may be at once.
        MaxListeners = IOX2SD_FIELD_MAX_LISTENERS, "max_listeners";
        /// The greatest number that an event may have.
        EventIdMaxValue = IOX2SD_FIELD_EVENT_ID_MAX_VALUE, "event_id_max_value";
        /// The event that reports a new notifier.
        NotifierCreatedEvent = IOX2SD_FIELD_NOTIFIER_CREATED_EVENT, "notifier_created_event";
        /// The event that reports that a notifier left.
        NotifierDroppedEvent = IOX2SD_FIELD_NOTIFIER_DROPPED_EVENT, "notifier_dropped_event";
        /// The event that reports a notifier whose node died.
        NotifierDeadEvent = IOX2SD_FIELD_NOTIFIER_DEAD_EVENT, "notifier_dead_event";
        /// Whether a server's full buffer gives up its oldest request.
        EnableSafeOverflowForRequests = IOX2SD_FIELD_ENABLE_SAFE_OVERFLOW_FOR_REQUESTS,
            "enable_safe_overflow_for_requests";
        /// Whether a client's full buffer gives up its oldest response.
        EnableSafeOverflowForResponses = IOX2SD_FIELD_ENABLE_SAFE_OVERFLOW_FOR_RESPONSES,
            "enable_safe_overflow_for_responses";
        /// Whether a client may send a request for which it takes no response.
        EnableFireAndForgetRequests = IOX2SD_FIELD_ENABLE_FIRE_AND_FORGET_REQUESTS,
            "enable_fire_and_forget_requests";
        /// How many requests of one client may be open at each server at once.
        MaxActiveRequestsPerClient = IOX2SD_FIELD_MAX_ACTIVE_REQUESTS_PER_CLIENT,
            "max_active_requests_per_client";
        /// How many requests a client loans at once at most.
        MaxLoanedRequests = IOX2SD_FIELD_MAX_LOANED_REQUESTS, "max_loaned_requests";
        /// How many responses to one request wait for the client at most.
        MaxResponseBufferSize = IOX2SD_FIELD_MAX_RESPONSE_BUFFER_SIZE, "max_response_buffer_size";
        /// How many servers there may be at once.
        MaxServers = IOX2SD_FIELD_MAX_SERVERS, "max_servers";
        /// How many clients there may be at once.
        MaxClients = IOX2SD_FIELD_MAX_CLIENTS, "max_clients";
        /// How many responses to one request a client reads at once at most.
        MaxBorrowedResponsesPerPendingResponse = IOX2SD_FIELD_MAX_BORROWED_RESPONSES_PER_PENDING_RESPONSE,
            "max_borrowed_responses_per_pending_response";
        /// How many readers there may be at once.
        MaxReaders = IOX2SD_FIELD_MAX_READERS, "max_readers";
        /// How many writers there may be at once.
        MaxWriters = IOX2SD_FIELD_MAX_WRITERS, "max_writers";
        /// How many nodes may have the service open at once.
        MaxNodes = IOX2SD_FIELD_MAX_NODES, "max_nodes";
    }
}
