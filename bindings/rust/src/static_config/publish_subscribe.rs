//! What is fixed of a publish-subscribe service.
//!
#![doc = example!(fixed publish_subscribe)]
//! assert_eq!(fixed.max_subscribers(), 8);
#![doc = example!(end)]

use super::fixed::fixed;
use super::message_type_details::MessageTypeDetails;
use crate::library;

fixed! {
    "a publish-subscribe" publish_subscribe PublishSubscribe:
    /// Each number must be at least the required one, and each choice the same. The types of
    /// messages are no part of it.
    StaticConfig of iox2sd_publish_subscribe_config {
        /// How many subscribers there may be at once.
        max_subscribers: usize,
        /// How many publishers there may be at once.
        max_publishers: usize,
        /// How many nodes may have the service open at once.
        max_nodes: usize,
        /// How many of the last samples a publisher keeps for subscribers that come later.
        history_size: usize,
        /// The capacity of a subscriber's buffer, in samples.
        subscriber_max_buffer_size: usize,
        /// How many samples a subscriber may hold at once.
        subscriber_max_borrowed_samples: usize,
        /// Whether a new sample replaces the oldest one where a buffer is full.
        enable_safe_overflow: bool as has_safe_overflow,
    } and {
        /// The types of a message's parts.
        message_type_details: MessageTypeDetails,
    }
}

impl StaticConfig {
    /// The greatest number of one publisher's samples that can be in use at once, where it may
    /// have taken so many and not yet sent; `None` exactly where that passes 2^64 - 1.
    ///
    #[doc = example!(fixed publish_subscribe)]
    /// assert_eq!(fixed.required_amount_of_samples_per_data_segment(2), Some(34));
    /// assert_eq!(fixed.required_amount_of_samples_per_data_segment(usize::MAX), None);
    #[doc = example!(end)]
    #[must_use]
    pub fn required_amount_of_samples_per_data_segment(
        &self,
        publisher_max_loaned_data: usize,
    ) -> Option<usize> {
        library::chunks(&library::publisher_chunks(
            self.max_subscribers,
            self.subscriber_max_buffer_size,
            self.subscriber_max_borrowed_samples,
            self.history_size,
            publisher_max_loaned_data,
        ))
    }
}
