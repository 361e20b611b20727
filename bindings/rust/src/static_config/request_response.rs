//! What is fixed of a request-response service.
//!
#![doc = example!(fixed request_response)]
//! assert_eq!(fixed.max_active_requests_per_client(), 4);
#![doc = example!(end)]

use super::fixed::fixed;
use super::message_type_details::MessageTypeDetails;
use crate::library;

fixed! {
    "a request-response" request_response RequestResonse:
    /// Each number must be at least the required one, and each choice the same. The types of
    /// messages are no part of it.
    StaticConfig of iox2sd_request_response_config {
        /// Whether a new request replaces the oldest one where a server's buffer is full.
        enable_safe_overflow_for_requests: bool as has_safe_overflow_for_requests,
        /// Whether a new response replaces the oldest one where a client's buffer is full.
        enable_safe_overflow_for_responses: bool as has_safe_overflow_for_responses,
        /// Whether a client may send a request and take no response.
        enable_fire_and_forget_requests: bool as does_support_fire_and_forget_requests,
        /// How many requests of one client may be open at each server at once.
        max_active_requests_per_client: usize,
        /// How many requests a client may have taken and not yet sent.
        max_loaned_requests: usize,
        /// The capacity of a client's buffer for the responses to one request.
        max_response_buffer_size: usize,
        /// How many servers there may be at once.
        max_servers: usize,
        /// How many clients there may be at once.
        max_clients: usize,
        /// How many nodes may have the service open at once.
        max_nodes: usize,
        /// How many responses to one request a client may hold at once.
        max_borrowed_responses_per_pending_response: usize,
    } and {
        /// The types of a request's parts.
        request_message_type_details: MessageTypeDetails,
        /// The types of a response's parts.
        response_message_type_details: MessageTypeDetails,
    }
}

impl StaticConfig {
    /// The greatest number of one client's requests that can be in use at once, where it may have
    /// taken so many and not yet sent; `None` exactly where that passes 2^64 - 1.
    ///
    #[doc = example!(fixed request_response)]
    /// assert_eq!(fixed.required_amount_of_chunks_per_client_data_segment(2), Some(18));
    #[doc = example!(end)]
    #[must_use]
    pub fn required_amount_of_chunks_per_client_data_segment(
        &self,
        client_max_loaned_data: usize,
    ) -> Option<usize> {
        library::chunks(&library::client_chunks(
            self.max_servers,
            self.max_active_requests_per_client,
            client_max_loaned_data,
        ))
    }

    /// The greatest number of one server's responses that can be in use at once, where it may have
    /// taken so many to one request and not yet sent; `None` exactly where that passes 2^64 - 1.
    ///
    #[doc = example!(fixed request_response)]
    /// assert_eq!(fixed.required_amount_of_chunks_per_server_data_segment(2), Some(384));
    #[doc = example!(end)]
    #[must_use]
    pub fn required_amount_of_chunks_per_server_data_segment(
        &self,
        max_loaned_responses_per_request: usize,
    ) -> Option<usize> {
        library::chunks(&library::server_chunks(
            self.max_clients,
            self.max_active_requests_per_client,
            self.max_response_buffer_size,
            self.max_borrowed_responses_per_pending_response,
            max_loaned_responses_per_request,
        ))
    }
}
