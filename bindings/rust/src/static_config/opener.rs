//! What an opener requires of a service.

use super::message_type_details::{Incompatibility, IncompatibilityCause, MessageTypeDetails};
use super::messaging_pattern::MessagingPattern as Pattern;
use super::setting::Setting;
use super::{blackboard, event, publish_subscribe, request_response};
use crate::attribute::AttributeVerificationError;
use crate::display::padded;
use crate::library;
use crate::messaging_pattern::MessagingPattern;
use crate::sys;
use std::error::Error;
use std::fmt;

/// The first that an opener requires and a service does not meet.
///
/// ```
/// use iox2sd::static_config::setting::Setting;
/// use iox2sd::static_config::Unmet;
///
/// let unmet = Unmet::Setting(Setting::MaxNodes);
/// assert_eq!(unmet.to_string(), "max_nodes: a setting is not what the opener requires");
/// ```
#[derive(Clone, Debug, PartialEq, Eq, Hash)]
#[non_exhaustive]
pub enum Unmet {
    /// The service has another pattern.
    Pattern {
        /// That of the service.
        service: MessagingPattern,
        /// The one that is required.
        required: MessagingPattern,
    },
    /// What the attributes lack.
    Attributes(Box<AttributeVerificationError>),
    /// Why an opener may not use the samples.
    Types(Incompatibility),
    /// Why an opener may not use the requests.
    RequestTypes(Incompatibility),
    /// Why an opener may not use the responses.
    ResponseTypes(Incompatibility),
    /// What keeps the opener from the keys of a blackboard.
    KeyType(IncompatibilityCause),
    /// The first setting that does not meet what is required.
    Setting(Setting),
}

impl fmt::Display for Unmet {
    fn fmt(&self, f: &mut fmt::Formatter<'_>) -> fmt::Result {
        match self {
            Unmet::Pattern { service, required } => padded(
                f,
                format_args!("the service has the pattern {service}, not {required}"),
            ),
            Unmet::Attributes(lacked) => lacked.fmt(f),
            Unmet::Types(cause) => cause.fmt(f),
            Unmet::RequestTypes(cause) => padded(f, format_args!("of requests, {cause}")),
            Unmet::ResponseTypes(cause) => padded(f, format_args!("of responses, {cause}")),
            Unmet::KeyType(cause) => padded(f, format_args!("the key has {cause}")),
            Unmet::Setting(setting) => {
                let reason = library::status_text(sys::IOX2SD_STATUS_UNMET).unwrap_or_default();
                padded(f, format_args!("{setting}: {reason}"))
            }
        }
    }
}

impl Error for Unmet {}

/// What is fixed of a service and required by an opener, of one pattern.
pub(super) enum Both<'a> {
    PublishSubscribe([&'a publish_subscribe::StaticConfig; 2]),
    Event([&'a event::StaticConfig; 2]),
    RequestResponse([&'a request_response::StaticConfig; 2]),
    Blackboard([&'a blackboard::StaticConfig; 2]),
}

impl<'a> Both<'a> {
    /// Where the patterns are the same.
    pub(super) fn of(service: &'a Pattern, required: &'a Pattern) -> Option<Self> {
        Some(match (service, required) {
            (Pattern::PublishSubscribe(service), Pattern::PublishSubscribe(required)) => {
                Both::PublishSubscribe([service, required])
            }
            (Pattern::Event(service), Pattern::Event(required)) => Both::Event([service, required]),
            (Pattern::RequestResponse(service), Pattern::RequestResponse(required)) => {
                Both::RequestResponse([service, required])
            }
            (Pattern::Blackboard(service), Pattern::Blackboard(required)) => {
                Both::Blackboard([service, required])
            }
            _ => return None,
        })
    }

    /// Whether the types of messages suit.
    pub(super) fn verify_types(&self) -> Result<(), Unmet> {
        match self {
            Both::PublishSubscribe([service, required]) => required
                .message_type_details
                .check_compatible_to(&service.message_type_details)
                .map_err(Unmet::Types),
            Both::RequestResponse([service, required]) => {
                required
                    .request_message_type_details
                    .check_compatible_to(&service.request_message_type_details)
                    .map_err(Unmet::RequestTypes)?;
                required
                    .response_message_type_details
                    .check_compatible_to(&service.response_message_type_details)
                    .map_err(Unmet::ResponseTypes)
            }
            Both::Event(_) => Ok(()),
            Both::Blackboard([service, required]) => {
                let [service, required] = [service, required]
                    .map(|fixed| MessageTypeDetails::of_one(&fixed.type_details));
                let refused = required.check_compatible_to(&service);
                refused.map_err(|refused| Unmet::KeyType(refused.cause))
            }
        }
    }

    pub(super) fn first_unmet(&self) -> Option<Setting> {
        match self {
            Both::PublishSubscribe([service, required]) => service.first_unmet(required),
            Both::Event([service, required]) => service.first_unmet(required),
            Both::RequestResponse([service, required]) => service.first_unmet(required),
            Both::Blackboard([service, required]) => service.first_unmet(required),
        }
    }
}
