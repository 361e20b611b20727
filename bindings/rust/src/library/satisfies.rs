//! Whether a service meets what an opener requires.

use super::unexpected;
use crate::plain::Plain;
use crate::static_config::setting::Setting;
use crate::static_config::{blackboard, event, publish_subscribe, request_response};
use crate::sys;

/// What is fixed of services of one pattern.
pub(crate) trait Fixed {
    /// The first setting in which a service does not meet what an opener requires.
    fn unmet(&self, required: &Self) -> Option<Setting>;
}

/// Defines the comparison, by what is fixed as the library takes it.
macro_rules! compared {
    ($($pattern:ident: $export:ident)*) => {
        $(
            impl Fixed for $pattern::StaticConfig {
                fn unmet(&self, required: &Self) -> Option<Setting> {
                    let (service, required) = (self.as_c(), required.as_c());
                    // SAFETY: the pointers are those of one struct each.
                    let answer = unsafe { sys::$export(&service, 1, &required, 1) };
                    match answer.status {
                        sys::IOX2SD_STATUS_DONE => None,
                        sys::IOX2SD_STATUS_UNMET => Some(Setting::of_c(&answer.field)),
                        other => unexpected(other),
                    }
                }
            }
        )*
    };
}

compared! {
    publish_subscribe: iox2sd_publish_subscribe_satisfies_at
    event: iox2sd_event_satisfies_at
    request_response: iox2sd_request_response_satisfies_at
    blackboard: iox2sd_blackboard_satisfies_at
}
