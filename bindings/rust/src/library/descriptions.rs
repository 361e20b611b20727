//! Calls on the settings of one pattern.

use super::{done, unexpected};
use crate::config::{Blackboard, Event, PublishSubscribe, RequestResonse};
use crate::static_config::messaging_pattern::MessagingPattern;
use crate::static_config::{blackboard, event, publish_subscribe, request_response};
use crate::sys;
use std::mem::MaybeUninit;

/// The settings of services of one pattern, by which the library describes one.
pub trait Settings: Sized {
    type C;
    type Room;

    fn defaults() -> Self::C;

    /// What the library makes of a service with these settings, a name that is legal, and an id.
    fn describe(&self, name: &str, id: sys::iox2sd_id) -> Result<sys::iox2sd_description, u32>;

    /// What is fixed of a service by its pattern.
    fn fixed_by(made: &sys::iox2sd_description) -> MessagingPattern;

    /// The capacities of a service with these settings.
    fn room(&self) -> Self::Room;

    /// What is fixed by the settings, whatever name and id a service has.
    fn fixed(&self) -> sys::iox2sd_description {
        let made = self.describe("a", sys::iox2sd_id::default());
        made.unwrap_or_else(|status| unexpected(status))
    }
}

/// Defines the calls on the settings of each pattern.
macro_rules! settings {
    (
        $(
            $settings:ident $variant:ident $module:ident: $c:ident $room:ident
            $defaults:ident $describe:ident $capacities:ident
        )*
    ) => {
        $(
            impl Settings for $settings {
                type C = sys::$c;
                type Room = sys::$room;

                fn defaults() -> sys::$c {
                    // SAFETY: the call takes no pointer.
                    unsafe { sys::$defaults() }
                }

                fn describe(
                    &self,
                    name: &str,
                    id: sys::iox2sd_id,
                ) -> Result<sys::iox2sd_description, u32> {
                    let given = self.as_c();
                    let mut made = MaybeUninit::<sys::iox2sd_description>::zeroed();
                    let (text, length) = (name.as_ptr(), name.len());
                    // SAFETY: the pointers are those of one struct each, and of a slice, which do
                    // not overlap. A description is plain numbers, and false where they are 0.
                    unsafe {
                        let out = made.as_mut_ptr();
                        done(sys::$describe(&given, 1, text, length, true, id, out, 1).status)?;
                        Ok(made.assume_init())
                    }
                }

                fn fixed_by(made: &sys::iox2sd_description) -> MessagingPattern {
                    MessagingPattern::$variant($module::StaticConfig::of(&made.$module))
                }

                fn room(&self) -> sys::$room {
                    // SAFETY: the pointer is that of one struct.
                    unsafe { sys::$capacities(&self.as_c(), 1) }
                }
            }
        )*
    };
}

settings! {
    PublishSubscribe PublishSubscribe publish_subscribe:
        iox2sd_publish_subscribe_settings iox2sd_publish_subscribe_capacities
        iox2sd_publish_subscribe_defaults iox2sd_describe_publish_subscribe_at
        iox2sd_publish_subscribe_capacities_of_settings_at
    Event Event event:
        iox2sd_event_settings iox2sd_event_capacities
        iox2sd_event_defaults iox2sd_describe_event_at
        iox2sd_event_capacities_of_settings_at
    RequestResonse RequestResponse request_response:
        iox2sd_request_response_settings iox2sd_request_response_capacities
        iox2sd_request_response_defaults iox2sd_describe_request_response_at
        iox2sd_request_response_capacities_of_settings_at
    Blackboard Blackboard blackboard:
        iox2sd_blackboard_settings iox2sd_blackboard_capacities
        iox2sd_blackboard_defaults iox2sd_describe_blackboard_at
        iox2sd_blackboard_capacities_of_settings_at
}
