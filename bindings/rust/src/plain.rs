//! Values as the library has them.

use crate::static_config::event::Deadline;
use crate::sys;
use std::time::Duration;

/// A value that the library has as a plain one.
pub(crate) trait Plain: Copy {
    type C;

    /// The value that the library gives. Ends the program at one that its header excludes.
    fn of_c(c: &Self::C) -> Self;

    fn as_c(self) -> Self::C;
}

/// Values that are the same in the library.
macro_rules! same {
    ($($name:ty)*) => {
        $(
            impl Plain for $name {
                type C = Self;

                #[inline]
                fn of_c(c: &Self) -> Self {
                    *c
                }

                #[inline]
                fn as_c(self) -> Self {
                    self
                }
            }
        )*
    };
}

same!(u8 usize bool);

impl Plain for Option<usize> {
    type C = sys::iox2sd_optional_event_id;

    fn of_c(c: &Self::C) -> Self {
        c.is_some.then_some(c.number)
    }

    fn as_c(self) -> Self::C {
        sys::iox2sd_optional_event_id {
            number: self.unwrap_or_default(),
            is_some: self.is_some(),
        }
    }
}

impl Plain for Duration {
    type C = sys::iox2sd_duration;

    fn of_c(c: &Self::C) -> Self {
        Duration::new(c.seconds, c.nanoseconds)
    }

    fn as_c(self) -> Self::C {
        sys::iox2sd_duration {
            seconds: self.as_secs(),
            nanoseconds: self.subsec_nanos(),
        }
    }
}

impl Plain for Option<Duration> {
    type C = sys::iox2sd_optional_duration;

    fn of_c(c: &Self::C) -> Self {
        c.is_some.then(|| Duration::new(c.seconds, c.nanoseconds))
    }

    fn as_c(self) -> Self::C {
        let span = self.unwrap_or_default().as_c();
        sys::iox2sd_optional_duration {
            seconds: span.seconds,
            nanoseconds: span.nanoseconds,
            is_some: self.is_some(),
        }
    }
}

/// The library has no time at which a deadline was set: it is the default one.
impl Plain for Option<Deadline> {
    type C = sys::iox2sd_optional_duration;

    fn of_c(c: &Self::C) -> Self {
        let deadline = |value| Deadline {
            creation_time: crate::identifiers::Time::default(),
            value,
        };
        Option::of_c(c).map(deadline)
    }

    fn as_c(self) -> Self::C {
        self.map(|deadline| deadline.value).as_c()
    }
}

/// Defines a struct whose fields the library has under the same names. Fields behind `and` are
/// those of this crate alone, and have their defaults where the library gives the others.
macro_rules! plain_struct {
    (
        $(#[$documentation:meta])*
        $name:ident of $c:ident {
            $($(#[$field_documentation:meta])* $field:ident: $type:ty $(as $getter:tt)?,)*
        } $(and {
            $($(#[$other_documentation:meta])* $other:ident: $other_type:ty,)*
        })?
    ) => {
        $(#[$documentation])*
        pub struct $name {
            $($(#[$field_documentation])* pub $field: $type,)*
            $($($(#[$other_documentation])* pub $other: $other_type,)*)?
        }

        impl $name {
            /// What the library gives.
            pub(crate) fn of(c: &$crate::sys::$c) -> Self {
                $name {
                    $($field: $crate::plain::Plain::of_c(&c.$field),)*
                    $($($other: Default::default(),)*)?
                }
            }

            /// As the library takes it.
            pub(crate) fn as_c(&self) -> $crate::sys::$c {
                $crate::sys::$c {
                    $($field: $crate::plain::Plain::as_c(self.$field),)*
                }
            }
        }
    };
}
pub(crate) use plain_struct;
