//! Listings of the ports of one kind.

use super::details::Details;
use crate::callback_progression::visit;
use crate::container::Entries;
use crate::library::Service;
use crate::CallbackProgression;

/// The ports of a kind that the pattern has, by rising slot.
#[inline]
pub(super) fn ports<T: Details>(service: &Service) -> Entries<T> {
    let of_each = |ports: &[_]| ports.iter().map(T::of).collect();
    service.ports(T::ROLE as u64, of_each).unwrap_or_default()
}

/// Calls the callback on these ports, up to and with the first answer `Stop`.
#[inline]
pub(super) fn visit_ports<T: Details>(
    service: &Service,
    mut callback: impl FnMut(&T) -> CallbackProgression,
) {
    service.ports(T::ROLE as u64, |ports| {
        visit(ports, |port| callback(&T::of(port)));
    });
}

/// How many ports of a kind that the pattern has there are.
#[inline]
pub(super) fn count<T: Details>(service: &Service) -> usize {
    service.count_ports(T::ROLE as u64).unwrap_or_default()
}

/// Defines the module of the ports of one pattern: how many of each kind a service can have, and how
/// it lends them.
macro_rules! ports_of_pattern {
    (
        $kind:literal $settings:ident $module:ident $room:ident:
        $($all:ident $number:ident $max:ident $details:ident,)*
    ) => {
        #[doc = concat!("The ports of ", $kind, " service.")]
        ///
        #[doc = example!(service of $module)]
        $(#[doc = concat!(
            "for port in service.", stringify!($module), "().", stringify!($all), "() {\n",
            "    println!(\"{}\", PortDetails::from(port).port_id());\n}"
        )])*
        #[doc = example!(end)]
        pub mod $module {
            $(pub use super::$details;)*
            use crate::{config, library, static_config, sys};
            use std::fmt;

            /// How many ports of each kind there may be at a time.
            ///
            #[doc = example!(of $module)]
            #[doc = concat!(
                "use iox2sd::dynamic_config::", stringify!($module), "::DynamicConfigSettings;"
            )]
            ///
            /// let mut ports = DynamicConfigSettings::from(&settings);
            $(#[doc = concat!("ports.", stringify!($number), " = 2;")])*
            /// let service = DynamicConfig::new(ports, 1, 7)?;
            /// let (first, second) = service.port_roles();
            /// assert_eq!((service.max_ports(first), service.max_ports(second)), (Some(2), Some(2)));
            #[doc = example!(end)]
            #[derive(Clone, Copy, Debug, PartialEq, Eq, Hash)]
            pub struct DynamicConfigSettings {
                $(
                    #[doc = concat!("How many ", stringify!($all), " there may be at a time.")]
                    pub $number: usize,
                )*
            }

            impl DynamicConfigSettings {
                /// As many as the library says.
                pub(crate) fn of(room: &sys::$room) -> Self {
                    DynamicConfigSettings { $($number: room.$all,)* }
                }

                /// As many as there may be of the first kind, and of the second.
                pub(super) fn each(&self) -> [usize; 2] {
                    [$(self.$number),*]
                }
            }

            #[doc = concat!("As many as ", $kind, " service has by default.")]
            impl Default for DynamicConfigSettings {
                fn default() -> Self {
                    Self::from(&config::$settings::default())
                }
            }

            #[doc = concat!("As many as ", $kind, " service with these settings has.")]
            impl From<&config::$settings> for DynamicConfigSettings {
                fn from(settings: &config::$settings) -> Self {
                    Self::of(&library::Settings::room(settings))
                }
            }

            #[doc = concat!("As many as ", $kind, " service is described to have.")]
            impl From<&static_config::$module::StaticConfig> for DynamicConfigSettings {
                fn from(service: &static_config::$module::StaticConfig) -> Self {
                    DynamicConfigSettings { $($number: service.$max,)* }
                }
            }

            /// The ports of a service, as [`super::DynamicConfig`] lends them.
            ///
            #[doc = example!(service of $module)]
            #[doc = concat!("let ports = service.", stringify!($module), "();")]
            $(#[doc = concat!("assert_eq!(ports.", stringify!($all), "().len(), 0);")])*
            #[doc = example!(end)]
            pub struct DynamicConfig {
                pub(super) service: library::Service,
            }

            impl fmt::Debug for DynamicConfig {
                fn fmt(&self, f: &mut fmt::Formatter<'_>) -> fmt::Result {
                    f.debug_struct("DynamicConfig")
                        $(.field(stringify!($all), &self.$all().as_slice()))*
                        .finish()
                }
            }
        }
    };
}
pub(super) use ports_of_pattern;
