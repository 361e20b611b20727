//! What is fixed of a service, whatever its pattern.

/// Defines a getter of a field, which has its name unless another one is given; `_` defines none.
macro_rules! getter {
    ($module:ident $field:ident: $type:ty, _ $(#[$documentation:meta])*) => {};
    ($module:ident $field:ident: $type:ty, $(#[$documentation:meta])*) => {
        $crate::static_config::fixed::getter! {
            $module $field: $type, $field $(#[$documentation])*
        }
    };
    ($module:ident $field:ident: $type:ty, $getter:ident $(#[$documentation:meta])*) => {
        $(#[$documentation])*
        ///
        #[doc = example!(fixed $module)]
        #[doc = concat!(
            "assert_eq!(fixed.", stringify!($getter), "(), fixed.", stringify!($field), ");"
        )]
        #[doc = example!(end)]
        #[must_use]
        pub fn $getter(&self) -> $type {
            self.$field
        }
    };
}
pub(super) use getter;

/// Defines what is fixed of a service of one pattern, by the fields that the library has, and those
/// with types, which it has not.
macro_rules! fixed {
    (
        $kind:literal $module:ident $settings:ident:
        $(#[$rule:meta])*
        StaticConfig of $c:ident {
            $($(#[$field_documentation:meta])* $field:ident: $type:ty $(as $getter:tt)?,)*
        } and {
            $($(#[$types_documentation:meta])* $types:ident: $details:ident,)*
        }
    ) => {
        $crate::plain::plain_struct! {
            #[doc = concat!("What is fixed of ", $kind, " service.")]
            ///
            #[doc = example!(fixed $module)]
            /// fixed.max_nodes = 1;
            /// assert_ne!(fixed, StaticConfig::new(&Config::default()));
            #[doc = example!(end)]
            #[derive(Clone, Copy, Debug, PartialEq, Eq, Hash)]
            #[non_exhaustive]
            StaticConfig of $c {
                $($(#[$field_documentation])* $field: $type,)*
            } and {
                $($(#[$types_documentation])* $types: $details,)*
            }
        }

        impl StaticConfig {
            #[doc = concat!("What the defaults of a configuration fix of ", $kind, " service.")]
            /// Details of types are the default ones.
            ///
            #[doc = example!(fixed $module)]
            #[doc = concat!("let settings = Config::default().defaults.", stringify!($module), ";")]
            /// assert_eq!(fixed, StaticConfig::from(&settings));
            #[doc = example!(end)]
            #[must_use]
            pub fn new(config: &$crate::config::Config) -> Self {
                Self::from(&config.defaults.$module)
            }

            $($crate::static_config::fixed::getter! {
                $module $field: $type, $($getter)? $(#[$field_documentation])*
            })*

            $(
                $(#[$types_documentation])*
                ///
                #[doc = example!(fixed $module)]
                #[doc = concat!(
                    "assert_eq!(fixed.", stringify!($types), "(), &Default::default());"
                )]
                #[doc = example!(end)]
                #[must_use]
                pub fn $types(&self) -> &$details {
                    &self.$types
                }
            )*

            /// The first setting, in the order of the fields, in which the service does not meet
            /// what an opener requires, or `None` exactly where it meets all.
            ///
            $(#[$rule])*
            ///
            #[doc = example!(fixed $module)]
            /// use iox2sd::static_config::setting::Setting;
            ///
            /// let mut required = fixed;
            /// required.max_nodes += 1;
            /// assert_eq!(fixed.first_unmet(&required), Some(Setting::MaxNodes));
            /// assert_eq!(required.first_unmet(&fixed), None);
            #[doc = example!(end)]
            #[must_use]
            pub fn first_unmet(&self, required: &Self) -> Option<$crate::static_config::setting::Setting> {
                $crate::library::Fixed::unmet(self, required)
            }

            /// Whether the service meets all that an opener requires.
            ///
            #[doc = example!(fixed $module)]
            /// let mut required = fixed;
            /// required.max_nodes = 1;
            /// assert!(fixed.satisfies(&required) && !required.satisfies(&fixed));
            #[doc = example!(end)]
            #[must_use]
            pub fn satisfies(&self, required: &Self) -> bool {
                self.first_unmet(required).is_none()
            }
        }

        /// What the settings fix, with the default details of types.
        impl From<&$crate::config::$settings> for StaticConfig {
            fn from(settings: &$crate::config::$settings) -> Self {
                Self::of(&$crate::library::Settings::fixed(settings).$module)
            }
        }
    };
}
pub(super) use fixed;
