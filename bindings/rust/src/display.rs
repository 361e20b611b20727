//! Enums with texts, and texts with a width.

use std::error::Error;
use std::fmt;

/// Writes a text with the width, the alignment and the precision that are wanted.
pub(crate) fn padded(f: &mut fmt::Formatter<'_>, text: fmt::Arguments<'_>) -> fmt::Result {
    if f.width().is_none() && f.precision().is_none() {
        return f.write_fmt(text);
    }
    f.pad(&text.to_string())
}

/// Makes an enum an error whose text is the path of its variant.
macro_rules! error_by_path {
    ($name:ident) => {
        impl ::std::fmt::Display for $name {
            fn fmt(&self, f: &mut ::std::fmt::Formatter<'_>) -> ::std::fmt::Result {
                $crate::display::padded(f, format_args!(concat!(stringify!($name), "::{:?}"), self))
            }
        }

        impl ::std::error::Error for $name {}
    };
}
pub(crate) use error_by_path;

/// Defines an error without fields, by the statuses of the library that stand for each variant.
macro_rules! errors {
    (
        $(#[$documentation:meta])*
        $name:ident {
            $(
                $(#[$variant_documentation:meta])*
                $variant:ident = $($status:ident)|+,
            )*
        }
    ) => {
        $(#[$documentation])*
        #[derive(Clone, Copy, Debug, PartialEq, Eq, PartialOrd, Ord, Hash)]
        pub enum $name {
            $(
                $(#[$variant_documentation])*
                $variant,
            )*
        }

        $crate::display::error_by_path!($name);

        impl $name {
            pub(crate) fn of(status: u32) -> Self {
                match status {
                    $($($crate::sys::$status)|+ => $name::$variant,)*
                    other => $crate::library::unexpected(other),
                }
            }
        }
    };
}
pub(crate) use errors;

/// Shows an enum by the name of its variant.
macro_rules! shown_by_name {
    ($name:ident) => {
        /// The name of the variant.
        impl ::std::fmt::Display for $name {
            fn fmt(&self, f: &mut ::std::fmt::Formatter<'_>) -> ::std::fmt::Result {
                $crate::display::padded(f, format_args!("{self:?}"))
            }
        }
    };
}
pub(crate) use shown_by_name;

/// The text of a variant: its name, unless another one is given.
macro_rules! text_of_variant {
    ($variant:ident) => {
        stringify!($variant)
    };
    ($variant:ident $text:literal) => {
        $text
    };
}
pub(crate) use text_of_variant;

/// Defines an enum whose variants the headers number: how it is listed, shown, parsed, and read from
/// its number. A variant prints as its name, unless another text is given.
macro_rules! choices {
    (
        $(#[$documentation:meta])*
        $name:ident of $number:ident in $module:literal {
            $(
                $(#[$variant_documentation:meta])*
                $variant:ident = $constant:ident $(, $text:literal)?;
            )*
        }
    ) => {
        $(#[$documentation])*
        #[derive(Clone, Copy, Debug, PartialEq, Eq, PartialOrd, Ord, Hash)]
        #[repr($number)]
        pub enum $name {
            $(
                $(#[$variant_documentation])*
                $variant = $crate::sys::$constant,
            )*
        }

        impl $name {
            /// All of them, by their numbers in the headers. Each is parsed from its text.
            ///
            /// ```
            #[doc = concat!("use iox2sd::", $module, "::", stringify!($name), ";")]
            ///
            #[doc = concat!("for each in ", stringify!($name), "::ALL {")]
            ///     assert_eq!(each.to_string().parse(), Ok(each));
            /// }
            /// ```
            pub const ALL: [Self; [$(stringify!($variant)),*].len()] = [$(Self::$variant),*];

            /// Its text.
            ///
            /// ```
            #[doc = concat!("use iox2sd::", $module, "::", stringify!($name), ";")]
            ///
            #[doc = concat!("for each in ", stringify!($name), "::ALL {")]
            ///     assert_eq!(each.name(), each.to_string());
            /// }
            /// ```
            #[must_use]
            pub const fn name(self) -> &'static str {
                match self {
                    $(Self::$variant => $crate::display::text_of_variant!($variant $($text)?),)*
                }
            }
        }

        impl $crate::plain::Plain for $name {
            type C = $number;

            #[inline]
            fn of_c(number: &$number) -> Self {
                $crate::library::choice(&Self::ALL, |choice| choice as $number, *number)
            }

            #[inline]
            fn as_c(self) -> $number {
                self as $number
            }
        }

        /// Its text, as [`name`](Self::name) returns it.
        impl ::std::fmt::Display for $name {
            fn fmt(&self, f: &mut ::std::fmt::Formatter<'_>) -> ::std::fmt::Result {
                f.pad(self.name())
            }
        }

        impl ::std::str::FromStr for $name {
            type Err = $crate::UnknownName;

            /// The choice with this text.
            fn from_str(text: &str) -> Result<Self, $crate::UnknownName> {
                let found = Self::ALL.into_iter().find(|choice| choice.name() == text);
                found.ok_or($crate::UnknownName)
            }
        }
    };
}
pub(crate) use choices;

/// A text is the name of no variant.
///
/// ```
/// use iox2sd::container::Role;
/// use iox2sd::UnknownName;
///
/// assert_eq!("Writer".parse(), Ok(Role::Writer));
/// assert_eq!("writer".parse::<Role>(), Err(UnknownName));
/// assert_eq!(UnknownName.to_string(), "no choice has this name");
/// ```
#[derive(Clone, Copy, Debug, PartialEq, Eq, PartialOrd, Ord, Hash)]
pub struct UnknownName;

impl fmt::Display for UnknownName {
    fn fmt(&self, f: &mut fmt::Formatter<'_>) -> fmt::Result {
        f.pad("no choice has this name")
    }
}

impl Error for UnknownName {}

/// Defines a type that is one number, and prints as it does.
macro_rules! number {
    (
        $(#[$documentation:meta])*
        $name:ident of $number:ident in $module:literal, $getter:ident
    ) => {
        $(#[$documentation])*
        #[derive(Clone, Copy, Debug, PartialEq, Eq, PartialOrd, Ord, Hash)]
        pub struct $name {
            value: $number,
        }

        impl $name {
            /// The one of this number.
            ///
            /// ```
            #[doc = concat!("use iox2sd::", $module, "::", stringify!($name), ";")]
            #[doc = concat!("assert_eq!(", stringify!($name), "::new(2).to_string(), \"2\");")]
            /// ```
            #[must_use]
            pub fn new(value: $number) -> Self {
                $name { value }
            }

            /// Its number.
            ///
            /// ```
            #[doc = concat!("use iox2sd::", $module, "::", stringify!($name), ";")]
            #[doc = concat!(
                "assert_eq!(", stringify!($name), "::new(2).", stringify!($getter), "(), 2);"
            )]
            /// ```
            #[must_use]
            pub fn $getter(&self) -> $number {
                self.value
            }
        }

        impl ::std::fmt::Display for $name {
            fn fmt(&self, f: &mut ::std::fmt::Formatter<'_>) -> ::std::fmt::Result {
                ::std::fmt::Display::fmt(&self.value, f)
            }
        }
    };
}
pub(crate) use number;

/// Defines getters, each with what an example says of a value that the same lines make.
macro_rules! getters {
    ($made:tt $(
        $(#[$documentation:meta])*
        $name:ident -> $type:ty = |$self:ident| $value:expr, $example:literal;
    )*) => {
        $($crate::display::getter! {
            $made
            $(#[$documentation])*
            $name -> $type = |$self| $value, $example
        })*
    };
}
pub(crate) use getters;

/// Defines one of them.
macro_rules! getter {
    (
        { $(#[$made:meta])* }
        $(#[$documentation:meta])*
        $name:ident -> $type:ty = |$self:ident| $value:expr, $example:literal
    ) => {
        $(#[$documentation])*
        ///
        /// ```
        $(#[$made])*
        #[doc = concat!("assert_eq!(", $example, ");")]
        /// # Ok::<(), Box<dyn std::error::Error>>(())
        /// ```
        #[must_use]
        pub fn $name(&self) -> $type {
            let $self = self;
            $value
        }
    };
}
pub(crate) use getter;
