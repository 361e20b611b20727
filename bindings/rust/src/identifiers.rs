//! The ids of nodes, of ports and of services.
//!
//! An id has four parts: the number of the process that made it, the time when it did, and a
//! counter. The caller passes them: nothing here reads the process, the clock or a counter, and
//! that ids are unique is up to those who make them.
//!
//! ```
//! use iox2sd::identifiers::{UniqueNodeId, UniquePublisherId};
//!
//! let node = UniqueNodeId::new(1, 2, 3, 4).expect("process and counter are not both 0");
//! assert_eq!(node.to_string(), "1000000020000000300000004");
//! assert_eq!(node.pid().value(), 1);
//! assert_eq!(UniqueNodeId::new(0, 2, 3, 0), None);
//! assert!(UniquePublisherId::new(1, 2, 3, 4) < UniquePublisherId::new(1, 2, 4, 0));
//! ```

use crate::container::Role;
use crate::display::{getters, number};
use crate::dynamic_config::OtherRole;
use crate::library;
use crate::plain::Plain;
use crate::sys;
use std::cmp::Ordering;
use std::error::Error;
use std::fmt;
use std::mem::size_of;
use std::str::FromStr;

number! {
    /// The number that the operating system gives a process.
    ///
    /// ```
    /// use iox2sd::identifiers::{ProcessId, UniqueServiceId};
    /// assert_eq!(UniqueServiceId::new(17, 0, 0, 1).pid(), ProcessId::new(17));
    /// ```
    ProcessId of u32 in "identifiers", value
}

/// A time: whole seconds, and the nanoseconds beside them, which may be any number of their type.
/// The default is 0 of both.
///
/// ```
/// use iox2sd::identifiers::{Time, UniqueServiceId};
///
/// let id = UniqueServiceId::new(17, 1000, 5, 1);
/// assert_eq!(id.creation_time(), Time::new(1000, 5));
/// assert_eq!(Time::default(), Time::new(0, 0));
/// ```
#[derive(Clone, Copy, Debug, Default, PartialEq, Eq, PartialOrd, Ord, Hash)]
pub struct Time {
    seconds: u64,
    nanoseconds: u32,
}

impl Time {
    /// The time of these seconds and nanoseconds.
    ///
    /// ```
    /// use iox2sd::identifiers::Time;
    ///
    /// let time = Time::new(u64::MAX, u32::MAX);
    /// assert_eq!((time.seconds(), time.nanoseconds()), (u64::MAX, u32::MAX));
    /// ```
    #[must_use]
    pub fn new(seconds: u64, nanoseconds: u32) -> Self {
        Time {
            seconds,
            nanoseconds,
        }
    }

    getters! {
        {
            /// use iox2sd::identifiers::Time;
            ///
            /// let (seconds, nanoseconds) = (1000, 5);
            /// let time = Time::new(seconds, nanoseconds);
        }
        /// The whole seconds.
        seconds -> u64 = |time| time.seconds, "time.seconds(), seconds";
        /// The nanoseconds beside the seconds.
        nanoseconds -> u32 = |time| time.nanoseconds, "time.nanoseconds(), nanoseconds";
    }
}

/// Defines what all ids have, but for how they are made.
macro_rules! unique_id {
    ($(#[$documentation:meta])* $name:ident: $(#[$made:meta])*) => {
        $(#[$documentation])*
        ///
        /// Ids go by their [`value`](Self::value), whose lower-case hexadecimal digits are their
        /// text.
        ///
        /// ```
        #[doc = concat!("use iox2sd::identifiers::", stringify!($name), ";")]
        ///
        $(#[$made])*
        /// assert_eq!(id.to_string(), "1000000020000000200000001");
        /// ```
        #[derive(Clone, Copy, PartialEq, Eq, Hash)]
        pub struct $name {
            parts: sys::iox2sd_id,
        }

        impl Plain for $name {
            type C = sys::iox2sd_id;

            #[inline]
            fn of_c(parts: &sys::iox2sd_id) -> Self {
                $name { parts: *parts }
            }

            #[inline]
            fn as_c(self) -> sys::iox2sd_id {
                self.parts
            }
        }

        impl $name {
            getters! {
                {
                    #[doc = concat!("use iox2sd::identifiers::", stringify!($name), ";")]
                    ///
                    $(#[$made])*
                }
                /// The id as one number: process, seconds, nanoseconds and counter, 32 bits each.
                value -> u128 = |id| value(id.parts),
                    "id.value().try_into(), Ok(id)";
                /// The process that made the id.
                pid -> ProcessId = |id| ProcessId::new(id.parts.process), "id.pid().value(), 1";
                /// When the id was made.
                creation_time -> Time =
                    |id| Time::new(u64::from(id.parts.seconds), id.parts.nanoseconds),
                    "id.creation_time().seconds(), 2";
            }
        }

        impl TryFrom<u128> for $name {
            type Error = IdError;

            /// The id with this [`value`](Self::value).
            fn try_from(value: u128) -> Result<Self, IdError> {
                Self::of_parts(parts(value)).ok_or(IdError::NoNode)
            }
        }

        impl FromStr for $name {
            type Err = IdError;

            /// The id with this text, as it is printed: lower-case digits without leading zeros.
            fn from_str(given: &str) -> Result<Self, IdError> {
                let found = u128::from_str_radix(given, RADIX).map_err(|_| IdError::NoText)?;
                if text(parts(found)) != given {
                    return Err(IdError::NoText);
                }
                Self::try_from(found)
            }
        }

        impl fmt::Display for $name {
            fn fmt(&self, f: &mut fmt::Formatter<'_>) -> fmt::Result {
                f.pad(&text(self.parts))
            }
        }

        /// The digits of its value.
        impl fmt::LowerHex for $name {
            fn fmt(&self, f: &mut fmt::Formatter<'_>) -> fmt::Result {
                fmt::LowerHex::fmt(&self.value(), f)
            }
        }

        impl fmt::Debug for $name {
            fn fmt(&self, f: &mut fmt::Formatter<'_>) -> fmt::Result {
                write!(f, concat!(stringify!($name), "({})"), self)
            }
        }

        impl PartialOrd for $name {
            fn partial_cmp(&self, other: &Self) -> Option<Ordering> {
                Some(self.cmp(other))
            }
        }

        impl Ord for $name {
            fn cmp(&self, other: &Self) -> Ordering {
                order(self.parts, other.parts)
            }
        }
    };
}

/// Defines the ids of ports and of services.
macro_rules! unique_ids {
    ($($(#[$documentation:meta])* $name:ident)*) => {
        $(
            unique_id! {
                $(#[$documentation])*
                $name:
                #[doc = concat!("let id = ", stringify!($name), "::new(1, 2, 2, 1);")]
            }

            impl $name {
                /// The id with these parts.
                ///
                /// ```
                #[doc = concat!("use iox2sd::identifiers::", stringify!($name), ";")]
                ///
                #[doc = concat!("let earlier = ", stringify!($name), "::new(1, 2, 0, 1);")]
                #[doc = concat!("assert!(earlier < ", stringify!($name), "::new(1, 2, 2, 1));")]
                /// ```
                pub fn new(process: u32, seconds: u32, nanoseconds: u32, counter: u32) -> Self {
                    Self::of_c(&sys::iox2sd_id { process, seconds, nanoseconds, counter })
                }

                fn of_parts(parts: sys::iox2sd_id) -> Option<Self> {
                    Some(Self::of_c(&parts))
                }
            }
        )*
    };
}

unique_ids! {
    /// The id of a publisher.
    UniquePublisherId
    /// The id of a subscriber.
    UniqueSubscriberId
    /// The id of a notifier.
    UniqueNotifierId
    /// The id of a listener.
    UniqueListenerId
    /// The id of a client.
    UniqueClientId
    /// The id of a server.
    UniqueServerId
    /// The id of a reader.
    UniqueReaderId
    /// The id of a writer.
    UniqueWriterId
    /// The id of a service.
    UniqueServiceId
}

unique_id! {
    /// The id of a node. Its process and its counter are not both 0.
    UniqueNodeId:
    /// let id = UniqueNodeId::new(1, 2, 2, 1).expect("the id of a node");
}

impl UniqueNodeId {
    /// The id with these parts, or `None` where process and counter are both 0: that is the id of
    /// no node.
    ///
    /// ```
    /// use iox2sd::identifiers::UniqueNodeId;
    ///
    /// assert!(UniqueNodeId::new(1, 2, 3, 0).is_some());
    /// assert!(UniqueNodeId::new(0, 2, 3, 4).is_some());
    /// assert_eq!(UniqueNodeId::new(0, 2, 3, 0), None);
    /// ```
    #[must_use]
    pub fn new(process: u32, seconds: u32, nanoseconds: u32, counter: u32) -> Option<Self> {
        let parts = sys::iox2sd_id {
            process,
            seconds,
            nanoseconds,
            counter,
        };
        Self::of_parts(parts)
    }

    fn of_parts(parts: sys::iox2sd_id) -> Option<Self> {
        library::id_is_node(parts).then(|| Self::of_c(&parts))
    }

    /// Process and counter as one number, which is never 0. Nodes of one process with one counter
    /// share it.
    ///
    /// ```
    /// use iox2sd::identifiers::UniqueNodeId;
    ///
    /// let one = UniqueNodeId::new(1, 2, 3, 4).expect("the id of a node");
    /// let later = UniqueNodeId::new(1, 9, 9, 4).expect("the id of a node");
    /// assert_eq!(one.owner_id(), (1 << 32) + 4);
    /// assert_eq!(one.owner_id(), later.owner_id());
    /// ```
    #[must_use]
    pub fn owner_id(&self) -> u64 {
        library::id_owner(self.parts)
    }
}

/// Defines the id of a port of any kind.
macro_rules! port_ids {
    ($($(#[$documentation:meta])* $kind:ident: $name:ident,)*) => {
        /// The id of a port of any kind. Ids are ordered by their kinds, and then by their numbers.
        ///
        /// ```
        /// use iox2sd::identifiers::{UniquePortId, UniqueReaderId, UniqueWriterId};
        ///
        /// let reader = UniquePortId::Reader(UniqueReaderId::new(0, 0, 0, 10));
        /// let writer = UniquePortId::Writer(UniqueWriterId::new(0, 0, 0, 10));
        /// assert_ne!(reader, writer);
        /// assert_eq!(reader.value(), writer.value());
        /// assert_eq!(reader.to_string(), "a");
        /// ```
        #[derive(Clone, Copy, Debug, PartialEq, Eq, PartialOrd, Ord, Hash)]
        pub enum UniquePortId {
            $(
                $(#[$documentation])*
                $kind($name),
            )*
        }

        $(
            impl From<$name> for UniquePortId {
                fn from(id: $name) -> Self {
                    UniquePortId::$kind(id)
                }
            }

            impl TryFrom<UniquePortId> for $name {
                type Error = OtherRole;

                /// The id, where it is that of such a port.
                fn try_from(id: UniquePortId) -> Result<Self, OtherRole> {
                    match id {
                        UniquePortId::$kind(id) => Ok(id),
                        other => Err(OtherRole {
                            found: other.role(),
                            wanted: Role::$kind,
                        }),
                    }
                }
            }
        )*

        impl UniquePortId {
            pub(crate) fn parts(self) -> sys::iox2sd_id {
                match self {
                    $(UniquePortId::$kind(id) => id.parts,)*
                }
            }

            /// What the port is.
            ///
            /// ```
            /// use iox2sd::container::Role;
            /// use iox2sd::identifiers::{UniquePortId, UniqueWriterId};
            ///
            /// let id = UniquePortId::Writer(UniqueWriterId::new(1, 2, 3, 4));
            /// assert_eq!(id.role(), Role::Writer);
            /// ```
            #[must_use]
            pub fn role(&self) -> Role {
                match self {
                    $(UniquePortId::$kind(_) => Role::$kind,)*
                }
            }
        }
    };
}

port_ids! {
    /// The id of a publisher.
    Publisher: UniquePublisherId,
    /// The id of a subscriber.
    Subscriber: UniqueSubscriberId,
    /// The id of a notifier.
    Notifier: UniqueNotifierId,
    /// The id of a listener.
    Listener: UniqueListenerId,
    /// The id of a client.
    Client: UniqueClientId,
    /// The id of a server.
    Server: UniqueServerId,
    /// The id of a reader.
    Reader: UniqueReaderId,
    /// The id of a writer.
    Writer: UniqueWriterId,
}

impl UniquePortId {
    /// The id as one number, whatever its kind.
    ///
    /// ```
    /// use iox2sd::identifiers::{UniquePortId, UniqueWriterId};
    ///
    /// let id = UniqueWriterId::new(1, 2, 3, 4);
    /// assert_eq!(UniquePortId::Writer(id).value(), id.value());
    /// ```
    #[must_use]
    pub fn value(&self) -> u128 {
        value(self.parts())
    }
}

/// The text of the id, whatever its kind.
impl fmt::Display for UniquePortId {
    fn fmt(&self, f: &mut fmt::Formatter<'_>) -> fmt::Result {
        f.pad(&text(self.parts()))
    }
}

/// The digits of its value, whatever its kind.
impl fmt::LowerHex for UniquePortId {
    fn fmt(&self, f: &mut fmt::Formatter<'_>) -> fmt::Result {
        fmt::LowerHex::fmt(&self.value(), f)
    }
}

fn text(parts: sys::iox2sd_id) -> String {
    library::id_text(parts).unwrap_or_else(|status| library::unexpected(status))
}

/// Why there is no id of a number or of a text.
///
/// ```
/// use iox2sd::identifiers::{IdError, UniqueListenerId, UniqueNodeId};
///
/// let id: UniqueListenerId = "1000000000000000000000002".parse()?;
/// assert_eq!(id, UniqueListenerId::new(1, 0, 0, 2));
/// assert_eq!(UniqueListenerId::try_from(id.value()), Ok(id));
/// assert_eq!("0a".parse::<UniqueListenerId>(), Err(IdError::NoText));
/// assert_eq!(UniqueNodeId::try_from(0), Err(IdError::NoNode));
/// # Ok::<(), IdError>(())
/// ```
#[derive(Clone, Copy, Debug, PartialEq, Eq, PartialOrd, Ord, Hash)]
#[non_exhaustive]
pub enum IdError {
    /// The text is none of an id: lower-case hexadecimal digits without leading zeros, at most
    /// those of 128 bits.
    NoText,
    /// It is the id of no node: process and counter are both 0.
    NoNode,
}

impl fmt::Display for IdError {
    fn fmt(&self, f: &mut fmt::Formatter<'_>) -> fmt::Result {
        f.pad(match self {
            IdError::NoText => "not the text of an id",
            IdError::NoNode => "not the id of a node",
        })
    }
}

impl Error for IdError {}

/// The base of the numbers that ids are printed as.
const RADIX: u32 = 16;

fn value(parts: sys::iox2sd_id) -> u128 {
    let each = [
        parts.process,
        parts.seconds,
        parts.nanoseconds,
        parts.counter,
    ];
    let base = u128::from(u32::MAX) + 1;
    let next = |value, part| value * base + u128::from(part);
    each.into_iter().fold(0, next)
}

/// The four parts of a value, from the highest bits on.
fn parts(value: u128) -> sys::iox2sd_id {
    let bytes = value.to_be_bytes();
    let mut words = bytes.chunks_exact(size_of::<u32>()).map(|word| {
        u32::from_be_bytes(word.try_into().expect("a chunk has the bytes of one word"))
    });
    let mut next = || {
        words
            .next()
            .expect("a value has as many words as an id has parts")
    };
    sys::iox2sd_id {
        process: next(),
        seconds: next(),
        nanoseconds: next(),
        counter: next(),
    }
}

pub(crate) fn order(one: sys::iox2sd_id, other: sys::iox2sd_id) -> Ordering {
    if library::id_is_before(one, other) {
        Ordering::Less
    } else if library::id_is_before(other, one) {
        Ordering::Greater
    } else {
        Ordering::Equal
    }
}
