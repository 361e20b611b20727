//! The details of ports.

use super::listing;
use super::{blackboard, event, publish_subscribe, request_response};
use crate::config::DataSegmentType;
use crate::container::{Entries, Role};
use crate::display::padded;
use crate::identifiers::{
    UniqueClientId, UniqueListenerId, UniqueNodeId, UniqueNotifierId, UniquePortId,
    UniquePublisherId, UniqueReaderId, UniqueServerId, UniqueSubscriberId, UniqueWriterId,
};
use crate::plain::Plain;
use crate::sys;
use crate::CallbackProgression;
use std::error::Error;
use std::fmt;

/// The details of one kind of ports, as the library has them.
pub(super) trait Details {
    const ROLE: Role;

    fn of(port: &sys::iox2sd_port_details) -> Self;
}

/// Defines the details of one kind of ports, and the queries about those of a service. An example
/// makes some. The fields after the ids are given with the field of the library that has them.
macro_rules! details {
    (
        $module:ident: $all:ident $number:ident $list:ident;
        $(#[$made:meta])*
        =>
        $(#[$documentation:meta])*
        $name:ident of $role:ident with $id:ident: $id_type:ident;
        $(
            $(#[$field_documentation:meta])*
            $field:ident: $type:ty = $library_field:ident;
        )*
    ) => {
        $(#[$documentation])*
        ///
        /// ```
        /// use iox2sd::prelude::*;
        ///
        /// let node_id = UniqueNodeId::new(1, 0, 0, 1).expect("the id of a node");
        $(#[$made])*
        #[doc = concat!(
            "assert_eq!(PortDetails::from(details), PortDetails::", stringify!($role), "(details));"
        )]
        #[doc = concat!(
            "assert_eq!(", stringify!($name), "::try_from(PortDetails::from(details)), Ok(details));"
        )]
        /// ```
        #[derive(Clone, Copy, Debug, PartialEq, Eq, Hash)]
        pub struct $name {
            /// Its id.
            pub $id: $id_type,
            /// The id of the node that it belongs to.
            pub node_id: UniqueNodeId,
            $(
                $(#[$field_documentation])*
                pub $field: $type,
            )*
        }

        impl Details for $name {
            const ROLE: Role = Role::$role;

            #[inline]
            fn of(port: &sys::iox2sd_port_details) -> Self {
                $name {
                    $id: Plain::of_c(&port.port),
                    node_id: Plain::of_c(&port.node),
                    $($field: Plain::of_c(&port.$library_field),)*
                }
            }
        }

        impl From<$name> for sys::iox2sd_port_details {
            #[inline]
            fn from(details: $name) -> Self {
                sys::iox2sd_port_details {
                    role: Role::$role.as_c(),
                    port: details.$id.as_c(),
                    node: details.node_id.as_c(),
                    $($library_field: details.$field.as_c(),)*
                    ..Self::default()
                }
            }
        }

        impl From<$name> for PortDetails {
            #[inline]
            fn from(details: $name) -> Self {
                PortDetails::$role(details)
            }
        }

        impl TryFrom<PortDetails> for $name {
            type Error = OtherRole;

            /// The details, where they are those of such a port.
            fn try_from(details: PortDetails) -> Result<Self, OtherRole> {
                match details {
                    PortDetails::$role(details) => Ok(details),
                    other => Err(OtherRole {
                        found: other.role(),
                        wanted: Role::$role,
                    }),
                }
            }
        }

        impl $module::DynamicConfig {
            #[doc = concat!("How many ", stringify!($all), " are attached.")]
            ///
            #[doc = example!(node of $module)]
            $(#[$made])*
            /// service.attach(details)?;
            #[doc = concat!(
                "assert_eq!(service.", stringify!($module), "().", stringify!($number), "(), 1);"
            )]
            #[doc = example!(end)]
            #[must_use]
            #[inline]
            pub fn $number(&self) -> usize {
                listing::count::<$name>(&self.service)
            }

            #[doc = concat!(
                "Calls the callback on the details of the ", stringify!($all), " by rising slot, ",
                "up to and with the first answer [`Stop`](CallbackProgression::Stop)."
            )]
            ///
            #[doc = example!(node of $module)]
            $(#[$made])*
            /// service.attach(details)?;
            /// let mut seen = Vec::new();
            #[doc = concat!(
                "service.", stringify!($module), "().", stringify!($list), "(|details| {"
            )]
            ///     seen.push(*details);
            ///     CallbackProgression::Stop
            /// });
            /// assert_eq!(seen, [details]);
            #[doc = example!(end)]
            pub fn $list<F: FnMut(&$name) -> CallbackProgression>(&self, callback: F) {
                listing::visit_ports(&self.service, callback);
            }

            #[doc = concat!(
                "The details of the ", stringify!($all), " that are attached now, by rising slot."
            )]
            ///
            #[doc = example!(node of $module)]
            $(#[$made])*
            /// service.attach(details)?;
            #[doc = concat!(
                "assert!(service.", stringify!($module), "().", stringify!($all),
                "().eq([details]));"
            )]
            #[doc = example!(end)]
            #[must_use]
            #[inline]
            pub fn $all(&self) -> Entries<$name> {
                listing::ports(&self.service)
            }
        }
    };
}

details! {
    publish_subscribe: publishers number_of_publishers list_publishers;
    /// let details = PublisherDetails {
    ///     publisher_id: UniquePublisherId::new(1, 0, 0, 2),
    ///     node_id,
    ///     number_of_samples: 34,
    ///     max_slice_len: 1,
    ///     data_segment_type: DataSegmentType::Static,
    ///     max_number_of_segments: 1,
    /// };
    =>
    /// A port that sends samples.
    PublisherDetails of Publisher with publisher_id: UniquePublisherId;
    /// The most samples that it has at a time.
    number_of_samples: usize = number_of_samples;
    /// The most elements of a sample.
    max_slice_len: usize = max_slice_len;
    /// Whether its data segment may grow.
    data_segment_type: DataSegmentType = data_segment;
    /// The most segments that it may have.
    max_number_of_segments: u8 = max_number_of_segments;
}

details! {
    publish_subscribe: subscribers number_of_subscribers list_subscribers;
    /// let details = SubscriberDetails {
    ///     subscriber_id: UniqueSubscriberId::new(1, 0, 0, 2),
    ///     node_id,
    ///     buffer_size: 2,
    /// };
    =>
    /// A port that receives samples.
    SubscriberDetails of Subscriber with subscriber_id: UniqueSubscriberId;
    /// The most samples that wait for it.
    buffer_size: usize = buffer_size;
}

details! {
    event: listeners number_of_listeners list_listeners;
    /// let details = ListenerDetails { listener_id: UniqueListenerId::new(1, 0, 0, 2), node_id };
    =>
    /// A port that waits for events.
    ListenerDetails of Listener with listener_id: UniqueListenerId;
}

details! {
    event: notifiers number_of_notifiers list_notifiers;
    /// let details = NotifierDetails { notifier_id: UniqueNotifierId::new(1, 0, 0, 2), node_id };
    =>
    /// A port that signals events.
    NotifierDetails of Notifier with notifier_id: UniqueNotifierId;
}

details! {
    request_response: servers number_of_servers list_servers;
    /// let details = ServerDetails {
    ///     server_id: UniqueServerId::new(1, 0, 0, 2),
    ///     node_id,
    ///     request_buffer_size: 4,
    ///     number_of_responses: 384,
    ///     max_slice_len: 1,
    ///     data_segment_type: DataSegmentType::Static,
    ///     max_number_of_segments: 1,
    /// };
    =>
    /// A port that answers requests.
    ServerDetails of Server with server_id: UniqueServerId;
    /// The most requests that wait for it.
    request_buffer_size: usize = request_buffer_size;
    /// The most responses that it has at a time.
    number_of_responses: usize = number_of_responses;
    /// The most elements of a response.
    max_slice_len: usize = max_slice_len;
    /// Whether its data segment may grow.
    data_segment_type: DataSegmentType = data_segment;
    /// The most segments that it may have.
    max_number_of_segments: u8 = max_number_of_segments;
}

details! {
    request_response: clients number_of_clients list_clients;
    /// let details = ClientDetails {
    ///     client_id: UniqueClientId::new(1, 0, 0, 2),
    ///     node_id,
    ///     number_of_requests: 18,
    ///     response_buffer_size: 2,
    ///     max_slice_len: 1,
    ///     data_segment_type: DataSegmentType::Static,
    ///     max_number_of_segments: 1,
    /// };
    =>
    /// A port that sends requests.
    ClientDetails of Client with client_id: UniqueClientId;
    /// The most requests that it has at a time.
    number_of_requests: usize = number_of_requests;
    /// The most responses that wait for it.
    response_buffer_size: usize = response_buffer_size;
    /// The most elements of a request.
    max_slice_len: usize = max_slice_len;
    /// Whether its data segment may grow.
    data_segment_type: DataSegmentType = data_segment;
    /// The most segments that it may have.
    max_number_of_segments: u8 = max_number_of_segments;
}

details! {
    blackboard: readers number_of_readers list_readers;
    /// let details = ReaderDetails { reader_id: UniqueReaderId::new(1, 0, 0, 2), node_id };
    =>
    /// A port that reads a blackboard.
    ReaderDetails of Reader with reader_id: UniqueReaderId;
}

details! {
    blackboard: writers number_of_writers list_writers;
    /// let details = WriterDetails { writer_id: UniqueWriterId::new(1, 0, 0, 2), node_id };
    =>
    /// A port that writes to a blackboard.
    WriterDetails of Writer with writer_id: UniqueWriterId;
}

/// Defines the details of a port of any kind.
macro_rules! any_port {
    ($($(#[$documentation:meta])* $role:ident: $details:ident $id:ident,)*) => {
        /// The details of a port of any kind.
        ///
        #[doc = example!(listener)]
        /// let port = PortDetails::from(listener);
        /// assert_eq!((port.role(), port.node_id()), (Role::Listener, node_id));
        /// assert_eq!(port.port_id(), UniquePortId::Listener(listener_id));
        #[doc = example!(end)]
        #[derive(Clone, Copy, Debug, PartialEq, Eq, Hash)]
        pub enum PortDetails {
            $(
                $(#[$documentation])*
                $role($details),
            )*
        }

        impl PortDetails {
            pub(super) fn of(port: &sys::iox2sd_port_details) -> Self {
                match Role::of_c(&port.role) {
                    $(Role::$role => PortDetails::$role($details::of(port)),)*
                    Role::Node => unreachable!("a port is no node"),
                }
            }

            #[inline]
            pub(super) fn parts(self) -> sys::iox2sd_port_details {
                match self {
                    $(PortDetails::$role(details) => details.into(),)*
                }
            }

            /// What the port is.
            ///
            #[doc = example!(listener)]
            /// assert_eq!(PortDetails::from(listener).role(), Role::Listener);
            #[doc = example!(end)]
            #[must_use]
            pub fn role(&self) -> Role {
                match self {
                    $(PortDetails::$role(_) => Role::$role,)*
                }
            }

            /// The id of the node that the port belongs to.
            ///
            #[doc = example!(listener)]
            /// assert_eq!(PortDetails::from(listener).node_id(), node_id);
            #[doc = example!(end)]
            #[must_use]
            pub fn node_id(&self) -> UniqueNodeId {
                match self {
                    $(PortDetails::$role(details) => details.node_id,)*
                }
            }

            /// The id of the port.
            ///
            #[doc = example!(listener)]
            /// assert_eq!(PortDetails::from(listener).port_id(), UniquePortId::Listener(listener_id));
            #[doc = example!(end)]
            #[must_use]
            #[inline]
            pub fn port_id(&self) -> UniquePortId {
                match self {
                    $(PortDetails::$role(details) => UniquePortId::$role(details.$id),)*
                }
            }
        }
    };
}

any_port! {
    /// A port that sends samples.
    Publisher: PublisherDetails publisher_id,
    /// A port that receives samples.
    Subscriber: SubscriberDetails subscriber_id,
    /// A port that waits for events.
    Listener: ListenerDetails listener_id,
    /// A port that signals events.
    Notifier: NotifierDetails notifier_id,
    /// A port that answers requests.
    Server: ServerDetails server_id,
    /// A port that sends requests.
    Client: ClientDetails client_id,
    /// A port that reads a blackboard.
    Reader: ReaderDetails reader_id,
    /// A port that writes to a blackboard.
    Writer: WriterDetails writer_id,
}

/// The details or the id of a port are those of a port of another kind.
///
#[doc = example!(listener)]
/// let refused = WriterDetails::try_from(PortDetails::from(listener)).unwrap_err();
/// assert_eq!((refused.found, refused.wanted), (Role::Listener, Role::Writer));
/// assert_eq!(refused.to_string(), "the port is a Listener, not a Writer");
#[doc = example!(end)]
#[derive(Clone, Copy, Debug, PartialEq, Eq, Hash)]
pub struct OtherRole {
    /// The kind that it has.
    pub found: Role,
    /// The kind that is wanted.
    pub wanted: Role,
}

impl fmt::Display for OtherRole {
    fn fmt(&self, f: &mut fmt::Formatter<'_>) -> fmt::Result {
        let OtherRole { found, wanted } = self;
        padded(f, format_args!("the port is a {found}, not a {wanted}"))
    }
}

impl Error for OtherRole {}
