//! What the entries of a service are, and the handles by which they are removed.
//!
#![doc = example!(node)]
//! let second = service.register_node_id(node_id)?;
//! assert_eq!((second.role(), second.slot(), second.ticket()), (Role::Node, 1, 1));
#![doc = example!(end)]

use crate::display::{choices, errors, getters};
use crate::library;
use crate::plain::Plain;
use crate::sys;
use std::iter::FusedIterator;
use std::vec;

choices! {
    /// What an entry of a service is: a node, or a port of one kind.
    ///
    /// ```
    /// use iox2sd::container::Role;
    ///
    /// assert_eq!(Role::Publisher.to_string(), "Publisher");
    /// assert_eq!(Role::ALL.map(|role| role as usize), [0, 1, 2, 3, 4, 5, 6, 7, 8]);
    /// ```
    Role of u64 in "container" {
        /// A node.
        Node = IOX2SD_ROLE_NODE;
        /// A port that sends samples.
        Publisher = IOX2SD_ROLE_PUBLISHER;
        /// A port that receives samples.
        Subscriber = IOX2SD_ROLE_SUBSCRIBER;
        /// A port that signals events.
        Notifier = IOX2SD_ROLE_NOTIFIER;
        /// A port that waits for events.
        Listener = IOX2SD_ROLE_LISTENER;
        /// A port that sends requests.
        Client = IOX2SD_ROLE_CLIENT;
        /// A port that answers requests.
        Server = IOX2SD_ROLE_SERVER;
        /// A port that reads a blackboard.
        Reader = IOX2SD_ROLE_READER;
        /// A port that writes to a blackboard.
        Writer = IOX2SD_ROLE_WRITER;
    }
}

/// Registering a node and attaching a port return a handle; deregistering and releasing take it. A
/// service never reuses a handle. Handles are ordered by service, role, slot and ticket.
///
/// ```
/// use iox2sd::container::{ContainerHandle, Role};
///
/// let handle = ContainerHandle::from_parts(7, Role::Node, 0, 3);
/// assert_eq!((handle.service(), handle.role()), (7, Role::Node));
/// assert_eq!((handle.slot(), handle.ticket()), (0, 3));
/// ```
#[derive(Clone, Copy, Debug, PartialEq, Eq, PartialOrd, Ord, Hash)]
#[repr(C)]
pub struct ContainerHandle {
    service: u64,
    role: Role,
    slot: usize,
    ticket: u64,
}

impl ContainerHandle {
    /// The handle with these parts. It need not be one that a service returned.
    ///
    /// ```
    /// use iox2sd::container::{ContainerHandle, Role};
    ///
    /// let handle = ContainerHandle::from_parts(7, Role::Node, 0, 3);
    /// assert_eq!(handle, ContainerHandle::from_parts(7, Role::Node, 0, 3));
    /// assert_ne!(handle, ContainerHandle::from_parts(7, Role::Node, 0, 4));
    /// ```
    #[must_use]
    pub fn from_parts(service: u64, role: Role, slot: usize, ticket: u64) -> Self {
        ContainerHandle {
            service,
            role,
            slot,
            ticket,
        }
    }

    getters! {
        {
            /// use iox2sd::container::{ContainerHandle, Role};
            ///
            /// let (service, role, slot, ticket) = (7, Role::Writer, 2, 3);
            /// let handle = ContainerHandle::from_parts(service, role, slot, ticket);
        }
        /// The number of the service.
        service -> u64 = |handle| handle.service, "handle.service(), service";
        /// What has the handle.
        role -> Role = |handle| handle.role, "handle.role(), role";
        /// The slot among the entries of its role.
        slot -> usize = |handle| handle.slot, "handle.slot(), slot";
        /// How many entries of its role were made before it.
        ticket -> u64 = |handle| handle.ticket, "handle.ticket(), ticket";
    }
}

impl Plain for ContainerHandle {
    type C = sys::iox2sd_handle;

    #[inline]
    fn of_c(c: &Self::C) -> Self {
        Self::from_parts(c.service, Role::of_c(&c.role), c.slot, c.ticket)
    }

    #[inline]
    fn as_c(self) -> Self::C {
        sys::iox2sd_handle {
            service: self.service,
            role: self.role.as_c(),
            slot: self.slot,
            ticket: self.ticket,
        }
    }
}

errors! {
    /// Why nothing was released.
    ///
    #[doc = example!(service)]
    /// let foreign = ContainerHandle::from_parts(8, Role::Listener, 0, 0);
    /// let refused = service.release_port(foreign).unwrap_err().to_string();
    /// assert_eq!(refused, "ContainerRemoveError::ContainerHandleNotOwnedByContainer");
    #[doc = example!(end)]
    ContainerRemoveError {
        /// No entry of the service has this handle.
        ContainerHandleNotOwnedByContainer = IOX2SD_STATUS_FOREIGN_HANDLE,
    }
}

/// Numbers for services, for those who have none: 1, 2, 3, .., each once, up to 2^64 - 1.
///
/// Two values return the same numbers, so one serves all services whose handles may meet.
///
/// ```
/// use iox2sd::container::ServiceNumbers;
///
/// let mut numbers = ServiceNumbers::default();
/// assert_eq!((numbers.next(), numbers.next()), (Some(1), Some(2)));
/// ```
#[derive(Debug, Default)]
pub struct ServiceNumbers {
    last: u64,
}

impl ServiceNumbers {
    /// The numbers above this one.
    ///
    /// ```
    /// use iox2sd::container::ServiceNumbers;
    ///
    /// let mut numbers = ServiceNumbers::after(u64::MAX - 1);
    /// assert_eq!((numbers.next(), numbers.next()), (Some(u64::MAX), None));
    /// ```
    #[must_use]
    pub fn after(last: u64) -> Self {
        ServiceNumbers { last }
    }

    /// The number that was returned last, or 0.
    ///
    /// ```
    /// use iox2sd::container::ServiceNumbers;
    ///
    /// let mut numbers = ServiceNumbers::after(4);
    /// numbers.next();
    /// assert_eq!(numbers.last_number(), 5);
    /// ```
    #[must_use]
    pub fn last_number(&self) -> u64 {
        self.last
    }
}

impl Iterator for ServiceNumbers {
    type Item = u64;

    fn next(&mut self) -> Option<u64> {
        let number = library::next_service_number(self.last)?;
        self.last = number;
        Some(number)
    }
}

impl FusedIterator for ServiceNumbers {}

/// The entries that were there when they were listed, by rising slot.
///
#[doc = example!(node)]
/// let mut nodes = service.nodes();
/// assert_eq!((nodes.len(), nodes.as_slice()), (1, &[node_id][..]));
/// assert_eq!((nodes.next(), nodes.next()), (Some(node_id), None));
#[doc = example!(end)]
#[derive(Clone, Debug)]
pub struct Entries<T> {
    entries: vec::IntoIter<T>,
}

impl<T> Entries<T> {
    /// Those that are left.
    ///
    #[doc = example!(service)]
    /// assert!(service.nodes().as_slice().is_empty());
    #[doc = example!(end)]
    #[must_use]
    pub fn as_slice(&self) -> &[T] {
        self.entries.as_slice()
    }
}

/// None.
impl<T> Default for Entries<T> {
    fn default() -> Self {
        [].into_iter().collect()
    }
}

impl<T> FromIterator<T> for Entries<T> {
    fn from_iter<I>(entries: I) -> Self
    where
        I: IntoIterator<Item = T>,
    {
        Entries {
            entries: Vec::from_iter(entries).into_iter(),
        }
    }
}

impl<T> Iterator for Entries<T> {
    type Item = T;

    #[inline]
    fn next(&mut self) -> Option<T> {
        self.entries.next()
    }

    #[inline]
    fn size_hint(&self) -> (usize, Option<usize>) {
        self.entries.size_hint()
    }
}

impl<T> DoubleEndedIterator for Entries<T> {
    fn next_back(&mut self) -> Option<T> {
        self.entries.next_back()
    }
}

impl<T> ExactSizeIterator for Entries<T> {}

impl<T> FusedIterator for Entries<T> {}
