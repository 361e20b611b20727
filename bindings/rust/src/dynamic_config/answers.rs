use crate::display::{errors, shown_by_name};
use std::error::Error;
use std::fmt;

/// There was no memory for a service, or to judge a log.
///
/// ```
/// # use iox2sd::prelude::*;
/// use iox2sd::dynamic_config::{event::DynamicConfigSettings, AllocError};
///
/// let refused = DynamicConfig::new(DynamicConfigSettings::default(), usize::MAX, 7);
/// assert_eq!(refused.unwrap_err(), AllocError);
/// assert_eq!(AllocError.to_string(), "memory allocation failed");
/// ```
#[derive(Clone, Copy, Debug, PartialEq, Eq, PartialOrd, Ord, Hash)]
pub struct AllocError;

impl fmt::Display for AllocError {
    fn fmt(&self, f: &mut fmt::Formatter<'_>) -> fmt::Result {
        f.pad("memory allocation failed")
    }
}

impl Error for AllocError {}

errors! {
    /// Why a node was not registered.
    ///
    #[doc = example!(node)]
    /// service.deregister_node_id(node)?;
    /// let locked = service.register_node_id(node_id).unwrap_err();
    /// assert_eq!(locked.to_string(), "RegisterNodeResult::MarkedForDestruction");
    #[doc = example!(end)]
    RegisterNodeResult {
        /// The service is locked for good, since its last node left. This is reported first.
        MarkedForDestruction = IOX2SD_STATUS_IS_LOCKED,
        /// There are as many nodes as there may be, or no ticket is left.
        ExceedsMaxNumberOfNodes = IOX2SD_STATUS_OUT_OF_SPACE,
    }
}

/// Whether a service has nodes, or may have some again.
///
#[doc = example!(node)]
/// let again = service.register_node_id(node_id)?;
/// assert_eq!(service.deregister_node_id(node)?, DeregisterNodeState::HasOwners);
/// assert_eq!(service.deregister_node_id(again)?, DeregisterNodeState::NoMoreOwners);
#[doc = example!(end)]
#[derive(Clone, Copy, Debug, PartialEq, Eq, PartialOrd, Ord, Hash)]
pub enum DeregisterNodeState {
    /// The service is not locked.
    HasOwners,
    /// The last node left: the service is locked for good.
    NoMoreOwners,
}

shown_by_name!(DeregisterNodeState);

impl DeregisterNodeState {
    pub(super) fn of(locked: bool) -> Self {
        if locked {
            DeregisterNodeState::NoMoreOwners
        } else {
            DeregisterNodeState::HasOwners
        }
    }
}

errors! {
    /// Why a node was not deregistered.
    ///
    #[doc = example!(port)]
    /// use iox2sd::dynamic_config::DeregisterError;
    ///
    /// let refused = service.deregister_node_id(node).unwrap_err();
    /// assert_eq!(refused, DeregisterError::PortsStillAttached);
    /// let refused = service.deregister_node_id(port).unwrap_err();
    /// assert_eq!(refused, DeregisterError::ContainerHandleNotOwnedByContainer);
    #[doc = example!(end)]
    #[non_exhaustive]
    DeregisterError {
        /// No node of the service has this handle. This is reported first.
        ContainerHandleNotOwnedByContainer = IOX2SD_STATUS_FOREIGN_HANDLE,
        /// The handle is the only one of its node, and some port has that node.
        PortsStillAttached = IOX2SD_STATUS_PORTS_STILL_ATTACHED,
    }
}

errors! {
    /// Why a port was not attached. The first cause is reported.
    ///
    #[doc = example!(listener)]
    /// use iox2sd::dynamic_config::AttachError;
    ///
    /// let reader = ReaderDetails { reader_id: UniqueReaderId::new(1, 0, 0, 2), node_id };
    /// assert_eq!(service.attach(reader), Err(AttachError::RoleNotInPattern));
    /// service.deregister_node_id(node)?;
    /// assert_eq!(service.attach(listener), Err(AttachError::ServiceIsLocked));
    #[doc = example!(end)]
    #[non_exhaustive]
    AttachError {
        /// The pattern of the service has no such ports.
        RoleNotInPattern = IOX2SD_STATUS_ROLE_NOT_IN_PATTERN,
        /// The service is locked for good, since its last node left.
        ServiceIsLocked = IOX2SD_STATUS_IS_LOCKED,
        /// The port's node is not registered.
        NodeNotRegistered = IOX2SD_STATUS_NODE_NOT_REGISTERED,
        /// There are as many ports of this kind as there may be, or no ticket is left.
        OutOfSpace = IOX2SD_STATUS_OUT_OF_SPACE,
    }
}

/// What becomes of a port whose node is dead.
///
#[doc = example!(port)]
/// let state = service.remove_dead_node_id(&node_id, |_| PortCleanupAction::SkipPort);
/// assert_eq!(state, DeregisterNodeState::HasOwners);
/// assert_eq!((service.number_of_nodes(), service.event().number_of_listeners()), (1, 1));
#[doc = example!(end)]
#[derive(Clone, Copy, Debug, PartialEq, Eq, PartialOrd, Ord, Hash)]
pub enum PortCleanupAction {
    /// It is removed.
    RemovePort,
    /// It stays, and so does its node.
    SkipPort,
}

shown_by_name!(PortCleanupAction);
