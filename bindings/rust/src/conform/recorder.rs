use crate::container::{ContainerHandle, ContainerRemoveError, Entries, Role};
use crate::dynamic_config::{
    AllocError, AttachError, Capacities, DeregisterError, DeregisterNodeState, DynamicConfig,
    MessagingPatternSettings, PortCleanupAction, PortDetails, RegisterNodeResult,
};
use crate::identifiers::{UniqueNodeId, UniquePortId};
use crate::log::{self, Command, Ends, Record, Reply};
use std::collections::HashSet;

/// A service that writes down each call on it with its reply, as a log that
/// [`check_log`](super::check_log) judges. So what a test saw is compared with the sequential
/// specification.
///
/// Its methods are those of [`DynamicConfig`] that have a line in a log. A call with a handle of
/// another service, or of the other kind, has no line.
///
/// ```
/// use iox2sd::conform::{check_log, Recorder, Verdict};
/// use iox2sd::dynamic_config::event;
/// use iox2sd::prelude::*;
///
/// let ports = event::DynamicConfigSettings { number_of_listeners: 2, number_of_notifiers: 2 };
/// let mut service = Recorder::new(ports, 1, 7)?;
/// let node = UniqueNodeId::new(1, 0, 0, 1).expect("the id of a node");
/// let handle = service.register_node_id(node)?;
/// service.deregister_node_id(handle)?;
/// let log = service.log();
/// assert!(log.ends_with("A> deregister 0 0\nA< no-owners\n"));
/// assert_eq!(check_log(&log), Ok(Verdict::Conforms { calls: 2 }));
/// # Ok::<(), Box<dyn std::error::Error>>(())
/// ```
#[derive(Debug)]
pub struct Recorder {
    service: DynamicConfig,
    /// The line of the service.
    front: String,
    ends: Ends,
    record: Record,
}

impl Recorder {
    /// A service with this number and nothing attached, with all the tickets that there are.
    ///
    /// # Errors
    ///
    /// Refused as [`DynamicConfig::new`] is.
    ///
    /// # Examples
    ///
    /// ```
    /// use iox2sd::conform::Recorder;
    /// use iox2sd::dynamic_config::blackboard;
    ///
    /// let ports = blackboard::DynamicConfigSettings { number_of_readers: 8, number_of_writers: 1 };
    /// let service = Recorder::new(ports, 20, 7)?;
    /// assert_eq!(service.log(), "service blackboard 7 20 8 1\n");
    /// # Ok::<(), Box<dyn std::error::Error>>(())
    /// ```
    pub fn new(
        settings: impl Into<MessagingPatternSettings>,
        max_nodes: usize,
        service_number: u64,
    ) -> Result<Self, AllocError> {
        let settings = settings.into();
        let service = DynamicConfig::new(settings, max_nodes, service_number)?;
        Ok(Recorder {
            service,
            front: log::service(&settings, max_nodes, service_number),
            ends: Ends::default(),
            record: Record::new("A").map_err(|_| AllocError)?,
        })
    }

    /// The same with capacities that come from settings or from a description.
    ///
    /// # Errors
    ///
    /// Refused as [`DynamicConfig::new`] is.
    ///
    /// # Examples
    ///
    /// ```
    /// use iox2sd::{conform::Recorder, prelude::*};
    ///
    /// let service = Recorder::with_capacities(&Config::default().defaults.event, 7)?;
    /// assert_eq!(service.log(), "service event 7 36 16 16\n");
    /// # Ok::<(), Box<dyn std::error::Error>>(())
    /// ```
    pub fn with_capacities(
        capacities: impl Into<Capacities>,
        service_number: u64,
    ) -> Result<Self, AllocError> {
        let Capacities { max_nodes, ports } = capacities.into();
        Self::new(ports, max_nodes, service_number)
    }

    /// The service, for queries that are not written down.
    ///
    /// ```
    /// # use iox2sd::{conform::Recorder, prelude::*};
    /// let service = Recorder::with_capacities(&Config::default().defaults.event, 7)?;
    /// assert!(!service.service().is_locked());
    /// # Ok::<(), Box<dyn std::error::Error>>(())
    /// ```
    #[must_use]
    pub fn service(&self) -> &DynamicConfig {
        &self.service
    }

    /// The log so far.
    ///
    /// ```
    /// # use iox2sd::{conform::Recorder, prelude::*};
    /// let mut service = Recorder::with_capacities(&Config::default().defaults.event, 7)?;
    /// assert!(service.nodes().next().is_none());
    /// assert_eq!(service.log(), "service event 7 36 16 16\nA> nodes\nA< list\n");
    /// # Ok::<(), Box<dyn std::error::Error>>(())
    /// ```
    #[must_use]
    pub fn log(&self) -> String {
        log::text(&self.front, std::slice::from_ref(&self.record))
    }

    /// [`DynamicConfig::register_node_id`], written down.
    ///
    /// # Errors
    ///
    /// Those of that call.
    ///
    /// # Examples
    ///
    /// ```
    /// # use iox2sd::{conform::Recorder, prelude::*};
    /// # let ports = iox2sd::dynamic_config::event::DynamicConfigSettings::default();
    /// # let mut service = Recorder::new(ports, 0, 7)?;
    /// let node = UniqueNodeId::new(1, 0, 0, 1).expect("the id of a node");
    /// assert!(service.register_node_id(node).is_err());
    /// assert!(service.log().ends_with("A> register 1.0.0.1\nA< full\n"));
    /// # Ok::<(), Box<dyn std::error::Error>>(())
    /// ```
    pub fn register_node_id(
        &mut self,
        node_id: UniqueNodeId,
    ) -> Result<ContainerHandle, RegisterNodeResult> {
        let made = self.service.register_node_id(node_id);
        let reply = match made {
            Ok(handle) => made_reply(handle),
            Err(RegisterNodeResult::MarkedForDestruction) => Reply::Locked,
            Err(RegisterNodeResult::ExceedsMaxNumberOfNodes) => Reply::Full,
        };
        self.write(Command::Register(node_id), reply);
        made
    }

    /// [`DynamicConfig::deregister_node_id`], written down.
    ///
    /// # Errors
    ///
    /// Those of that call.
    ///
    /// # Examples
    ///
    /// ```
    /// # use iox2sd::{conform::Recorder, prelude::*};
    /// # let mut service = Recorder::with_capacities(&Config::default().defaults.event, 7)?;
    /// # let node = UniqueNodeId::new(1, 0, 0, 1).expect("the id of a node");
    /// let handle = service.register_node_id(node)?;
    /// service.deregister_node_id(handle)?;
    /// assert!(service.log().ends_with("A> deregister 0 0\nA< no-owners\n"));
    /// # Ok::<(), Box<dyn std::error::Error>>(())
    /// ```
    pub fn deregister_node_id(
        &mut self,
        handle: ContainerHandle,
    ) -> Result<DeregisterNodeState, DeregisterError> {
        let removed = self.service.deregister_node_id(handle);
        let reply = match removed {
            Ok(state) => state_reply(state),
            Err(DeregisterError::ContainerHandleNotOwnedByContainer) => Reply::NotOwned,
            Err(DeregisterError::PortsStillAttached) => Reply::PortsAttached,
        };
        let (slot, ticket) = (handle.slot(), handle.ticket());
        if self.is_own(handle) && handle.role() == Role::Node {
            self.write(Command::Deregister { slot, ticket }, reply);
        }
        removed
    }

    /// [`DynamicConfig::attach`], written down.
    ///
    /// # Errors
    ///
    /// Those of that call.
    ///
    /// # Examples
    ///
    /// ```
    /// # use iox2sd::{conform::Recorder, prelude::*};
    /// # let mut service = Recorder::with_capacities(&Config::default().defaults.event, 7)?;
    /// # let node_id = UniqueNodeId::new(1, 0, 0, 1).expect("the id of a node");
    /// let listener_id = UniqueListenerId::new(1, 0, 0, 2);
    /// assert!(service.attach(ListenerDetails { listener_id, node_id }).is_err());
    /// assert!(service.log().ends_with("listener 1.0.0.2 1.0.0.1\nA< not-registered\n"));
    /// # Ok::<(), Box<dyn std::error::Error>>(())
    /// ```
    pub fn attach(
        &mut self,
        details: impl Into<PortDetails>,
    ) -> Result<ContainerHandle, AttachError> {
        let details = details.into();
        let command = Command::Add(details.port_id(), details.node_id());
        let made = self.service.attach(details);
        let reply = match made {
            Ok(handle) => made_reply(handle),
            Err(AttachError::RoleNotInPattern) => Reply::WrongPattern,
            Err(AttachError::ServiceIsLocked) => Reply::Locked,
            Err(AttachError::NodeNotRegistered) => Reply::NotRegistered,
            Err(AttachError::OutOfSpace) => Reply::Full,
        };
        self.write(command, reply);
        made
    }

    /// [`DynamicConfig::release_port`], written down.
    ///
    /// # Errors
    ///
    /// Those of that call.
    ///
    /// # Examples
    ///
    /// ```
    /// # use iox2sd::{conform::Recorder, prelude::*};
    /// # let mut service = Recorder::with_capacities(&Config::default().defaults.event, 7)?;
    /// let stale = ContainerHandle::from_parts(7, Role::Listener, 0, 0);
    /// assert!(service.release_port(stale).is_err());
    /// assert!(service.log().ends_with("A> release listener 0 0\nA< not-owned\n"));
    /// # Ok::<(), Box<dyn std::error::Error>>(())
    /// ```
    pub fn release_port(&mut self, handle: ContainerHandle) -> Result<(), ContainerRemoveError> {
        let removed = self.service.release_port(handle);
        let reply = match removed {
            Ok(()) => Reply::Released,
            Err(ContainerRemoveError::ContainerHandleNotOwnedByContainer) => Reply::NotOwned,
        };
        let (role, slot, ticket) = (handle.role(), handle.slot(), handle.ticket());
        if self.is_own(handle) && role != Role::Node {
            self.write(Command::Release { role, slot, ticket }, reply);
        }
        removed
    }

    /// [`DynamicConfig::remove_dead_node_id`], written down. A line has no kinds of ports: where one
    /// is kept, the port of the other kind with its number is kept too.
    ///
    /// ```
    /// # use iox2sd::{conform::Recorder, prelude::*};
    /// # let mut service = Recorder::with_capacities(&Config::default().defaults.event, 7)?;
    /// # let node = UniqueNodeId::new(1, 0, 0, 1).expect("the id of a node");
    /// service.register_node_id(node)?;
    /// service.remove_dead_node_id(&node, |_| PortCleanupAction::RemovePort);
    /// assert!(service.log().ends_with("A> dead 1.0.0.1\nA< no-owners\n"));
    /// # Ok::<(), Box<dyn std::error::Error>>(())
    /// ```
    pub fn remove_dead_node_id<F: FnMut(UniquePortId) -> PortCleanupAction>(
        &mut self,
        dead: &UniqueNodeId,
        mut callback: F,
    ) -> DeregisterNodeState {
        let ports = self.service.ports_of(dead);
        let skipped: Vec<_> = ports
            .map(|port| port.port_id())
            .filter(|port| callback(*port) == PortCleanupAction::SkipPort)
            .collect();
        let numbers: HashSet<_> = skipped.iter().map(UniquePortId::value).collect();
        let state = self.service.remove_dead_node_id(dead, |port| {
            if numbers.contains(&port.value()) {
                PortCleanupAction::SkipPort
            } else {
                PortCleanupAction::RemovePort
            }
        });
        self.write(Command::Dead(*dead, skipped), state_reply(state));
        state
    }

    /// [`DynamicConfig::nodes`], written down.
    ///
    /// ```
    /// # use iox2sd::{conform::Recorder, prelude::*};
    /// # let mut service = Recorder::with_capacities(&Config::default().defaults.event, 7)?;
    /// assert_eq!(service.nodes().len(), 0);
    /// assert!(service.log().ends_with("A> nodes\nA< list\n"));
    /// # Ok::<(), Box<dyn std::error::Error>>(())
    /// ```
    pub fn nodes(&mut self) -> Entries<UniqueNodeId> {
        let nodes = self.service.nodes();
        self.write(Command::Nodes, Reply::Nodes(nodes.as_slice().to_vec()));
        nodes
    }

    /// [`DynamicConfig::ports`], written down; but for [`Role::Node`], which has no line.
    ///
    /// ```
    /// # use iox2sd::{conform::Recorder, prelude::*};
    /// # let mut service = Recorder::with_capacities(&Config::default().defaults.event, 7)?;
    /// assert!(service.ports(Role::Reader).is_none());
    /// assert!(service.log().ends_with("A> list reader\nA< wrong-pattern\n"));
    /// # Ok::<(), Box<dyn std::error::Error>>(())
    /// ```
    pub fn ports(&mut self, role: Role) -> Option<Entries<PortDetails>> {
        let ports = self.service.ports(role);
        if role != Role::Node {
            let ids = |ports: &Entries<PortDetails>| {
                ports.as_slice().iter().map(PortDetails::port_id).collect()
            };
            let reply = ports.as_ref().map(ids).map(Reply::Ports);
            self.write(Command::List(role), reply.unwrap_or(Reply::WrongPattern));
        }
        ports
    }

    /// [`DynamicConfig::count_ports`], written down; but for [`Role::Node`], which has no line.
    ///
    /// ```
    /// # use iox2sd::{conform::Recorder, prelude::*};
    /// # let mut service = Recorder::with_capacities(&Config::default().defaults.event, 7)?;
    /// assert_eq!(service.count_ports(Role::Listener), Some(0));
    /// assert!(service.log().ends_with("A> count listener\nA< count 0\n"));
    /// # Ok::<(), Box<dyn std::error::Error>>(())
    /// ```
    pub fn count_ports(&mut self, role: Role) -> Option<usize> {
        let count = self.service.count_ports(role);
        if role != Role::Node {
            let reply = count.map(Reply::Count);
            self.write(Command::Count(role), reply.unwrap_or(Reply::WrongPattern));
        }
        count
    }

    fn is_own(&self, handle: ContainerHandle) -> bool {
        handle.service() == self.service.service_number()
    }

    /// Writes a call with its reply.
    fn write(&mut self, command: Command, reply: Reply) {
        let begun = self.record.begin(&self.ends, command);
        begun.expect("there is memory, as for a `Vec`");
        self.record.end(&self.ends, reply);
    }
}

fn made_reply(handle: ContainerHandle) -> Reply {
    Reply::Handle {
        slot: handle.slot(),
        ticket: handle.ticket(),
    }
}

fn state_reply(state: DeregisterNodeState) -> Reply {
    match state {
        DeregisterNodeState::HasOwners => Reply::HasOwners,
        DeregisterNodeState::NoMoreOwners => Reply::NoOwners,
    }
}
