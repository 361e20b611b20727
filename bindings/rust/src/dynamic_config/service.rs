use super::{
    blackboard, event, publish_subscribe, request_response, AllocError, AttachError,
    DeregisterError, DeregisterNodeState, PortCleanupAction, PortDetails, RegisterNodeResult,
};
use crate::callback_progression::visit;
use crate::config::PatternSettings;
use crate::container::{ContainerHandle, ContainerRemoveError, Entries, Role};
use crate::identifiers::{order, UniqueNodeId, UniquePortId};
use crate::library::{self, Service};
use crate::messaging_pattern::MessagingPattern as Kind;
use crate::plain::Plain;
use crate::static_config::messaging_pattern::MessagingPattern as Pattern;
use crate::static_config::{self as fixed, StaticConfig};
use crate::sys;
use crate::CallbackProgression;
use std::fmt;

/// Defines what goes by the pattern of a service.
macro_rules! patterns {
    ($($(#[$documentation:meta])* $variant:ident: $module:ident,)*) => {
        /// How many ports of each kind a service can have at a time, by its pattern.
        ///
        /// ```
        /// use iox2sd::dynamic_config::{event, DynamicConfig, MessagingPatternSettings};
        ///
        /// let ports = event::DynamicConfigSettings { number_of_listeners: 1, number_of_notifiers: 1 };
        /// let service = DynamicConfig::new(&MessagingPatternSettings::Event(ports), 1, 7)?;
        /// assert!(service.is_event());
        /// # Ok::<(), iox2sd::dynamic_config::AllocError>(())
        /// ```
        #[derive(Clone, Copy, Debug, PartialEq, Eq, Hash)]
        pub enum MessagingPatternSettings {
            $(
                $(#[$documentation])*
                $variant($module::DynamicConfigSettings),
            )*
        }

        $(
            impl From<$module::DynamicConfigSettings> for MessagingPatternSettings {
                fn from(room: $module::DynamicConfigSettings) -> Self {
                    MessagingPatternSettings::$variant(room)
                }
            }

            /// What the description of a service of the pattern says.
            impl From<&fixed::$module::StaticConfig> for Capacities {
                fn from(service: &fixed::$module::StaticConfig) -> Self {
                    Capacities {
                        max_nodes: service.max_nodes,
                        ports: $module::DynamicConfigSettings::from(service).into(),
                    }
                }
            }
        )*

        /// The capacities in the description of a service of the pattern.
        impl From<&Pattern> for MessagingPatternSettings {
            fn from(pattern: &Pattern) -> Self {
                Capacities::from(pattern).ports
            }
        }

        /// What the description of a service says.
        impl From<&Pattern> for Capacities {
            fn from(pattern: &Pattern) -> Self {
                match pattern {
                    $(Pattern::$variant(service) => service.into(),)*
                }
            }
        }

        impl MessagingPatternSettings {
            /// The pattern, with the capacities of its two kinds of ports.
            pub(crate) fn parts(&self) -> (Kind, [usize; 2]) {
                match self {
                    $(Self::$variant(room) => (Kind::$variant, room.each()),)*
                }
            }
        }

        /// The service, as the queries about its pattern's ports want it.
        enum MessagingPattern {
            $($variant($module::DynamicConfig),)*
        }

        impl DynamicConfig {
            fn of(kind: Kind, service: Service) -> Self {
                let messaging_pattern = match kind {
                    $(Kind::$variant => {
                        MessagingPattern::$variant($module::DynamicConfig { service })
                    })*
                };
                DynamicConfig { messaging_pattern }
            }

            #[inline]
            fn service(&self) -> &Service {
                match &self.messaging_pattern {
                    $(MessagingPattern::$variant(ports) => &ports.service,)*
                }
            }

            #[inline]
            fn service_mut(&mut self) -> &mut Service {
                match &mut self.messaging_pattern {
                    $(MessagingPattern::$variant(ports) => &mut ports.service,)*
                }
            }

            /// The pattern of the service.
            ///
            #[doc = example!(service)]
            /// assert_eq!(service.kind(), MessagingPattern::Event);
            #[doc = example!(end)]
            #[must_use]
            #[inline]
            pub fn kind(&self) -> Kind {
                match self.messaging_pattern {
                    $(MessagingPattern::$variant(_) => Kind::$variant,)*
                }
            }
        }
    };
}

patterns! {
    /// A request-response service.
    RequestResponse: request_response,
    /// A publish-subscribe service.
    PublishSubscribe: publish_subscribe,
    /// An event service.
    Event: event,
    /// A blackboard service.
    Blackboard: blackboard,
}

/// A copy, so that the caller keeps its own.
impl From<&MessagingPatternSettings> for MessagingPatternSettings {
    fn from(settings: &MessagingPatternSettings) -> Self {
        *settings
    }
}

/// How many nodes and how many ports of each kind a service can have at a time.
///
/// They come from the settings of a pattern, from what is fixed of a service and from its
/// description.
///
/// ```
/// use iox2sd::dynamic_config::Capacities;
/// use iox2sd::prelude::*;
///
/// let settings = Config::default().defaults.event;
/// let service = StaticConfig::new(&"front".parse()?, &settings, UniqueServiceId::new(1, 0, 0, 1))?;
/// assert_eq!(Capacities::from(&service), Capacities::from(&settings));
/// assert_eq!(Capacities::from(service.event()).max_nodes, 36);
/// # Ok::<(), Box<dyn std::error::Error>>(())
/// ```
#[derive(Clone, Copy, Debug, PartialEq, Eq, Hash)]
pub struct Capacities {
    /// How many handles of nodes there may be at a time.
    pub max_nodes: usize,
    /// How many ports of each kind there may be at a time, by the pattern.
    pub ports: MessagingPatternSettings,
}

impl<S: PatternSettings> From<&S> for Capacities {
    fn from(settings: &S) -> Self {
        settings.capacities()
    }
}

impl From<&StaticConfig> for Capacities {
    fn from(service: &StaticConfig) -> Self {
        service.messaging_pattern().into()
    }
}

/// Who is attached to a service: nodes, and ports that belong to them.
///
/// A port exists only with a registered node. When the last node leaves, the service is locked for
/// good. No handle is ever reused, and a stale one is refused for good.
///
/// A service may be sent to another thread, and many threads may query it at once:
///
/// ```
/// use iox2sd::prelude::*;
/// use std::thread;
///
/// let mut service = DynamicConfig::with_capacities(&Config::default().defaults.event, 7)?;
/// let node = UniqueNodeId::new(1, 0, 0, 1).expect("the id of a node");
/// let other = thread::spawn(move || service.register_node_id(node).map(|_| service));
/// let service = other.join().expect("it ends")?;
/// thread::scope(|threads| {
///     threads.spawn(|| assert_eq!(service.number_of_nodes(), 1));
///     threads.spawn(|| assert!(!service.is_locked()));
/// });
/// # Ok::<(), Box<dyn std::error::Error>>(())
/// ```
pub struct DynamicConfig {
    messaging_pattern: MessagingPattern,
}

/// Making a service and changing it.
impl DynamicConfig {
    /// A service with this number and nothing attached, with all the tickets that there are.
    ///
    /// # Errors
    ///
    /// Refused where memory for so many nodes and ports is refused. The library takes no memory in
    /// a later call.
    ///
    /// # Examples
    ///
    /// ```
    /// use iox2sd::dynamic_config::{blackboard, AllocError, DynamicConfig};
    ///
    /// let mut ports = blackboard::DynamicConfigSettings {
    ///     number_of_readers: 8,
    ///     number_of_writers: 1,
    /// };
    /// assert_eq!(DynamicConfig::new(ports, 20, 7)?.max_nodes(), 20);
    /// ports.number_of_readers = usize::MAX;
    /// assert_eq!(DynamicConfig::new(ports, 20, 7).unwrap_err(), AllocError);
    /// # Ok::<(), AllocError>(())
    /// ```
    pub fn new(
        settings: impl Into<MessagingPatternSettings>,
        max_nodes: usize,
        service_number: u64,
    ) -> Result<Self, AllocError> {
        Self::with_tickets(settings, max_nodes, service_number, u64::MAX)
    }

    /// The same with capacities that come from settings or from a description.
    ///
    /// # Errors
    ///
    /// Refused as [`DynamicConfig::new`] is.
    ///
    /// # Examples
    ///
    /// ```
    /// use iox2sd::prelude::*;
    ///
    /// let config = Config::default();
    /// let id = UniqueServiceId::new(1, 0, 0, 1);
    /// let description = StaticConfig::new_event(&"front".parse()?, &config, id)?;
    /// let service = DynamicConfig::with_capacities(&description, 7)?;
    /// assert_eq!((service.max_nodes(), service.max_ports(Role::Listener)), (36, Some(16)));
    /// assert!(DynamicConfig::with_capacities(&config.defaults.blackboard, 8)?.is_blackboard());
    /// # Ok::<(), Box<dyn std::error::Error>>(())
    /// ```
    pub fn with_capacities(
        capacities: impl Into<Capacities>,
        service_number: u64,
    ) -> Result<Self, AllocError> {
        let Capacities { max_nodes, ports } = capacities.into();
        Self::new(ports, max_nodes, service_number)
    }

    /// A service with this number and nothing attached, and with so many tickets for nodes and for
    /// each kind of ports: each registering and each attaching takes one, and none comes back.
    ///
    /// # Errors
    ///
    /// Refused as [`DynamicConfig::new`] is.
    ///
    /// # Examples
    ///
    /// ```
    /// # use iox2sd::prelude::*;
    /// # let settings = iox2sd::dynamic_config::event::DynamicConfigSettings::default();
    /// let mut service = DynamicConfig::with_tickets(settings, 9, 7, 1)?;
    /// let node = UniqueNodeId::new(1, 0, 0, 1).expect("the id of a node");
    /// service.register_node_id(node)?;
    /// assert!(!service.has_room_for_node());
    /// # Ok::<(), Box<dyn std::error::Error>>(())
    /// ```
    pub fn with_tickets(
        settings: impl Into<MessagingPatternSettings>,
        max_nodes: usize,
        service_number: u64,
        tickets: u64,
    ) -> Result<Self, AllocError> {
        let (kind, [first, second]) = settings.into().parts();
        let capacities = sys::iox2sd_capacities {
            nodes: max_nodes,
            first,
            second,
        };
        match Service::make(kind.as_c(), service_number, capacities, tickets) {
            Ok(service) => Ok(Self::of(kind, service)),
            Err(sys::IOX2SD_STATUS_NO_MEMORY) => Err(AllocError),
            Err(other) => library::unexpected(other),
        }
    }

    /// Registers a node, which may have several handles.
    ///
    /// # Errors
    ///
    /// Refused where the service is locked, and else where there are
    /// [`max_nodes`](Self::max_nodes) handles of nodes or no ticket is left.
    ///
    /// # Examples
    ///
    #[doc = example!(node)]
    /// use iox2sd::dynamic_config::RegisterNodeResult::ExceedsMaxNumberOfNodes;
    ///
    /// assert_eq!(service.node(node), Some(node_id));
    /// while service.has_room_for_node() {
    ///     service.register_node_id(node_id)?;
    /// }
    /// assert_eq!(service.register_node_id(node_id), Err(ExceedsMaxNumberOfNodes));
    #[doc = example!(end)]
    #[inline]
    pub fn register_node_id(
        &mut self,
        id: UniqueNodeId,
    ) -> Result<ContainerHandle, RegisterNodeResult> {
        let handle = self.service_mut().register(id.as_c());
        handle
            .map(|handle| ContainerHandle::of_c(&handle))
            .map_err(RegisterNodeResult::of)
    }

    /// Deregisters the node with this handle. Where it was the last one, the service is locked for
    /// good.
    ///
    /// # Errors
    ///
    /// Refused for each handle that is not that of a node here, and else where it is the only one
    /// of its node and some port has that node.
    ///
    /// # Examples
    ///
    #[doc = example!(node)]
    /// use iox2sd::dynamic_config::DeregisterError::ContainerHandleNotOwnedByContainer;
    ///
    /// assert_eq!(service.deregister_node_id(node)?, DeregisterNodeState::NoMoreOwners);
    /// assert_eq!(service.deregister_node_id(node), Err(ContainerHandleNotOwnedByContainer));
    #[doc = example!(end)]
    #[inline]
    pub fn deregister_node_id(
        &mut self,
        handle: ContainerHandle,
    ) -> Result<DeregisterNodeState, DeregisterError> {
        let locked = self.service_mut().deregister(handle.as_c());
        locked
            .map(DeregisterNodeState::of)
            .map_err(DeregisterError::of)
    }

    /// Attaches a port.
    ///
    /// # Errors
    ///
    /// Refused where the pattern has no such ports, else where the service is locked, else where
    /// the port's node is not registered, by its whole id, and else where there is no slot or no
    /// ticket for the port.
    ///
    /// # Examples
    ///
    #[doc = example!(listener)]
    /// use iox2sd::dynamic_config::AttachError;
    ///
    /// let port = service.attach(listener)?;
    /// assert_eq!(service.port(port), Some(listener.into()));
    /// while service.has_room(Role::Listener) == Some(true) {
    ///     service.attach(listener)?;
    /// }
    /// assert_eq!(service.attach(listener), Err(AttachError::OutOfSpace));
    #[doc = example!(end)]
    #[inline]
    pub fn attach(
        &mut self,
        details: impl Into<PortDetails>,
    ) -> Result<ContainerHandle, AttachError> {
        let handle = self.service_mut().attach(&details.into().parts());
        handle
            .map(|handle| ContainerHandle::of_c(&handle))
            .map_err(AttachError::of)
    }

    /// Releases the port with this handle.
    ///
    /// # Errors
    ///
    /// Refused for each handle that is not that of a port here, a node's too.
    ///
    /// # Examples
    ///
    #[doc = example!(port)]
    /// use iox2sd::container::ContainerRemoveError::ContainerHandleNotOwnedByContainer;
    ///
    /// assert_eq!(service.release_port(node), Err(ContainerHandleNotOwnedByContainer));
    /// assert_eq!(service.release_port(port), Ok(()));
    #[doc = example!(end)]
    #[inline]
    pub fn release_port(&mut self, handle: ContainerHandle) -> Result<(), ContainerRemoveError> {
        let released = self.service_mut().release(handle.as_c());
        released.map_err(ContainerRemoveError::of)
    }

    /// Calls the callback once for each port of the dead node, in the order of
    /// [`ports_of`](Self::ports_of), and removes those that it answers with
    /// [`RemovePort`](PortCleanupAction::RemovePort). Where none of its ports is left, the node is
    /// removed too, with all its handles; where it was the last one, the service is locked for
    /// good. Where a port is left, the node stays.
    ///
    /// Nothing is changed before the callback has answered for all ports.
    ///
    /// Ports are kept by their [`UniquePortId`]s: where the callback answers
    /// [`SkipPort`](PortCleanupAction::SkipPort) for one port, all ports of the node with its id
    /// stay. Where ids are unique, each answer is for one port.
    ///
    #[doc = example!(port)]
    ///
    /// let state = service.remove_dead_node_id(&node_id, |port| {
    ///     println!("{port} is removed");
    ///     PortCleanupAction::RemovePort
    /// });
    /// assert_eq!(state, DeregisterNodeState::NoMoreOwners);
    /// assert_eq!(service.event().number_of_listeners(), 0);
    #[doc = example!(end)]
    #[inline]
    pub fn remove_dead_node_id<F: FnMut(UniquePortId) -> PortCleanupAction>(
        &mut self,
        dead: &UniqueNodeId,
        mut callback: F,
    ) -> DeregisterNodeState {
        let mut kept = Vec::new();
        self.service().ports_of(dead.as_c(), |ports| {
            for port in ports {
                let id = PortDetails::of(port).port_id();
                if callback(id) == PortCleanupAction::SkipPort {
                    kept.push(sys::iox2sd_port_id {
                        role: port.role,
                        port: port.port,
                    });
                }
            }
        });
        kept.sort_unstable_by(|one, other| {
            order(one.port, other.port).then(one.role.cmp(&other.role))
        });
        match self.service_mut().dead(dead.as_c(), &kept) {
            Ok(locked) => DeregisterNodeState::of(locked),
            Err(other) => library::unexpected(other),
        }
    }
}

/// Defines queries of numbers and flags, each with what an example says of an event service for one
/// node.
macro_rules! queries {
    ($(
        $(#[$documentation:meta])*
        $name:ident($($role:ident)?) -> $answer:ty, $example:literal;
    )*) => {
        $(
            $(#[$documentation])*
            ///
            /// ```
            /// use iox2sd::prelude::*;
            ///
            /// # let ports = iox2sd::dynamic_config::event::DynamicConfigSettings::default();
            /// let (max_nodes, number) = (1, 7);
            /// let service = DynamicConfig::new(ports, max_nodes, number)?;
            #[doc = concat!("assert_eq!(", $example, ");")]
            /// # Ok::<(), iox2sd::dynamic_config::AllocError>(())
            /// ```
            #[must_use]
            #[inline]
            pub fn $name(&self $(, $role: Role)?) -> $answer {
                self.service().$name($($role.as_c())?)
            }
        )*
    };
}

/// Questions about a service.
impl DynamicConfig {
    queries! {
        /// The number of the service, which each of its handles has.
        service_number() -> u64, "service.service_number(), number";
        /// Whether the pattern has ports of the role; no for [`Role::Node`].
        has_role(role) -> bool, "service.has_role(Role::Listener), true";
        /// Whether the service is locked for good: it has no node and no port then, and takes none
        /// any more.
        is_locked() -> bool, "service.is_locked(), false";
        /// How many handles of nodes there are: a node that is registered twice counts twice.
        number_of_nodes() -> usize, "service.number_of_nodes(), 0";
        /// How many handles of nodes there may be at a time.
        max_nodes() -> usize, "service.max_nodes(), max_nodes";
        /// Whether [`register_node_id`](Self::register_node_id) would register a node.
        has_room_for_node() -> bool, "service.has_room_for_node(), true";
        /// How many ports of the role there are, or `None` where the pattern has no such ports.
        count_ports(role) -> Option<usize>, "service.count_ports(Role::Listener), Some(0)";
        /// How many ports of the role there may be at a time, or `None` where the pattern has no
        /// such ports.
        max_ports(role) -> Option<usize>, "service.max_ports(Role::Reader), None";
        /// Whether [`attach`](Self::attach) would attach a port of the role, if its node is
        /// registered, or `None` where the pattern has no such ports.
        has_room(role) -> Option<bool>, "service.has_room(Role::Notifier), Some(true)";
    }

    /// The roles of the pattern's two kinds of ports, in the order of [`ports_of`](Self::ports_of).
    ///
    #[doc = example!(service)]
    /// assert_eq!(service.port_roles(), (Role::Listener, Role::Notifier));
    #[doc = example!(end)]
    #[must_use]
    pub fn port_roles(&self) -> (Role, Role) {
        let (first, second) = self.service().roles();
        (Role::of_c(&first), Role::of_c(&second))
    }

    /// The node that was registered with this handle and is still there, or `None` for each other
    /// handle.
    ///
    #[doc = example!(node)]
    /// assert_eq!(service.node(node), Some(node_id));
    /// service.deregister_node_id(node)?;
    /// assert_eq!(service.node(node), None);
    #[doc = example!(end)]
    #[must_use]
    #[inline]
    pub fn node(&self, handle: ContainerHandle) -> Option<UniqueNodeId> {
        self.service()
            .node(handle.as_c())
            .map(|id| UniqueNodeId::of_c(&id))
    }

    /// The port that was attached with this handle and is still there, or `None` for each other
    /// handle, a node's too.
    ///
    #[doc = example!(port)]
    /// assert_eq!(service.port(port), Some(listener.into()));
    /// assert_eq!(service.port(node), None);
    #[doc = example!(end)]
    #[must_use]
    #[inline]
    pub fn port(&self, handle: ContainerHandle) -> Option<PortDetails> {
        self.service().port(handle.as_c(), PortDetails::of)
    }

    /// The ids of the nodes that are registered now, by rising slot, one for each handle.
    ///
    #[doc = example!(node)]
    /// service.register_node_id(node_id)?;
    /// assert!(service.nodes().eq([node_id, node_id]));
    #[doc = example!(end)]
    #[must_use]
    #[inline]
    pub fn nodes(&self) -> Entries<UniqueNodeId> {
        let of_each = |nodes: &[_]| nodes.iter().map(UniqueNodeId::of_c).collect();
        self.service().nodes(of_each)
    }

    /// The ports of the role that are attached now, by rising slot, or `None` where the pattern has
    /// no such ports.
    ///
    #[doc = example!(port)]
    /// let listeners = service.ports(Role::Listener).expect("an event service has listeners");
    /// assert!(listeners.eq([listener.into()]));
    /// assert!(service.ports(Role::Reader).is_none());
    #[doc = example!(end)]
    #[must_use]
    #[inline]
    pub fn ports(&self, role: Role) -> Option<Entries<PortDetails>> {
        let of_each = |ports: &[_]| ports.iter().map(PortDetails::of).collect();
        self.service().ports(role.as_c(), of_each)
    }

    /// The ports of the node, by its whole id: those of the pattern's first kind before those of
    /// its second, each kind by rising slot.
    ///
    #[doc = example!(port)]
    /// assert!(service.ports_of(&node_id).eq([listener.into()]));
    /// let other = UniqueNodeId::new(2, 0, 0, 1).expect("the id of a node");
    /// assert_eq!(service.ports_of(&other).count(), 0);
    #[doc = example!(end)]
    #[must_use]
    #[inline]
    pub fn ports_of(&self, node: &UniqueNodeId) -> Entries<PortDetails> {
        let of_each = |ports: &[_]| ports.iter().map(PortDetails::of).collect();
        self.service().ports_of(node.as_c(), of_each)
    }

    /// Calls the callback on the nodes by rising slot, once for each handle, up to and with the
    /// first answer [`Stop`](CallbackProgression::Stop).
    ///
    #[doc = example!(node)]
    /// service.register_node_id(node_id)?;
    /// let mut seen = Vec::new();
    /// service.list_node_ids(|id| {
    ///     seen.push(*id);
    ///     CallbackProgression::Stop
    /// });
    /// assert_eq!(seen, [node_id]);
    #[doc = example!(end)]
    #[inline]
    pub fn list_node_ids<F: FnMut(&UniqueNodeId) -> CallbackProgression>(&self, mut callback: F) {
        let show = |nodes: &[_]| visit(nodes, |node| callback(&UniqueNodeId::of_c(node)));
        self.service().nodes(show);
    }

    /// Calls the callback on the ports of the role by rising slot, up to and with the first answer
    /// [`Stop`](CallbackProgression::Stop); `false`, and no call, where the pattern has no such
    /// ports.
    ///
    #[doc = example!(port)]
    /// let mut seen = Vec::new();
    /// let listed = service.list_ports(Role::Listener, |port| {
    ///     seen.push(*port);
    ///     CallbackProgression::Continue
    /// });
    /// assert!(listed);
    /// assert_eq!(seen, [listener.into()]);
    /// assert!(!service.list_ports(Role::Reader, |_| CallbackProgression::Stop));
    #[doc = example!(end)]
    #[inline]
    pub fn list_ports<F: FnMut(&PortDetails) -> CallbackProgression>(
        &self,
        role: Role,
        mut callback: F,
    ) -> bool {
        let show = |ports: &[_]| visit(ports, |port| callback(&PortDetails::of(port)));
        self.service().ports(role.as_c(), show).is_some()
    }
}

/// Defines, for one pattern, whether a service has it and the queries about its ports.
macro_rules! of_pattern {
    ($kind:literal $variant:ident $module:ident $is:ident $as:ident $all:ident) => {
        #[doc = concat!("Whether it is ", $kind, " service.")]
        ///
        #[doc = example!(service of $module)]
        #[doc = concat!("assert!(service.", stringify!($is), "());")]
        #[doc = example!(end)]
        #[must_use]
        pub fn $is(&self) -> bool {
            self.$as().is_some()
        }

        #[doc = concat!("The ports of ", $kind, " service; `None` for each other pattern.")]
        ///
        #[doc = example!(service of $module)]
        #[doc = concat!("let ports = service.", stringify!($as), "().ok_or(\"another pattern\")?;")]
        #[doc = concat!("assert_eq!(ports.", stringify!($all), "().len(), 0);")]
        #[doc = example!(end)]
        #[must_use]
        pub fn $as(&self) -> Option<&$module::DynamicConfig> {
            match &self.messaging_pattern {
                MessagingPattern::$variant(ports) => Some(ports),
                _ => None,
            }
        }

        #[doc = concat!("The ports of ", $kind, " service.")]
        ///
        /// # Panics
        ///
        #[doc = concat!("Where [`Self::", stringify!($as), "`] is `None`.")]
        ///
        #[doc = example!(service of $module)]
        #[doc = concat!(
            "assert_eq!(service.", stringify!($module), "().", stringify!($all), "().len(), 0);"
        )]
        #[doc = example!(end)]
        #[must_use]
        pub fn $module(&self) -> &$module::DynamicConfig {
            match &self.messaging_pattern {
                MessagingPattern::$variant(ports) => ports,
                _ => panic!(
                    concat!("the pattern is {}, not ", stringify!($variant)),
                    self.kind()
                ),
            }
        }
    };
}

/// The ports of each pattern, by their types.
impl DynamicConfig {
    of_pattern! {
        "a request-response" RequestResponse request_response
        is_request_response as_request_response servers
    }

    of_pattern! {
        "a publish-subscribe" PublishSubscribe publish_subscribe
        is_publish_subscribe as_publish_subscribe publishers
    }

    of_pattern! { "an event" Event event is_event as_event listeners }

    of_pattern! { "a blackboard" Blackboard blackboard is_blackboard as_blackboard readers }
}

impl fmt::Debug for DynamicConfig {
    fn fmt(&self, f: &mut fmt::Formatter<'_>) -> fmt::Result {
        let (first, second) = self.port_roles();
        let ports: Vec<_> = [first, second]
            .into_iter()
            .filter_map(|role| self.ports(role))
            .flatten()
            .collect();
        f.debug_struct("DynamicConfig")
            .field("kind", &self.kind())
            .field("service_number", &self.service_number())
            .field("nodes", &self.nodes().as_slice())
            .field("ports", &ports)
            .finish()
    }
}
