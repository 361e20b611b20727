//! Logs of a registry of one's own: its calls are written down while threads make them, with the
//! replies that they saw, as the lines that [`check_log`](crate::conform::check_log) and
//! `iox2-conform` judge. `docs/CONFORM.md` of `service_descriptions` has the lines.
//!
//! A [`LogWriter`] has the log of one service, and each thread a [`Caller`] of its own. A call is
//! begun right before the registry is called, and ended right after it replied. Neither takes a
//! lock or calls the library: a begin reads the one counter that callers share, an end adds to it,
//! and the rest is written to memory of the caller's own.
//!
//! ```
//! use iox2sd::conform::check_log;
//! use iox2sd::dynamic_config::event::DynamicConfigSettings;
//! use iox2sd::identifiers::UniqueNodeId;
//! use iox2sd::log::{Command, LogWriter, Reply};
//! use std::sync::atomic::{AtomicU64, Ordering};
//!
//! let ports = DynamicConfigSettings { number_of_listeners: 1, number_of_notifiers: 1 };
//! let mut log = LogWriter::new(ports, 2, 7);
//! let registry = AtomicU64::new(0); // Both threads register in a slot of their own.
//! std::thread::scope(|scope| {
//!     for (slot, name) in ["A", "B"].into_iter().enumerate() {
//!         let (registry, mut caller) = (&registry, log.caller(name).expect("a name"));
//!         scope.spawn(move || {
//!             let node = UniqueNodeId::new(1, 0, 0, 1).expect("the id of a node");
//!             let call = caller.begin(Command::Register(node)).expect("memory");
//!             let ticket = registry.fetch_add(1, Ordering::AcqRel);
//!             call.end(Reply::Handle { slot, ticket });
//!         });
//!     }
//! });
//! assert!(check_log(&log.text())?.conforms());
//! # Ok::<(), iox2sd::dynamic_config::AllocError>(())
//! ```

use crate::container::Role;
use crate::dynamic_config::{Capacities, MessagingPatternSettings};
use crate::identifiers::{UniqueNodeId, UniquePortId};
use std::error::Error;
use std::fmt;
use std::sync::{Mutex, PoisonError};

mod lines;
mod record;

pub(crate) use lines::{service, text};
pub(crate) use record::{Ends, Record};

/// A command, as scripts have it, or a weak listing. A removal names its handle by slot and ticket.
///
/// ```
/// use iox2sd::log::Command;
///
/// let removal = Command::Deregister { slot: 0, ticket: 3 };
/// assert_ne!(removal, Command::Deregister { slot: 0, ticket: 4 });
/// ```
#[derive(Clone, Debug, PartialEq, Eq, Hash)]
#[non_exhaustive]
pub enum Command {
    /// Registers the node.
    Register(UniqueNodeId),
    /// Deregisters the node under this handle.
    Deregister {
        /// The slot of the handle.
        slot: usize,
        /// Its ticket.
        ticket: u64,
    },
    /// Attaches the port to the node.
    Add(UniquePortId, UniqueNodeId),
    /// Releases the port under this handle.
    Release {
        /// What the port is.
        role: Role,
        /// The slot of the handle.
        slot: usize,
        /// Its ticket.
        ticket: u64,
    },
    /// Removes the ports of a dead node but those with these numbers, and the node where none of
    /// its ports stays.
    Dead(UniqueNodeId, Vec<UniquePortId>),
    /// Lists the nodes.
    Nodes,
    /// Lists the ports of the role.
    List(Role),
    /// Counts the ports of the role.
    Count(Role),
    /// Lists the nodes without a lock, by a walk over the slots while others change them, so that
    /// the reply need not be a snapshot. It must have each node that was there all through the
    /// call, and none that never was.
    NodesWeak,
    /// Lists the ports of the role, as [`NodesWeak`](Command::NodesWeak) does nodes.
    ListWeak(Role),
}

/// What a call replied, as scripts have it.
///
/// ```
/// use iox2sd::log::Reply;
///
/// assert_ne!(Reply::Handle { slot: 0, ticket: 3 }, Reply::Full);
/// ```
#[derive(Clone, Debug, PartialEq, Eq, Hash)]
#[non_exhaustive]
pub enum Reply {
    /// Registered or attached, under this handle.
    Handle {
        /// The slot of the handle.
        slot: usize,
        /// Its ticket.
        ticket: u64,
    },
    /// So many ports.
    Count(usize),
    /// These nodes, by rising slot.
    Nodes(Vec<UniqueNodeId>),
    /// These ports, by rising slot.
    Ports(Vec<UniquePortId>),
    /// The last node has left, and nothing joins the service again.
    Locked,
    /// The port's node is not registered.
    NotRegistered,
    /// No slot is free, or no ticket is left.
    Full,
    /// The service's pattern has no ports of the role.
    WrongPattern,
    /// The service is open.
    HasOwners,
    /// The last node has left.
    NoOwners,
    /// The handle is the only one of its node, and the node has ports.
    PortsAttached,
    /// The port was released.
    Released,
    /// Nothing has the handle.
    NotOwned,
}

/// Why a call was not recorded.
///
/// ```
/// use iox2sd::{container::Role, log::{Command, LogError, LogWriter}, prelude::*};
///
/// let log = LogWriter::with_capacities(&Config::default().defaults.event, 7);
/// let mut caller = log.caller("A")?;
/// assert_eq!(caller.begin(Command::List(Role::Node)).unwrap_err(), LogError::NoPort);
/// drop(caller.begin(Command::Nodes)?); // It is open from now on.
/// assert_eq!(caller.begin(Command::Nodes).unwrap_err(), LogError::CallerIsBusy);
/// # Ok::<(), iox2sd::log::LogError>(())
/// ```
#[derive(Clone, Copy, Debug, PartialEq, Eq, Hash)]
#[non_exhaustive]
pub enum LogError {
    /// Memory is refused.
    NoMemory,
    /// The last call of the caller was begun and not ended.
    CallerIsBusy,
    /// [`Role::Node`] is the role of no port.
    NoPort,
    /// The name of a caller is not one to sixteen ASCII letters and digits.
    NoName,
}

impl fmt::Display for LogError {
    fn fmt(&self, f: &mut fmt::Formatter<'_>) -> fmt::Result {
        f.pad(match self {
            LogError::NoMemory => "no memory",
            LogError::CallerIsBusy => "a caller without an open call is expected",
            LogError::NoPort => "the role of a port is expected",
            LogError::NoName => "one to sixteen letters and digits are expected",
        })
    }
}

impl Error for LogError {}

/// The log of a service of any implementation.
///
/// ```
/// use iox2sd::{log::{Command, LogWriter}, prelude::*};
///
/// let mut log = LogWriter::with_capacities(&Config::default().defaults.event, 7);
/// let mut caller = log.caller("A")?;
/// drop(caller.begin(Command::Nodes)?); // The registry never replied.
/// caller.died();
/// assert_eq!(log.text(), "service event 7 36 16 16\nA> nodes\nA!\n");
/// # Ok::<(), iox2sd::log::LogError>(())
/// ```
#[derive(Debug)]
pub struct LogWriter {
    service: String,
    ends: Ends,
    callers: Mutex<Callers>,
}

/// The callers of a log.
#[derive(Debug, Default)]
struct Callers {
    /// What those recorded that are gone, with capacity for the others.
    records: Vec<Record>,
    /// How many are not gone.
    alive: usize,
}

impl LogWriter {
    /// The log of a service with these capacities, this number and nothing attached.
    ///
    /// ```
    /// use iox2sd::{dynamic_config::blackboard, log::LogWriter};
    ///
    /// let ports = blackboard::DynamicConfigSettings { number_of_readers: 8, number_of_writers: 1 };
    /// assert_eq!(LogWriter::new(ports, 20, 7).text(), "service blackboard 7 20 8 1\n");
    /// ```
    #[must_use]
    pub fn new(
        settings: impl Into<MessagingPatternSettings>,
        max_nodes: usize,
        service_number: u64,
    ) -> Self {
        LogWriter {
            service: service(&settings.into(), max_nodes, service_number),
            ends: Ends::default(),
            callers: Mutex::default(),
        }
    }

    /// The same with capacities that come from settings or from a description.
    ///
    /// ```
    /// use iox2sd::{log::LogWriter, prelude::*};
    ///
    /// let mut log = LogWriter::with_capacities(&Config::default().defaults.event, 7);
    /// assert_eq!(log.text(), "service event 7 36 16 16\n");
    /// ```
    #[must_use]
    pub fn with_capacities(capacities: impl Into<Capacities>, service_number: u64) -> Self {
        let Capacities { max_nodes, ports } = capacities.into();
        Self::new(ports, max_nodes, service_number)
    }

    /// A caller with this name: one to sixteen ASCII letters and digits, other than those of the
    /// others. What it records comes into the log when it is dropped.
    ///
    /// # Errors
    ///
    /// [`LogError::NoName`]; [`LogError::NoMemory`].
    ///
    /// # Examples
    ///
    /// ```
    /// use iox2sd::{log::{LogError, LogWriter}, prelude::*};
    ///
    /// let log = LogWriter::with_capacities(&Config::default().defaults.event, 7);
    /// assert!(log.caller("worker1").is_ok());
    /// assert_eq!(log.caller("worker 1").unwrap_err(), LogError::NoName);
    /// ```
    pub fn caller(&self, name: &str) -> Result<Caller<'_>, LogError> {
        let record = Record::new(name)?;
        let mut callers = self.callers.lock().unwrap_or_else(PoisonError::into_inner);
        let needed = callers.alive + 1;
        let room = callers.records.try_reserve(needed);
        room.map_err(|_| LogError::NoMemory)?;
        callers.alive = needed;
        Ok(Caller { log: self, record })
    }

    /// The log of all callers. They are gone, so no thread records any more.
    ///
    /// ```
    /// use iox2sd::{log::{Command, LogWriter, Reply}, prelude::*};
    ///
    /// let mut log = LogWriter::with_capacities(&Config::default().defaults.event, 7);
    /// log.caller("A")?.begin(Command::Nodes)?.end(Reply::Nodes(Vec::new()));
    /// assert_eq!(log.text(), "service event 7 36 16 16\nA> nodes\nA< list\n");
    /// # Ok::<(), iox2sd::log::LogError>(())
    /// ```
    #[must_use]
    pub fn text(&mut self) -> String {
        let callers = self.callers.get_mut();
        let callers = callers.unwrap_or_else(PoisonError::into_inner);
        text(&self.service, &callers.records)
    }
}

/// Who makes one call at a time: a thread.
///
/// ```
/// use iox2sd::{log::{Command, LogWriter, Reply}, prelude::*};
///
/// let log = LogWriter::with_capacities(&Config::default().defaults.event, 7);
/// let mut caller = log.caller("A")?;
/// let call = caller.begin(Command::Nodes)?;
/// call.end(Reply::Nodes(Vec::new()));
/// # Ok::<(), iox2sd::log::LogError>(())
/// ```
#[derive(Debug)]
pub struct Caller<'a> {
    log: &'a LogWriter,
    record: Record,
}

impl<'a> Caller<'a> {
    /// Takes memory for so many more calls: recording them takes none.
    ///
    /// # Errors
    ///
    /// [`LogError::NoMemory`].
    ///
    /// # Examples
    ///
    /// ```
    /// # use iox2sd::{log::{LogError, LogWriter}, prelude::*};
    /// # let log = LogWriter::with_capacities(&Config::default().defaults.event, 7);
    /// let mut caller = log.caller("A")?;
    /// caller.reserve(1000)?;
    /// assert_eq!(caller.reserve(usize::MAX), Err(LogError::NoMemory));
    /// # Ok::<(), LogError>(())
    /// ```
    pub fn reserve(&mut self, calls: usize) -> Result<(), LogError> {
        self.record.reserve(calls)
    }

    /// Begins a call: right before the registry is called.
    ///
    /// # Errors
    ///
    /// [`LogError::CallerIsBusy`]; [`LogError::NoPort`]; [`LogError::NoMemory`].
    ///
    /// # Examples
    ///
    /// ```
    /// # use iox2sd::{log::{Command, LogWriter, Reply}, prelude::*};
    /// # let mut log = LogWriter::with_capacities(&Config::default().defaults.event, 7);
    /// # let mut caller = log.caller("A")?;
    /// let call = caller.begin(Command::Count(Role::Listener))?;
    /// call.end(Reply::Count(0));
    /// # drop(caller);
    /// assert!(log.text().ends_with("A> count listener\nA< count 0\n"));
    /// # Ok::<(), iox2sd::log::LogError>(())
    /// ```
    #[inline]
    pub fn begin(&mut self, command: Command) -> Result<OpenCall<'_, 'a>, LogError> {
        self.record.begin(&self.log.ends, command)?;
        Ok(OpenCall { caller: self })
    }

    /// The caller died: its open call took effect before this, or never.
    ///
    /// ```
    /// # use iox2sd::{log::{Command, LogWriter}, prelude::*};
    /// # let mut log = LogWriter::with_capacities(&Config::default().defaults.event, 7);
    /// # let mut caller = log.caller("A")?;
    /// drop(caller.begin(Command::Nodes)?);
    /// caller.died();
    /// assert!(log.text().ends_with("A> nodes\nA!\n"));
    /// # Ok::<(), iox2sd::log::LogError>(())
    /// ```
    pub fn died(mut self) {
        self.record.die(&self.log.ends);
    }
}

/// What it recorded comes into the log.
impl Drop for Caller<'_> {
    fn drop(&mut self) {
        let callers = self.log.callers.lock();
        let mut callers = callers.unwrap_or_else(PoisonError::into_inner);
        callers.alive -= 1;
        callers.records.push(std::mem::take(&mut self.record));
    }
}

/// A call that was begun. Where it is dropped it has no end: it took effect or not.
///
/// ```
/// # use iox2sd::{log::{Command, LogWriter}, prelude::*};
/// # let mut log = LogWriter::with_capacities(&Config::default().defaults.event, 7);
/// # let mut caller = log.caller("A")?;
/// drop(caller.begin(Command::Nodes)?);
/// # drop(caller);
/// assert!(log.text().ends_with("A> nodes\n"));
/// # Ok::<(), iox2sd::log::LogError>(())
/// ```
#[must_use = "a call that is dropped has no end"]
#[derive(Debug)]
pub struct OpenCall<'c, 'a> {
    caller: &'c mut Caller<'a>,
}

impl OpenCall<'_, '_> {
    /// Ends the call: right after the registry replied.
    ///
    /// ```
    /// # use iox2sd::{log::{Command, LogWriter, Reply}, prelude::*};
    /// # let mut log = LogWriter::with_capacities(&Config::default().defaults.event, 7);
    /// # let mut caller = log.caller("A")?;
    /// let node = UniqueNodeId::new(1, 0, 0, 1).expect("the id of a node");
    /// caller.begin(Command::Nodes)?.end(Reply::Nodes(vec![node]));
    /// # drop(caller);
    /// assert!(log.text().ends_with("A< list 1000000000000000000000001\n"));
    /// # Ok::<(), iox2sd::log::LogError>(())
    /// ```
    #[inline]
    pub fn end(self, reply: Reply) {
        self.caller.record.end(&self.caller.log.ends, reply);
    }
}
