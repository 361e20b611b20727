//! What a caller records.

use super::{Command, LogError, Reply};
use crate::container::Role;
use crate::limits;
use std::sync::atomic::{AtomicU64, Ordering};

/// How many calls have ended, or callers died: in a line of the processor's cache of its own.
#[derive(Debug, Default)]
#[repr(align(128))]
pub(crate) struct Ends(AtomicU64);

impl Ends {
    /// The number of a begin: that of the next end.
    #[inline]
    fn next(&self) -> u64 {
        self.0.load(Ordering::Acquire)
    }

    /// The number of an end.
    #[inline]
    fn take(&self) -> u64 {
        self.0.fetch_add(1, Ordering::AcqRel)
    }
}

/// A call, with its reply and the number of its end where it has one.
#[derive(Clone, Debug)]
struct Call {
    begun: u64,
    command: Command,
    ended: Option<(u64, Reply)>,
}

/// What happened.
#[derive(Debug)]
pub(super) enum Event<'a> {
    Begin(&'a Command),
    End(&'a Reply),
    Death,
}

/// What a caller recorded.
#[derive(Debug, Default)]
pub(crate) struct Record {
    name: String,
    calls: Vec<Call>,
    died: Option<u64>,
}

impl Record {
    /// Nothing yet, of a caller with this name.
    pub(crate) fn new(name: &str) -> Result<Self, LogError> {
        let is_legal = name.bytes().all(|byte| byte.is_ascii_alphanumeric());
        if name.is_empty() || name.len() > limits::CALLER_NAME || !is_legal {
            return Err(LogError::NoName);
        }
        let mut record = Record::default();
        let room = record.name.try_reserve(name.len());
        room.map_err(|_| LogError::NoMemory)?;
        record.name.push_str(name);
        Ok(record)
    }

    pub(super) fn name(&self) -> &str {
        &self.name
    }

    /// Takes memory, and writes to it once, so that the system has given it.
    pub(crate) fn reserve(&mut self, calls: usize) -> Result<(), LogError> {
        let recorded = self.calls.len();
        let room = self.calls.try_reserve(calls);
        room.map_err(|_| LogError::NoMemory)?;
        let empty = Call {
            begun: 0,
            command: Command::Nodes,
            ended: None,
        };
        self.calls.resize(recorded + calls, empty);
        self.calls.truncate(recorded);
        Ok(())
    }

    /// Begins a call.
    #[inline]
    pub(crate) fn begin(&mut self, ends: &Ends, command: Command) -> Result<(), LogError> {
        if self.calls.last().is_some_and(|call| call.ended.is_none()) {
            return Err(LogError::CallerIsBusy);
        }
        if let Command::Release { role, .. }
        | Command::List(role)
        | Command::Count(role)
        | Command::ListWeak(role) = command
        {
            if role == Role::Node {
                return Err(LogError::NoPort);
            }
        }
        if self.calls.len() == self.calls.capacity() {
            let room = self.calls.try_reserve(1);
            room.map_err(|_| LogError::NoMemory)?;
        }
        self.calls.push(Call {
            begun: ends.next(),
            command,
            ended: None,
        });
        Ok(())
    }

    /// Ends the call that was begun last.
    #[inline]
    pub(crate) fn end(&mut self, ends: &Ends, reply: Reply) {
        let number = ends.take();
        if let Some(call) = self.calls.last_mut() {
            call.ended = Some((number, reply));
        }
    }

    /// The caller died.
    pub(super) fn die(&mut self, ends: &Ends) {
        self.died = Some(ends.take());
    }

    /// What happened, each with its number in the log: begins stand above an end of theirs. A caller
    /// that has begun no call has no line.
    pub(super) fn events(&self) -> impl Iterator<Item = (u64, Event<'_>)> {
        let died = self.died.filter(|_| !self.calls.is_empty());
        let death = died.map(|number| (2 * number + 1, Event::Death));
        self.calls.iter().flat_map(Call::events).chain(death)
    }
}

impl Call {
    fn events(&self) -> impl Iterator<Item = (u64, Event<'_>)> {
        let ended = self.ended.as_ref();
        let end = ended.map(|(number, reply)| (2 * number + 1, Event::End(reply)));
        std::iter::once((2 * self.begun, Event::Begin(&self.command))).chain(end)
    }
}
