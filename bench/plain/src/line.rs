//! Lines of scripts, read from their first byte through their newline.

use crate::service::{Command, Pattern, Port, Role, Room};
use std::collections::TryReserveError;

/// Why a line gave no command.
#[derive(Debug)]
pub enum Malformed {
    BadLine,
    NoMemory,
}

impl From<TryReserveError> for Malformed {
    fn from(_: TryReserveError) -> Self {
        Malformed::NoMemory
    }
}

/// Reads a script from its beginning on.
pub struct Scanner<'a> {
    rest: &'a [u8],
}

impl<'a> Scanner<'a> {
    pub fn new(script: &'a [u8]) -> Self {
        Scanner { rest: script }
    }

    pub fn is_empty(&self) -> bool {
        self.rest.is_empty()
    }

    /// The service line.
    pub fn service(&mut self) -> Option<(Pattern, Room)> {
        let pattern = if self.take(b"service publish-subscribe ") {
            Pattern::PublishSubscribe
        } else if self.take(b"service event ") {
            Pattern::Event
        } else if self.take(b"service request-response ") {
            Pattern::RequestResponse
        } else if self.take(b"service blackboard ") {
            Pattern::Blackboard
        } else {
            return None;
        };
        let _number = self.number()?;
        let room = Room {
            nodes: self.next_index()?,
            first: self.next_index()?,
            second: self.next_index()?,
        };
        self.byte(b'\n')?;
        Some((pattern, room))
    }

    /// A command line.
    pub fn command(&mut self) -> Result<Command, Malformed> {
        let command = if self.take(b"register ") {
            self.node().map(Command::Register)
        } else if self.take(b"deregister ") {
            self.index().map(Command::Deregister)
        } else if self.take(b"add ") {
            self.add()
        } else if self.take(b"release ") {
            self.index().map(Command::Release)
        } else if self.take(b"dead ") {
            return self.dead();
        } else if self.take(b"list ") {
            self.role().map(Command::List)
        } else if self.take(b"count ") {
            self.role().map(Command::Count)
        } else if self.take(b"nodes") {
            Some(Command::Nodes)
        } else {
            None
        };
        let command = command.ok_or(Malformed::BadLine)?;
        self.byte(b'\n').ok_or(Malformed::BadLine)?;
        Ok(command)
    }

    fn add(&mut self) -> Option<Command> {
        let role = self.role()?;
        self.byte(b' ')?;
        let id = self.id()?;
        self.byte(b' ')?;
        let node = self.node()?;
        Some(Command::Add(role, Port { id, node }))
    }

    fn dead(&mut self) -> Result<Command, Malformed> {
        let node = self.node().ok_or(Malformed::BadLine)?;
        let mut skip = Vec::new();
        if self.take(b" skip") {
            while skip.is_empty() || self.rest.first() == Some(&b' ') {
                skip.try_reserve(1)?;
                self.byte(b' ').ok_or(Malformed::BadLine)?;
                skip.push(self.id().ok_or(Malformed::BadLine)?);
            }
        }
        self.byte(b'\n').ok_or(Malformed::BadLine)?;
        Ok(Command::Dead { node, skip })
    }

    /// Passes over `word` where it stands next.
    fn take(&mut self, word: &[u8]) -> bool {
        match self.rest.strip_prefix(word) {
            Some(rest) => {
                self.rest = rest;
                true
            }
            None => false,
        }
    }

    fn byte(&mut self, byte: u8) -> Option<()> {
        let (&first, rest) = self.rest.split_first()?;
        self.rest = rest;
        (first == byte).then_some(())
    }

    /// A `0`, or digits without a leading zero. Any other byte may follow; a digit after a `0` is refused as what follows.
    fn number(&mut self) -> Option<u64> {
        let digits = self.rest;
        let (number, length) = self.digits()?;
        match length {
            ..=19 => Some(number),
            20 => str::from_utf8(&digits[..20]).ok()?.parse().ok(),
            _ => None,
        }
    }

    /// What up to 19 digits stand for, and how many there are.
    #[inline]
    fn digits(&mut self) -> Option<(u64, usize)> {
        let (&first, mut rest) = self.rest.split_first()?;
        let mut number = digit(first)?;
        if number > 0 {
            while let Some((&byte, after)) = rest.split_first()
                && let Some(digit) = digit(byte)
            {
                number = number.wrapping_mul(10).wrapping_add(digit);
                rest = after;
            }
        }
        let length = self.rest.len() - rest.len();
        self.rest = rest;
        Some((number, length))
    }

    fn index(&mut self) -> Option<usize> {
        self.number()?.try_into().ok()
    }

    fn next_index(&mut self) -> Option<usize> {
        self.byte(b' ')?;
        self.index()
    }

    fn id(&mut self) -> Option<u128> {
        let process = self.part()?;
        self.byte(b'.')?;
        let seconds = self.part()?;
        self.byte(b'.')?;
        let nanoseconds = self.part()?;
        self.byte(b'.')?;
        let counter = self.part()?;
        let high = u64::from(process) << 32 | u64::from(seconds);
        let low = u64::from(nanoseconds) << 32 | u64::from(counter);
        Some(u128::from(high) << 64 | u128::from(low))
    }

    fn part(&mut self) -> Option<u32> {
        let (number, length) = self.digits()?;
        if length > 10 {
            return None;
        }
        number.try_into().ok()
    }

    /// An id with a process or a counter that is not 0.
    fn node(&mut self) -> Option<u128> {
        let id = self.id()?;
        let (process, counter) = ((id >> 96) as u32, id as u32);
        (process != 0 || counter != 0).then_some(id)
    }

    fn role(&mut self) -> Option<Role> {
        const ROLES: [(&[u8], Role); 8] = [
            (b"publisher", Role::Publisher),
            (b"subscriber", Role::Subscriber),
            (b"listener", Role::Listener),
            (b"notifier", Role::Notifier),
            (b"server", Role::Server),
            (b"client", Role::Client),
            (b"reader", Role::Reader),
            (b"writer", Role::Writer),
        ];
        ROLES
            .iter()
            .find_map(|&(word, role)| self.take(word).then_some(role))
    }
}

fn digit(byte: u8) -> Option<u64> {
    let digit = byte.wrapping_sub(b'0');
    (digit <= 9).then_some(digit.into())
}
