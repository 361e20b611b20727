//! Calls on a service.

use super::{done, unexpected};
use crate::sys;
use std::mem::MaybeUninit;
use std::ptr;
use std::slice;

/// A list of so many items is written to the stack, and a longer one to a vector.
const SHORT: usize = 16;

/// A service of the library's, which is freed where it is dropped.
pub(crate) struct Service {
    object: sys::iox2sd_service,
}

// SAFETY: `iox2sd.h` says: "A service may be moved to another thread. The caller orders moves and
// changes with other calls, by a lock or by a thread's start or join." Values of Rust are moved and
// changed in such an order alone.
unsafe impl Send for Service {}

// SAFETY: `iox2sd.h` says: "On one service any number of queries may run at once, or one change
// alone." A `&` makes queries alone, and a `&mut`, which changes need, excludes all others.
unsafe impl Sync for Service {}

/// Calls an export that changes a service.
macro_rules! change {
    ($service:expr, $export:ident $(, $argument:expr)*) => {{
        // SAFETY: the object is one service, which the `&mut` gives to this call alone. A pointer
        // among the arguments is that of a slice or of a value that lives through the call, before
        // its length.
        unsafe { sys::$export(&mut $service.object, 1 $(, $argument)*) }
    }};
}

/// Calls an export that queries a service, by a pointer to `const`.
macro_rules! ask {
    ($service:expr, $export:ident $(, $argument:expr)*) => {{
        // SAFETY: the object is one service, which no call changes while there is a `&` to it. The
        // other arguments are as of a change.
        unsafe { sys::$export(&$service.object, 1 $(, $argument)*) }
    }};
}

/// Defines queries of one number or flag, by the field of the answer that has it, and by what
/// becomes of a status.
macro_rules! queries {
    (
        $read:ident:
        $($name:ident($($role:ident)?) -> $type:ty = $export:ident $field:ident;)*
    ) => {
        $(
            #[inline]
            pub(crate) fn $name(&self $(, $role: u64)?) -> $type {
                let answer = ask!(self, $export $(, $role)?);
                $read(answer.status, answer.$field)
            }
        )*
    };
}

impl Service {
    pub(crate) fn make(
        pattern: u64,
        number: u64,
        capacities: sys::iox2sd_capacities,
        tickets: u64,
    ) -> Result<Self, u32> {
        let mut service = Service {
            object: sys::iox2sd_service {
                full: false,
                at: ptr::null_mut(),
            },
        };
        done(change!(
            service,
            iox2sd_service_create_at,
            pattern,
            number,
            capacities,
            tickets
        ))?;
        Ok(service)
    }

    #[inline]
    pub(crate) fn register(&mut self, node: sys::iox2sd_id) -> Result<sys::iox2sd_handle, u32> {
        let answer = change!(self, iox2sd_register_node_id_at, node);
        done(answer.status)?;
        Ok(answer.handle)
    }

    /// Whether the service is locked now.
    #[inline]
    pub(crate) fn deregister(&mut self, handle: sys::iox2sd_handle) -> Result<bool, u32> {
        locked(change!(self, iox2sd_deregister_node_id_at, handle))
    }

    #[inline]
    pub(crate) fn attach(
        &mut self,
        port: &sys::iox2sd_port_details,
    ) -> Result<sys::iox2sd_handle, u32> {
        let answer = change!(self, iox2sd_attach_at, port, 1);
        done(answer.status)?;
        Ok(answer.handle)
    }

    #[inline]
    pub(crate) fn release(&mut self, handle: sys::iox2sd_handle) -> Result<(), u32> {
        done(change!(self, iox2sd_release_port_at, handle))
    }

    /// Whether the service is locked now.
    #[inline]
    pub(crate) fn dead(
        &mut self,
        dead: sys::iox2sd_id,
        kept: &[sys::iox2sd_port_id],
    ) -> Result<bool, u32> {
        locked(
            change!(
                self,
                iox2sd_remove_dead_node_id_at,
                dead,
                kept.as_ptr(),
                kept.len()
            )
            .status,
        )
    }

    queries! {
        granted:
        service_number() -> u64 = iox2sd_service_number_at number;
        has_role(role) -> bool = iox2sd_has_role_at yes;
        is_locked() -> bool = iox2sd_is_locked_at yes;
        number_of_nodes() -> usize = iox2sd_number_of_nodes_at count;
        max_nodes() -> usize = iox2sd_max_nodes_at count;
        has_room_for_node() -> bool = iox2sd_has_room_for_node_at yes;
    }

    queries! {
        of_role:
        count_ports(role) -> Option<usize> = iox2sd_count_ports_at count;
        max_ports(role) -> Option<usize> = iox2sd_max_ports_at count;
        has_room(role) -> Option<bool> = iox2sd_has_room_at yes;
    }

    /// The roles of the two kinds of ports.
    #[inline]
    pub(crate) fn roles(&self) -> (u64, u64) {
        let answer = ask!(self, iox2sd_port_roles_at);
        granted(answer.status, (answer.first, answer.second))
    }

    #[inline]
    pub(crate) fn node(&self, handle: sys::iox2sd_handle) -> Option<sys::iox2sd_id> {
        let answer = ask!(self, iox2sd_node_at, handle);
        of_handle(answer.status, answer.id)
    }

    #[inline]
    /// What is read of the port of a handle, where it is.
    pub(crate) fn port<R>(
        &self,
        handle: sys::iox2sd_handle,
        read: impl FnOnce(&sys::iox2sd_port_details) -> R,
    ) -> Option<R> {
        let answer = ask!(self, iox2sd_port_at, handle);
        of_handle(answer.status, &answer.port).map(read)
    }

    /// What is read of the nodes.
    #[inline]
    pub(crate) fn nodes<R>(&self, read: impl FnOnce(&[sys::iox2sd_id]) -> R) -> R {
        let call = |out, capacity| ask!(self, iox2sd_nodes_at, out, capacity);
        // SAFETY: the export writes so.
        unsafe { listed(call, read) }.unwrap_or_else(|status| unexpected(status))
    }

    /// What is read of the ports of a role, or `None` where the pattern has no such ports.
    #[inline]
    pub(crate) fn ports<R>(
        &self,
        role: u64,
        read: impl FnOnce(&[sys::iox2sd_port_details]) -> R,
    ) -> Option<R> {
        let call = |out, capacity| ask!(self, iox2sd_ports_at, role, out, capacity);
        // SAFETY: the export writes so.
        match unsafe { listed(call, read) } {
            Ok(ports) => Some(ports),
            Err(sys::IOX2SD_STATUS_ROLE_NOT_IN_PATTERN) => None,
            Err(other) => unexpected(other),
        }
    }

    /// What is read of the ports of the node with exactly this id.
    #[inline]
    pub(crate) fn ports_of<R>(
        &self,
        node: sys::iox2sd_id,
        read: impl FnOnce(&[sys::iox2sd_port_details]) -> R,
    ) -> R {
        let call = |out, capacity| ask!(self, iox2sd_ports_of_at, node, out, capacity);
        // SAFETY: the export writes so.
        unsafe { listed(call, read) }.unwrap_or_else(|status| unexpected(status))
    }
}

impl Drop for Service {
    fn drop(&mut self) {
        // An object that holds no service is refused, and nothing is to be freed there.
        let _ = change!(self, iox2sd_service_free_at);
    }
}

/// What is read of a list, which is written to the stack, or to a vector that is just as long where
/// the stack is too short.
///
/// # Safety
///
/// The call is passed a pointer to memory for so many items. It answers `IOX2SD_STATUS_DONE` with a count
/// only where it wrote so many, and the same count of a second call as of the first.
#[inline]
unsafe fn listed<T, R>(
    call: impl Fn(*mut T, usize) -> sys::iox2sd_count_answer,
    read: impl FnOnce(&[T]) -> R,
) -> Result<R, u32> {
    let mut short = MaybeUninit::<[T; SHORT]>::uninit();
    let answer = call(short.as_mut_ptr().cast(), SHORT);
    if answer.status == sys::IOX2SD_STATUS_BUFFER_TOO_SHORT {
        let mut long = Vec::with_capacity(answer.count);
        done(call(long.as_mut_ptr(), answer.count).status)?;
        // SAFETY: the call wrote so many.
        unsafe { long.set_len(answer.count) };
        return Ok(read(&long));
    }
    done(answer.status)?;
    // SAFETY: the call wrote so many.
    let items = unsafe { slice::from_raw_parts(short.as_ptr().cast(), answer.count) };
    Ok(read(items))
}

/// Whether a call that was done left the service locked.
#[inline]
fn locked(status: u32) -> Result<bool, u32> {
    match status {
        sys::IOX2SD_STATUS_DONE => Ok(false),
        sys::IOX2SD_STATUS_DONE_LOCKED => Ok(true),
        refusal => Err(refusal),
    }
}

/// The answer to a query that is never refused.
#[inline]
fn granted<T>(status: u32, answer: T) -> T {
    match status {
        sys::IOX2SD_STATUS_DONE => answer,
        other => unexpected(other),
    }
}

/// The answer to a query about a role, or `None` where the pattern has no such ports.
#[inline]
fn of_role<T>(status: u32, answer: T) -> Option<T> {
    match status {
        sys::IOX2SD_STATUS_DONE => Some(answer),
        sys::IOX2SD_STATUS_ROLE_NOT_IN_PATTERN => None,
        other => unexpected(other),
    }
}

/// The answer to a query about a handle, or `None` where nothing has it.
#[inline]
fn of_handle<T>(status: u32, answer: T) -> Option<T> {
    match status {
        sys::IOX2SD_STATUS_DONE => Some(answer),
        sys::IOX2SD_STATUS_FOREIGN_HANDLE => None,
        other => unexpected(other),
    }
}
