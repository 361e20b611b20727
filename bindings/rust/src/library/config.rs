//! Calls on the file of settings.

use crate::config::Config;
use crate::sys;
use std::mem::MaybeUninit;

type Settings = Box<sys::iox2sd_config>;
type Fault = Box<sys::iox2sd_config_fault>;
type Unwritten = Box<sys::iox2sd_config_write_answer>;

/// A struct of which all bytes are 0.
fn zeroed<T: Plain>() -> T {
    // SAFETY: the struct is plain numbers, and false where they are 0.
    unsafe { MaybeUninit::zeroed().assume_init() }
}

/// Structs of numbers and flags alone.
trait Plain {}

impl Plain for sys::iox2sd_config {}
impl Plain for sys::iox2sd_config_fault {}
impl Plain for sys::iox2sd_unknown_key {}

/// The settings of a text, or its first fault.
pub(crate) fn config_read(text: &str) -> Result<Settings, Fault> {
    let mut made: Settings = Box::new(zeroed());
    // SAFETY: the pointers are those of one slice and one struct, which do not overlap.
    let answer = unsafe { sys::iox2sd_config_read_at(text.as_ptr(), text.len(), &mut *made, 1) };
    match answer.status {
        sys::IOX2SD_STATUS_DONE => Ok(made),
        _ => Err(Box::new(answer.fault)),
    }
}

/// All faults of a text.
pub(crate) fn config_faults(text: &str) -> Result<Vec<sys::iox2sd_config_fault>, u32> {
    let mut faults = Vec::<sys::iox2sd_config_fault>::new();
    loop {
        let (out, capacity) = (faults.as_mut_ptr(), faults.len());
        // SAFETY: each pointer and number are those of one slice, and the slices do not overlap.
        let answer =
            unsafe { sys::iox2sd_config_faults_at(text.as_ptr(), text.len(), out, capacity) };
        match answer.status {
            sys::IOX2SD_STATUS_DONE => return Ok(faults),
            sys::IOX2SD_STATUS_BUFFER_TOO_SHORT => faults.resize_with(answer.count, zeroed),
            refusal => return Err(refusal),
        }
    }
}

/// The unknown keys of a text, and their paths, one after the other.
pub(crate) fn config_unknown(text: &str) -> Result<(Vec<sys::iox2sd_unknown_key>, String), u32> {
    let (mut keys, mut paths) = (Vec::new(), Vec::new());
    loop {
        // SAFETY: each pointer and number are those of one slice, and the slices do not overlap.
        let answer = unsafe {
            sys::iox2sd_config_unknown_at(
                text.as_ptr(),
                text.len(),
                keys.as_mut_ptr(),
                keys.len(),
                paths.as_mut_ptr(),
                paths.len(),
            )
        };
        match answer.status {
            sys::IOX2SD_STATUS_DONE => {
                let paths = String::from_utf8(paths).expect("the library writes texts");
                return Ok((keys, paths));
            }
            sys::IOX2SD_STATUS_BUFFER_TOO_SHORT => {
                keys.resize_with(answer.count, zeroed);
                paths.resize(answer.length, 0);
            }
            refusal => return Err(refusal),
        }
    }
}

/// The text of settings.
pub(crate) fn config_write(config: &Config) -> Result<String, Unwritten> {
    let given = as_c(config);
    let mut out = Vec::new();
    loop {
        // SAFETY: the pointers are those of one struct and one slice, which do not overlap.
        let answer =
            unsafe { sys::iox2sd_config_write_at(&*given, 1, out.as_mut_ptr(), out.len()) };
        match answer.status {
            sys::IOX2SD_STATUS_DONE => {
                return Ok(String::from_utf8(out).expect("the library writes texts"))
            }
            sys::IOX2SD_STATUS_BUFFER_TOO_SHORT => out.resize(answer.length, 0),
            _ => return Err(Box::new(answer)),
        }
    }
}

/// Settings as the library takes them.
fn as_c(config: &Config) -> Settings {
    let mut made: Settings = Box::new(zeroed());
    config.global.lend(&mut made);
    made.publish_subscribe = config.defaults.publish_subscribe.as_c();
    made.event = config.defaults.event.as_c();
    made.request_response = config.defaults.request_response.as_c();
    made.blackboard = config.defaults.blackboard.as_c();
    made
}
