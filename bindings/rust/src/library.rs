//! Safe calls of the library. All `unsafe` code of this crate stands here and below.
//!
//! A call answers `Err` with the status where the library reports an error.

mod attributes;
mod config;
mod descriptions;
mod messages;
mod satisfies;
mod service;

pub(crate) use attributes::{attribute_value, attribute_values, sorted, verify, Missing};
pub(crate) use config::{config_faults, config_read, config_unknown, config_write};
pub(crate) use descriptions::Settings;
pub(crate) use messages::{check_type, check_type_name, compatible, layout, places};
pub(crate) use satisfies::Fixed;
pub(crate) use service::Service;

use crate::sys;
use std::ffi::CStr;

/// `Ok` exactly for `IOX2SD_STATUS_DONE`.
#[inline]
fn done(status: u32) -> Result<(), u32> {
    match status {
        sys::IOX2SD_STATUS_DONE => Ok(()),
        refusal => Err(refusal),
    }
}

/// Ends the program at a status that the header excludes for a call.
#[cold]
pub(crate) fn unexpected(status: u32) -> ! {
    let text = status_text(status).unwrap_or_default();
    panic!("the library answered the status {status} ({text}), which the call excludes")
}

/// The choice with this number. Ends the program at a number that the header excludes.
pub(crate) fn choice<T: Copy, N: Copy + PartialEq + std::fmt::Display>(
    choices: &[T],
    number: impl Fn(T) -> N,
    wanted: N,
) -> T {
    match choices.iter().find(|choice| number(**choice) == wanted) {
        Some(choice) => *choice,
        None => panic!("the library answered the choice {wanted}, which its header excludes"),
    }
}

/// Has a text written into a buffer that is just as long as the library says.
fn text(call: impl Fn(&mut [u8]) -> sys::iox2sd_text_answer) -> Result<String, u32> {
    let mut bytes = Vec::new();
    loop {
        let answer = call(&mut bytes);
        match answer.status {
            sys::IOX2SD_STATUS_DONE => break,
            sys::IOX2SD_STATUS_BUFFER_TOO_SHORT => bytes.resize(answer.length, 0),
            refusal => return Err(refusal),
        }
    }
    Ok(String::from_utf8(bytes).expect("the library writes texts"))
}

/// Defines calls that check a text.
macro_rules! checks {
    ($($name:ident: $export:ident)*) => {
        $(
            pub(crate) fn $name(text: &[u8]) -> sys::iox2sd_place_answer {
                // SAFETY: pointer and length are those of one slice.
                unsafe { sys::$export(text.as_ptr(), text.len()) }
            }
        )*
    };
}

checks! {
    check_service_name: iox2sd_service_name_check_at
    check_internal_service_name: iox2sd_internal_service_name_check_at
    check_attribute_key: iox2sd_attribute_key_check_at
    check_attribute_value: iox2sd_attribute_value_check_at
    check_path: iox2sd_path_check_at
    check_file_name: iox2sd_file_name_check_at
    check_file_path: iox2sd_file_path_check_at
    check_restricted_name: iox2sd_restricted_file_name_check_at
}

/// Defines calls that write a text about plain values.
macro_rules! texts {
    ($($name:ident($($argument:ident: $type:ty)?): $export:ident)*) => {
        $(
            pub(crate) fn $name($($argument: $type)?) -> Result<String, u32> {
                // SAFETY: pointer and length are those of one slice, which the call may write to.
                text(|out| unsafe { sys::$export($($argument,)? out.as_mut_ptr(), out.len()) })
            }
        )*
    };
}

texts! {
    status_text(status: u32): iox2sd_status_text_at
    version(): iox2sd_version_at
    layer_version(): iox2sd_layer_version_at
    id_text(id: sys::iox2sd_id): iox2sd_id_text_at
    default_text(which: u32): iox2sd_default_text_at
}

/// Defines calls that return a text which the library has.
macro_rules! strs {
    ($($name:ident: $export:ident)*) => {
        $(
            pub(crate) fn $name(number: u64) -> &'static str {
                // SAFETY: the call takes no pointer, and what it returns lasts and ends in a zero
                // byte.
                let text = unsafe { CStr::from_ptr(sys::$export(number)) };
                text.to_str().expect("the library has texts")
            }
        )*
    };
}

strs! {
    role_str: iox2sd_role_str
    pattern_str: iox2sd_pattern_str
}

/// Defines calls on values alone.
macro_rules! values {
    ($($name:ident($($argument:ident: $type:ty),*) -> $answer:ty: $export:ident)*) => {
        $(
            pub(crate) fn $name($($argument: $type),*) -> $answer {
                // SAFETY: the call takes no pointer.
                unsafe { sys::$export($($argument),*) }
            }
        )*
    };
}

values! {
    id_is_node(id: sys::iox2sd_id) -> bool: iox2sd_id_is_node
    id_owner(id: sys::iox2sd_id) -> u64: iox2sd_id_owner_id
    id_is_before(id: sys::iox2sd_id, other: sys::iox2sd_id) -> bool: iox2sd_id_is_before
    global_defaults() -> sys::iox2sd_global_settings: iox2sd_global_defaults
    publisher_chunks(
        max_subscribers: usize,
        buffer_size: usize,
        borrowed: usize,
        history_size: usize,
        loaned: usize
    ) -> sys::iox2sd_count_answer: iox2sd_required_amount_of_samples_per_data_segment
    client_chunks(max_servers: usize, active: usize, loaned: usize) -> sys::iox2sd_count_answer:
        iox2sd_required_amount_of_chunks_per_client_data_segment
    server_chunks(
        max_clients: usize,
        active: usize,
        buffer_size: usize,
        borrowed: usize,
        loaned: usize
    ) -> sys::iox2sd_count_answer: iox2sd_required_amount_of_chunks_per_server_data_segment
}

/// A count of chunks, or `None` where it passes its range.
pub(crate) fn chunks(answer: &sys::iox2sd_count_answer) -> Option<usize> {
    match answer.status {
        sys::IOX2SD_STATUS_DONE => Some(answer.count),
        sys::IOX2SD_STATUS_TOO_LARGE => None,
        other => unexpected(other),
    }
}

pub(crate) fn has_internal_prefix(text: &str) -> bool {
    // SAFETY: pointer and length are those of one slice.
    unsafe { sys::iox2sd_has_iox2_prefix_at(text.as_ptr(), text.len()) }
}

/// Defines calls that write a text about texts, and about numbers before them.
macro_rules! texts_of_texts {
    ($($name:ident($([$number:ident: $type:ty])? $($text:ident)*): $export:ident)*) => {
        $(
            pub(crate) fn $name($($number: $type,)? $($text: &str),*) -> Result<String, u32> {
                // SAFETY: each pointer and length are those of one slice, and `out` overlaps no
                // other.
                text(|out| unsafe {
                    sys::$export(
                        $($number,)?
                        $($text.as_ptr(), $text.len(),)*
                        out.as_mut_ptr(),
                        out.len(),
                    )
                })
            }
        )*
    };
}

texts_of_texts! {
    internal_service_name(name): iox2sd_internal_service_name_at
    hash_text([pattern: u64] name): iox2sd_internal_hash_text_at
    path_join(path entry): iox2sd_path_add_path_entry_at
    file_path_join(path file): iox2sd_file_path_from_path_and_file_at
}

/// The number after the last one that was returned, or `None` after the greatest.
pub(crate) fn next_service_number(last: u64) -> Option<u64> {
    let mut numbers = sys::iox2sd_service_numbers { last };
    // SAFETY: the pointer is that of one struct, which the call may write to.
    let answer = unsafe { sys::iox2sd_next_service_number_at(&mut numbers, 1) };
    match answer.status {
        sys::IOX2SD_STATUS_DONE => Some(answer.number),
        sys::IOX2SD_STATUS_OUT_OF_SPACE => None,
        other => unexpected(other),
    }
}

/// How a script ended, with the reply lines that were written.
pub(crate) struct Run {
    pub(crate) status: u32,
    pub(crate) line: usize,
    pub(crate) replies: String,
}

/// Makes a call that writes a text whatever its status, which an answer has with the length: the
/// last answer, and the text.
fn written<A>(
    mut out: Vec<u8>,
    call: impl Fn(&mut [u8]) -> A,
    parts: impl Fn(&A) -> (u32, usize),
) -> (A, String) {
    loop {
        let answer = call(&mut out);
        let (status, length) = parts(&answer);
        out.resize(length, 0);
        if status != sys::IOX2SD_STATUS_BUFFER_TOO_SHORT {
            let text = String::from_utf8(out);
            return (answer, text.expect("the library writes texts of texts"));
        }
    }
}

pub(crate) fn script_run(script: &str) -> Run {
    let call = |out: &mut [u8]| {
        let (text, length) = (script.as_ptr(), script.len());
        // SAFETY: each pointer and length are those of one slice, and `out` overlaps no other.
        unsafe { sys::iox2sd_script_run_at(text, length, out.as_mut_ptr(), out.len()) }
    };
    let (answer, replies) = written(Vec::new(), call, |answer| (answer.status, answer.length));
    Run {
        status: answer.status,
        line: answer.line,
        replies,
    }
}

/// What a log was judged to be, with the report.
pub(crate) struct Judged {
    pub(crate) status: u32,
    pub(crate) line: usize,
    pub(crate) calls: usize,
    pub(crate) report: String,
}

/// The length of the first buffer for a report. That of a log that conforms fits, so such a log is
/// judged once.
const REPORT: usize = 512;

pub(crate) fn conform_run(log: &str) -> Judged {
    let call = |out: &mut [u8]| {
        let (text, length) = (log.as_ptr(), log.len());
        // SAFETY: as above.
        unsafe { sys::iox2sd_conform_run_at(text, length, out.as_mut_ptr(), out.len()) }
    };
    let parts = |answer: &sys::iox2sd_conform_answer| (answer.status, answer.length);
    let (answer, report) = written(vec![0; REPORT], call, parts);
    Judged {
        status: answer.status,
        line: answer.line,
        calls: answer.calls,
        report,
    }
}
