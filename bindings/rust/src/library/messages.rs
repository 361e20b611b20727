//! Calls on the parts of messages.

use super::done;
use crate::static_config::message_type_details::{MessageTypeDetails, TypeDetail};
use crate::sys;

fn part(detail: &TypeDetail) -> sys::iox2sd_type_detail {
    let name = detail.type_name().as_str();
    sys::iox2sd_type_detail {
        name: name.as_ptr(),
        name_length: name.len(),
        variant: detail.variant() as u32,
        size: detail.size(),
        alignment: detail.alignment(),
    }
}

fn parts(details: &MessageTypeDetails) -> sys::iox2sd_message_details {
    sys::iox2sd_message_details {
        header: part(&details.header),
        user_header: part(&details.user_header),
        payload: part(&details.payload),
    }
}

/// Size and alignment of a message whose payload has so many elements.
pub(crate) fn layout(details: &MessageTypeDetails, elements: usize) -> Result<(usize, usize), u32> {
    let parts = parts(details);
    // SAFETY: the pointer is that of one struct, whose names are those of details that live on.
    let answer = unsafe { sys::iox2sd_message_sample_layout_at(&parts, 1, elements) };
    done(answer.status)?;
    Ok((answer.size, answer.alignment))
}

/// The offsets of user header and payload of a message with its header at this offset.
pub(crate) fn places(details: &MessageTypeDetails, header: usize) -> Result<(usize, usize), u32> {
    let parts = parts(details);
    // SAFETY: as above.
    let answer = unsafe { sys::iox2sd_message_places_at(&parts, 1, header) };
    done(answer.status)?;
    Ok((answer.user_header, answer.payload))
}

/// Whether an opener may use the messages of a service.
pub(crate) fn compatible(
    opener: &MessageTypeDetails,
    service: &MessageTypeDetails,
) -> sys::iox2sd_part_answer {
    let (opener, service) = (parts(opener), parts(service));
    // SAFETY: as above, twice.
    unsafe { sys::iox2sd_message_is_compatible_to_at(&service, 1, &opener, 1) }
}

/// What is wrong of a type.
pub(crate) fn check_type(detail: &TypeDetail) -> u32 {
    // SAFETY: as above.
    unsafe { sys::iox2sd_type_detail_check_at(&part(detail), 1) }
}

/// What is wrong of the name of a type.
pub(crate) fn check_type_name(name: &str) -> u32 {
    let part = sys::iox2sd_type_detail {
        name: name.as_ptr(),
        name_length: name.len(),
        variant: sys::IOX2SD_VARIANT_FIXED_SIZE,
        size: 0,
        alignment: 1,
    };
    // SAFETY: as above; the name is a slice.
    unsafe { sys::iox2sd_type_detail_check_at(&part, 1) }
}
