//! The types of messages: worked sizes and places, and who is compatible with whom.
#![forbid(unsafe_code)]

#[macro_use]
mod common;

use iox2sd::semantic_string::StringModificationError;
use iox2sd::static_config::message_type_details::*;
use std::alloc::Layout;
use std::mem::{align_of, offset_of, size_of};

fn detail(name: &str, size: usize, alignment: usize) -> TypeDetail {
    TypeDetail::from_parts(TypeVariant::FixedSize, name, size, alignment).unwrap()
}

#[test]
fn a_type_is_described_by_what_the_compiler_says() {
    #[repr(C)]
    #[allow(dead_code)]
    struct Mixed {
        first: i32,
        second: bool,
        third: i64,
    }

    let details = MessageTypeDetails::from::<i32, i64, Mixed>(TypeVariant::Dynamic).unwrap();
    assert_eq!(details.header, detail("i32", 4, 4));
    assert_eq!(details.user_header, detail("i64", 8, 8));
    assert_eq!(details.payload.variant(), TypeVariant::Dynamic);
    assert_eq!(details.payload.size(), size_of::<Mixed>());
    assert_eq!(details.payload.alignment(), align_of::<Mixed>());
    let name = details.payload.type_name().as_str();
    assert!(
        name.starts_with("messages::") && name.ends_with("::Mixed"),
        "{name}"
    );
    assert_eq!(details.header.variant(), TypeVariant::FixedSize);
}

#[test]
fn names_of_types_have_up_to_256_bytes() {
    use StringModificationError::{InsertWouldExceedCapacity, InvalidCharacter};
    let (greatest, long) = ("a".repeat(256), "a".repeat(257));
    equal! {
        TypeName::try_from(greatest.as_str()).unwrap() => greatest.as_str();
        TypeName::try_from("").unwrap() => TypeName::default();
        TypeName::try_from(long.as_str()) => Err(InsertWouldExceedCapacity);
        TypeName::try_from("a\0") => Err(InvalidCharacter);
        TypeName::try_from("Größe") => Err(InvalidCharacter);
    }
}

#[test]
fn parts_of_a_type_are_refused_by_their_cause() {
    for alignment in [0, 3, 6, usize::MAX] {
        let refused = TypeDetail::from_parts(TypeVariant::FixedSize, "T", 8, alignment);
        assert_eq!(
            refused,
            Err(TypeDetailError::AlignmentNotPowerOfTwo),
            "{alignment}"
        );
    }
    for alignment in [1, 2, 4096, 1 << 63] {
        assert_eq!(detail("T", 8, alignment).alignment(), alignment);
    }
    let error = TypeDetail::from_parts(TypeVariant::FixedSize, "\0", 8, 3).unwrap_err();
    let cause = StringModificationError::InvalidCharacter;
    assert_eq!(error, TypeDetailError::Name(cause));
    struct Größe;
    assert_eq!(TypeDetail::new::<Größe>(TypeVariant::FixedSize), Err(error));
}

#[test]
fn a_message_has_room_for_its_parts() {
    #[repr(C)]
    #[allow(dead_code)]
    struct Demo {
        first: bool,
        second: i16,
        third: i64,
    }

    fn size<H, U, P>(elements: usize) -> Layout {
        let details = MessageTypeDetails::from::<H, U, P>(TypeVariant::Dynamic).unwrap();
        details.sample_layout(elements).unwrap()
    }

    equal! {
        Ok(size::<i64, i64, i64>(0)) => Layout::from_size_align(32, 8);
        size::<i64, i64, i64>(2).size() => 48;
        size::<i64, i64, bool>(3).size() => 32;
        size::<i64, i32, bool>(11).size() => 32;
        size::<i64, i64, Demo>(2).size() => 64;
        Ok(size::<u8, (), u8>(5)) => Layout::from_size_align(6, 1);
    }
}

/// So a message is laid out by the details of the service.
#[test]
fn an_opener_lays_out_otherwise() {
    let details = |alignment| MessageTypeDetails {
        header: detail("Header", 8, 8),
        user_header: detail("UserHeader", 4, 4),
        payload: detail("Payload", 4, alignment),
    };
    let (service, opener) = (details(16), details(4));
    assert!(opener.is_compatible_to(&service));
    equal! {
        service.sample_layout(1).unwrap().size() => 40;
        opener.sample_layout(1).unwrap().size() => 24;
        service.payload_ptr_from_header(0) => Ok(16);
        opener.payload_ptr_from_header(0) => Ok(12);
    }
}

#[test]
fn places_are_those_of_a_struct() {
    #[repr(C)]
    struct Message {
        header: i32,
        user_header: bool,
        payload: i64,
    }

    let details = MessageTypeDetails::from::<i32, bool, i64>(TypeVariant::Dynamic).unwrap();
    let message = Message {
        header: 1,
        user_header: true,
        payload: 3,
    };
    let start = &message.header as *const i32 as usize;
    let user_header = &message.user_header as *const bool as usize;
    let payload = &message.payload as *const i64 as usize;
    equal! {
        details.user_header_ptr_from_header(start) => Ok(user_header);
        details.payload_ptr_from_header(start) => Ok(payload);
        details.payload_ptr_from_header(0) => Ok(offset_of!(Message, payload));
    }
    assert!(details.has_places(start));
}

#[test]
fn layouts_and_places_are_refused_by_their_cause() {
    let none = MessageTypeDetails::default();
    let part = with!(none; header: detail("H", 8, 8));
    for details in [none, part] {
        assert!(!details.has_alignments());
        assert!(!details.has_places(0));
        assert_eq!(details.sample_layout(1), Err(LayoutError::DetailsNotGiven));
        let places = details.user_header_ptr_from_header(0);
        assert_eq!(places, Err(LayoutError::DetailsNotGiven));
    }
    let bytes = MessageTypeDetails::from::<u8, (), u8>(TypeVariant::Dynamic).unwrap();
    assert!(bytes.has_alignments());
    let greatest = isize::MAX as usize;
    equal! {
        bytes.sample_layout(greatest - 1).unwrap().size() => greatest;
        bytes.sample_layout(greatest) => Err(LayoutError::TooLarge);
        bytes.payload_ptr_from_header(usize::MAX - 1) => Ok(usize::MAX);
        bytes.payload_ptr_from_header(usize::MAX) => Err(LayoutError::TooLarge);
    }
    assert!(!bytes.has_places(usize::MAX));
}

#[test]
fn an_opener_is_kept_out_by_the_first_part_that_does_not_suit() {
    use IncompatibilityCause::*;
    let service = MessageTypeDetails {
        header: detail("H", 8, 8),
        user_header: detail("U", 8, 8),
        payload: detail("P", 8, 8),
    };
    let many = TypeDetail::from_parts(TypeVariant::Dynamic, "U", 8, 8).unwrap();
    macro_rules! refused {
        ($($part:ident: $detail:expr => $in:ident $cause:ident $text:literal;)+) => {
            [$((with!(service; $part: $detail), MessagePart::$in, $cause, $text)),+]
        };
    }
    for (opener, part, cause, text) in refused! {
        header: detail("h", 8, 8) => Header OtherName "the header has another type name";
        header: detail("H", 8, 4) => Header OtherAlignment "the header has another alignment";
        user_header: many => UserHeader OtherVariant "the user header has another variant";
        payload: detail("P", 16, 8) => Payload OtherSize "the payload has another size";
        payload: detail("P", 8, 16) => Payload GreaterAlignment
            "the payload has a greater alignment than the service's";
        user_header: TypeDetail::default() => UserHeader DetailsNotGiven
            "the user header has no details";
    } {
        let refused = opener.check_compatible_to(&service).unwrap_err();
        assert_eq!((refused.part, refused.cause), (part, cause));
        assert_eq!(refused.to_string(), text);
        assert!(!opener.is_compatible_to(&service));
    }
}

#[test]
fn an_opener_may_be_aligned_less_than_the_service() {
    let opener = MessageTypeDetails::from::<i64, i64, i64>(TypeVariant::FixedSize).unwrap();
    let service = with!(opener; user_header: detail("i64", 8, 16), payload: detail("i64", 8, 16));
    assert!(opener.is_compatible_to(&opener));
    assert!(opener.is_compatible_to(&service));
    assert!(!service.is_compatible_to(&opener));
}
