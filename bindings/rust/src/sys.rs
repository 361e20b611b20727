//! The declarations of the headers that this crate uses, under their names there. `bindings/fields`
//! compares the structs with the headers, and `tests/declarations.rs` the numbers and functions.
#![allow(non_camel_case_types)]

use std::ffi::{c_char, c_void};

/// Numbers of the headers, by their type.
macro_rules! numbers {
    ($($type:ty: $($name:ident = $number:literal)+;)+) => {
        $($(pub const $name: $type = $number;)+)+
    };
}

/// Structs of the headers. Fields of one type stand side by side.
macro_rules! structs {
    ($($(#[$attribute:meta])* $struct:ident { $($($field:ident)+: $type:ty,)+ })+) => {
        $(
            #[repr(C)]
            $(#[$attribute])*
            pub struct $struct {
                $($(pub $field: $type,)+)+
            }
        )+
    };
}

/// Functions of the headers, by what they take and answer.
macro_rules! functions {
    ($($arguments:tt -> $answer:ty: $($name:ident)+;)+) => {
        extern "C" {
            $($(pub fn $name $arguments -> $answer;)+)+
        }
    };
}

numbers! {
    u32: IOX2SD_STATUS_DONE = 0 IOX2SD_STATUS_DONE_LOCKED = 1 IOX2SD_STATUS_BUFFER_TOO_SHORT = 2
    IOX2SD_STATUS_NO_MEMORY = 3 IOX2SD_STATUS_IS_LOCKED = 9 IOX2SD_STATUS_OUT_OF_SPACE = 10
    IOX2SD_STATUS_FOREIGN_HANDLE = 11 IOX2SD_STATUS_PORTS_STILL_ATTACHED = 12
    IOX2SD_STATUS_NODE_NOT_REGISTERED = 13 IOX2SD_STATUS_ROLE_NOT_IN_PATTERN = 14
    IOX2SD_STATUS_TOO_MANY = 18 IOX2SD_STATUS_EMPTY = 40 IOX2SD_STATUS_TOO_LONG = 41
    IOX2SD_STATUS_ILLEGAL_BYTE = 42 IOX2SD_STATUS_NO_FILE_NAME = 43
    IOX2SD_STATUS_RESERVED_PREFIX = 44 IOX2SD_STATUS_BAD_PATH = 47 IOX2SD_STATUS_ILLEGAL_HASH = 49
    IOX2SD_STATUS_TOO_MANY_REQUIRED = 53 IOX2SD_STATUS_MISSING_PAIR = 54
    IOX2SD_STATUS_MISSING_KEY = 55 IOX2SD_STATUS_NO_SUCH_VALUE = 56 IOX2SD_STATUS_BAD_ALIGNMENT = 57
    IOX2SD_STATUS_TOO_LARGE = 58 IOX2SD_STATUS_UNKNOWN_VARIANT = 59 IOX2SD_STATUS_OTHER_NAME = 60
    IOX2SD_STATUS_OTHER_VARIANT = 61 IOX2SD_STATUS_OTHER_SIZE = 62
    IOX2SD_STATUS_OTHER_ALIGNMENT = 63 IOX2SD_STATUS_GREATER_ALIGNMENT = 64
    IOX2SD_STATUS_BAD_LINE = 66 IOX2SD_STATUS_BAD_DURATION = 68 IOX2SD_STATUS_UNMET = 69
    IOX2SD_STATUS_NOT_TOML = 80 IOX2SD_STATUS_WRONG_TYPE = 81 IOX2SD_STATUS_BELOW_ZERO = 82
    IOX2SD_STATUS_NO_DURATION = 83 IOX2SD_STATUS_NO_TOML_INTEGER = 84 IOX2SD_STATUS_TOO_DEEP = 86
    IOX2SD_STATUS_NO_ORDER = 90 IOX2SD_STATUS_NO_SERVICE_LINE = 91 IOX2SD_STATUS_NO_CALL_LINE = 92
    IOX2SD_STATUS_NO_REPLY_LINE = 93 IOX2SD_STATUS_TOO_MANY_CONFIGURATIONS = 94
    IOX2SD_STATUS_TOO_MANY_OPEN_CALLS = 95 IOX2SD_STATUS_CALLER_IS_BUSY = 96
    IOX2SD_STATUS_NO_OPEN_CALL = 97 IOX2SD_STATUS_CALLER_IS_DEAD = 98
    IOX2SD_STATUS_UNKNOWN_CALLER = 99 IOX2SD_STATUS_NO_NEWLINE = 100
    IOX2SD_STATUS_CARRIAGE_RETURN = 101 IOX2SD_STATUS_NO_STATE_LINE = 102;
    u32: IOX2SD_FIELD_DEADLINE = 2 IOX2SD_FIELD_MAX_SUBSCRIBERS = 8 IOX2SD_FIELD_MAX_PUBLISHERS = 9
    IOX2SD_FIELD_HISTORY_SIZE = 10 IOX2SD_FIELD_SUBSCRIBER_MAX_BUFFER_SIZE = 11
    IOX2SD_FIELD_SUBSCRIBER_MAX_BORROWED_SAMPLES = 12 IOX2SD_FIELD_ENABLE_SAFE_OVERFLOW = 13
    IOX2SD_FIELD_MAX_NOTIFIERS = 14 IOX2SD_FIELD_MAX_LISTENERS = 15
    IOX2SD_FIELD_EVENT_ID_MAX_VALUE = 16 IOX2SD_FIELD_NOTIFIER_CREATED_EVENT = 17
    IOX2SD_FIELD_NOTIFIER_DROPPED_EVENT = 18 IOX2SD_FIELD_NOTIFIER_DEAD_EVENT = 19
    IOX2SD_FIELD_ENABLE_SAFE_OVERFLOW_FOR_REQUESTS = 20
    IOX2SD_FIELD_ENABLE_SAFE_OVERFLOW_FOR_RESPONSES = 21
    IOX2SD_FIELD_ENABLE_FIRE_AND_FORGET_REQUESTS = 22
    IOX2SD_FIELD_MAX_ACTIVE_REQUESTS_PER_CLIENT = 23 IOX2SD_FIELD_MAX_LOANED_REQUESTS = 24
    IOX2SD_FIELD_MAX_RESPONSE_BUFFER_SIZE = 25 IOX2SD_FIELD_MAX_SERVERS = 26
    IOX2SD_FIELD_MAX_CLIENTS = 27 IOX2SD_FIELD_MAX_BORROWED_RESPONSES_PER_PENDING_RESPONSE = 28
    IOX2SD_FIELD_MAX_READERS = 29 IOX2SD_FIELD_MAX_WRITERS = 30 IOX2SD_FIELD_MAX_NODES = 31;
    u64: IOX2SD_PATTERN_PUBLISH_SUBSCRIBE = 0 IOX2SD_PATTERN_EVENT = 1
    IOX2SD_PATTERN_REQUEST_RESPONSE = 2 IOX2SD_PATTERN_BLACKBOARD = 3;
    u64: IOX2SD_ROLE_NODE = 0 IOX2SD_ROLE_PUBLISHER = 1 IOX2SD_ROLE_SUBSCRIBER = 2
    IOX2SD_ROLE_NOTIFIER = 3 IOX2SD_ROLE_LISTENER = 4 IOX2SD_ROLE_CLIENT = 5 IOX2SD_ROLE_SERVER = 6
    IOX2SD_ROLE_READER = 7 IOX2SD_ROLE_WRITER = 8;
    u32: IOX2SD_SEGMENT_DYNAMIC = 0 IOX2SD_SEGMENT_STATIC = 1;
    u32: IOX2SD_VARIANT_FIXED_SIZE = 0 IOX2SD_VARIANT_DYNAMIC = 1;
    u32: IOX2SD_PART_HEADER = 0 IOX2SD_PART_USER_HEADER = 1 IOX2SD_PART_PAYLOAD = 2;
    u32: IOX2SD_BACKPRESSURE_RETRY_UNTIL_DELIVERED = 0 IOX2SD_BACKPRESSURE_DISCARD_DATA = 1;
    u32: IOX2SD_ALLOCATION_BEST_FIT = 0 IOX2SD_ALLOCATION_POWER_OF_TWO = 1
    IOX2SD_ALLOCATION_STATIC = 2;
    u32: IOX2SD_TEXT_ROOT_PATH = 0 IOX2SD_TEXT_PREFIX = 1 IOX2SD_TEXT_SERVICE_DIRECTORY = 2
    IOX2SD_TEXT_DATA_SEGMENT_SUFFIX = 3 IOX2SD_TEXT_STATIC_CONFIG_STORAGE_SUFFIX = 4
    IOX2SD_TEXT_DYNAMIC_CONFIG_STORAGE_SUFFIX = 5 IOX2SD_TEXT_CONNECTION_SUFFIX = 6
    IOX2SD_TEXT_EVENT_CONNECTION_SUFFIX = 7 IOX2SD_TEXT_BLACKBOARD_MGMT_SUFFIX = 8
    IOX2SD_TEXT_BLACKBOARD_DATA_SUFFIX = 9 IOX2SD_TEXT_NODE_DIRECTORY = 10
    IOX2SD_TEXT_MONITOR_SUFFIX = 11 IOX2SD_TEXT_NODE_STATIC_CONFIG_SUFFIX = 12
    IOX2SD_TEXT_SERVICE_TAG_SUFFIX = 13 IOX2SD_TEXT_PORT_TAG_SUFFIX = 14
    IOX2SD_TEXT_GLOBAL_MGMT_SUFFIX = 15 IOX2SD_TEXT_CONFIG_FILE_NAME = 16
    IOX2SD_TEXT_CONFIG_FILE_PATH = 17 IOX2SD_TEXT_RELATIVE_CONFIG_PATH = 18
    IOX2SD_TEXT_USER_CONFIG_FILE_PATH = 19;
    u32: IOX2SD_TOML_STRING = 1 IOX2SD_TOML_INTEGER = 2 IOX2SD_TOML_FLOAT = 3
    IOX2SD_TOML_BOOLEAN = 4 IOX2SD_TOML_DATETIME = 5 IOX2SD_TOML_ARRAY = 6 IOX2SD_TOML_TABLE = 7;
    u32: IOX2SD_KIND_TABLE = 1 IOX2SD_KIND_NUMBER = 2 IOX2SD_KIND_FLAG = 3 IOX2SD_KIND_PATH = 4
    IOX2SD_KIND_FILE_NAME = 5 IOX2SD_KIND_BACKPRESSURE = 6 IOX2SD_KIND_ALLOCATION = 7
    IOX2SD_KIND_DURATION = 8;
    u32: IOX2SD_LIKENESS_SPELLING = 1 IOX2SD_LIKENESS_OTHER_TABLE = 2 IOX2SD_LIKENESS_QUOTED = 3
    IOX2SD_LIKENESS_NEAR = 4;
}

structs! {
    #[derive(Clone, Copy, Debug, Default, PartialEq, Eq, Hash)]
    iox2sd_id { process seconds nanoseconds counter: u32, }
    #[derive(Clone, Copy, Debug, Default, PartialEq, Eq)]
    iox2sd_handle { service role: u64, slot: usize, ticket: u64, }
    #[derive(Clone, Copy, Debug, Default, PartialEq, Eq)]
    iox2sd_port_details {
        role: u64, port node: iox2sd_id, number_of_samples buffer_size request_buffer_size
        number_of_responses number_of_requests response_buffer_size max_slice_len: usize,
        data_segment: u32, max_number_of_segments: u8,
    }
    #[derive(Clone, Copy, Debug, Default, PartialEq, Eq)]
    iox2sd_port_id { role: u64, port: iox2sd_id, }
    #[derive(Clone, Copy, Debug)]
    iox2sd_capacities { nodes first second: usize, }
    #[derive(Debug)]
    iox2sd_service { full: bool, at: *mut c_void, }
    iox2sd_handle_answer { status: u32, handle: iox2sd_handle, }
    iox2sd_count_answer { status cause: u32, count: usize, }
    iox2sd_text_answer { status cause: u32, length: usize, }
    iox2sd_number_answer { status: u32, number: u64, }
    iox2sd_roles_answer { status: u32, first second: u64, }
    iox2sd_flag_answer { status: u32, yes: bool, }
    iox2sd_id_answer { status: u32, id: iox2sd_id, }
    iox2sd_port_answer { status: u32, port: iox2sd_port_details, }
    iox2sd_dead_node_removal { status: u32, first second: usize, }
    iox2sd_place_answer { status cause: u32, at: usize, }
    #[derive(Clone, Copy)]
    iox2sd_attribute { key: *const u8, key_length: usize, value: *const u8, value_length: usize, }
    iox2sd_key { text: *const u8, length: usize, }
    iox2sd_type_detail { name: *const u8, name_length: usize, variant: u32, size alignment: usize, }
    iox2sd_message_details { header user_header payload: iox2sd_type_detail, }
    iox2sd_layout_answer { status: u32, size alignment: usize, }
    iox2sd_places_answer { status: u32, user_header payload: usize, }
    iox2sd_part_answer { status side part: u32, }
    iox2sd_script_answer { status verdict: u32, line length: usize, }
    iox2sd_conform_answer { status verdict: u32, line calls length: usize, }
    iox2sd_duration { seconds: u64, nanoseconds: u32, }
    iox2sd_global_settings {
        creation_timeout: iox2sd_duration, cleanup_dead_nodes_on_open cleanup_dead_nodes_on_creation
        cleanup_dead_nodes_on_destruction: bool,
    }
    iox2sd_optional_duration { seconds: u64, nanoseconds: u32, is_some: bool, }
    iox2sd_optional_event_id { number: usize, is_some: bool, }
    iox2sd_publish_subscribe_settings {
        max_subscribers max_publishers max_nodes subscriber_max_buffer_size
        subscriber_max_borrowed_samples publisher_max_loaned_samples publisher_history_size
        subscriber_expired_connection_buffer: usize, backpressure_strategy
        publisher_allocation_strategy: u32, enable_safe_overflow: bool,
    }
    iox2sd_event_settings {
        max_listeners max_notifiers max_nodes event_id_max_value: usize,
        deadline: iox2sd_optional_duration, notifier_created_event notifier_dropped_event
        notifier_dead_event: iox2sd_optional_event_id,
    }
    iox2sd_request_response_settings {
        max_active_requests_per_client max_response_buffer_size max_servers max_clients max_nodes
        max_borrowed_responses_per_pending_response max_loaned_requests
        server_max_loaned_responses_per_request client_expired_connection_buffer
        server_expired_connection_buffer: usize, client_backpressure_strategy
        server_backpressure_strategy client_allocation_strategy server_allocation_strategy: u32,
        enable_safe_overflow_for_requests enable_safe_overflow_for_responses
        enable_fire_and_forget_requests: bool,
    }
    iox2sd_blackboard_settings { max_readers max_nodes: usize, }
    iox2sd_publish_subscribe_capacities { nodes publishers subscribers: usize, }
    iox2sd_event_capacities { nodes listeners notifiers: usize, }
    iox2sd_request_response_capacities { nodes servers clients: usize, }
    iox2sd_blackboard_capacities { nodes readers writers: usize, }
    iox2sd_service_numbers { last: u64, }
    iox2sd_field_answer { status field cause: u32, }
    iox2sd_publish_subscribe_config {
        max_subscribers max_publishers max_nodes history_size subscriber_max_buffer_size
        subscriber_max_borrowed_samples: usize, enable_safe_overflow: bool,
    }
    iox2sd_event_config {
        max_notifiers max_listeners max_nodes event_id_max_value: usize,
        deadline: iox2sd_optional_duration, notifier_created_event notifier_dropped_event
        notifier_dead_event: iox2sd_optional_event_id,
    }
    iox2sd_request_response_config {
        max_active_requests_per_client max_loaned_requests max_response_buffer_size max_servers
        max_clients max_nodes max_borrowed_responses_per_pending_response: usize,
        enable_safe_overflow_for_requests enable_safe_overflow_for_responses
        enable_fire_and_forget_requests: bool,
    }
    iox2sd_blackboard_config { max_readers max_writers max_nodes: usize, }
    iox2sd_description {
        name: [u8; 256], name_length: usize, id: iox2sd_id, hash: [u8; 64], hash_length: usize,
        pattern: u64, publish_subscribe: iox2sd_publish_subscribe_config,
        event: iox2sd_event_config, request_response: iox2sd_request_response_config,
        blackboard: iox2sd_blackboard_config,
    }
    iox2sd_config_text { bytes: [u8; 256], length: usize, }
    iox2sd_config_texts {
        root_path prefix service_directory data_segment_suffix static_config_storage_suffix
        dynamic_config_storage_suffix connection_suffix event_connection_suffix
        blackboard_mgmt_suffix blackboard_data_suffix node_directory monitor_suffix
        node_static_config_suffix service_tag_suffix port_tag_suffix
        global_mgmt_suffix: iox2sd_config_text,
    }
    iox2sd_config {
        global: iox2sd_global_settings, texts: iox2sd_config_texts,
        publish_subscribe: iox2sd_publish_subscribe_settings, event: iox2sd_event_settings,
        request_response: iox2sd_request_response_settings, blackboard: iox2sd_blackboard_settings,
    }
    iox2sd_config_fault {
        status table found wanted: u32, line column: usize, key: [u8; 80], key_length: usize,
        reason: [u8; 256], reason_length: usize,
    }
    iox2sd_config_answer { status: u32, unknown: usize, fault: iox2sd_config_fault, }
    iox2sd_unknown_key {
        table likeness: u32, line column key_length: usize, meant: [u8; 80], meant_length: usize,
        reason: [u8; 256], reason_length: usize,
    }
    iox2sd_unknown_answer { status: u32, count length: usize, }
    iox2sd_config_write_answer {
        status field: u32, length: usize, key: [u8; 80], key_length: usize,
    }
}

functions! {
    (status: u32, out: *mut u8, capacity: usize) -> iox2sd_text_answer: iox2sd_status_text_at;
    (out: *mut u8, capacity: usize) -> iox2sd_text_answer:
        iox2sd_version_at iox2sd_layer_version_at;
    (role: u64) -> *const c_char: iox2sd_role_str;
    (pattern: u64) -> *const c_char: iox2sd_pattern_str;
    (id: iox2sd_id) -> bool: iox2sd_id_is_node;
    (id: iox2sd_id) -> u64: iox2sd_id_owner_id;
    (id: iox2sd_id, other: iox2sd_id) -> bool: iox2sd_id_is_before;
    (id: iox2sd_id, out: *mut u8, capacity: usize) -> iox2sd_text_answer: iox2sd_id_text_at;
    (objects: *mut iox2sd_service, count: usize, pattern: u64, number: u64,
     capacities: iox2sd_capacities, tickets: u64) -> u32: iox2sd_service_create_at;
    (objects: *mut iox2sd_service, count: usize) -> u32: iox2sd_service_free_at;
    (objects: *mut iox2sd_service, count: usize, node: iox2sd_id) -> iox2sd_handle_answer:
        iox2sd_register_node_id_at;
    (objects: *mut iox2sd_service, count: usize, handle: iox2sd_handle) -> u32:
        iox2sd_deregister_node_id_at iox2sd_release_port_at;
    (objects: *mut iox2sd_service, count: usize, ports: *const iox2sd_port_details,
     port_count: usize) -> iox2sd_handle_answer: iox2sd_attach_at;
    (numbers: *mut iox2sd_service_numbers, count: usize) -> iox2sd_number_answer:
        iox2sd_next_service_number_at;
    (objects: *mut iox2sd_service, count: usize, dead: iox2sd_id, kept: *const iox2sd_port_id,
     kept_count: usize) -> iox2sd_dead_node_removal: iox2sd_remove_dead_node_id_at;
    (objects: *const iox2sd_service, count: usize) -> iox2sd_number_answer:
        iox2sd_service_number_at;
    (objects: *const iox2sd_service, count: usize) -> iox2sd_roles_answer: iox2sd_port_roles_at;
    (objects: *const iox2sd_service, count: usize, role: u64) -> iox2sd_flag_answer:
        iox2sd_has_role_at iox2sd_has_room_at;
    (objects: *const iox2sd_service, count: usize) -> iox2sd_flag_answer:
        iox2sd_is_locked_at iox2sd_has_room_for_node_at;
    (objects: *const iox2sd_service, count: usize) -> iox2sd_count_answer:
        iox2sd_number_of_nodes_at iox2sd_max_nodes_at;
    (objects: *const iox2sd_service, count: usize, role: u64) -> iox2sd_count_answer:
        iox2sd_count_ports_at iox2sd_max_ports_at;
    (objects: *const iox2sd_service, count: usize, handle: iox2sd_handle) -> iox2sd_id_answer:
        iox2sd_node_at;
    (objects: *const iox2sd_service, count: usize, handle: iox2sd_handle) -> iox2sd_port_answer:
        iox2sd_port_at;
    (objects: *const iox2sd_service, count: usize, out: *mut iox2sd_id,
     capacity: usize) -> iox2sd_count_answer: iox2sd_nodes_at;
    (objects: *const iox2sd_service, count: usize, role: u64, out: *mut iox2sd_port_details,
     capacity: usize) -> iox2sd_count_answer: iox2sd_ports_at;
    (objects: *const iox2sd_service, count: usize, node: iox2sd_id, out: *mut iox2sd_port_details,
     capacity: usize) -> iox2sd_count_answer: iox2sd_ports_of_at;
    (script: *const u8, length: usize, out: *mut u8, capacity: usize) -> iox2sd_script_answer:
        iox2sd_script_run_at;
    (log: *const u8, length: usize, out: *mut u8, capacity: usize) -> iox2sd_conform_answer:
        iox2sd_conform_run_at;
    (text: *const u8, length: usize) -> iox2sd_place_answer:
        iox2sd_service_name_check_at iox2sd_internal_service_name_check_at
        iox2sd_attribute_key_check_at iox2sd_attribute_value_check_at iox2sd_path_check_at
        iox2sd_file_name_check_at iox2sd_file_path_check_at iox2sd_restricted_file_name_check_at;
    (text: *const u8, length: usize) -> bool: iox2sd_has_iox2_prefix_at;
    (text: *const u8, length: usize, out: *mut u8, capacity: usize) -> iox2sd_text_answer:
        iox2sd_internal_service_name_at;
    (path: *const u8, path_length: usize, entry: *const u8, entry_length: usize, out: *mut u8,
     capacity: usize) -> iox2sd_text_answer: iox2sd_path_add_path_entry_at;
    (path: *const u8, path_length: usize, file: *const u8, file_length: usize, out: *mut u8,
     capacity: usize) -> iox2sd_text_answer: iox2sd_file_path_from_path_and_file_at;
    (pattern: u64, name: *const u8, length: usize, out: *mut u8,
     capacity: usize) -> iox2sd_text_answer: iox2sd_internal_hash_text_at;
    (pairs: *mut iox2sd_attribute, length: usize) -> iox2sd_place_answer: iox2sd_attributes_sort_at;
    (pairs: *const iox2sd_attribute, length: usize, key: *const u8,
     key_length: usize) -> iox2sd_count_answer: iox2sd_attributes_number_of_key_values_at;
    (pairs: *const iox2sd_attribute, length: usize, key: *const u8, key_length: usize, index: usize,
     out: *mut u8, capacity: usize) -> iox2sd_text_answer: iox2sd_attributes_key_value_at;
    (pairs: *const iox2sd_attribute, length: usize, required: *const iox2sd_attribute,
     required_length: usize, keys: *const iox2sd_key, keys_length: usize) -> iox2sd_place_answer:
        iox2sd_attributes_verify_at;
    (detail: *const iox2sd_type_detail, count: usize) -> u32: iox2sd_type_detail_check_at;
    (details: *const iox2sd_message_details, count: usize, elements: usize) -> iox2sd_layout_answer:
        iox2sd_message_sample_layout_at;
    (details: *const iox2sd_message_details, count: usize, header: usize) -> iox2sd_places_answer:
        iox2sd_message_places_at;
    (service: *const iox2sd_message_details, service_count: usize,
     opener: *const iox2sd_message_details, opener_count: usize) -> iox2sd_part_answer:
        iox2sd_message_is_compatible_to_at;
    (max_subscribers: usize, subscriber_max_buffer_size: usize,
     subscriber_max_borrowed_samples: usize, history_size: usize,
     loaned_samples: usize) -> iox2sd_count_answer:
        iox2sd_required_amount_of_samples_per_data_segment;
    (max_servers: usize, max_active_requests_per_client: usize,
     loaned_requests: usize) -> iox2sd_count_answer:
        iox2sd_required_amount_of_chunks_per_client_data_segment;
    (max_clients: usize, max_active_requests_per_client: usize, max_response_buffer_size: usize,
     max_borrowed_responses_per_pending_response: usize,
     loaned_responses: usize) -> iox2sd_count_answer:
        iox2sd_required_amount_of_chunks_per_server_data_segment;
    () -> iox2sd_global_settings: iox2sd_global_defaults;
    () -> iox2sd_publish_subscribe_settings: iox2sd_publish_subscribe_defaults;
    () -> iox2sd_event_settings: iox2sd_event_defaults;
    () -> iox2sd_request_response_settings: iox2sd_request_response_defaults;
    () -> iox2sd_blackboard_settings: iox2sd_blackboard_defaults;
    (settings: *const iox2sd_publish_subscribe_settings, count: usize, name: *const u8,
     length: usize, internal: bool, id: iox2sd_id, out: *mut iox2sd_description,
     out_count: usize) -> iox2sd_field_answer: iox2sd_describe_publish_subscribe_at;
    (settings: *const iox2sd_event_settings, count: usize, name: *const u8, length: usize,
     internal: bool, id: iox2sd_id, out: *mut iox2sd_description,
     out_count: usize) -> iox2sd_field_answer: iox2sd_describe_event_at;
    (settings: *const iox2sd_request_response_settings, count: usize, name: *const u8,
     length: usize, internal: bool, id: iox2sd_id, out: *mut iox2sd_description,
     out_count: usize) -> iox2sd_field_answer: iox2sd_describe_request_response_at;
    (settings: *const iox2sd_blackboard_settings, count: usize, name: *const u8, length: usize,
     internal: bool, id: iox2sd_id, out: *mut iox2sd_description,
     out_count: usize) -> iox2sd_field_answer: iox2sd_describe_blackboard_at;
    (service: *const iox2sd_publish_subscribe_config, count: usize,
     required: *const iox2sd_publish_subscribe_config,
     required_count: usize) -> iox2sd_field_answer: iox2sd_publish_subscribe_satisfies_at;
    (service: *const iox2sd_event_config, count: usize, required: *const iox2sd_event_config,
     required_count: usize) -> iox2sd_field_answer: iox2sd_event_satisfies_at;
    (service: *const iox2sd_request_response_config, count: usize,
     required: *const iox2sd_request_response_config, required_count: usize) -> iox2sd_field_answer:
        iox2sd_request_response_satisfies_at;
    (service: *const iox2sd_blackboard_config, count: usize,
     required: *const iox2sd_blackboard_config, required_count: usize) -> iox2sd_field_answer:
        iox2sd_blackboard_satisfies_at;
    (settings: *const iox2sd_publish_subscribe_settings,
     count: usize) -> iox2sd_publish_subscribe_capacities:
        iox2sd_publish_subscribe_capacities_of_settings_at;
    (settings: *const iox2sd_event_settings, count: usize) -> iox2sd_event_capacities:
        iox2sd_event_capacities_of_settings_at;
    (settings: *const iox2sd_request_response_settings,
     count: usize) -> iox2sd_request_response_capacities:
        iox2sd_request_response_capacities_of_settings_at;
    (settings: *const iox2sd_blackboard_settings, count: usize) -> iox2sd_blackboard_capacities:
        iox2sd_blackboard_capacities_of_settings_at;
    (which: u32, out: *mut u8, capacity: usize) -> iox2sd_text_answer: iox2sd_default_text_at;
    (text: *const u8, length: usize, out: *mut iox2sd_config,
     out_count: usize) -> iox2sd_config_answer: iox2sd_config_read_at;
    (text: *const u8, length: usize, out: *mut iox2sd_config_fault,
     capacity: usize) -> iox2sd_count_answer: iox2sd_config_faults_at;
    (text: *const u8, length: usize, out: *mut iox2sd_unknown_key, capacity: usize, paths: *mut u8,
     paths_capacity: usize) -> iox2sd_unknown_answer: iox2sd_config_unknown_at;
    (settings: *const iox2sd_config, count: usize, out: *mut u8,
     capacity: usize) -> iox2sd_config_write_answer: iox2sd_config_write_at;
}
