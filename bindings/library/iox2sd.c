/* The functions of the headers: each checks its pointers and calls an export by count of
 * iox2sd_raw.h, or puts together what exports answer. bindings/build.sh puts them into the library,
 * so that each function of a header is a symbol. They are tested, and not proved. */
#include "iox2sd_config.h"
#include "iox2sd_conform.h"
#include "iox2sd_script.h"

/* How many bytes a text has that ends in a zero byte. NULL has one, so that calls refuse it. */
static size_t length_of(const char *text) { return text != NULL ? strlen(text) : 1; }

/* The answers where NULL stands for something. */
static const iox2sd_text_answer null_text = {.status = IOX2SD_STATUS_NULL};
static const iox2sd_id_answer null_id = {.status = IOX2SD_STATUS_NULL};
static const iox2sd_dead_node_removal null_removal = {.status = IOX2SD_STATUS_NULL};
static const iox2sd_count_answer null_count = {.status = IOX2SD_STATUS_NULL};
static const iox2sd_place_answer null_place = {.status = IOX2SD_STATUS_NULL};
static const iox2sd_field_answer null_field = {.status = IOX2SD_STATUS_NULL};
static const iox2sd_unknown_answer null_unknown = {.status = IOX2SD_STATUS_NULL};
static const iox2sd_script_answer null_script = {.status = IOX2SD_STATUS_NULL,
                                                 .verdict = IOX2SD_STATUS_NULL};
static const iox2sd_conform_answer null_conform = {.status = IOX2SD_STATUS_NULL,
                                                   .verdict = IOX2SD_STATUS_NULL};

/* ---- iox2sd.h ---- */

iox2sd_handle iox2sd_handle_none(void) {
    const iox2sd_handle none = IOX2SD_HANDLE_NONE;
    return none;
}

bool iox2sd_handle_is_none(iox2sd_handle handle) { return handle.role == IOX2SD_ROLE_NONE; }

iox2sd_capacities
iox2sd_capacities_of_publish_subscribe(iox2sd_publish_subscribe_capacities capacities) {
    iox2sd_capacities made;
    made.nodes = capacities.nodes;
    made.first = capacities.publishers;
    made.second = capacities.subscribers;
    return made;
}

iox2sd_capacities iox2sd_capacities_of_event(iox2sd_event_capacities capacities) {
    iox2sd_capacities made;
    made.nodes = capacities.nodes;
    made.first = capacities.listeners;
    made.second = capacities.notifiers;
    return made;
}

iox2sd_capacities
iox2sd_capacities_of_request_response(iox2sd_request_response_capacities capacities) {
    iox2sd_capacities made;
    made.nodes = capacities.nodes;
    made.first = capacities.servers;
    made.second = capacities.clients;
    return made;
}

iox2sd_capacities iox2sd_capacities_of_blackboard(iox2sd_blackboard_capacities capacities) {
    iox2sd_capacities made;
    made.nodes = capacities.nodes;
    made.first = capacities.readers;
    made.second = capacities.writers;
    return made;
}

iox2sd_text_answer iox2sd_status_text(uint32_t status, uint8_t *out, size_t capacity) {
    if (out == NULL && capacity != 0) return null_text;
    return iox2sd_status_text_at(status, out, capacity);
}

const char *iox2sd_status_str(iox2sd_status status) {
    switch (status) {
        case IOX2SD_STATUS_DONE: return "done";
        case IOX2SD_STATUS_DONE_LOCKED: return "done, and the service is locked for good";
        case IOX2SD_STATUS_BUFFER_TOO_SHORT: return "the buffer is too short";
        case IOX2SD_STATUS_NO_MEMORY: return "no memory";
        case IOX2SD_STATUS_NO_SERVICE: return "the object holds no service";
        case IOX2SD_STATUS_HAS_SERVICE: return "the object holds a service already";
        case IOX2SD_STATUS_UNKNOWN_PATTERN: return "unknown messaging pattern";
        case IOX2SD_STATUS_UNKNOWN_ROLE: return "unknown role";
        case IOX2SD_STATUS_NO_NODE: return "not the id of a node";
        case IOX2SD_STATUS_IS_LOCKED: return "the service is locked for good";
        case IOX2SD_STATUS_OUT_OF_SPACE: return "no slot or no ticket is left";
        case IOX2SD_STATUS_FOREIGN_HANDLE: return "no entry has the handle";
        case IOX2SD_STATUS_PORTS_STILL_ATTACHED: return "ports are still attached";
        case IOX2SD_STATUS_NODE_NOT_REGISTERED: return "the node is not registered";
        case IOX2SD_STATUS_ROLE_NOT_IN_PATTERN: return "the pattern has no ports of the role";
        case IOX2SD_STATUS_UNKNOWN_SEGMENT: return "unknown kind of data segment";
        case IOX2SD_STATUS_BAD_KEY: return "not a key of a pair";
        case IOX2SD_STATUS_BAD_VALUE: return "not a value of a pair";
        case IOX2SD_STATUS_TOO_MANY: return "more than sixteen pairs";
        case IOX2SD_STATUS_NULL: return "NULL";
        case IOX2SD_STATUS_UNKNOWN_STATUS: return "unknown status";
        case IOX2SD_STATUS_EMPTY: return "the text is empty";
        case IOX2SD_STATUS_TOO_LONG: return "the text is too long";
        case IOX2SD_STATUS_ILLEGAL_BYTE: return "a byte may not stand in the text";
        case IOX2SD_STATUS_NO_FILE_NAME: return "not the name of a file";
        case IOX2SD_STATUS_RESERVED_PREFIX: return "the name begins with a reserved prefix";
        case IOX2SD_STATUS_NOT_UTF8: return "not UTF-8";
        case IOX2SD_STATUS_BAD_SERVICE_NAME: return "not the name of a service";
        case IOX2SD_STATUS_BAD_PATH: return "not a path";
        case IOX2SD_STATUS_BAD_ENTRY: return "the text may not be joined to a path";
        case IOX2SD_STATUS_ILLEGAL_HASH: return "the hash text cannot be the name of a file";
        case IOX2SD_STATUS_BAD_REQUIRED_KEY: return "not a key of a required pair";
        case IOX2SD_STATUS_BAD_REQUIRED_VALUE: return "not a value of a required pair";
        case IOX2SD_STATUS_BAD_ASKED_KEY:
            return "not a required key, nor one that may be searched for";
        case IOX2SD_STATUS_TOO_MANY_REQUIRED:
            return "more than sixteen pairs and keys are required";
        case IOX2SD_STATUS_MISSING_PAIR: return "a required pair is not in the set";
        case IOX2SD_STATUS_MISSING_KEY: return "no pair of the set has a required key";
        case IOX2SD_STATUS_NO_SUCH_VALUE: return "the key has no value of this index";
        case IOX2SD_STATUS_BAD_ALIGNMENT: return "an alignment is not a power of two";
        case IOX2SD_STATUS_TOO_LARGE: return "the answer would pass its range";
        case IOX2SD_STATUS_UNKNOWN_VARIANT: return "unknown variant";
        case IOX2SD_STATUS_OTHER_NAME: return "the types of a part have other names";
        case IOX2SD_STATUS_OTHER_VARIANT: return "the types of a part are of other variants";
        case IOX2SD_STATUS_OTHER_SIZE: return "the types of a part have other sizes";
        case IOX2SD_STATUS_OTHER_ALIGNMENT: return "the types of the headers have other alignments";
        case IOX2SD_STATUS_GREATER_ALIGNMENT:
            return "the opener's type has a greater alignment than the service's";
        case IOX2SD_STATUS_UNKNOWN_TEXT: return "unknown text of the configuration";
        case IOX2SD_STATUS_BAD_LINE: return "a line of the script is not valid";
        case IOX2SD_STATUS_UNKNOWN_STRATEGY: return "unknown strategy";
        case IOX2SD_STATUS_BAD_DURATION:
            return "the nanoseconds of a duration are a second or more";
        case IOX2SD_STATUS_UNMET: return "a setting is not what the opener requires";
        case IOX2SD_STATUS_OTHER_PATTERN: return "the service has another messaging pattern";
        case IOX2SD_STATUS_NOT_TOML: return "not TOML";
        case IOX2SD_STATUS_WRONG_TYPE: return "a value of another type is wanted";
        case IOX2SD_STATUS_BELOW_ZERO: return "the number is below 0";
        case IOX2SD_STATUS_NO_DURATION: return "not a duration: the integers secs and nanos";
        case IOX2SD_STATUS_NO_TOML_INTEGER: return "TOML has no integer above 2^63 - 1";
        case IOX2SD_STATUS_NO_FILE: return "the file cannot be read";
        case IOX2SD_STATUS_TOO_DEEP: return "tables and arrays are nested too deeply";
        case IOX2SD_STATUS_NO_ORDER: return "no order of the calls explains the reply";
        case IOX2SD_STATUS_NO_SERVICE_LINE: return "the line of a service is expected";
        case IOX2SD_STATUS_NO_CALL_LINE:
            return "the line of a service, a call or an event is expected";
        case IOX2SD_STATUS_NO_REPLY_LINE: return "a reply is expected";
        case IOX2SD_STATUS_TOO_MANY_CONFIGURATIONS:
            return "orders of the calls lead to more than 4,096 configurations";
        case IOX2SD_STATUS_TOO_MANY_OPEN_CALLS: return "more than 64 calls are open";
        case IOX2SD_STATUS_CALLER_IS_BUSY: return "a caller without an open call is expected";
        case IOX2SD_STATUS_NO_OPEN_CALL: return "a caller with an open call is expected";
        case IOX2SD_STATUS_CALLER_IS_DEAD: return "a caller that has not died is expected";
        case IOX2SD_STATUS_UNKNOWN_CALLER: return "a caller that has begun a call is expected";
        case IOX2SD_STATUS_NO_NEWLINE: return "a newline is expected at the end of the line";
        case IOX2SD_STATUS_CARRIAGE_RETURN:
            return "no carriage return is expected before the newline";
        case IOX2SD_STATUS_NO_STATE_LINE: return "a state of the service is expected";
        default: return "unknown status";
    }
}

const char *iox2sd_role_str(iox2sd_role role) {
    switch (role) {
        case IOX2SD_ROLE_NODE: return "node";
        case IOX2SD_ROLE_PUBLISHER: return "publisher";
        case IOX2SD_ROLE_SUBSCRIBER: return "subscriber";
        case IOX2SD_ROLE_NOTIFIER: return "notifier";
        case IOX2SD_ROLE_LISTENER: return "listener";
        case IOX2SD_ROLE_CLIENT: return "client";
        case IOX2SD_ROLE_SERVER: return "server";
        case IOX2SD_ROLE_READER: return "reader";
        case IOX2SD_ROLE_WRITER: return "writer";
        default: return "unknown role";
    }
}

const char *iox2sd_pattern_str(iox2sd_pattern pattern) {
    switch (pattern) {
        case IOX2SD_PATTERN_PUBLISH_SUBSCRIBE: return "publish-subscribe";
        case IOX2SD_PATTERN_EVENT: return "event";
        case IOX2SD_PATTERN_REQUEST_RESPONSE: return "request-response";
        case IOX2SD_PATTERN_BLACKBOARD: return "blackboard";
        default: return "unknown messaging pattern";
    }
}

iox2sd_text_answer iox2sd_id_text(iox2sd_id id, uint8_t *out, size_t capacity) {
    if (out == NULL && capacity != 0) return null_text;
    return iox2sd_id_text_at(id, out, capacity);
}

iox2sd_id_answer iox2sd_id_from_text(const uint8_t *text, size_t length) {
    if (text == NULL && length != 0) return null_id;
    return iox2sd_id_from_text_at(text, length);
}

iox2sd_id_answer iox2sd_id_from_text_str(const char *text) {
    return iox2sd_id_from_text((const uint8_t *)text, length_of(text));
}

iox2sd_number_answer iox2sd_next_service_number(iox2sd_service_numbers *numbers) {
    return iox2sd_next_service_number_at(numbers, numbers != NULL);
}

iox2sd_status iox2sd_service_create(iox2sd_service *service, iox2sd_pattern pattern,
                                    uint64_t number, iox2sd_capacities capacities,
                                    uint64_t tickets) {
    return iox2sd_service_create_at(service, service != NULL, pattern, number, capacities, tickets);
}

iox2sd_status
iox2sd_service_create_publish_subscribe(iox2sd_service *service, uint64_t number,
                                        iox2sd_publish_subscribe_capacities capacities) {
    return iox2sd_service_create(service, IOX2SD_PATTERN_PUBLISH_SUBSCRIBE, number,
                                 iox2sd_capacities_of_publish_subscribe(capacities), UINT64_MAX);
}

iox2sd_status iox2sd_service_create_event(iox2sd_service *service, uint64_t number,
                                          iox2sd_event_capacities capacities) {
    return iox2sd_service_create(service, IOX2SD_PATTERN_EVENT, number,
                                 iox2sd_capacities_of_event(capacities), UINT64_MAX);
}

iox2sd_status
iox2sd_service_create_request_response(iox2sd_service *service, uint64_t number,
                                       iox2sd_request_response_capacities capacities) {
    return iox2sd_service_create(service, IOX2SD_PATTERN_REQUEST_RESPONSE, number,
                                 iox2sd_capacities_of_request_response(capacities), UINT64_MAX);
}

iox2sd_status iox2sd_service_create_blackboard(iox2sd_service *service, uint64_t number,
                                               iox2sd_blackboard_capacities capacities) {
    return iox2sd_service_create(service, IOX2SD_PATTERN_BLACKBOARD, number,
                                 iox2sd_capacities_of_blackboard(capacities), UINT64_MAX);
}

iox2sd_status iox2sd_service_free(iox2sd_service *service) {
    const iox2sd_status status = iox2sd_service_free_at(service, service != NULL);
    if (status == IOX2SD_STATUS_DONE) service->at = NULL;
    return status;
}

iox2sd_handle_answer iox2sd_register_node_id(iox2sd_service *service, iox2sd_id node) {
    return iox2sd_register_node_id_at(service, service != NULL, node);
}

iox2sd_status iox2sd_deregister_node_id(iox2sd_service *service, iox2sd_handle handle) {
    return iox2sd_deregister_node_id_at(service, service != NULL, handle);
}

iox2sd_handle_answer iox2sd_attach(iox2sd_service *service, const iox2sd_port_details *port) {
    return iox2sd_attach_at(service, service != NULL, port, port != NULL);
}

iox2sd_status iox2sd_release_port(iox2sd_service *service, iox2sd_handle handle) {
    return iox2sd_release_port_at(service, service != NULL, handle);
}

iox2sd_dead_node_removal iox2sd_remove_dead_node_id(iox2sd_service *service, iox2sd_id dead,
                                                    const iox2sd_port_id *kept, size_t kept_count) {
    if (kept == NULL && kept_count != 0) return null_removal;
    return iox2sd_remove_dead_node_id_at(service, service != NULL, dead, kept, kept_count);
}

iox2sd_count_answer iox2sd_ports(const iox2sd_service *service, iox2sd_role role,
                                 iox2sd_port_details *out, size_t capacity) {
    if (out == NULL && capacity != 0) return null_count;
    return iox2sd_ports_at(service, service != NULL, role, out, capacity);
}

iox2sd_count_answer iox2sd_ports_of(const iox2sd_service *service, iox2sd_id node,
                                    iox2sd_port_details *out, size_t capacity) {
    if (out == NULL && capacity != 0) return null_count;
    return iox2sd_ports_of_at(service, service != NULL, node, out, capacity);
}

iox2sd_number_answer iox2sd_messaging_pattern(const iox2sd_service *service) {
    return iox2sd_messaging_pattern_at(service, service != NULL);
}

iox2sd_number_answer iox2sd_service_number(const iox2sd_service *service) {
    return iox2sd_service_number_at(service, service != NULL);
}

iox2sd_roles_answer iox2sd_port_roles(const iox2sd_service *service) {
    return iox2sd_port_roles_at(service, service != NULL);
}

iox2sd_flag_answer iox2sd_has_role(const iox2sd_service *service, iox2sd_role role) {
    return iox2sd_has_role_at(service, service != NULL, role);
}

iox2sd_flag_answer iox2sd_is_locked(const iox2sd_service *service) {
    return iox2sd_is_locked_at(service, service != NULL);
}

iox2sd_count_answer iox2sd_number_of_nodes(const iox2sd_service *service) {
    return iox2sd_number_of_nodes_at(service, service != NULL);
}

iox2sd_count_answer iox2sd_max_nodes(const iox2sd_service *service) {
    return iox2sd_max_nodes_at(service, service != NULL);
}

iox2sd_flag_answer iox2sd_has_room_for_node(const iox2sd_service *service) {
    return iox2sd_has_room_for_node_at(service, service != NULL);
}

iox2sd_count_answer iox2sd_count_ports(const iox2sd_service *service, iox2sd_role role) {
    return iox2sd_count_ports_at(service, service != NULL, role);
}

iox2sd_count_answer iox2sd_max_ports(const iox2sd_service *service, iox2sd_role role) {
    return iox2sd_max_ports_at(service, service != NULL, role);
}

iox2sd_flag_answer iox2sd_has_room(const iox2sd_service *service, iox2sd_role role) {
    return iox2sd_has_room_at(service, service != NULL, role);
}

iox2sd_id_answer iox2sd_node(const iox2sd_service *service, iox2sd_handle handle) {
    return iox2sd_node_at(service, service != NULL, handle);
}

iox2sd_port_answer iox2sd_port(const iox2sd_service *service, iox2sd_handle handle) {
    return iox2sd_port_at(service, service != NULL, handle);
}

iox2sd_count_answer iox2sd_nodes(const iox2sd_service *service, iox2sd_id *out, size_t capacity) {
    if (out == NULL && capacity != 0) return null_count;
    return iox2sd_nodes_at(service, service != NULL, out, capacity);
}

/* ---- iox2sd_values.h ---- */

iox2sd_place_answer iox2sd_service_name_check(const uint8_t *text, size_t length) {
    if (text == NULL && length != 0) return null_place;
    return iox2sd_service_name_check_at(text, length);
}

iox2sd_place_answer iox2sd_service_name_check_str(const char *text) {
    return iox2sd_service_name_check((const uint8_t *)text, length_of(text));
}

iox2sd_place_answer iox2sd_internal_service_name_check(const uint8_t *text, size_t length) {
    if (text == NULL && length != 0) return null_place;
    return iox2sd_internal_service_name_check_at(text, length);
}

iox2sd_place_answer iox2sd_internal_service_name_check_str(const char *text) {
    return iox2sd_internal_service_name_check((const uint8_t *)text, length_of(text));
}

bool iox2sd_has_iox2_prefix(const uint8_t *text, size_t length) {
    return text != NULL && iox2sd_has_iox2_prefix_at(text, length);
}

bool iox2sd_has_iox2_prefix_str(const char *text) {
    return iox2sd_has_iox2_prefix((const uint8_t *)text, length_of(text));
}

iox2sd_text_answer iox2sd_internal_service_name(const uint8_t *text, size_t length, uint8_t *out,
                                                size_t capacity) {
    if (text == NULL && length != 0) return null_text;
    if (out == NULL && capacity != 0) return null_text;
    return iox2sd_internal_service_name_at(text, length, out, capacity);
}

iox2sd_text_answer iox2sd_internal_service_name_str(const char *text, uint8_t *out,
                                                    size_t capacity) {
    return iox2sd_internal_service_name((const uint8_t *)text, length_of(text), out, capacity);
}

iox2sd_place_answer iox2sd_attribute_key_check(const uint8_t *text, size_t length) {
    if (text == NULL && length != 0) return null_place;
    return iox2sd_attribute_key_check_at(text, length);
}

iox2sd_place_answer iox2sd_attribute_key_check_str(const char *text) {
    return iox2sd_attribute_key_check((const uint8_t *)text, length_of(text));
}

iox2sd_place_answer iox2sd_attribute_value_check(const uint8_t *text, size_t length) {
    if (text == NULL && length != 0) return null_place;
    return iox2sd_attribute_value_check_at(text, length);
}

iox2sd_place_answer iox2sd_attribute_value_check_str(const char *text) {
    return iox2sd_attribute_value_check((const uint8_t *)text, length_of(text));
}

iox2sd_place_answer iox2sd_path_check(const uint8_t *text, size_t length) {
    if (text == NULL && length != 0) return null_place;
    return iox2sd_path_check_at(text, length);
}

iox2sd_place_answer iox2sd_path_check_str(const char *text) {
    return iox2sd_path_check((const uint8_t *)text, length_of(text));
}

iox2sd_place_answer iox2sd_file_name_check(const uint8_t *text, size_t length) {
    if (text == NULL && length != 0) return null_place;
    return iox2sd_file_name_check_at(text, length);
}

iox2sd_place_answer iox2sd_file_name_check_str(const char *text) {
    return iox2sd_file_name_check((const uint8_t *)text, length_of(text));
}

iox2sd_place_answer iox2sd_file_path_check(const uint8_t *text, size_t length) {
    if (text == NULL && length != 0) return null_place;
    return iox2sd_file_path_check_at(text, length);
}

iox2sd_place_answer iox2sd_file_path_check_str(const char *text) {
    return iox2sd_file_path_check((const uint8_t *)text, length_of(text));
}

iox2sd_place_answer iox2sd_restricted_file_name_check(const uint8_t *text, size_t length) {
    if (text == NULL && length != 0) return null_place;
    return iox2sd_restricted_file_name_check_at(text, length);
}

iox2sd_place_answer iox2sd_restricted_file_name_check_str(const char *text) {
    return iox2sd_restricted_file_name_check((const uint8_t *)text, length_of(text));
}

iox2sd_text_answer iox2sd_path_add_path_entry(const uint8_t *path, size_t path_length,
                                              const uint8_t *entry, size_t entry_length,
                                              uint8_t *out, size_t capacity) {
    if (path == NULL && path_length != 0) return null_text;
    if (entry == NULL && entry_length != 0) return null_text;
    if (out == NULL && capacity != 0) return null_text;
    return iox2sd_path_add_path_entry_at(path, path_length, entry, entry_length, out, capacity);
}

iox2sd_text_answer iox2sd_path_add_path_entry_str(const char *path, const char *entry, uint8_t *out,
                                                  size_t capacity) {
    return iox2sd_path_add_path_entry((const uint8_t *)path, length_of(path),
                                      (const uint8_t *)entry, length_of(entry), out, capacity);
}

iox2sd_text_answer iox2sd_file_path_from_path_and_file(const uint8_t *path, size_t path_length,
                                                       const uint8_t *file, size_t file_length,
                                                       uint8_t *out, size_t capacity) {
    if (path == NULL && path_length != 0) return null_text;
    if (file == NULL && file_length != 0) return null_text;
    if (out == NULL && capacity != 0) return null_text;
    return iox2sd_file_path_from_path_and_file_at(path, path_length, file, file_length, out,
                                                  capacity);
}

iox2sd_text_answer iox2sd_file_path_from_path_and_file_str(const char *path, const char *file,
                                                           uint8_t *out, size_t capacity) {
    return iox2sd_file_path_from_path_and_file((const uint8_t *)path, length_of(path),
                                               (const uint8_t *)file, length_of(file), out,
                                               capacity);
}

iox2sd_text_answer iox2sd_hash_text(iox2sd_pattern pattern, const uint8_t *name, size_t length,
                                    uint8_t *out, size_t capacity) {
    if (name == NULL && length != 0) return null_text;
    if (out == NULL && capacity != 0) return null_text;
    return iox2sd_hash_text_at(pattern, name, length, out, capacity);
}

iox2sd_text_answer iox2sd_hash_text_str(iox2sd_pattern pattern, const char *name, uint8_t *out,
                                        size_t capacity) {
    return iox2sd_hash_text(pattern, (const uint8_t *)name, length_of(name), out, capacity);
}

iox2sd_text_answer iox2sd_internal_hash_text(iox2sd_pattern pattern, const uint8_t *name,
                                             size_t length, uint8_t *out, size_t capacity) {
    if (name == NULL && length != 0) return null_text;
    if (out == NULL && capacity != 0) return null_text;
    return iox2sd_internal_hash_text_at(pattern, name, length, out, capacity);
}

iox2sd_text_answer iox2sd_internal_hash_text_str(iox2sd_pattern pattern, const char *name,
                                                 uint8_t *out, size_t capacity) {
    return iox2sd_internal_hash_text(pattern, (const uint8_t *)name, length_of(name), out,
                                     capacity);
}

iox2sd_attribute iox2sd_attribute_str(const char *key, const char *value) {
    iox2sd_attribute made;
    made.key = (const uint8_t *)key;
    made.key_length = key != NULL ? strlen(key) : 0;
    made.value = (const uint8_t *)value;
    made.value_length = value != NULL ? strlen(value) : 0;
    return made;
}

iox2sd_key iox2sd_key_str(const char *text) {
    iox2sd_key made;
    made.text = (const uint8_t *)text;
    made.length = text != NULL ? strlen(text) : 0;
    return made;
}

iox2sd_place_answer iox2sd_attributes_check(const iox2sd_attribute *pairs, size_t length) {
    if (pairs == NULL && length != 0) return null_place;
    return iox2sd_attributes_check_at(pairs, length);
}

iox2sd_place_answer iox2sd_attributes_sort(iox2sd_attribute *pairs, size_t length) {
    if (pairs == NULL && length != 0) return null_place;
    return iox2sd_attributes_sort_at(pairs, length);
}

iox2sd_count_answer iox2sd_attributes_number_of_key_values(const iox2sd_attribute *pairs,
                                                           size_t length, const uint8_t *key,
                                                           size_t key_length) {
    if (pairs == NULL && length != 0) return null_count;
    if (key == NULL && key_length != 0) return null_count;
    return iox2sd_attributes_number_of_key_values_at(pairs, length, key, key_length);
}

iox2sd_text_answer iox2sd_attributes_key_value(const iox2sd_attribute *pairs, size_t length,
                                               const uint8_t *key, size_t key_length, size_t index,
                                               uint8_t *out, size_t capacity) {
    if (pairs == NULL && length != 0) return null_text;
    if (key == NULL && key_length != 0) return null_text;
    if (out == NULL && capacity != 0) return null_text;
    return iox2sd_attributes_key_value_at(pairs, length, key, key_length, index, out, capacity);
}

iox2sd_place_answer iox2sd_attributes_verify(const iox2sd_attribute *pairs, size_t length,
                                             const iox2sd_attribute *required,
                                             size_t required_length, const iox2sd_key *keys,
                                             size_t keys_length) {
    if (pairs == NULL && length != 0) return null_place;
    if (required == NULL && required_length != 0) return null_place;
    if (keys == NULL && keys_length != 0) return null_place;
    return iox2sd_attributes_verify_at(pairs, length, required, required_length, keys, keys_length);
}

iox2sd_type_detail iox2sd_type_detail_str(const char *name, uint32_t variant, size_t size,
                                          size_t alignment) {
    iox2sd_type_detail made;
    made.name = (const uint8_t *)name;
    made.name_length = name != NULL ? strlen(name) : 0;
    made.variant = variant;
    made.size = size;
    made.alignment = alignment;
    return made;
}

const char *iox2sd_part_str(iox2sd_message_part part) {
    switch (part) {
        case IOX2SD_PART_HEADER: return "header";
        case IOX2SD_PART_USER_HEADER: return "user header";
        case IOX2SD_PART_PAYLOAD: return "payload";
        default: return "unknown part";
    }
}

iox2sd_status iox2sd_type_detail_check(const iox2sd_type_detail *detail) {
    return iox2sd_type_detail_check_at(detail, detail != NULL);
}

iox2sd_layout_answer iox2sd_message_sample_layout(const iox2sd_message_details *details,
                                                  size_t elements) {
    return iox2sd_message_sample_layout_at(details, details != NULL, elements);
}

iox2sd_places_answer iox2sd_message_places(const iox2sd_message_details *details, size_t header) {
    return iox2sd_message_places_at(details, details != NULL, header);
}

iox2sd_part_answer iox2sd_message_is_compatible_to(const iox2sd_message_details *service,
                                                   const iox2sd_message_details *opener) {
    return iox2sd_message_is_compatible_to_at(service, service != NULL, opener, opener != NULL);
}

iox2sd_count_answer iox2sd_samples_of(const iox2sd_publish_subscribe_settings *settings) {
    if (settings == NULL) return null_count;
    return iox2sd_required_amount_of_samples_per_data_segment(
        settings->max_subscribers, settings->subscriber_max_buffer_size,
        settings->subscriber_max_borrowed_samples, settings->publisher_history_size,
        settings->publisher_max_loaned_samples);
}

iox2sd_count_answer iox2sd_requests_of(const iox2sd_request_response_settings *settings) {
    if (settings == NULL) return null_count;
    return iox2sd_required_amount_of_chunks_per_client_data_segment(
        settings->max_servers, settings->max_active_requests_per_client,
        settings->max_loaned_requests);
}

iox2sd_count_answer iox2sd_responses_of(const iox2sd_request_response_settings *settings) {
    if (settings == NULL) return null_count;
    return iox2sd_required_amount_of_chunks_per_server_data_segment(
        settings->max_clients, settings->max_active_requests_per_client,
        settings->max_response_buffer_size, settings->max_borrowed_responses_per_pending_response,
        settings->server_max_loaned_responses_per_request);
}

const char *iox2sd_field_str(iox2sd_settings_field field) {
    switch (field) {
        case IOX2SD_FIELD_BACKPRESSURE_STRATEGY: return "backpressure_strategy";
        case IOX2SD_FIELD_PUBLISHER_ALLOCATION_STRATEGY: return "publisher_allocation_strategy";
        case IOX2SD_FIELD_DEADLINE: return "deadline";
        case IOX2SD_FIELD_CLIENT_BACKPRESSURE_STRATEGY: return "client_backpressure_strategy";
        case IOX2SD_FIELD_SERVER_BACKPRESSURE_STRATEGY: return "server_backpressure_strategy";
        case IOX2SD_FIELD_CLIENT_ALLOCATION_STRATEGY: return "client_allocation_strategy";
        case IOX2SD_FIELD_SERVER_ALLOCATION_STRATEGY: return "server_allocation_strategy";
        case IOX2SD_FIELD_CREATION_TIMEOUT: return "creation_timeout";
        case IOX2SD_FIELD_MAX_SUBSCRIBERS: return "max_subscribers";
        case IOX2SD_FIELD_MAX_PUBLISHERS: return "max_publishers";
        case IOX2SD_FIELD_HISTORY_SIZE: return "history_size";
        case IOX2SD_FIELD_SUBSCRIBER_MAX_BUFFER_SIZE: return "subscriber_max_buffer_size";
        case IOX2SD_FIELD_SUBSCRIBER_MAX_BORROWED_SAMPLES: return "subscriber_max_borrowed_samples";
        case IOX2SD_FIELD_ENABLE_SAFE_OVERFLOW: return "enable_safe_overflow";
        case IOX2SD_FIELD_MAX_NOTIFIERS: return "max_notifiers";
        case IOX2SD_FIELD_MAX_LISTENERS: return "max_listeners";
        case IOX2SD_FIELD_EVENT_ID_MAX_VALUE: return "event_id_max_value";
        case IOX2SD_FIELD_NOTIFIER_CREATED_EVENT: return "notifier_created_event";
        case IOX2SD_FIELD_NOTIFIER_DROPPED_EVENT: return "notifier_dropped_event";
        case IOX2SD_FIELD_NOTIFIER_DEAD_EVENT: return "notifier_dead_event";
        case IOX2SD_FIELD_ENABLE_SAFE_OVERFLOW_FOR_REQUESTS:
            return "enable_safe_overflow_for_requests";
        case IOX2SD_FIELD_ENABLE_SAFE_OVERFLOW_FOR_RESPONSES:
            return "enable_safe_overflow_for_responses";
        case IOX2SD_FIELD_ENABLE_FIRE_AND_FORGET_REQUESTS: return "enable_fire_and_forget_requests";
        case IOX2SD_FIELD_MAX_ACTIVE_REQUESTS_PER_CLIENT: return "max_active_requests_per_client";
        case IOX2SD_FIELD_MAX_LOANED_REQUESTS: return "max_loaned_requests";
        case IOX2SD_FIELD_MAX_RESPONSE_BUFFER_SIZE: return "max_response_buffer_size";
        case IOX2SD_FIELD_MAX_SERVERS: return "max_servers";
        case IOX2SD_FIELD_MAX_CLIENTS: return "max_clients";
        case IOX2SD_FIELD_MAX_BORROWED_RESPONSES_PER_PENDING_RESPONSE:
            return "max_borrowed_responses_per_pending_response";
        case IOX2SD_FIELD_MAX_READERS: return "max_readers";
        case IOX2SD_FIELD_MAX_WRITERS: return "max_writers";
        case IOX2SD_FIELD_MAX_NODES: return "max_nodes";
        default: return "unknown field";
    }
}

iox2sd_field_answer iox2sd_global_settings_check(const iox2sd_global_settings *settings) {
    return iox2sd_global_settings_check_at(settings, settings != NULL);
}

iox2sd_field_answer
iox2sd_publish_subscribe_settings_check(const iox2sd_publish_subscribe_settings *settings) {
    return iox2sd_publish_subscribe_settings_check_at(settings, settings != NULL);
}

iox2sd_field_answer iox2sd_event_settings_check(const iox2sd_event_settings *settings) {
    return iox2sd_event_settings_check_at(settings, settings != NULL);
}

iox2sd_field_answer
iox2sd_request_response_settings_check(const iox2sd_request_response_settings *settings) {
    return iox2sd_request_response_settings_check_at(settings, settings != NULL);
}

iox2sd_publish_subscribe_capacities
iox2sd_publish_subscribe_capacities_of_settings(const iox2sd_publish_subscribe_settings *settings) {
    return iox2sd_publish_subscribe_capacities_of_settings_at(settings, settings != NULL);
}

iox2sd_event_capacities iox2sd_event_capacities_of_settings(const iox2sd_event_settings *settings) {
    return iox2sd_event_capacities_of_settings_at(settings, settings != NULL);
}

iox2sd_request_response_capacities
iox2sd_request_response_capacities_of_settings(const iox2sd_request_response_settings *settings) {
    return iox2sd_request_response_capacities_of_settings_at(settings, settings != NULL);
}

iox2sd_blackboard_capacities
iox2sd_blackboard_capacities_of_settings(const iox2sd_blackboard_settings *settings) {
    return iox2sd_blackboard_capacities_of_settings_at(settings, settings != NULL);
}

iox2sd_text_answer iox2sd_default_text(iox2sd_text which, uint8_t *out, size_t capacity) {
    if (out == NULL && capacity != 0) return null_text;
    return iox2sd_default_text_at(which, out, capacity);
}

iox2sd_text_answer iox2sd_service_dir(const uint8_t *root, size_t length, uint8_t *out,
                                      size_t capacity) {
    if (root == NULL && length != 0) return null_text;
    if (out == NULL && capacity != 0) return null_text;
    return iox2sd_service_dir_at(root, length, out, capacity);
}

iox2sd_text_answer iox2sd_service_dir_str(const char *root, uint8_t *out, size_t capacity) {
    return iox2sd_service_dir((const uint8_t *)root, length_of(root), out, capacity);
}

iox2sd_text_answer iox2sd_node_dir(const uint8_t *root, size_t length, uint8_t *out,
                                   size_t capacity) {
    if (root == NULL && length != 0) return null_text;
    if (out == NULL && capacity != 0) return null_text;
    return iox2sd_node_dir_at(root, length, out, capacity);
}

iox2sd_text_answer iox2sd_node_dir_str(const char *root, uint8_t *out, size_t capacity) {
    return iox2sd_node_dir((const uint8_t *)root, length_of(root), out, capacity);
}

iox2sd_field_answer
iox2sd_describe_publish_subscribe(const iox2sd_publish_subscribe_settings *settings,
                                  const uint8_t *name, size_t length, bool internal, iox2sd_id id,
                                  iox2sd_description *out) {
    if (name == NULL && length != 0) return null_field;
    return iox2sd_describe_publish_subscribe_at(settings, settings != NULL, name, length, internal,
                                                id, out, out != NULL);
}

iox2sd_field_answer
iox2sd_describe_publish_subscribe_str(const iox2sd_publish_subscribe_settings *settings,
                                      const char *name, bool internal, iox2sd_id id,
                                      iox2sd_description *out) {
    return iox2sd_describe_publish_subscribe(settings, (const uint8_t *)name, length_of(name),
                                             internal, id, out);
}

iox2sd_field_answer iox2sd_describe_event(const iox2sd_event_settings *settings,
                                          const uint8_t *name, size_t length, bool internal,
                                          iox2sd_id id, iox2sd_description *out) {
    if (name == NULL && length != 0) return null_field;
    return iox2sd_describe_event_at(settings, settings != NULL, name, length, internal, id, out,
                                    out != NULL);
}

iox2sd_field_answer iox2sd_describe_event_str(const iox2sd_event_settings *settings,
                                              const char *name, bool internal, iox2sd_id id,
                                              iox2sd_description *out) {
    return iox2sd_describe_event(settings, (const uint8_t *)name, length_of(name), internal, id,
                                 out);
}

iox2sd_field_answer
iox2sd_describe_request_response(const iox2sd_request_response_settings *settings,
                                 const uint8_t *name, size_t length, bool internal, iox2sd_id id,
                                 iox2sd_description *out) {
    if (name == NULL && length != 0) return null_field;
    return iox2sd_describe_request_response_at(settings, settings != NULL, name, length, internal,
                                               id, out, out != NULL);
}

iox2sd_field_answer
iox2sd_describe_request_response_str(const iox2sd_request_response_settings *settings,
                                     const char *name, bool internal, iox2sd_id id,
                                     iox2sd_description *out) {
    return iox2sd_describe_request_response(settings, (const uint8_t *)name, length_of(name),
                                            internal, id, out);
}

iox2sd_field_answer iox2sd_describe_blackboard(const iox2sd_blackboard_settings *settings,
                                               const uint8_t *name, size_t length, bool internal,
                                               iox2sd_id id, iox2sd_description *out) {
    if (name == NULL && length != 0) return null_field;
    return iox2sd_describe_blackboard_at(settings, settings != NULL, name, length, internal, id,
                                         out, out != NULL);
}

iox2sd_field_answer iox2sd_describe_blackboard_str(const iox2sd_blackboard_settings *settings,
                                                   const char *name, bool internal, iox2sd_id id,
                                                   iox2sd_description *out) {
    return iox2sd_describe_blackboard(settings, (const uint8_t *)name, length_of(name), internal,
                                      id, out);
}

iox2sd_capacities iox2sd_capacities_of_description(const iox2sd_description *description) {
    iox2sd_capacities made = {0, 0, 0};
    if (description == NULL) return made;
    switch (description->pattern) {
        case IOX2SD_PATTERN_PUBLISH_SUBSCRIBE:
            made.nodes = description->publish_subscribe.max_nodes;
            made.first = description->publish_subscribe.max_publishers;
            made.second = description->publish_subscribe.max_subscribers;
            break;
        case IOX2SD_PATTERN_EVENT:
            made.nodes = description->event.max_nodes;
            made.first = description->event.max_listeners;
            made.second = description->event.max_notifiers;
            break;
        case IOX2SD_PATTERN_REQUEST_RESPONSE:
            made.nodes = description->request_response.max_nodes;
            made.first = description->request_response.max_servers;
            made.second = description->request_response.max_clients;
            break;
        case IOX2SD_PATTERN_BLACKBOARD:
            made.nodes = description->blackboard.max_nodes;
            made.first = description->blackboard.max_readers;
            made.second = description->blackboard.max_writers;
            break;
        default: break;
    }
    return made;
}

iox2sd_status
iox2sd_service_create_of_description(iox2sd_service *service, uint64_t number,
                                     const iox2sd_description *description) {
    if (description == NULL) return IOX2SD_STATUS_NULL;
    return iox2sd_service_create(service, description->pattern, number,
                                 iox2sd_capacities_of_description(description), UINT64_MAX);
}

iox2sd_publish_subscribe_capacities
iox2sd_publish_subscribe_capacities_of_config(const iox2sd_publish_subscribe_config *config) {
    iox2sd_publish_subscribe_capacities made = {0, 0, 0};
    if (config == NULL) return made;
    made.nodes = config->max_nodes;
    made.publishers = config->max_publishers;
    made.subscribers = config->max_subscribers;
    return made;
}

iox2sd_event_capacities iox2sd_event_capacities_of_config(const iox2sd_event_config *config) {
    iox2sd_event_capacities made = {0, 0, 0};
    if (config == NULL) return made;
    made.nodes = config->max_nodes;
    made.listeners = config->max_listeners;
    made.notifiers = config->max_notifiers;
    return made;
}

iox2sd_request_response_capacities
iox2sd_request_response_capacities_of_config(const iox2sd_request_response_config *config) {
    iox2sd_request_response_capacities made = {0, 0, 0};
    if (config == NULL) return made;
    made.nodes = config->max_nodes;
    made.servers = config->max_servers;
    made.clients = config->max_clients;
    return made;
}

iox2sd_blackboard_capacities
iox2sd_blackboard_capacities_of_config(const iox2sd_blackboard_config *config) {
    iox2sd_blackboard_capacities made = {0, 0, 0};
    if (config == NULL) return made;
    made.nodes = config->max_nodes;
    made.readers = config->max_readers;
    made.writers = config->max_writers;
    return made;
}

iox2sd_field_answer
iox2sd_publish_subscribe_satisfies(const iox2sd_publish_subscribe_config *service,
                                   const iox2sd_publish_subscribe_config *required) {
    return iox2sd_publish_subscribe_satisfies_at(service, service != NULL, required,
                                                 required != NULL);
}

iox2sd_field_answer iox2sd_event_satisfies(const iox2sd_event_config *service,
                                           const iox2sd_event_config *required) {
    return iox2sd_event_satisfies_at(service, service != NULL, required, required != NULL);
}

iox2sd_field_answer
iox2sd_request_response_satisfies(const iox2sd_request_response_config *service,
                                  const iox2sd_request_response_config *required) {
    return iox2sd_request_response_satisfies_at(service, service != NULL, required,
                                                required != NULL);
}

iox2sd_field_answer iox2sd_blackboard_satisfies(const iox2sd_blackboard_config *service,
                                                const iox2sd_blackboard_config *required) {
    return iox2sd_blackboard_satisfies_at(service, service != NULL, required, required != NULL);
}

/* The settings of a service that has the opener's pattern. */
static iox2sd_field_answer satisfies(const iox2sd_description *service,
                                     const iox2sd_description *required) {
    switch (service->pattern) {
        case IOX2SD_PATTERN_PUBLISH_SUBSCRIBE:
            return iox2sd_publish_subscribe_satisfies(&service->publish_subscribe,
                                                      &required->publish_subscribe);
        case IOX2SD_PATTERN_EVENT: return iox2sd_event_satisfies(&service->event, &required->event);
        case IOX2SD_PATTERN_REQUEST_RESPONSE:
            return iox2sd_request_response_satisfies(&service->request_response,
                                                     &required->request_response);
        default: return iox2sd_blackboard_satisfies(&service->blackboard, &required->blackboard);
    }
}

static iox2sd_open_answer open_check_pattern(iox2sd_pattern service, iox2sd_pattern required) {
    const iox2sd_flag_answer same = iox2sd_has_same_messaging_pattern(service, required);
    const iox2sd_open_answer made = {
        .status = same.status != IOX2SD_STATUS_DONE ? same.status
                  : same.yes                 ? IOX2SD_STATUS_DONE
                                             : IOX2SD_STATUS_OTHER_PATTERN,
        .subject = IOX2SD_OPEN_PATTERN,
    };
    return made;
}

static iox2sd_open_answer open_check_attributes(const iox2sd_offer *service,
                                                const iox2sd_requirements *required) {
    const iox2sd_place_answer verdict = iox2sd_attributes_verify(
        service->attributes, service->attributes_length, required->pairs, required->pairs_length,
        required->keys, required->keys_length);
    const iox2sd_open_answer made = {
        .status = verdict.status,
        .cause = verdict.cause,
        .subject = IOX2SD_OPEN_ATTRIBUTES,
        .at = verdict.at,
    };
    return made;
}

static iox2sd_open_answer open_check_types(iox2sd_open_subject subject,
                                           const iox2sd_message_details *service,
                                           const iox2sd_message_details *required) {
    iox2sd_open_answer made = {.status = IOX2SD_STATUS_DONE, .subject = subject};
    if (service != NULL && required != NULL) {
        const iox2sd_part_answer verdict = iox2sd_message_is_compatible_to(service, required);
        made.status = verdict.status;
        made.side = verdict.side;
        made.part = verdict.part;
    }
    return made;
}

/* Keys agree where the headers of messages do: where they are equal. */
static iox2sd_open_answer open_check_keys(const iox2sd_type_detail *service,
                                          const iox2sd_type_detail *required) {
    iox2sd_open_answer made = {.status = IOX2SD_STATUS_DONE, .subject = IOX2SD_OPEN_KEYS};
    if (service != NULL && required != NULL) {
        const iox2sd_message_details of_service = {*service, *service, *service};
        const iox2sd_message_details of_opener = {*required, *required, *required};
        made = open_check_types(IOX2SD_OPEN_KEYS, &of_service, &of_opener);
    }
    return made;
}

static iox2sd_open_answer open_check_settings(const iox2sd_description *service,
                                              const iox2sd_description *required) {
    const iox2sd_field_answer verdict = satisfies(service, required);
    const iox2sd_open_answer made = {
        .status = verdict.status,
        .subject = IOX2SD_OPEN_SETTINGS,
        .field = verdict.field,
    };
    return made;
}

iox2sd_open_answer iox2sd_open_check(const iox2sd_offer *service,
                                     const iox2sd_requirements *required) {
    iox2sd_open_answer made = {.status = IOX2SD_STATUS_NULL};
    if (service == NULL || required == NULL) return made;
    if (service->description == NULL || required->description == NULL) return made;
    made = open_check_pattern(service->description->pattern, required->description->pattern);
    if (made.status == IOX2SD_STATUS_DONE) made = open_check_attributes(service, required);
    if (made.status == IOX2SD_STATUS_DONE) {
        made = open_check_types(IOX2SD_OPEN_MESSAGES, service->messages, required->messages);
    }
    if (made.status == IOX2SD_STATUS_DONE) {
        made = open_check_types(IOX2SD_OPEN_RESPONSES, service->responses, required->responses);
    }
    if (made.status == IOX2SD_STATUS_DONE) {
        made = open_check_keys(service->key_type, required->key_type);
    }
    if (made.status == IOX2SD_STATUS_DONE) {
        made = open_check_settings(service->description, required->description);
    }
    if (made.status == IOX2SD_STATUS_DONE) made.subject = IOX2SD_OPEN_PATTERN;
    return made;
}

/* What a reason is about, in words; nothing of patterns, which the text of the status names. */
static const char *subject_of(iox2sd_open_answer answer) {
    switch (answer.subject) {
        case IOX2SD_OPEN_ATTRIBUTES: return "attributes";
        case IOX2SD_OPEN_MESSAGES:
        case IOX2SD_OPEN_RESPONSES: return iox2sd_part_str(answer.part);
        case IOX2SD_OPEN_KEYS: return "key";
        case IOX2SD_OPEN_SETTINGS: return iox2sd_field_str(answer.field);
        default: return "";
    }
}

/* Appends a text to words, which have room for all that are put together here. */
static size_t append(const char *text, uint8_t *words, size_t length) {
    const size_t more = strlen(text);
    memcpy(words + length, text, more);
    return length + more;
}

iox2sd_text_answer iox2sd_open_text(iox2sd_open_answer answer, uint8_t *out, size_t capacity) {
    const char *const subject = subject_of(answer);
    uint8_t words[256];
    iox2sd_text_answer told = {.status = IOX2SD_STATUS_DONE};
    if (out == NULL && capacity != 0) return null_text;
    if (answer.subject == IOX2SD_OPEN_RESPONSES) {
        told.length = append("responses, ", words, told.length);
    }
    if (*subject != 0) {
        told.length = append(subject, words, told.length);
        told.length = append(": ", words, told.length);
    }
    told.length = append(iox2sd_status_str(answer.status), words, told.length);
    if (told.length > capacity) {
        told.status = IOX2SD_STATUS_BUFFER_TOO_SHORT;
    } else {
        memcpy(out, words, told.length);
    }
    return told;
}

iox2sd_text_answer iox2sd_version(uint8_t *out, size_t capacity) {
    if (out == NULL && capacity != 0) return null_text;
    return iox2sd_version_at(out, capacity);
}

iox2sd_text_answer iox2sd_layer_version(uint8_t *out, size_t capacity) {
    if (out == NULL && capacity != 0) return null_text;
    return iox2sd_layer_version_at(out, capacity);
}

/* ---- iox2sd_config.h ---- */

iox2sd_config_answer iox2sd_config_read(const uint8_t *text, size_t length, iox2sd_config *out) {
    if (text == NULL && length != 0) return iox2sd_config_read_at(NULL, 0, NULL, 0);
    return iox2sd_config_read_at(text, length, out, out != NULL);
}

iox2sd_config_answer iox2sd_config_read_str(const char *text, iox2sd_config *out) {
    return iox2sd_config_read((const uint8_t *)text, length_of(text), out);
}

iox2sd_count_answer iox2sd_config_faults(const uint8_t *text, size_t length,
                                         iox2sd_config_fault *out, size_t capacity) {
    if (text == NULL && length != 0) return null_count;
    if (out == NULL && capacity != 0) return null_count;
    return iox2sd_config_faults_at(text, length, out, capacity);
}

iox2sd_count_answer iox2sd_config_faults_str(const char *text, iox2sd_config_fault *out,
                                             size_t capacity) {
    return iox2sd_config_faults((const uint8_t *)text, length_of(text), out, capacity);
}

iox2sd_unknown_answer iox2sd_config_unknown(const uint8_t *text, size_t length,
                                            iox2sd_unknown_key *out, size_t capacity,
                                            uint8_t *paths, size_t paths_capacity) {
    if (text == NULL && length != 0) return null_unknown;
    if (out == NULL && capacity != 0) return null_unknown;
    if (paths == NULL && paths_capacity != 0) return null_unknown;
    return iox2sd_config_unknown_at(text, length, out, capacity, paths, paths_capacity);
}

iox2sd_unknown_answer iox2sd_config_unknown_str(const char *text, iox2sd_unknown_key *out,
                                                size_t capacity, uint8_t *paths,
                                                size_t paths_capacity) {
    return iox2sd_config_unknown((const uint8_t *)text, length_of(text), out, capacity, paths,
                                 paths_capacity);
}

iox2sd_config_write_answer iox2sd_config_write(const iox2sd_config *settings, uint8_t *out,
                                               size_t capacity) {
    if (out == NULL && capacity != 0) return iox2sd_config_write_at(NULL, 0, NULL, 0);
    return iox2sd_config_write_at(settings, settings != NULL, out, capacity);
}

/* ---- iox2sd_script.h ---- */

iox2sd_script_answer iox2sd_script_run(const uint8_t *script, size_t length, uint8_t *out,
                                       size_t capacity) {
    if (script == NULL && length != 0) return null_script;
    if (out == NULL && capacity != 0) return null_script;
    return iox2sd_script_run_at(script, length, out, capacity);
}

iox2sd_script_answer iox2sd_script_run_str(const char *script, uint8_t *out, size_t capacity) {
    return iox2sd_script_run((const uint8_t *)script, length_of(script), out, capacity);
}

/* ---- iox2sd_conform.h ---- */

iox2sd_conform_answer iox2sd_conform_run(const uint8_t *log, size_t length, uint8_t *out,
                                         size_t capacity) {
    if (log == NULL && length != 0) return null_conform;
    if (out == NULL && capacity != 0) return null_conform;
    return iox2sd_conform_run_at(log, length, out, capacity);
}

iox2sd_conform_answer iox2sd_conform_run_str(const char *log, uint8_t *out, size_t capacity) {
    return iox2sd_conform_run((const uint8_t *)log, length_of(log), out, capacity);
}
