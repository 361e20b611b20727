/* Values: names, attributes, messages, settings and descriptions. The proved layer of
 * service_descriptions, for C99 and C++. The statuses are in iox2sd.h, with what is proved.
 *
 * Rules for every call
 *
 * - A text is a pointer and a length in bytes; it needs no zero byte at its end. A function that
 *   ends in `_str` takes texts that end in a zero byte, without a length.
 * - A buffer is a pointer to `capacity` bytes that the caller owns. It overlaps no other argument
 *   of the call. A text that fits is written to its front, without a zero byte. Where a text does
 *   not fit, nothing is written, the status is IOX2SD_STATUS_BUFFER_TOO_SHORT, and `length` is the
 *   size that it needs.
 * - NULL is IOX2SD_STATUS_NULL where one struct or a text of `_str` is expected. As an array, a
 *   text or a buffer, NULL is an empty one where its number is 0, and else IOX2SD_STATUS_NULL. This
 *   is checked before all else; the comments below do not name it again for texts and buffers. A
 *   text within a struct is not checked for NULL.
 * - A status other than IOX2SD_STATUS_DONE is an error: nothing was written, and the other fields
 *   of a result are 0, unless a function says otherwise. Errors are checked in the order in which
 *   they are listed.
 * - No call writes past the length that is passed, keeps a pointer, or calls back, and none but
 *   iox2sd_service_create_of_description takes memory. There is no global state: calls may run on
 *   several threads at once, where they share no buffer. A call takes at most IOX2SD_STACK_BYTES of
 *   the stack.
 * - Results have padding: compare them by their fields.
 */
#ifndef IOX2SD_VALUES_H
#define IOX2SD_VALUES_H

#include "iox2sd.h"

#ifdef __cplusplus
extern "C" {
#endif

/* An index in an argument: of a byte in a text, or of an element in an array. */
typedef struct iox2sd_place_answer {
    iox2sd_status status;
    iox2sd_status cause; /* Why a key or a value of a pair is refused; 0 where none is. */
    size_t at; /* 0 where the status has no index. */
} iox2sd_place_answer;

/* ---- Texts ---- */

/* Whether a text is the name that a user gives to a service: 1 to 255 bytes, each from 1 to 127,
 * not beginning with "iox2://".
 * Errors: IOX2SD_STATUS_RESERVED_PREFIX; IOX2SD_STATUS_EMPTY; IOX2SD_STATUS_TOO_LONG, with `at`
 * 255; IOX2SD_STATUS_ILLEGAL_BYTE, with the index of the first one. */
IOX2SD_CHECKED iox2sd_place_answer iox2sd_service_name_check(const uint8_t *text, size_t length);
IOX2SD_CHECKED iox2sd_place_answer iox2sd_service_name_check_str(const char *text);

/* Whether a text is the name of a service, which may be one of the system's own.
 * Errors: as above, but for IOX2SD_STATUS_RESERVED_PREFIX. */
IOX2SD_CHECKED iox2sd_place_answer iox2sd_internal_service_name_check(const uint8_t *text,
                                                                      size_t length);
IOX2SD_CHECKED iox2sd_place_answer iox2sd_internal_service_name_check_str(const char *text);

/* Whether a text begins with "iox2://", as the names of the system's services do; no for NULL. */
bool iox2sd_has_iox2_prefix(const uint8_t *text, size_t length);
bool iox2sd_has_iox2_prefix_str(const char *text);

/* Writes the name of one of the system's own services: "iox2://" and the text.
 * Errors: IOX2SD_STATUS_NOT_UTF8; IOX2SD_STATUS_TOO_LONG, for more than 248 bytes;
 * IOX2SD_STATUS_ILLEGAL_BYTE; IOX2SD_STATUS_BUFFER_TOO_SHORT. */
IOX2SD_CHECKED iox2sd_text_answer iox2sd_internal_service_name(const uint8_t *text, size_t length,
                                                               uint8_t *out, size_t capacity);
IOX2SD_CHECKED iox2sd_text_answer iox2sd_internal_service_name_str(const char *text, uint8_t *out,
                                                                   size_t capacity);

/* Whether a text is the key of an attribute: 1 to 64 bytes, each from 1 to 127.
 * Errors: IOX2SD_STATUS_EMPTY; IOX2SD_STATUS_TOO_LONG, with `at` 64; IOX2SD_STATUS_ILLEGAL_BYTE,
 * with the index of the first one. */
IOX2SD_CHECKED iox2sd_place_answer iox2sd_attribute_key_check(const uint8_t *text, size_t length);
IOX2SD_CHECKED iox2sd_place_answer iox2sd_attribute_key_check_str(const char *text);

/* Whether a text is the value of an attribute: 1 to 256 bytes, each from 1 to 127. Errors as of a
 * key, with `at` 256. */
IOX2SD_CHECKED iox2sd_place_answer iox2sd_attribute_value_check(const uint8_t *text, size_t length);
IOX2SD_CHECKED iox2sd_place_answer iox2sd_attribute_value_check_str(const char *text);

/* Whether a text is a path: at most 255 bytes, each from 1 to 127. It may be empty.
 * Errors: IOX2SD_STATUS_TOO_LONG, with `at` 255; IOX2SD_STATUS_ILLEGAL_BYTE, with the index of the
 * first one. */
IOX2SD_CHECKED iox2sd_place_answer iox2sd_path_check(const uint8_t *text, size_t length);
IOX2SD_CHECKED iox2sd_place_answer iox2sd_path_check_str(const char *text);

/* Whether a text is the name of a file: 1 to 255 bytes, each from 1 to 127 and none a `/`, and
 * neither "." nor "..".
 * Errors: IOX2SD_STATUS_EMPTY; IOX2SD_STATUS_TOO_LONG, with `at` 255; IOX2SD_STATUS_ILLEGAL_BYTE,
 * with the index of the first one; IOX2SD_STATUS_NO_FILE_NAME. */
IOX2SD_CHECKED iox2sd_place_answer iox2sd_file_name_check(const uint8_t *text, size_t length);
IOX2SD_CHECKED iox2sd_place_answer iox2sd_file_name_check_str(const char *text);

/* Whether a text is the path of a file: 1 to 255 bytes, each from 1 to 127, of which those after
 * the last `/` are the name of a file. Errors as of the name of a file; `/` is no illegal byte. */
IOX2SD_CHECKED iox2sd_place_answer iox2sd_file_path_check(const uint8_t *text, size_t length);
IOX2SD_CHECKED iox2sd_place_answer iox2sd_file_path_check_str(const char *text);

/* Whether a text is a restricted name of a file, as hash texts are: 1 to 64 letters A to Z and a to
 * z, digits, `-`, `.`, `:` and `_`, and neither "." nor "..". Errors as of the name of a file, with
 * `at` 64 for IOX2SD_STATUS_TOO_LONG. */
IOX2SD_CHECKED iox2sd_place_answer iox2sd_restricted_file_name_check(const uint8_t *text,
                                                                     size_t length);
IOX2SD_CHECKED iox2sd_place_answer iox2sd_restricted_file_name_check_str(const char *text);

/* Writes an entry, which is a path too, joined to a path, with one `/` between them unless the path
 * is empty or ends in `/`.
 * Errors: IOX2SD_STATUS_BAD_PATH and IOX2SD_STATUS_BAD_ENTRY, with the status of iox2sd_path_check
 * as the cause; IOX2SD_STATUS_TOO_LONG, past 255 bytes; IOX2SD_STATUS_BUFFER_TOO_SHORT. */
IOX2SD_CHECKED iox2sd_text_answer iox2sd_path_add_path_entry(const uint8_t *path,
                                                             size_t path_length,
                                                             const uint8_t *entry,
                                                             size_t entry_length, uint8_t *out,
                                                             size_t capacity);
IOX2SD_CHECKED iox2sd_text_answer iox2sd_path_add_path_entry_str(const char *path,
                                                                 const char *entry, uint8_t *out,
                                                                 size_t capacity);

/* Writes the path of a file in a directory, joined in the same way. Errors as above; the cause of
 * IOX2SD_STATUS_BAD_ENTRY is the status of iox2sd_file_name_check. */
IOX2SD_CHECKED iox2sd_text_answer
iox2sd_file_path_from_path_and_file(const uint8_t *path, size_t path_length, const uint8_t *file,
                                    size_t file_length, uint8_t *out, size_t capacity);
IOX2SD_CHECKED iox2sd_text_answer iox2sd_file_path_from_path_and_file_str(const char *path,
                                                                          const char *file,
                                                                          uint8_t *out,
                                                                          size_t capacity);

/* Writes the hash text of a service's pattern and name, under which its files are found: 27 bytes.
 * Errors: IOX2SD_STATUS_UNKNOWN_PATTERN; IOX2SD_STATUS_NOT_UTF8; IOX2SD_STATUS_BAD_SERVICE_NAME,
 * with the status of iox2sd_service_name_check as the cause; IOX2SD_STATUS_ILLEGAL_HASH;
 * IOX2SD_STATUS_BUFFER_TOO_SHORT. */
IOX2SD_CHECKED iox2sd_text_answer iox2sd_hash_text(iox2sd_pattern pattern, const uint8_t *name,
                                                   size_t length, uint8_t *out, size_t capacity);
IOX2SD_CHECKED iox2sd_text_answer iox2sd_hash_text_str(iox2sd_pattern pattern, const char *name,
                                                       uint8_t *out, size_t capacity);

/* The same for a name that may be one of the system's own; the cause is the status of
 * iox2sd_internal_service_name_check. */
IOX2SD_CHECKED iox2sd_text_answer iox2sd_internal_hash_text(iox2sd_pattern pattern,
                                                            const uint8_t *name, size_t length,
                                                            uint8_t *out, size_t capacity);
IOX2SD_CHECKED iox2sd_text_answer iox2sd_internal_hash_text_str(iox2sd_pattern pattern,
                                                                const char *name, uint8_t *out,
                                                                size_t capacity);

/* ---- Attributes ---- */

/* A key of 1 to 64 bytes with a value of 1 to 256 bytes, each byte from 1 to 127. */
typedef struct iox2sd_attribute {
    const uint8_t *key;
    size_t key_length;
    const uint8_t *value;
    size_t value_length;
} iox2sd_attribute;

/* A key. */
typedef struct iox2sd_key {
    const uint8_t *text;
    size_t length;
} iox2sd_key;

/* A pair, a key of texts that end in a zero byte, to which they point. NULL makes an empty text,
 * which no key and no value is. */
iox2sd_attribute iox2sd_attribute_str(const char *key, const char *value);
iox2sd_key iox2sd_key_str(const char *text);

/* Whether pairs are a set: at most sixteen, each of legal texts, in any order and with repeats.
 * Errors: IOX2SD_STATUS_NULL; of the first pair that is wrong, with its index:
 * IOX2SD_STATUS_BAD_KEY, with the status of iox2sd_attribute_key_check as the cause;
 * IOX2SD_STATUS_BAD_VALUE, with that of iox2sd_attribute_value_check; IOX2SD_STATUS_TOO_MANY, of
 * the seventeenth. */
IOX2SD_CHECKED iox2sd_place_answer iox2sd_attributes_check(const iox2sd_attribute *pairs,
                                                           size_t length);

/* Sorts the pairs of a set by the bytes of their keys, and then of their values. Only the elements
 * of the array are moved; the texts stay where they are. Errors as above; the array is then as it
 * was. */
IOX2SD_CHECKED iox2sd_place_answer iox2sd_attributes_sort(iox2sd_attribute *pairs, size_t length);

/* How many values a key has in a set. Errors: those of iox2sd_attributes_check, without an index;
 * IOX2SD_STATUS_BAD_ASKED_KEY. */
IOX2SD_CHECKED iox2sd_count_answer iox2sd_attributes_number_of_key_values(
    const iox2sd_attribute *pairs, size_t length, const uint8_t *key, size_t key_length);

/* Writes the value at `index`, counted from 0, of the values that a key has in a set, by their
 * bytes from the least.
 * Errors: those of iox2sd_attributes_check, without an index; IOX2SD_STATUS_BAD_ASKED_KEY;
 * IOX2SD_STATUS_NO_SUCH_VALUE; IOX2SD_STATUS_BUFFER_TOO_SHORT. */
IOX2SD_CHECKED iox2sd_text_answer iox2sd_attributes_key_value(const iox2sd_attribute *pairs,
                                                              size_t length, const uint8_t *key,
                                                              size_t key_length, size_t index,
                                                              uint8_t *out, size_t capacity);

/* Whether a set has each required pair, and for each required key some pair with it.
 * Errors, in this order:
 * - IOX2SD_STATUS_NULL, of any of the three arrays;
 * - the others of iox2sd_attributes_check, of `pairs`;
 * - of the first required pair that is invalid, with its index in `required`:
 *   IOX2SD_STATUS_BAD_REQUIRED_KEY; IOX2SD_STATUS_BAD_REQUIRED_VALUE;
 *   IOX2SD_STATUS_TOO_MANY_REQUIRED, of a valid seventeenth;
 * - of the first required key that is invalid, with its index in `keys`:
 *   IOX2SD_STATUS_BAD_ASKED_KEY; IOX2SD_STATUS_TOO_MANY_REQUIRED, of a valid key that is the
 *   seventeenth of pairs and keys together;
 * - IOX2SD_STATUS_MISSING_PAIR, of the least required pair that the set lacks, with its first index
 *   in `required`;
 * - IOX2SD_STATUS_MISSING_KEY, of the first required key that the set lacks, with its first index
 *   in `keys`. So an invalid required key is not reported after a seventeenth required pair. The
 *   cause of an invalid key or value is the status of its check. */
IOX2SD_CHECKED iox2sd_place_answer iox2sd_attributes_verify(
    const iox2sd_attribute *pairs, size_t length, const iox2sd_attribute *required,
    size_t required_length, const iox2sd_key *keys, size_t keys_length);

/* ---- Messages ---- */

/* How many values of a type a message has. */
enum iox2sd_type_variant_number {
    IOX2SD_VARIANT_FIXED_SIZE = 0, /* One. */
    IOX2SD_VARIANT_DYNAMIC = 1     /* Any number, one after another. */
};
typedef uint32_t iox2sd_type_variant;

/* The type of one part of a message. */
typedef struct iox2sd_type_detail {
    const uint8_t *name; /* UTF-8, at most 256 bytes, each from 1 to 127. */
    size_t name_length;
    iox2sd_type_variant variant;
    size_t size;      /* In bytes. */
    size_t alignment; /* A power of two. */
} iox2sd_type_detail;

/* A type with a name that ends in a zero byte, to which it points. NULL makes an empty name. */
iox2sd_type_detail iox2sd_type_detail_str(const char *name, uint32_t variant, size_t size,
                                          size_t alignment);

/* The parts of a message, which lie one after another. */
typedef struct iox2sd_message_details {
    iox2sd_type_detail header;
    iox2sd_type_detail user_header;
    iox2sd_type_detail payload;
} iox2sd_message_details;

/* The layout of a message. */
typedef struct iox2sd_layout_answer {
    iox2sd_status status;
    size_t size;      /* In bytes, at most 2^63 - 1. */
    size_t alignment; /* The alignment of the message. */
} iox2sd_layout_answer;

/* The offsets of two parts of a message. */
typedef struct iox2sd_places_answer {
    iox2sd_status status;
    size_t user_header;
    size_t payload;
} iox2sd_places_answer;

/* The parts of a message, as results name them. */
enum iox2sd_message_part_number {
    IOX2SD_PART_HEADER = 0,
    IOX2SD_PART_USER_HEADER = 1,
    IOX2SD_PART_PAYLOAD = 2
};
typedef uint32_t iox2sd_message_part;

/* An error with the side and the part of the message that it is about. */
typedef struct iox2sd_part_answer {
    iox2sd_status status;
    uint32_t side; /* 0: of the opener's details, or between both. 1: of the service's. */
    iox2sd_message_part part;
} iox2sd_part_answer;

/* The words for a part of a message, ended by a zero byte: "header", "user header", "payload", and
 * "unknown part" for any other number. */
const char *iox2sd_part_str(iox2sd_message_part part);

/* Whether the type of a part of a message is valid.
 * Errors: IOX2SD_STATUS_NULL; IOX2SD_STATUS_UNKNOWN_VARIANT; IOX2SD_STATUS_NOT_UTF8,
 * IOX2SD_STATUS_TOO_LONG and IOX2SD_STATUS_ILLEGAL_BYTE of its name; IOX2SD_STATUS_BAD_ALIGNMENT.
 */
IOX2SD_CHECKED iox2sd_status iox2sd_type_detail_check(const iox2sd_type_detail *detail);

/* The layout of a message whose payload has so many elements. All parts lie in it, apart and
 * aligned, for the service and for every compatible opener. Call it on the service's details: those
 * of an opener, with smaller alignments, give other offsets and smaller sizes. Names and variants
 * are ignored.
 * Errors: IOX2SD_STATUS_NULL; IOX2SD_STATUS_BAD_ALIGNMENT; IOX2SD_STATUS_TOO_LARGE past 2^63 - 1
 * bytes. */
IOX2SD_CHECKED iox2sd_layout_answer
iox2sd_message_sample_layout(const iox2sd_message_details *details, size_t elements);

/* The offsets of user header and payload in a message whose header is at the offset or address
 * `header`, by the service's details too. Nothing is read there. Names and variants are ignored.
 * Errors: IOX2SD_STATUS_NULL; IOX2SD_STATUS_BAD_ALIGNMENT; IOX2SD_STATUS_TOO_LARGE where the
 * payload's offset would pass 2^64 - 1. */
IOX2SD_CHECKED iox2sd_places_answer iox2sd_message_places(const iox2sd_message_details *details,
                                                          size_t header);

/* Whether the messages of a service with these details may be used by an opener with those. The
 * headers must be equal. User headers and payloads must be equal but for their alignments, which
 * are at most those of the service.
 * Errors, each with its side and its part: IOX2SD_STATUS_NULL, the opener's before the service's;
 * of the first invalid part, the opener's before the service's: IOX2SD_STATUS_UNKNOWN_VARIANT;
 * IOX2SD_STATUS_NOT_UTF8, IOX2SD_STATUS_TOO_LONG, IOX2SD_STATUS_ILLEGAL_BYTE of its name;
 * IOX2SD_STATUS_BAD_ALIGNMENT; and of the first part that differs: IOX2SD_STATUS_OTHER_NAME;
 * IOX2SD_STATUS_OTHER_VARIANT; IOX2SD_STATUS_OTHER_SIZE; IOX2SD_STATUS_OTHER_ALIGNMENT of the
 * header; IOX2SD_STATUS_GREATER_ALIGNMENT of another part. */
IOX2SD_CHECKED iox2sd_part_answer
iox2sd_message_is_compatible_to(const iox2sd_message_details *service,
                                const iox2sd_message_details *opener);

/* How many chunks the data segment of a port needs: the greatest number of one publisher's samples,
 * one client's requests or one server's responses that can be in use at once. The arguments are the
 * fields of the same names, of settings or of a description. The last one is how many the port may
 * have loaned at once to be written (a server, for each request): publisher_max_loaned_samples,
 * max_loaned_requests or server_max_loaned_responses_per_request of the settings, or another
 * number.
 * Error: IOX2SD_STATUS_TOO_LARGE past 2^64 - 1. */
IOX2SD_CHECKED iox2sd_count_answer iox2sd_required_amount_of_samples_per_data_segment(
    size_t max_subscribers, size_t subscriber_max_buffer_size,
    size_t subscriber_max_borrowed_samples, size_t history_size, size_t loaned_samples);
IOX2SD_CHECKED iox2sd_count_answer iox2sd_required_amount_of_chunks_per_client_data_segment(
    size_t max_servers, size_t max_active_requests_per_client, size_t loaned_requests);
IOX2SD_CHECKED iox2sd_count_answer iox2sd_required_amount_of_chunks_per_server_data_segment(
    size_t max_clients, size_t max_active_requests_per_client, size_t max_response_buffer_size,
    size_t max_borrowed_responses_per_pending_response, size_t loaned_responses);

/* ---- Settings ---- */

/* What a sender does where a receiver's buffer is full and may not overflow. */
enum iox2sd_backpressure_strategy_number {
    /* It tries again until the receiver can take the message. */
    IOX2SD_BACKPRESSURE_RETRY_UNTIL_DELIVERED = 0,
    IOX2SD_BACKPRESSURE_DISCARD_DATA = 1 /* It skips this receiver. */
};
typedef uint32_t iox2sd_backpressure_strategy;

/* How a data segment grows for messages whose length is known only at run time. */
enum iox2sd_allocation_strategy_number {
    IOX2SD_ALLOCATION_BEST_FIT = 0,     /* By as much as the message needs. */
    IOX2SD_ALLOCATION_POWER_OF_TWO = 1, /* To the next power of two. */
    IOX2SD_ALLOCATION_STATIC = 2        /* It does not grow. */
};
typedef uint32_t iox2sd_allocation_strategy;

/* A span of time, or none: then all fields are 0. */
typedef struct iox2sd_optional_duration {
    uint64_t seconds;
    uint32_t nanoseconds; /* Beside the seconds, below 1,000,000,000. */
    bool is_some;
} iox2sd_optional_duration;

/* A span of time. */
typedef struct iox2sd_duration {
    uint64_t seconds;
    uint32_t nanoseconds; /* Beside the seconds, below 1,000,000,000. */
} iox2sd_duration;

/* The number of an event, or none: then all fields are 0. */
typedef struct iox2sd_optional_event_id {
    size_t number;
    bool is_some;
} iox2sd_optional_event_id;

/* The settings that all services and nodes of one system share, beside its texts. */
typedef struct iox2sd_global_settings {
    iox2sd_duration creation_timeout; /* How long an opener waits until the creator is ready. */
    /* Whether the remains of dead nodes are removed first when a service is opened; when a node is
     * created; when a node is dropped. */
    bool cleanup_dead_nodes_on_open;
    bool cleanup_dead_nodes_on_creation;
    bool cleanup_dead_nodes_on_destruction;
} iox2sd_global_settings;

/* The settings of a publish-subscribe service. */
typedef struct iox2sd_publish_subscribe_settings {
    size_t max_subscribers; /* How many subscribers may be attached at once. */
    size_t max_publishers;  /* How many publishers may be attached at once. */
    size_t max_nodes;       /* How many nodes may use the service at once. */
    /* The capacity of a subscriber's buffer, in samples. */
    size_t subscriber_max_buffer_size;
    /* How many samples a subscriber may hold at once. */
    size_t subscriber_max_borrowed_samples;
    /* How many samples a publisher may have loaned and not yet sent. */
    size_t publisher_max_loaned_samples;
    /* How many of the last samples a publisher keeps for later subscribers. */
    size_t publisher_history_size;
    /* How many connections of publishers that are gone a subscriber keeps. */
    size_t subscriber_expired_connection_buffer;
    /* What a publisher does where a buffer is full and may not overflow. */
    iox2sd_backpressure_strategy backpressure_strategy;
    /* How a publisher's data segment grows. */
    iox2sd_allocation_strategy publisher_allocation_strategy;
    /* Whether a new sample replaces the oldest one where a buffer is full. */
    bool enable_safe_overflow;
} iox2sd_publish_subscribe_settings;

/* The settings of an event service. */
typedef struct iox2sd_event_settings {
    size_t max_listeners;              /* How many listeners may be attached at once. */
    size_t max_notifiers;              /* How many notifiers may be attached at once. */
    size_t max_nodes;                  /* How many nodes may use the service at once. */
    size_t event_id_max_value;         /* The greatest number of an event. */
    iox2sd_optional_duration deadline; /* The longest time between two events. */
    iox2sd_optional_event_id notifier_created_event; /* That which reports a new notifier. */
    iox2sd_optional_event_id notifier_dropped_event; /* That which reports that one went. */
    iox2sd_optional_event_id notifier_dead_event;    /* That of a notifier whose node died. */
} iox2sd_event_settings;

/* The settings of a request-response service. */
typedef struct iox2sd_request_response_settings {
    /* How many requests of one client may be open at each server at once. */
    size_t max_active_requests_per_client;
    /* The capacity of a client's buffer for the responses to one request. */
    size_t max_response_buffer_size;
    size_t max_servers; /* How many servers may be attached at once. */
    size_t max_clients; /* How many clients may be attached at once. */
    size_t max_nodes;   /* How many nodes may use the service at once. */
    /* How many responses to one request a client may hold at once. */
    size_t max_borrowed_responses_per_pending_response;
    /* How many requests a client may have loaned and not yet sent. */
    size_t max_loaned_requests;
    /* How many responses to one request a server may have loaned and not yet sent. */
    size_t server_max_loaned_responses_per_request;
    /* How many connections of gone servers and gone pending responses a client keeps. */
    size_t client_expired_connection_buffer;
    /* How many connections of gone clients each server keeps. */
    size_t server_expired_connection_buffer;
    /* What a client does where a server's buffer is full and may not overflow; and the reverse. */
    iox2sd_backpressure_strategy client_backpressure_strategy;
    iox2sd_backpressure_strategy server_backpressure_strategy;
    /* How a client's and a server's data segment grows. */
    iox2sd_allocation_strategy client_allocation_strategy;
    iox2sd_allocation_strategy server_allocation_strategy;
    /* Whether a new request, and a new response, replaces the oldest one in a full buffer. */
    bool enable_safe_overflow_for_requests;
    bool enable_safe_overflow_for_responses;
    /* Whether a client may send a request and take no response. */
    bool enable_fire_and_forget_requests;
} iox2sd_request_response_settings;

/* The settings of a blackboard service. */
typedef struct iox2sd_blackboard_settings {
    size_t max_readers; /* How many readers may be attached at once. */
    size_t max_nodes;   /* How many nodes may use the service at once. */
} iox2sd_blackboard_settings;

/* How many chunks the data segment of a publisher, of a client or of a server needs with these
 * settings, by the functions above. Errors: IOX2SD_STATUS_NULL; IOX2SD_STATUS_TOO_LARGE. */
IOX2SD_CHECKED iox2sd_count_answer
iox2sd_samples_of(const iox2sd_publish_subscribe_settings *settings);
IOX2SD_CHECKED iox2sd_count_answer
iox2sd_requests_of(const iox2sd_request_response_settings *settings);
IOX2SD_CHECKED iox2sd_count_answer
iox2sd_responses_of(const iox2sd_request_response_settings *settings);

/* The default settings of a system. */
iox2sd_global_settings iox2sd_global_defaults(void);

/* The default settings of a service of each pattern. */
iox2sd_publish_subscribe_settings iox2sd_publish_subscribe_defaults(void);
iox2sd_event_settings iox2sd_event_defaults(void);
iox2sd_request_response_settings iox2sd_request_response_defaults(void);
iox2sd_blackboard_settings iox2sd_blackboard_defaults(void);

/* The fields of settings and of what is fixed of a service, as results name them. */
enum iox2sd_settings_field_number {
    IOX2SD_FIELD_BACKPRESSURE_STRATEGY = 0, /* Of publish-subscribe, as the next one. */
    IOX2SD_FIELD_PUBLISHER_ALLOCATION_STRATEGY = 1,
    IOX2SD_FIELD_DEADLINE = 2,                     /* Of an event service. */
    IOX2SD_FIELD_CLIENT_BACKPRESSURE_STRATEGY = 3, /* Of request-response, as the next three. */
    IOX2SD_FIELD_SERVER_BACKPRESSURE_STRATEGY = 4,
    IOX2SD_FIELD_CLIENT_ALLOCATION_STRATEGY = 5,
    IOX2SD_FIELD_SERVER_ALLOCATION_STRATEGY = 6,
    IOX2SD_FIELD_CREATION_TIMEOUT = 7, /* Of a system. */
    /* What is fixed of a service, as iox2sd_event_satisfies and its like return it. */
    IOX2SD_FIELD_MAX_SUBSCRIBERS = 8,
    IOX2SD_FIELD_MAX_PUBLISHERS = 9,
    IOX2SD_FIELD_HISTORY_SIZE = 10,
    IOX2SD_FIELD_SUBSCRIBER_MAX_BUFFER_SIZE = 11,
    IOX2SD_FIELD_SUBSCRIBER_MAX_BORROWED_SAMPLES = 12,
    IOX2SD_FIELD_ENABLE_SAFE_OVERFLOW = 13,
    IOX2SD_FIELD_MAX_NOTIFIERS = 14,
    IOX2SD_FIELD_MAX_LISTENERS = 15,
    IOX2SD_FIELD_EVENT_ID_MAX_VALUE = 16,
    IOX2SD_FIELD_NOTIFIER_CREATED_EVENT = 17,
    IOX2SD_FIELD_NOTIFIER_DROPPED_EVENT = 18,
    IOX2SD_FIELD_NOTIFIER_DEAD_EVENT = 19,
    IOX2SD_FIELD_ENABLE_SAFE_OVERFLOW_FOR_REQUESTS = 20,
    IOX2SD_FIELD_ENABLE_SAFE_OVERFLOW_FOR_RESPONSES = 21,
    IOX2SD_FIELD_ENABLE_FIRE_AND_FORGET_REQUESTS = 22,
    IOX2SD_FIELD_MAX_ACTIVE_REQUESTS_PER_CLIENT = 23,
    IOX2SD_FIELD_MAX_LOANED_REQUESTS = 24,
    IOX2SD_FIELD_MAX_RESPONSE_BUFFER_SIZE = 25,
    IOX2SD_FIELD_MAX_SERVERS = 26,
    IOX2SD_FIELD_MAX_CLIENTS = 27,
    IOX2SD_FIELD_MAX_BORROWED_RESPONSES_PER_PENDING_RESPONSE = 28,
    IOX2SD_FIELD_MAX_READERS = 29,
    IOX2SD_FIELD_MAX_WRITERS = 30,
    IOX2SD_FIELD_MAX_NODES = 31
};
typedef uint32_t iox2sd_settings_field;

/* The name of a field, as "max_nodes", ended by a zero byte; "unknown field" for any other number.
 */
const char *iox2sd_field_str(iox2sd_settings_field field);

/* Which field is invalid or is not met, and why. */
typedef struct iox2sd_field_answer {
    iox2sd_status status;
    iox2sd_settings_field field; /* 0 where the status has no field. */
    iox2sd_status cause;         /* Why a service's name is refused; 0 where it is not. */
} iox2sd_field_answer;

/* Whether settings are valid. Where `is_some` of a deadline or an event is false, there is none,
 * whatever the other fields are. The settings of a blackboard service are always valid.
 * Errors: IOX2SD_STATUS_NULL; of the first invalid field, which is returned:
 * IOX2SD_STATUS_UNKNOWN_STRATEGY; IOX2SD_STATUS_BAD_DURATION, of nanoseconds of 1,000,000,000 or
 * more. */
IOX2SD_CHECKED iox2sd_field_answer
iox2sd_global_settings_check(const iox2sd_global_settings *settings);
IOX2SD_CHECKED iox2sd_field_answer
iox2sd_publish_subscribe_settings_check(const iox2sd_publish_subscribe_settings *settings);
IOX2SD_CHECKED iox2sd_field_answer
iox2sd_event_settings_check(const iox2sd_event_settings *settings);
IOX2SD_CHECKED iox2sd_field_answer
iox2sd_request_response_settings_check(const iox2sd_request_response_settings *settings);

/* The capacities with which a service of these settings is made; all 0 for NULL. A blackboard has
 * one writer. */
iox2sd_publish_subscribe_capacities
iox2sd_publish_subscribe_capacities_of_settings(const iox2sd_publish_subscribe_settings *settings);
iox2sd_event_capacities iox2sd_event_capacities_of_settings(const iox2sd_event_settings *settings);
iox2sd_request_response_capacities
iox2sd_request_response_capacities_of_settings(const iox2sd_request_response_settings *settings);
iox2sd_blackboard_capacities
iox2sd_blackboard_capacities_of_settings(const iox2sd_blackboard_settings *settings);

/* The texts of the configuration. */
enum iox2sd_text_number {
    IOX2SD_TEXT_ROOT_PATH = 0,         /* The path below which everything else lies. */
    IOX2SD_TEXT_PREFIX = 1,            /* What the name of each file begins with. */
    IOX2SD_TEXT_SERVICE_DIRECTORY = 2, /* The directory of services, below the root path. */
    /* The ends of the names of services' files. */
    IOX2SD_TEXT_DATA_SEGMENT_SUFFIX = 3,
    IOX2SD_TEXT_STATIC_CONFIG_STORAGE_SUFFIX = 4,
    IOX2SD_TEXT_DYNAMIC_CONFIG_STORAGE_SUFFIX = 5,
    IOX2SD_TEXT_CONNECTION_SUFFIX = 6,
    IOX2SD_TEXT_EVENT_CONNECTION_SUFFIX = 7,
    IOX2SD_TEXT_BLACKBOARD_MGMT_SUFFIX = 8,
    IOX2SD_TEXT_BLACKBOARD_DATA_SUFFIX = 9,
    IOX2SD_TEXT_NODE_DIRECTORY = 10, /* The directory of nodes, below the root path. */
    /* The ends of the names of nodes' files. */
    IOX2SD_TEXT_MONITOR_SUFFIX = 11,
    IOX2SD_TEXT_NODE_STATIC_CONFIG_SUFFIX = 12,
    IOX2SD_TEXT_SERVICE_TAG_SUFFIX = 13,
    IOX2SD_TEXT_PORT_TAG_SUFFIX = 14,
    IOX2SD_TEXT_GLOBAL_MGMT_SUFFIX = 15,
    IOX2SD_TEXT_CONFIG_FILE_NAME = 16,     /* The name of a configuration file. */
    IOX2SD_TEXT_CONFIG_FILE_PATH = 17,     /* The configuration file in a working directory. */
    /* The directory of this system's configuration, below a directory for configurations. */
    IOX2SD_TEXT_RELATIVE_CONFIG_PATH = 18,
    /* The configuration file below a user's directory for configurations. */
    IOX2SD_TEXT_USER_CONFIG_FILE_PATH = 19
};
typedef uint32_t iox2sd_text;

/* Writes a default text of the configuration.
 * Errors: IOX2SD_STATUS_UNKNOWN_TEXT; IOX2SD_STATUS_BUFFER_TOO_SHORT. */
IOX2SD_CHECKED iox2sd_text_answer iox2sd_default_text(iox2sd_text which, uint8_t *out,
                                                      size_t capacity);

/* Writes the directory of services below a root path.
 * Errors: IOX2SD_STATUS_BAD_PATH, with the status of iox2sd_path_check as the cause;
 * IOX2SD_STATUS_TOO_LONG, past 255 bytes; IOX2SD_STATUS_BUFFER_TOO_SHORT. */
IOX2SD_CHECKED iox2sd_text_answer iox2sd_service_dir(const uint8_t *root, size_t length,
                                                     uint8_t *out, size_t capacity);
IOX2SD_CHECKED iox2sd_text_answer iox2sd_service_dir_str(const char *root, uint8_t *out,
                                                         size_t capacity);

/* Writes the directory of nodes below a root path. Errors as above. */
IOX2SD_CHECKED iox2sd_text_answer iox2sd_node_dir(const uint8_t *root, size_t length, uint8_t *out,
                                                  size_t capacity);
IOX2SD_CHECKED iox2sd_text_answer iox2sd_node_dir_str(const char *root, uint8_t *out,
                                                      size_t capacity);

/* ---- Descriptions ---- */

/* What is fixed of a publish-subscribe service, beside the types of its messages. */
typedef struct iox2sd_publish_subscribe_config {
    size_t max_subscribers;            /* How many subscribers may be attached at once. */
    size_t max_publishers;             /* How many publishers may be attached at once. */
    size_t max_nodes;                  /* How many nodes may use the service at once. */
    size_t history_size;               /* How many samples are kept for later subscribers. */
    size_t subscriber_max_buffer_size; /* The capacity of a subscriber's buffer, in samples. */
    size_t subscriber_max_borrowed_samples; /* How many samples a subscriber may hold at once. */
    bool enable_safe_overflow; /* Whether a new sample replaces the oldest in a full buffer. */
} iox2sd_publish_subscribe_config;

/* What is fixed of an event service. */
typedef struct iox2sd_event_config {
    size_t max_notifiers;              /* How many notifiers may be attached at once. */
    size_t max_listeners;              /* How many listeners may be attached at once. */
    size_t max_nodes;                  /* How many nodes may use the service at once. */
    size_t event_id_max_value;         /* The greatest number of an event. */
    iox2sd_optional_duration deadline; /* The longest time between two events. */
    iox2sd_optional_event_id notifier_created_event; /* That which reports a new notifier. */
    iox2sd_optional_event_id notifier_dropped_event; /* That which reports that one went. */
    iox2sd_optional_event_id notifier_dead_event;    /* That of a notifier whose node died. */
} iox2sd_event_config;

/* What is fixed of a request-response service, beside the types of its messages. */
typedef struct iox2sd_request_response_config {
    /* How many requests of one client may be open at each server at once. */
    size_t max_active_requests_per_client;
    size_t max_loaned_requests; /* How many requests a client may have loaned and not yet sent. */
    /* The capacity of a client's buffer for the responses to one request. */
    size_t max_response_buffer_size;
    size_t max_servers; /* How many servers may be attached at once. */
    size_t max_clients; /* How many clients may be attached at once. */
    size_t max_nodes;   /* How many nodes may use the service at once. */
    /* How many responses to one request a client may hold at once. */
    size_t max_borrowed_responses_per_pending_response;
    /* Whether a new request, and a new response, replaces the oldest one in a full buffer. */
    bool enable_safe_overflow_for_requests;
    bool enable_safe_overflow_for_responses;
    bool enable_fire_and_forget_requests; /* Whether a client may take no response. */
} iox2sd_request_response_config;

/* What is fixed of a blackboard service, beside the type of its keys. */
typedef struct iox2sd_blackboard_config {
    size_t max_readers; /* How many readers may be attached at once. */
    size_t max_writers; /* How many writers may be attached at once. */
    size_t max_nodes;   /* How many nodes may use the service at once. */
} iox2sd_blackboard_config;

/* What is fixed of a service, beside its attributes and the types of its messages. It is a plain
 * value: it points nowhere. */
typedef struct iox2sd_description {
    uint8_t name[256]; /* The service's name, then zeros: there is at least one. */
    size_t name_length;
    iox2sd_id id;
    uint8_t hash[64]; /* The hash text, then zeros. It has 27 bytes. */
    size_t hash_length;
    iox2sd_pattern pattern;
    /* That of the pattern; all fields of the others are 0. */
    iox2sd_publish_subscribe_config publish_subscribe;
    iox2sd_event_config event;
    iox2sd_request_response_config request_response;
    iox2sd_blackboard_config blackboard;
} iox2sd_description;

/* Fills a description from a service's settings, its name and its id. Where `internal` is true, the
 * name may be one of the system's own. The hash text is that of iox2sd_internal_hash_text, which
 * for a name that a user may give is that of iox2sd_hash_text.
 * Errors, after which `out` is as it was: IOX2SD_STATUS_NULL, of the settings or of `out`;
 * IOX2SD_STATUS_NOT_UTF8; IOX2SD_STATUS_BAD_SERVICE_NAME, with the status of
 * iox2sd_service_name_check as the cause, or of iox2sd_internal_service_name_check where `internal`
 * is true; IOX2SD_STATUS_UNKNOWN_STRATEGY or IOX2SD_STATUS_BAD_DURATION with the field, as the
 * checks of settings report; IOX2SD_STATUS_ILLEGAL_HASH. */
IOX2SD_CHECKED iox2sd_field_answer iox2sd_describe_publish_subscribe(
    const iox2sd_publish_subscribe_settings *settings, const uint8_t *name, size_t length,
    bool internal, iox2sd_id id, iox2sd_description *out);
IOX2SD_CHECKED iox2sd_field_answer iox2sd_describe_publish_subscribe_str(
    const iox2sd_publish_subscribe_settings *settings, const char *name, bool internal,
    iox2sd_id id, iox2sd_description *out);
IOX2SD_CHECKED iox2sd_field_answer iox2sd_describe_event(const iox2sd_event_settings *settings,
                                                         const uint8_t *name, size_t length,
                                                         bool internal, iox2sd_id id,
                                                         iox2sd_description *out);
IOX2SD_CHECKED iox2sd_field_answer iox2sd_describe_event_str(const iox2sd_event_settings *settings,
                                                             const char *name, bool internal,
                                                             iox2sd_id id, iox2sd_description *out);
IOX2SD_CHECKED iox2sd_field_answer iox2sd_describe_request_response(
    const iox2sd_request_response_settings *settings, const uint8_t *name, size_t length,
    bool internal, iox2sd_id id, iox2sd_description *out);
IOX2SD_CHECKED iox2sd_field_answer iox2sd_describe_request_response_str(
    const iox2sd_request_response_settings *settings, const char *name, bool internal, iox2sd_id id,
    iox2sd_description *out);
IOX2SD_CHECKED iox2sd_field_answer
iox2sd_describe_blackboard(const iox2sd_blackboard_settings *settings, const uint8_t *name,
                           size_t length, bool internal, iox2sd_id id, iox2sd_description *out);
IOX2SD_CHECKED iox2sd_field_answer
iox2sd_describe_blackboard_str(const iox2sd_blackboard_settings *settings, const char *name,
                               bool internal, iox2sd_id id, iox2sd_description *out);

/* The capacities with which the described service is made; all 0 for NULL or an unknown pattern. */
iox2sd_capacities iox2sd_capacities_of_description(const iox2sd_description *description);

/* Creates a service as it is described, with as many tickets as there are numbers.
 * Errors: IOX2SD_STATUS_NULL, of either; IOX2SD_STATUS_HAS_SERVICE; IOX2SD_STATUS_UNKNOWN_PATTERN;
 * IOX2SD_STATUS_NO_MEMORY. */
IOX2SD_CHECKED iox2sd_status
iox2sd_service_create_of_description(iox2sd_service *service, uint64_t number,
                                     const iox2sd_description *description);

/* The same by the names of the pattern's ports, from what is fixed of a service; all 0 for NULL. */
iox2sd_publish_subscribe_capacities
iox2sd_publish_subscribe_capacities_of_config(const iox2sd_publish_subscribe_config *config);
iox2sd_event_capacities iox2sd_event_capacities_of_config(const iox2sd_event_config *config);
iox2sd_request_response_capacities
iox2sd_request_response_capacities_of_config(const iox2sd_request_response_config *config);
iox2sd_blackboard_capacities
iox2sd_blackboard_capacities_of_config(const iox2sd_blackboard_config *config);

/* Whether what is fixed of a service meets what an opener requires: each number is at least the
 * required one, and each choice, each event and the deadline are the same. Types and attributes are
 * not compared: iox2sd_message_is_compatible_to and iox2sd_attributes_verify do that.
 * Errors: IOX2SD_STATUS_NULL; IOX2SD_STATUS_BAD_DURATION with IOX2SD_FIELD_DEADLINE, of nanoseconds
 * of 1,000,000,000 or more, the service's before the opener's; IOX2SD_STATUS_UNMET with the first
 * field that is not met. The fields are compared in the order of the struct; of request-response,
 * flags first. */
IOX2SD_CHECKED iox2sd_field_answer
iox2sd_publish_subscribe_satisfies(const iox2sd_publish_subscribe_config *service,
                                   const iox2sd_publish_subscribe_config *required);
IOX2SD_CHECKED iox2sd_field_answer iox2sd_event_satisfies(const iox2sd_event_config *service,
                                                          const iox2sd_event_config *required);
IOX2SD_CHECKED iox2sd_field_answer iox2sd_request_response_satisfies(
    const iox2sd_request_response_config *service, const iox2sd_request_response_config *required);
IOX2SD_CHECKED iox2sd_field_answer iox2sd_blackboard_satisfies(
    const iox2sd_blackboard_config *service, const iox2sd_blackboard_config *required);

/* Whether two numbers are those of one messaging pattern, as those of two descriptions.
 * Error: IOX2SD_STATUS_UNKNOWN_PATTERN, of either. */
IOX2SD_CHECKED iox2sd_flag_answer iox2sd_has_same_messaging_pattern(iox2sd_pattern left,
                                                                    iox2sd_pattern right);

/* ---- Opening a service ---- */

/* What a service has. Attributes of NULL and 0 are none. The types of messages, of responses and of
 * keys are compared where neither this nor what is required has NULL there. */
typedef struct iox2sd_offer {
    const iox2sd_description *description;
    const iox2sd_attribute *attributes;
    size_t attributes_length;
    const iox2sd_message_details *messages;  /* Of publish-subscribe, or of requests. */
    const iox2sd_message_details *responses; /* Of request-response. */
    const iox2sd_type_detail *key_type;      /* Of a blackboard: the type of its keys. */
} iox2sd_offer;

/* What its opener requires. Of the description, the name, the id and the hash text are not
 * compared. */
typedef struct iox2sd_requirements {
    const iox2sd_description *description;
    const iox2sd_attribute *pairs;
    size_t pairs_length;
    const iox2sd_key *keys;
    size_t keys_length;
    const iox2sd_message_details *messages;
    const iox2sd_message_details *responses;
    const iox2sd_type_detail *key_type;
} iox2sd_requirements;

/* What a reason is about. */
enum iox2sd_open_subject_number {
    IOX2SD_OPEN_PATTERN = 0,
    IOX2SD_OPEN_ATTRIBUTES = 1,
    IOX2SD_OPEN_MESSAGES = 2,
    IOX2SD_OPEN_RESPONSES = 3,
    IOX2SD_OPEN_KEYS = 4, /* The type of a blackboard's keys. */
    IOX2SD_OPEN_SETTINGS = 5
};
typedef uint32_t iox2sd_open_subject;

/* The first reason for which a service does not suit an opener. */
typedef struct iox2sd_open_answer {
    iox2sd_status status;
    iox2sd_status cause;         /* Of attributes. */
    iox2sd_open_subject subject; /* 0 where the status is IOX2SD_STATUS_DONE. */
    uint32_t side;               /* Of messages, responses and keys. */
    iox2sd_message_part part;    /* Of messages and responses. */
    iox2sd_settings_field field; /* Of settings. */
    size_t at;                   /* Of attributes. */
} iox2sd_open_answer;

/* Whether a service has all that an opener requires. Compared are, in this order, the patterns, the
 * attributes as by iox2sd_attributes_verify, the types of messages and then of responses as by
 * iox2sd_message_is_compatible_to, the types of keys as headers are there, each where both have
 * them, and the settings as by iox2sd_event_satisfies and its like.
 * Errors: IOX2SD_STATUS_NULL, of either or of a description; IOX2SD_STATUS_UNKNOWN_PATTERN, of
 * either; IOX2SD_STATUS_OTHER_PATTERN; then those of these calls. */
IOX2SD_CHECKED iox2sd_open_answer iox2sd_open_check(const iox2sd_offer *service,
                                                    const iox2sd_requirements *required);

/* Writes the reason in words, as "max_nodes: a setting is not what the opener requires".
 * Errors: IOX2SD_STATUS_NULL; IOX2SD_STATUS_BUFFER_TOO_SHORT. */
IOX2SD_CHECKED iox2sd_text_answer iox2sd_open_text(iox2sd_open_answer answer, uint8_t *out,
                                                   size_t capacity);

/* ---- Versions ---- */

/* Writes the version of this library, as "0.1.0". */
IOX2SD_CHECKED iox2sd_text_answer iox2sd_version(uint8_t *out, size_t capacity);

/* Writes the version of iceoryx2 whose layer this is, as "0.9.3". */
IOX2SD_CHECKED iox2sd_text_answer iox2sd_layer_version(uint8_t *out, size_t capacity);

#ifdef __cplusplus
}
#endif

#endif
