/* Services, and the nodes and ports attached to them: the proved layer of service_descriptions, for
 * C99 and C++. iox2sd_values.h has names, settings, messages and descriptions.
 *
 * Rules for every call
 *
 * - Values are plain structs, which may be kept, copied and compared. iox2sd_id and iox2sd_handle
 *   have no padding, so memcmp compares them; compare the others by their fields.
 * - A call returns a status (enum iox2sd_status_number), alone or as the first field of a struct.
 *   Each function lists its errors in the order in which they are checked. After an error nothing
 *   has changed, and the other fields are 0, unless a function says otherwise. A handle is then
 *   IOX2SD_HANDLE_NONE, which no call accepts.
 * - An array, a buffer or a text is a pointer and a number of elements. NULL is an empty one where
 *   the number is 0. With another number, NULL is IOX2SD_STATUS_NULL, and so it is where one struct
 *   is expected; this is checked before all else. A function that ends in `_str` takes texts that
 *   end in a zero byte, without a number; there NULL is IOX2SD_STATUS_NULL.
 * - An array that a call writes overlaps no other argument of the call. No call writes past the
 *   number of elements that is passed, keeps a pointer, or calls back.
 * - No call starts a thread, takes a lock, or reads a file, the clock or the environment. There is
 *   no global state: calls may run on several threads at once, where none writes to an argument of
 *   another. A query takes a `const iox2sd_service *`; each other call on a service changes it. On
 *   one service any number of queries may run at once, or one change alone. A service may be moved
 *   to another thread. The caller orders moves and changes with other calls, by a lock or by a
 *   thread's start or join.
 * - Of this header, the calls iox2sd_service_create and iox2sd_service_create_.. alone take memory,
 *   by malloc, and iox2sd_service_free alone frees it. Other headers say which calls take memory. A
 *   call takes at most IOX2SD_STACK_BYTES of its thread's stack.
 *
 * What is proved, and what not
 *
 * - Proved: each export (iox2sd_raw.h has them) returns what the layer's definitions say, touches
 *   nothing outside its arguments, and comes to an end. A query leaves the service as it was: its
 *   own bytes and what it holds. What a service holds may be sent to another thread.
 * - Assumed: a pointer points to as many elements as are passed, no other thread touches them
 *   during the call, and the bytes of a service are zeros or what the last call left there. So the
 *   proof covers one query at a time.
 * - Tested: the functions of this header, a small source in C, check pointers and call the exports;
 *   the declarations are those of the library; NULL with the number 0 is an empty array. A query
 *   writes nothing to a service while it runs, so several may run at once: all queries are made on
 *   services in pages that may only be read, by sixteen threads at once.
 * - Left to the caller: to free a service, to run no other call beside a change, and what is done
 *   with a pointer.
 */
#ifndef IOX2SD_H
#define IOX2SD_H

#include <stdbool.h>
#include <stddef.h>
#include <stdint.h>
#include <string.h>

#include "iox2sd_raw.h"

#if SIZE_MAX != UINT64_MAX
#error "the library is built for a size_t of 64 bits"
#endif

/* The version of this header; iox2sd_version has that of the library. */
#define IOX2SD_VERSION_MAJOR 0
#define IOX2SD_VERSION_MINOR 1
#define IOX2SD_VERSION_PATCH 0
#define IOX2SD_VERSION "0.1.0"

/* How much of the stack a call of this header, of iox2sd_values.h or of iox2sd_script.h takes at
 * most, in bytes. Calls of the other headers take more, as they say. It is measured, not proved. */
#define IOX2SD_STACK_BYTES 8192

/* The compiler warns where what such a call returns is not looked at. */
#if defined(__GNUC__)
#define IOX2SD_CHECKED __attribute__((warn_unused_result))
#else
#define IOX2SD_CHECKED
#endif

#ifdef __cplusplus
extern "C" {
#endif

/* What a call of this header, or of another C header here, returns. iox2sd_status_text has a text
 * for each. */
enum iox2sd_status_number {
    IOX2SD_STATUS_DONE = 0,
    /* Success, and the service is locked for good: no node registers any more. */
    IOX2SD_STATUS_DONE_LOCKED = 1,
    IOX2SD_STATUS_BUFFER_TOO_SHORT = 2, /* The length that is needed is returned. */
    IOX2SD_STATUS_NO_MEMORY = 3,
    IOX2SD_STATUS_NO_SERVICE = 4,  /* The object holds no service. */
    IOX2SD_STATUS_HAS_SERVICE = 5, /* The object holds a service already. */
    IOX2SD_STATUS_UNKNOWN_PATTERN = 6,
    /* The number is that of no role, or that of nodes where a port is expected. */
    IOX2SD_STATUS_UNKNOWN_ROLE = 7,
    IOX2SD_STATUS_NO_NODE = 8, /* The id is that of no node: its process and its counter are 0. */
    IOX2SD_STATUS_IS_LOCKED = 9,
    IOX2SD_STATUS_OUT_OF_SPACE = 10,   /* No slot or no ticket is left. */
    IOX2SD_STATUS_FOREIGN_HANDLE = 11, /* No entry has the handle. */
    /* The handle is its node's only one, and some port belongs to the node. */
    IOX2SD_STATUS_PORTS_STILL_ATTACHED = 12,
    IOX2SD_STATUS_NODE_NOT_REGISTERED = 13, /* The port's node is not registered. */
    IOX2SD_STATUS_ROLE_NOT_IN_PATTERN = 14,
    IOX2SD_STATUS_UNKNOWN_SEGMENT = 15,
    /* A key of a pair is invalid: iox2sd_attribute_key_check says why. */
    IOX2SD_STATUS_BAD_KEY = 16,
    /* A value of a pair is invalid: iox2sd_attribute_value_check says why. */
    IOX2SD_STATUS_BAD_VALUE = 17,
    IOX2SD_STATUS_TOO_MANY = 18, /* There are more than sixteen pairs. */
    IOX2SD_STATUS_NULL = 20,     /* NULL where something is expected. */
    IOX2SD_STATUS_UNKNOWN_STATUS = 21,
    IOX2SD_STATUS_EMPTY = 40,
    IOX2SD_STATUS_TOO_LONG = 41,
    IOX2SD_STATUS_ILLEGAL_BYTE = 42,
    /* The name, or what follows the last `/`, is ".", ".." or empty. */
    IOX2SD_STATUS_NO_FILE_NAME = 43,
    IOX2SD_STATUS_RESERVED_PREFIX = 44,
    IOX2SD_STATUS_NOT_UTF8 = 45,
    IOX2SD_STATUS_BAD_SERVICE_NAME = 46,
    IOX2SD_STATUS_BAD_PATH = 47,
    IOX2SD_STATUS_BAD_ENTRY = 48,
    /* SHA-1, which all calls use, is proved to make no such text. */
    IOX2SD_STATUS_ILLEGAL_HASH = 49,
    IOX2SD_STATUS_BAD_REQUIRED_KEY = 50,   /* The key of a required pair is invalid. */
    IOX2SD_STATUS_BAD_REQUIRED_VALUE = 51, /* The value of a required pair is invalid. */
    /* A key is invalid that is required, with any value, or whose values are searched for. */
    IOX2SD_STATUS_BAD_ASKED_KEY = 52,
    IOX2SD_STATUS_TOO_MANY_REQUIRED = 53, /* More than sixteen pairs and keys are required. */
    IOX2SD_STATUS_MISSING_PAIR = 54,      /* A required pair is not in the set. */
    IOX2SD_STATUS_MISSING_KEY = 55,       /* No pair of the set has a required key. */
    IOX2SD_STATUS_NO_SUCH_VALUE = 56,     /* The key has fewer values. */
    IOX2SD_STATUS_BAD_ALIGNMENT = 57, /* An alignment is no power of two. */
    IOX2SD_STATUS_TOO_LARGE = 58,     /* The result would pass its range. */
    IOX2SD_STATUS_UNKNOWN_VARIANT = 59,
    IOX2SD_STATUS_OTHER_NAME = 60,
    IOX2SD_STATUS_OTHER_VARIANT = 61,
    IOX2SD_STATUS_OTHER_SIZE = 62,
    IOX2SD_STATUS_OTHER_ALIGNMENT = 63,
    IOX2SD_STATUS_GREATER_ALIGNMENT = 64,
    IOX2SD_STATUS_UNKNOWN_TEXT = 65,
    IOX2SD_STATUS_BAD_LINE = 66, /* A line of a script is not valid. */
    IOX2SD_STATUS_UNKNOWN_STRATEGY = 67,
    /* The nanoseconds beside the seconds are 1,000,000,000 or more. */
    IOX2SD_STATUS_BAD_DURATION = 68,
    IOX2SD_STATUS_UNMET = 69, /* A setting of a service is not what an opener requires. */
    /* A service has another messaging pattern than an opener requires. */
    IOX2SD_STATUS_OTHER_PATTERN = 70,
    IOX2SD_STATUS_NOT_TOML = 80,
    IOX2SD_STATUS_WRONG_TYPE = 81, /* The value of a key is of another type than the wanted one. */
    IOX2SD_STATUS_BELOW_ZERO = 82, /* The value of a key is below 0. */
    /* The value of a key is no table of the integers secs and nanos. */
    IOX2SD_STATUS_NO_DURATION = 83,
    IOX2SD_STATUS_NO_TOML_INTEGER = 84, /* A number is above 2^63 - 1. */
    IOX2SD_STATUS_NO_FILE = 85,         /* A file cannot be read: C++ alone returns it. */
    /* Tables and arrays of a file are more than 32 deep in one another. */
    IOX2SD_STATUS_TOO_DEEP = 86,
    /* No order of the calls of a log explains a reply. */
    IOX2SD_STATUS_NO_ORDER = 90,
    /* A line of a log is not what is expected, or the log ends before it. */
    IOX2SD_STATUS_NO_SERVICE_LINE = 91,
    IOX2SD_STATUS_NO_CALL_LINE = 92, /* Of a new service, or on a service above. */
    IOX2SD_STATUS_NO_REPLY_LINE = 93,
    /* A log is not decided: orders of its calls lead to more than 4,096 configurations, or more
     * than 64 calls of a service are open. */
    IOX2SD_STATUS_TOO_MANY_CONFIGURATIONS = 94,
    IOX2SD_STATUS_TOO_MANY_OPEN_CALLS = 95,
    IOX2SD_STATUS_CALLER_IS_BUSY = 96, /* A caller begins a call, and has one open. */
    IOX2SD_STATUS_NO_OPEN_CALL = 97,   /* A caller ends a call, and has none open. */
    IOX2SD_STATUS_CALLER_IS_DEAD = 98, /* A caller goes on after it died. */
    IOX2SD_STATUS_UNKNOWN_CALLER = 99, /* A caller died that has begun no call. */
    IOX2SD_STATUS_NO_NEWLINE = 100,    /* The last line has no newline. */
    /* A line that is not what is expected ends in a carriage return. */
    IOX2SD_STATUS_CARRIAGE_RETURN = 101,
    /* A line gives a state with which the service cannot begin, or a call on it is open. */
    IOX2SD_STATUS_NO_STATE_LINE = 102
};
typedef uint32_t iox2sd_status;

/* Whether a call succeeded: with IOX2SD_STATUS_DONE or IOX2SD_STATUS_DONE_LOCKED. */
#define IOX2SD_SUCCEEDED(status) ((uint32_t)(status) <= 1)

/* Messaging patterns. */
enum iox2sd_pattern_number {
    IOX2SD_PATTERN_PUBLISH_SUBSCRIBE = 0,
    IOX2SD_PATTERN_EVENT = 1,
    IOX2SD_PATTERN_REQUEST_RESPONSE = 2,
    IOX2SD_PATTERN_BLACKBOARD = 3
};
typedef uint64_t iox2sd_pattern;

/* What an entry of a service is. Each pattern has two kinds of ports: publishers and subscribers,
 * listeners and notifiers, servers and clients, readers and writers. The ports of a dead node are
 * removed in this order. */
enum iox2sd_role_number {
    IOX2SD_ROLE_NODE = 0,
    IOX2SD_ROLE_PUBLISHER = 1,
    IOX2SD_ROLE_SUBSCRIBER = 2,
    IOX2SD_ROLE_NOTIFIER = 3,
    IOX2SD_ROLE_LISTENER = 4,
    IOX2SD_ROLE_CLIENT = 5,
    IOX2SD_ROLE_SERVER = 6,
    IOX2SD_ROLE_READER = 7,
    IOX2SD_ROLE_WRITER = 8
};
typedef uint64_t iox2sd_role;

/* The role of no entry and of no port. Each call with it, or with a handle that has it, is refused
 * with IOX2SD_STATUS_UNKNOWN_ROLE. */
#define IOX2SD_ROLE_NONE UINT64_MAX

/* Whether a data segment may grow. */
enum iox2sd_segment_number {
    IOX2SD_SEGMENT_DYNAMIC = 0, /* It may be replaced by a larger one. */
    IOX2SD_SEGMENT_STATIC = 1   /* It keeps its size. */
};
typedef uint32_t iox2sd_segment;

/* The id of a node, of a port or of a service. */
typedef struct iox2sd_id {
    uint32_t process;
    uint32_t seconds;
    uint32_t nanoseconds;
    uint32_t counter;
} iox2sd_id;

/* Registering and attaching return a handle; deregistering and releasing take it. */
typedef struct iox2sd_handle {
    uint64_t service; /* The number of the service. */
    iox2sd_role role; /* IOX2SD_ROLE_NONE in a handle of no entry. */
    size_t slot;
    uint64_t ticket; /* How many entries of its kind were made before it. */
} iox2sd_handle;

/* The id of a port, and what the port is. It has no padding, so memcmp compares it. */
typedef struct iox2sd_port_id {
    iox2sd_role role; /* Not IOX2SD_ROLE_NODE. */
    iox2sd_id port;
} iox2sd_port_id;

/* A handle of no entry. A handle whose bytes are all 0 is that of the first node of a service with
 * the number 0. */
#define IOX2SD_HANDLE_NONE {0, IOX2SD_ROLE_NONE, 0, 0}
iox2sd_handle iox2sd_handle_none(void);

/* Whether a handle is that of no entry: its role is IOX2SD_ROLE_NONE. */
bool iox2sd_handle_is_none(iox2sd_handle handle);

/* The details of a port. A field that its kind does not have is ignored, and is 0 in an answer. */
typedef struct iox2sd_port_details {
    iox2sd_role role; /* Not IOX2SD_ROLE_NODE. */
    iox2sd_id port;
    iox2sd_id node;
    size_t number_of_samples;       /* Of publishers. */
    size_t buffer_size;             /* Of subscribers. */
    size_t request_buffer_size;     /* Of servers. */
    size_t number_of_responses;     /* Of servers. */
    size_t number_of_requests;      /* Of clients. */
    size_t response_buffer_size;    /* Of clients. */
    size_t max_slice_len;           /* Of publishers, servers and clients. */
    iox2sd_segment data_segment;    /* Of publishers, servers and clients. */
    uint8_t max_number_of_segments; /* Of publishers, servers and clients. */
} iox2sd_port_details;

/* How many nodes and ports a service can have at a time. */
typedef struct iox2sd_capacities {
    size_t nodes;
    size_t first;  /* For publishers, listeners, servers or readers. */
    size_t second; /* For subscribers, notifiers, clients or writers. */
} iox2sd_capacities;

/* The same by the names of each pattern's ports. */
typedef struct iox2sd_publish_subscribe_capacities {
    size_t nodes;
    size_t publishers;
    size_t subscribers;
} iox2sd_publish_subscribe_capacities;
typedef struct iox2sd_event_capacities {
    size_t nodes;
    size_t listeners;
    size_t notifiers;
} iox2sd_event_capacities;
typedef struct iox2sd_request_response_capacities {
    size_t nodes;
    size_t servers;
    size_t clients;
} iox2sd_request_response_capacities;
typedef struct iox2sd_blackboard_capacities {
    size_t nodes;
    size_t readers;
    size_t writers;
} iox2sd_blackboard_capacities;

/* The capacities with which a service of the pattern is made. */
iox2sd_capacities
iox2sd_capacities_of_publish_subscribe(iox2sd_publish_subscribe_capacities capacities);
iox2sd_capacities iox2sd_capacities_of_event(iox2sd_event_capacities capacities);
iox2sd_capacities
iox2sd_capacities_of_request_response(iox2sd_request_response_capacities capacities);
iox2sd_capacities iox2sd_capacities_of_blackboard(iox2sd_blackboard_capacities capacities);

/* A service object. An all-zero one (IOX2SD_SERVICE_NONE, a memset) holds no service. The caller
 * owns these bytes, zeroes them before the first call, and does not read or change them otherwise.
 * An object that holds a service may be moved; do not use two copies of it. Only
 * iox2sd_service_free frees what it holds. */
typedef struct iox2sd_service {
    bool full;
    void *at;
} iox2sd_service;

#define IOX2SD_SERVICE_NONE {false, NULL}

/* A handle; IOX2SD_HANDLE_NONE where the status is not IOX2SD_STATUS_DONE. */
typedef struct iox2sd_handle_answer {
    iox2sd_status status;
    iox2sd_handle handle;
} iox2sd_handle_answer;

/* A number of things. */
typedef struct iox2sd_count_answer {
    iox2sd_status status;
    iox2sd_status cause; /* Why a key or a value is refused; 0 where none is. */
    size_t count; /* Also with IOX2SD_STATUS_BUFFER_TOO_SHORT: so many are needed. */
} iox2sd_count_answer;

/* A text for a buffer. */
typedef struct iox2sd_text_answer {
    iox2sd_status status;
    iox2sd_status
        cause;     /* Why another text, which the status names, is refused; 0 where none is. */
    size_t length; /* The text's bytes, also with IOX2SD_STATUS_BUFFER_TOO_SHORT. */
} iox2sd_text_answer;

/* A number of a service; 0 where the status is not IOX2SD_STATUS_DONE. */
typedef struct iox2sd_number_answer {
    iox2sd_status status;
    uint64_t number;
} iox2sd_number_answer;

/* The roles of the two kinds of ports of a pattern; 0 where the status is not IOX2SD_STATUS_DONE.
 */
typedef struct iox2sd_roles_answer {
    iox2sd_status status;
    iox2sd_role first;
    iox2sd_role second;
} iox2sd_roles_answer;

/* Yes or no; no where the status is not IOX2SD_STATUS_DONE. */
typedef struct iox2sd_flag_answer {
    iox2sd_status status;
    bool yes;
} iox2sd_flag_answer;

/* An id; all 0 where the status is not IOX2SD_STATUS_DONE. */
typedef struct iox2sd_id_answer {
    iox2sd_status status;
    iox2sd_id id;
} iox2sd_id_answer;

/* A port; all 0 where the status is not IOX2SD_STATUS_DONE. */
typedef struct iox2sd_port_answer {
    iox2sd_status status;
    iox2sd_port_details port;
} iox2sd_port_answer;

/* How many ports of a dead node were removed, also with IOX2SD_STATUS_DONE_LOCKED. */
typedef struct iox2sd_dead_node_removal {
    iox2sd_status status;
    size_t first;  /* Publishers, listeners, servers or readers. */
    size_t second; /* Subscribers, notifiers, clients or writers. */
} iox2sd_dead_node_removal;

/* A number that rises when a struct or a function changes. */
#define IOX2SD_ABI 2
uint32_t iox2sd_abi(void);

/* Writes the text of a status to the front of `out`, without a zero byte, where all of it fits.
 * Errors: IOX2SD_STATUS_NULL; IOX2SD_STATUS_UNKNOWN_STATUS; IOX2SD_STATUS_BUFFER_TOO_SHORT with the
 * length that it needs. */
IOX2SD_CHECKED iox2sd_text_answer iox2sd_status_text(uint32_t status, uint8_t *out,
                                                     size_t capacity);

/* The text of a status, that of iox2sd_status_text, ended by a zero byte; "unknown status" for any
 * other number. */
const char *iox2sd_status_str(iox2sd_status status);

/* The word for a role, ended by a zero byte; "unknown role" for any other number. */
const char *iox2sd_role_str(iox2sd_role role);

/* The word for a pattern, ended by a zero byte; "unknown messaging pattern" for any other number.
 */
const char *iox2sd_pattern_str(iox2sd_pattern pattern);

/* Whether an id is that of a node: its process or its counter is not 0. */
bool iox2sd_id_is_node(iox2sd_id id);

/* process * 2^32 + counter. It is 0 only for the id of no node. Nodes of one process with the same
 * counter share it. */
uint64_t iox2sd_id_owner_id(iox2sd_id id);

/* Whether the number process * 2^96 + seconds * 2^64 + nanoseconds * 2^32 + counter of the first is
 * below that of the other. */
bool iox2sd_id_is_before(iox2sd_id id, iox2sd_id other);

/* Writes that number in lower-case hexadecimal digits without leading zeros, at most 32 bytes,
 * without a zero byte.
 * Errors: IOX2SD_STATUS_NULL; IOX2SD_STATUS_BUFFER_TOO_SHORT with the length that it needs. */
IOX2SD_CHECKED iox2sd_text_answer iox2sd_id_text(iox2sd_id id, uint8_t *out, size_t capacity);

/* The id of which iox2sd_id_text writes this text. It may be that of no node.
 * Errors: IOX2SD_STATUS_NULL; IOX2SD_STATUS_EMPTY; IOX2SD_STATUS_TOO_LONG, for more than 32 bytes;
 * IOX2SD_STATUS_ILLEGAL_BYTE, where it is the text of no id: a byte is not one of the digits 0 to 9
 * and a to f, or 0 stands before other digits. */
IOX2SD_CHECKED iox2sd_id_answer iox2sd_id_from_text(const uint8_t *text, size_t length);
IOX2SD_CHECKED iox2sd_id_answer iox2sd_id_from_text_str(const char *text);

/* Numbers for services, for a caller who has none: those above the last one that was returned. They
 * begin all-zero. Two objects return the same numbers, and so does a copy. */
typedef struct iox2sd_service_numbers {
    uint64_t last; /* 0 before the first. */
} iox2sd_service_numbers;

#define IOX2SD_SERVICE_NUMBERS_NONE {0}

/* The next number: 1, 2, 3, .., each once. A service numbered so has no handle that is all-zero.
 * Errors: IOX2SD_STATUS_NULL; IOX2SD_STATUS_OUT_OF_SPACE after UINT64_MAX. */
IOX2SD_CHECKED iox2sd_number_answer iox2sd_next_service_number(iox2sd_service_numbers *numbers);

/* Creates a service with nothing attached. `number` is part of its handles. It has `tickets`
 * tickets for nodes, and as many for each kind of ports: each registering and each attaching uses
 * one, and tickets are never reused. UINT64_MAX is no limit.
 * Errors: IOX2SD_STATUS_NULL; IOX2SD_STATUS_HAS_SERVICE, and the object keeps what it holds;
 * IOX2SD_STATUS_UNKNOWN_PATTERN; IOX2SD_STATUS_NO_MEMORY. */
IOX2SD_CHECKED iox2sd_status iox2sd_service_create(iox2sd_service *service, iox2sd_pattern pattern,
                                              uint64_t number, iox2sd_capacities capacities,
                                              uint64_t tickets);

/* Creates a service of each pattern in the same way, by the names of its ports, with as many
 * tickets as there are numbers. Errors: IOX2SD_STATUS_NULL; IOX2SD_STATUS_HAS_SERVICE;
 * IOX2SD_STATUS_NO_MEMORY. */
IOX2SD_CHECKED iox2sd_status
iox2sd_service_create_publish_subscribe(iox2sd_service *service, uint64_t number,
                                        iox2sd_publish_subscribe_capacities capacities);
IOX2SD_CHECKED iox2sd_status iox2sd_service_create_event(iox2sd_service *service, uint64_t number,
                                                         iox2sd_event_capacities capacities);
IOX2SD_CHECKED iox2sd_status
iox2sd_service_create_request_response(iox2sd_service *service, uint64_t number,
                                       iox2sd_request_response_capacities capacities);
IOX2SD_CHECKED iox2sd_status
iox2sd_service_create_blackboard(iox2sd_service *service, uint64_t number,
                                 iox2sd_blackboard_capacities capacities);

/* Frees a service. The object is IOX2SD_SERVICE_NONE afterwards, and may be used for another
 * service; a second call reports IOX2SD_STATUS_NO_SERVICE.
 * Errors: IOX2SD_STATUS_NULL; IOX2SD_STATUS_NO_SERVICE. */
iox2sd_status iox2sd_service_free(iox2sd_service *service);

/* Registers a node, which may have several handles.
 * Errors: IOX2SD_STATUS_NULL; IOX2SD_STATUS_NO_SERVICE; IOX2SD_STATUS_NO_NODE;
 * IOX2SD_STATUS_IS_LOCKED; IOX2SD_STATUS_OUT_OF_SPACE. */
IOX2SD_CHECKED iox2sd_handle_answer iox2sd_register_node_id(iox2sd_service *service,
                                                            iox2sd_id node);

/* Deregisters the node with this handle. IOX2SD_STATUS_DONE_LOCKED where it was the last one: the
 * service is locked for good.
 * Errors: IOX2SD_STATUS_NULL; IOX2SD_STATUS_NO_SERVICE; IOX2SD_STATUS_UNKNOWN_ROLE;
 * IOX2SD_STATUS_FOREIGN_HANDLE, also for a port's handle; IOX2SD_STATUS_PORTS_STILL_ATTACHED where
 * it is the only handle of its node and some port has that node. */
IOX2SD_CHECKED iox2sd_status iox2sd_deregister_node_id(iox2sd_service *service,
                                                       iox2sd_handle handle);

/* Attaches a port.
 * Errors: IOX2SD_STATUS_NULL; IOX2SD_STATUS_NO_SERVICE; IOX2SD_STATUS_NO_NODE for the port's node;
 * IOX2SD_STATUS_UNKNOWN_ROLE, also for IOX2SD_ROLE_NODE; IOX2SD_STATUS_UNKNOWN_SEGMENT;
 * IOX2SD_STATUS_ROLE_NOT_IN_PATTERN; IOX2SD_STATUS_IS_LOCKED; IOX2SD_STATUS_NODE_NOT_REGISTERED, by
 * the whole id; IOX2SD_STATUS_OUT_OF_SPACE. */
IOX2SD_CHECKED iox2sd_handle_answer iox2sd_attach(iox2sd_service *service,
                                                  const iox2sd_port_details *port);

/* Releases the port with this handle.
 * Errors: IOX2SD_STATUS_NULL; IOX2SD_STATUS_NO_SERVICE; IOX2SD_STATUS_UNKNOWN_ROLE;
 * IOX2SD_STATUS_FOREIGN_HANDLE, also for a node's handle. */
IOX2SD_CHECKED iox2sd_status iox2sd_release_port(iox2sd_service *service, iox2sd_handle handle);

/* Removes those ports of a dead node that are not among `kept`, by their kinds and their ids, and
 * returns how many it removed. Where none of its ports is left, the node is removed too, with all
 * its handles. IOX2SD_STATUS_DONE_LOCKED where the service is locked: it has no node any more.
 * `kept` may be in any order, and may have ports that the node has not. Where it is sorted as by
 * iox2sd_id_is_before, and by roles where ids are the same, each port of the node is searched for
 * by halves, and otherwise one by one.
 * Errors: IOX2SD_STATUS_NULL; IOX2SD_STATUS_NO_SERVICE; IOX2SD_STATUS_NO_NODE;
 * IOX2SD_STATUS_UNKNOWN_ROLE, of any of `kept`, also for IOX2SD_ROLE_NODE. */
IOX2SD_CHECKED iox2sd_dead_node_removal iox2sd_remove_dead_node_id(iox2sd_service *service,
                                                                   iox2sd_id dead,
                                                                   const iox2sd_port_id *kept,
                                                                   size_t kept_count);

/* Writes the ports of a role to the front of `out`, by rising slot. The other elements stay as they
 * were.
 * Errors: IOX2SD_STATUS_NULL; IOX2SD_STATUS_NO_SERVICE; IOX2SD_STATUS_UNKNOWN_ROLE;
 * IOX2SD_STATUS_ROLE_NOT_IN_PATTERN, also for IOX2SD_ROLE_NODE; IOX2SD_STATUS_BUFFER_TOO_SHORT with
 * the number of ports that there are. Then `out` is as it was. */
IOX2SD_CHECKED iox2sd_count_answer iox2sd_ports(const iox2sd_service *service, iox2sd_role role,
                                                iox2sd_port_details *out, size_t capacity);

/* Writes the ports of a node, by its whole id, to the front of `out`: those of the pattern's first
 * kind before those of its second, each kind by rising slot. The other elements of `out` stay as
 * they were. These are the ports that iox2sd_remove_dead_node_id removes or keeps.
 * Errors: IOX2SD_STATUS_NULL; IOX2SD_STATUS_NO_SERVICE; IOX2SD_STATUS_NO_NODE;
 * IOX2SD_STATUS_BUFFER_TOO_SHORT with the number of ports that there are, or
 * IOX2SD_STATUS_TOO_LARGE where that number passes SIZE_MAX. Then `out` is as it was. */
IOX2SD_CHECKED iox2sd_count_answer iox2sd_ports_of(const iox2sd_service *service, iox2sd_id node,
                                                   iox2sd_port_details *out, size_t capacity);

/* The messaging pattern. Errors: IOX2SD_STATUS_NULL; IOX2SD_STATUS_NO_SERVICE. */
IOX2SD_CHECKED iox2sd_number_answer iox2sd_messaging_pattern(const iox2sd_service *service);

/* The service's number, which each of its handles has. Errors: IOX2SD_STATUS_NULL;
 * IOX2SD_STATUS_NO_SERVICE. */
IOX2SD_CHECKED iox2sd_number_answer iox2sd_service_number(const iox2sd_service *service);

/* The roles of the pattern's two kinds of ports, in the order in which a dead node's ports are
 * removed. Errors: IOX2SD_STATUS_NULL; IOX2SD_STATUS_NO_SERVICE. */
IOX2SD_CHECKED iox2sd_roles_answer iox2sd_port_roles(const iox2sd_service *service);

/* Whether the pattern has ports of the role; no for IOX2SD_ROLE_NODE.
 * Errors: IOX2SD_STATUS_NULL; IOX2SD_STATUS_NO_SERVICE; IOX2SD_STATUS_UNKNOWN_ROLE. */
IOX2SD_CHECKED iox2sd_flag_answer iox2sd_has_role(const iox2sd_service *service, iox2sd_role role);

/* Whether the service is locked for good: it has no node and no port, and none can join it.
 * Errors: IOX2SD_STATUS_NULL; IOX2SD_STATUS_NO_SERVICE. */
IOX2SD_CHECKED iox2sd_flag_answer iox2sd_is_locked(const iox2sd_service *service);

/* How many handles of nodes there are: a node that is registered twice counts twice. Errors:
 * IOX2SD_STATUS_NULL; IOX2SD_STATUS_NO_SERVICE. */
IOX2SD_CHECKED iox2sd_count_answer iox2sd_number_of_nodes(const iox2sd_service *service);

/* How many handles of nodes there may be at a time. Errors: IOX2SD_STATUS_NULL;
 * IOX2SD_STATUS_NO_SERVICE. */
IOX2SD_CHECKED iox2sd_count_answer iox2sd_max_nodes(const iox2sd_service *service);

/* Whether iox2sd_register_node_id would register a node: the service is not locked, and a slot and
 * a ticket are left.
 * Errors: IOX2SD_STATUS_NULL; IOX2SD_STATUS_NO_SERVICE. */
IOX2SD_CHECKED iox2sd_flag_answer iox2sd_has_room_for_node(const iox2sd_service *service);

/* How many ports of the role there are.
 * Errors: IOX2SD_STATUS_NULL; IOX2SD_STATUS_NO_SERVICE; IOX2SD_STATUS_UNKNOWN_ROLE;
 * IOX2SD_STATUS_ROLE_NOT_IN_PATTERN, also for IOX2SD_ROLE_NODE. */
IOX2SD_CHECKED iox2sd_count_answer iox2sd_count_ports(const iox2sd_service *service,
                                                      iox2sd_role role);

/* How many ports of the role there may be at a time.
 * Errors: IOX2SD_STATUS_NULL; IOX2SD_STATUS_NO_SERVICE; IOX2SD_STATUS_UNKNOWN_ROLE;
 * IOX2SD_STATUS_ROLE_NOT_IN_PATTERN, also for IOX2SD_ROLE_NODE. */
IOX2SD_CHECKED iox2sd_count_answer iox2sd_max_ports(const iox2sd_service *service,
                                                    iox2sd_role role);

/* Whether iox2sd_attach would attach a port of the role, if its node is registered.
 * Errors: IOX2SD_STATUS_NULL; IOX2SD_STATUS_NO_SERVICE; IOX2SD_STATUS_UNKNOWN_ROLE;
 * IOX2SD_STATUS_ROLE_NOT_IN_PATTERN, also for IOX2SD_ROLE_NODE. */
IOX2SD_CHECKED iox2sd_flag_answer iox2sd_has_room(const iox2sd_service *service, iox2sd_role role);

/* The node that was registered with this handle and is still there.
 * Errors: IOX2SD_STATUS_NULL; IOX2SD_STATUS_NO_SERVICE; IOX2SD_STATUS_UNKNOWN_ROLE;
 * IOX2SD_STATUS_FOREIGN_HANDLE, also for a port's handle. */
IOX2SD_CHECKED iox2sd_id_answer iox2sd_node(const iox2sd_service *service, iox2sd_handle handle);

/* The port that was attached with this handle and is still there.
 * Errors: IOX2SD_STATUS_NULL; IOX2SD_STATUS_NO_SERVICE; IOX2SD_STATUS_UNKNOWN_ROLE;
 * IOX2SD_STATUS_FOREIGN_HANDLE, also for a node's handle. */
IOX2SD_CHECKED iox2sd_port_answer iox2sd_port(const iox2sd_service *service, iox2sd_handle handle);

/* Writes the ids of the nodes to the front of `out`, by rising slot, one for each handle. The other
 * elements of `out` stay as they were.
 * Errors: IOX2SD_STATUS_NULL; IOX2SD_STATUS_NO_SERVICE; IOX2SD_STATUS_BUFFER_TOO_SHORT with the
 * number of handles that there are. Then `out` is as it was. */
IOX2SD_CHECKED iox2sd_count_answer iox2sd_nodes(const iox2sd_service *service, iox2sd_id *out,
                                                size_t capacity);

#ifdef __cplusplus
}
#endif

#endif
