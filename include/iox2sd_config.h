/* The file of the middleware's settings, iceoryx2.toml, for C99 and C++: its text in, plain values
 * out, and back. The rules of iox2sd.h for every call, and what it says of what is proved, hold
 * here too. docs/CONFIG.md shows a file.
 *
 * A call takes memory by malloc and realloc, and frees all of it before it returns. Where a request
 * is refused, the status is IOX2SD_STATUS_NO_MEMORY, or the answer is the whole one: then a smaller
 * request was enough. A call takes at most IOX2SD_CONFIG_STACK_BYTES of the stack.
 */
#ifndef IOX2SD_CONFIG_H
#define IOX2SD_CONFIG_H

#include "iox2sd_values.h"

/* How much of the stack a call takes at most, in bytes: a configuration has some 5,000, and arrays
 * in one another take more. It is measured, not proved. */
#define IOX2SD_CONFIG_STACK_BYTES 131072

#ifdef __cplusplus
extern "C" {
#endif

/* A path, or the name of a file. */
typedef struct iox2sd_config_text {
    uint8_t bytes[256]; /* The text, then zeros: there is at least one. */
    size_t length;
} iox2sd_config_text;

/* The texts of the settings; iox2sd_default_text has the default of each. */
typedef struct iox2sd_config_texts {
    iox2sd_config_text root_path; /* The path below which everything else lies. */
    iox2sd_config_text prefix;    /* What the name of each file begins with. */
    iox2sd_config_text service_directory; /* Below the root path. */
    /* The ends of the names of services' files: */
    iox2sd_config_text data_segment_suffix;
    iox2sd_config_text static_config_storage_suffix;
    iox2sd_config_text dynamic_config_storage_suffix;
    iox2sd_config_text connection_suffix;
    iox2sd_config_text event_connection_suffix;
    iox2sd_config_text blackboard_mgmt_suffix;
    iox2sd_config_text blackboard_data_suffix;
    iox2sd_config_text node_directory; /* Below the root path. */
    /* The ends of the names of nodes' files: */
    iox2sd_config_text monitor_suffix;
    iox2sd_config_text node_static_config_suffix;
    iox2sd_config_text service_tag_suffix;
    iox2sd_config_text port_tag_suffix;
    iox2sd_config_text global_mgmt_suffix;
} iox2sd_config_texts;

/* All settings. It is a plain value: it points nowhere. */
typedef struct iox2sd_config {
    iox2sd_global_settings global;
    iox2sd_config_texts texts;
    iox2sd_publish_subscribe_settings publish_subscribe;
    iox2sd_event_settings event;
    iox2sd_request_response_settings request_response;
    iox2sd_blackboard_settings blackboard;
} iox2sd_config;

/* The tables of the file. */
enum iox2sd_config_table_number {
    IOX2SD_TABLE_ROOT = 0, /* The whole file. */
    IOX2SD_TABLE_GLOBAL = 1,
    IOX2SD_TABLE_SERVICE = 2,  /* global.service */
    IOX2SD_TABLE_NODE = 3,     /* global.node */
    IOX2SD_TABLE_DEFAULTS = 4, /* defaults, in which are the next four. */
    IOX2SD_TABLE_PUBLISH_SUBSCRIBE = 5,
    IOX2SD_TABLE_EVENT = 6,
    IOX2SD_TABLE_REQUEST_RESPONSE = 7,
    IOX2SD_TABLE_BLACKBOARD = 8
};
typedef uint32_t iox2sd_config_table;

/* The types of TOML. */
enum iox2sd_toml_type_number {
    IOX2SD_TOML_NONE = 0,
    IOX2SD_TOML_STRING = 1,
    IOX2SD_TOML_INTEGER = 2,
    IOX2SD_TOML_FLOAT = 3,
    IOX2SD_TOML_BOOLEAN = 4,
    IOX2SD_TOML_DATETIME = 5,
    IOX2SD_TOML_ARRAY = 6,
    IOX2SD_TOML_TABLE = 7
};
typedef uint32_t iox2sd_toml_type;

/* What the value of a key may be. */
enum iox2sd_setting_kind_number {
    IOX2SD_KIND_NONE = 0,
    IOX2SD_KIND_TABLE = 1,
    IOX2SD_KIND_NUMBER = 2, /* An integer from 0 to 2^63 - 1. */
    IOX2SD_KIND_FLAG = 3,
    IOX2SD_KIND_PATH = 4,
    IOX2SD_KIND_FILE_NAME = 5,
    IOX2SD_KIND_BACKPRESSURE = 6, /* The name of a backpressure strategy. */
    IOX2SD_KIND_ALLOCATION = 7,   /* The name of an allocation strategy. */
    IOX2SD_KIND_DURATION = 8      /* A table of the integers `secs` and `nanos`. */
};
typedef uint32_t iox2sd_setting_kind;

/* How a known key is like one that no setting has. */
enum iox2sd_likeness_number {
    IOX2SD_LIKENESS_NONE = 0,
    IOX2SD_LIKENESS_SPELLING = 1,    /* It is the same but for '-', '_' and the case of letters. */
    IOX2SD_LIKENESS_OTHER_TABLE = 2, /* It is the same but for these, in another table. */
    IOX2SD_LIKENESS_QUOTED = 3,      /* Its path stands in quotes. */
    IOX2SD_LIKENESS_NEAR = 4         /* It is the nearest key of the table. */
};
typedef uint32_t iox2sd_likeness;

/* What is wrong with a file, where, and with which key. */
typedef struct iox2sd_config_fault {
    iox2sd_status status;
    iox2sd_config_table table;  /* The table of the key. */
    iox2sd_toml_type found; /* The type of its value, with IOX2SD_STATUS_WRONG_TYPE; 0 otherwise. */
    iox2sd_setting_kind wanted; /* What its value may be; 0 where nothing is wrong with a key. */
    /* Where the key begins, or where the text is found to be no UTF-8, too deep or no TOML: both
     * from 1, columns in bytes, without a byte-order mark. Both are 0 where there is no position:
     * of a key in a file of more than 128 KiB, and where nothing is wrong with the text. */
    size_t line;
    size_t column;
    uint8_t key[80]; /* The path of the key, as "defaults.event.deadline", then zeros. */
    size_t key_length;
    uint8_t reason[256]; /* What is wrong, in words: as much as fits, then zeros. */
    size_t reason_length; /* The bytes of all words, also of those that do not fit. */
} iox2sd_config_fault;

/* What reading a file gave. */
typedef struct iox2sd_config_answer {
    iox2sd_status status;
    size_t unknown;            /* How many keys no setting has. */
    /* The first fault in the order of the file, past 128 KiB in that of the table of settings; all
     * 0 where the status is IOX2SD_STATUS_DONE. */
    iox2sd_config_fault fault;
} iox2sd_config_answer;

/* A key of a file that no setting has. */
typedef struct iox2sd_unknown_key {
    iox2sd_config_table table;
    iox2sd_likeness likeness; /* How the known key that was probably meant is like it. */
    size_t line;              /* Where it begins, as of a fault. */
    size_t column;
    size_t key_length; /* The bytes of its path, in the buffer of all paths. */
    uint8_t meant[80]; /* The path of the known key that was probably meant, then zeros. */
    size_t meant_length; /* 0 where there is none. */
    uint8_t reason[256]; /* What is wrong and was probably meant, in words, as of a fault. */
    size_t reason_length;
} iox2sd_unknown_key;

/* How many keys of a file no setting has. */
typedef struct iox2sd_unknown_answer {
    iox2sd_status status;
    size_t count;
    size_t length; /* The bytes of all their paths. */
} iox2sd_unknown_answer;

/* What writing settings gave. */
typedef struct iox2sd_config_write_answer {
    iox2sd_status status;
    iox2sd_settings_field field; /* The field that is invalid; 0 where the status has none. */
    size_t length;   /* The bytes of the text, also with IOX2SD_STATUS_BUFFER_TOO_SHORT. */
    uint8_t key[80]; /* The path of the key whose text or number is refused, then zeros. */
    size_t key_length;
} iox2sd_config_write_answer;

/* Reads the text of a file of settings, which is TOML 1.1. Its tables and arrays may be at most 32
 * deep in one another: so many parts of the line's header, dots of its keys, arrays and inline
 * tables. A key that it does not have has its default. All fields of `out` are written, and zeros
 * behind each text. A text of NULL and 0 is an empty one.
 * Errors, after which `out` is as it was: IOX2SD_STATUS_NULL; IOX2SD_STATUS_NOT_UTF8;
 * IOX2SD_STATUS_TOO_DEEP and then IOX2SD_STATUS_NOT_TOML, each with the line and the column; and
 * of the first key, in the order of the file, whose value is not allowed, with its position:
 * IOX2SD_STATUS_WRONG_TYPE; IOX2SD_STATUS_BELOW_ZERO; IOX2SD_STATUS_TOO_LONG and
 * IOX2SD_STATUS_BAD_PATH of a path; IOX2SD_STATUS_TOO_LONG and IOX2SD_STATUS_NO_FILE_NAME of the
 * name of a file; IOX2SD_STATUS_UNKNOWN_VARIANT of a strategy; IOX2SD_STATUS_NO_DURATION;
 * IOX2SD_STATUS_BAD_DURATION. At any point: IOX2SD_STATUS_NO_MEMORY. */
IOX2SD_CHECKED iox2sd_config_answer iox2sd_config_read(const uint8_t *text, size_t length,
                                                       iox2sd_config *out);
IOX2SD_CHECKED iox2sd_config_answer iox2sd_config_read_str(const char *text, iox2sd_config *out);

/* Writes all faults of a file, by line and column, to the front of `out`, where they fit. What has
 * no position comes last, in the order of the settings.
 * Errors, after which `out` is as it was: IOX2SD_STATUS_NULL; IOX2SD_STATUS_NOT_UTF8;
 * IOX2SD_STATUS_TOO_DEEP; IOX2SD_STATUS_NOT_TOML; IOX2SD_STATUS_BUFFER_TOO_SHORT, with the number
 * of faults. At any point: IOX2SD_STATUS_NO_MEMORY. */
IOX2SD_CHECKED iox2sd_count_answer iox2sd_config_faults(const uint8_t *text, size_t length,
                                                        iox2sd_config_fault *out, size_t capacity);
IOX2SD_CHECKED iox2sd_count_answer iox2sd_config_faults_str(const char *text,
                                                            iox2sd_config_fault *out,
                                                            size_t capacity);

/* Writes the keys of a file that no setting has, in the order of faults, to the front of `out`, and
 * their paths, as TOML writes them, one after the other, to the front of `paths`, where all of them
 * fit. It does so whether values are allowed or not. With each comes the path of the known key that
 * was probably meant: the key of its table that is the same but for '-', '_' and the case of
 * letters; or else such a key of another table; or else the key whose path stands in quotes; or
 * else the nearest key of its table.
 * Errors, after which both are as they were: IOX2SD_STATUS_NULL; IOX2SD_STATUS_NOT_UTF8;
 * IOX2SD_STATUS_TOO_DEEP; IOX2SD_STATUS_NOT_TOML; IOX2SD_STATUS_BUFFER_TOO_SHORT, with the lengths
 * that they need. At any point: IOX2SD_STATUS_NO_MEMORY. */
IOX2SD_CHECKED iox2sd_unknown_answer iox2sd_config_unknown(const uint8_t *text, size_t length,
                                                           iox2sd_unknown_key *out, size_t capacity,
                                                           uint8_t *paths, size_t paths_capacity);
IOX2SD_CHECKED iox2sd_unknown_answer iox2sd_config_unknown_str(const char *text,
                                                               iox2sd_unknown_key *out,
                                                               size_t capacity, uint8_t *paths,
                                                               size_t paths_capacity);

/* Writes all settings as the text of a file, each below a comment with what it is and its default,
 * to the front of `out`, without a zero byte, where all of it fits.
 * Errors, after which `out` is as it was: IOX2SD_STATUS_NULL; of the first path that is none, with
 * its key: IOX2SD_STATUS_TOO_LONG, IOX2SD_STATUS_BAD_PATH; of the first other text that is not the
 * name of a file, with its key: IOX2SD_STATUS_TOO_LONG, IOX2SD_STATUS_NO_FILE_NAME; of the first
 * invalid field, which is returned: IOX2SD_STATUS_BAD_DURATION, IOX2SD_STATUS_UNKNOWN_STRATEGY;
 * IOX2SD_STATUS_NO_TOML_INTEGER, of a number, or of the seconds of a duration, above 2^63 - 1, with
 * its key; IOX2SD_STATUS_BUFFER_TOO_SHORT. At any point after the fields: IOX2SD_STATUS_NO_MEMORY.
 */
IOX2SD_CHECKED iox2sd_config_write_answer iox2sd_config_write(const iox2sd_config *settings,
                                                              uint8_t *out, size_t capacity);

#ifdef __cplusplus
}
#endif

#endif
