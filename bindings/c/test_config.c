/* Reads and writes files of settings by iox2sd_config.h: each field, each refusal, buffers of each
 * length, and want of memory at each request. Compiled as C99 with -Wl,--wrap=malloc,--wrap=realloc
 * and linked with libiox2sd.a. The last line is 'N checks, N failed'. */
#include "iox2sd_config.h"

#include <stdio.h>
#include <stdlib.h>
#include <string.h>

static int checks, failed;

static void check(bool holds, int line, const char *what) {
    checks++;
    if (!holds) {
        failed++;
        printf("line %d: %s\n", line, what);
    }
}

#define CHECK(condition) check(condition, __LINE__, #condition)

/* Whether a text stands at the front of an array, and zeros behind it. */
static bool is_front(const uint8_t *bytes, size_t size, size_t length, const char *text) {
    if (length != strlen(text) || memcmp(bytes, text, length) != 0) return false;
    for (size_t i = length; i < size; i++) {
        if (bytes[i] != 0) return false;
    }
    return true;
}

static bool is_text(const iox2sd_config_text *text, const char *wanted) {
    return is_front(text->bytes, sizeof text->bytes, text->length, wanted);
}

static bool is_default(const iox2sd_config_text *text, uint32_t which) {
    uint8_t wanted[256] = {0};
    iox2sd_text_answer answer = iox2sd_default_text(which, wanted, sizeof wanted);
    return answer.status == IOX2SD_STATUS_DONE && text->length == answer.length &&
           memcmp(text->bytes, wanted, sizeof wanted) == 0;
}

static bool has_key(const iox2sd_config_fault *fault, const char *key) {
    return is_front(fault->key, sizeof fault->key, fault->key_length, key);
}

static bool has_reason(const iox2sd_config_fault *fault, const char *reason) {
    return is_front(fault->reason, sizeof fault->reason, fault->reason_length, reason);
}

static bool is_at(const iox2sd_config_fault *fault, size_t line, size_t column) {
    return fault->line == line && fault->column == column;
}

static void set(iox2sd_config_text *text, const char *value) {
    memset(text->bytes, 0, sizeof text->bytes);
    memcpy(text->bytes, value, strlen(value));
    text->length = strlen(value);
}

/* A struct whose bytes are all set. */
static iox2sd_config *soiled(iox2sd_config *config, int byte) {
    memset(config, byte, sizeof *config);
    return config;
}

static void defaults(void) {
    static iox2sd_config made;
    iox2sd_config_answer answer = iox2sd_config_read(NULL, 0, soiled(&made, 0xAA));
    CHECK(answer.status == IOX2SD_STATUS_DONE && answer.unknown == 0);
    CHECK(answer.fault.status == IOX2SD_STATUS_DONE && has_key(&answer.fault, ""));
    CHECK(has_reason(&answer.fault, ""));
    CHECK(answer.fault.table == 0 && answer.fault.found == 0 && answer.fault.wanted == 0);
    CHECK(is_at(&answer.fault, 0, 0));
    const iox2sd_config_text *const texts[] = {
        &made.texts.root_path,
        &made.texts.prefix,
        &made.texts.service_directory,
        &made.texts.data_segment_suffix,
        &made.texts.static_config_storage_suffix,
        &made.texts.dynamic_config_storage_suffix,
        &made.texts.connection_suffix,
        &made.texts.event_connection_suffix,
        &made.texts.blackboard_mgmt_suffix,
        &made.texts.blackboard_data_suffix,
        &made.texts.node_directory,
        &made.texts.monitor_suffix,
        &made.texts.node_static_config_suffix,
        &made.texts.service_tag_suffix,
        &made.texts.port_tag_suffix,
        &made.texts.global_mgmt_suffix,
    };
    for (uint32_t which = IOX2SD_TEXT_ROOT_PATH; which <= IOX2SD_TEXT_GLOBAL_MGMT_SUFFIX; which++)
        CHECK(is_default(texts[which], which));
    iox2sd_global_settings global = iox2sd_global_defaults();
    CHECK(made.global.creation_timeout.seconds == global.creation_timeout.seconds);
    CHECK(made.global.creation_timeout.nanoseconds == global.creation_timeout.nanoseconds);
    iox2sd_publish_subscribe_settings samples = iox2sd_publish_subscribe_defaults();
    CHECK(made.publish_subscribe.max_subscribers == samples.max_subscribers);
    CHECK(made.publish_subscribe.publisher_allocation_strategy ==
          samples.publisher_allocation_strategy);
    iox2sd_event_settings events = iox2sd_event_defaults();
    CHECK(made.event.max_nodes == events.max_nodes && !made.event.deadline.is_some);
    iox2sd_request_response_settings requests = iox2sd_request_response_defaults();
    CHECK(made.request_response.max_clients == requests.max_clients);
    CHECK(made.blackboard.max_readers == iox2sd_blackboard_defaults().max_readers);
}

/* Every setting with a value of its own. */
static const char all[] =
    "[global]\nroot-path = '/r'\nprefix = 'p_'\ncreation-timeout = {secs = 3, nanos = 4}\n"
    "[global.service]\ndirectory = 's'\ndata-segment-suffix = '.a'\n"
    "static-config-storage-suffix = '.b'\ndynamic-config-storage-suffix = '.c'\n"
    "connection-suffix = '.d'\nevent-connection-suffix = '.e'\nblackboard-mgmt-suffix = '.f'\n"
    "blackboard-data-suffix = '.g'\ncleanup-dead-nodes-on-open = false\n"
    "[global.node]\ndirectory = 'n'\nmonitor-suffix = '.h'\nstatic-config-suffix = '.i'\n"
    "service-tag-suffix = '.j'\nport-tag-suffix = '.k'\nglobal-mgmt-suffix = '.l'\n"
    "cleanup-dead-nodes-on-creation = false\ncleanup-dead-nodes-on-destruction = false\n"
    "[defaults.publish-subscribe]\nmax-subscribers = 101\nmax-publishers = 102\nmax-nodes = 103\n"
    "subscriber-max-buffer-size = 104\nsubscriber-max-borrowed-samples = 105\n"
    "publisher-max-loaned-samples = 106\npublisher-history-size = 107\n"
    "enable-safe-overflow = false\nbackpressure-strategy = 'DiscardData'\n"
    "subscriber-expired-connection-buffer = 108\npublisher-allocation-strategy = 'PowerOfTwo'\n"
    "[defaults.event]\nmax-listeners = 201\nmax-notifiers = 202\nmax-nodes = 203\n"
    "event-id-max-value = 204\ndeadline = {secs = 205, nanos = 206}\n"
    "notifier-created-event = 207\nnotifier-dropped-event = 208\nnotifier-dead-event = 209\n"
    "[defaults.request-response]\nenable-safe-overflow-for-requests = false\n"
    "enable-safe-overflow-for-responses = false\nmax-active-requests-per-client = 301\n"
    "max-response-buffer-size = 302\nmax-servers = 303\nmax-clients = 304\nmax-nodes = 305\n"
    "max-borrowed-responses-per-pending-response = 306\nmax-loaned-requests = 307\n"
    "server-max-loaned-responses-per-request = 308\n"
    "client-backpressure-strategy = 'DiscardData'\n"
    "server-backpressure-strategy = 'RetryUntilDelivered'\n"
    "client-expired-connection-buffer = 309\nserver-expired-connection-buffer = 310\n"
    "enable-fire-and-forget-requests = false\nclient-allocation-strategy = 'BestFit'\n"
    "server-allocation-strategy = 'PowerOfTwo'\n"
    "[defaults.blackboard]\nmax-readers = 401\nmax-nodes = 402\n";

static void are_all(const iox2sd_config *made) {
    const iox2sd_config_texts *t = &made->texts;
    CHECK(is_text(&t->root_path, "/r") && is_text(&t->prefix, "p_"));
    CHECK(is_text(&t->service_directory, "s") && is_text(&t->data_segment_suffix, ".a"));
    CHECK(is_text(&t->static_config_storage_suffix, ".b"));
    CHECK(is_text(&t->dynamic_config_storage_suffix, ".c"));
    CHECK(is_text(&t->connection_suffix, ".d") && is_text(&t->event_connection_suffix, ".e"));
    CHECK(is_text(&t->blackboard_mgmt_suffix, ".f") && is_text(&t->blackboard_data_suffix, ".g"));
    CHECK(is_text(&t->node_directory, "n") && is_text(&t->monitor_suffix, ".h"));
    CHECK(is_text(&t->node_static_config_suffix, ".i") && is_text(&t->service_tag_suffix, ".j"));
    CHECK(is_text(&t->port_tag_suffix, ".k") && is_text(&t->global_mgmt_suffix, ".l"));
    CHECK(made->global.creation_timeout.seconds == 3);
    CHECK(made->global.creation_timeout.nanoseconds == 4);
    CHECK(!made->global.cleanup_dead_nodes_on_open && !made->global.cleanup_dead_nodes_on_creation);
    CHECK(!made->global.cleanup_dead_nodes_on_destruction);
    const iox2sd_publish_subscribe_settings *p = &made->publish_subscribe;
    CHECK(p->max_subscribers == 101 && p->max_publishers == 102 && p->max_nodes == 103);
    CHECK(p->subscriber_max_buffer_size == 104 && p->subscriber_max_borrowed_samples == 105);
    CHECK(p->publisher_max_loaned_samples == 106 && p->publisher_history_size == 107);
    CHECK(p->subscriber_expired_connection_buffer == 108 && !p->enable_safe_overflow);
    CHECK(p->backpressure_strategy == IOX2SD_BACKPRESSURE_DISCARD_DATA);
    CHECK(p->publisher_allocation_strategy == IOX2SD_ALLOCATION_POWER_OF_TWO);
    const iox2sd_event_settings *e = &made->event;
    CHECK(e->max_listeners == 201 && e->max_notifiers == 202 && e->max_nodes == 203);
    CHECK(e->event_id_max_value == 204 && e->deadline.is_some && e->deadline.seconds == 205);
    CHECK(e->deadline.nanoseconds == 206 && e->notifier_created_event.number == 207);
    CHECK(e->notifier_dropped_event.number == 208 && e->notifier_dead_event.number == 209);
    CHECK(e->notifier_created_event.is_some && e->notifier_dropped_event.is_some);
    const iox2sd_request_response_settings *r = &made->request_response;
    CHECK(r->max_active_requests_per_client == 301 && r->max_response_buffer_size == 302);
    CHECK(r->max_servers == 303 && r->max_clients == 304 && r->max_nodes == 305);
    CHECK(r->max_borrowed_responses_per_pending_response == 306 && r->max_loaned_requests == 307);
    CHECK(r->server_max_loaned_responses_per_request == 308);
    CHECK(r->client_expired_connection_buffer == 309);
    CHECK(r->server_expired_connection_buffer == 310);
    CHECK(r->client_backpressure_strategy == IOX2SD_BACKPRESSURE_DISCARD_DATA);
    CHECK(r->server_backpressure_strategy == IOX2SD_BACKPRESSURE_RETRY_UNTIL_DELIVERED);
    CHECK(r->client_allocation_strategy == IOX2SD_ALLOCATION_BEST_FIT);
    CHECK(r->server_allocation_strategy == IOX2SD_ALLOCATION_POWER_OF_TWO);
    CHECK(!r->enable_safe_overflow_for_requests && !r->enable_safe_overflow_for_responses);
    CHECK(!r->enable_fire_and_forget_requests);
    CHECK(made->blackboard.max_readers == 401 && made->blackboard.max_nodes == 402);
}

enum { MOST = 16384 };

static uint8_t out[MOST];

static void every_setting(void) {
    static iox2sd_config made, again;
    iox2sd_config_answer answer = iox2sd_config_read_str(all, soiled(&made, 0xAA));
    CHECK(answer.status == IOX2SD_STATUS_DONE && answer.unknown == 0);
    are_all(&made);
    iox2sd_config_write_answer written = iox2sd_config_write(&made, out, MOST);
    CHECK(written.status == IOX2SD_STATUS_DONE && written.field == 0 && written.key_length == 0);
    answer = iox2sd_config_read(out, written.length, soiled(&again, 0x55));
    CHECK(answer.status == IOX2SD_STATUS_DONE && answer.unknown == 0);
    are_all(&again);
}

static const iox2sd_config_fault *first(const char *text, uint32_t status) {
    static iox2sd_config made, before;
    static iox2sd_config_answer answer;
    soiled(&before, 0xAA);
    answer = iox2sd_config_read_str(text, soiled(&made, 0xAA));
    CHECK(answer.status == status && answer.fault.status == status && answer.unknown == 0);
    CHECK(memcmp(&made, &before, sizeof made) == 0);
    return &answer.fault;
}

static void each_fault(void) {
    const iox2sd_config_fault *fault = first("global = 'a'", IOX2SD_STATUS_WRONG_TYPE);
    CHECK(fault->table == IOX2SD_TABLE_ROOT && has_key(fault, "global"));
    CHECK(fault->found == IOX2SD_TOML_STRING && fault->wanted == IOX2SD_KIND_TABLE);
    CHECK(is_at(fault, 1, 1));
    CHECK(has_reason(fault, "is a string, and a table is wanted"));
    fault = first("[defaults.event]\nmax-nodes = true", IOX2SD_STATUS_WRONG_TYPE);
    CHECK(fault->table == IOX2SD_TABLE_EVENT && has_key(fault, "defaults.event.max-nodes"));
    CHECK(fault->found == IOX2SD_TOML_BOOLEAN && fault->wanted == IOX2SD_KIND_NUMBER);
    CHECK(is_at(fault, 2, 1));
    fault = first("global.node.cleanup-dead-nodes-on-creation = 1.5", IOX2SD_STATUS_WRONG_TYPE);
    CHECK(fault->table == IOX2SD_TABLE_NODE && fault->found == IOX2SD_TOML_FLOAT);
    CHECK(fault->wanted == IOX2SD_KIND_FLAG);
    fault = first("defaults.blackboard.max-readers = 1979-05-27", IOX2SD_STATUS_WRONG_TYPE);
    CHECK(fault->table == IOX2SD_TABLE_BLACKBOARD && fault->found == IOX2SD_TOML_DATETIME);
    fault = first("defaults = []", IOX2SD_STATUS_WRONG_TYPE);
    CHECK(fault->found == IOX2SD_TOML_ARRAY && has_key(fault, "defaults"));
    fault = first("defaults.event = 7", IOX2SD_STATUS_WRONG_TYPE);
    CHECK(fault->table == IOX2SD_TABLE_DEFAULTS && fault->found == IOX2SD_TOML_INTEGER);
    fault = first("defaults.request-response.max-nodes = {}", IOX2SD_STATUS_WRONG_TYPE);
    CHECK(fault->table == IOX2SD_TABLE_REQUEST_RESPONSE && fault->found == IOX2SD_TOML_TABLE);
    fault = first("defaults.publish-subscribe.max-nodes = -1", IOX2SD_STATUS_BELOW_ZERO);
    CHECK(fault->table == IOX2SD_TABLE_PUBLISH_SUBSCRIBE && fault->found == IOX2SD_TOML_NONE);
    CHECK(fault->wanted == IOX2SD_KIND_NUMBER);
    CHECK(has_reason(fault, "is not an integer from 0 to 9223372036854775807"));
    fault = first("global.root-path = '\xc3\xa4'", IOX2SD_STATUS_BAD_PATH);
    CHECK(fault->table == IOX2SD_TABLE_GLOBAL && fault->wanted == IOX2SD_KIND_PATH);
    fault = first("global.service.connection-suffix = 'a/b'", IOX2SD_STATUS_NO_FILE_NAME);
    CHECK(fault->table == IOX2SD_TABLE_SERVICE && fault->wanted == IOX2SD_KIND_FILE_NAME);
    static char longer[400];
    snprintf(longer, sizeof longer, "global.prefix = '%0256d'", 0);
    CHECK(first(longer, IOX2SD_STATUS_TOO_LONG)->wanted == IOX2SD_KIND_FILE_NAME);
    snprintf(longer, sizeof longer, "global.root-path = '%0256d'", 0);
    CHECK(first(longer, IOX2SD_STATUS_TOO_LONG)->wanted == IOX2SD_KIND_PATH);
    fault = first("defaults.publish-subscribe.backpressure-strategy = 'discarddata'",
                  IOX2SD_STATUS_UNKNOWN_VARIANT);
    CHECK(fault->wanted == IOX2SD_KIND_BACKPRESSURE);
    CHECK(has_reason(fault, "is not \"RetryUntilDelivered\" or \"DiscardData\""));
    fault = first("defaults.request-response.client-allocation-strategy = ''",
                  IOX2SD_STATUS_UNKNOWN_VARIANT);
    CHECK(fault->wanted == IOX2SD_KIND_ALLOCATION);
    fault = first("global.creation-timeout = {secs = 1}", IOX2SD_STATUS_NO_DURATION);
    CHECK(fault->wanted == IOX2SD_KIND_DURATION);
    fault = first("global.creation-timeout = {secs = 1, nanos = 4294967296}",
                  IOX2SD_STATUS_BAD_DURATION);
    CHECK(fault->wanted == IOX2SD_KIND_DURATION && has_key(fault, "global.creation-timeout"));
    fault = first("global = {}\nprefix", IOX2SD_STATUS_NOT_TOML);
    CHECK(fault->key_length == 0 && is_at(fault, 2, 7) && fault->reason_length != 0);
    CHECK(strchr((const char *)fault->reason, '\n') == NULL);
    fault = first("\n \xff", IOX2SD_STATUS_NOT_UTF8);
    CHECK(fault->wanted == 0 && has_reason(fault, "the file is no UTF-8") && is_at(fault, 2, 2));
    /* columns are bytes; a byte order mark has none, and a text of many lines has lines */
    fault = first("\xef\xbb\xbf'\xc3\xa4' = \"\"\"\n\n\"\"\"\r\n  global = {\n prefix = 1}",
                  IOX2SD_STATUS_WRONG_TYPE);
    CHECK(is_at(fault, 4, 3) && has_key(fault, "global.prefix"));
    fault = first("[a.'\xc3\xa4'] # [[\n\n\t[ global . node ]\n\tmonitor-suffix = 1",
                  IOX2SD_STATUS_WRONG_TYPE);
    CHECK(is_at(fault, 4, 2));
    fault = first("'\xc3\xa4' = 1 1", IOX2SD_STATUS_NOT_TOML);
    CHECK(is_at(fault, 1, 8));
    fault = first("defaults.request-response.max-borrowed-responses-per-pending-response = ''",
                  IOX2SD_STATUS_WRONG_TYPE);
    CHECK(has_key(fault,
                  "defaults.request-response.max-borrowed-responses-per-pending-response"));
}

static bool is_count(iox2sd_count_answer answer, uint32_t status, size_t count) {
    return answer.status == status && answer.count == count;
}

static const char faulty[] = "[defaults.event]\nmax-nodes = -1\n  max-listeners = true\n"
                             "[global]\nprefix = ''\nother = 1\n";

static void all_faults(void) {
    static iox2sd_config_fault faults[4];
    for (size_t capacity = 0; capacity < 3; capacity++) {
        memset(faults, 0xAA, sizeof faults);
        CHECK(is_count(iox2sd_config_faults_str(faulty, faults, capacity),
                       IOX2SD_STATUS_BUFFER_TOO_SHORT, 3));
        for (size_t i = 0; i < sizeof faults; i++)
            CHECK(((const uint8_t *)faults)[i] == 0xAA);
    }
    CHECK(is_count(iox2sd_config_faults_str(faulty, faults, 4), IOX2SD_STATUS_DONE, 3));
    CHECK(has_key(&faults[0], "defaults.event.max-nodes") && is_at(&faults[0], 2, 1));
    CHECK(faults[0].status == IOX2SD_STATUS_BELOW_ZERO);
    CHECK(has_key(&faults[1], "defaults.event.max-listeners") && is_at(&faults[1], 3, 3));
    CHECK(faults[1].status == IOX2SD_STATUS_WRONG_TYPE);
    CHECK(has_key(&faults[2], "global.prefix") && is_at(&faults[2], 5, 1));
    CHECK(faults[2].status == IOX2SD_STATUS_NO_FILE_NAME);
    static iox2sd_config made;
    const iox2sd_config_answer answer = iox2sd_config_read_str(faulty, &made);
    CHECK(memcmp(&answer.fault, &faults[0], sizeof faults[0]) == 0);
    CHECK(faults[3].status == 0xAAAAAAAA);
    CHECK(is_count(iox2sd_config_faults_str(all, NULL, 0), IOX2SD_STATUS_DONE, 0));
    CHECK(is_count(iox2sd_config_faults_str("a", faults, 4), IOX2SD_STATUS_NOT_TOML, 0));
    CHECK(is_count(iox2sd_config_faults_str("\xff", faults, 4), IOX2SD_STATUS_NOT_UTF8, 0));
    CHECK(is_count(iox2sd_config_faults_str(NULL, faults, 4), IOX2SD_STATUS_NULL, 0));
    CHECK(is_count(iox2sd_config_faults((const uint8_t *)all, 1, NULL, 4), IOX2SD_STATUS_NULL, 0));
}

static bool is_unknown(iox2sd_unknown_answer answer, uint32_t status, size_t count,
                       size_t length) {
    return answer.status == status && answer.count == count && answer.length == length;
}

static const char misspelt[] = "[defaults.publish-subscribe]\n max-publisher = 3\n"
                               "[global]\nnothing-like-it = 1\n";
static const char paths[] = "defaults.publish-subscribe.max-publisherglobal.nothing-like-it";

static bool says(const iox2sd_unknown_key *key, const char *meant, const char *reason) {
    return is_front(key->meant, sizeof key->meant, key->meant_length, meant) &&
           is_front(key->reason, sizeof key->reason, key->reason_length, reason);
}

static void unknown_keys(void) {
    static iox2sd_config made;
    static iox2sd_unknown_key keys[3];
    uint8_t buffer[80];
    enum { LENGTH = sizeof paths - 1 };
    CHECK(iox2sd_config_read_str(misspelt, &made).unknown == 2);
    memset(keys, 0xAA, sizeof keys);
    memset(buffer, 0xAA, sizeof buffer);
    CHECK(is_unknown(iox2sd_config_unknown_str(misspelt, keys, 1, buffer, sizeof buffer),
                     IOX2SD_STATUS_BUFFER_TOO_SHORT, 2, LENGTH));
    CHECK(is_unknown(iox2sd_config_unknown_str(misspelt, keys, 3, buffer, LENGTH - 1),
                     IOX2SD_STATUS_BUFFER_TOO_SHORT, 2, LENGTH));
    CHECK(keys[0].table == 0xAAAAAAAA && buffer[0] == 0xAA);
    CHECK(is_unknown(iox2sd_config_unknown_str(misspelt, keys, 2, buffer, LENGTH),
                     IOX2SD_STATUS_DONE, 2, LENGTH));
    CHECK(memcmp(buffer, paths, LENGTH) == 0 && buffer[LENGTH] == 0xAA);
    CHECK(keys[0].table == IOX2SD_TABLE_PUBLISH_SUBSCRIBE && keys[0].key_length == LENGTH - 22);
    CHECK(keys[0].line == 2 && keys[0].column == 2 && keys[0].likeness == IOX2SD_LIKENESS_NEAR);
    CHECK(says(&keys[0], "defaults.publish-subscribe.max-publishers",
               "this table has no such key, defaults.publish-subscribe.max-publishers may be "
               "meant"));
    CHECK(keys[1].table == IOX2SD_TABLE_GLOBAL && keys[1].key_length == 22);
    CHECK(keys[1].line == 4 && keys[1].column == 1 && keys[1].likeness == IOX2SD_LIKENESS_NONE);
    CHECK(says(&keys[1], "", "this table has no such key") && keys[2].table == 0xAAAAAAAA);
    /* how a known key is like each, and a key as TOML writes it */
    static const char likes[] = "[global.service]\ncreation_timeout = 1\nDirectory = 1\n"
                                "[global]\n'node.\tdirectory' = 1\n'node.directory' = 1\n";
    static const char written[] = "global.service.creation_timeoutglobal.service.Directory"
                                  "global.\"node.\\tdirectory\"global.\"node.directory\"";
    static iox2sd_unknown_key found[4];
    uint8_t names[200];
    CHECK(is_unknown(iox2sd_config_unknown_str(likes, found, 4, names, sizeof names),
                     IOX2SD_STATUS_DONE, 4, sizeof written - 1));
    CHECK(memcmp(names, written, sizeof written - 1) == 0);
    CHECK(found[1].likeness == IOX2SD_LIKENESS_SPELLING && found[1].line == 3);
    CHECK(says(&found[1], "global.service.directory",
               "this table has no such key, global.service.directory may be meant"));
    CHECK(found[3].likeness == IOX2SD_LIKENESS_QUOTED && found[3].line == 6);
    CHECK(says(&found[3], "global.node.directory",
               "this table has no such key, global.node.directory without the quotes may be "
               "meant"));
    static const char elsewhere[] = "global.service.creation-timeout = 1\n";
    CHECK(is_unknown(iox2sd_config_unknown_str(elsewhere, found, 4, names, sizeof names),
                     IOX2SD_STATUS_DONE, 1, 31));
    CHECK(found[0].likeness == IOX2SD_LIKENESS_OTHER_TABLE);
    CHECK(says(&found[0], "global.creation-timeout",
               "this table has no such key, global.creation-timeout may be meant"));
    /* beside faults, and none of a text that is no file of settings */
    CHECK(is_unknown(iox2sd_config_unknown_str(faulty, found, 4, names, sizeof names),
                     IOX2SD_STATUS_DONE, 1, 12));
    CHECK(found[0].line == 6 && memcmp(names, "global.other", 12) == 0);
    CHECK(is_unknown(iox2sd_config_unknown_str("a", keys, 3, NULL, 0), IOX2SD_STATUS_NOT_TOML, 0,
                     0));
    CHECK(is_unknown(iox2sd_config_unknown_str("\xff", keys, 3, NULL, 0), IOX2SD_STATUS_NOT_UTF8,
                     0, 0));
    CHECK(is_unknown(iox2sd_config_unknown_str(all, NULL, 0, NULL, 0), IOX2SD_STATUS_DONE, 0, 0));
    CHECK(is_unknown(iox2sd_config_unknown_str(NULL, NULL, 0, NULL, 0), IOX2SD_STATUS_NULL, 0, 0));
    CHECK(is_unknown(iox2sd_config_unknown_str(all, NULL, 1, NULL, 0), IOX2SD_STATUS_NULL, 0, 0));
    CHECK(is_unknown(iox2sd_config_unknown_str(all, NULL, 0, NULL, 1), IOX2SD_STATUS_NULL, 0, 0));
}

/* What writing is refused with, and the field, after which the buffer is as it was. */
static bool refuses(const iox2sd_config *settings, uint32_t status, uint32_t field) {
    memset(out, 0xAA, sizeof out);
    iox2sd_config_write_answer answer = iox2sd_config_write(settings, out, MOST);
    for (size_t i = 0; i < MOST; i++) {
        if (out[i] != 0xAA) return false;
    }
    return answer.status == status && answer.field == field && answer.length == 0;
}

static bool refuses_text(const iox2sd_config *settings, uint32_t status, const char *key) {
    iox2sd_config_write_answer answer = iox2sd_config_write(settings, out, MOST);
    return answer.status == status && answer.field == 0 && answer.length == 0 &&
           is_front(answer.key, sizeof answer.key, answer.key_length, key);
}

static void writing(void) {
    static iox2sd_config made, bad;
    CHECK(iox2sd_config_read_str("", &made).status == IOX2SD_STATUS_DONE);
    size_t length = iox2sd_config_write(&made, NULL, 0).length;
    CHECK(1000 < length && length < MOST);
    for (size_t capacity = length - 3; capacity <= length + 1; capacity++) {
        memset(out, 0xAA, sizeof out);
        iox2sd_config_write_answer answer = iox2sd_config_write(&made, out, capacity);
        bool fits = capacity >= length;
        CHECK(answer.status == (fits ? IOX2SD_STATUS_DONE : IOX2SD_STATUS_BUFFER_TOO_SHORT));
        CHECK(answer.length == length && out[length] == 0xAA && (out[0] == '#') == fits);
    }
    CHECK(refuses(NULL, IOX2SD_STATUS_NULL, 0));
    CHECK(iox2sd_config_write(&made, NULL, 1).status == IOX2SD_STATUS_NULL);
    bad = made;
    set(&bad.texts.service_directory, "\x80");
    CHECK(refuses_text(&bad, IOX2SD_STATUS_BAD_PATH, "global.service.directory"));
    set(&bad.texts.prefix, "a/b");
    CHECK(refuses_text(&bad, IOX2SD_STATUS_BAD_PATH, "global.service.directory"));
    bad.texts.service_directory = made.texts.service_directory;
    CHECK(refuses_text(&bad, IOX2SD_STATUS_NO_FILE_NAME, "global.prefix"));
    /* each text in turn, with too many bytes and with a byte that is not allowed */
    static const char *const keys[16] = {
        "global.root-path",
        "global.prefix",
        "global.service.directory",
        "global.service.data-segment-suffix",
        "global.service.static-config-storage-suffix",
        "global.service.dynamic-config-storage-suffix",
        "global.service.connection-suffix",
        "global.service.event-connection-suffix",
        "global.service.blackboard-mgmt-suffix",
        "global.service.blackboard-data-suffix",
        "global.node.directory",
        "global.node.monitor-suffix",
        "global.node.static-config-suffix",
        "global.node.service-tag-suffix",
        "global.node.port-tag-suffix",
        "global.node.global-mgmt-suffix",
    };
    for (size_t i = 0; i < 16; i++) {
        const uint32_t status =
            i == 0 || i == 2 || i == 10 ? IOX2SD_STATUS_BAD_PATH : IOX2SD_STATUS_NO_FILE_NAME;
        bad = made;
        iox2sd_config_text *const text = &bad.texts.root_path + i;
        text->length = SIZE_MAX;
        CHECK(refuses_text(&bad, IOX2SD_STATUS_TOO_LONG, keys[i]));
        text->length = 256;
        CHECK(refuses_text(&bad, IOX2SD_STATUS_TOO_LONG, keys[i]));
        set(text, "\x7f\x80");
        CHECK(refuses_text(&bad, status, keys[i]));
    }
    bad = made;
    bad.request_response.server_allocation_strategy = 3;
    CHECK(refuses(&bad, IOX2SD_STATUS_UNKNOWN_STRATEGY, IOX2SD_FIELD_SERVER_ALLOCATION_STRATEGY));
    bad.event.deadline.is_some = true;
    bad.event.deadline.nanoseconds = 1000000000;
    CHECK(refuses(&bad, IOX2SD_STATUS_BAD_DURATION, IOX2SD_FIELD_DEADLINE));
    bad.publish_subscribe.backpressure_strategy = 2;
    CHECK(refuses(&bad, IOX2SD_STATUS_UNKNOWN_STRATEGY, IOX2SD_FIELD_BACKPRESSURE_STRATEGY));
    bad.global.creation_timeout.nanoseconds = 1000000000;
    CHECK(refuses(&bad, IOX2SD_STATUS_BAD_DURATION, IOX2SD_FIELD_CREATION_TIMEOUT));
    bad = made;
    bad.blackboard.max_readers = SIZE_MAX;
    CHECK(refuses(&bad, IOX2SD_STATUS_NO_TOML_INTEGER, 0));
    iox2sd_config_write_answer answer = iox2sd_config_write(&bad, out, MOST);
    CHECK(is_front(answer.key, sizeof answer.key, answer.key_length,
                   "defaults.blackboard.max-readers"));
}

/* Whether all bytes of a struct are as `soiled` set them. */
static bool is_soiled(const iox2sd_config *config) {
    const uint8_t *const bytes = (const uint8_t *)config;
    for (size_t i = 0; i < sizeof *config; i++) {
        if (bytes[i] != 0xAA) return false;
    }
    return true;
}

/* A text of 128 KiB has positions, and one of a byte more has none. */
static void sizes(void) {
    enum { MOST_SEARCHED = 131072 };
    static char text[MOST_SEARCHED + 2];
    static const char front[] = "other = 1\nglobal.prefix = 1\n#";
    static iox2sd_config made;
    iox2sd_unknown_key key;
    uint8_t path[5];
    memset(text, 'x', MOST_SEARCHED + 1);
    memcpy(text, front, sizeof front - 1);
    for (size_t more = 0; more < 2; more++) {
        const uint8_t *const bytes = (const uint8_t *)text;
        const size_t length = MOST_SEARCHED + more;
        const iox2sd_config_answer answer = iox2sd_config_read(bytes, length, &made);
        CHECK(answer.status == IOX2SD_STATUS_WRONG_TYPE && has_key(&answer.fault, "global.prefix"));
        CHECK(is_at(&answer.fault, more ? 0 : 2, more ? 0 : 1));
        CHECK(is_unknown(iox2sd_config_unknown(bytes, length, &key, 1, path, 5),
                         IOX2SD_STATUS_DONE, 1, 5));
        CHECK(key.line == (more ? 0 : 1) && key.column == (more ? 0 : 1));
    }
}

static char deep[1 << 14];

/* Appends a text so many times. */
static void repeat(const char *text, int times) {
    for (int i = 0; i < times; i++) strcat(deep, text);
}

/* Whether the file that was put together is read, or where it is too deep. */
static bool is_deep(const char *place) {
    static iox2sd_config made;
    static const char reason[] = "tables and arrays are more than 32 deep in one another";
    iox2sd_config_fault faults[1];
    size_t line = 0, column = 0;
    iox2sd_config_answer answer = iox2sd_config_read_str(deep, soiled(&made, 0xAA));
    iox2sd_count_answer listed = iox2sd_config_faults_str(deep, faults, 1);
    iox2sd_unknown_answer unknown = iox2sd_config_unknown_str(deep, NULL, 0, NULL, 0);
    deep[0] = 0;
    if (place == NULL)
        return answer.status == IOX2SD_STATUS_DONE && listed.status == IOX2SD_STATUS_DONE &&
               unknown.status != IOX2SD_STATUS_TOO_DEEP;
    return sscanf(place, "%zu:%zu", &line, &column) == 2 && is_at(&answer.fault, line, column) &&
           answer.status == IOX2SD_STATUS_TOO_DEEP && has_reason(&answer.fault, reason) &&
           has_key(&answer.fault, "") && answer.unknown == 0 && is_soiled(&made) &&
           listed.status == IOX2SD_STATUS_TOO_DEEP && listed.count == 0 &&
           unknown.status == IOX2SD_STATUS_TOO_DEEP && unknown.count == 0;
}

/* Tables and arrays as deep as they may be, and one deeper. */
static void depth(void) {
    for (int more = 0; more < 2; more++) {
        repeat("a.", 32 + more);
        repeat("a = 1\n", 1);
        CHECK(is_deep(more ? "1:66" : NULL));
        repeat("[a", 1);
        repeat(".a", 31 + more);
        repeat("]\n", 1);
        CHECK(is_deep(more ? "1:65" : NULL));
        repeat("# [[[[ ....\nx = ", 1);
        repeat("[", 32 + more);
        repeat("]", 32 + more);
        CHECK(is_deep(more ? "2:37" : NULL));
        repeat("x = ", 1);
        repeat("{a = ", 32 + more);
        repeat("1", 1);
        repeat("}", 32 + more);
        CHECK(is_deep(more ? "1:165" : NULL));
        repeat("[a", 1);
        repeat(".a", 7);
        repeat("]\n", 1);
        repeat("b.", 8);
        repeat("b = ", 1);
        repeat("[{\na.b = ", 5);
        repeat("[", 1 + more);
        repeat("]", 1 + more);
        repeat("}]", 5);
        CHECK(is_deep(more ? "7:8" : NULL));
    }
    /* what is in texts and comments is not counted, nor what is closed */
    repeat("\xef\xbb\xbf[a]\n", 1);
    repeat("x = ['\\', \"\\\"[[[\", '''[ ''[['''', \"\"\"\\\"\"\"[ \"\"\"\"\"] # [[[\n", 1);
    repeat("y = [1.5, 1979-05-27T07:32:00.5, {a.b.c = 1, d.e = {}}, {a.b.c = 1}]\n", 1);
    for (int i = 0; i < 90; i++) repeat("[[t.'a.b'.\"c[\"]]\n", 1);
    CHECK(is_deep(NULL));
    for (int i = 0; i < 200; i++) repeat(i ? ", {a.b = [[1.5]]}" : "x = [{a.b = [[1.5]]}", 1);
    repeat("]\n", 1);
    CHECK(is_deep(NULL));
    repeat("\xef\xbb\xbf[a", 1);
    repeat(".a", 16);
    repeat("]\n\n'\xc3\xa4'", 1);
    repeat(".b", 16);
    CHECK(is_deep("3:35"));
    repeat("\xef\xbb\xbfx = ", 1);
    repeat("[", 33);
    CHECK(is_deep("1:37"));
}

static void nulls(void) {
    static iox2sd_config made;
    CHECK(iox2sd_config_read_str("", NULL).status == IOX2SD_STATUS_NULL);
    CHECK(iox2sd_config_read_str(NULL, &made).status == IOX2SD_STATUS_NULL);
    CHECK(iox2sd_config_read(NULL, 1, &made).fault.status == IOX2SD_STATUS_NULL);
}

/* The library's requests for memory, of which the one that this counts down to is refused, and all
 * after it too where `from_one_on` is set. */
static long left = -1;
static bool from_one_on, refused;

void *__real_malloc(size_t size);
void *__real_realloc(void *at, size_t size);
void *__wrap_malloc(size_t size);
void *__wrap_realloc(void *at, size_t size);

static bool refuses_memory(void) {
    if (left < 0 || (left > 0 && left--)) return false;
    refused = true;
    if (!from_one_on) left = -1;
    return true;
}

void *__wrap_malloc(size_t size) { return refuses_memory() ? NULL : __real_malloc(size); }

void *__wrap_realloc(void *at, size_t size) {
    return refuses_memory() ? NULL : __real_realloc(at, size);
}

static uint32_t reads(void) {
    static iox2sd_config made;
    return iox2sd_config_read_str(misspelt, &made).status;
}

static uint32_t reads_a_fault(void) {
    static iox2sd_config made;
    uint32_t status = iox2sd_config_read_str(faulty, &made).status;
    return status == IOX2SD_STATUS_BELOW_ZERO ? IOX2SD_STATUS_DONE : status;
}

static uint32_t lists_faults(void) {
    static iox2sd_config_fault faults[3];
    return iox2sd_config_faults_str(faulty, faults, 3).status;
}

static uint32_t lists_unknown(void) {
    static iox2sd_unknown_key keys[2];
    uint8_t buffer[80];
    return iox2sd_config_unknown_str(misspelt, keys, 2, buffer, sizeof buffer).status;
}

static uint32_t writes(void) {
    static iox2sd_config made;
    if (made.texts.root_path.length == 0) {
        long was = left;
        left = -1;
        CHECK(iox2sd_config_read_str("", &made).status == IOX2SD_STATUS_DONE);
        left = was;
    }
    return iox2sd_config_write(&made, out, MOST).status;
}

/* Each request is refused in turn, and then all from it on. The status says so, but where the
 * library makes a smaller request in its place. */
static void no_memory(uint32_t (*call)(void)) {
    for (int all = 0; all < 2; all++) {
        long request = 0, reported = 0;
        from_one_on = all;
        for (;; request++) {
            refused = false;
            left = request;
            uint32_t status = call();
            left = -1;
            if (!refused) {
                CHECK(status == IOX2SD_STATUS_DONE);
                break;
            }
            CHECK(status == IOX2SD_STATUS_NO_MEMORY || (!all && status == IOX2SD_STATUS_DONE));
            reported += status == IOX2SD_STATUS_NO_MEMORY;
        }
        CHECK(0 < reported && request < 10000);
    }
}

int main(void) {
    defaults();
    every_setting();
    each_fault();
    all_faults();
    unknown_keys();
    writing();
    sizes();
    depth();
    nulls();
    no_memory(reads);
    no_memory(reads_a_fault);
    no_memory(lists_faults);
    no_memory(lists_unknown);
    no_memory(writes);
    printf("%d checks, %d failed\n", checks, failed);
    return failed != 0;
}
