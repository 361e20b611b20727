/* How much of a thread's stack each call takes: a painted stack shows how deep a call wrote.
 * Compiled as C99 with -D_GNU_SOURCE and linked with libiox2sd.a and -pthread. Prints the calls
 * that take most. The last line is 'N checks, N failed'. */
#include "check.h"
#include "iox2sd_config.h"
#include "iox2sd_conform.h"
#include "iox2sd_script.h"
#include "iox2sd_values.h"

#include <pthread.h>

enum { SIZE = 1 << 18, PAINT = 0xA5, OWN = 512 };

static volatile unsigned char stack[SIZE] __attribute__((aligned(4096)));

typedef struct measured {
    void (*call)(void);
    size_t depth;
} measured;

/* Paints what lies below its own frame, makes the call, and counts what is no longer painted. A
 * call that takes fewer than OWN bytes may be counted as 0. */
static void *paint(void *argument) {
    measured *made = (measured *)argument;
    volatile unsigned char here = 0;
    size_t end = (size_t)((uintptr_t)&here - (uintptr_t)stack), room = end - OWN, place = 0;
    for (size_t i = 0; i < room; i++) stack[i] = PAINT;
    made->call();
    while (place < room && stack[place] == PAINT) place++;
    made->depth = place < room ? end - place : 0;
    return NULL;
}

static size_t depth_of(void (*call)(void)) {
    measured made = {call, SIZE};
    pthread_attr_t attributes;
    pthread_t thread;
    CHECK(pthread_attr_init(&attributes) == 0);
    CHECK(pthread_attr_setstack(&attributes, (void *)stack, SIZE) == 0);
    CHECK(pthread_create(&thread, &attributes, paint, &made) == 0);
    CHECK(pthread_join(thread, NULL) == 0);
    CHECK(pthread_attr_destroy(&attributes) == 0);
    return made.depth;
}

/* What the calls are made with. */
static const iox2sd_id node = {1, 2, 3, 4}, dead = {5, 6, 7, 8};
static iox2sd_service service = IOX2SD_SERVICE_NONE, made = IOX2SD_SERVICE_NONE;
static iox2sd_handle node_handle, port_handle;
static iox2sd_port_details port, ports[4];
static iox2sd_id ids[4];
static iox2sd_port_id kept[4];
static iox2sd_service_numbers numbers;
static const iox2sd_publish_subscribe_config publish_subscribe_config = {1, 1, 1, 1, 1, 1, true};
static iox2sd_event_config event_config;
static iox2sd_request_response_config request_response_config;
static iox2sd_blackboard_config blackboard_config;
static iox2sd_offer offer;
static iox2sd_requirements required;
static iox2sd_open_answer reason;
static iox2sd_attribute pairs[16];
static iox2sd_key key;
static iox2sd_description described;
static iox2sd_message_details details;
static iox2sd_global_settings global;
static iox2sd_publish_subscribe_settings publish_subscribe;
static iox2sd_event_settings event;
static iox2sd_request_response_settings request_response;
static iox2sd_blackboard_settings blackboard;
static iox2sd_config config;
static iox2sd_config_fault faults[4];
static iox2sd_unknown_key unknown[4];
static iox2sd_count_answer samples;
static iox2sd_flag_answer same;
static iox2sd_text_answer text;
static uint8_t out[1 << 16], name[255], value[256], path[120];

static const char *const faulty = "[global]\nprefix = 2\n[defaults.event]\nmax-nodes = ''\n";
static const char *const script =
    "service publish-subscribe 9 4 4 4\nregister 1.1.0.5\nregister 1.2.0.5\n"
    "add publisher 1.1.0.10 1.1.0.5\nadd subscriber 1.1.0.11 1.1.0.5\nnodes\ncount publisher\n"
    "list subscriber\nrelease 3\nderegister 2\ndead 1.1.0.5 skip 1.1.0.10\ndead 1.1.0.5\n";
/* Each refusal of a script, and then a line that is not valid. */
static const char *const refusals =
    "service event 7 1 1 0\nadd listener 1.0.0.2 1.0.0.1\nregister 1.0.0.1\nregister 1.0.0.1\n"
    "add notifier 1.0.0.3 1.0.0.1\nadd reader 1.0.0.4 1.0.0.1\nadd listener 1.0.0.2 1.0.0.1\n"
    "list reader\nrelease 0\nrelease 1\nderegister 1\ndead 1.0.0.1\nregister 1.0.0.1\nlist node\n";
static const char *const log_of_calls =
    "service event 7 2 2 2\nregister 1.0.0.1\n= handle 0 0\nadd listener 1.0.0.2 1.0.0.1\n"
    "= handle 1 0\nservice blackboard 8 2 2 2\n7: dead 1.0.0.1 skip 1.0.0.2\n= has-owners\n"
    "8: nodes\n= list\n7: dead 1.0.0.1\n= no-owners\n";
static const char *const wrong_log =
    "service event 7 2 2 2\nregister 1.0.0.1\n= handle 0 0\nnodes\n= list\n";
static const char *const log_of_open_calls =
    "service event 7 3 2 0\nregister 1.0.0.1\n= handle 0 0\nregister 1.0.0.2\n= handle 1 1\n"
    "A> dead 1.0.0.1\nB> register 1.0.0.1\nC> add listener 1.0.0.9 1.0.0.1\nD> nodes\n"
    "E> count listener\nA< has-owners\nB< handle 2 2\nC!\nD< list 1000000000000000000000002\n"
    "E< count 0\n";
static const char *const wrong_end = "service event 7 2 2 2\nA> nodes\nB> nodes\nA< full\n";
/* Arrays in one another as deep as they may be, deeper ones, and tables. */
static char nested[3][1024];

#define TEXT(text) (const uint8_t *)(text), strlen(text)
#define ALL(array) array, sizeof(array) / sizeof(array)[0]

#define CALLS(CALL)                                                                                \
    CALL(abi, iox2sd_abi())                                                                        \
    CALL(status_text, iox2sd_status_text_at(2, ALL(out)))                                          \
    CALL(id_text, iox2sd_id_text_at(node, ALL(out)))                                               \
    CALL(id_from_text, iox2sd_id_from_text_at(TEXT("00000001000000020000000300000004")))           \
    CALL(service_create, iox2sd_service_create_at(&made, 1, IOX2SD_PATTERN_REQUEST_RESPONSE, 1,    \
                                                  capacities(2, 2, 2), 9))                         \
    CALL(service_free, iox2sd_service_free_at(&made, 1))                                           \
    CALL(register_node_id, iox2sd_register_node_id_at(&service, 1, dead))                          \
    CALL(attach, iox2sd_attach_at(&service, 1, &port, 1))                                          \
    CALL(messaging_pattern, iox2sd_messaging_pattern_at(&service, 1))                              \
    CALL(service_number, iox2sd_service_number_at(&service, 1))                                    \
    CALL(port_roles, iox2sd_port_roles_at(&service, 1))                                            \
    CALL(has_role, iox2sd_has_role_at(&service, 1, IOX2SD_ROLE_PUBLISHER))                         \
    CALL(is_locked, iox2sd_is_locked_at(&service, 1))                                              \
    CALL(number_of_nodes, iox2sd_number_of_nodes_at(&service, 1))                                  \
    CALL(max_nodes, iox2sd_max_nodes_at(&service, 1))                                              \
    CALL(has_room_for_node, iox2sd_has_room_for_node_at(&service, 1))                              \
    CALL(count_ports, iox2sd_count_ports_at(&service, 1, IOX2SD_ROLE_PUBLISHER))                   \
    CALL(max_ports, iox2sd_max_ports_at(&service, 1, IOX2SD_ROLE_PUBLISHER))                       \
    CALL(has_room, iox2sd_has_room_at(&service, 1, IOX2SD_ROLE_PUBLISHER))                         \
    CALL(node, iox2sd_node_at(&service, 1, node_handle))                                           \
    CALL(port, iox2sd_port_at(&service, 1, port_handle))                                           \
    CALL(nodes, iox2sd_nodes_at(&service, 1, ALL(ids)))                                            \
    CALL(ports, iox2sd_ports_at(&service, 1, IOX2SD_ROLE_SUBSCRIBER, ALL(ports)))                  \
    CALL(ports_of, iox2sd_ports_of_at(&service, 1, node, ALL(ports)))                              \
    CALL(release_port, iox2sd_release_port_at(&service, 1, port_handle))                           \
    CALL(remove_dead_node_id, iox2sd_remove_dead_node_id_at(&service, 1, dead, kept, 4))           \
    CALL(deregister_node_id, iox2sd_deregister_node_id_at(&service, 1, node_handle))               \
    CALL(service_name_check, iox2sd_service_name_check_at(ALL(name)))                              \
    CALL(internal_service_name_check, iox2sd_internal_service_name_check_at(ALL(name)))            \
    CALL(attribute_key_check, iox2sd_attribute_key_check_at(name, 64))                             \
    CALL(attribute_value_check, iox2sd_attribute_value_check_at(ALL(value)))                       \
    CALL(path_check, iox2sd_path_check_at(ALL(name)))                                              \
    CALL(file_name_check, iox2sd_file_name_check_at(ALL(name)))                                    \
    CALL(file_path_check, iox2sd_file_path_check_at(ALL(name)))                                    \
    CALL(restricted_file_name_check, iox2sd_restricted_file_name_check_at(ALL(name)))              \
    CALL(has_iox2_prefix, iox2sd_has_iox2_prefix_at(ALL(name)))                                    \
    CALL(internal_service_name, iox2sd_internal_service_name_at(name, 200, ALL(out)))              \
    CALL(path_add_path_entry, iox2sd_path_add_path_entry_at(ALL(path), ALL(path), ALL(out)))       \
    CALL(file_path_from_path_and_file,                                                             \
         iox2sd_file_path_from_path_and_file_at(ALL(path), ALL(path), ALL(out)))                   \
    CALL(hash_text, iox2sd_hash_text_at(IOX2SD_PATTERN_EVENT, ALL(name), ALL(out)))                \
    CALL(internal_hash_text,                                                                       \
         iox2sd_internal_hash_text_at(IOX2SD_PATTERN_EVENT, name, 200, ALL(out)))                  \
    CALL(default_text_root, iox2sd_default_text_at(IOX2SD_TEXT_ROOT_PATH, ALL(out)))               \
    CALL(default_text_service, iox2sd_default_text_at(IOX2SD_TEXT_DATA_SEGMENT_SUFFIX, ALL(out)))  \
    CALL(default_text_node, iox2sd_default_text_at(IOX2SD_TEXT_GLOBAL_MGMT_SUFFIX, ALL(out)))      \
    CALL(default_text_file, iox2sd_default_text_at(IOX2SD_TEXT_USER_CONFIG_FILE_PATH, ALL(out)))   \
    CALL(service_dir, iox2sd_service_dir_at(ALL(path), ALL(out)))                                  \
    CALL(node_dir, iox2sd_node_dir_at(ALL(path), ALL(out)))                                        \
    CALL(version, iox2sd_version_at(ALL(out)))                                                     \
    CALL(layer_version, iox2sd_layer_version_at(ALL(out)))                                         \
    CALL(attributes_check, iox2sd_attributes_check_at(ALL(pairs)))                                 \
    CALL(attributes_sort, iox2sd_attributes_sort_at(ALL(pairs)))                                   \
    CALL(attributes_number_of_key_values,                                                          \
         iox2sd_attributes_number_of_key_values_at(ALL(pairs), name, 64))                          \
    CALL(attributes_key_value, iox2sd_attributes_key_value_at(ALL(pairs), name, 64, 3, ALL(out)))  \
    CALL(attributes_verify, iox2sd_attributes_verify_at(ALL(pairs), pairs, 15, &key, 1))           \
    CALL(type_detail_check, iox2sd_type_detail_check_at(&details.payload, 1))                      \
    CALL(message_sample_layout, iox2sd_message_sample_layout_at(&details, 1, 4))                   \
    CALL(message_places, iox2sd_message_places_at(&details, 1, 64))                                \
    CALL(message_is_compatible_to, iox2sd_message_is_compatible_to_at(&details, 1, &details, 1))   \
    CALL(required_samples,                                                                         \
         samples = iox2sd_required_amount_of_samples_per_data_segment(1, 2, 3, 4, 5))              \
    CALL(required_client_chunks,                                                                   \
         samples = iox2sd_required_amount_of_chunks_per_client_data_segment(1, 2, 3))              \
    CALL(required_server_chunks,                                                                   \
         samples = iox2sd_required_amount_of_chunks_per_server_data_segment(1, 2, 3, 4, 5))        \
    CALL(has_same_messaging_pattern, same = iox2sd_has_same_messaging_pattern(1, 2))               \
    CALL(global_settings_check, iox2sd_global_settings_check_at(&global, 1))                       \
    CALL(publish_subscribe_settings_check,                                                         \
         iox2sd_publish_subscribe_settings_check_at(&publish_subscribe, 1))                        \
    CALL(event_settings_check, iox2sd_event_settings_check_at(&event, 1))                          \
    CALL(request_response_settings_check,                                                          \
         iox2sd_request_response_settings_check_at(&request_response, 1))                          \
    CALL(describe_publish_subscribe,                                                               \
         iox2sd_describe_publish_subscribe_at(&publish_subscribe, 1, ALL(name), false, node,       \
                                              &described, 1))                                      \
    CALL(describe_event,                                                                           \
         iox2sd_describe_event_at(&event, 1, ALL(name), false, node, &described, 1))               \
    CALL(describe_request_response,                                                                \
         iox2sd_describe_request_response_at(&request_response, 1, ALL(name), false, node,         \
                                             &described, 1))                                       \
    CALL(describe_blackboard,                                                                      \
         iox2sd_describe_blackboard_at(&blackboard, 1, ALL(name), false, node, &described, 1))     \
    CALL(next_service_number, iox2sd_next_service_number_at(&numbers, 1))                          \
    CALL(publish_subscribe_satisfies,                                                              \
         iox2sd_publish_subscribe_satisfies_at(&publish_subscribe_config, 1,                       \
                                               &publish_subscribe_config, 1))                      \
    CALL(event_satisfies, iox2sd_event_satisfies_at(&event_config, 1, &event_config, 1))           \
    CALL(request_response_satisfies,                                                               \
         iox2sd_request_response_satisfies_at(&request_response_config, 1,                         \
                                              &request_response_config, 1))                        \
    CALL(blackboard_satisfies,                                                                     \
         iox2sd_blackboard_satisfies_at(&blackboard_config, 1, &blackboard_config, 1))             \
    CALL(publish_subscribe_capacities,                                                             \
         iox2sd_publish_subscribe_capacities_of_settings_at(&publish_subscribe, 1))                \
    CALL(event_capacities, iox2sd_event_capacities_of_settings_at(&event, 1))                      \
    CALL(request_response_capacities,                                                              \
         iox2sd_request_response_capacities_of_settings_at(&request_response, 1))                  \
    CALL(blackboard_capacities, iox2sd_blackboard_capacities_of_settings_at(&blackboard, 1))       \
    CALL(id_is_node, iox2sd_id_is_node(node))                                                      \
    CALL(id_owner_id, iox2sd_id_owner_id(node))                                                    \
    CALL(id_is_before, iox2sd_id_is_before(node, dead))                                            \
    CALL(samples_of, samples = iox2sd_samples_of(&publish_subscribe))                              \
    CALL(responses_of, samples = iox2sd_responses_of(&request_response))                           \
    CALL(open_check, reason = iox2sd_open_check(&offer, &required))                                \
    CALL(open_text, text = iox2sd_open_text(reason, ALL(out)))                                     \
    CALL(global_defaults, iox2sd_global_defaults())                                                \
    CALL(publish_subscribe_defaults, iox2sd_publish_subscribe_defaults())                          \
    CALL(event_defaults, iox2sd_event_defaults())                                                  \
    CALL(request_response_defaults, iox2sd_request_response_defaults())                            \
    CALL(blackboard_defaults, iox2sd_blackboard_defaults())                                        \
    CALL(script_run, iox2sd_script_run_at(TEXT(script), ALL(out)))                                 \
    CALL(script_run_short, iox2sd_script_run_at(TEXT(script), out, 1))                             \
    CALL(script_run_refused, iox2sd_script_run_at(TEXT(refusals), ALL(out)))

#define CONFORM_CALLS(CALL) \
    CALL(conform_run, iox2sd_conform_run_at(TEXT(log_of_calls), ALL(out))) \
    CALL(conform_run_refused, iox2sd_conform_run_at(TEXT(wrong_log), ALL(out))) \
    CALL(conform_run_open_calls, iox2sd_conform_run_at(TEXT(log_of_open_calls), ALL(out))) \
    CALL(conform_run_no_order, iox2sd_conform_run_at(TEXT(wrong_end), ALL(out)))

#define CONFIG_CALLS(CALL) \
    CALL(config_read, iox2sd_config_read_at(NULL, 0, &config, 1)) \
    CALL(config_read_faulty, iox2sd_config_read_at(TEXT(faulty), &config, 1)) \
    CALL(config_read_nested, iox2sd_config_read_at(TEXT(nested[0]), &config, 1)) \
    CALL(config_read_too_deep, iox2sd_config_read_at(TEXT(nested[1]), &config, 1)) \
    CALL(config_read_tables, iox2sd_config_read_at(TEXT(nested[2]), &config, 1)) \
    CALL(config_faults, iox2sd_config_faults_at(TEXT(faulty), ALL(faults))) \
    CALL(config_unknown, iox2sd_config_unknown_at(TEXT(nested[0]), ALL(unknown), ALL(out))) \
    CALL(config_write, iox2sd_config_write_at(&config, 1, ALL(out)))

#define MAKE(label, expression) \
    static void call_##label(void) { (void)(expression); }
CALLS(MAKE)
CONFORM_CALLS(MAKE)
CONFIG_CALLS(MAKE)

typedef struct row {
    const char *name;
    void (*call)(void);
    size_t bound;
} row;

#define PLAIN(label, expression) {#label, call_##label, IOX2SD_STACK_BYTES},
#define OF_CONFORM(label, expression) {#label, call_##label, IOX2SD_CONFORM_STACK_BYTES},
#define OF_CONFIG(label, expression) {#label, call_##label, IOX2SD_CONFIG_STACK_BYTES},
static const row rows[] = {CALLS(PLAIN) CONFORM_CALLS(OF_CONFORM) CONFIG_CALLS(OF_CONFIG)};

/* An array in an array, so often, or a table in a table. */
static void nest(char *text, size_t depth, const char *open, const char *close) {
    strcpy(text, "x = ");
    for (size_t i = 0; i < depth; i++) strcat(text, open);
    strcat(text, "1");
    for (size_t i = 0; i < depth; i++) strcat(text, close);
}

/* Files of each form whose tables and arrays are as deep as they may be, and deeper: what a call on
 * each takes is bounded alike. */
static char deep[1 << 15];

static void repeat(const char *piece, size_t times) {
    for (size_t i = 0; i < times; i++) strcat(deep, piece);
}

static void read_deep(void) { (void)iox2sd_config_read_at(TEXT(deep), &config, 1); }
static void list_deep(void) { (void)iox2sd_config_faults_at(TEXT(deep), ALL(faults)); }
static void name_deep(void) { (void)iox2sd_config_unknown_at(TEXT(deep), ALL(unknown), ALL(out)); }

enum { FORMS = 12 };

static void make_form(size_t form, size_t depth, bool faulty) {
    const size_t half = depth / 2;
    strcpy(deep, faulty ? "defaults.event = 1\n" : "");
    if (form == 0 || form == 1) { /* a key; a key of a known table */
        repeat(form == 0 ? "" : "global.", 1);
        repeat("a.", depth - 1 - form);
        repeat("a = 1\n", 1);
    } else if (form == 2) { /* a header */
        repeat("[a", 1);
        repeat(".a", depth - 1);
        repeat("]\n", 1);
    } else if (form == 3) { /* headers of arrays of tables, each part one */
        for (size_t parts = 1; parts <= depth; parts++) {
            repeat("[[a", 1);
            repeat(".a", parts - 1);
            repeat("]]\n", 1);
        }
    } else if (form == 4 || form == 5) { /* arrays, inline tables */
        repeat("x = ", 1);
        repeat(form == 4 ? "[" : "{a = ", depth);
        repeat(form == 4 ? "" : "1", 1);
        repeat(form == 4 ? "]" : "}", depth);
    } else if (form == 6 || form == 7) { /* inline tables of keys with a dot; with arrays */
        repeat("x = ", 1);
        repeat(form == 6 ? "{a.a = " : "[{a = ", half);
        repeat("1", 1);
        repeat(form == 6 ? "}" : "}]", half);
    } else if (form < 11) { /* a header with a key, with arrays, with inline tables */
        repeat("[a", 1);
        repeat(".a", half - 1);
        repeat("]\nb", 1);
        repeat(form == 8 ? ".b" : "", half);
        repeat(" = ", 1);
        repeat(form == 8 ? "" : form == 9 ? "[" : "{a = ", half);
        repeat(form == 9 ? "" : "1", 1);
        repeat(form == 8 ? "" : form == 9 ? "]" : "}", half);
    } else { /* arrays of tables with keys and inline tables in them */
        for (size_t parts = 1; parts <= depth / 3; parts++) {
            repeat("[[a", 1);
            repeat(".a", parts - 1);
            repeat("]]\n", 1);
        }
        repeat("b", 1);
        repeat(".b", depth / 3);
        repeat(" = ", 1);
        repeat("{a = ", depth / 3);
        repeat("1", 1);
        repeat("}", depth / 3);
    }
    repeat("\n", 1);
}

/* Each form at the depths before and past the limit, and at those with which files once passed what
 * is promised. */
static void deep_files(bool told) {
    static const size_t depths[] = {20, 30, 32, 34, 55, 80, 160};
    size_t most = 0;
    for (size_t form = 0; form < FORMS; form++) {
        for (size_t i = 0; i < sizeof depths / sizeof depths[0]; i++) {
            make_form(form, depths[i], true);
            const size_t with_fault = depth_of(read_deep), listed = depth_of(list_deep);
            make_form(form, depths[i], false);
            const size_t taken[] = {depth_of(read_deep), with_fault, listed, depth_of(name_deep)};
            const iox2sd_config_answer answer = iox2sd_config_read_str(deep, &config);
            CHECK(answer.status == (depths[i] <= 32 ? IOX2SD_STATUS_DONE : IOX2SD_STATUS_TOO_DEEP));
            for (size_t call = 0; call < sizeof taken / sizeof taken[0]; call++) {
                CHECK(taken[call] <= IOX2SD_CONFIG_STACK_BYTES);
                if (taken[call] > most) most = taken[call];
                if (told || taken[call] > IOX2SD_CONFIG_STACK_BYTES)
                    printf("form %zu at %zu: %zu bytes\n", form, depths[i], taken[call]);
            }
        }
    }
    CHECK(most > 4096);
}

static void prepare(void) {
    memset(name, 'n', sizeof name);
    memset(value, 'v', sizeof value);
    memset(path, 'p', sizeof path);
    for (size_t i = 0; i < 16; i++) {
        pairs[i].key = name;
        pairs[i].key_length = 64;
        pairs[i].value = value;
        pairs[i].value_length = sizeof value - i;
    }
    key.text = name;
    key.length = 64;
    details.header = iox2sd_type_detail_str("Header", IOX2SD_VARIANT_FIXED_SIZE, 32, 8);
    details.user_header = iox2sd_type_detail_str("Counter", IOX2SD_VARIANT_FIXED_SIZE, 4, 4);
    details.payload = iox2sd_type_detail_str("Distance", IOX2SD_VARIANT_DYNAMIC, 16, 8);
    global = iox2sd_global_defaults();
    publish_subscribe = iox2sd_publish_subscribe_defaults();
    event = iox2sd_event_defaults();
    request_response = iox2sd_request_response_defaults();
    blackboard = iox2sd_blackboard_defaults();
    CHECK(iox2sd_service_create(&service, IOX2SD_PATTERN_PUBLISH_SUBSCRIBE, 1, capacities(2, 2, 2),
                                UINT64_MAX) == IOX2SD_STATUS_DONE);
    node_handle = iox2sd_register_node_id(&service, node).handle;
    port.role = IOX2SD_ROLE_SUBSCRIBER;
    port.port = id(11, 12, 13, 14);
    port.node = node;
    port_handle = iox2sd_attach(&service, &port).handle;
    CHECK(iox2sd_config_read(NULL, 0, &config).status == IOX2SD_STATUS_DONE);
    kept[0].role = kept[1].role = kept[2].role = kept[3].role = IOX2SD_ROLE_SUBSCRIBER;
    CHECK(iox2sd_describe_publish_subscribe_str(&publish_subscribe, "a", false, node, &described)
              .status == IOX2SD_STATUS_DONE);
    offer.description = required.description = &described;
    offer.messages = required.messages = &details;
    offer.key_type = required.key_type = &details.header;
    offer.attributes = required.pairs = pairs;
    offer.attributes_length = required.pairs_length = 16;
    nest(nested[0], 32, "[", "]");
    nest(nested[1], 250, "[", "]");
    nest(nested[2], 32, "{a=", "}");
}

int main(int count, char **words) {
    bool told = count > 1 && strcmp(words[1], "all") == 0;
    prepare();
    for (size_t i = 0; i < sizeof rows / sizeof rows[0]; i++) {
        size_t depth = depth_of(rows[i].call);
        CHECK(depth <= rows[i].bound);
        if (told || depth > rows[i].bound || depth * 10 > rows[i].bound * 9) {
            printf("%s: %zu bytes, at most %zu\n", rows[i].name, depth, rows[i].bound);
        }
    }
    deep_files(told);
    CHECK(iox2sd_open_check(&offer, &required).status == IOX2SD_STATUS_DONE);
    CHECK(iox2sd_script_run_str(script, ALL(out)).status == IOX2SD_STATUS_DONE);
    CHECK(iox2sd_script_run_str(refusals, ALL(out)).line == 14);
    CHECK(iox2sd_service_free(&service) == IOX2SD_STATUS_DONE);
    return end_of_checks();
}
