/* What the headers promise beside the calls: a refused answer's handle stands for nothing, the
 * static texts are those of the library, and so is the version, NULL is reported, and wrong
 * elements are in their order. Compiled as C99 and linked with libiox2sd.a. The last line is 'N
 * checks, N failed'. */
#include "check.h"
#include "iox2sd_values.h"

#include <string.h>

static bool is_written(iox2sd_text_answer answer, const uint8_t *out, const char *text) {
    return answer.status == IOX2SD_STATUS_DONE && answer.length == strlen(text) &&
           memcmp(out, text, answer.length) == 0;
}

static bool at(iox2sd_place_answer answer, uint32_t status, size_t place) {
    return answer.status == status && answer.at == place;
}

/* Whether each call that takes a handle refuses this one, and leaves the service as it is. */
static bool stands_for_nothing(iox2sd_service *service, iox2sd_handle handle) {
    size_t nodes = iox2sd_number_of_nodes(service).count;
    return iox2sd_deregister_node_id(service, handle) == IOX2SD_STATUS_UNKNOWN_ROLE &&
           iox2sd_release_port(service, handle) == IOX2SD_STATUS_UNKNOWN_ROLE &&
           iox2sd_node(service, handle).status == IOX2SD_STATUS_UNKNOWN_ROLE &&
           iox2sd_port(service, handle).status == IOX2SD_STATUS_UNKNOWN_ROLE &&
           iox2sd_number_of_nodes(service).count == nodes;
}

static bool refuses(iox2sd_service *service, iox2sd_handle_answer answer, uint32_t status) {
    static const iox2sd_handle none = IOX2SD_HANDLE_NONE;
    return answer.status == status && memcmp(&answer.handle, &none, sizeof none) == 0 &&
           stands_for_nothing(service, answer.handle);
}

/* In a service with the number 0, whose first node has the handle of which all parts are 0. */
static void refused_handles(void) {
    iox2sd_service service = IOX2SD_SERVICE_NONE, none = IOX2SD_SERVICE_NONE;
    const iox2sd_id node = id(1, 2, 3, 4);
    iox2sd_port_details port;
    memset(&port, 0, sizeof port);
    CHECK(iox2sd_service_create(&service, IOX2SD_PATTERN_EVENT, 0, capacities(1, 1, 0), 99) ==
          IOX2SD_STATUS_DONE);
    iox2sd_handle first = iox2sd_register_node_id(&service, node).handle;
    CHECK(first.service == 0 && first.role == 0 && first.slot == 0 && first.ticket == 0);

    CHECK(refuses(&service, iox2sd_register_node_id(NULL, node), IOX2SD_STATUS_NULL));
    CHECK(refuses(&service, iox2sd_register_node_id(&none, node), IOX2SD_STATUS_NO_SERVICE));
    CHECK(refuses(&service, iox2sd_register_node_id(&service, id(0, 1, 1, 0)),
                  IOX2SD_STATUS_NO_NODE));
    CHECK(refuses(&service, iox2sd_register_node_id(&service, node), IOX2SD_STATUS_OUT_OF_SPACE));

    CHECK(refuses(&service, iox2sd_attach(&service, NULL), IOX2SD_STATUS_NULL));
    CHECK(refuses(&service, iox2sd_attach(NULL, &port), IOX2SD_STATUS_NULL));
    CHECK(refuses(&service, iox2sd_attach(&none, &port), IOX2SD_STATUS_NO_SERVICE));
    CHECK(refuses(&service, iox2sd_attach(&service, &port), IOX2SD_STATUS_NO_NODE));
    port.node = id(5, 0, 0, 0);
    port.role = IOX2SD_ROLE_NONE;
    CHECK(refuses(&service, iox2sd_attach(&service, &port), IOX2SD_STATUS_UNKNOWN_ROLE));
    port.role = IOX2SD_ROLE_PUBLISHER;
    port.data_segment = 2;
    CHECK(refuses(&service, iox2sd_attach(&service, &port), IOX2SD_STATUS_UNKNOWN_SEGMENT));
    port.data_segment = IOX2SD_SEGMENT_STATIC;
    CHECK(refuses(&service, iox2sd_attach(&service, &port), IOX2SD_STATUS_ROLE_NOT_IN_PATTERN));
    port.role = IOX2SD_ROLE_NOTIFIER;
    CHECK(refuses(&service, iox2sd_attach(&service, &port), IOX2SD_STATUS_NODE_NOT_REGISTERED));
    port.node = node;
    CHECK(refuses(&service, iox2sd_attach(&service, &port), IOX2SD_STATUS_OUT_OF_SPACE));

    CHECK(iox2sd_has_role(&service, IOX2SD_ROLE_NONE).status == IOX2SD_STATUS_UNKNOWN_ROLE);
    CHECK(iox2sd_count_ports(&service, IOX2SD_ROLE_NONE).status == IOX2SD_STATUS_UNKNOWN_ROLE);
    CHECK(iox2sd_max_ports(&service, IOX2SD_ROLE_NONE).status == IOX2SD_STATUS_UNKNOWN_ROLE);
    CHECK(iox2sd_has_room(&service, IOX2SD_ROLE_NONE).status == IOX2SD_STATUS_UNKNOWN_ROLE);
    CHECK(iox2sd_ports(&service, IOX2SD_ROLE_NONE, NULL, 0).status == IOX2SD_STATUS_UNKNOWN_ROLE);

    CHECK(iox2sd_deregister_node_id(&service, first) == IOX2SD_STATUS_DONE_LOCKED);
    CHECK(refuses(&service, iox2sd_register_node_id(&service, node), IOX2SD_STATUS_IS_LOCKED));
    CHECK(refuses(&service, iox2sd_attach(&service, &port), IOX2SD_STATUS_IS_LOCKED));
    CHECK(iox2sd_service_free(&service) == IOX2SD_STATUS_DONE);
}

/* Handles of no entry, the words for parts and fields, and services of each pattern by the names of
 * its ports. */
static void words_and_makers(void) {
    const iox2sd_handle none = iox2sd_handle_none();
    const iox2sd_handle literal = IOX2SD_HANDLE_NONE;
    iox2sd_handle first = {0, IOX2SD_ROLE_NODE, 0, 0};
    CHECK(memcmp(&none, &literal, sizeof none) == 0 && iox2sd_handle_is_none(none));
    CHECK(!iox2sd_handle_is_none(first));
    CHECK(strcmp(iox2sd_part_str(IOX2SD_PART_HEADER), "header") == 0);
    CHECK(strcmp(iox2sd_part_str(IOX2SD_PART_USER_HEADER), "user header") == 0);
    CHECK(strcmp(iox2sd_part_str(IOX2SD_PART_PAYLOAD), "payload") == 0);
    CHECK(strcmp(iox2sd_part_str(3), "unknown part") == 0);
    CHECK(strcmp(iox2sd_field_str(IOX2SD_FIELD_BACKPRESSURE_STRATEGY), "backpressure_strategy") ==
          0);
    CHECK(strcmp(iox2sd_field_str(IOX2SD_FIELD_MAX_SUBSCRIBERS), "max_subscribers") == 0);
    CHECK(strcmp(iox2sd_field_str(IOX2SD_FIELD_MAX_NODES), "max_nodes") == 0);
    CHECK(strcmp(iox2sd_field_str(32), "unknown field") == 0);
    for (uint32_t one = 0; one < 32; one++) {
        for (uint32_t other = 0; other < one; other++)
            CHECK(strcmp(iox2sd_field_str(one), iox2sd_field_str(other)) != 0);
    }
    iox2sd_service services[4] = {IOX2SD_SERVICE_NONE, IOX2SD_SERVICE_NONE, IOX2SD_SERVICE_NONE,
                                  IOX2SD_SERVICE_NONE};
    const iox2sd_publish_subscribe_capacities publishers = {1, 2, 3};
    const iox2sd_event_capacities listeners = {1, 2, 3};
    const iox2sd_request_response_capacities servers = {1, 2, 3};
    const iox2sd_blackboard_capacities readers = {1, 2, 3};
    CHECK(iox2sd_service_create_publish_subscribe(&services[0], 7, publishers) ==
          IOX2SD_STATUS_DONE);
    CHECK(iox2sd_service_create_event(&services[1], 7, listeners) == IOX2SD_STATUS_DONE);
    CHECK(iox2sd_service_create_request_response(&services[2], 7, servers) == IOX2SD_STATUS_DONE);
    CHECK(iox2sd_service_create_blackboard(&services[3], 7, readers) == IOX2SD_STATUS_DONE);
    for (uint64_t pattern = 0; pattern < 4; pattern++) {
        iox2sd_service *const service = &services[pattern];
        const iox2sd_roles_answer roles = iox2sd_port_roles(service);
        CHECK(iox2sd_messaging_pattern(service).number == pattern);
        CHECK(iox2sd_service_number(service).number == 7);
        CHECK(iox2sd_max_nodes(service).count == 1);
        CHECK(iox2sd_max_ports(service, roles.first).count == 2);
        CHECK(iox2sd_max_ports(service, roles.second).count == 3);
        CHECK(iox2sd_service_create_event(service, 7, listeners) == IOX2SD_STATUS_HAS_SERVICE);
        CHECK(iox2sd_service_free(service) == IOX2SD_STATUS_DONE);
    }
    CHECK(iox2sd_service_create_event(NULL, 7, listeners) == IOX2SD_STATUS_NULL);
}

/* A service as it is described, and the first reason for which an opener is refused. */
static void openers(void) {
    iox2sd_service service = IOX2SD_SERVICE_NONE;
    iox2sd_event_settings settings = iox2sd_event_defaults();
    iox2sd_publish_subscribe_settings samples = iox2sd_publish_subscribe_defaults();
    iox2sd_description events, others;
    iox2sd_message_details details, wider;
    iox2sd_attribute pair = iox2sd_attribute_str("k", "v"), wanted = iox2sd_attribute_str("k", "w");
    iox2sd_key key = iox2sd_key_str("");
    uint8_t out[80];
    CHECK(iox2sd_describe_event_str(&settings, "a", false, id(1, 2, 3, 4), &events).status ==
          IOX2SD_STATUS_DONE);
    CHECK(iox2sd_service_create_of_description(&service, 9, &events) == IOX2SD_STATUS_DONE);
    CHECK(iox2sd_max_ports(&service, IOX2SD_ROLE_LISTENER).count == settings.max_listeners);
    CHECK(iox2sd_service_create_of_description(&service, 9, NULL) == IOX2SD_STATUS_NULL);
    CHECK(iox2sd_service_free(&service) == IOX2SD_STATUS_DONE);
    others = events;
    others.pattern = UINT64_C(1) << 32;
    CHECK(iox2sd_service_create_of_description(&service, 9, &others) ==
          IOX2SD_STATUS_UNKNOWN_PATTERN);
    memset(&details, 0, sizeof details);
    details.header = iox2sd_type_detail_str("H", IOX2SD_VARIANT_FIXED_SIZE, 8, 8);
    details.user_header = iox2sd_type_detail_str("U", IOX2SD_VARIANT_FIXED_SIZE, 4, 4);
    details.payload = iox2sd_type_detail_str("P", IOX2SD_VARIANT_DYNAMIC, 16, 8);
    wider = details;
    wider.payload.size = 24;
    iox2sd_offer offer = {&events, &pair, 1, &details, NULL, NULL};
    iox2sd_requirements required = {&events, &pair, 1, NULL, 0, &details, &wider, &wider.payload};
    CHECK(iox2sd_open_check(&offer, &required).status == IOX2SD_STATUS_DONE);
    CHECK(iox2sd_open_check(NULL, &required).status == IOX2SD_STATUS_NULL);
    CHECK(iox2sd_open_check(&offer, NULL).status == IOX2SD_STATUS_NULL);
    /* each reason, with all that come after it */
    iox2sd_description more = events;
    more.event.max_nodes++;
    required.description = &more;
    iox2sd_open_answer answer = iox2sd_open_check(&offer, &required);
    CHECK(answer.status == IOX2SD_STATUS_UNMET && answer.subject == IOX2SD_OPEN_SETTINGS);
    CHECK(answer.field == IOX2SD_FIELD_MAX_NODES);
    CHECK(is_written(iox2sd_open_text(answer, out, sizeof out), out,
                     "max_nodes: a setting is not what the opener requires"));
    offer.key_type = &details.payload;
    answer = iox2sd_open_check(&offer, &required);
    CHECK(answer.status == IOX2SD_STATUS_OTHER_SIZE && answer.subject == IOX2SD_OPEN_KEYS);
    CHECK(answer.part == 0 && answer.side == 0 && answer.field == 0);
    CHECK(is_written(iox2sd_open_text(answer, out, sizeof out), out,
                     "key: the types of a part have other sizes"));
    offer.responses = &details;
    answer = iox2sd_open_check(&offer, &required);
    CHECK(answer.status == IOX2SD_STATUS_OTHER_SIZE && answer.subject == IOX2SD_OPEN_RESPONSES);
    CHECK(answer.part == IOX2SD_PART_PAYLOAD && answer.side == 0 && answer.field == 0);
    CHECK(is_written(iox2sd_open_text(answer, out, sizeof out), out,
                     "responses, payload: the types of a part have other sizes"));
    required.messages = &wider;
    answer = iox2sd_open_check(&offer, &required);
    CHECK(answer.status == IOX2SD_STATUS_OTHER_SIZE && answer.subject == IOX2SD_OPEN_MESSAGES);
    required.pairs = &wanted;
    answer = iox2sd_open_check(&offer, &required);
    CHECK(answer.status == IOX2SD_STATUS_MISSING_PAIR && answer.subject == IOX2SD_OPEN_ATTRIBUTES);
    required.keys = &key;
    required.keys_length = 1;
    answer = iox2sd_open_check(&offer, &required);
    CHECK(answer.status == IOX2SD_STATUS_BAD_ASKED_KEY && answer.cause == IOX2SD_STATUS_EMPTY &&
          answer.at == 0);
    CHECK(iox2sd_describe_publish_subscribe_str(&samples, "a", false, id(1, 2, 3, 4), &others)
              .status == IOX2SD_STATUS_DONE);
    required.description = &others;
    answer = iox2sd_open_check(&offer, &required);
    CHECK(answer.status == IOX2SD_STATUS_OTHER_PATTERN && answer.subject == IOX2SD_OPEN_PATTERN);
    CHECK(is_written(iox2sd_open_text(answer, out, sizeof out), out,
                     "the service has another messaging pattern"));
    others.pattern = 4;
    CHECK(iox2sd_open_check(&offer, &required).status == IOX2SD_STATUS_UNKNOWN_PATTERN);
    iox2sd_text_answer text = iox2sd_open_text(answer, NULL, 0);
    CHECK(text.status == IOX2SD_STATUS_BUFFER_TOO_SHORT && text.length == 41);
    CHECK(iox2sd_open_text(answer, NULL, 1).status == IOX2SD_STATUS_NULL);
}

/* The keys of a blackboard are of one type: of a smaller alignment, they are of another. */
static void keys_of_openers(void) {
    const iox2sd_blackboard_settings settings = iox2sd_blackboard_defaults();
    const iox2sd_type_detail service = iox2sd_type_detail_str("K", IOX2SD_VARIANT_FIXED_SIZE, 8, 8);
    iox2sd_type_detail opener = service, wrong = service;
    iox2sd_description board;
    CHECK(iox2sd_describe_blackboard_str(&settings, "a", false, id(1, 2, 3, 4), &board).status ==
          IOX2SD_STATUS_DONE);
    iox2sd_offer offer = {.description = &board, .key_type = &service};
    iox2sd_requirements required = {.description = &board, .key_type = &opener};
    CHECK(iox2sd_open_check(&offer, &required).status == IOX2SD_STATUS_DONE);
    opener.alignment = 4;
    iox2sd_open_answer answer = iox2sd_open_check(&offer, &required);
    CHECK(answer.status == IOX2SD_STATUS_OTHER_ALIGNMENT && answer.subject == IOX2SD_OPEN_KEYS);
    opener = iox2sd_type_detail_str("L", IOX2SD_VARIANT_FIXED_SIZE, 8, 8);
    answer = iox2sd_open_check(&offer, &required);
    CHECK(answer.status == IOX2SD_STATUS_OTHER_NAME && answer.subject == IOX2SD_OPEN_KEYS);
    wrong.alignment = 3;
    offer.key_type = &wrong;
    answer = iox2sd_open_check(&offer, &required);
    CHECK(answer.status == IOX2SD_STATUS_BAD_ALIGNMENT && answer.subject == IOX2SD_OPEN_KEYS);
    CHECK(answer.side == 1 && answer.part == 0);
    offer.key_type = NULL;
    answer = iox2sd_open_check(&offer, &required);
    CHECK(answer.status == IOX2SD_STATUS_DONE && answer.subject == IOX2SD_OPEN_PATTERN);
}

static void statuses_are_ok(void) {
    CHECK(IOX2SD_SUCCEEDED(IOX2SD_STATUS_DONE) && IOX2SD_SUCCEEDED(IOX2SD_STATUS_DONE_LOCKED));
    for (uint32_t status = 2; status < 1000; status++) CHECK(!IOX2SD_SUCCEEDED(status));
    CHECK(!IOX2SD_SUCCEEDED(UINT32_MAX));
}

/* The static text of each number is that which the library writes, or says that there is none. */
static void static_texts(void) {
    static const char *const roles[] = {"node",   "publisher", "subscriber", "notifier", "listener",
                                        "client", "server",    "reader",     "writer"};
    static const char *const patterns[] = {"publish-subscribe", "event", "request-response",
                                           "blackboard"};
    uint8_t out[64];
    int known = 0;
    for (uint32_t status = 0; status < 1000; status++) {
        const char *text = iox2sd_status_str(status);
        iox2sd_text_answer answer = iox2sd_status_text(status, out, sizeof out);
        known += answer.status == IOX2SD_STATUS_DONE;
        if (answer.status == IOX2SD_STATUS_DONE) {
            CHECK(strlen(text) == answer.length && memcmp(text, out, answer.length) == 0);
        } else {
            CHECK(strcmp(text, "unknown status") == 0);
        }
    }
    CHECK(known == 72 && strcmp(iox2sd_status_str(UINT32_MAX), "unknown status") == 0);
    for (uint64_t i = 0; i < 9; i++) CHECK(strcmp(iox2sd_role_str(i), roles[i]) == 0);
    CHECK(strcmp(iox2sd_role_str(9), "unknown role") == 0);
    CHECK(strcmp(iox2sd_role_str(IOX2SD_ROLE_NONE), "unknown role") == 0);
    CHECK(strcmp(iox2sd_role_str(UINT64_C(1) << 32), "unknown role") == 0);
    for (uint64_t i = 0; i < 4; i++) CHECK(strcmp(iox2sd_pattern_str(i), patterns[i]) == 0);
    CHECK(strcmp(iox2sd_pattern_str(4), "unknown messaging pattern") == 0);
    CHECK(strcmp(iox2sd_pattern_str(UINT64_C(1) << 32), "unknown messaging pattern") == 0);
}

/* An array of structs that is NULL with another number than 0. */
static void arrays_of_null(void) {
    static const uint8_t a = 'a';
    iox2sd_attribute pair = {&a, 1, &a, 1};
    iox2sd_key key = {&a, 1};
    iox2sd_id node = id(1, 2, 3, 4);
    iox2sd_service none = IOX2SD_SERVICE_NONE;
    uint8_t out[4] = {9, 9, 9, 9};
    iox2sd_text_answer text = iox2sd_attributes_key_value(NULL, 3, &a, 1, 0, out, sizeof out);
    CHECK(at(iox2sd_attributes_check(NULL, 3), IOX2SD_STATUS_NULL, 0));
    CHECK(at(iox2sd_attributes_check(NULL, SIZE_MAX), IOX2SD_STATUS_NULL, 0));
    CHECK(at(iox2sd_attributes_check(NULL, 0), IOX2SD_STATUS_DONE, 0));
    CHECK(at(iox2sd_attributes_sort(NULL, 3), IOX2SD_STATUS_NULL, 0));
    CHECK(at(iox2sd_attributes_sort(NULL, 0), IOX2SD_STATUS_DONE, 0));
    CHECK(iox2sd_attributes_number_of_key_values(NULL, 3, &a, 1).status == IOX2SD_STATUS_NULL);
    CHECK(iox2sd_attributes_number_of_key_values(NULL, 0, &a, 1).status == IOX2SD_STATUS_DONE);
    CHECK(text.status == IOX2SD_STATUS_NULL && text.length == 0 && out[0] == 9);
    CHECK(iox2sd_attributes_key_value(NULL, 0, &a, 1, 0, out, 4).status ==
          IOX2SD_STATUS_NO_SUCH_VALUE);
    CHECK(at(iox2sd_attributes_verify(NULL, 3, &pair, 1, &key, 1), IOX2SD_STATUS_NULL, 0));
    CHECK(at(iox2sd_attributes_verify(&pair, 1, NULL, 3, &key, 1), IOX2SD_STATUS_NULL, 0));
    CHECK(at(iox2sd_attributes_verify(&pair, 1, &pair, 1, NULL, 3), IOX2SD_STATUS_NULL, 0));
    CHECK(at(iox2sd_attributes_verify(&pair, 1, NULL, 0, NULL, 0), IOX2SD_STATUS_DONE, 0));
    CHECK(iox2sd_remove_dead_node_id(&none, node, NULL, 1).status == IOX2SD_STATUS_NULL);
    CHECK(iox2sd_nodes(&none, NULL, 1).status == IOX2SD_STATUS_NULL);
    CHECK(iox2sd_ports(&none, IOX2SD_ROLE_READER, NULL, 1).status == IOX2SD_STATUS_NULL);
    CHECK(iox2sd_ports_of(&none, node, NULL, 1).status == IOX2SD_STATUS_NULL);
}

typedef iox2sd_place_answer (*check_text)(const uint8_t *text, size_t length);
typedef iox2sd_place_answer (*check_str)(const char *text);
typedef iox2sd_text_answer (*write_text)(uint8_t *out, size_t capacity);

/* Texts and buffers that are NULL with another number than 0, and texts that end in a zero byte. */
static void texts_of_null(void) {
    static const check_text checks[] = {
        iox2sd_service_name_check,    iox2sd_internal_service_name_check,
        iox2sd_attribute_key_check,   iox2sd_attribute_value_check,
        iox2sd_path_check,            iox2sd_file_name_check,
        iox2sd_file_path_check,       iox2sd_restricted_file_name_check};
    static const check_str strs[] = {
        iox2sd_service_name_check_str,  iox2sd_internal_service_name_check_str,
        iox2sd_attribute_key_check_str, iox2sd_attribute_value_check_str,
        iox2sd_path_check_str,          iox2sd_file_name_check_str,
        iox2sd_file_path_check_str,     iox2sd_restricted_file_name_check_str};
    static const write_text writers[] = {iox2sd_version, iox2sd_layer_version};
    static char longest[258];
    /* Of any two checks, one refuses a text that the other takes. */
    const char *const texts[] = {"",   "iox2://a", "a/b",       "a b",
                                 "..", longest,    longest + 1, longest + 192};
    static const uint8_t a = 'a';
    const iox2sd_attribute pair = {&a, 1, &a, 1};
    const iox2sd_event_settings settings = iox2sd_event_defaults();
    const iox2sd_id some = id(1, 2, 3, 4);
    iox2sd_description made;
    uint8_t out[64];
    memset(longest, 'a', sizeof longest - 1);
    for (size_t i = 0; i < sizeof checks / sizeof *checks; i++) {
        iox2sd_place_answer empty = checks[i]((const uint8_t *)"", 0);
        CHECK(at(checks[i](NULL, 1), IOX2SD_STATUS_NULL, 0));
        CHECK(at(checks[i](NULL, SIZE_MAX), IOX2SD_STATUS_NULL, 0));
        CHECK(at(checks[i](NULL, 0), empty.status, empty.at));
        CHECK(at(strs[i](NULL), IOX2SD_STATUS_NULL, 0));
        CHECK(at(strs[i]("ab.c"), IOX2SD_STATUS_DONE, 0));
        CHECK(at(strs[i]("ab\x80"), IOX2SD_STATUS_ILLEGAL_BYTE, 2));
        for (size_t j = 0; j < sizeof texts / sizeof *texts; j++) {
            iox2sd_place_answer wanted = checks[i]((const uint8_t *)texts[j], strlen(texts[j]));
            CHECK(at(strs[i](texts[j]), wanted.status, wanted.at));
        }
    }
    for (size_t i = 0; i < sizeof writers / sizeof *writers; i++) {
        CHECK(writers[i](NULL, 1).status == IOX2SD_STATUS_NULL);
        CHECK(writers[i](NULL, 0).status == IOX2SD_STATUS_BUFFER_TOO_SHORT);
    }
    CHECK(!iox2sd_has_iox2_prefix(NULL, 7) && !iox2sd_has_iox2_prefix(NULL, 0));
    CHECK(iox2sd_internal_service_name(NULL, 1, out, sizeof out).status == IOX2SD_STATUS_NULL);
    CHECK(iox2sd_internal_service_name(&a, 1, NULL, 1).status == IOX2SD_STATUS_NULL);
    CHECK(iox2sd_path_add_path_entry(NULL, 1, &a, 1, out, sizeof out).status == IOX2SD_STATUS_NULL);
    CHECK(iox2sd_path_add_path_entry(&a, 1, NULL, 1, out, sizeof out).status == IOX2SD_STATUS_NULL);
    CHECK(iox2sd_path_add_path_entry(&a, 1, &a, 1, NULL, 1).status == IOX2SD_STATUS_NULL);
    CHECK(iox2sd_file_path_from_path_and_file(NULL, 1, &a, 1, out, 64).status ==
          IOX2SD_STATUS_NULL);
    CHECK(iox2sd_file_path_from_path_and_file(&a, 1, NULL, 1, out, 64).status ==
          IOX2SD_STATUS_NULL);
    CHECK(iox2sd_file_path_from_path_and_file(&a, 1, &a, 1, NULL, 1).status == IOX2SD_STATUS_NULL);
    CHECK(iox2sd_hash_text(IOX2SD_PATTERN_EVENT, NULL, 1, out, sizeof out).status ==
          IOX2SD_STATUS_NULL);
    CHECK(iox2sd_hash_text(9, NULL, 1, out, sizeof out).status == IOX2SD_STATUS_NULL);
    CHECK(iox2sd_hash_text(IOX2SD_PATTERN_EVENT, &a, 1, NULL, 1).status == IOX2SD_STATUS_NULL);
    CHECK(iox2sd_internal_hash_text(IOX2SD_PATTERN_EVENT, NULL, 1, out, 64).status ==
          IOX2SD_STATUS_NULL);
    CHECK(iox2sd_internal_hash_text(IOX2SD_PATTERN_EVENT, &a, 1, NULL, 1).status ==
          IOX2SD_STATUS_NULL);
    CHECK(iox2sd_default_text(IOX2SD_TEXT_PREFIX, NULL, 1).status == IOX2SD_STATUS_NULL);
    CHECK(iox2sd_service_dir(NULL, 1, out, sizeof out).status == IOX2SD_STATUS_NULL);
    CHECK(iox2sd_service_dir(&a, 1, NULL, 1).status == IOX2SD_STATUS_NULL);
    CHECK(iox2sd_node_dir(NULL, 1, out, sizeof out).status == IOX2SD_STATUS_NULL);
    CHECK(iox2sd_node_dir(&a, 1, NULL, 1).status == IOX2SD_STATUS_NULL);
    CHECK(iox2sd_status_text(0, NULL, 1).status == IOX2SD_STATUS_NULL);
    CHECK(iox2sd_status_text(0, NULL, 0).status == IOX2SD_STATUS_BUFFER_TOO_SHORT);
    CHECK(iox2sd_id_text(some, NULL, 1).status == IOX2SD_STATUS_NULL);
    CHECK(iox2sd_id_from_text(NULL, 1).status == IOX2SD_STATUS_NULL);
    CHECK(iox2sd_attributes_number_of_key_values(&pair, 1, NULL, 1).status == IOX2SD_STATUS_NULL);
    CHECK(iox2sd_attributes_key_value(&pair, 1, NULL, 1, 0, out, 64).status == IOX2SD_STATUS_NULL);
    CHECK(iox2sd_attributes_key_value(&pair, 1, &a, 1, 0, NULL, 1).status == IOX2SD_STATUS_NULL);
    CHECK(iox2sd_describe_event(&settings, NULL, 1, true, some, &made).status ==
          IOX2SD_STATUS_NULL);
    CHECK(iox2sd_describe_event_str(&settings, NULL, true, some, &made).status ==
          IOX2SD_STATUS_NULL);
}

/* Whether a text was written, and is this one. */
static bool wrote(iox2sd_text_answer answer, const uint8_t *out, const char *text) {
    return answer.status == IOX2SD_STATUS_DONE && answer.length == strlen(text) &&
           memcmp(out, text, answer.length) == 0;
}

/* Each form that takes texts ended by a zero byte does what the form with lengths does. */
static void texts_that_end(void) {
    const iox2sd_publish_subscribe_settings samples = iox2sd_publish_subscribe_defaults();
    const iox2sd_event_settings events = iox2sd_event_defaults();
    const iox2sd_request_response_settings requests = iox2sd_request_response_defaults();
    const iox2sd_blackboard_settings board = iox2sd_blackboard_defaults();
    const iox2sd_id some = id(1, 2, 3, 4);
    const iox2sd_attribute pair = iox2sd_attribute_str("color", "red");
    const iox2sd_key key = iox2sd_key_str("color");
    iox2sd_type_detail type = iox2sd_type_detail_str("u64", IOX2SD_VARIANT_FIXED_SIZE, 16, 8);
    iox2sd_description made;
    uint8_t out[64];
    CHECK(iox2sd_has_iox2_prefix_str("iox2://a") && !iox2sd_has_iox2_prefix_str("iox2:/a"));
    CHECK(!iox2sd_has_iox2_prefix_str(NULL));
    CHECK(wrote(iox2sd_internal_service_name_str("ab", out, 64), out, "iox2://ab"));
    CHECK(wrote(iox2sd_path_add_path_entry_str("a", "bc", out, 64), out, "a/bc"));
    CHECK(wrote(iox2sd_file_path_from_path_and_file_str("a", "bc", out, 64), out, "a/bc"));
    CHECK(iox2sd_path_add_path_entry_str("a", NULL, out, 64).status == IOX2SD_STATUS_NULL);
    CHECK(iox2sd_file_path_from_path_and_file_str(NULL, "b", out, 64).status == IOX2SD_STATUS_NULL);
    CHECK(wrote(iox2sd_hash_text_str(IOX2SD_PATTERN_EVENT, "a", out, 64), out,
                "mywygMzqC6QIJwxFGFv7zTYWQjc"));
    CHECK(wrote(iox2sd_internal_hash_text_str(IOX2SD_PATTERN_BLACKBOARD, "iox2://x", out, 64), out,
                "dBa6f4MAuXbGPrWuZe58tIdzmlw"));
    CHECK(iox2sd_hash_text_str(IOX2SD_PATTERN_BLACKBOARD, "iox2://x", out, 64).status ==
          IOX2SD_STATUS_BAD_SERVICE_NAME);
    CHECK(wrote(iox2sd_service_dir_str("/a", out, 64), out, "/a/services"));
    CHECK(wrote(iox2sd_node_dir_str("/a", out, 64), out, "/a/nodes"));
    CHECK(at(iox2sd_attributes_verify(&pair, 1, &pair, 1, &key, 1), IOX2SD_STATUS_DONE, 0));
    CHECK(pair.value_length == 3 && memcmp(pair.value, "red", 3) == 0);
    CHECK(iox2sd_attribute_str(NULL, NULL).key_length == 0 && iox2sd_key_str(NULL).length == 0);
    CHECK(iox2sd_type_detail_check(&type) == IOX2SD_STATUS_DONE && type.name_length == 3);
    CHECK(type.size == 16 && type.alignment == 8 && type.variant == IOX2SD_VARIANT_FIXED_SIZE);
    type = iox2sd_type_detail_str(NULL, IOX2SD_VARIANT_DYNAMIC, 0, 3);
    CHECK(iox2sd_type_detail_check(&type) == IOX2SD_STATUS_BAD_ALIGNMENT);
    CHECK(type.variant == IOX2SD_VARIANT_DYNAMIC && type.name_length == 0);
    CHECK(iox2sd_describe_publish_subscribe_str(&samples, "a", false, some, &made).status == 0);
    CHECK(made.pattern == IOX2SD_PATTERN_PUBLISH_SUBSCRIBE && made.name_length == 1);
    CHECK(iox2sd_describe_event_str(&events, "iox2://a", true, some, &made).status == 0);
    CHECK(made.pattern == IOX2SD_PATTERN_EVENT && made.name_length == 8 && made.id.counter == 4);
    CHECK(iox2sd_describe_request_response_str(&requests, "ab", false, some, &made).status == 0);
    CHECK(made.pattern == IOX2SD_PATTERN_REQUEST_RESPONSE && made.name_length == 2);
    CHECK(iox2sd_describe_blackboard_str(&board, "abc", false, some, &made).status == 0);
    CHECK(made.pattern == IOX2SD_PATTERN_BLACKBOARD && made.name_length == 3);
    for (size_t i = 0; i < 2; i++) {
        const bool internal = i == 1;
        const iox2sd_field_answer answers[] = {
            iox2sd_describe_publish_subscribe_str(&samples, "iox2://a", internal, some, &made),
            iox2sd_describe_event_str(&events, "iox2://a", internal, some, &made),
            iox2sd_describe_request_response_str(&requests, "iox2://a", internal, some, &made),
            iox2sd_describe_blackboard_str(&board, "iox2://a", internal, some, &made)};
        const uint32_t wanted = internal ? IOX2SD_STATUS_DONE : IOX2SD_STATUS_BAD_SERVICE_NAME;
        for (size_t j = 0; j < 4; j++) CHECK(answers[j].status == wanted);
    }
}

static bool reads(const char *text, uint32_t status, iox2sd_id expected) {
    const iox2sd_id_answer answer = iox2sd_id_from_text_str(text);
    return answer.status == status && memcmp(&answer.id, &expected, sizeof expected) == 0;
}

/* Ids are read back from their texts, and from no other. */
static void ids_of_texts(void) {
    static const iox2sd_id ids[] = {
        {0, 0, 0, 0},          {0, 0, 0, 1},          {0, 0, 0, UINT32_MAX}, {0, 0, 1, 0},
        {0, 1, 0, 0},          {1, 0, 0, 0},          {1, 2, 3, 4},
        {UINT32_MAX, 0, 0, 0}, {UINT32_MAX, UINT32_MAX, UINT32_MAX, UINT32_MAX}};
    const iox2sd_id none = id(0, 0, 0, 0);
    char text[40];
    for (size_t i = 0; i < sizeof ids / sizeof *ids; i++) {
        iox2sd_text_answer written = iox2sd_id_text(ids[i], (uint8_t *)text, sizeof text);
        CHECK(written.status == IOX2SD_STATUS_DONE && written.length <= 32);
        text[written.length] = 0;
        CHECK(reads(text, IOX2SD_STATUS_DONE, ids[i]));
    }
    CHECK(reads("1000000020000000300000004", IOX2SD_STATUS_DONE, id(1, 2, 3, 4)));
    CHECK(reads("abcdef0123456789", IOX2SD_STATUS_DONE, id(0, 0, 0xabcdef01, 0x23456789)));
    CHECK(reads("", IOX2SD_STATUS_EMPTY, none));
    CHECK(reads(NULL, IOX2SD_STATUS_NULL, none));
    CHECK(reads("100000000000000000000000000000000", IOX2SD_STATUS_TOO_LONG, none));
    CHECK(reads("000000000000000000000000000000000", IOX2SD_STATUS_TOO_LONG, none));
    CHECK(reads("00", IOX2SD_STATUS_ILLEGAL_BYTE, none) &&
          reads("01", IOX2SD_STATUS_ILLEGAL_BYTE, none));
    CHECK(reads("1A", IOX2SD_STATUS_ILLEGAL_BYTE, none) &&
          reads("1g", IOX2SD_STATUS_ILLEGAL_BYTE, none));
    CHECK(reads("+1", IOX2SD_STATUS_ILLEGAL_BYTE, none) &&
          reads("-1", IOX2SD_STATUS_ILLEGAL_BYTE, none));
    CHECK(reads(" 1", IOX2SD_STATUS_ILLEGAL_BYTE, none) &&
          reads("1 ", IOX2SD_STATUS_ILLEGAL_BYTE, none));
    CHECK(reads("0x1", IOX2SD_STATUS_ILLEGAL_BYTE, none) &&
          reads("\xc3\xa4", IOX2SD_STATUS_ILLEGAL_BYTE, none));
}

/* Capacities by the names of ports, in the order in which a service counts them. */
static void named_capacities(void) {
    const iox2sd_publish_subscribe_capacities samples = {1, 2, 3};
    const iox2sd_event_capacities events = {1, 2, 3};
    const iox2sd_request_response_capacities requests = {1, 2, 3};
    const iox2sd_blackboard_capacities board = {1, 2, 3};
    const struct {
        uint32_t pattern;
        iox2sd_capacities capacities;
        uint64_t first, second;
    } rows[] = {{IOX2SD_PATTERN_PUBLISH_SUBSCRIBE, iox2sd_capacities_of_publish_subscribe(samples),
                 IOX2SD_ROLE_PUBLISHER, IOX2SD_ROLE_SUBSCRIBER},
                {IOX2SD_PATTERN_EVENT, iox2sd_capacities_of_event(events), IOX2SD_ROLE_LISTENER,
                 IOX2SD_ROLE_NOTIFIER},
                {IOX2SD_PATTERN_REQUEST_RESPONSE, iox2sd_capacities_of_request_response(requests),
                 IOX2SD_ROLE_SERVER, IOX2SD_ROLE_CLIENT},
                {IOX2SD_PATTERN_BLACKBOARD, iox2sd_capacities_of_blackboard(board),
                 IOX2SD_ROLE_READER, IOX2SD_ROLE_WRITER}};
    iox2sd_description made;
    memset(&made, 0, sizeof made);
    made.publish_subscribe.max_nodes = made.event.max_nodes = 1;
    made.request_response.max_nodes = made.blackboard.max_nodes = 1;
    made.publish_subscribe.max_publishers = made.event.max_listeners = 2;
    made.request_response.max_servers = made.blackboard.max_readers = 2;
    made.publish_subscribe.max_subscribers = made.event.max_notifiers = 3;
    made.request_response.max_clients = made.blackboard.max_writers = 3;
    for (size_t i = 0; i < 4; i++) {
        iox2sd_service service = IOX2SD_SERVICE_NONE;
        iox2sd_capacities described;
        made.pattern = rows[i].pattern;
        described = iox2sd_capacities_of_description(&made);
        CHECK(described.nodes == 1 && described.first == 2 && described.second == 3);
        CHECK(iox2sd_service_create(&service, rows[i].pattern, 7, rows[i].capacities, 9) ==
              IOX2SD_STATUS_DONE);
        CHECK(iox2sd_max_nodes(&service).count == 1);
        CHECK(iox2sd_max_ports(&service, rows[i].first).count == 2);
        CHECK(iox2sd_max_ports(&service, rows[i].second).count == 3);
        CHECK(iox2sd_service_free(&service) == IOX2SD_STATUS_DONE);
        CHECK(!service.full && service.at == NULL);
        CHECK(iox2sd_service_free(&service) == IOX2SD_STATUS_NO_SERVICE);
    }
    made.pattern = 4;
    CHECK(iox2sd_capacities_of_description(&made).nodes == 0);
    CHECK(iox2sd_capacities_of_description(NULL).first == 0);
}

/* The first wrong element is reported, and each array is looked at before the next. */
static void reported_order(void) {
    static const uint8_t a = 'a';
    iox2sd_attribute pairs[17], bad = {&a, 0, &a, 1}, one = {&a, 1, &a, 1};
    iox2sd_key keys[2] = {{&a, 1}, {&a, 0}};
    for (size_t i = 0; i < 17; i++) pairs[i] = one;
    CHECK(at(iox2sd_attributes_verify(&one, 1, pairs, 17, keys + 1, 1),
             IOX2SD_STATUS_TOO_MANY_REQUIRED, 16));
    CHECK(at(iox2sd_attributes_verify(&one, 1, pairs, 16, keys + 1, 1), IOX2SD_STATUS_BAD_ASKED_KEY,
             0));
    CHECK(at(iox2sd_attributes_verify(&one, 1, pairs, 16, keys, 2), IOX2SD_STATUS_TOO_MANY_REQUIRED,
             0));
    CHECK(
        at(iox2sd_attributes_verify(&one, 1, pairs, 15, keys, 2), IOX2SD_STATUS_BAD_ASKED_KEY, 1));
    pairs[16] = bad;
    CHECK(at(iox2sd_attributes_verify(&one, 1, pairs, 17, keys + 1, 1),
             IOX2SD_STATUS_BAD_REQUIRED_KEY, 16));
    pairs[3].value_length = 0;
    CHECK(at(iox2sd_attributes_verify(&one, 1, pairs, 17, keys, 1),
             IOX2SD_STATUS_BAD_REQUIRED_VALUE, 3));
    CHECK(at(iox2sd_attributes_verify(&bad, 1, pairs, 17, keys, 1), IOX2SD_STATUS_BAD_KEY, 0));
}

static void version(void) {
    uint8_t out[32];
    char made[32];
    iox2sd_text_answer answer = iox2sd_version(out, sizeof out);
    CHECK(answer.status == IOX2SD_STATUS_DONE && answer.length == strlen(IOX2SD_VERSION));
    CHECK(memcmp(out, IOX2SD_VERSION, answer.length) == 0);
    snprintf(made, sizeof made, "%d.%d.%d", IOX2SD_VERSION_MAJOR, IOX2SD_VERSION_MINOR,
             IOX2SD_VERSION_PATCH);
    CHECK(strcmp(made, IOX2SD_VERSION) == 0);
}

int main(void) {
    refused_handles();
    words_and_makers();
    openers();
    keys_of_openers();
    statuses_are_ok();
    static_texts();
    arrays_of_null();
    texts_of_null();
    texts_that_end();
    ids_of_texts();
    named_capacities();
    reported_order();
    version();
    return end_of_checks();
}
