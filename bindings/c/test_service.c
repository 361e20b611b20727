/* Calls each function of iox2sd.h on services, ids and statuses, and each of their refusals, with
 * unequal values in all places. Compiled as C99 and linked with libiox2sd.a. The last line is 'N
 * checks, N failed'. */
#include "check.h"

#include <string.h>

static bool same_text(const uint8_t *out, iox2sd_text_answer answer, const char *wanted) {
    return answer.status == IOX2SD_STATUS_DONE && answer.length == strlen(wanted) &&
           memcmp(out, wanted, answer.length) == 0;
}

static bool same_id(iox2sd_id a, iox2sd_id b) { return memcmp(&a, &b, sizeof a) == 0; }

static iox2sd_handle handle(uint64_t service, uint64_t role, size_t slot, uint64_t ticket) {
    iox2sd_handle made;
    made.service = service;
    made.role = role;
    made.slot = slot;
    made.ticket = ticket;
    return made;
}

static bool same_handle(iox2sd_handle a, iox2sd_handle b) { return memcmp(&a, &b, sizeof a) == 0; }

static bool gives(iox2sd_handle_answer answer, iox2sd_handle wanted) {
    return answer.status == IOX2SD_STATUS_DONE && same_handle(answer.handle, wanted);
}

static bool refuses(iox2sd_handle_answer answer, uint32_t status) {
    return answer.status == status && same_handle(answer.handle, handle(0, IOX2SD_ROLE_NONE, 0, 0));
}

static bool counts(iox2sd_count_answer answer, uint32_t status, size_t count) {
    return answer.status == status && answer.count == count;
}

static bool tells(iox2sd_number_answer answer, uint32_t status, uint64_t number) {
    return answer.status == status && answer.number == number;
}

static bool says(iox2sd_flag_answer answer, uint32_t status, bool yes) {
    return answer.status == status && answer.yes == yes;
}

static bool finds(iox2sd_id_answer answer, uint32_t status, iox2sd_id wanted) {
    return answer.status == status && memcmp(&answer.id, &wanted, sizeof wanted) == 0;
}

static bool went(iox2sd_dead_node_removal answer, uint32_t status, size_t first, size_t second) {
    return answer.status == status && answer.first == first && answer.second == second;
}

static iox2sd_port_details port(uint64_t role, iox2sd_id its, iox2sd_id node) {
    iox2sd_port_details made;
    memset(&made, 0, sizeof made);
    made.role = role;
    made.port = its;
    made.node = node;
    return made;
}

static bool same_port(const iox2sd_port_details *a, const iox2sd_port_details *b) {
    return a->role == b->role && same_id(a->port, b->port) && same_id(a->node, b->node) &&
           a->number_of_samples == b->number_of_samples && a->buffer_size == b->buffer_size &&
           a->request_buffer_size == b->request_buffer_size &&
           a->number_of_responses == b->number_of_responses &&
           a->number_of_requests == b->number_of_requests &&
           a->response_buffer_size == b->response_buffer_size &&
           a->max_slice_len == b->max_slice_len && a->data_segment == b->data_segment &&
           a->max_number_of_segments == b->max_number_of_segments;
}

/* Whether a number is that of a status. */
static bool is_status(uint32_t number) {
    return number <= 18 || number == 20 || number == 21 || (40 <= number && number <= 70);
}

static void statuses(void) {
    enum { MOST = 80 };
    uint8_t texts[MOST][64], out[64], before[64];
    size_t lengths[MOST];
    for (uint32_t number = 0; number < MOST; number++) {
        iox2sd_text_answer needed = iox2sd_status_text(number, NULL, 0);
        memset(out, 7, sizeof out);
        memcpy(before, out, sizeof out);
        lengths[number] = 0;
        if (!is_status(number)) {
            CHECK(needed.status == IOX2SD_STATUS_UNKNOWN_STATUS && needed.length == 0);
            CHECK(iox2sd_status_text(number, out, sizeof out).status ==
                  IOX2SD_STATUS_UNKNOWN_STATUS);
            CHECK(memcmp(out, before, sizeof out) == 0);
            continue;
        }
        CHECK(needed.status == IOX2SD_STATUS_BUFFER_TOO_SHORT && 0 < needed.length &&
              needed.length <= sizeof out);
        CHECK(iox2sd_status_text(number, out, needed.length - 1).status ==
              IOX2SD_STATUS_BUFFER_TOO_SHORT);
        CHECK(memcmp(out, before, sizeof out) == 0);
        CHECK(iox2sd_status_text(number, out, needed.length).status == IOX2SD_STATUS_DONE);
        CHECK(needed.length == sizeof out || out[needed.length] == 7);
        lengths[number] = needed.length;
        memcpy(texts[number], out, needed.length);
        for (uint32_t other = 0; other < number; other++) {
            CHECK(lengths[other] != lengths[number] ||
                  memcmp(texts[other], texts[number], lengths[number]) != 0);
        }
    }
    CHECK(same_text(out, iox2sd_status_text(IOX2SD_STATUS_DONE, out, sizeof out), "done"));
    CHECK(same_text(out, iox2sd_status_text(IOX2SD_STATUS_OUT_OF_SPACE, out, sizeof out),
                    "no slot or no ticket is left"));
    CHECK(same_text(out, iox2sd_status_text(IOX2SD_STATUS_NULL, out, sizeof out), "NULL"));
    CHECK(same_text(out, iox2sd_status_text(IOX2SD_STATUS_BAD_KEY, out, sizeof out),
                    "not a key of a pair"));
    CHECK(same_text(out, iox2sd_status_text(IOX2SD_STATUS_TOO_LARGE, out, sizeof out),
                    "the answer would pass its range"));
    CHECK(same_text(out, iox2sd_status_text(IOX2SD_STATUS_BAD_LINE, out, sizeof out),
                    "a line of the script is not valid"));
    iox2sd_text_answer unknown = iox2sd_status_text(UINT32_MAX, out, sizeof out);
    CHECK(unknown.status == IOX2SD_STATUS_UNKNOWN_STATUS && unknown.length == 0);
    CHECK(iox2sd_abi() == IOX2SD_ABI);
}

static void ids(void) {
    iox2sd_id a = id(1, 2, 3, 4), most = id(UINT32_MAX, UINT32_MAX, UINT32_MAX, UINT32_MAX);
    uint8_t out[33];
    CHECK(iox2sd_id_is_node(a) && iox2sd_id_is_node(id(1, 0, 0, 0)) &&
          iox2sd_id_is_node(id(0, 0, 0, 1)));
    CHECK(!iox2sd_id_is_node(id(0, 5, 6, 0)));
    CHECK(iox2sd_id_owner_id(a) == 0x100000004u && iox2sd_id_owner_id(id(0, 5, 6, 0)) == 0);
    CHECK(iox2sd_id_owner_id(most) == UINT64_MAX);
    CHECK(iox2sd_id_is_before(a, id(2, 0, 0, 0)) && !iox2sd_id_is_before(id(2, 0, 0, 0), a));
    CHECK(iox2sd_id_is_before(a, id(1, 3, 0, 0)) && iox2sd_id_is_before(a, id(1, 2, 4, 0)));
    CHECK(iox2sd_id_is_before(a, id(1, 2, 3, 5)) && !iox2sd_id_is_before(a, a));
    CHECK(same_text(out, iox2sd_id_text(a, out, sizeof out), "1000000020000000300000004"));
    CHECK(same_text(out, iox2sd_id_text(most, out, 32), "ffffffffffffffffffffffffffffffff"));
    memset(out, 7, sizeof out);
    iox2sd_text_answer shorter = iox2sd_id_text(most, out, 31);
    CHECK(shorter.status == IOX2SD_STATUS_BUFFER_TOO_SHORT && shorter.length == 32 && out[0] == 7 &&
          out[30] == 7);
    CHECK(same_text(out, iox2sd_id_text(id(0, 0, 0, 0), out, 1), "0"));
}

static void null_and_empty_places(void) {
    iox2sd_service none = IOX2SD_SERVICE_NONE;
    iox2sd_id node = id(1, 2, 3, 4);
    iox2sd_handle some = handle(5, 0, 6, 7);
    iox2sd_port_details its = port(IOX2SD_ROLE_PUBLISHER, id(9, 9, 9, 9), node);
    CHECK(iox2sd_service_create(NULL, IOX2SD_PATTERN_EVENT, 5, capacities(2, 3, 4), 9) ==
          IOX2SD_STATUS_NULL);
    CHECK(iox2sd_service_free(NULL) == IOX2SD_STATUS_NULL);
    CHECK(refuses(iox2sd_register_node_id(NULL, node), IOX2SD_STATUS_NULL));
    CHECK(iox2sd_deregister_node_id(NULL, some) == IOX2SD_STATUS_NULL);
    CHECK(refuses(iox2sd_attach(NULL, &its), IOX2SD_STATUS_NULL));
    CHECK(refuses(iox2sd_attach(&none, NULL), IOX2SD_STATUS_NULL));
    CHECK(refuses(iox2sd_attach(NULL, NULL), IOX2SD_STATUS_NULL));
    CHECK(iox2sd_release_port(NULL, some) == IOX2SD_STATUS_NULL);
    CHECK(went(iox2sd_remove_dead_node_id(NULL, node, NULL, 0), IOX2SD_STATUS_NULL, 0, 0));
    CHECK(went(iox2sd_remove_dead_node_id(&none, node, NULL, 1), IOX2SD_STATUS_NULL, 0, 0));
    CHECK(counts(iox2sd_ports(NULL, IOX2SD_ROLE_PUBLISHER, NULL, 0), IOX2SD_STATUS_NULL, 0));
    CHECK(counts(iox2sd_ports(&none, IOX2SD_ROLE_PUBLISHER, NULL, 1), IOX2SD_STATUS_NULL, 0));
    CHECK(counts(iox2sd_ports_of(NULL, id(0, 1, 1, 0), NULL, 0), IOX2SD_STATUS_NULL, 0));
    CHECK(counts(iox2sd_ports_of(&none, id(0, 1, 1, 0), NULL, 1), IOX2SD_STATUS_NULL, 0));
    iox2sd_service *places[] = {NULL, &none};
    uint32_t wanted[] = {IOX2SD_STATUS_NULL, IOX2SD_STATUS_NO_SERVICE};
    for (size_t i = 0; i < 2; i++) {
        CHECK(tells(iox2sd_messaging_pattern(places[i]), wanted[i], 0));
        CHECK(tells(iox2sd_service_number(places[i]), wanted[i], 0));
        iox2sd_roles_answer roles = iox2sd_port_roles(places[i]);
        CHECK(roles.status == wanted[i] && roles.first == 0 && roles.second == 0);
        CHECK(says(iox2sd_has_role(places[i], 99), wanted[i], false));
        CHECK(says(iox2sd_is_locked(places[i]), wanted[i], false));
        CHECK(counts(iox2sd_number_of_nodes(places[i]), wanted[i], 0));
        CHECK(counts(iox2sd_max_nodes(places[i]), wanted[i], 0));
        CHECK(says(iox2sd_has_room_for_node(places[i]), wanted[i], false));
        CHECK(counts(iox2sd_count_ports(places[i], 99), wanted[i], 0));
        CHECK(counts(iox2sd_max_ports(places[i], 99), wanted[i], 0));
        CHECK(says(iox2sd_has_room(places[i], 99), wanted[i], false));
        CHECK(finds(iox2sd_node(places[i], handle(5, 99, 6, 7)), wanted[i], id(0, 0, 0, 0)));
        iox2sd_port_answer found = iox2sd_port(places[i], handle(5, 99, 6, 7));
        iox2sd_port_details zero = port(0, id(0, 0, 0, 0), id(0, 0, 0, 0));
        CHECK(found.status == wanted[i] && same_port(&found.port, &zero));
        CHECK(counts(iox2sd_nodes(places[i], NULL, 0), wanted[i], 0));
    }
    CHECK(counts(iox2sd_nodes(&none, NULL, 1), IOX2SD_STATUS_NULL, 0));
    CHECK(iox2sd_service_free(&none) == IOX2SD_STATUS_NO_SERVICE);
    CHECK(refuses(iox2sd_register_node_id(&none, id(0, 1, 1, 0)), IOX2SD_STATUS_NO_SERVICE));
    CHECK(iox2sd_deregister_node_id(&none, handle(5, 99, 6, 7)) == IOX2SD_STATUS_NO_SERVICE);
    CHECK(refuses(iox2sd_attach(&none, &its), IOX2SD_STATUS_NO_SERVICE));
    CHECK(iox2sd_release_port(&none, some) == IOX2SD_STATUS_NO_SERVICE);
    CHECK(went(iox2sd_remove_dead_node_id(&none, id(0, 1, 1, 0), NULL, 0), IOX2SD_STATUS_NO_SERVICE,
               0, 0));
    CHECK(counts(iox2sd_ports(&none, 99, &its, 1), IOX2SD_STATUS_NO_SERVICE, 0));
    CHECK(counts(iox2sd_ports_of(&none, id(0, 1, 1, 0), &its, 1), IOX2SD_STATUS_NO_SERVICE, 0));
}

static void making(void) {
    iox2sd_service service = IOX2SD_SERVICE_NONE;
    CHECK(iox2sd_service_create(&service, 4, 5, capacities(SIZE_MAX, 3, 4), 9) ==
          IOX2SD_STATUS_UNKNOWN_PATTERN);
    CHECK(iox2sd_service_create(&service, IOX2SD_PATTERN_EVENT, 5, capacities(SIZE_MAX, 3, 4), 9) ==
          IOX2SD_STATUS_NO_MEMORY);
    CHECK(iox2sd_service_create(&service, IOX2SD_PATTERN_EVENT, 5, capacities(2, SIZE_MAX, 4), 9) ==
          IOX2SD_STATUS_NO_MEMORY);
    CHECK(iox2sd_service_create(&service, IOX2SD_PATTERN_EVENT, 5, capacities(2, 3, SIZE_MAX), 9) ==
          IOX2SD_STATUS_NO_MEMORY);
    CHECK(iox2sd_service_free(&service) == IOX2SD_STATUS_NO_SERVICE);
    CHECK(iox2sd_service_create(&service, IOX2SD_PATTERN_EVENT, 5, capacities(2, 3, 4), 9) ==
          IOX2SD_STATUS_DONE);
    CHECK(iox2sd_service_create(&service, 4, 6, capacities(1, 1, 1), 1) ==
          IOX2SD_STATUS_HAS_SERVICE);
    CHECK(gives(iox2sd_register_node_id(&service, id(1, 2, 3, 4)),
                handle(5, IOX2SD_ROLE_NODE, 0, 0)));
    CHECK(iox2sd_service_free(&service) == IOX2SD_STATUS_DONE);
    CHECK(iox2sd_service_free(&service) == IOX2SD_STATUS_NO_SERVICE);
}

static void nodes(void) {
    iox2sd_service service = IOX2SD_SERVICE_NONE;
    iox2sd_id a = id(1, 2, 3, 4), b = id(5, 6, 7, 8);
    CHECK(iox2sd_service_create(&service, IOX2SD_PATTERN_BLACKBOARD, 77, capacities(2, 3, 4), 3) ==
          IOX2SD_STATUS_DONE);
    CHECK(refuses(iox2sd_register_node_id(&service, id(0, 6, 7, 0)), IOX2SD_STATUS_NO_NODE));
    CHECK(gives(iox2sd_register_node_id(&service, a), handle(77, IOX2SD_ROLE_NODE, 0, 0)));
    CHECK(gives(iox2sd_register_node_id(&service, b), handle(77, IOX2SD_ROLE_NODE, 1, 1)));
    CHECK(refuses(iox2sd_register_node_id(&service, b), IOX2SD_STATUS_OUT_OF_SPACE));
    CHECK(iox2sd_deregister_node_id(&service, handle(77, 9, 0, 0)) == IOX2SD_STATUS_UNKNOWN_ROLE);
    CHECK(iox2sd_deregister_node_id(&service, handle(77, UINT64_C(1) << 32, 0, 0)) ==
          IOX2SD_STATUS_UNKNOWN_ROLE);
    CHECK(iox2sd_deregister_node_id(&service, handle(78, IOX2SD_ROLE_NODE, 0, 0)) ==
          IOX2SD_STATUS_FOREIGN_HANDLE);
    CHECK(iox2sd_deregister_node_id(&service, handle(77, IOX2SD_ROLE_READER, 0, 0)) ==
          IOX2SD_STATUS_FOREIGN_HANDLE);
    CHECK(iox2sd_deregister_node_id(&service, handle(77, IOX2SD_ROLE_NODE, 1, 0)) ==
          IOX2SD_STATUS_FOREIGN_HANDLE);
    CHECK(iox2sd_deregister_node_id(&service, handle(77, IOX2SD_ROLE_NODE, 0, 1)) ==
          IOX2SD_STATUS_FOREIGN_HANDLE);
    CHECK(iox2sd_deregister_node_id(&service, handle(77, IOX2SD_ROLE_NODE, 0, 0)) ==
          IOX2SD_STATUS_DONE);
    CHECK(gives(iox2sd_register_node_id(&service, a), handle(77, IOX2SD_ROLE_NODE, 0, 2)));
    CHECK(iox2sd_deregister_node_id(&service, handle(77, IOX2SD_ROLE_NODE, 1, 1)) ==
          IOX2SD_STATUS_DONE);
    CHECK(refuses(iox2sd_register_node_id(&service, b),
                  IOX2SD_STATUS_OUT_OF_SPACE)); /* no ticket is left */
    CHECK(iox2sd_deregister_node_id(&service, handle(77, IOX2SD_ROLE_NODE, 0, 2)) ==
          IOX2SD_STATUS_DONE_LOCKED);
    CHECK(refuses(iox2sd_register_node_id(&service, id(0, 6, 7, 0)), IOX2SD_STATUS_NO_NODE));
    CHECK(refuses(iox2sd_register_node_id(&service, b), IOX2SD_STATUS_IS_LOCKED));
    iox2sd_service_free(&service);
}

/* A port of each kind, with a value of its own in each field, those that its kind does not have
 * too. */
static iox2sd_port_details full(uint64_t role, uint32_t counter, iox2sd_id node) {
    iox2sd_port_details made = port(role, id(11, 12, 13, counter), node);
    made.number_of_samples = 101;
    made.buffer_size = 102;
    made.request_buffer_size = 103;
    made.number_of_responses = 104;
    made.number_of_requests = 105;
    made.response_buffer_size = 106;
    made.max_slice_len = 107;
    made.data_segment = IOX2SD_SEGMENT_STATIC;
    made.max_number_of_segments = 108;
    return made;
}

/* What is told of it. */
static iox2sd_port_details told(uint64_t role, uint32_t counter, iox2sd_id node) {
    iox2sd_port_details made = port(role, id(11, 12, 13, counter), node);
    bool sends =
        role == IOX2SD_ROLE_PUBLISHER || role == IOX2SD_ROLE_SERVER || role == IOX2SD_ROLE_CLIENT;
    if (role == IOX2SD_ROLE_PUBLISHER) made.number_of_samples = 101;
    if (role == IOX2SD_ROLE_SUBSCRIBER) made.buffer_size = 102;
    if (role == IOX2SD_ROLE_SERVER) made.request_buffer_size = 103;
    if (role == IOX2SD_ROLE_SERVER) made.number_of_responses = 104;
    if (role == IOX2SD_ROLE_CLIENT) made.number_of_requests = 105;
    if (role == IOX2SD_ROLE_CLIENT) made.response_buffer_size = 106;
    if (sends) made.max_slice_len = 107;
    if (sends) made.data_segment = IOX2SD_SEGMENT_STATIC;
    if (sends) made.max_number_of_segments = 108;
    return made;
}

static const uint64_t first_roles[] = {IOX2SD_ROLE_PUBLISHER, IOX2SD_ROLE_LISTENER,
                                       IOX2SD_ROLE_SERVER, IOX2SD_ROLE_READER};
static const uint64_t second_roles[] = {IOX2SD_ROLE_SUBSCRIBER, IOX2SD_ROLE_NOTIFIER,
                                        IOX2SD_ROLE_CLIENT, IOX2SD_ROLE_WRITER};

static void ports_of_pattern(uint32_t pattern) {
    uint64_t first = first_roles[pattern], second = second_roles[pattern];
    iox2sd_service service = IOX2SD_SERVICE_NONE;
    iox2sd_id node = id(1, 2, 3, 4), other = id(5, 6, 7, 8);
    iox2sd_port_details out[5], before[5], wanted;
    CHECK(iox2sd_service_create(&service, pattern, 77, capacities(2, 2, 3), 9) ==
          IOX2SD_STATUS_DONE);
    CHECK(gives(iox2sd_register_node_id(&service, node), handle(77, IOX2SD_ROLE_NODE, 0, 0)));
    CHECK(gives(iox2sd_register_node_id(&service, other), handle(77, IOX2SD_ROLE_NODE, 1, 1)));
    for (uint32_t i = 0; i < 2; i++) {
        iox2sd_port_details its = full(first, 20 + i, i == 0 ? node : other);
        CHECK(gives(iox2sd_attach(&service, &its), handle(77, first, i, i)));
    }
    for (uint32_t i = 0; i < 3; i++) {
        iox2sd_port_details its = full(second, 30 + i, i == 1 ? node : other);
        CHECK(gives(iox2sd_attach(&service, &its), handle(77, second, i, i)));
    }
    iox2sd_port_details its = full(first, 40, node);
    CHECK(refuses(iox2sd_attach(&service, &its), IOX2SD_STATUS_OUT_OF_SPACE));
    for (size_t i = 0; i < 5; i++) out[i] = full(IOX2SD_ROLE_NODE, 50, other);
    memcpy(before, out, sizeof out);
    CHECK(counts(iox2sd_ports(&service, second, NULL, 0), IOX2SD_STATUS_BUFFER_TOO_SHORT, 3));
    CHECK(counts(iox2sd_ports(&service, second, out, 2), IOX2SD_STATUS_BUFFER_TOO_SHORT, 3));
    CHECK(counts(iox2sd_ports(&service, IOX2SD_ROLE_NODE, out, 5),
                 IOX2SD_STATUS_ROLE_NOT_IN_PATTERN, 0));
    CHECK(counts(iox2sd_ports(&service, first_roles[(pattern + 1) % 4], out, 5),
                 IOX2SD_STATUS_ROLE_NOT_IN_PATTERN, 0));
    CHECK(counts(iox2sd_ports(&service, 9, out, 5), IOX2SD_STATUS_UNKNOWN_ROLE, 0));
    for (size_t i = 0; i < 5; i++) CHECK(same_port(&out[i], &before[i]));
    CHECK(counts(iox2sd_ports(&service, second, out, 3), IOX2SD_STATUS_DONE, 3));
    for (uint32_t i = 0; i < 3; i++) {
        wanted = told(second, 30 + i, i == 1 ? node : other);
        CHECK(same_port(&out[i], &wanted));
    }
    CHECK(same_port(&out[3], &before[3]) && same_port(&out[4], &before[4]));
    CHECK(counts(iox2sd_ports(&service, first, out, 5), IOX2SD_STATUS_DONE, 2));
    wanted = told(first, 21, other);
    CHECK(same_port(&out[1], &wanted) && same_port(&out[4], &before[4]));
    CHECK(iox2sd_release_port(&service, handle(77, 10, 0, 0)) == IOX2SD_STATUS_UNKNOWN_ROLE);
    CHECK(iox2sd_release_port(&service, handle(77, IOX2SD_ROLE_NODE, 0, 0)) ==
          IOX2SD_STATUS_FOREIGN_HANDLE);
    CHECK(iox2sd_release_port(&service, handle(77, first, 2, 2)) == IOX2SD_STATUS_FOREIGN_HANDLE);
    CHECK(iox2sd_release_port(&service, handle(77, second, 2, 2)) == IOX2SD_STATUS_DONE);
    CHECK(iox2sd_release_port(&service, handle(77, second, 2, 2)) == IOX2SD_STATUS_FOREIGN_HANDLE);
    CHECK(iox2sd_deregister_node_id(&service, handle(77, IOX2SD_ROLE_NODE, 0, 0)) ==
          IOX2SD_STATUS_PORTS_STILL_ATTACHED);
    /* a death of which one port is kept, by its kind and its id, then of which none is */
    iox2sd_port_id kept[3] = {{second, id(99, 99, 99, 99)},
                              {second, id(11, 12, 13, 31)},
                              {IOX2SD_ROLE_NODE, id(11, 12, 13, 31)}};
    const iox2sd_port_id other_kind = {first, id(11, 12, 13, 31)};
    CHECK(went(iox2sd_remove_dead_node_id(&service, id(0, 2, 3, 0), kept, 3), IOX2SD_STATUS_NO_NODE,
               0, 0));
    CHECK(went(iox2sd_remove_dead_node_id(&service, node, kept, 3), IOX2SD_STATUS_UNKNOWN_ROLE, 0,
               0));
    kept[2].role = 9;
    CHECK(went(iox2sd_remove_dead_node_id(&service, node, kept, 3), IOX2SD_STATUS_UNKNOWN_ROLE, 0,
               0));
    CHECK(went(iox2sd_remove_dead_node_id(&service, node, kept, 2), IOX2SD_STATUS_DONE, 1, 0));
    CHECK(went(iox2sd_remove_dead_node_id(&service, node, kept, 2), IOX2SD_STATUS_DONE, 0, 0));
    CHECK(iox2sd_deregister_node_id(&service, handle(77, IOX2SD_ROLE_NODE, 0, 0)) ==
          IOX2SD_STATUS_PORTS_STILL_ATTACHED);
    CHECK(
        went(iox2sd_remove_dead_node_id(&service, node, &other_kind, 1), IOX2SD_STATUS_DONE, 0, 1));
    CHECK(iox2sd_deregister_node_id(&service, handle(77, IOX2SD_ROLE_NODE, 0, 0)) ==
          IOX2SD_STATUS_FOREIGN_HANDLE);
    CHECK(went(iox2sd_remove_dead_node_id(&service, other, NULL, 0), IOX2SD_STATUS_DONE_LOCKED, 1,
               1));
    CHECK(went(iox2sd_remove_dead_node_id(&service, other, NULL, 0), IOX2SD_STATUS_DONE_LOCKED, 0,
               0));
    CHECK(counts(iox2sd_ports(&service, first, NULL, 0), IOX2SD_STATUS_DONE, 0));
    iox2sd_service_free(&service);
}

/* The ports of a node among those of another with the same owner id: their kinds, then their slots,
 * tell the order. */
static void ports_of_nodes(uint32_t pattern) {
    uint64_t first = first_roles[pattern], second = second_roles[pattern];
    iox2sd_service service = IOX2SD_SERVICE_NONE;
    iox2sd_id node = id(1, 2, 3, 4), twin = id(1, 6, 7, 4), absent = id(1, 2, 4, 4);
    iox2sd_port_details out[5], before[5], wanted;
    iox2sd_handle_answer second_slot;
    CHECK(iox2sd_service_create(&service, pattern, 77, capacities(2, 3, 4), 9) ==
          IOX2SD_STATUS_DONE);
    CHECK(iox2sd_register_node_id(&service, node).status == IOX2SD_STATUS_DONE);
    CHECK(iox2sd_register_node_id(&service, twin).status == IOX2SD_STATUS_DONE);
    iox2sd_port_details its[] = {full(second, 30, node), full(second, 31, twin),
                                 full(second, 32, node), full(first, 20, node),
                                 full(first, 21, twin),  full(first, 22, node)};
    for (size_t i = 0; i < 6; i++) {
        iox2sd_handle_answer made = iox2sd_attach(&service, &its[i]);
        CHECK(made.status == IOX2SD_STATUS_DONE);
        if (i == 0) second_slot = made;
    }
    for (size_t i = 0; i < 5; i++) out[i] = full(IOX2SD_ROLE_NODE, 50, twin);
    memcpy(before, out, sizeof out);
    CHECK(counts(iox2sd_ports_of(&service, id(0, 2, 3, 0), NULL, 0), IOX2SD_STATUS_NO_NODE, 0));
    CHECK(counts(iox2sd_ports_of(&service, node, NULL, 0), IOX2SD_STATUS_BUFFER_TOO_SHORT, 4));
    CHECK(counts(iox2sd_ports_of(&service, node, out, 3), IOX2SD_STATUS_BUFFER_TOO_SHORT, 4));
    CHECK(counts(iox2sd_ports_of(&service, absent, out, 5), IOX2SD_STATUS_DONE, 0));
    CHECK(counts(iox2sd_ports_of(&service, absent, NULL, 0), IOX2SD_STATUS_DONE, 0));
    for (size_t i = 0; i < 5; i++) CHECK(same_port(&out[i], &before[i]));
    CHECK(counts(iox2sd_ports_of(&service, node, out, 4), IOX2SD_STATUS_DONE, 4));
    static const uint32_t in_order[] = {20, 22, 30, 32};
    for (size_t i = 0; i < 4; i++) {
        wanted = told(i < 2 ? first : second, in_order[i], node);
        CHECK(same_port(&out[i], &wanted));
    }
    CHECK(same_port(&out[4], &before[4]));
    /* a port that came later stands where its slot is */
    CHECK(iox2sd_release_port(&service, second_slot.handle) == IOX2SD_STATUS_DONE);
    iox2sd_port_details late = full(second, 33, node);
    CHECK(gives(iox2sd_attach(&service, &late), handle(77, second, 0, 3)));
    CHECK(counts(iox2sd_ports_of(&service, node, out, 5), IOX2SD_STATUS_DONE, 4));
    wanted = told(second, 33, node);
    CHECK(same_port(&out[2], &wanted));
    CHECK(counts(iox2sd_ports_of(&service, twin, out, 2), IOX2SD_STATUS_DONE, 2));
    wanted = told(second, 31, twin);
    CHECK(same_port(&out[1], &wanted));
    CHECK(went(iox2sd_remove_dead_node_id(&service, node, NULL, 0), IOX2SD_STATUS_DONE, 2, 2));
    CHECK(counts(iox2sd_ports_of(&service, node, NULL, 0), IOX2SD_STATUS_DONE, 0));
    CHECK(counts(iox2sd_ports_of(&service, twin, NULL, 0), IOX2SD_STATUS_BUFFER_TOO_SHORT, 2));
    iox2sd_service_free(&service);
}

/* What a service tells of itself, with unequal numbers in all places. */
static void questions_of_pattern(uint32_t pattern) {
    uint64_t first = first_roles[pattern], second = second_roles[pattern],
             foreign = first_roles[(pattern + 1) % 4];
    iox2sd_service service = IOX2SD_SERVICE_NONE;
    iox2sd_id a = id(1, 2, 3, 4), b = id(5, 6, 7, 8), out[4], before[4];
    CHECK(iox2sd_service_create(&service, pattern, 77, capacities(3, 1, 2), 9) ==
          IOX2SD_STATUS_DONE);
    CHECK(iox2sd_register_node_id(&service, a).status == IOX2SD_STATUS_DONE);
    CHECK(iox2sd_register_node_id(&service, b).status == IOX2SD_STATUS_DONE);
    iox2sd_port_details one = full(first, 20, a), other = full(second, 30, b);
    CHECK(iox2sd_attach(&service, &one).status == IOX2SD_STATUS_DONE);
    CHECK(iox2sd_attach(&service, &other).status == IOX2SD_STATUS_DONE);
    CHECK(tells(iox2sd_messaging_pattern(&service), IOX2SD_STATUS_DONE, pattern));
    CHECK(tells(iox2sd_service_number(&service), IOX2SD_STATUS_DONE, 77));
    iox2sd_roles_answer roles = iox2sd_port_roles(&service);
    CHECK(roles.status == IOX2SD_STATUS_DONE && roles.first == first && roles.second == second);
    CHECK(says(iox2sd_has_role(&service, first), IOX2SD_STATUS_DONE, true));
    CHECK(says(iox2sd_has_role(&service, second), IOX2SD_STATUS_DONE, true));
    CHECK(says(iox2sd_has_role(&service, foreign), IOX2SD_STATUS_DONE, false));
    CHECK(says(iox2sd_has_role(&service, IOX2SD_ROLE_NODE), IOX2SD_STATUS_DONE, false));
    CHECK(says(iox2sd_has_role(&service, 9), IOX2SD_STATUS_UNKNOWN_ROLE, false));
    CHECK(says(iox2sd_is_locked(&service), IOX2SD_STATUS_DONE, false));
    CHECK(counts(iox2sd_number_of_nodes(&service), IOX2SD_STATUS_DONE, 2));
    CHECK(counts(iox2sd_max_nodes(&service), IOX2SD_STATUS_DONE, 3));
    CHECK(says(iox2sd_has_room_for_node(&service), IOX2SD_STATUS_DONE, true));
    CHECK(counts(iox2sd_count_ports(&service, first), IOX2SD_STATUS_DONE, 1));
    CHECK(counts(iox2sd_count_ports(&service, foreign), IOX2SD_STATUS_ROLE_NOT_IN_PATTERN, 0));
    CHECK(counts(iox2sd_count_ports(&service, IOX2SD_ROLE_NODE), IOX2SD_STATUS_ROLE_NOT_IN_PATTERN,
                 0));
    CHECK(counts(iox2sd_count_ports(&service, 9), IOX2SD_STATUS_UNKNOWN_ROLE, 0));
    CHECK(counts(iox2sd_max_ports(&service, first), IOX2SD_STATUS_DONE, 1));
    CHECK(counts(iox2sd_max_ports(&service, second), IOX2SD_STATUS_DONE, 2));
    CHECK(counts(iox2sd_max_ports(&service, foreign), IOX2SD_STATUS_ROLE_NOT_IN_PATTERN, 0));
    CHECK(counts(iox2sd_max_ports(&service, 9), IOX2SD_STATUS_UNKNOWN_ROLE, 0));
    CHECK(says(iox2sd_has_room(&service, first), IOX2SD_STATUS_DONE, false));
    CHECK(says(iox2sd_has_room(&service, second), IOX2SD_STATUS_DONE, true));
    CHECK(says(iox2sd_has_room(&service, foreign), IOX2SD_STATUS_ROLE_NOT_IN_PATTERN, false));
    CHECK(says(iox2sd_has_room(&service, 9), IOX2SD_STATUS_UNKNOWN_ROLE, false));
    CHECK(finds(iox2sd_node(&service, handle(77, IOX2SD_ROLE_NODE, 1, 1)), IOX2SD_STATUS_DONE, b));
    CHECK(finds(iox2sd_node(&service, handle(77, IOX2SD_ROLE_NODE, 1, 2)),
                IOX2SD_STATUS_FOREIGN_HANDLE, id(0, 0, 0, 0)));
    CHECK(finds(iox2sd_node(&service, handle(77, first, 0, 0)), IOX2SD_STATUS_FOREIGN_HANDLE,
                id(0, 0, 0, 0)));
    CHECK(finds(iox2sd_node(&service, handle(77, 9, 0, 0)), IOX2SD_STATUS_UNKNOWN_ROLE,
                id(0, 0, 0, 0)));
    iox2sd_port_answer found = iox2sd_port(&service, handle(77, second, 0, 0));
    iox2sd_port_details wanted = told(second, 30, b),
                        zero = port(0, id(0, 0, 0, 0), id(0, 0, 0, 0));
    CHECK(found.status == IOX2SD_STATUS_DONE && same_port(&found.port, &wanted));
    found = iox2sd_port(&service, handle(77, second, 0, 1));
    CHECK(found.status == IOX2SD_STATUS_FOREIGN_HANDLE && same_port(&found.port, &zero));
    CHECK(iox2sd_port(&service, handle(77, IOX2SD_ROLE_NODE, 0, 0)).status ==
          IOX2SD_STATUS_FOREIGN_HANDLE);
    CHECK(iox2sd_port(&service, handle(77, 9, 0, 0)).status == IOX2SD_STATUS_UNKNOWN_ROLE);
    memset(out, 7, sizeof out);
    memcpy(before, out, sizeof out);
    CHECK(counts(iox2sd_nodes(&service, NULL, 0), IOX2SD_STATUS_BUFFER_TOO_SHORT, 2));
    CHECK(counts(iox2sd_nodes(&service, out, 1), IOX2SD_STATUS_BUFFER_TOO_SHORT, 2));
    CHECK(memcmp(out, before, sizeof out) == 0);
    CHECK(counts(iox2sd_nodes(&service, out, 2), IOX2SD_STATUS_DONE, 2));
    CHECK(same_id(out[0], a) && same_id(out[1], b) && same_id(out[2], before[2]));
    CHECK(IOX2SD_SUCCEEDED(iox2sd_remove_dead_node_id(&service, a, NULL, 0).status));
    CHECK(counts(iox2sd_nodes(&service, out, 4), IOX2SD_STATUS_DONE, 1));
    CHECK(same_id(out[0], b) && same_id(out[1], b) && same_id(out[3], before[3]));
    CHECK(IOX2SD_SUCCEEDED(iox2sd_remove_dead_node_id(&service, b, NULL, 0).status));
    CHECK(says(iox2sd_is_locked(&service), IOX2SD_STATUS_DONE, true));
    CHECK(says(iox2sd_has_room_for_node(&service), IOX2SD_STATUS_DONE, false));
    CHECK(says(iox2sd_has_room(&service, first), IOX2SD_STATUS_DONE, false));
    CHECK(counts(iox2sd_nodes(&service, NULL, 0), IOX2SD_STATUS_DONE, 0));
    iox2sd_service_free(&service);
}

/* Each refusal of attaching, in its order: each call has all the faults of the later ones too. */
static void attaching(void) {
    iox2sd_service service = IOX2SD_SERVICE_NONE;
    iox2sd_id node = id(1, 2, 3, 4);
    iox2sd_port_details its = full(9, 20, id(0, 2, 3, 0));
    CHECK(iox2sd_service_create(&service, IOX2SD_PATTERN_EVENT, 77, capacities(1, 0, 1), 1) ==
          IOX2SD_STATUS_DONE);
    its.data_segment = 2;
    CHECK(refuses(iox2sd_attach(&service, &its), IOX2SD_STATUS_NO_NODE));
    its.node = id(1, 2, 3, 5);
    CHECK(refuses(iox2sd_attach(&service, &its), IOX2SD_STATUS_UNKNOWN_ROLE));
    its.role = IOX2SD_ROLE_NODE;
    CHECK(refuses(iox2sd_attach(&service, &its), IOX2SD_STATUS_UNKNOWN_ROLE));
    its.role = IOX2SD_ROLE_SERVER;
    CHECK(refuses(iox2sd_attach(&service, &its), IOX2SD_STATUS_UNKNOWN_SEGMENT));
    its.role = IOX2SD_ROLE_READER; /* its kind has no segment, so the number is not looked at */
    CHECK(refuses(iox2sd_attach(&service, &its), IOX2SD_STATUS_ROLE_NOT_IN_PATTERN));
    its.role = IOX2SD_ROLE_LISTENER;
    CHECK(iox2sd_register_node_id(&service, node).status == IOX2SD_STATUS_DONE);
    CHECK(refuses(iox2sd_attach(&service, &its), IOX2SD_STATUS_NODE_NOT_REGISTERED));
    its.node = node;
    CHECK(refuses(iox2sd_attach(&service, &its), IOX2SD_STATUS_OUT_OF_SPACE));
    its.role = IOX2SD_ROLE_NOTIFIER;
    CHECK(gives(iox2sd_attach(&service, &its), handle(77, IOX2SD_ROLE_NOTIFIER, 0, 0)));
    CHECK(iox2sd_release_port(&service, handle(77, IOX2SD_ROLE_NOTIFIER, 0, 0)) ==
          IOX2SD_STATUS_DONE);
    CHECK(
        refuses(iox2sd_attach(&service, &its), IOX2SD_STATUS_OUT_OF_SPACE)); /* no ticket is left */
    CHECK(iox2sd_deregister_node_id(&service, handle(77, IOX2SD_ROLE_NODE, 0, 0)) ==
          IOX2SD_STATUS_DONE_LOCKED);
    its.node = id(1, 2, 3, 5);
    CHECK(refuses(iox2sd_attach(&service, &its), IOX2SD_STATUS_IS_LOCKED));
    iox2sd_service_free(&service);
}

int main(void) {
    statuses();
    ids();
    null_and_empty_places();
    making();
    nodes();
    for (uint32_t pattern = 0; pattern < 4; pattern++) ports_of_pattern(pattern);
    for (uint32_t pattern = 0; pattern < 4; pattern++) ports_of_nodes(pattern);
    for (uint32_t pattern = 0; pattern < 4; pattern++) questions_of_pattern(pattern);
    attaching();
    return end_of_checks();
}
