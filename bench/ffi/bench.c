/* Times of single calls from C, in nanoseconds: figures as this machine gives them, no test. Each
 * is the least of many short rounds, beside the time that it is to take at most. */
#define _POSIX_C_SOURCE 199309L
#include "iox2sd_script.h"
#include "iox2sd_values.h"

#include <stdio.h>
#include <stdlib.h>
#include <string.h>
#include <time.h>

enum { CALLS = 50000, FEWER_CALLS = CALLS / 50, ROUNDS = 200, PAIRS = 16, REQUIRED = 4 };

static double now(void) {
    struct timespec t;
    clock_gettime(CLOCK_MONOTONIC, &t);
    return t.tv_sec * 1e9 + t.tv_nsec;
}

static volatile size_t sink;

/* Prints a row of the table: `each` calls of these are made at a time, `times` times a round. */
#define TIME(name, goal, times, each, calls)                                                      \
    do {                                                                                          \
        double least = 1e18;                                                                      \
        for (int round = 0; round < ROUNDS; round++) {                                            \
            double start = now();                                                                 \
            for (size_t i = 0; i < (times); i++) { calls; }                                       \
            double taken = (now() - start) / (times) / (each);                                    \
            if (taken < least) least = taken;                                                     \
        }                                                                                         \
        printf("| %-46s | %8.1f | %4s |\n", name, least, goal);                                   \
    } while (0)

/* The call has to be done. */
static size_t done(uint32_t status) {
    if (status != IOX2SD_STATUS_DONE) {
        printf("status %u\n", (unsigned)status);
        exit(1);
    }
    return status;
}

static iox2sd_id id(uint32_t counter) {
    iox2sd_id made = {1, 2, 3, counter};
    return made;
}

static iox2sd_port_details port(uint64_t role, uint32_t counter, iox2sd_id node) {
    iox2sd_port_details made = {0};
    made.role = role;
    made.port = id(counter);
    made.node = node;
    return made;
}

/* A handle that the call has to give. */
static iox2sd_handle given(iox2sd_handle_answer answer) {
    done(answer.status);
    return answer.handle;
}

/* A service of the default size with so many nodes and subscribers, each of the first node. */
static void fill(iox2sd_service *service, size_t nodes, size_t subscribers) {
    iox2sd_publish_subscribe_settings room = iox2sd_publish_subscribe_defaults();
    iox2sd_capacities most = {room.max_nodes, room.max_publishers, room.max_subscribers};
    done(iox2sd_service_create(service, IOX2SD_PATTERN_PUBLISH_SUBSCRIBE, 7, most, UINT64_MAX));
    for (uint32_t i = 0; i < nodes; i++) given(iox2sd_register_node_id(service, id(1 + i)));
    for (uint32_t i = 0; i < subscribers; i++) {
        iox2sd_port_details its = port(IOX2SD_ROLE_SUBSCRIBER, i, id(1));
        given(iox2sd_attach(service, &its));
    }
}

static void services(void) {
    iox2sd_service service = IOX2SD_SERVICE_NONE;
    iox2sd_port_details out[8], its = port(IOX2SD_ROLE_PUBLISHER, 50, id(1));
    TIME("make and free", "", FEWER_CALLS, 2,
         fill(&service, 0, 0);
         sink += done(iox2sd_service_free(&service)));
    fill(&service, 1, 0);
    TIME("register, deregister; 1 node stands", "20", CALLS, 2,
         sink += done(iox2sd_deregister_node_id(&service,
                                                given(iox2sd_register_node_id(&service, id(99))))));
    done(iox2sd_service_free(&service));
    fill(&service, 19, 8);
    TIME("register, deregister; 19 nodes and 8 ports", "20", CALLS, 2,
         sink += done(iox2sd_deregister_node_id(&service,
                                                given(iox2sd_register_node_id(&service, id(99))))));
    TIME("attach, release; 19 nodes and 8 ports", "", CALLS, 2,
         sink += done(iox2sd_release_port(&service, given(iox2sd_attach(&service, &its)))));
    TIME("list of 8 ports of a role", "60", CALLS, 1,
         sink += done(iox2sd_ports(&service, IOX2SD_ROLE_SUBSCRIBER, out, 8).status));
    TIME("list of 8 ports of a node", "", CALLS, 1,
         sink += done(iox2sd_ports_of(&service, id(1), out, 8).status));
    done(iox2sd_service_free(&service));
}

static iox2sd_type_detail part(const char *name, size_t size, size_t alignment) {
    iox2sd_type_detail detail = {(const uint8_t *)name, strlen(name), IOX2SD_VARIANT_FIXED_SIZE,
                                 size, alignment};
    return detail;
}

static void values(void) {
    iox2sd_message_details details = {part("Header", 8, 8), part("UserHeader", 4, 4),
                                      part("Payload", 8, 8)};
    uint8_t out[64];
    char keys[PAIRS][16], texts[PAIRS][16];
    iox2sd_attribute pairs[PAIRS], required[REQUIRED / 2];
    iox2sd_key asked[REQUIRED / 2];
    for (int i = 0; i < PAIRS; i++) {
        sprintf(keys[i], "camera.key.%02d", i);
        sprintf(texts[i], "value %02d", i);
        pairs[i].key = (const uint8_t *)keys[i];
        pairs[i].key_length = strlen(keys[i]);
        pairs[i].value = (const uint8_t *)texts[i];
        pairs[i].value_length = strlen(texts[i]);
    }
    for (int i = 0; i < REQUIRED / 2; i++) {
        required[i] = pairs[PAIRS - 1 - i];
        asked[i].text = pairs[i].key;
        asked[i].length = pairs[i].key_length;
    }
    TIME("layout of a message", "20", CALLS, 1,
         sink += iox2sd_message_sample_layout(&details, i & 1023).size);
    TIME("offsets in a message", "20", CALLS, 1,
         sink += iox2sd_message_places(&details, i * 8).payload);
    TIME("compatible messages", "", FEWER_CALLS, 1,
         sink += done(iox2sd_message_is_compatible_to(&details, &details).status));
    TIME("hash text", "", FEWER_CALLS, 1,
         sink += done(iox2sd_hash_text(IOX2SD_PATTERN_EVENT, (const uint8_t *)"My/Service", 10, out,
                                       sizeof out).status));
    TIME("2 pairs and 2 keys required of 16 pairs", "400", FEWER_CALLS, 1,
         sink += done(iox2sd_attributes_verify(pairs, PAIRS, required, REQUIRED / 2, asked,
                                               REQUIRED / 2).status));
}

static void scripts(void) {
    static const char script[] = "service event 7 1 2 2\nregister 1.0.0.1\n";
    uint8_t out[64];
    TIME("script of one command", "", FEWER_CALLS, 1,
         sink += done(iox2sd_script_run((const uint8_t *)script, sizeof script - 1, out,
                                        sizeof out).status));
}

int main(void) {
    printf("| %-46s | %8s | %4s |\n|---|---|---|\n", "Call", "ns", "Goal");
    services();
    values();
    scripts();
    return 0;
}
