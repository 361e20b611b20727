/* Makes one kind of call as often as a line of standard input says, and writes a number of what was
 * answered: on the library, and where PLAIN is defined on the plain program of plain.cpp. A line is
 * that of bench_calls, CALL NODES SUBSCRIBERS PUBLISHERS ROUNDS CALLS: in each round all is set up
 * anew. The numbers of calls that bench_calls makes too are those that it writes. */
#include <inttypes.h>
#include <stdio.h>
#include <stdlib.h>
#include <string.h>

#ifdef PLAIN
#include "plain.h"
#define SERVICE(call) plain_##call
#else
#include "iox2sd.h"
#define SERVICE(call) iox2sd_##call
#endif

/* A service with its nodes and ports. */
typedef struct attached {
    SERVICE(service) service;
    size_t nodes, subscribers, publishers;
    iox2sd_handle *of_nodes, *of_subscribers;
    iox2sd_port_details *out;
    iox2sd_port_id *kept; /* Those of the subscribers. */
} attached;

static void *array(size_t count, size_t size) {
    void *made = calloc(count + 1, size);
    if (made == NULL) exit(2);
    return made;
}

/* The call has to succeed. */
static uint64_t done(uint32_t status) {
    if (!IOX2SD_SUCCEEDED(status)) {
        fprintf(stderr, "status %" PRIu32 "\n", status);
        exit(2);
    }
    return 1;
}

static iox2sd_id id(uint32_t nanoseconds, size_t counter) {
    iox2sd_id made = {1, 0, 0, 0};
    made.nanoseconds = nanoseconds;
    made.counter = (uint32_t)counter;
    return made;
}

static iox2sd_id node(const attached *all, size_t number) {
    return id(0, number < all->nodes ? all->nodes - number : 1);
}

static iox2sd_port_details subscriber(const attached *all, size_t number) {
    iox2sd_port_details made = {0};
    made.role = IOX2SD_ROLE_SUBSCRIBER;
    made.port = id(1, number);
    made.node = node(all, number);
    made.buffer_size = 2;
    return made;
}

static iox2sd_port_details publisher(const attached *all, size_t number) {
    iox2sd_port_details made = {0};
    made.role = IOX2SD_ROLE_PUBLISHER;
    made.port = id(2, number);
    made.node = node(all, number);
    made.number_of_samples = 2;
    made.max_slice_len = 1;
    made.data_segment = IOX2SD_SEGMENT_STATIC;
    made.max_number_of_segments = 1;
    return made;
}

/* ---- The calls: each but those that change what is set up may be made any number of times ---- */

static uint64_t register_one(attached *all, size_t number) {
    iox2sd_handle_answer made = SERVICE(register_node_id)(&all->service, id(0, number + 1));
    all->of_nodes[number] = made.handle;
    return done(made.status);
}

static uint64_t attach_one(attached *all, size_t number) {
    iox2sd_port_details port = subscriber(all, number);
    iox2sd_handle_answer made = SERVICE(attach)(&all->service, &port);
    all->of_subscribers[number] = made.handle;
    all->kept[number].role = port.role;
    all->kept[number].port = port.port;
    return done(made.status);
}

static uint64_t release_one(attached *all, size_t number) {
    return done(SERVICE(release_port)(&all->service, all->of_subscribers[number]));
}

static uint64_t deregister_one(attached *all, size_t number) {
    return done(SERVICE(deregister_node_id)(&all->service, all->of_nodes[number]));
}

static uint64_t die_one(attached *all, size_t number) {
    iox2sd_dead_node_removal gone =
        SERVICE(remove_dead_node_id)(&all->service, node(all, number), NULL, 0);
    done(gone.status);
    return gone.first + gone.second;
}

static uint64_t keep_all(attached *all, size_t number) {
    iox2sd_dead_node_removal gone =
        SERVICE(remove_dead_node_id)(&all->service, id(0, 1), all->kept, all->subscribers);
    (void)number;
    return done(gone.status) + gone.second;
}

static uint64_t attach_and_release(attached *all, size_t number) {
    iox2sd_port_details port = publisher(all, 0);
    iox2sd_handle_answer made = SERVICE(attach)(&all->service, &port);
    (void)number;
    done(made.status);
    return done(SERVICE(release_port)(&all->service, made.handle));
}

static uint64_t is_locked(attached *all, size_t number) {
    iox2sd_flag_answer answer = SERVICE(is_locked)(&all->service);
    (void)number;
    return done(answer.status) + answer.yes;
}

static uint64_t count(attached *all, size_t number) {
    iox2sd_count_answer answer = SERVICE(count_ports)(&all->service, IOX2SD_ROLE_SUBSCRIBER);
    (void)number;
    done(answer.status);
    return answer.count;
}

static uint64_t port(attached *all, size_t number) {
    iox2sd_port_answer answer =
        SERVICE(port)(&all->service, all->of_subscribers[number % all->subscribers]);
    done(answer.status);
    return answer.port.port.counter;
}

static uint64_t list(attached *all, size_t number) {
    iox2sd_count_answer answer =
        SERVICE(ports)(&all->service, IOX2SD_ROLE_SUBSCRIBER, all->out, all->subscribers);
    (void)number;
    done(answer.status);
    return all->out[answer.count - 1].port.counter;
}

static uint64_t list_of_node(attached *all, size_t number) {
    iox2sd_count_answer answer = SERVICE(ports_of)(&all->service, node(all, number % all->nodes),
                                                   all->out, all->subscribers + all->publishers);
    done(answer.status);
    return answer.count;
}

/* ---- Rounds ---- */

enum set_up { NOTHING, NODES, SUBSCRIBERS, ALL };

static const struct call {
    const char *name;
    uint64_t (*make)(attached *all, size_t number);
    enum set_up before;
} CALLS[] = {
    {"register", register_one, NOTHING}, {"attach", attach_one, NODES},
    {"release", release_one, ALL},       {"deregister", deregister_one, ALL},
    {"death", die_one, ALL},             {"keep", keep_all, SUBSCRIBERS},
    {"ports", list, ALL},                {"ports-of", list_of_node, ALL},
    {"port", port, ALL},                 {"count", count, ALL},
    {"is-locked", is_locked, ALL},       {"attach-release", attach_and_release, SUBSCRIBERS},
};

static void create(attached *all, enum set_up before) {
    iox2sd_capacities most = {all->nodes, all->publishers, all->subscribers};
    done(SERVICE(service_create)(&all->service, IOX2SD_PATTERN_PUBLISH_SUBSCRIBE, 7, most,
                                 UINT64_MAX));
    for (size_t k = 0; before >= NODES && k < all->nodes; k++) register_one(all, k);
    for (size_t k = 0; before >= SUBSCRIBERS && k < all->subscribers; k++) attach_one(all, k);
    for (size_t k = 0; before >= ALL && k < all->publishers; k++) {
        iox2sd_port_details made = publisher(all, k);
        done(SERVICE(attach)(&all->service, &made).status);
    }
}

static uint64_t round_of(const struct call *call, attached *all, size_t calls) {
    uint64_t digest = 0;
    create(all, call->before);
    for (size_t k = 0; k < calls; k++) digest += call->make(all, k);
    done(SERVICE(service_free)(&all->service));
    return digest;
}

static const struct call *named(const char *name) {
    for (size_t k = 0; k < sizeof CALLS / sizeof *CALLS; k++)
        if (strcmp(CALLS[k].name, name) == 0) return &CALLS[k];
    return NULL;
}

int main(void) {
    char name[32];
    attached all;
    size_t rounds, calls;
    memset(&all, 0, sizeof all);
    if (scanf("%31s %zu %zu %zu %zu %zu", name, &all.nodes, &all.subscribers, &all.publishers,
              &rounds, &calls) != 6)
        return 1;
    const struct call *call = named(name);
    if (call == NULL) return 1;
    all.of_nodes = array(all.nodes, sizeof *all.of_nodes);
    all.of_subscribers = array(all.subscribers, sizeof *all.of_subscribers);
    all.kept = array(all.subscribers, sizeof *all.kept);
    all.out = array(all.subscribers + all.publishers, sizeof *all.out);
    uint64_t digest = 0;
    for (size_t k = 0; k < rounds; k++) digest += round_of(call, &all, calls);
    printf("%" PRIu64 "\n", digest);
    return 0;
}
