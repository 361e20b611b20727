/* Services on several threads: one in each of sixteen, and one that goes from thread to thread.
 * Compiled as C99 and linked with libiox2sd.a and -pthread. The last line is
 * 'N checks, N failed'. */
#include "check.h"

#include <pthread.h>

static iox2sd_port_details subscriber(iox2sd_id node) {
    iox2sd_port_details made = {0};
    made.role = IOX2SD_ROLE_SUBSCRIBER;
    made.port = id(11, 12, 13, 14);
    made.node = node;
    return made;
}

/* What one thread does with its service: how many answers were not as they should be. */
static long work(iox2sd_service *service, long rounds) {
    long bad = 0;
    iox2sd_id stays = id(9, 9, 9, 9), node = id(1, 2, 3, 4);
    iox2sd_port_details its = subscriber(stays), out[2];
    bad += iox2sd_register_node_id(service, stays).status != IOX2SD_STATUS_DONE;
    for (long i = 0; i < rounds; i++) {
        node.counter = (uint32_t)i;
        iox2sd_handle_answer made = iox2sd_register_node_id(service, node);
        bad += made.status != IOX2SD_STATUS_DONE || made.handle.ticket != (uint64_t)i + 1;
        iox2sd_handle_answer attached = iox2sd_attach(service, &its);
        bad += attached.status != IOX2SD_STATUS_DONE || attached.handle.ticket != (uint64_t)i;
        iox2sd_count_answer listed = iox2sd_ports(service, IOX2SD_ROLE_SUBSCRIBER, out, 2);
        bad += listed.status != IOX2SD_STATUS_DONE || listed.count != 1;
        bad += iox2sd_release_port(service, attached.handle) != IOX2SD_STATUS_DONE;
        bad += iox2sd_deregister_node_id(service, made.handle) != IOX2SD_STATUS_DONE;
    }
    return bad;
}

typedef struct own {
    uint64_t number;
    long bad;
} own;

static void *own_service(void *argument) {
    own *mine = (own *)argument;
    iox2sd_service service = IOX2SD_SERVICE_NONE;
    mine->bad = iox2sd_service_create(&service, IOX2SD_PATTERN_PUBLISH_SUBSCRIBE, mine->number,
                                    capacities(20, 2, 8), UINT64_MAX) != IOX2SD_STATUS_DONE;
    mine->bad += work(&service, 10000);
    mine->bad += iox2sd_register_node_id(&service, id(1, 2, 3, 4)).handle.service != mine->number;
    mine->bad += iox2sd_service_free(&service) != IOX2SD_STATUS_DONE;
    return NULL;
}

static void a_service_in_each(void) {
    pthread_t threads[16];
    own services[16];
    for (uint64_t i = 0; i < 16; i++) {
        services[i].number = 1000 + i;
        services[i].bad = -1;
        CHECK(pthread_create(&threads[i], NULL, own_service, &services[i]) == 0);
    }
    for (size_t i = 0; i < 16; i++) {
        CHECK(pthread_join(threads[i], NULL) == 0);
        CHECK(services[i].bad == 0);
    }
}

/* A service in the hands of one thread at a time. */
typedef struct relay {
    pthread_mutex_t mutex;
    int turn;
    iox2sd_service service;
    long bad;
} relay;

enum { RUNNERS = 4, TURNS = 100 };

static void *run(void *argument) {
    relay *shared = (relay *)argument;
    for (;;) {
        pthread_mutex_lock(&shared->mutex);
        int turn = shared->turn++;
        if (turn < TURNS) {
            iox2sd_id node = id(1, 2, 3, (uint32_t)turn);
            iox2sd_handle_answer made = iox2sd_register_node_id(&shared->service, node);
            shared->bad +=
                made.status != IOX2SD_STATUS_DONE || made.handle.ticket != (uint64_t)turn;
        }
        pthread_mutex_unlock(&shared->mutex);
        if (turn >= TURNS) return NULL;
    }
}

static void *free_it(void *argument) {
    relay *shared = (relay *)argument;
    shared->bad += iox2sd_number_of_nodes(&shared->service).count != TURNS;
    shared->bad += iox2sd_service_free(&shared->service) != IOX2SD_STATUS_DONE;
    return NULL;
}

/* Made on one thread, used by four in turn, and freed on a sixth. */
static void a_service_handed_on(void) {
    relay shared = {PTHREAD_MUTEX_INITIALIZER, 0, IOX2SD_SERVICE_NONE, 0};
    pthread_t runners[RUNNERS], last;
    CHECK(iox2sd_service_create(&shared.service, IOX2SD_PATTERN_EVENT, 5, capacities(TURNS, 0, 0),
                              UINT64_MAX) == IOX2SD_STATUS_DONE);
    for (size_t i = 0; i < RUNNERS; i++) {
        CHECK(pthread_create(&runners[i], NULL, run, &shared) == 0);
    }
    for (size_t i = 0; i < RUNNERS; i++) CHECK(pthread_join(runners[i], NULL) == 0);
    CHECK(pthread_create(&last, NULL, free_it, &shared) == 0);
    CHECK(pthread_join(last, NULL) == 0);
    CHECK(shared.bad == 0);
}

int main(void) {
    a_service_in_each();
    a_service_handed_on();
    return end_of_checks();
}
