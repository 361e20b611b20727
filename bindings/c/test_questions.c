/* Questions leave a service alone: each is asked of services whose own bytes and whose heap lie in
 * pages that may only be read, of each pattern, none, empty, full and locked, by one thread and by
 * sixteen at once. Compiled as C99 with -D_GNU_SOURCE and -Wl,--wrap=malloc,--wrap=calloc,
 * --wrap=realloc,--wrap=free, and linked with libiox2sd.a and -pthread. The last line is
 * 'N checks, N failed'. */
#include "check.h"

#include <pthread.h>
#include <signal.h>
#include <string.h>
#include <sys/mman.h>
#include <sys/wait.h>
#include <unistd.h>

/* ---- Pages for one service: its own bytes, and behind them all memory that it takes ---- */

enum { SIZE = 1 << 20, STEP = 64 };

static uint8_t *pages;
static size_t used;

void *__wrap_malloc(size_t size);
void *__wrap_calloc(size_t count, size_t size);
void *__wrap_realloc(void *place, size_t size);
void __wrap_free(void *place);

/* Each block has its size before it. */
void *__wrap_malloc(size_t size) {
    size_t step = (size + 2 * STEP - 1) / STEP * STEP;
    if (size > SIZE || step > SIZE - used) return NULL;
    uint8_t *block = pages + used + STEP;
    memcpy(block - sizeof size, &size, sizeof size);
    used += step;
    return block;
}

void *__wrap_calloc(size_t count, size_t size) {
    void *block = size != 0 && count > SIZE / size ? NULL : __wrap_malloc(count * size);
    return block == NULL ? NULL : memset(block, 0, count * size);
}

void *__wrap_realloc(void *place, size_t size) {
    size_t before = 0;
    void *block = __wrap_malloc(size);
    if (place == NULL || block == NULL) return block;
    memcpy(&before, (uint8_t *)place - sizeof before, sizeof before);
    return memcpy(block, place, before < size ? before : size);
}

void __wrap_free(void *place) { (void)place; }

/* A place of no service at the front of the pages, which may be written to. */
static iox2sd_service *fresh(void) {
    CHECK(mprotect(pages, SIZE, PROT_READ | PROT_WRITE) == 0);
    memset(pages, 0, SIZE);
    used = STEP;
    return (iox2sd_service *)pages;
}

static void only_read(void) { CHECK(mprotect(pages, SIZE, PROT_READ) == 0); }

/* ---- Services of each pattern ---- */

enum { FIRST = 3, SECOND = 2, NODES = 2, PATTERNS = 4, ROLES = 11 };

enum state { NONE, EMPTY, FULL, LOCKED, STATES };

/* The roles that there are, one that is not, and IOX2SD_ROLE_NONE. */
static uint64_t role_at(size_t i) { return i < ROLES - 1 ? i : IOX2SD_ROLE_NONE; }

static const uint64_t first_role[PATTERNS] = {IOX2SD_ROLE_PUBLISHER, IOX2SD_ROLE_LISTENER,
                                              IOX2SD_ROLE_SERVER, IOX2SD_ROLE_READER};
static const uint64_t second_role[PATTERNS] = {IOX2SD_ROLE_SUBSCRIBER, IOX2SD_ROLE_NOTIFIER,
                                               IOX2SD_ROLE_CLIENT, IOX2SD_ROLE_WRITER};

static iox2sd_id node_id(size_t i) { return id(1, 2, 3, (uint32_t)i + 1); }

/* Handles that are asked about: those of entries, and some that stand for nothing. */
static iox2sd_handle handles[NODES + FIRST + SECOND + 2];

enum { HANDLES = sizeof handles / sizeof handles[0] };

static iox2sd_handle handle_of(iox2sd_handle_answer answer) {
    CHECK(answer.status == IOX2SD_STATUS_DONE);
    return answer.handle;
}

static void fill(iox2sd_service *service, uint32_t pattern) {
    size_t made = 0;
    for (size_t i = 0; i < NODES; i++) {
        handles[made++] = handle_of(iox2sd_register_node_id(service, node_id(i)));
    }
    for (size_t i = 0; i < FIRST + SECOND; i++) {
        iox2sd_port_details port;
        memset(&port, 0, sizeof port);
        port.role = i < FIRST ? first_role[pattern] : second_role[pattern];
        port.port = id(7, 7, 7, (uint32_t)i);
        port.node = node_id(i % NODES);
        port.number_of_samples = 10 + i;
        port.buffer_size = 20 + i;
        port.request_buffer_size = 30 + i;
        port.number_of_responses = 40 + i;
        port.number_of_requests = 50 + i;
        port.response_buffer_size = 60 + i;
        port.max_slice_len = 70 + i;
        port.max_number_of_segments = (uint8_t)i;
        handles[made++] = handle_of(iox2sd_attach(service, &port));
    }
}

static iox2sd_service *made(uint32_t pattern, enum state state) {
    static const iox2sd_handle none = IOX2SD_HANDLE_NONE;
    iox2sd_service *service = fresh();
    for (size_t i = 0; i < HANDLES; i++) {
        handles[i] = none;
        handles[i].slot = i;
    }
    handles[HANDLES - 1].role = IOX2SD_ROLE_NODE;
    if (state == NONE) return service;
    CHECK(iox2sd_service_create(service, pattern, 5, capacities(NODES, FIRST, SECOND), 99) ==
          IOX2SD_STATUS_DONE);
    CHECK(used > STEP);
    if (state == FULL) fill(service, pattern);
    if (state == LOCKED) {
        iox2sd_handle handle = handle_of(iox2sd_register_node_id(service, node_id(0)));
        CHECK(iox2sd_deregister_node_id(service, handle) == IOX2SD_STATUS_DONE_LOCKED);
    }
    return service;
}

/* ---- All questions, with a number made of all that they answer ---- */

static uint64_t with(uint64_t sum, uint64_t value) {
    return (sum ^ value) * UINT64_C(0x100000001b3) + 1;
}

static uint64_t with_id(uint64_t sum, iox2sd_id id) {
    sum = with(with(sum, id.process), id.seconds);
    return with(with(sum, id.nanoseconds), id.counter);
}

static uint64_t with_port(uint64_t sum, const iox2sd_port_details *port) {
    sum = with_id(with_id(with(sum, port->role), port->port), port->node);
    sum = with(with(sum, port->number_of_samples), port->buffer_size);
    sum = with(with(sum, port->request_buffer_size), port->number_of_responses);
    sum = with(with(sum, port->number_of_requests), port->response_buffer_size);
    sum = with(with(sum, port->max_slice_len), port->data_segment);
    return with(sum, port->max_number_of_segments);
}

static uint64_t with_count(uint64_t sum, iox2sd_count_answer answer) {
    return with(with(sum, answer.status), answer.count);
}

static uint64_t with_flag(uint64_t sum, iox2sd_flag_answer answer) {
    return with(with(sum, answer.status), answer.yes);
}

static uint64_t with_number(uint64_t sum, iox2sd_number_answer answer) {
    return with(with(sum, answer.status), answer.number);
}

static uint64_t with_ports(uint64_t sum, iox2sd_count_answer answer,
                           const iox2sd_port_details *ports) {
    sum = with_count(sum, answer);
    for (size_t i = 0; answer.status == IOX2SD_STATUS_DONE && i < answer.count; i++) {
        sum = with_port(sum, &ports[i]);
    }
    return sum;
}

static uint64_t with_role(uint64_t sum, const iox2sd_service *service, uint64_t role) {
    iox2sd_port_details out[FIRST];
    sum = with_flag(sum, iox2sd_has_role(service, role));
    sum = with_count(sum, iox2sd_count_ports(service, role));
    sum = with_count(sum, iox2sd_max_ports(service, role));
    sum = with_flag(sum, iox2sd_has_room(service, role));
    sum = with_ports(sum, iox2sd_ports(service, role, NULL, 0), out);
    return with_ports(sum, iox2sd_ports(service, role, out, FIRST), out);
}

static uint64_t with_handle(uint64_t sum, const iox2sd_service *service, iox2sd_handle handle) {
    iox2sd_id_answer node = iox2sd_node(service, handle);
    iox2sd_port_answer port = iox2sd_port(service, handle);
    sum = with_id(with(sum, node.status), node.id);
    return with_port(with(sum, port.status), &port.port);
}

static uint64_t asked(const iox2sd_service *service) {
    iox2sd_id ids[NODES];
    iox2sd_port_details ports[FIRST + SECOND];
    iox2sd_roles_answer roles = iox2sd_port_roles(service);
    uint64_t sum = with(with(with(0, roles.status), roles.first), roles.second);
    sum = with_number(sum, iox2sd_messaging_pattern(service));
    sum = with_number(sum, iox2sd_service_number(service));
    sum = with_flag(sum, iox2sd_is_locked(service));
    sum = with_count(sum, iox2sd_number_of_nodes(service));
    sum = with_count(sum, iox2sd_max_nodes(service));
    sum = with_flag(sum, iox2sd_has_room_for_node(service));
    sum = with_count(sum, iox2sd_nodes(service, NULL, 0));
    iox2sd_count_answer listed = iox2sd_nodes(service, ids, NODES);
    sum = with_count(sum, listed);
    for (size_t i = 0; listed.status == IOX2SD_STATUS_DONE && i < listed.count; i++) {
        sum = with_id(sum, ids[i]);
    }
    for (size_t i = 0; i < ROLES; i++) sum = with_role(sum, service, role_at(i));
    for (size_t i = 0; i < HANDLES; i++) sum = with_handle(sum, service, handles[i]);
    for (size_t i = 0; i <= NODES; i++) {
        sum = with_ports(sum, iox2sd_ports_of(service, node_id(i), NULL, 0), ports);
        sum = with_ports(sum, iox2sd_ports_of(service, node_id(i), ports, FIRST + SECOND), ports);
    }
    return sum;
}

/* ---- The tests ---- */

/* What is worked out by hand of a service in this state. */
static void answers_are_right(const iox2sd_service *service, uint32_t pattern, enum state state) {
    uint32_t status = state == NONE ? IOX2SD_STATUS_NO_SERVICE : IOX2SD_STATUS_DONE;
    bool is_full = state == FULL;
    uint64_t first = first_role[pattern], second = second_role[pattern];
    iox2sd_number_answer kind = iox2sd_messaging_pattern(service);
    CHECK(kind.status == status && kind.number == (state == NONE ? 0 : pattern));
    CHECK(iox2sd_service_number(service).number == (state == NONE ? 0 : 5));
    CHECK(iox2sd_is_locked(service).yes == (state == LOCKED));
    CHECK(iox2sd_has_room_for_node(service).yes == (state == EMPTY));
    CHECK(iox2sd_number_of_nodes(service).count == (is_full ? NODES : 0));
    CHECK(iox2sd_count_ports(service, first).count == (is_full ? FIRST : 0));
    CHECK(iox2sd_count_ports(service, second).count == (is_full ? SECOND : 0));
    CHECK(iox2sd_ports_of(service, node_id(0), NULL, 0).count == (is_full ? 3 : 0));
    for (size_t i = 0; i < HANDLES; i++) {
        CHECK((iox2sd_node(service, handles[i]).status == IOX2SD_STATUS_DONE) ==
              (is_full && i < NODES));
        CHECK((iox2sd_port(service, handles[i]).status == IOX2SD_STATUS_DONE) ==
              (is_full && NODES <= i && i < NODES + FIRST + SECOND));
    }
}

/* Whether a change, which writes to the service, ends a process by a signal. */
static bool change_is_stopped(iox2sd_service *service) {
    int status = 0;
    pid_t child = fork();
    if (child == 0) {
        signal(SIGSEGV, SIG_DFL);
        _exit(iox2sd_register_node_id(service, node_id(0)).status == IOX2SD_STATUS_DONE ? 0 : 1);
    }
    return child > 0 && waitpid(child, &status, 0) == child && WIFSIGNALED(status) &&
           WTERMSIG(status) == SIGSEGV;
}

enum { THREADS = 16, ROUNDS = 200 };

typedef struct asker {
    const iox2sd_service *service;
    uint64_t wanted;
    long bad;
} asker;

static void *asks(void *argument) {
    asker *mine = (asker *)argument;
    for (int i = 0; i < ROUNDS; i++) mine->bad += asked(mine->service) != mine->wanted;
    return NULL;
}

static void sixteen_at_once(const iox2sd_service *service, uint64_t wanted) {
    pthread_t threads[THREADS];
    asker askers[THREADS];
    for (size_t i = 0; i < THREADS; i++) {
        askers[i].service = service;
        askers[i].wanted = wanted;
        askers[i].bad = 0;
        CHECK(pthread_create(&threads[i], NULL, asks, &askers[i]) == 0);
    }
    for (size_t i = 0; i < THREADS; i++) {
        CHECK(pthread_join(threads[i], NULL) == 0);
        CHECK(askers[i].bad == 0);
    }
}

static void questions_only_read(uint32_t pattern, enum state state) {
    static uint8_t before[SIZE];
    iox2sd_service *service = made(pattern, state);
    uint64_t wanted = asked(service);
    memcpy(before, pages, SIZE);
    only_read();
    CHECK(asked(service) == wanted);
    answers_are_right(service, pattern, state);
    sixteen_at_once(service, wanted);
    CHECK(memcmp(before, pages, SIZE) == 0);
    if (state == EMPTY) CHECK(change_is_stopped(service));
    CHECK(mprotect(pages, SIZE, PROT_READ | PROT_WRITE) == 0);
    CHECK(iox2sd_service_free(service) ==
          (state == NONE ? IOX2SD_STATUS_NO_SERVICE : IOX2SD_STATUS_DONE));
}

int main(void) {
    void *mapped = mmap(NULL, SIZE, PROT_READ | PROT_WRITE, MAP_PRIVATE | MAP_ANONYMOUS, -1, 0);
    CHECK(mapped != MAP_FAILED);
    pages = (uint8_t *)mapped;
    for (uint32_t pattern = 0; pattern < PATTERNS; pattern++) {
        for (enum state state = NONE; state < STATES; state++) questions_only_read(pattern, state);
    }
    return end_of_checks();
}
