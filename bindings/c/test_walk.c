/* A random walk of typed calls, compared with iox2sd_script_run on the same calls written as
 * scripts: each reply line is made of what the typed call answered. Arguments: the number of calls
 * (10000 where there is none) and a seed. Compiled as C99 and linked with libiox2sd.a. Ends with
 * status 0 where all replies are the same. */
#include "iox2sd_script.h"

#include <inttypes.h>
#include <stdarg.h>
#include <stdio.h>
#include <stdlib.h>
#include <string.h>

enum { CALLS_OF_A_WALK = 1000, CALLS_WHEN_LOCKED = 20, NODES = 6, PORTS = 12, MOST_LISTED = 16 };

static const char *const patterns[] = {"publish-subscribe", "event", "request-response",
                                       "blackboard"};
static const char *const roles[] = {NULL,     "publisher", "subscriber", "notifier", "listener",
                                    "client", "server",    "reader",     "writer"};

static void give_up(const char *why) {
    printf("%s\n", why);
    exit(2);
}

static uint64_t state;

/* splitmix64 */
static uint64_t next(void) {
    uint64_t z = state += UINT64_C(0x9e3779b97f4a7c15);
    z = (z ^ (z >> 30)) * UINT64_C(0xbf58476d1ce4e5b9);
    z = (z ^ (z >> 27)) * UINT64_C(0x94d049bb133111eb);
    return z ^ (z >> 31);
}

static uint32_t below(uint32_t bound) { return (uint32_t)(next() % bound); }

typedef struct text {
    char *at;
    size_t length, room;
} text;

static void add(text *to, const char *format, ...) {
    va_list words;
    if (to->room - to->length < 512) {
        to->room = 2 * to->room + 1024;
        to->at = realloc(to->at, to->room);
        if (to->at == NULL) give_up("no memory");
    }
    va_start(words, format);
    to->length += (size_t)vsnprintf(to->at + to->length, to->room - to->length, format, words);
    va_end(words);
}

/* One service by typed calls, the same calls as a script, and the replies that the script is to
 * give. */
typedef struct walk {
    iox2sd_service service;
    uint32_t pattern;
    text script, replies;
    bool has_handle[CALLS_OF_A_WALK];
    iox2sd_handle handles[CALLS_OF_A_WALK];
    size_t calls;
} walk;

static const char *spelled(iox2sd_id id, char *out) {
    sprintf(out, "%" PRIu32 ".%" PRIu32 ".%" PRIu32 ".%" PRIu32, id.process, id.seconds,
            id.nanoseconds, id.counter);
    return out;
}

/* Nodes of which several have one process and one counter, and ports of which some have one id. */
static iox2sd_id some_node(void) {
    static const iox2sd_id nodes[NODES] = {{1, 1, 0, 5},          {1, 2, 0, 5},
                                           {1, 1, 3, 5},          {2, 0, 0, 0},
                                           {0, 0, 0, UINT32_MAX}, {UINT32_MAX, UINT32_MAX, 7, 1}};
    return nodes[below(NODES)];
}

static iox2sd_id some_port(void) {
    uint32_t n = below(PORTS);
    iox2sd_id id = {n % 3, n % 2, n, n == 0 ? 0 : UINT32_MAX - n};
    return id;
}

/* Mostly a role of the pattern. */
static uint64_t some_role(walk *w) {
    iox2sd_roles_answer of = iox2sd_port_roles(&w->service);
    uint32_t which = below(20);
    return which == 0 ? 1 + below(8) : which % 2 == 0 ? of.first : of.second;
}

static void reply_handle(walk *w, iox2sd_handle_answer made) {
    w->has_handle[w->calls] = made.status == IOX2SD_STATUS_DONE;
    w->handles[w->calls] = made.handle;
    switch (made.status) {
    case IOX2SD_STATUS_DONE:
        add(&w->replies, "handle %zu %" PRIu64 "\n", made.handle.slot, made.handle.ticket);
        break;
    case IOX2SD_STATUS_IS_LOCKED: add(&w->replies, "locked\n"); break;
    case IOX2SD_STATUS_OUT_OF_SPACE: add(&w->replies, "full\n"); break;
    case IOX2SD_STATUS_NODE_NOT_REGISTERED: add(&w->replies, "not-registered\n"); break;
    case IOX2SD_STATUS_ROLE_NOT_IN_PATTERN: add(&w->replies, "wrong-pattern\n"); break;
    default: give_up("a status that registering and attaching cannot have");
    }
}

static void reply_state(walk *w, uint32_t status) {
    switch (status) {
    case IOX2SD_STATUS_DONE: add(&w->replies, "has-owners\n"); break;
    case IOX2SD_STATUS_DONE_LOCKED: add(&w->replies, "no-owners\n"); break;
    case IOX2SD_STATUS_FOREIGN_HANDLE: add(&w->replies, "not-owned\n"); break;
    case IOX2SD_STATUS_PORTS_STILL_ATTACHED: add(&w->replies, "ports-attached\n"); break;
    default: give_up("a status that deregistering and dying cannot have");
    }
}

static void reply_id(walk *w, iox2sd_id id) {
    uint8_t out[32];
    iox2sd_text_answer written = iox2sd_id_text(id, out, sizeof out);
    if (written.status != IOX2SD_STATUS_DONE) give_up("an id without a text");
    add(&w->replies, " %.*s", (int)written.length, (const char *)out);
}

static void register_node(walk *w) {
    char out[48];
    iox2sd_id node = some_node();
    add(&w->script, "register %s\n", spelled(node, out));
    reply_handle(w, iox2sd_register_node_id(&w->service, node));
}

static void attach(walk *w) {
    char its[48], of[48];
    iox2sd_port_details port = {0};
    port.role = some_role(w);
    port.port = some_port();
    port.node = some_node();
    port.data_segment = IOX2SD_SEGMENT_STATIC;
    port.max_number_of_segments = 1;
    add(&w->script, "add %s %s %s\n", roles[port.role], spelled(port.port, its),
        spelled(port.node, of));
    reply_handle(w, iox2sd_attach(&w->service, &port));
}

/* Gives back what an earlier call made, mostly one of the last, by the right call or the other one.
 */
static void give_back(walk *w, bool of_node) {
    size_t reach = below(4) == 0 ? w->calls + 1 : 12;
    size_t back = below((uint32_t)reach) + 1,
           call = back <= w->calls ? w->calls - back : w->calls + back;
    add(&w->script, of_node ? "deregister %zu\n" : "release %zu\n", call);
    if (call >= w->calls || !w->has_handle[call]) {
        add(&w->replies, "no-handle\n");
    } else if (of_node) {
        reply_state(w, iox2sd_deregister_node_id(&w->service, w->handles[call]));
    } else {
        uint32_t status = iox2sd_release_port(&w->service, w->handles[call]);
        if (status != IOX2SD_STATUS_DONE && status != IOX2SD_STATUS_FOREIGN_HANDLE)
            give_up("a status that releasing cannot have");
        add(&w->replies, status == IOX2SD_STATUS_DONE ? "released\n" : "not-owned\n");
    }
}

static void list_ports(walk *w) {
    iox2sd_port_details out[MOST_LISTED];
    uint64_t role = some_role(w);
    iox2sd_count_answer listed = iox2sd_ports(&w->service, role, out, MOST_LISTED);
    add(&w->script, "list %s\n", roles[role]);
    if (listed.status == IOX2SD_STATUS_ROLE_NOT_IN_PATTERN) {
        add(&w->replies, "wrong-pattern\n");
        return;
    }
    if (listed.status != IOX2SD_STATUS_DONE) give_up("a status that listing cannot have");
    add(&w->replies, "list");
    for (size_t i = 0; i < listed.count; i++) reply_id(w, out[i].port);
    add(&w->replies, "\n");
}

static void list_nodes(walk *w) {
    iox2sd_id out[MOST_LISTED];
    iox2sd_count_answer listed = iox2sd_nodes(&w->service, out, MOST_LISTED);
    add(&w->script, "nodes\n");
    if (listed.status != IOX2SD_STATUS_DONE) give_up("a status that listing cannot have");
    add(&w->replies, "list");
    for (size_t i = 0; i < listed.count; i++) reply_id(w, out[i]);
    add(&w->replies, "\n");
}

static void count_ports(walk *w) {
    uint64_t role = some_role(w);
    iox2sd_count_answer counted = iox2sd_count_ports(&w->service, role);
    add(&w->script, "count %s\n", roles[role]);
    if (counted.status == IOX2SD_STATUS_ROLE_NOT_IN_PATTERN) {
        add(&w->replies, "wrong-pattern\n");
    } else {
        add(&w->replies, "count %zu\n", counted.count);
    }
}

/* A death, of which up to two ports are kept. Before it, the ports that it is about are compared
 * with the listings. */
static void die(walk *w) {
    char out[48];
    iox2sd_id dead = some_node();
    iox2sd_port_id kept[4];
    size_t number = below(3), its = 0;
    iox2sd_port_details ports[MOST_LISTED], of_node[2 * MOST_LISTED];
    iox2sd_roles_answer of = iox2sd_port_roles(&w->service);
    iox2sd_count_answer asked = iox2sd_ports_of(&w->service, dead, of_node, 2 * MOST_LISTED);
    for (int kind = 0; kind < 2; kind++) {
        iox2sd_count_answer listed =
            iox2sd_ports(&w->service, kind == 0 ? of.first : of.second, ports, MOST_LISTED);
        for (size_t i = 0; i < listed.count; i++) {
            if (memcmp(&ports[i].node, &dead, sizeof dead) != 0) continue;
            if (its == asked.count || memcmp(&ports[i].port, &of_node[its].port, sizeof dead) != 0)
                give_up("other ports of a node");
            its++;
        }
    }
    if (asked.status != IOX2SD_STATUS_DONE || its != asked.count) give_up("more ports of a node");
    add(&w->script, number == 0 ? "dead %s" : "dead %s skip", spelled(dead, out));
    for (size_t i = 0; i < number; i++) {
        /* A script keeps the ports of both kinds. */
        kept[2 * i].role = of.first;
        kept[2 * i + 1].role = of.second;
        kept[2 * i].port = kept[2 * i + 1].port = some_port();
        add(&w->script, " %s", spelled(kept[2 * i].port, out));
    }
    add(&w->script, "\n");
    reply_state(w, iox2sd_remove_dead_node_id(&w->service, dead, kept, 2 * number).status);
}

static void step(walk *w) {
    uint32_t which = below(100);
    if (which < 22)
        register_node(w);
    else if (which < 52)
        attach(w);
    else if (which < 60)
        give_back(w, true);
    else if (which < 75)
        give_back(w, false);
    else if (which < 85)
        list_ports(w);
    else if (which < 91)
        count_ports(w);
    else if (which < 97)
        list_nodes(w);
    else
        die(w);
}

/* Makes a service, takes so many steps at most, compares, and answers how many steps were taken. */
static size_t take(size_t most) {
    static walk w;
    size_t when_locked = 0;
    uint64_t number = next();
    iox2sd_capacities room = {1 + below(6), below(6), below(6)};
    w.pattern = below(4);
    if (iox2sd_service_create(&w.service, w.pattern, number, room, UINT64_MAX) !=
        IOX2SD_STATUS_DONE)
        give_up("no service");
    add(&w.script, "service %s %" PRIu64 " %zu %zu %zu\n", patterns[w.pattern], number, room.nodes,
        room.first, room.second);
    while (w.calls < most && w.calls < CALLS_OF_A_WALK && when_locked < CALLS_WHEN_LOCKED) {
        w.has_handle[w.calls] = false;
        step(&w);
        w.calls++;
        when_locked += iox2sd_is_locked(&w.service).yes;
    }
    if (iox2sd_service_free(&w.service) != IOX2SD_STATUS_DONE) give_up("no service to free");
    uint8_t *out = malloc(w.replies.length + 1);
    if (out == NULL) give_up("no memory");
    iox2sd_script_answer ran =
        iox2sd_script_run((const uint8_t *)w.script.at, w.script.length, out, w.replies.length);
    if (ran.status != IOX2SD_STATUS_DONE || ran.length != w.replies.length ||
        memcmp(out, w.replies.at, ran.length) != 0) {
        printf("status %" PRIu32
               ", line %zu, length %zu; script:\n%.*sreplies of the typed calls:\n%.*s",
               ran.status, ran.line, ran.length, (int)w.script.length, w.script.at,
               (int)w.replies.length, w.replies.at);
        if (ran.status == IOX2SD_STATUS_DONE)
            printf("replies of the script:\n%.*s", (int)ran.length, (const char *)out);
        exit(1);
    }
    size_t taken = w.calls;
    free(out);
    free(w.script.at);
    free(w.replies.at);
    memset(&w, 0, sizeof w);
    return taken;
}

int main(int count, char **words) {
    size_t calls = count > 1 ? (size_t)strtoull(words[1], NULL, 10) : 10000, services = 0;
    state = count > 2 ? strtoull(words[2], NULL, 10) : 20260801;
    printf("%zu calls, seed %" PRIu64 "\n", calls, state);
    for (size_t left = calls; left > 0; services++) left -= take(left);
    printf("%zu services, all replies the same\n", services);
    return 0;
}
