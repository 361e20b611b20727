/* Logs by iox2sd_log.h: the line of each command and each reply, with the library's words and texts
 * of ids, the order of lines, callers that died, what is refused, buffers of each length, want of
 * memory at each request, and calls of several threads. Compiled as C99 with -pthread
 * -Wl,--wrap=malloc,--wrap=calloc,--wrap=realloc. The last line is 'N checks, N failed'. */
#include "check.h"
#include "iox2sd_log.h"

#include <pthread.h>
#include <string.h>

enum { MOST = 4096 };

static uint8_t out[MOST];

static const iox2sd_capacities room = {4, 3, 2};
static const iox2sd_id node = {1, 0, 0, 1};
static const iox2sd_id far_id = {4294967295u, 0, 10, 4294967295u};

static iox2sd_log_caller *caller_of(iox2sd_log_writer *writer, const char *name) {
    const iox2sd_log_caller_answer made = iox2sd_log_caller_create(writer, name);
    CHECK(made.status == IOX2SD_STATUS_DONE && made.caller != NULL);
    return made.caller;
}

static iox2sd_log_writer writer_of(iox2sd_pattern pattern) {
    iox2sd_log_writer writer;
    CHECK(iox2sd_log_writer_create(&writer, pattern, 7, room) == IOX2SD_STATUS_DONE);
    return writer;
}

/* Whether the log is this text, below the line of an event service. */
static bool has_lines(iox2sd_log_writer *writer, const char *lines) {
    char text[MOST] = "service event 7 4 3 2\n";
    strcat(text, lines);
    memset(out, 0xAA, sizeof out);
    const iox2sd_text_answer found = iox2sd_log_write(writer, out, sizeof out);
    return found.status == IOX2SD_STATUS_DONE && found.length == strlen(text) &&
           memcmp(out, text, found.length) == 0 && out[found.length] == 0xAA;
}

static void call(iox2sd_log_caller *caller, iox2sd_log_command command, iox2sd_log_reply reply) {
    const iox2sd_log_token token = iox2sd_log_begin(caller, command);
    CHECK(token.status == IOX2SD_STATUS_DONE);
    CHECK(iox2sd_log_end(token, reply) == IOX2SD_STATUS_DONE);
}

/* Each command has its line. */
static void commands(void) {
    iox2sd_log_writer writer = writer_of(IOX2SD_PATTERN_EVENT);
    iox2sd_log_caller *const a = caller_of(&writer, "A");
    const iox2sd_port_id port = {IOX2SD_ROLE_LISTENER, far_id};
    const iox2sd_id kept[] = {{0, 0, 0, 0}, far_id};
    const iox2sd_log_reply full = iox2sd_log_word(IOX2SD_LOG_FULL);
    call(a, iox2sd_log_register(node), full);
    call(a, iox2sd_log_deregister(0, UINT64_MAX), full);
    call(a, iox2sd_log_add(port, node), full);
    call(a, iox2sd_log_release(IOX2SD_ROLE_NOTIFIER, 12, 34), full);
    call(a, iox2sd_log_dead(node, NULL, 0), full);
    call(a, iox2sd_log_dead(node, kept, 2), full);
    call(a, iox2sd_log_nodes(), full);
    call(a, iox2sd_log_list(IOX2SD_ROLE_CLIENT), full);
    call(a, iox2sd_log_count(IOX2SD_ROLE_WRITER), full);
    call(a, iox2sd_log_nodes_weak(), full);
    call(a, iox2sd_log_list_weak(IOX2SD_ROLE_SERVER), full);
    CHECK(has_lines(&writer, "A> register 1.0.0.1\nA< full\n"
                             "A> deregister 0 18446744073709551615\nA< full\n"
                             "A> add listener 4294967295.0.10.4294967295 1.0.0.1\nA< full\n"
                             "A> release notifier 12 34\nA< full\n"
                             "A> dead 1.0.0.1\nA< full\n"
                             "A> dead 1.0.0.1 skip 0.0.0.0 4294967295.0.10.4294967295\nA< full\n"
                             "A> nodes\nA< full\nA> list client\nA< full\n"
                             "A> count writer\nA< full\n"
                             "A> nodes?\nA< full\nA> list? server\nA< full\n"));
    iox2sd_log_writer_free(&writer);
}

/* Each reply has its line. */
static void replies(void) {
    iox2sd_log_writer writer = writer_of(IOX2SD_PATTERN_EVENT);
    iox2sd_log_caller *const a = caller_of(&writer, "A");
    const iox2sd_id ids[] = {node, {0, 0, 0, 0}, {0, 0, 0, 11}, far_id};
    call(a, iox2sd_log_nodes(), iox2sd_log_handle(0, UINT64_MAX));
    call(a, iox2sd_log_nodes(), iox2sd_log_counted(17));
    call(a, iox2sd_log_nodes(), iox2sd_log_listed(NULL, 0));
    call(a, iox2sd_log_nodes(), iox2sd_log_listed(ids, 4));
    for (uint32_t word = IOX2SD_LOG_LOCKED; word <= IOX2SD_LOG_NOT_OWNED; word++) {
        call(a, iox2sd_log_nodes(), iox2sd_log_word(word));
    }
    CHECK(has_lines(&writer,
                    "A> nodes\nA< handle 0 18446744073709551615\nA> nodes\nA< count 17\n"
                    "A> nodes\nA< list\n"
                    "A> nodes\nA< list 1000000000000000000000001 0 b "
                    "ffffffff000000000000000affffffff\n"
                    "A> nodes\nA< locked\nA> nodes\nA< not-registered\nA> nodes\nA< full\n"
                    "A> nodes\nA< wrong-pattern\nA> nodes\nA< has-owners\nA> nodes\nA< no-owners\n"
                    "A> nodes\nA< ports-attached\nA> nodes\nA< released\nA> nodes\nA< not-owned\n"));
    iox2sd_log_writer_free(&writer);
}

/* Services, and the roles of their ports, by the words of the library. */
static void services(void) {
    static const char *const patterns[] = {"publish-subscribe", "event", "request-response",
                                           "blackboard"};
    static const char *const roles[] = {"node",   "publisher", "subscriber", "notifier", "listener",
                                        "client", "server",    "reader",     "writer"};
    char text[64];
    for (iox2sd_pattern pattern = 0; pattern < 4; pattern++) {
        CHECK(strcmp(iox2sd_pattern_str(pattern), patterns[pattern]) == 0);
        iox2sd_log_writer writer = writer_of(pattern);
        const iox2sd_text_answer found = iox2sd_log_write(&writer, out, sizeof out);
        snprintf(text, sizeof text, "service %s 7 4 3 2\n", patterns[pattern]);
        CHECK(found.length == strlen(text) && memcmp(out, text, found.length) == 0);
        iox2sd_log_writer_free(&writer);
    }
    for (iox2sd_role role = 1; role <= 8; role++) {
        CHECK(strcmp(iox2sd_role_str(role), roles[role]) == 0);
        iox2sd_log_writer writer = writer_of(IOX2SD_PATTERN_EVENT);
        call(caller_of(&writer, "A"), iox2sd_log_list(role), iox2sd_log_listed(NULL, 0));
        snprintf(text, sizeof text, "A> list %s\nA< list\n", roles[role]);
        CHECK(has_lines(&writer, text));
        iox2sd_log_writer_free(&writer);
    }
}

/* An id of a list has the text that the library writes of it: of each length of its four parts. */
static void listed_ids(void) {
    for (uint32_t at = 0; at < 9 * 9 * 9 * 9; at++) {
        const uint32_t digits[] = {at % 9, at / 9 % 9, at / 81 % 9, at / 729};
        uint32_t parts[4];
        for (size_t part = 0; part < 4; part++) {
            parts[part] = digits[part] == 0 ? 0 : 0xfedcba98u >> (32 - 4 * digits[part]);
        }
        const iox2sd_id one = {parts[0], parts[1], parts[2], parts[3]};
        struct iox2sd_log_text text = {out, 0};
        iox2sd_log_put_listed(&text, one);
        uint8_t wanted[32];
        const iox2sd_text_answer found = iox2sd_id_text(one, wanted, sizeof wanted);
        CHECK(found.status == IOX2SD_STATUS_DONE && text.length == found.length + 1);
        CHECK(out[0] == ' ' && memcmp(out + 1, wanted, found.length) == 0);
    }
}

/* An end stands below the begins that came before it, and above those that came after it. */
static void order(void) {
    iox2sd_log_writer writer = writer_of(IOX2SD_PATTERN_EVENT);
    iox2sd_log_caller *const b = caller_of(&writer, "B");
    iox2sd_log_caller *const a = caller_of(&writer, "worker1");
    const iox2sd_log_token first = iox2sd_log_begin(b, iox2sd_log_register(node));
    const iox2sd_log_token second = iox2sd_log_begin(a, iox2sd_log_nodes());
    CHECK(iox2sd_log_end(second, iox2sd_log_listed(NULL, 0)) == IOX2SD_STATUS_DONE);
    const iox2sd_log_token third = iox2sd_log_begin(a, iox2sd_log_nodes());
    CHECK(iox2sd_log_end(first, iox2sd_log_handle(2, 0)) == IOX2SD_STATUS_DONE);
    CHECK(iox2sd_log_end(third, iox2sd_log_listed(&node, 1)) == IOX2SD_STATUS_DONE);
    call(b, iox2sd_log_deregister(2, 0), iox2sd_log_word(IOX2SD_LOG_NO_OWNERS));
    uint8_t *at = out;
    const iox2sd_text_answer found = iox2sd_log_write(&writer, out, sizeof out);
    /* Begins of one number stand in any order. */
    static const char *const fronts[] = {
        "service event 7 4 3 2\nworker1> nodes\nB> register 1.0.0.1\n",
        "service event 7 4 3 2\nB> register 1.0.0.1\nworker1> nodes\n"};
    const bool is_front = memcmp(at, fronts[0], strlen(fronts[0])) == 0 ||
                          memcmp(at, fronts[1], strlen(fronts[0])) == 0;
    static const char rest[] = "worker1< list\nworker1> nodes\nB< handle 2 0\n"
                               "worker1< list 1000000000000000000000001\n"
                               "B> deregister 2 0\nB< no-owners\n";
    CHECK(is_front && found.length == strlen(fronts[0]) + strlen(rest));
    CHECK(memcmp(at + strlen(fronts[0]), rest, strlen(rest)) == 0);
    iox2sd_log_writer_free(&writer);
}

/* Callers die in a call, between calls, and before the first one. */
static void deaths(void) {
    iox2sd_log_writer writer = writer_of(IOX2SD_PATTERN_EVENT);
    iox2sd_log_caller *const a = caller_of(&writer, "A"), *const b = caller_of(&writer, "B");
    iox2sd_log_caller *const c = caller_of(&writer, "C"), *const d = caller_of(&writer, "D");
    call(b, iox2sd_log_nodes(), iox2sd_log_listed(NULL, 0));
    const iox2sd_log_token open = iox2sd_log_begin(a, iox2sd_log_nodes());
    CHECK(iox2sd_log_died(b) == IOX2SD_STATUS_DONE && iox2sd_log_died(a) == IOX2SD_STATUS_DONE);
    CHECK(iox2sd_log_died(c) == IOX2SD_STATUS_DONE);
    CHECK(iox2sd_log_died(a) == IOX2SD_STATUS_CALLER_IS_DEAD);
    CHECK(iox2sd_log_begin(a, iox2sd_log_nodes()).status == IOX2SD_STATUS_CALLER_IS_DEAD);
    CHECK(open.status == IOX2SD_STATUS_DONE);
    CHECK(iox2sd_log_end(open, iox2sd_log_listed(NULL, 0)) == IOX2SD_STATUS_NO_OPEN_CALL);
    CHECK(iox2sd_log_begin(d, iox2sd_log_nodes()).status == IOX2SD_STATUS_DONE);
    CHECK(has_lines(&writer, "B> nodes\nB< list\nA> nodes\nB!\nA!\nD> nodes\n"));
    iox2sd_log_writer_free(&writer);
}

/* What is refused leaves the log as it was. */
static void refusals(void) {
    iox2sd_log_writer writer = writer_of(IOX2SD_PATTERN_EVENT);
    iox2sd_log_caller *const a = caller_of(&writer, "A");
    static const struct {
        const char *name;
        uint32_t status;
    } names[] = {{"", IOX2SD_STATUS_EMPTY},          {"A12345678901234b", IOX2SD_STATUS_DONE},
                 {"A12345678901234bc", IOX2SD_STATUS_TOO_LONG}, {"A>", IOX2SD_STATUS_ILLEGAL_BYTE},
                 {"A B", IOX2SD_STATUS_ILLEGAL_BYTE}, {"\xc3\xa4", IOX2SD_STATUS_ILLEGAL_BYTE},
                 {NULL, IOX2SD_STATUS_NULL},         {"z", IOX2SD_STATUS_DONE}};
    for (size_t at = 0; at < sizeof names / sizeof *names; at++) {
        CHECK(iox2sd_log_caller_create(&writer, names[at].name).status == names[at].status);
    }
    CHECK(iox2sd_log_caller_create(NULL, "A").status == IOX2SD_STATUS_NULL);
    const iox2sd_id no_node = {0, 1, 1, 0};
    iox2sd_log_command strange = iox2sd_log_nodes();
    strange.kind = 10;
    CHECK(iox2sd_log_begin(a, strange).status == IOX2SD_STATUS_UNKNOWN_VARIANT);
    CHECK(iox2sd_log_begin(a, iox2sd_log_register(no_node)).status == IOX2SD_STATUS_NO_NODE);
    CHECK(iox2sd_log_begin(a, iox2sd_log_dead(node, NULL, 1)).status == IOX2SD_STATUS_NULL);
    for (iox2sd_role role = 0; role < 20; role += 9) {
        const iox2sd_log_command commands[] = {iox2sd_log_count(role), iox2sd_log_list(role),
                                               iox2sd_log_list_weak(role)};
        for (size_t at = 0; at < sizeof commands / sizeof *commands; at++) {
            const uint32_t status = iox2sd_log_begin(a, commands[at]).status;
            CHECK(status == IOX2SD_STATUS_UNKNOWN_ROLE);
        }
    }
    CHECK(iox2sd_log_begin(NULL, iox2sd_log_nodes()).status == IOX2SD_STATUS_NULL);
    CHECK(has_lines(&writer, ""));
    iox2sd_log_command with_role = iox2sd_log_nodes(); /* Its kind has no role. */
    with_role.role = IOX2SD_ROLE_NONE;
    const iox2sd_log_token token = iox2sd_log_begin(a, with_role);
    CHECK(iox2sd_log_begin(a, iox2sd_log_nodes()).status == IOX2SD_STATUS_CALLER_IS_BUSY);
    CHECK(iox2sd_log_end(token, iox2sd_log_listed(NULL, 1)) == IOX2SD_STATUS_NULL);
    CHECK(iox2sd_log_end(token, iox2sd_log_word(12)) == IOX2SD_STATUS_UNKNOWN_VARIANT);
    CHECK(iox2sd_log_end(token, iox2sd_log_listed(NULL, 0)) == IOX2SD_STATUS_DONE);
    CHECK(iox2sd_log_end(token, iox2sd_log_counted(1)) == IOX2SD_STATUS_NO_OPEN_CALL);
    CHECK(has_lines(&writer, "A> nodes\nA< list\n"));
    CHECK(iox2sd_log_reserve(a, SIZE_MAX, 0) == IOX2SD_STATUS_NO_MEMORY);
    CHECK(iox2sd_log_reserve(a, 0, SIZE_MAX) == IOX2SD_STATUS_NO_MEMORY);
    CHECK(iox2sd_log_writer_create(NULL, 0, 7, room) == IOX2SD_STATUS_NULL);
    iox2sd_log_writer other;
    CHECK(iox2sd_log_writer_create(&other, 4, 7, room) == IOX2SD_STATUS_UNKNOWN_PATTERN);
    CHECK(iox2sd_log_write(NULL, out, 1).status == IOX2SD_STATUS_NULL);
    CHECK(iox2sd_log_write(&writer, NULL, 1).status == IOX2SD_STATUS_NULL);
    iox2sd_log_writer_free(&writer);
    iox2sd_log_writer_free(NULL);
}

/* A buffer that is too short is left as it was. */
static void buffers(void) {
    iox2sd_log_writer writer = writer_of(IOX2SD_PATTERN_EVENT);
    call(caller_of(&writer, "A"), iox2sd_log_nodes(), iox2sd_log_listed(&node, 1));
    const size_t length = iox2sd_log_write(&writer, NULL, 0).length;
    for (size_t capacity = 0; capacity <= length; capacity++) {
        memset(out, 0xAA, sizeof out);
        const iox2sd_text_answer found = iox2sd_log_write(&writer, out, capacity);
        const bool fits = capacity == length;
        CHECK(found.status == (fits ? IOX2SD_STATUS_DONE : IOX2SD_STATUS_BUFFER_TOO_SHORT));
        CHECK(found.length == length && (out[0] == 's') == fits && out[length] == 0xAA);
    }
    iox2sd_log_writer_free(&writer);
}

/* The requests for memory, of which the one that this counts down to is refused. */
static long left = -1;

void *__real_malloc(size_t size);
void *__real_calloc(size_t count, size_t size);
void *__real_realloc(void *at, size_t size);
void *__wrap_malloc(size_t size);
void *__wrap_calloc(size_t count, size_t size);
void *__wrap_realloc(void *at, size_t size);

static bool refuses(void) { return left >= 0 && left-- == 0; }

void *__wrap_malloc(size_t size) { return refuses() ? NULL : __real_malloc(size); }

void *__wrap_calloc(size_t count, size_t size) {
    return refuses() ? NULL : __real_calloc(count, size);
}

void *__wrap_realloc(void *at, size_t size) { return refuses() ? NULL : __real_realloc(at, size); }

/* The caller's calls, each made again where it is refused. Returns how many were. */
static int persistent_calls(iox2sd_log_writer *writer) {
    int refused = 0;
    iox2sd_log_caller_answer made;
    while ((made = iox2sd_log_caller_create(writer, "A")).status != IOX2SD_STATUS_DONE) {
        CHECK(made.status == IOX2SD_STATUS_NO_MEMORY && made.caller == NULL);
        refused++;
    }
    for (int at = 0; at < 3; at++) {
        iox2sd_log_token token;
        while ((token = iox2sd_log_begin(made.caller, iox2sd_log_dead(node, &node, 1))).status !=
               IOX2SD_STATUS_DONE) {
            CHECK(token.status == IOX2SD_STATUS_NO_MEMORY);
            refused++;
        }
        while (iox2sd_log_end(token, iox2sd_log_listed(&node, 1)) != IOX2SD_STATUS_DONE) refused++;
    }
    return refused;
}

/* Each request is refused in turn. Nothing is lost: the log is the same. */
static void no_memory(void) {
    int refused = 1;
    long request = 0;
    for (; refused != 0 && request < 100; request++) {
        iox2sd_log_writer writer = writer_of(IOX2SD_PATTERN_EVENT);
        left = request;
        refused = persistent_calls(&writer);
        left = -1;
        CHECK(refused <= 1);
        static const char lines[] = "A> dead 1.0.0.1 skip 1.0.0.1\n"
                                    "A< list 1000000000000000000000001\n";
        char all[MOST] = "";
        for (int at = 0; at < 3; at++) strcat(all, lines);
        CHECK(has_lines(&writer, all));
        iox2sd_log_writer_free(&writer);
    }
    CHECK(4 < request && request < 100);
    iox2sd_log_writer writer = writer_of(IOX2SD_PATTERN_EVENT);
    iox2sd_log_caller *const a = caller_of(&writer, "A");
    CHECK(iox2sd_log_reserve(a, 2, 3) == IOX2SD_STATUS_DONE);
    left = 0;
    call(a, iox2sd_log_dead(node, &node, 1), iox2sd_log_word(IOX2SD_LOG_FULL));
    const iox2sd_id both[] = {node, node};
    call(a, iox2sd_log_nodes(), iox2sd_log_listed(both, 2));
    CHECK(left == 0);
    left = -1;
    iox2sd_log_writer_free(&writer);
}

enum { THREADS = 4, CALLS = 2000 };

static void *count_up(void *caller) {
    for (size_t at = 0; at < CALLS; at++) {
        const iox2sd_log_token token = iox2sd_log_begin((iox2sd_log_caller *)caller,
                                                        iox2sd_log_nodes());
        if (iox2sd_log_end(token, iox2sd_log_counted(at)) != IOX2SD_STATUS_DONE) return caller;
    }
    return NULL;
}

/* The lines of each of several threads stand in its order, and no caller ends what it has not
 * begun. */
static void threads(void) {
    iox2sd_log_writer writer = writer_of(IOX2SD_PATTERN_EVENT);
    pthread_t running[THREADS];
    for (size_t at = 0; at < THREADS; at++) {
        const char name[] = {(char)('A' + at), '\0'};
        CHECK(pthread_create(running + at, NULL, count_up, caller_of(&writer, name)) == 0);
    }
    for (size_t at = 0; at < THREADS; at++) {
        void *failed = NULL;
        CHECK(pthread_join(running[at], &failed) == 0 && failed == NULL);
    }
    const size_t length = iox2sd_log_write(&writer, NULL, 0).length;
    uint8_t *const text = (uint8_t *)malloc(length + 1);
    CHECK(text != NULL && iox2sd_log_write(&writer, text, length).status == IOX2SD_STATUS_DONE);
    text[length] = '\0';
    size_t ends[THREADS] = {0};
    bool is_open[THREADS] = {false};
    char *line = strchr((char *)text, '\n') + 1;
    for (char *next; *line != '\0'; line = next) {
        next = strchr(line, '\n') + 1;
        const size_t at = (size_t)(line[0] - 'A');
        const bool ends_here = line[1] == '<';
        CHECK(at < THREADS && is_open[at] == ends_here);
        if (ends_here) CHECK((size_t)strtoull(line + 9, NULL, 10) == ends[at]++);
        is_open[at] = !ends_here;
    }
    for (size_t at = 0; at < THREADS; at++) CHECK(ends[at] == CALLS && !is_open[at]);
    free(text);
    iox2sd_log_writer_free(&writer);
}

int main(void) {
    commands();
    replies();
    services();
    listed_ids();
    order();
    deaths();
    refusals();
    buffers();
    no_memory();
    threads();
    return end_of_checks();
}
