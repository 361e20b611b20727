/* Judges logs by iox2sd_conform.h: calls alone and calls that overlapped, each verdict, buffers of
 * each length, and want of memory at each request. Compiled as C99 with
 * -Wl,--wrap=malloc,--wrap=realloc and linked with libiox2sd.a. The last line is 'N checks, N
 * failed'. */
#include "check.h"
#include "iox2sd_conform.h"

#include <stdlib.h>
#include <string.h>

static const char conforming[] = "service event 7 2 2 0\n"
                                 "register 1.0.0.1\n"
                                 "= handle 1 0\n"
                                 "\n"
                                 "add listener 1.0.0.10 1.0.0.1\n"
                                 "# between a call and its reply\n"
                                 "= handle 0 0\n"
                                 "release 0\n"
                                 "= not-owned\n";

static const char refused[] = "service event 7 2 2 0\n"
                              "register 1.0.0.1\n"
                              "= handle 0 0\n"
                              "add listener 1.0.0.10 1.0.0.1\n"
                              "= handle 1 0\n"
                              "release 1\n"
                              "= released\n"
                              "add listener 1.0.0.11 1.0.0.1\n"
                              "= handle 0 0\n";

static const char two_services[] = "service event 7 1 0 0\n"
                                   "service blackboard 8 1 0 0\n"
                                   "8: register 1.0.0.1\n"
                                   "= handle 0 0\n"
                                   "7: nodes\n"
                                   "= list\n";

/* A service with room for one node, for which two calls ask at a time. */
static const char one_slot[] = "service event 7 1 0 0\n"
                                "A> register 1.0.0.1\n"
                                "B> register 2.0.0.2\n"
                                "A< handle 0 0\n"
                                "B< full\n";

/* The second of the two saw that there is room, after the first one had it. */
static const char two_in_one_slot[] = "service event 7 1 0 0\n"
                                       "A> register 1.0.0.1\n"
                                       "B> register 2.0.0.2\n"
                                       "A< handle 0 0\n"
                                       "B< handle 0 1\n";

/* A listing sees a node whose registration is open, until that is answered: there is no room. */
static const char a_reply_below[] = "service event 7 1 0 0\n"
                                    "A> register 1.0.0.1\n"
                                    "B> nodes\n"
                                    "B< list 1000000000000000000000001\n"
                                    "# both lines are told\n"
                                    "A< full\n"
                                    "nodes\n"
                                    "= locked\n";

/* A node is registered while it is not known whether another one was: the caller died. */
static const char died[] = "service event 7 2 0 0\n"
                           "A> register 1.0.0.1\n"
                           "A!\n"
                           "B> register 2.0.0.2\n"
                           "B< handle 0 1\n"
                           "nodes\n"
                           "= list 2000000000000000000000002 1000000000000000000000001\n";

/* The first node is registered again and gets a port, while it is removed as a dead one: first,
 * last, or after the port was attached and before it is registered. */
#define THREE_STATES \
    "service event 7 3 2 0\n" \
    "register 1.0.0.1\n" \
    "= handle 0 0\n" \
    "register 1.0.0.2\n" \
    "= handle 1 1\n" \
    "A> dead 1.0.0.1\n" \
    "B> register 1.0.0.1\n" \
    "C> add listener 1.0.0.9 1.0.0.1\n" \
    "A< has-owners\n" \
    "B< handle 2 2\n" \
    "C< handle 0 0\n"

static const char three_states[] = THREE_STATES "count listener\n= count 7\n";

/* The port is there, so that one state is left. */
static const char one_of_three[] =
    THREE_STATES "count listener\n= count 1\nrelease listener 0 0\n= released\n";

static const char conforming_report[] = "conforms, 3 calls on 1 service\n";

static const char refused_report[] = "line 9: no order of the calls explains this reply\n"
                                     "seen: handle 0 0\n"
                                     "call: add listener 1.0.0.11 1.0.0.1 (line 8)\n"
                                     "window: from line 9\n"
                                     "needed: lines 9\n"
                                     "made: none\n"
                                     "possible: handle 0-1 1\n"
                                     "nodes: 1000000000000000000000001\n"
                                     "ports:\n";

static const char two_in_one_slot_report[] =
    "line 5: no order of the calls explains this reply\n"
    "seen: handle 0 1\n"
    "call: B> register 2.0.0.2 (line 3)\n"
    "window: from line 2\n"
    "needed: lines 2 3\n"
    "made: none\n"
    "possible: full\n"
    "nodes: 1000000000000000000000001\n"
    "ports:\n";

static const char a_reply_below_report[] =
    "line 6: down to here no order of the calls explains the reply in line 4\n"
    "seen: list 1000000000000000000000001\n"
    "call: B> nodes (line 3)\n"
    "window: from line 2\n"
    "needed: lines 3\n"
    "made: none\n"
    "possible: list\n"
    "nodes:\n"
    "ports:\n";

static const char three_states_report[] =
    "line 13: no order of the calls explains this reply\n"
    "seen: count 7\n"
    "call: count listener (line 12)\n"
    "window: from line 13\n"
    "needed: lines 13\n"
    "made: none\n"
    "possible: count 0\n"
    "nodes: 1000000000000000000000002\n"
    "ports:\n"
    "made: none\n"
    "possible: count 0\n"
    "nodes: 1000000000000000000000002 1000000000000000000000001\n"
    "ports:\n"
    "made: none\n"
    "possible: count 1\n"
    "nodes: 1000000000000000000000002 1000000000000000000000001\n"
    "ports: 1000000000000000000000009\n";

enum { MOST = 512 };

static uint8_t out[MOST];

static iox2sd_conform_answer run(const char *log, size_t capacity) {
    memset(out, 0xAA, sizeof out);
    return iox2sd_conform_run((const uint8_t *)log, strlen(log), out, capacity);
}

static bool answers(iox2sd_conform_answer answer, uint32_t status, size_t line, size_t calls,
                    size_t length) {
    return answer.status == status && answer.line == line && answer.calls == calls &&
           answer.length == length;
}

/* Whether this text stands at the front of the buffer, and the others are as they were set. */
static bool wrote(const char *text) {
    size_t length = strlen(text);
    for (size_t i = length; i < sizeof out; i++) {
        if (out[i] != 0xAA) return false;
    }
    return memcmp(out, text, length) == 0;
}

/* A log with this report, in a buffer of each length. */
static void buffers(const char *log, const char *report, uint32_t status, size_t line,
                    size_t calls) {
    size_t length = strlen(report);
    CHECK(answers(run(log, MOST), status, line, calls, length) && wrote(report));
    CHECK(answers(run(log, length), status, line, calls, length) && wrote(report));
    for (size_t capacity = 0; capacity < length; capacity++) {
        CHECK(answers(run(log, capacity), IOX2SD_STATUS_BUFFER_TOO_SHORT, line, calls, length));
        CHECK(wrote(""));
    }
}

/* The first line that is not what is expected. */
static void bad_lines(void) {
#define SERVICE "service event 7 2 2 0\n"
#define FIRST                                                                                     \
    "the line of a service is expected, as service event 7 2 2 0; a pattern is "                  \
    "publish-subscribe, event, request-response or blackboard"
#define REPLY                                                                                     \
    "a reply is expected, as handle 0 3, list 1000000000000000000000001, count 2 or released; "   \
    "below a call alone with = before it"
    static const struct {
        const char *log;
        const char *expected;
        uint32_t status;
        size_t line;
    } rows[] = {
        {"", FIRST, IOX2SD_STATUS_NO_SERVICE_LINE, 1},
        {"\xff\n", FIRST, IOX2SD_STATUS_NO_SERVICE_LINE, 1},
        {SERVICE "count\n", "count ROLE is expected, as count listener, and no space behind it",
         IOX2SD_STATUS_NO_CALL_LINE, 2},
        {SERVICE "A> list? nodes\n",
         "CALLER> list? ROLE is expected, as A> list? listener, and no space behind it",
         IOX2SD_STATUS_NO_CALL_LINE, 2},
        {SERVICE "8: nodes\n",
         "a line on a service above, by its number, or a new service is expected",
         IOX2SD_STATUS_NO_CALL_LINE, 2},
        {SERVICE SERVICE, "another number is expected: a service above has this one",
         IOX2SD_STATUS_NO_CALL_LINE, 2},
        {SERVICE "= list\n",
         "the command of a call is expected above its reply, as nodes above = list",
         IOX2SD_STATUS_NO_CALL_LINE, 2},
        {SERVICE "nodes\nlist\n", REPLY, IOX2SD_STATUS_NO_REPLY_LINE, 3},
        {SERVICE "nodes\n= list A\n", REPLY, IOX2SD_STATUS_NO_REPLY_LINE, 3},
        {SERVICE "nodes\n", REPLY, IOX2SD_STATUS_NO_REPLY_LINE, 3},
        {SERVICE "A> nodes\nA> nodes\n", "a caller without an open call is expected",
         IOX2SD_STATUS_CALLER_IS_BUSY, 3},
        {SERVICE "A< list\n", "a caller with an open call is expected",
         IOX2SD_STATUS_NO_OPEN_CALL, 2},
        {SERVICE "A> nodes\nA!\nA< list\n", "a caller that has not died is expected",
         IOX2SD_STATUS_CALLER_IS_DEAD, 4},
        {SERVICE "A!\n", "a caller that has begun a call is expected",
         IOX2SD_STATUS_UNKNOWN_CALLER, 2},
        {SERVICE "state nodes 3\nstate nodes 4\n", "a state of the service is expected",
         IOX2SD_STATUS_NO_STATE_LINE, 3},
    };
#undef SERVICE
#undef FIRST
#undef REPLY
    for (size_t at = 0; at < sizeof rows / sizeof *rows; at++) {
        char report[256];
        snprintf(report, sizeof report, "line %zu: %s\n", rows[at].line, rows[at].expected);
        buffers(rows[at].log, report, rows[at].status, rows[at].line, 0);
    }
    buffers("service event 7 2 2 0", "line 1: a newline is expected at the end of the line\n",
            IOX2SD_STATUS_NO_NEWLINE, 1, 0);
    buffers("service event 7 2 2 0\r\n",
            "line 1: no carriage return is expected before the newline\n",
            IOX2SD_STATUS_CARRIAGE_RETURN, 1, 0);
}

/* So many callers that each have a call open, and one that sees no node. */
static void open_calls(size_t callers, uint32_t status, const char *report, size_t calls) {
    char log[4096] = "service event 7 2 0 0\n";
    size_t at = strlen(log);
    for (size_t caller = 0; caller < callers; caller++) {
        at += (size_t)snprintf(log + at, sizeof log - at, "c%zu> nodes\n", caller);
    }
    const size_t line = status == IOX2SD_STATUS_DONE ? 0 : callers + 1;
    CHECK(answers(run(log, MOST), status, line, calls, strlen(report)) && wrote(report));
}

/* The library's requests for memory, of which the one that this counts down to is refused. */
static long left = -1;

void *__real_malloc(size_t size);
void *__real_realloc(void *at, size_t size);
void *__wrap_malloc(size_t size);
void *__wrap_realloc(void *at, size_t size);

static bool refuses(void) { return left >= 0 && left-- == 0; }

void *__wrap_malloc(size_t size) { return refuses() ? NULL : __real_malloc(size); }

void *__wrap_realloc(void *at, size_t size) { return refuses() ? NULL : __real_realloc(at, size); }

/* Each request is refused in turn: the status says so, whatever the buffer's length. */
static void no_memory(const char *log, size_t capacity, uint32_t status) {
    long request = 0;
    iox2sd_conform_answer answer;
    do {
        left = request++;
        answer = run(log, capacity);
        bool was_refused = left < 0;
        left = -1;
        if (!was_refused) break;
        CHECK(answers(answer, IOX2SD_STATUS_NO_MEMORY, 0, 0, 0) && wrote(""));
    } while (request < 1000);
    CHECK(3 < request && request < 1000 && answer.status == status);
}

int main(void) {
    buffers(conforming, conforming_report, IOX2SD_STATUS_DONE, 0, 3);
    buffers(two_services, "conforms, 2 calls on 2 services\n", IOX2SD_STATUS_DONE, 0, 2);
    buffers(refused, refused_report, IOX2SD_STATUS_NO_ORDER, 9, 0);
    buffers(one_slot, "conforms, 2 calls on 1 service\n", IOX2SD_STATUS_DONE, 0, 2);
    buffers(one_of_three, "conforms, 7 calls on 1 service\n", IOX2SD_STATUS_DONE, 0, 7);
    buffers(died, "conforms, 3 calls on 1 service\n", IOX2SD_STATUS_DONE, 0, 3);
    buffers(three_states, three_states_report, IOX2SD_STATUS_NO_ORDER, 13, 0);
    buffers(two_in_one_slot, two_in_one_slot_report, IOX2SD_STATUS_NO_ORDER, 5, 0);
    buffers(a_reply_below, a_reply_below_report, IOX2SD_STATUS_NO_ORDER, 6, 0);
    bad_lines();
    open_calls(64, IOX2SD_STATUS_DONE, "conforms, 64 calls on 1 service\n", 64);
    open_calls(65, IOX2SD_STATUS_TOO_MANY_OPEN_CALLS,
               "line 66: more than 64 calls are open\n", 0);
    CHECK(answers(iox2sd_conform_run(NULL, 1, out, MOST), IOX2SD_STATUS_NULL, 0, 0, 0));
    CHECK(
        answers(iox2sd_conform_run((const uint8_t *)"", 0, NULL, 1), IOX2SD_STATUS_NULL, 0, 0, 0));
    CHECK(answers(iox2sd_conform_run_str(NULL, out, MOST), IOX2SD_STATUS_NULL, 0, 0, 0));
    CHECK(answers(iox2sd_conform_run(NULL, 0, NULL, 0), IOX2SD_STATUS_BUFFER_TOO_SHORT, 1, 0, 139));
    CHECK(answers(iox2sd_conform_run_str(conforming, out, MOST), IOX2SD_STATUS_DONE, 0, 3, 31));
    no_memory(conforming, MOST, IOX2SD_STATUS_DONE);
    no_memory(refused, MOST, IOX2SD_STATUS_NO_ORDER);
    no_memory(refused, 0, IOX2SD_STATUS_BUFFER_TOO_SHORT);
    no_memory(one_slot, MOST, IOX2SD_STATUS_DONE);
    no_memory(three_states, MOST, IOX2SD_STATUS_NO_ORDER);
    return end_of_checks();
}
