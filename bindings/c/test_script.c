/* Runs scripts by iox2sd_script.h: one of docs/SCRIPT.md, each refusal, buffers of each length, and
 * want of memory at each request. Compiled as C99 with -Wl,--wrap=malloc,--wrap=realloc and linked
 * with libiox2sd.a. The last line is 'N checks, N failed'. */
#include "iox2sd_script.h"

#include <stdio.h>
#include <stdlib.h>
#include <string.h>
#include <time.h>

static int checks, failed;

static void check(bool holds, int line, const char *what) {
    checks++;
    if (!holds) {
        failed++;
        printf("line %d: %s\n", line, what);
    }
}

#define CHECK(condition) check(condition, __LINE__, #condition)

static const char script[] = "service publish-subscribe 9 4 4 4\n"
                             "register 1.1.0.5\n"
                             "register 1.2.0.5\n"
                             "add publisher 1.1.0.10 1.1.0.5\n"
                             "add subscriber 1.1.0.11 1.1.0.5\n"
                             "add publisher 1.2.0.12 1.2.0.5\n"
                             "dead 1.1.0.5 skip 1.1.0.10\n"
                             "list publisher\n"
                             "list subscriber\n"
                             "nodes\n";

static const char replies[] = "handle 0 0\n"
                              "handle 1 1\n"
                              "handle 0 0\n"
                              "handle 0 0\n"
                              "handle 1 1\n"
                              "has-owners\n"
                              "list 100000001000000000000000a 100000002000000000000000c\n"
                              "list\n"
                              "list 1000000010000000000000005 1000000020000000000000005\n";

enum { LENGTH = sizeof replies - 1, MOST = LENGTH + 8 };

static uint8_t out[MOST];

static iox2sd_script_answer run(const char *text, size_t capacity) {
    memset(out, 0xAA, sizeof out);
    return iox2sd_script_run((const uint8_t *)text, strlen(text), out, capacity);
}

static bool answers(iox2sd_script_answer answer, uint32_t status, size_t line, size_t length) {
    if (answer.status != IOX2SD_STATUS_BUFFER_TOO_SHORT && answer.verdict != answer.status)
        return false;
    return answer.status == status && answer.line == line && answer.length == length;
}

/* Whether these bytes stand at the front of the buffer, and the others are as they were set. */
static bool wrote(const char *text, size_t length) {
    for (size_t i = length; i < sizeof out; i++) {
        if (out[i] != 0xAA) return false;
    }
    return memcmp(out, text, length) == 0;
}

static void buffers(void) {
    CHECK(answers(run(script, MOST), IOX2SD_STATUS_DONE, 0, LENGTH) && wrote(replies, LENGTH));
    CHECK(answers(run(script, LENGTH), IOX2SD_STATUS_DONE, 0, LENGTH) && wrote(replies, LENGTH));
    for (size_t capacity = 0; capacity < LENGTH; capacity++) {
        CHECK(answers(run(script, capacity), IOX2SD_STATUS_BUFFER_TOO_SHORT, 0, LENGTH) &&
              wrote("", 0));
    }
    CHECK(answers(iox2sd_script_run((const uint8_t *)script, strlen(script), NULL, 0),
                  IOX2SD_STATUS_BUFFER_TOO_SHORT, 0, LENGTH));
    CHECK(answers(run("service event 7 1 2 2\n", 0), IOX2SD_STATUS_DONE, 0, 0));
    memset(out, 0xAA, sizeof out);
    CHECK(answers(iox2sd_script_run_str(script, out, MOST), IOX2SD_STATUS_DONE, 0, LENGTH));
    CHECK(wrote(replies, LENGTH));
}

static void bad_lines(void) {
    static const char third[] = "service event 7 1 2 2\nregister 1.0.0.1\nnonsense\nnodes\n";
    CHECK(answers(iox2sd_script_run(NULL, 0, NULL, 0), IOX2SD_STATUS_BAD_LINE, 1, 0));
    CHECK(answers(run(third, MOST), IOX2SD_STATUS_BAD_LINE, 3, 11) && wrote("handle 0 0\n", 11));
    CHECK(answers(run(third, 10), IOX2SD_STATUS_BUFFER_TOO_SHORT, 3, 11) && wrote("", 0));
    CHECK(answers(run("\xff\xfe\n", MOST), IOX2SD_STATUS_BAD_LINE, 1, 0) && wrote("", 0));
    CHECK(answers(run("service event 7 1 2 2", MOST), IOX2SD_STATUS_BAD_LINE, 1, 0));
    CHECK(answers(run("service event 7 1 2 2\nregister 0.1.1.0\n", MOST), IOX2SD_STATUS_BAD_LINE, 2,
                  0));
    CHECK(answers(run("service event 7 1 2 2\nlist node\n", MOST), IOX2SD_STATUS_BAD_LINE, 2, 0));
}

/* The library's requests for memory, of which the one that this counts down to is refused. */
static long left = -1;

void *__real_malloc(size_t size);
void *__real_realloc(void *at, size_t size);
void *__wrap_malloc(size_t size);
void *__wrap_realloc(void *at, size_t size);

static bool refuses(void) { return left >= 0 && left-- == 0; }

void *__wrap_malloc(size_t size) { return refuses() ? NULL : __real_malloc(size); }

void *__wrap_realloc(void *at, size_t size) { return refuses() ? NULL : __real_realloc(at, size); }

/* Each request is refused in turn: the status says so, and whole reply lines of first commands
 * stand in the buffer. */
static void no_memory(void) {
    long request = 0;
    iox2sd_script_answer answer;
    do {
        left = request++;
        answer = run(script, MOST);
        bool refused = left < 0;
        left = -1;
        CHECK(refused ? answer.status == IOX2SD_STATUS_NO_MEMORY
                      : answer.status == IOX2SD_STATUS_DONE);
        CHECK(answer.line == 0 && answer.length <= LENGTH && wrote(replies, answer.length));
        CHECK(answer.length == 0 || replies[answer.length - 1] == '\n');
        if (!refused) break;
    } while (request < 1000);
    CHECK(3 < request && request < 1000);
}

/* In too short a buffer too, memory that was refused is reported first, and no length but that of
 * what stands in the buffer: nothing, or the first reply line. */
static void no_memory_in_a_short_buffer(size_t capacity) {
    long request = 0;
    iox2sd_script_answer answer;
    do {
        left = request++;
        answer = run(script, capacity);
        bool refused = left < 0;
        left = -1;
        CHECK(answer.line == 0);
        if (!refused) break;
        CHECK(answer.status == IOX2SD_STATUS_NO_MEMORY && answer.length <= capacity);
        CHECK((answer.length == 0 || answer.length == 11) && wrote(replies, answer.length));
    } while (request < 1000);
    CHECK(3 < request && request < 1000);
    CHECK(answer.status == IOX2SD_STATUS_BUFFER_TOO_SHORT && answer.length == LENGTH &&
          wrote("", 0));
}

enum { PORTS = 40000, LONGEST_LINE = 40 };

/* The processor time of a script that attaches ports to a node and then removes this node, with the
 * ids of all ports to be kept, and counts what is left. */
static clock_t time_of_removal(const char *node, const char *count) {
    char *text = malloc(2 * PORTS * LONGEST_LINE);
    uint8_t *made = malloc(PORTS * LONGEST_LINE);
    if (text == NULL || made == NULL) abort();
    size_t length =
        (size_t)sprintf(text, "service publish-subscribe 9 2 %d 0\nregister 1.0.0.1\n", PORTS);
    for (int i = 0; i < PORTS; i++)
        length += (size_t)sprintf(text + length, "add publisher 1.0.0.%d 1.0.0.1\n", i);
    length += (size_t)sprintf(text + length, "dead %s skip", node);
    for (int i = 0; i < PORTS; i++) length += (size_t)sprintf(text + length, " 1.0.0.%d", i);
    length += (size_t)sprintf(text + length, "\ncount publisher\n");
    const clock_t before = clock();
    const iox2sd_script_answer answer =
        iox2sd_script_run((const uint8_t *)text, length, made, PORTS * LONGEST_LINE);
    const clock_t taken = clock() - before;
    CHECK(answer.status == IOX2SD_STATUS_DONE && strlen(count) < answer.length);
    CHECK(memcmp(made + answer.length - strlen(count), count, strlen(count)) == 0);
    free(text);
    free(made);
    return taken;
}

/* Ids to be kept that are sorted are looked up by halves: where each port of the node is one of
 * them, that takes not much longer than where the node has no port. */
static void many_kept_ports(void) {
    const clock_t none = time_of_removal("1.0.0.2", "count 40000\n");
    const clock_t all = time_of_removal("1.0.0.1", "count 40000\n");
    CHECK(all < 10 * none + CLOCKS_PER_SEC / 100);
}

int main(void) {
    CHECK(answers(iox2sd_script_run((const uint8_t *)"service event 7 1 1 18446744073709551615\n",
                                    41, out, MOST),
                  IOX2SD_STATUS_NO_MEMORY, 0, 0));
    CHECK(answers(iox2sd_script_run(NULL, 1, out, MOST), IOX2SD_STATUS_NULL, 0, 0));
    CHECK(answers(iox2sd_script_run((const uint8_t *)"", 0, NULL, 1), IOX2SD_STATUS_NULL, 0, 0));
    CHECK(answers(iox2sd_script_run_str(NULL, out, MOST), IOX2SD_STATUS_NULL, 0, 0));
    CHECK(answers(iox2sd_script_run_str("service", NULL, 0), IOX2SD_STATUS_BAD_LINE, 1, 0));
    buffers();
    bad_lines();
    no_memory();
    no_memory_in_a_short_buffer(0);
    no_memory_in_a_short_buffer(10);
    no_memory_in_a_short_buffer(11);
    many_kept_ports();
    printf("%d checks, %d failed\n", checks, failed);
    return failed != 0;
}
