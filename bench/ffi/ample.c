/* Makes each call of the library that takes memory at the sizes that are named as arguments, with
 * ample memory, and fills and lists a service of each. The status is 1 where one does not answer
 * what it should, after a line for each. */
#include "iox2sd_config.h"
#include "iox2sd_conform.h"
#include "iox2sd_script.h"

#include <stdio.h>
#include <stdlib.h>
#include <string.h>

enum { LONGEST = 28 }; /* The bytes of a line of a script, and some. */

static int wrong = 0;

static void want(const char *name, size_t size, uint32_t status) {
    if (status != IOX2SD_STATUS_DONE) {
        fprintf(stderr, "%s at %zu: status %u\n", name, size, status);
        wrong = 1;
    }
}

/* A service of each pattern with this much room. */
static void make(size_t size, iox2sd_capacities most) {
    for (uint32_t pattern = IOX2SD_PATTERN_PUBLISH_SUBSCRIBE; pattern <= IOX2SD_PATTERN_BLACKBOARD;
         pattern++) {
        iox2sd_service service = IOX2SD_SERVICE_NONE;
        want("iox2sd_service_create", size,
             iox2sd_service_create(&service, pattern, 7, most, UINT64_MAX));
        want("iox2sd_service_free", size, iox2sd_service_free(&service));
    }
}

/* A service with this many nodes, which are listed. */
static void nodes(size_t size, iox2sd_id *out) {
    iox2sd_service service = IOX2SD_SERVICE_NONE;
    iox2sd_capacities most = {size, 1, 1};
    iox2sd_id node = {1, 0, 0, 1};
    want("iox2sd_service_create", size,
         iox2sd_service_create(&service, IOX2SD_PATTERN_EVENT, 7, most, UINT64_MAX));
    for (size_t times = 0; times < size; times++)
        want("iox2sd_register_node_id", times, iox2sd_register_node_id(&service, node).status);
    want("iox2sd_nodes", size, iox2sd_nodes(&service, out, size).status);
    want("iox2sd_service_free", size, iox2sd_service_free(&service));
}

/* A script of this many lines and two. */
static void script(size_t size, uint8_t *text, uint8_t *out, size_t capacity) {
    const char *front = "service event 7 1 1 1\n", *line = "count listener\n", *back = "nodes\n";
    size_t length = strlen(front), step = strlen(line);
    memcpy(text, front, length);
    for (size_t times = 0; times < size; times++, length += step)
        memcpy(text + length, line, step);
    memcpy(text + length, back, strlen(back));
    length += strlen(back);
    want("iox2sd_script_run", size, iox2sd_script_run(text, length, out, capacity).status);
}

/* A log of this many calls. */
static void conform(size_t size, uint8_t *log, uint8_t *out, size_t capacity) {
    const char *front = "service event 7 1 1 1\n", *call = "count listener\n= count 0\n";
    size_t length = strlen(front), step = strlen(call);
    memcpy(log, front, length);
    for (size_t times = 0; times < size; times++, length += step)
        memcpy(log + length, call, step);
    want("iox2sd_conform_run", size, iox2sd_conform_run(log, length, out, capacity).status);
}

/* A file with this many unknown keys, of which each has 9 bytes, and the text of its settings. */
static void config(size_t size) {
    enum { KEY = 9, LINE = KEY + 5 };
    char *text = malloc(LINE * size + 1);
    iox2sd_unknown_key *keys = malloc(size * sizeof *keys + 1);
    uint8_t *paths = malloc(KEY * size + 1);
    if (text == NULL || keys == NULL || paths == NULL) exit(1);
    for (size_t times = 0; times < size; times++)
        sprintf(text + LINE * times, "k%08zu = 1\n", times);
    const uint8_t *bytes = (const uint8_t *)text;
    iox2sd_config made;
    want("iox2sd_config_read", size, iox2sd_config_read(bytes, LINE * size, &made).status);
    want("iox2sd_config_faults", size, iox2sd_config_faults(bytes, LINE * size, NULL, 0).status);
    want("iox2sd_config_unknown", size,
         iox2sd_config_unknown(bytes, LINE * size, keys, size, paths, KEY * size).status);
    uint8_t out[16384];
    want("iox2sd_config_write", size, iox2sd_config_write(&made, out, sizeof out).status);
    free(text);
    free(keys);
    free(paths);
}

int main(int count, char **sizes) {
    for (int k = 1; k < count; k++) {
        size_t size = strtoull(sizes[k], NULL, 10), capacity = LONGEST * (size + 4);
        uint8_t *text = malloc(capacity), *out = malloc(capacity);
        if (text == NULL || out == NULL) return 1;
        make(size, (iox2sd_capacities){size, 1, 1});
        make(size, (iox2sd_capacities){1, size, 1});
        make(size, (iox2sd_capacities){1, 1, size});
        nodes(size, (iox2sd_id *)(void *)out);
        script(size, text, out, capacity);
        conform(size, text, out, capacity);
        config(size);
        free(text);
        free(out);
    }
    return wrong || count < 2;
}
