/* The memory of a service: ten million calls leave it as it is, and each request of
 * iox2sd_service_create is refused in turn. Compiled as C99 with -Wl,--wrap=malloc,
 * --wrap=calloc,--wrap=realloc,--wrap=free, and linked with libiox2sd.a. The last line is
 * 'N checks, N failed'. */
#include "check.h"

#include <malloc.h>
#include <stdlib.h>

/* After how many requests one is refused, which below 0 is never; requests and blocks so far. */
static long refused = -1;
static long requests, blocks;

void *__real_malloc(size_t size);
void *__real_calloc(size_t count, size_t size);
void *__real_realloc(void *block, size_t size);
void __real_free(void *block);
void *__wrap_malloc(size_t size);
void *__wrap_calloc(size_t count, size_t size);
void *__wrap_realloc(void *block, size_t size);
void __wrap_free(void *block);

static void *counted(void *block) {
    if (block != NULL) blocks++;
    return block;
}

static bool is_refused(void) {
    requests++;
    return refused >= 0 && refused-- == 0;
}

void *__wrap_malloc(size_t size) { return is_refused() ? NULL : counted(__real_malloc(size)); }

void *__wrap_calloc(size_t count, size_t size) {
    return is_refused() ? NULL : counted(__real_calloc(count, size));
}

void *__wrap_realloc(void *block, size_t size) {
    if (is_refused()) return NULL;
    return block == NULL ? counted(__real_realloc(block, size)) : __real_realloc(block, size);
}

void __wrap_free(void *block) {
    if (block != NULL) blocks--;
    __real_free(block);
}

static void each_request_refused(uint32_t pattern) {
    iox2sd_service service = IOX2SD_SERVICE_NONE;
    const iox2sd_capacities room = capacities(2, 3, 4);
    long before = blocks, wanted;
    requests = 0;
    CHECK(iox2sd_service_create(&service, pattern, 5, room, 9) == IOX2SD_STATUS_DONE);
    wanted = requests;
    CHECK(wanted > 0 && blocks > before);
    CHECK(iox2sd_service_free(&service) == IOX2SD_STATUS_DONE && blocks == before);
    for (long request = 0; request < wanted; request++) {
        refused = request;
        CHECK(iox2sd_service_create(&service, pattern, 5, room, 9) == IOX2SD_STATUS_NO_MEMORY);
        CHECK(refused == -1 && blocks == before);
        CHECK(iox2sd_service_free(&service) == IOX2SD_STATUS_NO_SERVICE);
    }
    refused = wanted;
    CHECK(iox2sd_service_create(&service, pattern, 5, room, 9) == IOX2SD_STATUS_DONE);
    /* No other call takes any memory. */
    refused = 0;
    CHECK(iox2sd_register_node_id(&service, id(1, 2, 3, 4)).status == IOX2SD_STATUS_DONE);
    CHECK(iox2sd_remove_dead_node_id(&service, id(1, 2, 3, 4), NULL, 0).status ==
          IOX2SD_STATUS_DONE_LOCKED);
    CHECK(refused == 0);
    refused = -1;
    CHECK(iox2sd_service_free(&service) == IOX2SD_STATUS_DONE && blocks == before);
}

static void flat_memory(void) {
    iox2sd_service service = IOX2SD_SERVICE_NONE;
    iox2sd_id stays = id(9, 9, 9, 9), node = id(1, 2, 3, 4);
    long bad = 0;
    CHECK(iox2sd_service_create(&service, IOX2SD_PATTERN_PUBLISH_SUBSCRIBE, 1, capacities(20, 2, 8),
                              UINT64_MAX) == IOX2SD_STATUS_DONE);
    CHECK(iox2sd_register_node_id(&service, stays).status == IOX2SD_STATUS_DONE);
    size_t in_use = mallinfo2().uordblks;
    long before = requests;
    for (uint32_t i = 0; i < 5000000; i++) {
        node.counter = i;
        iox2sd_handle_answer made = iox2sd_register_node_id(&service, node);
        bad += made.status != IOX2SD_STATUS_DONE || made.handle.ticket != (uint64_t)i + 1;
        bad += iox2sd_deregister_node_id(&service, made.handle) != IOX2SD_STATUS_DONE;
    }
    CHECK(bad == 0);
    CHECK(mallinfo2().uordblks == in_use && requests == before);
    CHECK(iox2sd_service_free(&service) == IOX2SD_STATUS_DONE);
}

int main(void) {
    for (uint32_t pattern = 0; pattern < 4; pattern++) each_request_refused(pattern);
    flat_memory();
    return end_of_checks();
}
