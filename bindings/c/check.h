/* What the tests of iox2sd.h share. */
#ifndef CHECK_H
#define CHECK_H

#include "iox2sd.h"

#include <stdio.h>

static int checks, failed;

static inline void check(bool holds, int line, const char *what) {
    checks++;
    if (!holds) {
        failed++;
        printf("line %d: %s\n", line, what);
    }
}

#define CHECK(condition) check(condition, __LINE__, #condition)

/* Prints how many checks there were, and answers the program's status. */
static inline int end_of_checks(void) {
    printf("%d checks, %d failed\n", checks, failed);
    return failed != 0;
}

static inline iox2sd_id id(uint32_t process, uint32_t seconds, uint32_t nanoseconds,
                           uint32_t counter) {
    iox2sd_id made;
    made.process = process;
    made.seconds = seconds;
    made.nanoseconds = nanoseconds;
    made.counter = counter;
    return made;
}

static inline iox2sd_capacities capacities(size_t nodes, size_t first, size_t second) {
    iox2sd_capacities made;
    made.nodes = nodes;
    made.first = first;
    made.second = second;
    return made;
}

#endif
