/* Loaded before the C library, it refuses requests for memory, which it counts from 1 on. REFUSED tells which: `3` the third, `3,9` the third and the
   ninth, `3-` the third and all after it, nothing none. To the file of the number TOLD it writes an `m` for the first, an `r` for each that it refuses,
   and at the end an `l` where memory is left that was not given back. */
#include <stddef.h>
#include <stdlib.h>
#include <unistd.h>

extern void *__libc_malloc(size_t size);
extern void *__libc_realloc(void *old, size_t size);
extern void __libc_free(void *old);

static unsigned long made;
static long live;

static void tell(const char *what)
{
    if (write(atoi(getenv("TOLD")), what, 1) != 1)
        abort();
}

static int is_refused(void)
{
    const char *list = getenv("REFUSED");
    if (made == 0)
        tell("m");
    made++;
    while (*list) {
        char *end;
        unsigned long number = strtoul(list, &end, 10);
        if (made == number || (*end == '-' && made > number)) {
            tell("r");
            return 1;
        }
        list = *end ? end + 1 : end;
    }
    return 0;
}

void *malloc(size_t size)
{
    void *room = is_refused() ? NULL : __libc_malloc(size);
    live += room != NULL;
    return room;
}

void *realloc(void *old, size_t size)
{
    void *room = is_refused() ? NULL : __libc_realloc(old, size);
    live += old == NULL && room != NULL;
    return room;
}

void free(void *old)
{
    live -= old != NULL;
    __libc_free(old);
}

__attribute__((destructor)) static void tell_what_is_left(void)
{
    if (live != 0)
        tell("l");
}
