/* What calls on long files of settings take, as ratios, so that another machine or a busy one does
 * not matter. Compiled as C99 and linked with libiox2sd.a. The last line is 'N checks, N failed'. */
#include "check.h"
#include "iox2sd_config.h"

#include <stdlib.h>
#include <string.h>
#include <time.h>

/* A file of unknown keys: what stands before them, each with its number, and what stands behind
 * them, with the length of the path of each. */
typedef struct unknown_file {
    const char *front;
    const char *each;
    const char *end;
    size_t path_length;
} unknown_file;

/* SEARCHED keys are a file of less than 128 KiB, in which each has a position, and FEW are a longer
 * one, in which none has. */
enum { SEARCHED = 6000, FEW = 7300, MANY = 10 * FEW, LONGEST_KEY = 32, SMALL = 128 * 1024 };

/* The processor time of finding so many unknown keys. */
static clock_t time_of_unknown(unknown_file file, int count) {
    char *text = malloc(MANY * LONGEST_KEY);
    iox2sd_unknown_key *keys = calloc(MANY, sizeof *keys);
    uint8_t *buffer = malloc(MANY * LONGEST_KEY);
    static iox2sd_config made;
    if (text == NULL || keys == NULL || buffer == NULL) abort();
    const size_t wanted = (size_t)count;
    size_t length = (size_t)sprintf(text, "%s", file.front);
    for (int i = 0; i < count; i++) length += (size_t)sprintf(text + length, file.each, i);
    length += (size_t)sprintf(text + length, "%s", file.end);
    CHECK((length < SMALL) == (count < FEW) && (count < MANY || length > 709000));
    const clock_t before = clock();
    CHECK(iox2sd_config_read((uint8_t *)text, length, &made).unknown == wanted);
    const iox2sd_unknown_answer found = iox2sd_config_unknown(
        (uint8_t *)text, length, keys, wanted, buffer, MANY * LONGEST_KEY);
    const clock_t taken = clock() - before;
    CHECK(found.status == IOX2SD_STATUS_DONE && found.count == wanted);
    CHECK(found.length == wanted * file.path_length);
    CHECK((keys[count - 1].line != 0) == (count < FEW));
    free(text);
    free(keys);
    free(buffer);
    return taken;
}

/* Ten times as many unknown keys take about ten times as long, and not a hundred times: keys of the
 * file and of a known table, tables, and keys of one line. To search for positions takes a square of
 * the keys, but no longer than a file of a megabyte, for which there are none. */
static void many_unknown_keys(void) {
    static const unknown_file files[] = {
        {"", "key-%06d = 1234\n", "", 10},
        {"[defaults.event]\n", "key-%06d = 1234\n", "", 25},
        {"", "[table-%06d]\nk = 1\n", "", 12},
        {"defaults.event = {", "key-%06d = 1234, ", "}\n", 25},
    };
    for (size_t at = 0; at < sizeof files / sizeof *files; at++) {
        const clock_t few = time_of_unknown(files[at], FEW);
        const clock_t many = time_of_unknown(files[at], MANY);
        CHECK(many < 40 * few + CLOCKS_PER_SEC / 100);
        CHECK(time_of_unknown(files[at], SEARCHED) < 2 * many);
    }
}

int main(void) {
    many_unknown_keys();
    return end_of_checks();
}
