/* Whole scripts, for C99 and C++: a service and the commands on it as text, and the text of the
 * replies. The rules of iox2sd.h for every call, and what it says of what is proved, hold here too.
 * docs/SCRIPT.md has all lines and replies.
 *
 * A run takes memory by malloc and realloc, and frees all of it before it returns. It takes at most
 * IOX2SD_STACK_BYTES of the stack.
 */
#ifndef IOX2SD_SCRIPT_H
#define IOX2SD_SCRIPT_H

#include "iox2sd.h"

#ifdef __cplusplus
extern "C" {
#endif

/* How a script ended. */
typedef struct iox2sd_script_answer {
    iox2sd_status status;
    iox2sd_status verdict; /* What the status is with a longer buffer. */
    size_t line;   /* The number of the bad line, from 1 on; 0 where none is bad. */
    size_t length; /* The bytes of all reply lines, also with IOX2SD_STATUS_BUFFER_TOO_SHORT; with
                    * IOX2SD_STATUS_NO_MEMORY, of those that were written. */
} iox2sd_script_answer;

/* Runs a whole script, and writes its reply lines to the front of `out`, without a zero byte, where
 * all of them fit. A script and a buffer of NULL and 0 are empty ones.
 * Errors: IOX2SD_STATUS_NULL. IOX2SD_STATUS_NO_MEMORY, with nothing or the whole reply lines of
 * some first commands. IOX2SD_STATUS_BUFFER_TOO_SHORT, with `line` and `length` as they would be
 * with a longer buffer; then `out` is as it was, and a call with a longer buffer runs the script
 * again from its start. IOX2SD_STATUS_BAD_LINE, with `line` and the reply lines to the commands
 * before it. */
IOX2SD_CHECKED iox2sd_script_answer iox2sd_script_run(const uint8_t *script, size_t length,
                                                      uint8_t *out, size_t capacity);
IOX2SD_CHECKED iox2sd_script_answer iox2sd_script_run_str(const char *script, uint8_t *out,
                                                          size_t capacity);

#ifdef __cplusplus
}
#endif

#endif
