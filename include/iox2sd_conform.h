/* Logs of services, for C99 and C++: the calls that were made on a service of any implementation
 * and the replies that were seen, as text, are judged by the sequential specification. The rules of
 * iox2sd.h for every call, and what it says of what is proved, hold here too. docs/CONFORM.md has
 * the lines of logs and of reports.
 *
 * A check takes memory by malloc and realloc, and frees all of it before it returns. It takes at
 * most IOX2SD_CONFORM_STACK_BYTES of the stack.
 */
#ifndef IOX2SD_CONFORM_H
#define IOX2SD_CONFORM_H

#include "iox2sd.h"

/* How much of the stack a check takes at most, in bytes. It is measured, not proved. */
#define IOX2SD_CONFORM_STACK_BYTES 20480

#ifdef __cplusplus
extern "C" {
#endif

/* What a log was judged to be. */
typedef struct iox2sd_conform_answer {
    iox2sd_status status;
    iox2sd_status verdict; /* What the status is with a longer buffer. */
    size_t line;   /* The number of the line that the status is about, from 1 on; 0 where the log
                    * conforms, and with IOX2SD_STATUS_NO_MEMORY. With IOX2SD_STATUS_NO_ORDER the
                    * report may be on a reply above it, and begins with the lines of both. */
    size_t calls;  /* The calls of a log that conforms; 0 of another one. */
    size_t length; /* The bytes of the report, also with IOX2SD_STATUS_BUFFER_TOO_SHORT; 0 with
                    * IOX2SD_STATUS_NO_MEMORY. */
} iox2sd_conform_answer;

/* Judges a log, and writes the report to the front of `out`, without a zero byte, where it fits:
 * what iox2-conform writes. The status is IOX2SD_STATUS_DONE where the log conforms. A log and a
 * buffer of NULL and 0 are empty ones.
 * Errors: IOX2SD_STATUS_NULL. IOX2SD_STATUS_NO_MEMORY. IOX2SD_STATUS_BUFFER_TOO_SHORT, with `line`,
 * `calls` and `length` as they would be with a longer buffer; then `out` is as it was, and a call
 * with a longer buffer judges the log again from its start. Then IOX2SD_STATUS_NO_ORDER, of the
 * first line down to which no order of the calls explains what was seen. It has a reply; calls that
 * are answered below it may have any. If there is none, of the line behind which a bound is passed:
 * IOX2SD_STATUS_TOO_MANY_CONFIGURATIONS where orders lead to more than 4,096 configurations,
 * IOX2SD_STATUS_TOO_MANY_OPEN_CALLS where more than 64 calls of a service are open.
 * Else, of the first line that is not what is expected, or before which the log ends,
 * IOX2SD_STATUS_NO_SERVICE_LINE, IOX2SD_STATUS_NO_CALL_LINE, IOX2SD_STATUS_NO_REPLY_LINE,
 * IOX2SD_STATUS_CALLER_IS_BUSY, IOX2SD_STATUS_NO_OPEN_CALL, IOX2SD_STATUS_CALLER_IS_DEAD,
 * IOX2SD_STATUS_UNKNOWN_CALLER, IOX2SD_STATUS_NO_NEWLINE, IOX2SD_STATUS_CARRIAGE_RETURN and
 * IOX2SD_STATUS_NO_STATE_LINE. With TOO_MANY_.. the log is not decided. */
IOX2SD_CHECKED iox2sd_conform_answer iox2sd_conform_run(const uint8_t *log, size_t length,
                                                        uint8_t *out, size_t capacity);
IOX2SD_CHECKED iox2sd_conform_answer iox2sd_conform_run_str(const char *log, uint8_t *out,
                                                            size_t capacity);

#ifdef __cplusplus
}
#endif

#endif
