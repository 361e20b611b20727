/* Logs of a registry of one's own, for C99 and C++: its calls are written down while threads make
 * them, with the replies that they saw, as the lines that iox2-conform and iox2sd_conform_run judge
 * (docs/CONFORM.md).
 *
 * A header alone, which calls no function of the library. A writer has the log of one service, and
 * each thread a caller of its own. A call is begun before the registry is called and ended once the
 * reply is seen. Neither takes a lock: a begin reads the one counter that callers share, an end
 * adds to it, and the rest is written to memory of the caller's own. So where a call ended before
 * another began, its end stands above that begin in the log. Begins stand above an end of the same
 * number.
 *
 * - Memory is taken by calloc and realloc where a caller is made, and where it has more calls or
 *   ids than were reserved. It is freed by iox2sd_log_writer_free alone.
 * - Where memory is refused the status says so, and the log is as it was.
 * - One thread at a time uses a caller. Callers are made on any thread. The writer is written and
 *   freed after the threads were joined.
 */
#ifndef IOX2SD_LOG_H
#define IOX2SD_LOG_H

#include <stdlib.h>

#include "iox2sd.h"

#ifdef __cplusplus
extern "C" {
#endif

/* How many letters and digits the name of a caller has at most; it has one at least. */
#define IOX2SD_LOG_MAX_NAME 16

/* ---- Commands ---- */

enum iox2sd_log_command_number {
    IOX2SD_LOG_REGISTER = 0,
    IOX2SD_LOG_DEREGISTER = 1,
    IOX2SD_LOG_ADD = 2,
    IOX2SD_LOG_RELEASE = 3,
    IOX2SD_LOG_DEAD = 4,
    IOX2SD_LOG_NODES = 5,
    IOX2SD_LOG_LIST = 6,
    IOX2SD_LOG_COUNT = 7,
    IOX2SD_LOG_NODES_WEAK = 8,
    IOX2SD_LOG_LIST_WEAK = 9
};

/* A command, as docs/SCRIPT.md has it, or a weak listing; a removal names its handle by slot and
 * ticket. The functions below make one. A field that its kind does not have is 0. */
typedef struct iox2sd_log_command {
    uint32_t kind;
    iox2sd_role role;
    iox2sd_id port;
    iox2sd_id node;
    size_t slot;
    uint64_t ticket;
    const iox2sd_id *kept; /* The ports that stay after a node died. */
    size_t kept_count;
} iox2sd_log_command;

static inline iox2sd_log_command iox2sd_log_of_kind(uint32_t kind) {
    iox2sd_log_command made;
    memset(&made, 0, sizeof made);
    made.kind = kind;
    return made;
}

static inline iox2sd_log_command iox2sd_log_of_role(uint32_t kind, iox2sd_role role) {
    iox2sd_log_command made = iox2sd_log_of_kind(kind);
    made.role = role;
    return made;
}

/* Registers the node. */
static inline iox2sd_log_command iox2sd_log_register(iox2sd_id node) {
    iox2sd_log_command made = iox2sd_log_of_kind(IOX2SD_LOG_REGISTER);
    made.node = node;
    return made;
}

/* Deregisters the node under this handle. */
static inline iox2sd_log_command iox2sd_log_deregister(size_t slot, uint64_t ticket) {
    iox2sd_log_command made = iox2sd_log_of_kind(IOX2SD_LOG_DEREGISTER);
    made.slot = slot;
    made.ticket = ticket;
    return made;
}

/* Attaches the port to the node. */
static inline iox2sd_log_command iox2sd_log_add(iox2sd_port_id port, iox2sd_id node) {
    iox2sd_log_command made = iox2sd_log_of_kind(IOX2SD_LOG_ADD);
    made.role = port.role;
    made.port = port.port;
    made.node = node;
    return made;
}

/* Releases the port of this role under this handle. */
static inline iox2sd_log_command iox2sd_log_release(iox2sd_role role, size_t slot,
                                                    uint64_t ticket) {
    iox2sd_log_command made = iox2sd_log_of_kind(IOX2SD_LOG_RELEASE);
    made.role = role;
    made.slot = slot;
    made.ticket = ticket;
    return made;
}

/* Removes the ports of a dead node but those that are kept, and the node where none of its ports
 * stays. The ids are copied where the call begins. */
static inline iox2sd_log_command iox2sd_log_dead(iox2sd_id node, const iox2sd_id *kept,
                                                 size_t kept_count) {
    iox2sd_log_command made = iox2sd_log_of_kind(IOX2SD_LOG_DEAD);
    made.node = node;
    made.kept = kept;
    made.kept_count = kept_count;
    return made;
}

/* Lists the nodes. */
static inline iox2sd_log_command iox2sd_log_nodes(void) {
    return iox2sd_log_of_kind(IOX2SD_LOG_NODES);
}

/* Lists the ports of the role. */
static inline iox2sd_log_command iox2sd_log_list(iox2sd_role role) {
    return iox2sd_log_of_role(IOX2SD_LOG_LIST, role);
}

/* Counts the ports of the role. */
static inline iox2sd_log_command iox2sd_log_count(iox2sd_role role) {
    return iox2sd_log_of_role(IOX2SD_LOG_COUNT, role);
}

/* Lists the nodes without a lock, by a walk over the slots while others change them, so that the
 * reply need not be a snapshot. It must have each node that was there all through the call, and
 * none that never was. */
static inline iox2sd_log_command iox2sd_log_nodes_weak(void) {
    return iox2sd_log_of_kind(IOX2SD_LOG_NODES_WEAK);
}

/* Lists the ports of the role, as iox2sd_log_nodes_weak does nodes. */
static inline iox2sd_log_command iox2sd_log_list_weak(iox2sd_role role) {
    return iox2sd_log_of_role(IOX2SD_LOG_LIST_WEAK, role);
}

/* ---- Replies ---- */

/* What a call replied, as docs/SCRIPT.md has it. */
enum iox2sd_log_reply_number {
    IOX2SD_LOG_HANDLE = 0, /* Made by iox2sd_log_handle. */
    IOX2SD_LOG_COUNTED = 1, /* Made by iox2sd_log_counted. */
    IOX2SD_LOG_LISTED = 2, /* Made by iox2sd_log_listed. */
    /* The others are a word alone. */
    IOX2SD_LOG_LOCKED = 3,
    IOX2SD_LOG_NOT_REGISTERED = 4,
    IOX2SD_LOG_FULL = 5,
    IOX2SD_LOG_WRONG_PATTERN = 6,
    IOX2SD_LOG_HAS_OWNERS = 7,
    IOX2SD_LOG_NO_OWNERS = 8,
    IOX2SD_LOG_PORTS_ATTACHED = 9,
    IOX2SD_LOG_RELEASED = 10,
    IOX2SD_LOG_NOT_OWNED = 11
};

typedef struct iox2sd_log_reply {
    uint32_t kind;
    size_t slot;
    uint64_t ticket;
    size_t count; /* The ports that were counted, or the ids. */
    const iox2sd_id *ids;
} iox2sd_log_reply;

/* A reply that is a word alone. */
static inline iox2sd_log_reply iox2sd_log_word(uint32_t kind) {
    iox2sd_log_reply made;
    memset(&made, 0, sizeof made);
    made.kind = kind;
    return made;
}

/* Registered or attached, under this handle. */
static inline iox2sd_log_reply iox2sd_log_handle(size_t slot, uint64_t ticket) {
    iox2sd_log_reply made = iox2sd_log_word(IOX2SD_LOG_HANDLE);
    made.slot = slot;
    made.ticket = ticket;
    return made;
}

/* So many ports. */
static inline iox2sd_log_reply iox2sd_log_counted(size_t count) {
    iox2sd_log_reply made = iox2sd_log_word(IOX2SD_LOG_COUNTED);
    made.count = count;
    return made;
}

/* These nodes or ports. The ids are copied where the call ends. */
static inline iox2sd_log_reply iox2sd_log_listed(const iox2sd_id *ids, size_t count) {
    iox2sd_log_reply made = iox2sd_log_word(IOX2SD_LOG_LISTED);
    made.ids = ids;
    made.count = count;
    return made;
}

/* ---- Writers and callers, whose fields are for the functions below alone ---- */

/* The number of the end of a call that has none. */
#define IOX2SD_LOG_NEVER UINT64_MAX

/* A call: its numbers, its command and its reply. Ids of lists stand among those of its caller. */
struct iox2sd_log_call {
    uint64_t begun;
    uint64_t ended;
    uint8_t command;
    uint8_t role;
    uint8_t reply;
    iox2sd_id port;
    iox2sd_id node;
    uint64_t named[2]; /* A command's slot and ticket, or where its ids begin and how many. */
    uint64_t seen[2];  /* The same of a reply, or its count. */
};

struct iox2sd_log_writer;

/* Who makes one call at a time: a thread. */
typedef struct iox2sd_log_caller {
    struct iox2sd_log_writer *writer;
    struct iox2sd_log_caller *next;
    struct iox2sd_log_call *calls;
    size_t call_count;
    size_t call_capacity;
    iox2sd_id *ids;
    size_t id_count;
    size_t id_capacity;
    uint64_t died;
    bool has_open_call;
    char name[IOX2SD_LOG_MAX_NAME + 1];
    /* How far it is written: the call, whether its begin is, and whether no line is left. */
    size_t at;
    bool began;
    bool ended;
    char apart[64]; /* So that no two callers share a line of the processor's cache. */
} iox2sd_log_caller;

/* The log of a service. */
typedef struct iox2sd_log_writer {
    iox2sd_pattern pattern;
    uint64_t number;
    iox2sd_capacities capacities;
    iox2sd_log_caller *callers;
    char before[64]; /* So that `ends` has a line of the processor's cache of its own. */
    uint64_t ends; /* How many calls have ended, or callers died. */
    char after[64];
} iox2sd_log_writer;

/* A caller; NULL where the status is not IOX2SD_STATUS_DONE. */
typedef struct iox2sd_log_caller_answer {
    iox2sd_status status;
    iox2sd_log_caller *caller;
} iox2sd_log_caller_answer;

/* A call that was begun, and is ended with this. */
typedef struct iox2sd_log_token {
    iox2sd_status status; /* The call was begun where it is IOX2SD_STATUS_DONE. */
    iox2sd_log_caller *caller;
    size_t call;
} iox2sd_log_token;

/* Begins the log of a service with nothing attached. The writer stays where it is until freed.
 * Errors: IOX2SD_STATUS_NULL; IOX2SD_STATUS_UNKNOWN_PATTERN. */
IOX2SD_CHECKED static inline iox2sd_status
iox2sd_log_writer_create(iox2sd_log_writer *writer, iox2sd_pattern pattern, uint64_t number,
                         iox2sd_capacities capacities) {
    if (writer == NULL) return IOX2SD_STATUS_NULL;
    if (pattern > IOX2SD_PATTERN_BLACKBOARD) return IOX2SD_STATUS_UNKNOWN_PATTERN;
    memset(writer, 0, sizeof *writer);
    writer->pattern = pattern;
    writer->number = number;
    writer->capacities = capacities;
    return IOX2SD_STATUS_DONE;
}

/* Frees the log with its callers. NULL is none. */
static inline void iox2sd_log_writer_free(iox2sd_log_writer *writer) {
    if (writer == NULL) return;
    while (writer->callers != NULL) {
        iox2sd_log_caller *const caller = writer->callers;
        writer->callers = caller->next;
        free(caller->calls);
        free(caller->ids);
        free(caller);
    }
}

/* Memory for `needed` items, the first `count` of which stay. The others are written once, so that
 * the system has given them. NULL where it is refused. */
static inline void *iox2sd_log_take(void *items, size_t count, size_t *capacity, size_t needed,
                                    size_t size) {
    if (needed > SIZE_MAX / 2 / size) return NULL;
    void *const memory = realloc(items, needed * size);
    if (memory == NULL) return NULL;
    memset((char *)memory + count * size, 0, (needed - count) * size);
    *capacity = needed;
    return memory;
}

/* Takes memory for so many more calls. Error: IOX2SD_STATUS_NO_MEMORY. */
static inline iox2sd_status iox2sd_log_take_calls(iox2sd_log_caller *caller, size_t more) {
    if (more <= caller->call_capacity - caller->call_count) return IOX2SD_STATUS_DONE;
    if (more > SIZE_MAX / 4 - caller->call_count) return IOX2SD_STATUS_NO_MEMORY;
    void *const memory =
        iox2sd_log_take(caller->calls, caller->call_count, &caller->call_capacity,
                        2 * caller->call_count + more, sizeof *caller->calls);
    if (memory == NULL) return IOX2SD_STATUS_NO_MEMORY;
    caller->calls = (struct iox2sd_log_call *)memory;
    return IOX2SD_STATUS_DONE;
}

/* The same for ids. */
static inline iox2sd_status iox2sd_log_take_ids(iox2sd_log_caller *caller, size_t more) {
    if (more <= caller->id_capacity - caller->id_count) return IOX2SD_STATUS_DONE;
    if (more > SIZE_MAX / 4 - caller->id_count) return IOX2SD_STATUS_NO_MEMORY;
    void *const memory = iox2sd_log_take(caller->ids, caller->id_count, &caller->id_capacity,
                                       2 * caller->id_count + more, sizeof *caller->ids);
    if (memory == NULL) return IOX2SD_STATUS_NO_MEMORY;
    caller->ids = (iox2sd_id *)memory;
    return IOX2SD_STATUS_DONE;
}

/* Takes memory for so many more calls, and for so many more ids in lists and in `kept`: recording
 * them takes none. Errors: IOX2SD_STATUS_NULL; IOX2SD_STATUS_NO_MEMORY. */
IOX2SD_CHECKED static inline iox2sd_status iox2sd_log_reserve(iox2sd_log_caller *caller,
                                                              size_t calls, size_t ids) {
    if (caller == NULL) return IOX2SD_STATUS_NULL;
    const iox2sd_status status = iox2sd_log_take_calls(caller, calls);
    return status == IOX2SD_STATUS_DONE ? iox2sd_log_take_ids(caller, ids) : status;
}

/* Whether a byte may stand in the name of a caller. */
static inline bool iox2sd_log_is_of_name(char byte) {
    return (byte >= '0' && byte <= '9') || (byte >= 'A' && byte <= 'Z') ||
           (byte >= 'a' && byte <= 'z');
}

/* Makes a caller with this name, which ends in a zero byte: one to sixteen ASCII letters and
 * digits. Two callers with one name are one caller to whoever judges the log.
 * Errors: IOX2SD_STATUS_NULL; IOX2SD_STATUS_EMPTY; IOX2SD_STATUS_TOO_LONG;
 * IOX2SD_STATUS_ILLEGAL_BYTE; IOX2SD_STATUS_NO_MEMORY. */
IOX2SD_CHECKED static inline iox2sd_log_caller_answer
iox2sd_log_caller_create(iox2sd_log_writer *writer, const char *name) {
    iox2sd_log_caller_answer made = {IOX2SD_STATUS_NULL, NULL};
    if (writer == NULL || name == NULL) return made;
    size_t length = 0;
    while (length <= IOX2SD_LOG_MAX_NAME && name[length] != '\0') length++;
    made.status = length == 0 ? IOX2SD_STATUS_EMPTY : IOX2SD_STATUS_TOO_LONG;
    if (length == 0 || length > IOX2SD_LOG_MAX_NAME) return made;
    made.status = IOX2SD_STATUS_ILLEGAL_BYTE;
    for (size_t at = 0; at < length; at++) {
        if (!iox2sd_log_is_of_name(name[at])) return made;
    }
    made.status = IOX2SD_STATUS_NO_MEMORY;
    iox2sd_log_caller *const caller = (iox2sd_log_caller *)calloc(1, sizeof *caller);
    if (caller == NULL) return made;
    memcpy(caller->name, name, length);
    caller->writer = writer;
    caller->died = IOX2SD_LOG_NEVER;
    caller->next = __atomic_load_n(&writer->callers, __ATOMIC_RELAXED);
    while (!__atomic_compare_exchange_n(&writer->callers, &caller->next, caller, false,
                                        __ATOMIC_RELEASE, __ATOMIC_RELAXED)) {
    }
    made.status = IOX2SD_STATUS_DONE;
    made.caller = caller;
    return made;
}

/* ---- Recording ---- */

/* Whether a command of this kind has a role. */
static inline bool iox2sd_log_has_role(uint32_t kind) {
    return kind == IOX2SD_LOG_ADD || kind == IOX2SD_LOG_RELEASE || kind == IOX2SD_LOG_LIST ||
           kind == IOX2SD_LOG_COUNT || kind == IOX2SD_LOG_LIST_WEAK;
}

/* IOX2SD_STATUS_DONE where a command has a line in a log; else why it has none. */
static inline iox2sd_status iox2sd_log_command_check(const iox2sd_log_command *command) {
    if (command->kind > IOX2SD_LOG_LIST_WEAK) return IOX2SD_STATUS_UNKNOWN_VARIANT;
    const bool has_role = iox2sd_log_has_role(command->kind);
    if (has_role && (command->role == IOX2SD_ROLE_NODE || command->role > IOX2SD_ROLE_WRITER)) {
        return IOX2SD_STATUS_UNKNOWN_ROLE;
    }
    const bool has_node = command->kind == IOX2SD_LOG_REGISTER ||
                          command->kind == IOX2SD_LOG_ADD || command->kind == IOX2SD_LOG_DEAD;
    if (has_node && command->node.process == 0 && command->node.counter == 0) {
        return IOX2SD_STATUS_NO_NODE;
    }
    return IOX2SD_STATUS_DONE;
}

/* Copies ids to the caller's own, for which there is memory. Returns where they begin. */
static inline size_t iox2sd_log_keep(iox2sd_log_caller *caller, const iox2sd_id *ids,
                                     size_t count) {
    const size_t at = caller->id_count;
    if (count != 0) memcpy(caller->ids + at, ids, count * sizeof *ids);
    caller->id_count += count;
    return at;
}

/* Begins a call of a caller: call it right before the registry.
 * Errors: IOX2SD_STATUS_NULL; IOX2SD_STATUS_CALLER_IS_DEAD; IOX2SD_STATUS_CALLER_IS_BUSY;
 * IOX2SD_STATUS_UNKNOWN_VARIANT, IOX2SD_STATUS_UNKNOWN_ROLE and IOX2SD_STATUS_NO_NODE, of a command
 * that no log can have; IOX2SD_STATUS_NO_MEMORY. */
IOX2SD_CHECKED static inline iox2sd_log_token iox2sd_log_begin(iox2sd_log_caller *caller,
                                                               iox2sd_log_command command) {
    iox2sd_log_token token = {IOX2SD_STATUS_NULL, caller, 0};
    if (caller == NULL || (command.kept == NULL && command.kept_count != 0)) return token;
    token.status = IOX2SD_STATUS_CALLER_IS_DEAD;
    if (caller->died != IOX2SD_LOG_NEVER) return token;
    token.status = IOX2SD_STATUS_CALLER_IS_BUSY;
    if (caller->has_open_call) return token;
    token.status = iox2sd_log_command_check(&command);
    if (token.status != IOX2SD_STATUS_DONE) return token;
    token.status = iox2sd_log_reserve(caller, 1, command.kept_count);
    if (token.status != IOX2SD_STATUS_DONE) return token;
    token.call = caller->call_count++;
    struct iox2sd_log_call *const call = caller->calls + token.call;
    call->command = (uint8_t)command.kind;
    call->role = iox2sd_log_has_role(command.kind) ? (uint8_t)command.role : 0;
    call->port = command.port;
    call->node = command.node;
    call->named[0] = command.slot;
    call->named[1] = command.ticket;
    if (command.kind == IOX2SD_LOG_DEAD) {
        call->named[0] = iox2sd_log_keep(caller, command.kept, command.kept_count);
        call->named[1] = command.kept_count;
    }
    call->ended = IOX2SD_LOG_NEVER;
    caller->has_open_call = true;
    call->begun = __atomic_load_n(&caller->writer->ends, __ATOMIC_ACQUIRE);
    return token;
}

/* Ends a call with the reply that was seen: call it right after the registry.
 * Errors: IOX2SD_STATUS_NULL; IOX2SD_STATUS_UNKNOWN_VARIANT, of a reply of no kind;
 * IOX2SD_STATUS_NO_OPEN_CALL, where the call has ended or was never begun, or its caller died;
 * IOX2SD_STATUS_NO_MEMORY, which a list alone meets: the call stays open. */
IOX2SD_CHECKED static inline iox2sd_status iox2sd_log_end(iox2sd_log_token token,
                                                          iox2sd_log_reply reply) {
    iox2sd_log_caller *const caller = token.caller;
    const bool has_ids = reply.kind == IOX2SD_LOG_LISTED && reply.count != 0;
    if (caller == NULL || (reply.ids == NULL && has_ids)) return IOX2SD_STATUS_NULL;
    if (reply.kind > IOX2SD_LOG_NOT_OWNED) return IOX2SD_STATUS_UNKNOWN_VARIANT;
    if (token.status != IOX2SD_STATUS_DONE || !caller->has_open_call ||
        token.call + 1 != caller->call_count || caller->died != IOX2SD_LOG_NEVER) {
        return IOX2SD_STATUS_NO_OPEN_CALL;
    }
    const uint64_t number = __atomic_fetch_add(&caller->writer->ends, 1, __ATOMIC_ACQ_REL);
    struct iox2sd_log_call *const call = caller->calls + token.call;
    call->seen[0] = reply.kind == IOX2SD_LOG_COUNTED ? reply.count : reply.slot;
    call->seen[1] = reply.ticket;
    if (reply.kind == IOX2SD_LOG_LISTED) {
        const iox2sd_status status = iox2sd_log_take_ids(caller, reply.count);
        if (status != IOX2SD_STATUS_DONE) return status;
        call->seen[0] = iox2sd_log_keep(caller, reply.ids, reply.count);
        call->seen[1] = reply.count;
    }
    call->reply = (uint8_t)reply.kind;
    call->ended = number;
    caller->has_open_call = false;
    return IOX2SD_STATUS_DONE;
}

/* The caller died: its open call took effect before this, or never. Another thread may call it once
 * the caller's has ended. A caller that has begun no call has no line.
 * Errors: IOX2SD_STATUS_NULL; IOX2SD_STATUS_CALLER_IS_DEAD. */
IOX2SD_CHECKED static inline iox2sd_status iox2sd_log_died(iox2sd_log_caller *caller) {
    if (caller == NULL) return IOX2SD_STATUS_NULL;
    if (caller->died != IOX2SD_LOG_NEVER) return IOX2SD_STATUS_CALLER_IS_DEAD;
    caller->died = __atomic_fetch_add(&caller->writer->ends, 1, __ATOMIC_ACQ_REL);
    return IOX2SD_STATUS_DONE;
}

/* ---- Writing ---- */

/* A text that is counted, and written where it has a buffer. */
struct iox2sd_log_text {
    uint8_t *out;
    size_t length;
};

static inline void iox2sd_log_put(struct iox2sd_log_text *text, const char *bytes, size_t length) {
    if (text->out != NULL) memcpy(text->out + text->length, bytes, length);
    text->length += length;
}

static inline void iox2sd_log_put_str(struct iox2sd_log_text *text, const char *words) {
    iox2sd_log_put(text, words, strlen(words));
}

/* A number in decimal, behind these words. */
static inline void iox2sd_log_put_number(struct iox2sd_log_text *text, const char *front,
                                         uint64_t number) {
    char digits[20];
    size_t at = sizeof digits;
    do {
        digits[--at] = (char)('0' + number % 10);
        number /= 10;
    } while (number != 0);
    iox2sd_log_put_str(text, front);
    iox2sd_log_put(text, digits + at, sizeof digits - at);
}

/* An id as commands have it. */
static inline void iox2sd_log_put_id(struct iox2sd_log_text *text, iox2sd_id id) {
    iox2sd_log_put_number(text, " ", id.process);
    iox2sd_log_put_number(text, ".", id.seconds);
    iox2sd_log_put_number(text, ".", id.nanoseconds);
    iox2sd_log_put_number(text, ".", id.counter);
}

/* An id as replies have it. */
static inline void iox2sd_log_put_listed(struct iox2sd_log_text *text, iox2sd_id id) {
    const uint32_t parts[4] = {id.process, id.seconds, id.nanoseconds, id.counter};
    char digits[33] = " ";
    size_t length = 1;
    for (int at = 0; at < 32; at++) {
        const uint32_t digit = parts[at / 8] >> (28 - 4 * (at % 8)) & 15;
        if (length > 1 || digit != 0 || at == 31) digits[length++] = "0123456789abcdef"[digit];
    }
    iox2sd_log_put(text, digits, length);
}

static inline const char *iox2sd_log_role(iox2sd_role role) {
    static const char *const words[] = {"",         " publisher", " subscriber",
                                        " notifier", " listener",  " client",
                                        " server",   " reader",    " writer"};
    return words[role];
}

static inline void iox2sd_log_put_command(struct iox2sd_log_text *text,
                                          const struct iox2sd_log_call *call,
                                          const iox2sd_id *ids) {
    static const char *const words[] = {"register", "deregister", "add",   "release", "dead",
                                        "nodes",    "list",       "count", "nodes?",  "list?"};
    const uint32_t kind = call->command;
    iox2sd_log_put_str(text, words[kind]);
    iox2sd_log_put_str(text, iox2sd_log_role(call->role));
    if (kind == IOX2SD_LOG_ADD) iox2sd_log_put_id(text, call->port);
    if (kind == IOX2SD_LOG_REGISTER || kind == IOX2SD_LOG_ADD || kind == IOX2SD_LOG_DEAD) {
        iox2sd_log_put_id(text, call->node);
    }
    if (kind == IOX2SD_LOG_DEREGISTER || kind == IOX2SD_LOG_RELEASE) {
        iox2sd_log_put_number(text, " ", call->named[0]);
        iox2sd_log_put_number(text, " ", call->named[1]);
    }
    if (kind == IOX2SD_LOG_DEAD && call->named[1] != 0) {
        iox2sd_log_put_str(text, " skip");
        for (size_t at = 0; at < call->named[1]; at++) {
            iox2sd_log_put_id(text, ids[call->named[0] + at]);
        }
    }
}

static inline void iox2sd_log_put_reply(struct iox2sd_log_text *text,
                                        const struct iox2sd_log_call *call, const iox2sd_id *ids) {
    static const char *const words[] = {
        "handle",        "count",      "list",      "locked",         "not-registered", "full",
        "wrong-pattern", "has-owners", "no-owners", "ports-attached", "released",       "not-owned"};
    iox2sd_log_put_str(text, words[call->reply]);
    if (call->reply == IOX2SD_LOG_HANDLE) {
        iox2sd_log_put_number(text, " ", call->seen[0]);
        iox2sd_log_put_number(text, " ", call->seen[1]);
    } else if (call->reply == IOX2SD_LOG_COUNTED) {
        iox2sd_log_put_number(text, " ", call->seen[0]);
    } else if (call->reply == IOX2SD_LOG_LISTED) {
        for (size_t at = 0; at < call->seen[1]; at++) {
            iox2sd_log_put_listed(text, ids[call->seen[0] + at]);
        }
    }
}

/* Where the next line of a caller stands: begins stand above an end of the same number.
 * IOX2SD_LOG_NEVER where no line is left. */
static inline uint64_t iox2sd_log_next(const iox2sd_log_caller *caller) {
    if (caller->ended || caller->call_count == 0) return IOX2SD_LOG_NEVER;
    if (caller->at < caller->call_count) {
        const struct iox2sd_log_call *const call = caller->calls + caller->at;
        if (!caller->began) return 2 * call->begun;
        if (call->ended != IOX2SD_LOG_NEVER) return 2 * call->ended + 1;
    }
    return caller->died == IOX2SD_LOG_NEVER ? IOX2SD_LOG_NEVER : 2 * caller->died + 1;
}

/* Writes the next line of a caller. */
static inline void iox2sd_log_put_line(struct iox2sd_log_text *text, iox2sd_log_caller *caller) {
    iox2sd_log_put_str(text, caller->name);
    const struct iox2sd_log_call *const call = caller->calls + caller->at;
    if (caller->at == caller->call_count ||
        (caller->began && call->ended == IOX2SD_LOG_NEVER)) {
        iox2sd_log_put_str(text, "!");
        caller->ended = true;
    } else if (!caller->began) {
        iox2sd_log_put_str(text, "> ");
        iox2sd_log_put_command(text, call, caller->ids);
        caller->began = true;
    } else {
        iox2sd_log_put_str(text, "< ");
        iox2sd_log_put_reply(text, call, caller->ids);
        caller->began = false;
        caller->at++;
    }
    iox2sd_log_put_str(text, "\n");
}

/* Writes all lines, from the first one on. */
static inline void iox2sd_log_put_all(struct iox2sd_log_text *text, iox2sd_log_writer *writer) {
    static const char *const patterns[] = {"publish-subscribe", "event", "request-response",
                                           "blackboard"};
    iox2sd_log_put_str(text, "service ");
    iox2sd_log_put_str(text, patterns[writer->pattern]);
    iox2sd_log_put_number(text, " ", writer->number);
    iox2sd_log_put_number(text, " ", writer->capacities.nodes);
    iox2sd_log_put_number(text, " ", writer->capacities.first);
    iox2sd_log_put_number(text, " ", writer->capacities.second);
    iox2sd_log_put_str(text, "\n");
    for (iox2sd_log_caller *one = writer->callers; one != NULL; one = one->next) {
        one->at = 0;
        one->began = one->ended = false;
    }
    for (;;) {
        iox2sd_log_caller *first = NULL;
        for (iox2sd_log_caller *one = writer->callers; one != NULL; one = one->next) {
            const uint64_t number = iox2sd_log_next(one);
            if (number == IOX2SD_LOG_NEVER) continue;
            if (first == NULL || number < iox2sd_log_next(first)) first = one;
        }
        if (first == NULL) return;
        iox2sd_log_put_line(text, first);
    }
}

/* Writes the log of all callers to the front of `out`, without a zero byte, where it fits. A call
 * that has not ended is open at the end of the log.
 * Errors: IOX2SD_STATUS_NULL; IOX2SD_STATUS_BUFFER_TOO_SHORT, with the length that is needed. */
IOX2SD_CHECKED static inline iox2sd_text_answer iox2sd_log_write(iox2sd_log_writer *writer,
                                                                 uint8_t *out, size_t capacity) {
    iox2sd_text_answer answer = {IOX2SD_STATUS_NULL, IOX2SD_STATUS_DONE, 0};
    if (writer == NULL || (out == NULL && capacity != 0)) return answer;
    struct iox2sd_log_text text = {NULL, 0};
    iox2sd_log_put_all(&text, writer);
    answer.status = IOX2SD_STATUS_BUFFER_TOO_SHORT;
    answer.length = text.length;
    if (text.length > capacity) return answer;
    struct iox2sd_log_text written = {out, 0};
    iox2sd_log_put_all(&written, writer);
    answer.status = IOX2SD_STATUS_DONE;
    return answer;
}

#ifdef __cplusplus
}
#endif

#endif
