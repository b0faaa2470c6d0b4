/* The exported calls, made over memory that a test lends. It is part of the one file of a test that includes it.
   Each area that is lent stands between two guards. After each call this is tested, and the first breach ends the program:
     - the answer is one that the call has, and bits of the result that have no meaning are 0;
     - the guards are kept, and so is all that is lent for reading or for other calls;
     - a refusal changes nothing;
     - a packet after the bytes sent, and a destination after the bytes read, are kept;
     - with answer 1 nothing is counted, and the bytes missing are those wanted less the room; with others none are missing;
     - the record counts what was put in: a write adds to it, it is 0 where 0 is entered or a wrapper parsed, else it stays;
     - block and command are kept if no command is shown, offered or decoded;
     - told another number than 0 or 1, a call gives 10 alone;
     - a plain call does what its told form does with 1: each time, that is made too.
   The test has to define print_where, for the line about a breach.
   If GUARD is defined as 0, what is lent ends where its heap block ends, for a tool that watches the ends of blocks.
   If STACK_WATCH is defined, the stack that each call needs is measured. */
#ifndef LENDING_H
#define LENDING_H

#include "random.h"
#include "souklavanh.h"

#include <stdbool.h>
#include <stdio.h>
#include <stdlib.h>
#include <string.h>
#ifdef STACK_WATCH
#include "stack.h"
#endif

#define BIT(n) (1u << (n))

/* For a call that is told 0 or 1: mostly another number, a small one, or one that is 0 or 1 in fewer bits. */
static inline uint32_t wild_extended(void) {
    uint32_t number = random_below(4), shift = 8 * random_below(4);
    return number << shift | random_below(2);
}

/* ---- Areas */

enum area { RECORD, IO, PACKET, DST, BLOCK, COMMAND, SRC, ONE, TWO, AREAS };

#ifndef GUARD
#define GUARD 16 /* bytes on both sides of what is lent; a multiple of 8, for the numbers of a command */
#endif

static const char *const area_names[AREAS] = {"record", "io", "packet", "dst", "block", "command", "src", "one", "two"};
static uint8_t *now[AREAS], *before[AREAS]; /* whole blocks, with their guards */
static size_t capacity[AREAS];              /* how much of each block can be lent */
static size_t start[AREAS], length[AREAS];  /* where the part that is lent starts, and how long it is */

static void *block_of(size_t size) {
    void *block = malloc(size);
    if (block == NULL) exit(2);
    return block;
}

static size_t whole(enum area a) {
    return GUARD + capacity[a] + GUARD;
}

static uint8_t *lent(enum area a) {
    return now[a] + start[a];
}

/* Lends so many bytes, and leaves in them what was there. They are the last of their block, so that the guard, or without one
   the end of the block, comes right after them. */
static uint8_t *lend_unfilled(enum area a, size_t count) {
    start[a] = GUARD + capacity[a] - count;
    length[a] = count;
    return lent(a);
}

static void make_area(enum area a, size_t most) {
    capacity[a] = most;
    now[a] = block_of(whole(a));
    before[a] = block_of(whole(a));
    memset(now[a], 0, whole(a));
    lend_unfilled(a, 0);
}

/* Lends so many bytes. All of them, and the guards, have the same value: another one each time, so that a call that writes
   where it must not will now and then write another value. */
static uint8_t *lend(enum area a, size_t count) {
    static uint8_t fill;
    fill += 89;
    memset(lend_unfilled(a, count) - GUARD, fill, GUARD + count + GUARD);
    return lent(a);
}

static void lend_copy(enum area a, const uint8_t *bytes, size_t count) {
    memcpy(lend(a, count), bytes, count);
}

static inline void lend_command(size_t numbers) {
    lend(COMMAND, numbers * sizeof(uint64_t));
}

/* ---- Calls */

enum call {
    CREATE,
    POLL,
    SET_STATUS,
    READ_DATA,
    WRITE_DATA,
    TRY_WRITE_DATA_ALL,
    RESET,
    CONTROL,
    SHOW_COMMAND,
    COMMAND_STEP,
    COMMAND_STEP_TOLD,
    DECODE,
    DECODE_TOLD,
    VERDICT,
    CALLS
};

enum { ANSWERS = SOUK_EMPTY_BLOCK + 1 };

#define DEVICE (BIT(RECORD) | BIT(IO))

/* What each call is lent, what of it the call may write, which answers it has, and which bits of the result have a meaning. */
static const struct call_kind {
    const char *name;
    unsigned lent, writes, answers;
    uint64_t named;
} calls[CALLS] = {
    [CREATE] = {"souk_create", BIT(RECORD), BIT(RECORD), BIT(0) | BIT(2) | BIT(5) | BIT(8) | BIT(9) | BIT(10), 0xFF},
    [POLL] = {"souk_poll", DEVICE | BIT(PACKET) | BIT(ONE) | BIT(TWO), DEVICE | BIT(PACKET),
              BIT(0) | BIT(1) | BIT(4) | BIT(6) | BIT(7) | BIT(10) | BIT(11), 0xFFFFFFFFFFFFFFFF},
    [SET_STATUS] = {"souk_set_status", DEVICE, BIT(RECORD), BIT(0) | BIT(10) | BIT(12), 0xFF},
    [READ_DATA] = {"souk_read_data", DEVICE | BIT(DST), BIT(RECORD) | BIT(DST), BIT(0) | BIT(3) | BIT(10), 0xFFFFFFFF000000FF},
    [WRITE_DATA] = {"souk_write_data", DEVICE | BIT(SRC), DEVICE, BIT(0) | BIT(3) | BIT(10), 0xFFFFFFFF000000FF},
    [TRY_WRITE_DATA_ALL] = {"souk_try_write_data_all", DEVICE | BIT(SRC), DEVICE, BIT(0) | BIT(1) | BIT(3) | BIT(10),
                            0xFFFFFFFF000000FF},
    [RESET] = {"souk_reset", DEVICE, BIT(RECORD), BIT(0) | BIT(10), 0xFF00FF},
    [CONTROL] = {"souk_control", DEVICE, BIT(RECORD), BIT(0) | BIT(10), 0xFF01FF00FF},
    [SHOW_COMMAND] = {"souk_command", DEVICE | BIT(BLOCK), BIT(BLOCK), BIT(0) | BIT(10), 0xFF0100FFFF},
    [COMMAND_STEP] = {"souk_command_step", DEVICE | BIT(COMMAND), BIT(COMMAND), BIT(0) | BIT(10) | BIT(13), 0x0100FFFF},
    [COMMAND_STEP_TOLD] = {"souk_command_step_told", DEVICE | BIT(COMMAND), BIT(COMMAND), BIT(0) | BIT(10) | BIT(13),
                           0x0100FFFF},
    [DECODE] = {"souk_decode", BIT(SRC) | BIT(COMMAND), BIT(COMMAND), BIT(0) | BIT(10) | BIT(13), 0xFF},
    [DECODE_TOLD] = {"souk_decode_told", BIT(SRC) | BIT(COMMAND), BIT(COMMAND), BIT(0) | BIT(10) | BIT(13), 0xFF},
    [VERDICT] = {"souk_verdict", BIT(SRC), 0, BIT(0) | BIT(1) | BIT(2), 0xFF},
};

/* The numbers that go with the areas. */
static struct {
    uint32_t packet_size, size;
    uint8_t max_lun; /* also for the verdict */
    uint8_t first, second, write;
    uint8_t status;
    uint32_t figure;
    uint8_t request_type, request;
    uint32_t extended;
} with;

#ifdef STACK_WATCH
static size_t most_stack[CALLS]; /* bytes */

static void look_at_stack(enum call which) {
    size_t used = stack_used();
    if (used > most_stack[which]) most_stack[which] = used;
}
#else
#define stack_paint() ((void)0)
#define look_at_stack(which) ((void)0)
#endif

/* All calls are made here and nowhere else. The stack is painted within this function, so what is then found used is the
   call's own. */
static uint64_t make(enum call which) {
    uint8_t *record = lent(RECORD), *io = lent(IO), *src = lent(SRC);
    size_t record_len = length[RECORD], io_len = length[IO], src_len = length[SRC];
    uint64_t *command = (uint64_t *)(void *)lent(COMMAND);
    size_t command_len = length[COMMAND] / sizeof(uint64_t);
    uint64_t word = 0;
    stack_paint();
    switch (which) {
    case CREATE: word = souk_create(record, record_len, with.packet_size, with.max_lun, with.size); break;
    case POLL:
        word = souk_poll(record, record_len, io, io_len, lent(PACKET), length[PACKET], lent(ONE), length[ONE], lent(TWO),
                         length[TWO], with.first, with.second, with.write);
        break;
    case SET_STATUS: word = souk_set_status(record, record_len, io, io_len, with.status, with.figure); break;
    case READ_DATA: word = souk_read_data(record, record_len, io, io_len, lent(DST), length[DST]); break;
    case WRITE_DATA: word = souk_write_data(record, record_len, io, io_len, src, src_len); break;
    case TRY_WRITE_DATA_ALL: word = souk_try_write_data_all(record, record_len, io, io_len, src, src_len); break;
    case RESET: word = souk_reset(record, record_len, io, io_len); break;
    case CONTROL: word = souk_control(record, record_len, io, io_len, with.request_type, with.request); break;
    case SHOW_COMMAND: word = souk_command(record, record_len, io, io_len, lent(BLOCK), length[BLOCK]); break;
    case COMMAND_STEP: word = souk_command_step(record, record_len, io, io_len, command, command_len); break;
    case COMMAND_STEP_TOLD:
        word = souk_command_step_told(record, record_len, io, io_len, with.extended, command, command_len);
        break;
    case DECODE: word = souk_decode(src, src_len, command, command_len); break;
    case DECODE_TOLD: word = souk_decode_told(src, src_len, with.extended, command, command_len); break;
    case VERDICT: word = souk_verdict(src, src_len, with.max_lun); break;
    case CALLS: break;
    }
    look_at_stack(which);
    return word;
}

/* ---- What a call has to keep */

static uint64_t result; /* of the last call */

/* Says where the test is. Each test has its own. */
static void print_where(void);

static void require(bool ok, enum call which, const char *part, const char *what) {
    if (ok) return;
    printf("BREACH: ");
    print_where();
    printf(", %s: %s %s (result %llx)\n", calls[which].name, part, what, (unsigned long long)result);
    exit(1);
}

static bool has_answer(enum call which, uint32_t answer) {
    return answer < ANSWERS && (calls[which].answers & BIT(answer));
}

/* Answers after which something may be written. All others are refusals. */
static bool may_write(uint32_t answer) {
    const unsigned writing = BIT(SOUK_DONE) | BIT(SOUK_IO_BUFFER_OVERFLOW) | BIT(SOUK_FULL_PACKET_EXPECTED) |
                             BIT(SOUK_WOULD_BLOCK) | BIT(SOUK_ENDPOINT_FAILED);
    return writing & BIT(answer);
}

/* The result has the number of bytes that the call put into this area. */
static bool is_counted(enum call which, enum area a) {
    return (calls[which].writes & BIT(a)) && (a == PACKET || a == DST);
}

/* How many bytes of the area, from its first, may be others after the call. */
static size_t open_to_change(enum call which, enum area a) {
    if (!(calls[which].writes & BIT(a)) || !may_write(souk_answer(result))) return 0;
    if (is_counted(which, a)) return souk_count(result);
    if (which == SHOW_COMMAND || which == COMMAND_STEP || which == COMMAND_STEP_TOLD) return souk_flag(result) ? length[a] : 0;
    return length[a];
}

/* From the guard before what is lent to the end of the guard after it. */
static void remember(enum area a) {
    size_t from = start[a] - GUARD;
    memcpy(before[a] + from, now[a] + from, whole(a) - from);
}

static bool kept(enum area a, size_t from, size_t end) {
    return memcmp(now[a] + from, before[a] + from, end - from) == 0;
}

static void require_kept(enum call which, enum area a) {
    size_t open = open_to_change(which, a);
    require(!is_counted(which, a) || souk_count(result) <= length[a], which, area_names[a], "is shorter than the count");
    require(kept(a, start[a] - GUARD, start[a]) && kept(a, start[a] + open, whole(a)), which, area_names[a],
            "or bytes beside it changed where they must not");
}

/* The bytes of io that are not unread. */
static uint64_t room(void) {
    const uint8_t *record = lent(RECORD);
    return length[IO] - (souk_number(record, SOUK_AT_WRITE_MARK) - souk_number(record, SOUK_AT_READ_MARK));
}

/* How many bytes of room a call wants that may answer 1: for a packet, or for all of the source. */
static uint64_t wanted(enum call which) {
    return which == POLL ? lent(RECORD)[SOUK_AT_PACKET_SIZE] : length[SRC];
}

static void require_missing(enum call which) {
    bool overflow = which != VERDICT && souk_answer(result) == SOUK_IO_BUFFER_OVERFLOW; /* a verdict is no answer */
    require(souk_missing(result) == (overflow ? wanted(which) - room() : 0), which, "the room that is missing",
            "is not what is wanted less what is there");
    require(!overflow || souk_missing(result) > 0, which, "answer 1", "though no room is missing");
    require(souk_count(result) == (overflow ? 0 : result >> 32), which, "the count", "is not the one for this answer");
}

/* Whether what was put in is counted anew: 0 is entered, where both are unstalled, or a poll in 0 has parsed a wrapper. */
static bool starts_anew(enum call which) {
    uint32_t stalls = souk_stalls(result);
    bool was_in_0 = before[RECORD][start[RECORD] + SOUK_AT_STATE] == SOUK_COMMAND_TRANSFER;
    bool is_in_0 = lent(RECORD)[SOUK_AT_STATE] == SOUK_COMMAND_TRANSFER;
    return which == CREATE || stalls == SOUK_STALLS_CLEAR || stalls == SOUK_STALLS_CLEAR_THEN_SET || (was_in_0 && !is_in_0);
}

/* After a refusal, or a call that does not write the record, require_kept has seen that all of it stayed. */
static void require_put_in(enum call which) {
    if (!(calls[which].writes & BIT(RECORD)) || !may_write(souk_answer(result))) return;
    bool is_write = which == WRITE_DATA || which == TRY_WRITE_DATA_ALL;
    uint64_t due = (uint64_t)souk_put_in(before[RECORD] + start[RECORD]) + (is_write ? souk_count(result) : 0);
    if (due > 0xFFFFFFFF) due = 0xFFFFFFFF;
    if (starts_anew(which)) due = 0;
    require(souk_put_in(lent(RECORD)) == due, which, "what was put in", "is not counted as it has to be");
}

/* The call, and what is tested after it. */
static uint64_t call_alone(enum call which) {
    bool is_told = which == COMMAND_STEP_TOLD || which == DECODE_TOLD;
    for (enum area a = 0; a < AREAS; a++) remember(a);
    result = make(which);
    require(has_answer(which, souk_answer(result)), which, "the answer", "is none that this call has");
    require(!(result & ~calls[which].named), which, "the result", "has bits without a meaning");
    require(!is_told || with.extended <= 1 || result == SOUK_BROKEN_RECORD, which, "another number than 0 or 1",
            "has to give 10 alone");
    for (enum area a = 0; a < AREAS; a++) require_kept(which, a);
    require_missing(which);
    require_put_in(which);
    return result;
}

/* The told form first, with 1; then what was lent is put back for the plain form. */
static uint64_t call_plain(enum call which, enum call told) {
    static uint64_t due[SOUK_COMMAND_NUMBERS + 1];
    uint32_t extended = with.extended;
    with.extended = 1;
    uint64_t word = call_alone(told);
    with.extended = extended;
    require(length[COMMAND] <= sizeof due, which, "the command", "is longer than any test has it");
    memcpy(due, lent(COMMAND), length[COMMAND]);
    memcpy(lent(COMMAND), before[COMMAND] + start[COMMAND], length[COMMAND]);
    require(call_alone(which) == word && memcmp(lent(COMMAND), due, length[COMMAND]) == 0, which, "the plain form",
            "does not do what the told one does with 1");
    return result;
}

static uint64_t call(enum call which) {
    if (which == COMMAND_STEP) return call_plain(which, COMMAND_STEP_TOLD);
    if (which == DECODE) return call_plain(which, DECODE_TOLD);
    return call_alone(which);
}

#endif
