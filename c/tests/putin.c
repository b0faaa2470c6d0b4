/* What the firmware has put in: souk_put_in is compared, after each of many random events, with what this test reckons. It
   reckons from the record before a call and from what is lent, never from the call's result. Where the header says that the
   unread bytes are this count less the bytes sent, that is tested too, also behind filler, which then has to be added.
   The count is driven past its end twice: from numbers that are written into the record, and, where a length has 64 bits, by as
   many bytes truly put in. The first difference is reported and ends the program. */
#include "random.h"

#include <souklavanh.h>
#include <stdbool.h>
#include <stdio.h>
#include <stdlib.h>
#include <string.h>

#ifndef EVENTS
#define EVENTS 400000
#endif

enum { WRAPPER = 31, LONGEST_MESSAGE = 64, USUAL_IO = 200, LONGEST_USUAL = 300, OLD_RECORD_SIZE = 52 };

static const uint32_t most = 0xFFFFFFFF; /* where the count stops */

static uint8_t record[SOUK_RECORD_SIZE + 1], io[SOUK_IO_LARGEST], packet[SOUK_PACKET_LARGEST], source[SOUK_IO_LARGEST];
static uint32_t packet_size; /* P */
static size_t io_length;
static unsigned events;   /* so far */
static const char *event; /* the present one */

static uint64_t least(uint64_t a, uint64_t b) {
    return a < b ? a : b;
}

/* ---- What happened. If one of these never did, the test has tested less than it says. */

enum happening {
    WHOLE_SOURCE,
    PART_OF_A_SOURCE,
    BEHIND_A_STATUS,
    NO_ROOM,
    OTHER_STATE,
    BROKEN_RECORD,
    REFUSED_POLL,
    FILLER,
    RESETS,
    REQUESTS,
    INVALID_WRAPPER,
    FROM_3_TO_0,
    FROM_3_TO_0_AND_1,
    FROM_3_TO_0_AND_6,
    FROM_3_TO_0_AND_7,
    CLEARED_BY_A_WRAPPER,
    STOPPED,
    UNREAD_AS_RECKONED,
    HAPPENINGS
};

static const char *const names[HAPPENINGS] = {
    "sources taken whole",
    "in part",
    "behind a status",
    "refused for want of room",
    "in another state",
    "with a broken record",
    "polls refused",
    "with filler",
    "resets",
    "reset requests",
    "invalid wrappers",
    "polls from 3 to 0",
    "with answer 1",
    "with 6",
    "with 7",
    "numbers cleared by a wrapper alone",
    "counts that stopped",
    "events with unread bytes as reckoned",
};

static unsigned happened[HAPPENINGS];

static void note(bool is_so, enum happening what) {
    if (is_so) happened[what]++;
}

static void same(const char *part, uint64_t found, uint64_t due) {
    if (found == due) return;
    printf("P %u, after %u events, %s: %s is %llu, and %llu is due\n", (unsigned)packet_size, events, event, part,
           (unsigned long long)found, (unsigned long long)due);
    exit(1);
}

/* ---- The record, as it is now */

static unsigned state(void) {
    return record[SOUK_AT_STATE];
}

static uint32_t left(void) {
    return souk_number(record, SOUK_AT_LEFT);
}

static uint32_t unread(void) {
    return souk_number(record, SOUK_AT_WRITE_MARK) - souk_number(record, SOUK_AT_READ_MARK);
}

static size_t room(void) {
    return io_length - unread();
}

/* ---- The reckoning */

static uint64_t put_in;       /* bytes since the wrapper, however many */
static uint64_t sent, filled; /* the same, of data that went out and of filler */
static bool lawful;           /* it was a wrapper to the host, nothing was unread after it, and no number was written since */

static void begin_anew(void) {
    put_in = sent = filled = 0;
    lawful = false;
}

static void compare(void) {
    events++;
    same("souk_put_in", souk_put_in(record), least(put_in, most));
    note(put_in > most, STOPPED);
    if (!lawful || (state() != SOUK_TO_HOST && state() != SOUK_TO_HOST_ENDING)) return;
    same("what is unread, and sent since the wrapper", unread() + sent, put_in + filled);
    note(true, UNREAD_AS_RECKONED);
}

/* ---- Calls, each with what it does to the reckoning */

static void create(uint32_t p, size_t size) {
    event = "souk_create";
    packet_size = p;
    io_length = size;
    same("the answer", souk_create(record, SOUK_RECORD_SIZE, p, 0, (uint32_t)size), SOUK_DONE);
    begin_anew();
    compare();
}

/* How many bytes of a source are taken. */
static size_t taken_of(bool all, size_t length) {
    if (state() != SOUK_TO_HOST) return 0;
    if (all) return length <= room() ? length : 0;
    return (size_t)least(length, least(left(), room()));
}

static uint64_t call_write(bool all, size_t record_length, size_t length) {
    event = all ? "souk_try_write_data_all" : "souk_write_data";
    if (all) return souk_try_write_data_all(record, record_length, io, io_length, source, length);
    return souk_write_data(record, record_length, io, io_length, source, length);
}

static void put(bool all, size_t length) {
    size_t taken = taken_of(all, length);
    uint64_t word = call_write(all, SOUK_RECORD_SIZE, length);
    same("souk_count", souk_count(word), taken);
    put_in += taken;
    note(taken > 0 && taken == length, WHOLE_SOURCE);
    note(taken > 0 && taken < length, PART_OF_A_SOURCE);
    note(taken > 0 && record[SOUK_AT_STATUS_PRESENT], BEHIND_A_STATUS);
    note(souk_answer(word) == SOUK_IO_BUFFER_OVERFLOW, NO_ROOM);
    note(souk_answer(word) == SOUK_INVALID_STATE, OTHER_STATE);
    compare();
}

/* Also with the length that a record once had. */
static void put_with_a_broken_record(bool all, size_t length) {
    static const size_t lengths[] = {0, OLD_RECORD_SIZE, SOUK_RECORD_SIZE - 1, SOUK_RECORD_SIZE + 1};
    uint64_t word = call_write(all, lengths[random_below(sizeof lengths / sizeof *lengths)], length);
    same("the answer", word, SOUK_BROKEN_RECORD);
    note(true, BROKEN_RECORD);
    compare();
}

struct offer {
    const uint8_t *one;
    size_t length, second_length;
    uint8_t first, second, write;
};

static uint64_t call_poll(const struct offer *o) {
    event = "souk_poll";
    return souk_poll(record, SOUK_RECORD_SIZE, io, io_length, packet, packet_size, o->one, o->length, source, o->second_length,
                     o->first, o->second, o->write);
}

/* A poll in 6, or one that goes on to it, fills up to a packet or to what is left. */
static uint32_t filler_due(void) {
    bool is_ending = state() == SOUK_TO_HOST_ENDING || (state() == SOUK_TO_HOST && record[SOUK_AT_STATUS_PRESENT]);
    uint32_t full = (uint32_t)least(left(), packet_size);
    return is_ending && unread() < full ? full - unread() : 0;
}

static void note_poll(bool enters_0, bool parses, uint64_t word) {
    note(enters_0, FROM_3_TO_0);
    note(enters_0 && souk_answer(word) == SOUK_IO_BUFFER_OVERFLOW, FROM_3_TO_0_AND_1);
    note(enters_0 && souk_answer(word) == SOUK_WOULD_BLOCK, FROM_3_TO_0_AND_6);
    note(enters_0 && souk_answer(word) == SOUK_ENDPOINT_FAILED, FROM_3_TO_0_AND_7);
    note(parses && state() == SOUK_COMMAND_TRANSFER_INVALID, INVALID_WRAPPER);
    note(parses && !enters_0 && put_in > 0, CLEARED_BY_A_WRAPPER);
}

/* Whether a packet of a wrapper was read. */
static bool poll(const struct offer *o) {
    bool enters_0 = state() == SOUK_STATUS_TRANSFER && unread() == 0;
    bool reads = (enters_0 || state() == SOUK_COMMAND_TRANSFER) && o->first == SOUK_ENDPOINT_READY && room() >= packet_size;
    size_t there = unread() + o->length;
    bool parses = reads && there >= WRAPPER;
    uint32_t filler = filler_due();
    uint64_t word = call_poll(o);
    note_poll(enters_0, parses, word);
    note(filler > 0, FILLER);
    if (enters_0 || parses) begin_anew();
    if (parses) lawful = there == WRAPPER && state() == SOUK_TO_HOST;
    filled += filler;
    sent += souk_count(word);
    compare();
    return reads;
}

/* The host sends nothing. */
static void idle(void) {
    poll(&(struct offer){source, 0, 0, SOUK_ENDPOINT_BUSY, SOUK_ENDPOINT_BUSY, SOUK_ENDPOINT_READY});
}

static void refused_poll(void) {
    struct offer too_long = {source, packet_size + 1, 0, SOUK_ENDPOINT_READY, SOUK_ENDPOINT_READY, SOUK_ENDPOINT_READY};
    same("the answer", call_poll(&too_long), SOUK_PACKET_REFUSED);
    note(true, REFUSED_POLL);
    compare();
}

static void set_status(uint32_t figure) {
    event = "souk_set_status";
    souk_set_status(record, SOUK_RECORD_SIZE, io, io_length, SOUK_PASSED, figure);
    compare();
}

static void read_data(size_t count) {
    static uint8_t back[USUAL_IO];
    event = "souk_read_data";
    souk_read_data(record, SOUK_RECORD_SIZE, io, io_length, back, count);
    compare();
}

static void reset(void) {
    event = "souk_reset";
    same("the answer", souk_answer(souk_reset(record, SOUK_RECORD_SIZE, io, io_length)), SOUK_DONE);
    begin_anew();
    note(true, RESETS);
    compare();
}

/* Only A1 with FF is a reset. */
static void control(uint8_t request_type, uint8_t request) {
    bool is_reset = request_type == 0xA1 && request == 0xFF;
    event = "souk_control";
    souk_control(record, SOUK_RECORD_SIZE, io, io_length, request_type, request);
    if (is_reset) begin_anew();
    note(is_reset, REQUESTS);
    compare();
}

/* Something writes a number into the record. Every number there is a whole record, and is counted on from. */
static void write_number(uint32_t number) {
    event = "a number written into the record";
    for (int i = 0; i < 4; i++) record[SOUK_AT_PUT_IN + i] = (uint8_t)(number >> 8 * i);
    put_in = number;
    lawful = false;
    compare();
}

/* ---- Wrappers */

static void fill_wrapper(uint8_t *bytes, uint32_t declared, bool to_host) {
    memset(bytes, 0, WRAPPER);
    memcpy(bytes, "USBC", 4);
    for (int i = 0; i < 4; i++) bytes[8 + i] = (uint8_t)(declared >> 8 * i);
    bytes[12] = to_host ? 0x80 : 0;
    bytes[14] = 6;
}

/* A new device that has taken a wrapper to the host. */
static void start(uint32_t p, size_t size, uint32_t declared) {
    uint8_t bytes[WRAPPER];
    fill_wrapper(bytes, declared, true);
    create(p, size);
    struct offer o = {bytes, 0, 0, SOUK_ENDPOINT_READY, SOUK_ENDPOINT_BUSY, SOUK_ENDPOINT_READY};
    for (; o.one < bytes + WRAPPER; o.one += o.length) {
        o.length = (size_t)least(p, (size_t)(bytes + WRAPPER - o.one));
        poll(&o);
    }
    same("the state", state(), SOUK_TO_HOST);
}

/* ---- Random events */

static uint8_t message[LONGEST_MESSAGE];
static size_t message_length, message_at; /* so much of it is through */

/* Some are invalid, and some have bytes behind the wrapper. */
static void new_message(void) {
    uint32_t declared = one_in(6) ? 0 : random_below(one_in(4) ? 2000 : 4 * packet_size);
    memset(message, 0, sizeof message);
    fill_wrapper(message, declared, !one_in(4));
    if (one_in(12)) message[random_below(4)] ^= 1;
    message_length = WRAPPER + (one_in(6) ? random_below(LONGEST_MESSAGE - WRAPPER + 1) : 0);
    message_at = 0;
}

static uint8_t random_endpoint(void) {
    if (!one_in(4)) return SOUK_ENDPOINT_READY;
    return one_in(3) ? (uint8_t)(2 + random_below(254)) : SOUK_ENDPOINT_BUSY;
}

static size_t next_piece(void) {
    uint32_t piece = (uint32_t)least(message_length - message_at, packet_size);
    return one_in(12) ? random_below(piece + 1) : piece;
}

static void random_poll(void) {
    bool awaits = state() == SOUK_COMMAND_TRANSFER || state() == SOUK_STATUS_TRANSFER;
    struct offer o = {.one = source};
    o.length = random_below(packet_size + 1);
    o.second_length = random_below(packet_size + 1);
    o.first = random_endpoint();
    o.second = random_endpoint();
    o.write = random_endpoint();
    if (awaits && message_at == message_length) new_message();
    if (awaits) {
        o.one = message + message_at;
        o.length = next_piece();
    }
    if (poll(&o)) message_at = state() == SOUK_COMMAND_TRANSFER ? message_at + o.length : message_length;
}

static void random_source(void) {
    size_t length = one_in(6) ? random_below(LONGEST_USUAL) : random_below(2 * packet_size);
    bool all = one_in(2);
    if (one_in(20)) put_with_a_broken_record(all, length);
    else put(all, length);
}

static void random_break(void) {
    uint8_t request_type = one_in(4) ? 0x21 : 0xA1, request = (uint8_t)(0xFD + random_below(3));
    if (one_in(2)) reset();
    else control(request_type, request);
    if (state() == SOUK_COMMAND_TRANSFER) message_at = message_length;
}

static void random_number(void) {
    uint32_t near = most - random_below(LONGEST_USUAL), any = (uint32_t)random_word();
    write_number(one_in(3) ? any : near);
}

/* Often with the smallest buffer, which data behind a wrapper leaves without room. */
static void random_device(void) {
    uint32_t p = 8u << random_below(4), smallest = p > SOUK_IO_SMALLEST ? p : SOUK_IO_SMALLEST;
    create(p, one_in(3) ? smallest : smallest + random_below(USUAL_IO - smallest + 1));
    message_at = message_length;
}

/* A new device is made more often in 1, which only a reset leaves, and in 0, where it can lack room for a wrapper. */
static bool needs_a_new_device(void) {
    if (state() == SOUK_COMMAND_TRANSFER_INVALID) return one_in(4);
    return one_in(state() == SOUK_COMMAND_TRANSFER ? 16 : 200);
}

static void random_event(void) {
    uint32_t which = random_below(100);
    if (needs_a_new_device()) random_device();
    else if (which < 2) random_break();
    else if (which < 4) random_number();
    else if (which < 5) refused_poll();
    else if (which < 12) set_status(random_below(LONGEST_USUAL));
    else if (which < 18) read_data(random_below(USUAL_IO + 1));
    else if (which < 45) random_source();
    else random_poll();
}

static void random_events(void) {
    random_device();
    while (events < EVENTS) random_event();
    printf("%u random events", events);
    for (enum happening h = 0; h < HAPPENINGS; h++) {
        event = names[h];
        same("whether it happened", happened[h] > 0, true);
        printf("%s %s: %u", h > 0 ? "," : ";", names[h], happened[h]);
    }
    printf("\n");
}

/* ---- What the header says the count is good for */

/* 70 bytes for a host that wants 2: the second call is the one too many. 64 go out, and 6 are unread. */
static void too_long(void) {
    start(64, USUAL_IO, 2);
    put(true, 2);
    same("above L after the first call", souk_put_in(record) > souk_number(record, SOUK_AT_DECLARED), false);
    put(true, 68);
    same("above L after the second call", souk_put_in(record) > souk_number(record, SOUK_AT_DECLARED), true);
    idle();
    same("what is unread", unread(), 6);
    same("what was put in", souk_put_in(record), 70);
}

/* ---- The end of the count */

/* Every step onto the last number, and across it. */
static void near_the_end(void) {
    for (uint32_t less = 0; less <= 4; less++) {
        for (size_t length = 0; length <= 6; length++) {
            start(8, USUAL_IO, most);
            write_number(most - less);
            put(length % 2, length);
            put(true, 1);
        }
        start(64, SOUK_IO_LARGEST, most);
        write_number(most - less);
        put(less % 2, SOUK_IO_LARGEST);
    }
}

/* The bytes truly go in, by both write calls in turn, and out again. */
static void past_32_bits(void) {
#if SIZE_MAX > 0xFFFFFFFF
    start(SOUK_PACKET_LARGEST, SOUK_IO_LARGEST, most);
    for (bool all = false; put_in + SOUK_IO_LARGEST < most; all = !all) {
        put(all, SOUK_IO_LARGEST);
        while (unread() > 0) idle();
    }
    put(true, most - 1 - put_in);
    same("one byte less than the most", souk_put_in(record), most - 1);
    put(true, 1);
    same("the most", souk_put_in(record), most);
    put(true, 1);
    same("one byte more", souk_put_in(record), most);
    while (unread() > 0) idle();
    same("the state", state(), SOUK_TO_HOST);
    same("bytes sent", sent, (uint64_t)most + 1);
#endif
}

int main(void) {
    random_events();
    too_long();
    near_the_end();
    past_32_bits();
    printf("%u events; what was put in is counted as reckoned after each, up to %u\n", events, (unsigned)most);
    return 0;
}
