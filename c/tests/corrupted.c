/* Corrupted records. A record is in the firmware's memory, and a stray pointer can write into it. Whatever the record then
   holds, every call has to answer, and has to refuse it with 10 exactly if document 01 calls it broken.
   Sixteen good records are reached by polls: P 8 and 64, in every state that a device can be left in. Then each byte of each is
   set to each value, and each is lent with each wrong length up to 60. What it counts as put in is set to numbers near the end
   of that count. Records of any bytes and any length are added, and good ones with several bytes changed.
   Each record goes to every call that takes one. Every call is tested by lending.h, and this is tested besides:
     - a broken record, a wrong length of block or command, or another number than 0 or 1 told, gives 10 and nothing else;
     - any other record gives another answer, and is not broken afterwards.
   A fault ends the program with a line that says which. */
#include "lending.h"

enum { IO_LENGTH = 80, LONGEST_RECORD = 60, LONGEST_READ = 40, LONGEST_WRITE = 100, RANDOM_RECORDS = 100000 };
enum { WRAPPER = 31, REST = 7 }; /* the bytes of a wrapper, and how many of them the good records in state 0 wait for */

static char where[120]; /* which record is being tried */

static void print_where(void) {
    printf("%s", where);
}

/* ---- Document 01's sentence: what is broken */

static bool violates_a_creation_rule(uint32_t packet_size, uint32_t max_lun, uint32_t size) {
    if (max_lun > 15 || size < 31 || size < packet_size || size > 65536) return true;
    return packet_size != 8 && packet_size != 16 && packet_size != 32 && packet_size != 64;
}

static bool status_is_out_of_place(unsigned state, bool present) {
    if (state == 0 || state == 1) return present;
    if (state == 3 || state == 6 || state == 8) return !present;
    return false;
}

static bool broken(const uint8_t *r, size_t r_length, size_t io_length) {
    if (r_length != 56) return true;
    if (souk_number(r, 4) != io_length) return true;
    if (violates_a_creation_rule(r[0], r[1], souk_number(r, 4))) return true;
    if (souk_number(r, 8) > souk_number(r, 12) || souk_number(r, 12) > souk_number(r, 4)) return true;
    if (r[27] > 16 || r[26] > 15) return true;
    if (r[2] > 8 || r[3] > 1 || r[24] > 2 || r[25] > 2) return true;
    return status_is_out_of_place(r[2], r[3]);
}

/* ---- The judgement of one call */

static uint64_t given[ANSWERS]; /* how often each answer was given */

static uint8_t *lent_before(enum area a) {
    return before[a] + start[a];
}

static bool is_due_10(enum call which) {
    if (which == SHOW_COMMAND && length[BLOCK] != SOUK_BLOCK_SIZE) return true;
    if (which == COMMAND_STEP_TOLD && with.extended > 1) return true;
    bool is_step = which == COMMAND_STEP || which == COMMAND_STEP_TOLD;
    if (is_step && length[COMMAND] != SOUK_COMMAND_NUMBERS * sizeof(uint64_t)) return true;
    return broken(lent_before(RECORD), length[RECORD], length[IO]);
}

static void judge(enum call which, uint64_t word) {
    if (is_due_10(which)) {
        require(word == SOUK_BROKEN_RECORD, which, "a broken record", "has to give 10 alone");
    } else {
        require(souk_answer(word) != SOUK_BROKEN_RECORD, which, "a good record", "must not give 10");
        require(!broken(lent(RECORD), length[RECORD], length[IO]), which, "the record", "is left broken");
    }
    given[souk_answer(word)]++;
}

/* All else is as it was: the call was tested for that. */
static void undo(enum call which) {
    for (enum area a = 0; a < AREAS; a++)
        if (calls[which].writes & BIT(a)) memcpy(lent(a), lent_before(a), length[a]);
}

static void try_every_call(void) {
    for (enum call which = POLL; which <= COMMAND_STEP_TOLD; which++) {
        judge(which, call(which));
        undo(which);
    }
}

/* ---- Good records */

struct good {
    uint8_t record[SOUK_RECORD_SIZE], io[IO_LENGTH];
};
static const uint8_t states[] = {0, 1, 3, 4, 5, 6, 7, 8};
enum { STATES = sizeof states, GOOD = 2 * STATES };
static struct good good[GOOD];

static void create(uint8_t packet_size) {
    lend(RECORD, SOUK_RECORD_SIZE);
    memset(lend(IO, IO_LENGTH), 0, IO_LENGTH);
    with.packet_size = packet_size;
    with.max_lun = 3;
    with.size = IO_LENGTH;
    call(CREATE);
}

/* With the packet that is lent as ONE. The other endpoints are busy. */
static uint64_t poll(uint8_t first) {
    lend(PACKET, SOUK_PACKET_LARGEST);
    lend(TWO, 0);
    with.first = first;
    with.second = with.write = SOUK_ENDPOINT_BUSY;
    return call(POLL);
}

/* Each packet has to be taken. */
static void feed(const uint8_t *bytes, size_t count) {
    size_t packet_size = lent(RECORD)[SOUK_AT_PACKET_SIZE];
    while (count > 0) {
        size_t n = count < packet_size ? count : packet_size;
        lend_copy(ONE, bytes, n);
        require(souk_taken(poll(SOUK_ENDPOINT_READY)) == 1, POLL, "a packet", "is not taken on the way to a good record");
        bytes += n;
        count -= n;
    }
}

static void fill_wrapper(uint8_t *bytes, const char *signature, uint8_t declared, uint8_t flags) {
    static const uint8_t any[WRAPPER] = {[4] = 0x11, 0x22, 0x33, 0x44, [13] = 2, 10, 0x28, [20] = 1, [23] = 1};
    memcpy(bytes, any, WRAPPER);
    memcpy(bytes, signature, 4);
    bytes[8] = declared;
    bytes[12] = flags;
}

static void feed_wrapper(const char *signature, uint8_t declared, uint8_t flags) {
    uint8_t bytes[WRAPPER];
    fill_wrapper(bytes, signature, declared, flags);
    feed(bytes, WRAPPER);
}

/* All of the wrapper except its last bytes. */
static void feed_most_of_a_wrapper(void) {
    uint8_t bytes[WRAPPER];
    fill_wrapper(bytes, "USBC", 200, 0x80);
    feed(bytes, WRAPPER - REST);
}

static void write_data(const uint8_t *bytes, size_t count) {
    lend_copy(SRC, bytes, count);
    call(WRITE_DATA);
}

/* The poll goes on to the status, and cannot send it. */
static void put_status(void) {
    with.status = SOUK_FAILED;
    with.figure = 20;
    require(call(SET_STATUS) == SOUK_DONE, SET_STATUS, "the status", "is refused on the way to a good record");
    lend(ONE, 0);
    poll(SOUK_ENDPOINT_BUSY);
}

static void reach(uint8_t packet_size, uint8_t state) {
    static const uint8_t bytes[20] = "twenty with the end";
    create(packet_size);
    if (state == 0) feed_most_of_a_wrapper();
    else if (state == 1) feed_wrapper("USBX", 0, 0);
    else if (state == 3 || state == 5) feed_wrapper("USBC", 0, 0);
    else feed_wrapper("USBC", 200, state < 7 ? 0x80 : 0);
    if (state == 4 || state == 6) write_data(bytes, sizeof bytes);
    if (state == 7 || state == 8) feed(bytes, sizeof bytes);
    if (state == 3 || state == 6 || state == 8) put_status();
    require(lent(RECORD)[SOUK_AT_STATE] == state, POLL, "the state", "is not reached");
    require(!broken(lent(RECORD), length[RECORD], length[IO]), POLL, "the record reached", "is broken");
}

static void keep(struct good *g) {
    memcpy(g->record, lent(RECORD), sizeof g->record);
    memcpy(g->io, lent(IO), sizeof g->io);
}

/* ---- Corruption */

static void fill_randomly(uint8_t *bytes, size_t count) {
    for (size_t i = 0; i < count; i++) bytes[i] = random_byte();
}

/* Mostly what a good caller lends, and now and then something else. The sizes of packets reach one above P. */
static void choose_arguments(uint32_t packet_size) {
    lend_unfilled(IO, IO_LENGTH - one_in(50));
    lend_unfilled(PACKET, packet_size - one_in(50));
    lend_unfilled(DST, random_below(LONGEST_READ + 1));
    lend_unfilled(BLOCK, SOUK_BLOCK_SIZE - one_in(50));
    lend_unfilled(COMMAND, (SOUK_COMMAND_NUMBERS - one_in(50)) * sizeof(uint64_t));
    lend_unfilled(SRC, random_below(LONGEST_WRITE + 1));
    lend_unfilled(ONE, one_in(50) ? packet_size + 1 : random_below(packet_size + 1));
    lend_unfilled(TWO, one_in(50) ? packet_size + 1 : random_below(packet_size + 1));
    with.first = (uint8_t)random_below(3);
    with.second = (uint8_t)random_below(3);
    with.write = (uint8_t)random_below(3);
    with.status = (uint8_t)random_below(4);
    with.figure = random_below(300);
    with.request_type = one_in(3) ? 0x21 : 0xA1;
    with.request = (uint8_t)(0xFD + random_below(3));
    with.extended = one_in(50) ? wild_extended() : random_below(2);
}

/* What a host would send: the rest of a wrapper, or a whole one. */
static void offer_wrapper(uint32_t packet_size) {
    uint8_t bytes[WRAPPER];
    uint8_t declared = one_in(3) ? 0 : 200, flags = one_in(2) ? 0 : 0x80;
    size_t count = packet_size < WRAPPER || one_in(2) ? REST : WRAPPER;
    fill_wrapper(bytes, "USBC", declared, flags);
    memcpy(lend_unfilled(ONE, count), bytes + WRAPPER - count, count);
}

/* The record, and the IO buffer of the good record; everything else, and the guards, hold random bytes. */
static void try_record(const struct good *g, const uint8_t *record, size_t count) {
    uint32_t packet_size = g->record[SOUK_AT_PACKET_SIZE];
    choose_arguments(packet_size);
    lend_unfilled(RECORD, count);
    for (enum area a = 0; a < AREAS; a++) fill_randomly(now[a], whole(a));
    memcpy(lent(RECORD), record, count);
    memcpy(lent(IO), g->io, length[IO]);
    if (one_in(2)) offer_wrapper(packet_size);
    try_every_call();
}

static uint64_t set_each_byte(const struct good *g) {
    uint64_t tried = 0;
    for (size_t at = 0; at < SOUK_RECORD_SIZE; at++) {
        for (unsigned value = 0; value < 256; value++) {
            struct good corrupted = *g;
            corrupted.record[at] = (uint8_t)value;
            snprintf(where, sizeof where, "P %u, state %u, byte %u set to %u", g->record[0], g->record[2], (unsigned)at, value);
            try_record(g, corrupted.record, SOUK_RECORD_SIZE);
            tried++;
        }
    }
    return tried;
}

/* Every number there is a whole record. From these a write can reach the last number, or would pass it. */
static uint64_t set_put_in(const struct good *g) {
    uint64_t tried = 0;
    for (uint32_t less = 0; less <= LONGEST_WRITE; less++) {
        struct good corrupted = *g;
        for (int i = 0; i < 4; i++) corrupted.record[SOUK_AT_PUT_IN + i] = (uint8_t)((0xFFFFFFFF - less) >> 8 * i);
        snprintf(where, sizeof where, "P %u, state %u, put in 2^32 - 1 - %u", g->record[0], g->record[2], (unsigned)less);
        require(!broken(corrupted.record, SOUK_RECORD_SIZE, IO_LENGTH), CREATE, "this record", "is broken");
        try_record(g, corrupted.record, SOUK_RECORD_SIZE);
        tried++;
    }
    return tried;
}

/* Any bytes of any length: nearly all are broken. */
static void try_any_bytes(const struct good *g, unsigned which) {
    uint8_t record[LONGEST_RECORD];
    size_t count = random_below(LONGEST_RECORD + 1);
    snprintf(where, sizeof where, "random record %u, %u bytes", which, (unsigned)count);
    fill_randomly(record, count);
    try_record(g, record, count);
}

/* Good bytes, lent too short or with others after them: only the length is wrong. */
static uint64_t try_each_length(const struct good *g) {
    uint64_t tried = 0;
    for (size_t count = 0; count <= LONGEST_RECORD; count++) {
        uint8_t record[LONGEST_RECORD];
        if (count == SOUK_RECORD_SIZE) continue;
        snprintf(where, sizeof where, "P %u, state %u, lent as %u bytes", g->record[0], g->record[2], (unsigned)count);
        fill_randomly(record, sizeof record);
        memcpy(record, g->record, sizeof g->record);
        try_record(g, record, count);
        tried++;
    }
    return tried;
}

/* Two to four bytes changed, mostly to small numbers: many are good records that no device ever has. */
static void try_several_bytes(const struct good *g, unsigned which) {
    struct good corrupted = *g;
    snprintf(where, sizeof where, "random record %u, several bytes changed", which);
    for (uint32_t n = 2 + random_below(3); n > 0; n--) {
        uint8_t value = (uint8_t)random_below(one_in(4) ? 256 : 18);
        corrupted.record[random_below(SOUK_RECORD_SIZE)] = value;
    }
    try_record(g, corrupted.record, SOUK_RECORD_SIZE);
}

int main(void) {
    uint64_t single = 0, counts = 0, lengths = 0;
    make_area(RECORD, LONGEST_RECORD);
    make_area(IO, IO_LENGTH);
    make_area(PACKET, SOUK_PACKET_LARGEST);
    make_area(DST, LONGEST_READ);
    make_area(BLOCK, SOUK_BLOCK_SIZE);
    make_area(COMMAND, SOUK_COMMAND_NUMBERS * sizeof(uint64_t));
    make_area(SRC, LONGEST_WRITE);
    make_area(ONE, SOUK_PACKET_LARGEST + 1);
    make_area(TWO, SOUK_PACKET_LARGEST + 1);
    for (size_t i = 0; i < GOOD; i++) {
        uint8_t packet_size = i < STATES ? 8 : 64, state = states[i % STATES];
        snprintf(where, sizeof where, "P %u, state %u", packet_size, state);
        reach(packet_size, state);
        keep(&good[i]);
        single += set_each_byte(&good[i]);
        counts += set_put_in(&good[i]);
        lengths += try_each_length(&good[i]);
    }
    for (unsigned i = 0; i < RANDOM_RECORDS; i++) {
        const struct good *g = &good[random_below(GOOD)];
        if (i % 2) try_any_bytes(g, i);
        else try_several_bytes(g, i);
    }
    printf("%u good records; %llu with one byte set, %llu with another count, %llu of another length, %u random\n", GOOD,
           (unsigned long long)single, (unsigned long long)counts, (unsigned long long)lengths, RANDOM_RECORDS);
    printf("answers, each with the calls that gave it:");
    for (unsigned i = 0; i < ANSWERS; i++)
        if (given[i] > 0) printf(" %u: %llu", i, (unsigned long long)given[i]);
    printf("\n");
    return 0;
}
