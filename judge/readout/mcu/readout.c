/* What a block costs in instructions: the read-out of docs/READOUT.md through one side (side.h), on an emulated Cortex-M3.
   judge/readout/mcu/run builds and starts it. Under qemu's -icount every instruction takes the same emulated time, and so a
   timer of the board counts instructions.

   It prints a line for each packet size, direction and number of blocks in a command: P, to-host or from-host, blocks a
   command; instructions a block in all, in polls, in write_data or read_data, in set_status, in the loop itself; a sum over
   all answers and bytes. A transfer that goes wrong ends it. */
#include "side.h"
#include <inttypes.h>
#include <stdbool.h>
#include <stdio.h>
#include <stdlib.h>
#include <string.h>

/* A Linux host reads and writes at most 240 blocks by one command. */
enum { BLOCK = 512, STATUS = 13, WRAPPER = 31, LINUX = 240 };

#ifdef QUICK
enum { BLOCKS = 100, COMMANDS_OF_LINUX = 1 };
#else
enum { BLOCKS = 2000, COMMANDS_OF_LINUX = 20 };
#endif

struct story {
    uint32_t packet_size;
    bool to_host;
    uint32_t blocks; /* of a command */
    uint32_t commands;
};

/* How a story is told. The loop is compiled once for each, so that what one does not need costs it nothing. */
enum way {
    CHECKED, /* every byte is compared with the one due */
    WHOLE,   /* the timer is read before and after it all */
    BY_CALL  /* and here before and after each call */
};

enum call { POLL, DATA, SET_STATUS, CALLS };

static uint8_t data[BLOCK + STATUS], back[BLOCK]; /* a block, and behind it the status that is due */
static uint32_t light;                            /* it needs the result of every poll, and costs little */
static uint64_t digest;                           /* of every answer and byte, in order; only when CHECKED */
static uint64_t spent[CALLS];                     /* instructions; only BY_CALL */

static _Noreturn void fail(const char *what) {
    printf("no figures: %s\n", what);
    exit(1);
}

/* ---- Counting */

/* TIMER0 of the MPS2: control, value, reload. A tick is 40 ns of emulated time. */
static volatile uint32_t *const timer = (volatile uint32_t *)0x40000000;
enum { TICK = 40, MANY = 1 << 20 };
static uint32_t shift; /* an instruction takes 2 to the power of shift ns: qemu is told so */

/* It counts down. Nothing is moved over the reading, in either direction. */
static inline uint32_t now(void) {
    __asm volatile("" ::: "memory");
    uint32_t value = timer[1];
    __asm volatile("" ::: "memory");
    return value;
}

/* The nearest number; it is exact where an instruction takes three ticks or more. */
static uint32_t instructions(uint32_t ticks) {
    return (uint32_t)(((uint64_t)ticks * TICK + (1u << shift) / 2) >> shift);
}

/* Ticks of 2 * times instructions, and of those that read the timer. */
static __attribute__((noinline)) uint32_t ticks_of(uint32_t times) {
    uint32_t began = now();
    __asm volatile("1: subs %0, #1\n\tbne 1b" : "+l"(times) : : "cc");
    return began - now();
}

/* From one reading to the next, with nothing between them. */
static __attribute__((noinline)) uint32_t ticks_of_reading(void) {
    uint32_t began = now();
    return began - now();
}

/* Finds the shift by loops of known length, and tests that the timer then tells every length exactly. */
static void calibrate(void) {
    timer[2] = timer[1] = UINT32_MAX;
    timer[0] = 1;
    uint32_t ticks = ticks_of(MANY) - ticks_of(MANY / 2);
    for (shift = 7; instructions(ticks) != MANY; shift++)
        if (shift == 10) fail("the timer does not count instructions; qemu needs -icount, with a shift of 7 to 10");
    for (uint32_t times = 2; times <= 64; times++)
        if (instructions(ticks_of(times)) != instructions(ticks_of(1)) + 2 * (times - 1))
            fail("the timer miscounts instructions");
}

static __attribute__((noinline)) void note(enum call call, uint32_t ticks) {
    spent[call] += instructions(ticks) - instructions(ticks_of_reading());
}

/* ---- The story; 'way' is a constant wherever it stands */

#define STRAIGHT static inline __attribute__((always_inline))

static void add(const uint8_t *bytes, size_t count) {
    for (size_t i = 0; i < count; i++) digest = (digest ^ bytes[i]) * UINT64_C(0x100000001B3);
}

static void check_sent(uint32_t answer, uint32_t count, const uint8_t *due) {
    uint8_t number = (uint8_t)answer;
    add(&number, 1);
    add(side_packet, count);
    if (count && (!due || memcmp(side_packet, due, count) != 0)) fail("a packet has other bytes than those due");
}

/* How much was sent. It is due at 'due', and nothing if that is null. */
STRAIGHT uint32_t poll(enum way way, const uint8_t *one, size_t length, uint8_t first, const uint8_t *due) {
    uint32_t began = way == BY_CALL ? now() : 0;
    uint64_t word = side_poll(one, length, first);
    if (way == BY_CALL) note(POLL, began - now());
    uint32_t count = souk_count(word);
    light += souk_answer(word) + (count ? side_packet[0] : 0) + count;
    if (way == CHECKED) check_sent(souk_answer(word), count, due);
    return count;
}

/* In packets of P, one a poll. */
STRAIGHT void host_sends(enum way way, const struct story *story, const uint8_t *bytes, uint32_t count) {
    for (uint32_t from = 0; from < count; from += story->packet_size) {
        uint32_t length = count - from < story->packet_size ? count - from : story->packet_size;
        poll(way, bytes + from, length, SOUK_ENDPOINT_READY, NULL);
    }
}

/* Polls until all is out. */
STRAIGHT void host_takes(enum way way, const uint8_t *due, uint32_t count) {
    uint32_t taken = 0;
    while (taken < count) {
        uint32_t sent = poll(way, data, 0, SOUK_ENDPOINT_BUSY, due + taken);
        if (!sent) fail("a poll sent nothing");
        taken += sent;
    }
    if (way == CHECKED && taken != count) fail("more was sent than is due");
}

STRAIGHT void write_block(enum way way) {
    uint32_t began = way == BY_CALL ? now() : 0;
    uint32_t count = side_write_data(data, BLOCK);
    if (way == BY_CALL) note(DATA, began - now());
    if (count != BLOCK) fail("write_data did not take the block");
}

STRAIGHT void read_block(enum way way) {
    if (way == CHECKED) memset(back, 0, BLOCK);
    uint32_t began = way == BY_CALL ? now() : 0;
    uint32_t count = side_read_data(back, BLOCK);
    if (way == BY_CALL) note(DATA, began - now());
    if (count != BLOCK) fail("read_data did not give the block");
    light += back[0];
    if (way != CHECKED) return;
    add(back, BLOCK);
    if (memcmp(back, data, BLOCK) != 0) fail("read_data gave another block than the one sent");
}

STRAIGHT void set_status(enum way way, uint32_t processed) {
    uint32_t began = way == BY_CALL ? now() : 0;
    side_set_status(processed);
    if (way == BY_CALL) note(SET_STATUS, began - now());
}

STRAIGHT void put_number(uint8_t *at, uint32_t number) {
    memcpy(at, &number, sizeof number);
}

/* READ (10) or WRITE (10). */
STRAIGHT void send_wrapper(enum way way, const struct story *story, uint32_t tag) {
    uint8_t wrapper[WRAPPER] = {'U', 'S', 'B', 'C', [14] = 10, [23] = (uint8_t)story->blocks};
    put_number(wrapper + 4, tag);
    put_number(wrapper + 8, story->blocks * BLOCK);
    wrapper[12] = story->to_host ? 0x80 : 0;
    wrapper[15] = story->to_host ? 0x28 : 0x2A;
    host_sends(way, story, wrapper, WRAPPER);
}

/* The residue that is due is 0, and so is the status byte. */
STRAIGHT void expect_status(uint32_t tag) {
    memcpy(data + BLOCK, "USBS", 4);
    put_number(data + BLOCK + 4, tag);
    memset(data + BLOCK + 8, 0, 5);
}

/* One command. Each block has another content, by its number. */
STRAIGHT void command(enum way way, const struct story *story, uint32_t tag) {
    if (way == CHECKED) expect_status(tag);
    send_wrapper(way, story, tag);
    for (uint32_t block = 1; block <= story->blocks; block++) {
        bool last = block == story->blocks;
        put_number(data, tag * LINUX + block);
        if (story->to_host) {
            write_block(way);
            if (last) set_status(way, story->blocks * BLOCK);
            host_takes(way, data, last ? BLOCK + STATUS : BLOCK);
        } else {
            host_sends(way, story, data, BLOCK);
            read_block(way);
            if (last) set_status(way, story->blocks * BLOCK);
            if (last) host_takes(way, data + BLOCK, STATUS);
        }
    }
}

/* All commands on a new device, after a first one that is not counted: instructions. */
STRAIGHT uint32_t tell(enum way way, const struct story *story) {
    if (!side_create(story->packet_size)) fail("there is no device");
    command(CHECKED, story, 0);
    light = 0;
    digest = UINT64_C(0xCBF29CE484222325);
    memset(spent, 0, sizeof spent);
    uint32_t began = now();
    for (uint32_t tag = 1; tag <= story->commands; tag++) command(way, story, tag);
    return instructions(began - now());
}

static __attribute__((noinline)) uint32_t tell_checked(const struct story *story) {
    return tell(CHECKED, story);
}

static __attribute__((noinline)) uint32_t tell_whole(const struct story *story) {
    return tell(WHOLE, story);
}

static __attribute__((noinline)) uint32_t tell_by_call(const struct story *story) {
    return tell(BY_CALL, story);
}

/* ---- The figures */

static uint32_t a_block(const struct story *story, uint64_t count) {
    uint32_t blocks = story->blocks * story->commands;
    return (uint32_t)((count + blocks / 2) / blocks);
}

/* One telling compares everything; those that are counted have to give the same light sum. */
static void print_figures(const struct story *story) {
    tell_checked(story);
    uint32_t due = light;
    uint64_t all = digest;
    uint32_t whole = tell_whole(story);
    if (light != due) fail("a counted run parts from the checked one");
    if (tell_whole(story) != whole) fail("a second run takes another number of instructions");
    tell_by_call(story);
    if (light != due) fail("a run counted by call parts from the checked one");
    printf("%" PRIu32 " %s %" PRIu32, story->packet_size, story->to_host ? "to-host" : "from-host", story->blocks);
    printf(" %" PRIu32 " %" PRIu32 " %" PRIu32 " %" PRIu32 " %" PRIu32, a_block(story, whole), a_block(story, spent[POLL]),
           a_block(story, spent[DATA]), a_block(story, spent[SET_STATUS]),
           a_block(story, whole - spent[POLL] - spent[DATA] - spent[SET_STATUS]));
    printf(" %08" PRIx32 "%08" PRIx32 "\n", (uint32_t)(all >> 32), (uint32_t)all);
}

int main(void) {
    for (size_t i = 0; i < BLOCK; i++) data[i] = (uint8_t)(i * 7 + i / 256);
    calibrate();
    for (uint32_t packet_size = 64; packet_size >= 8; packet_size /= 2) {
        print_figures(&(struct story){packet_size, true, 1, BLOCKS});
        print_figures(&(struct story){packet_size, false, 1, BLOCKS});
    }
    print_figures(&(struct story){64, true, LINUX, COMMANDS_OF_LINUX});
    print_figures(&(struct story){64, false, LINUX, COMMANDS_OF_LINUX});
    return 0;
}
