/* A read-only disk of one unit. It answers the commands that a stock Linux sends to a small disk; READ (16), which laptops send
   to large ones; and READ FORMAT CAPACITIES, which other hosts send. Everything else is refused, and the next REQUEST SENSE
   says why. */
#include "commands.h"

#include "faults.h"
#include "souklavanh.h"

#include <string.h>

/* Sense key, additional code: the reasons that this disk can give. */
struct sense {
    uint8_t key, code;
};
static const struct sense nothing_wrong = {0x0, 0x00};
static const struct sense unknown_opcode = {0x5, 0x20};
static const struct sense no_such_block = {0x5, 0x21};
static const struct sense bad_field = {0x5, 0x24};
static const struct sense no_such_unit = {0x5, 0x25};
static const struct sense write_protected = {0x7, 0x27};

static struct sense sense;

static uint8_t built[36]; /* replies that are not part of the list; none is longer than the inquiry */

void commands_start(void) {
    sense = nothing_wrong;
}

static struct reply passed(const uint8_t *bytes, size_t length) {
    return (struct reply){bytes, length, SOUK_PASSED};
}

static struct reply refused(struct sense why) {
    sense = why;
    return (struct reply){built, 0, SOUK_FAILED};
}

/* The bytes built, cut to what the host has room for. */
static struct reply passed_up_to(uint64_t allocation, size_t length) {
    return passed(built, allocation < length ? (size_t)allocation : length);
}

static void put_be32(uint8_t *at, uint32_t number) {
    at[0] = (uint8_t)(number >> 24);
    at[1] = (uint8_t)(number >> 16);
    at[2] = (uint8_t)(number >> 8);
    at[3] = (uint8_t)number;
}

static struct reply inquiry(const uint64_t *command) {
    static const char standard[] = "\x00\x80\x05\x02\x1F\0\0\0" /* disk, removable, SPC-3, 31 bytes after the fifth */
                                   "SOUKLAVN"
                                   "BATTERY FAULTS  "
                                   "1.00";
    _Static_assert(sizeof standard - 1 == sizeof built, "an inquiry has 36 bytes");
    if (command[1] != 0) return refused(bad_field); /* no pages of vital product data */
    memcpy(built, standard, sizeof built);
    return passed_up_to(command[3], sizeof built);
}

static struct reply request_sense(const uint64_t *command) {
    enum { LENGTH = 18 };
    memset(built, 0, LENGTH);
    built[0] = 0x70;
    built[2] = sense.key;
    built[7] = LENGTH - 8; /* bytes after this one */
    built[12] = sense.code;
    sense = nothing_wrong;
    return passed_up_to(command[2], LENGTH);
}

/* Without this answer a laptop thinks that it can write to the disk, and loses what it writes without any message. */
static struct reply mode_sense_6(const uint64_t *command) {
    static const uint8_t header[4] = {3, 0, 0x80 /* write protected */, 0};
    memcpy(built, header, sizeof header);
    return passed_up_to(command[5], sizeof header);
}

static struct reply read_capacity_10(void) {
    put_be32(built, FAULT_BLOCKS - 1); /* the last address */
    put_be32(built + 4, FAULT_BLOCK);
    return passed(built, 8);
}

static struct reply read_format_capacities(const uint64_t *command) {
    put_be32(built, 8); /* bytes after these four */
    put_be32(built + 4, FAULT_BLOCKS);
    put_be32(built + 8, FAULT_BLOCK);
    built[8] = 2; /* formatted */
    return passed_up_to(command[1], 12);
}

/* READ (16) brings any address of 64 bits, and more blocks than 32 bits can count in bytes. Both are compared as they came, and
   without a sum, which could start again at 0; only then is anything cut or multiplied. */
static struct reply read_blocks(uint64_t address, uint64_t blocks) {
    if (address > FAULT_BLOCKS || blocks > FAULT_BLOCKS - address) return refused(no_such_block);
    return passed(faults_from((uint32_t)address), (size_t)(blocks * FAULT_BLOCK));
}

struct reply commands_reply(uint8_t lun, const uint64_t *command) {
    if (lun != 0) return refused(no_such_unit);
    switch (command[0]) {
    case SOUK_INQUIRY: return inquiry(command);
    case SOUK_TEST_UNIT_READY: return passed(built, 0);
    case SOUK_REQUEST_SENSE: return request_sense(command);
    case SOUK_MODE_SENSE_6: return mode_sense_6(command);
    case SOUK_READ_CAPACITY_10: return read_capacity_10();
    case SOUK_READ_FORMAT_CAPACITIES: return read_format_capacities(command);
    case SOUK_READ: return read_blocks(command[1], command[2]);
    case SOUK_WRITE: return refused(write_protected);
    default: return refused(unknown_opcode);
    }
}
