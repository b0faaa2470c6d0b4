/* Tests whether the numbers in souklavanh.h are the socket's: sizes, limits, offsets in the record, and the names of the enums.
   Each is compared with what the calls do, except state 2, which no call leaves behind. A difference is reported with the name
   and both numbers, and ends the program. */
#include "souklavanh.h"

#include <stdio.h>
#include <stdlib.h>
#include <string.h>

enum { P = 32, MAX_LUN = 5, IO_LENGTH = 4660, WRAPPER = 31 };
enum { TAG = 0x44332211, DECLARED = 0x012345, LUN = 3, BLOCK_LENGTH = 10 }; /* of the wrappers sent */

static uint8_t record[SOUK_RECORD_SIZE], io[IO_LENGTH], packet[P];
static unsigned compared;

static void same(const char *name, uint64_t header, uint64_t socket) {
    compared++;
    if (header == socket) return;
    printf("%s: the header gives %llu, the socket %llu\n", name, (unsigned long long)header, (unsigned long long)socket);
    exit(1);
}

/* A name of the header, and the number that a call gave for it. */
#define SAME(name, socket) same(#name, name, socket)
/* A field of the record, and what it has to hold now. */
#define BYTE(at, due) same("the byte at " #at, record[at], due)
#define NUMBER(at, due) same("the number at " #at, souk_number(record, at), due)

/* ---- the calls with what this program always lends */

static uint32_t create(void) {
    return souk_create(record, sizeof record, P, MAX_LUN, sizeof io);
}

static uint64_t poll(const uint8_t *bytes, size_t length, uint8_t out, uint8_t in) {
    return souk_poll(record, sizeof record, io, sizeof io, packet, sizeof packet, bytes, length, bytes, 0, out,
                     SOUK_ENDPOINT_BUSY, in);
}

static uint64_t offer(const uint8_t *bytes, size_t length) {
    return poll(bytes, length, SOUK_ENDPOINT_READY, SOUK_ENDPOINT_READY);
}

static uint64_t idle(uint8_t in) {
    return poll(packet, 0, SOUK_ENDPOINT_BUSY, in);
}

static uint64_t write_data(size_t length) {
    static const uint8_t zeros[IO_LENGTH];
    return souk_write_data(record, sizeof record, io, sizeof io, zeros, length);
}

static uint64_t write_all(size_t length) {
    static const uint8_t zeros[2 * IO_LENGTH];
    return souk_try_write_data_all(record, sizeof record, io, sizeof io, zeros, length);
}

static uint32_t set_status(uint8_t status, uint32_t figure) {
    return souk_set_status(record, sizeof record, io, sizeof io, status, figure);
}

/* ---- wrappers */

static const uint8_t read_10[SOUK_BLOCK_SIZE] = {0x28, 0, 0, 0, 1, 0, 0, 0, 8, 0, 0xAA, 0xBB, 0xCC, 0xDD, 0xEE, 0xFF};

static void fill_wrapper(uint8_t *bytes, uint32_t declared, uint8_t flags) {
    memset(bytes, 0, WRAPPER);
    memcpy(bytes, "USBC", 4);
    for (int i = 0; i < 4; i++) {
        bytes[4 + i] = (uint8_t)(TAG >> 8 * i);
        bytes[8 + i] = (uint8_t)(declared >> 8 * i);
    }
    bytes[12] = flags;
    bytes[13] = LUN;
    bytes[14] = BLOCK_LENGTH;
    memcpy(bytes + 15, read_10, sizeof read_10);
}

static uint64_t offer_wrapper(uint32_t declared, uint8_t flags) {
    uint8_t bytes[WRAPPER];
    fill_wrapper(bytes, declared, flags);
    create();
    return offer(bytes, sizeof bytes);
}

/* ---- what is compared */

static uint32_t created_with(size_t length, uint32_t packet_size, uint8_t max_lun, uint32_t size) {
    static uint8_t any[256];
    return souk_create(any, length, packet_size, max_lun, size);
}

/* No other length of a record is taken. */
static uint64_t record_size(void) {
    size_t length = 0;
    while (length < 255 && created_with(length, P, 0, 64) == 10) length++;
    return length;
}

static void sizes(void) {
    SAME(SOUK_RECORD_SIZE, record_size());
    SAME(SOUK_BROKEN_RECORD, created_with(SOUK_RECORD_SIZE + 1, P, 0, 64));
    SAME(SOUK_DONE, created_with(SOUK_RECORD_SIZE, 8, 0, SOUK_IO_SMALLEST));
    SAME(SOUK_BUFFER_TOO_SMALL, created_with(SOUK_RECORD_SIZE, 8, 0, SOUK_IO_SMALLEST - 1));
    SAME(SOUK_DONE, created_with(SOUK_RECORD_SIZE, 8, 0, SOUK_IO_LARGEST));
    SAME(SOUK_BUFFER_TOO_LARGE, created_with(SOUK_RECORD_SIZE, 8, 0, SOUK_IO_LARGEST + 1));
    SAME(SOUK_DONE, created_with(SOUK_RECORD_SIZE, SOUK_PACKET_LARGEST, 0, 512));
    SAME(SOUK_INVALID_PACKET_SIZE, created_with(SOUK_RECORD_SIZE, 2 * SOUK_PACKET_LARGEST, 0, 512));
    SAME(SOUK_DONE, created_with(SOUK_RECORD_SIZE, 8, SOUK_LUN_LARGEST, 64));
    SAME(SOUK_INVALID_MAX_LUN, created_with(SOUK_RECORD_SIZE, 8, SOUK_LUN_LARGEST + 1, 64));
}

/* Over two kinds of bytes, so that a byte that is not written is noticed. */
static void new_record(void) {
    uint8_t over_zeros[SOUK_RECORD_SIZE];
    memset(record, 0, sizeof record);
    create();
    memcpy(over_zeros, record, sizeof record);
    memset(record, 0xFF, sizeof record);
    create();
    same("a new record over other bytes: the same", 0, memcmp(over_zeros, record, sizeof record) != 0);
    BYTE(SOUK_AT_PACKET_SIZE, P);
    BYTE(SOUK_AT_MAX_LUN, MAX_LUN);
    BYTE(SOUK_AT_STATE, SOUK_COMMAND_TRANSFER);
    NUMBER(SOUK_AT_IO_LENGTH, IO_LENGTH);
    NUMBER(SOUK_AT_PUT_IN, 0);
}

static void fields_of_a_command(void) {
    uint64_t word = offer_wrapper(DECLARED, 0x80);
    SAME(SOUK_FULL_PACKET_EXPECTED, souk_answer(word));
    same("souk_taken", souk_taken(word), 1);
    BYTE(SOUK_AT_STATE, SOUK_TO_HOST);
    BYTE(SOUK_AT_DIRECTION, SOUK_DIRECTION_TO_HOST);
    BYTE(SOUK_AT_LUN, LUN);
    BYTE(SOUK_AT_BLOCK_LENGTH, BLOCK_LENGTH);
    NUMBER(SOUK_AT_TAG, TAG);
    NUMBER(SOUK_AT_DECLARED, DECLARED);
    NUMBER(SOUK_AT_LEFT, DECLARED);
    for (size_t i = 0; i < SOUK_BLOCK_SIZE; i++) same("a byte at SOUK_AT_BLOCK", record[SOUK_AT_BLOCK + i], read_10[i]);
}

static void counters_and_marks(void) {
    offer_wrapper(DECLARED, 0x80);
    same("souk_count of souk_write_data", souk_count(write_data(1000)), 1000);
    NUMBER(SOUK_AT_READ_MARK, WRAPPER);
    NUMBER(SOUK_AT_WRITE_MARK, WRAPPER + 1000);
    NUMBER(SOUK_AT_PUT_IN, 1000);
    same("souk_put_in", souk_put_in(record), 1000);
    same("souk_count of souk_poll", souk_count(idle(SOUK_ENDPOINT_READY)), P);
    NUMBER(SOUK_AT_READ_MARK, WRAPPER + P);
    NUMBER(SOUK_AT_LEFT, DECLARED - P);
    BYTE(SOUK_AT_STATUS_PRESENT, 0);
    SAME(SOUK_DONE, set_status(SOUK_PHASE_ERROR, 1000));
    BYTE(SOUK_AT_STATUS_PRESENT, 1);
    BYTE(SOUK_AT_STATUS, SOUK_PHASE_ERROR);
    NUMBER(SOUK_AT_RESIDUE, DECLARED - 1000);
    SAME(SOUK_WOULD_BLOCK, souk_answer(idle(SOUK_ENDPOINT_BUSY)));
    BYTE(SOUK_AT_STATE, SOUK_TO_HOST_ENDING);
}

/* The status as the host gets it. */
static void states_without_data(void) {
    static const uint8_t bytes[] = {SOUK_PASSED, SOUK_FAILED, SOUK_PHASE_ERROR};
    for (size_t i = 0; i < sizeof bytes; i++) {
        offer_wrapper(0, 0);
        BYTE(SOUK_AT_STATE, SOUK_STATUS_AWAITED);
        BYTE(SOUK_AT_DIRECTION, SOUK_DIRECTION_NO_DATA);
        set_status(bytes[i], 0);
        same("bytes of a status", souk_count(idle(SOUK_ENDPOINT_READY)), 13);
        same("a souk_status", bytes[i], i);
        same("the status byte sent", packet[12], i);
        BYTE(SOUK_AT_STATE, SOUK_STATUS_TRANSFER);
        SAME(SOUK_STALLS_CLEAR, souk_stalls(idle(SOUK_ENDPOINT_READY)));
    }
    SAME(SOUK_STATUS_REFUSED, set_status(SOUK_PASSED, 0));
}

static void states_from_host(void) {
    uint8_t bytes[P] = {0};
    offer_wrapper(P + 1, 0);
    BYTE(SOUK_AT_STATE, SOUK_FROM_HOST);
    BYTE(SOUK_AT_DIRECTION, SOUK_DIRECTION_FROM_HOST);
    SAME(SOUK_INVALID_STATE, souk_answer(write_data(1)));
    offer(bytes, sizeof bytes);
    same("souk_count of souk_read_data",
         souk_count(souk_read_data(record, sizeof record, io, sizeof io, bytes, sizeof bytes)), P);
    set_status(SOUK_FAILED, P);
    SAME(SOUK_WOULD_BLOCK, souk_answer(idle(SOUK_ENDPOINT_BUSY)));
    BYTE(SOUK_AT_STATE, SOUK_FROM_HOST_ENDING);
}

static void invalid_wrappers(void) {
    uint8_t bytes[WRAPPER] = {0};
    uint64_t command[SOUK_COMMAND_NUMBERS];
    create();
    SAME(SOUK_STALLS_SET, souk_stalls(offer(bytes, sizeof bytes)));
    BYTE(SOUK_AT_STATE, SOUK_COMMAND_TRANSFER_INVALID);
    SAME(SOUK_EMPTY_BLOCK, souk_answer(souk_command_step(record, sizeof record, io, sizeof io, command, SOUK_COMMAND_NUMBERS)));
    SAME(SOUK_STALLS_CLEAR, souk_stalls(souk_reset(record, sizeof record, io, sizeof io)));
    SAME(SOUK_STALLS_KEEP, souk_stalls(idle(SOUK_ENDPOINT_READY)));
    /* After a status: in one poll first state 0 and then state 1. */
    offer_wrapper(0, 0);
    set_status(SOUK_PASSED, 0);
    idle(SOUK_ENDPOINT_READY);
    SAME(SOUK_STALLS_CLEAR_THEN_SET, souk_stalls(offer(bytes, sizeof bytes)));
}

static void endpoints(void) {
    uint8_t too_long[P + 1] = {0};
    create();
    SAME(SOUK_WOULD_BLOCK, souk_answer(poll(packet, 0, SOUK_ENDPOINT_BUSY, SOUK_ENDPOINT_READY)));
    uint64_t word = poll(packet, 0, 77, SOUK_ENDPOINT_READY);
    SAME(SOUK_ENDPOINT_FAILED, souk_answer(word));
    same("souk_carried", souk_carried(word), 77);
    SAME(SOUK_PACKET_REFUSED, souk_answer(offer(too_long, sizeof too_long)));
}

static void room(void) {
    uint8_t bytes[P] = {0};
    uint64_t word;
    offer_wrapper(DECLARED, 0);
    do word = offer(bytes, sizeof bytes);
    while (souk_taken(word) == 1);
    SAME(SOUK_IO_BUFFER_OVERFLOW, souk_answer(word));
    same("souk_missing of souk_poll", souk_missing(word), P - IO_LENGTH % P);
    same("souk_count of souk_poll without room", souk_count(word), 0);
    offer_wrapper(DECLARED, 0x80);
    word = write_all(IO_LENGTH + 5);
    SAME(SOUK_IO_BUFFER_OVERFLOW, souk_answer(word));
    same("souk_missing of souk_try_write_data_all", souk_missing(word), 5);
    same("souk_count of souk_try_write_data_all without room", souk_count(word), 0);
    word = write_all(IO_LENGTH);
    same("souk_missing of souk_try_write_data_all with room", souk_missing(word), 0);
    same("souk_count of souk_try_write_data_all", souk_count(word), IO_LENGTH);
}

static void requests(void) {
    create();
    uint64_t word = souk_control(record, sizeof record, io, sizeof io, 0xA1, 0xFE);
    same("souk_flag of souk_control", souk_flag(word), 1);
    same("souk_count of souk_control", souk_count(word), MAX_LUN);
}

static void commands(void) {
    uint8_t block[SOUK_BLOCK_SIZE];
    uint64_t command[SOUK_COMMAND_NUMBERS];
    offer_wrapper(DECLARED, 0x80);
    uint64_t word = souk_command(record, sizeof record, io, sizeof io, block, sizeof block);
    same("souk_flag of souk_command", souk_flag(word), 1);
    same("souk_lun of souk_command", souk_lun(word), LUN);
    same("souk_count of souk_command", souk_count(word), BLOCK_LENGTH);
    word = souk_command_step(record, sizeof record, io, sizeof io, command, SOUK_COMMAND_NUMBERS);
    same("souk_flag of souk_command_step", souk_flag(word), 1);
    same("souk_lun of souk_command_step", souk_lun(word), LUN);
    SAME(SOUK_READ, command[0]);
    same("the address of a READ", command[1], 256);
    same("the blocks of a READ", command[2], 8);
}

static uint64_t kind_of(uint8_t opcode) {
    uint8_t block[SOUK_BLOCK_SIZE] = {opcode};
    uint64_t command[SOUK_COMMAND_NUMBERS];
    SAME(SOUK_DONE, souk_decode(block, sizeof block, command, SOUK_COMMAND_NUMBERS));
    return command[0];
}

static void kinds(void) {
    SAME(SOUK_UNKNOWN, kind_of(0xFF));
    SAME(SOUK_INQUIRY, kind_of(0x12));
    SAME(SOUK_TEST_UNIT_READY, kind_of(0x00));
    SAME(SOUK_REQUEST_SENSE, kind_of(0x03));
    SAME(SOUK_MODE_SENSE_6, kind_of(0x1A));
    SAME(SOUK_MODE_SENSE_10, kind_of(0x5A));
    SAME(SOUK_READ_CAPACITY_10, kind_of(0x25));
    SAME(SOUK_READ_CAPACITY_16, kind_of(0x9E));
    SAME(SOUK_READ, kind_of(0x28));
    SAME(SOUK_WRITE, kind_of(0x2A));
    SAME(SOUK_READ_FORMAT_CAPACITIES, kind_of(0x23));
    SAME(SOUK_READ, kind_of(0x88));
    SAME(SOUK_WRITE, kind_of(0x8A));
}

static uint64_t page_control_of(uint8_t byte_2) {
    uint8_t block[] = {0x1A, 0x08, byte_2, 0x00, 0xC0};
    uint64_t command[SOUK_COMMAND_NUMBERS];
    souk_decode(block, sizeof block, command, SOUK_COMMAND_NUMBERS);
    same("the allocation length of a MODE SENSE", command[5], 0xC0);
    return command[2];
}

static void page_controls(void) {
    SAME(SOUK_CURRENT_VALUES, page_control_of(0x3F));
    SAME(SOUK_CHANGEABLE_VALUES, page_control_of(0x7F));
    SAME(SOUK_DEFAULT_VALUES, page_control_of(0xBF));
    SAME(SOUK_SAVED_VALUES, page_control_of(0xFF));
}

static void told(void) {
    uint8_t read_16[SOUK_BLOCK_SIZE] = {0x88};
    uint64_t command[SOUK_COMMAND_NUMBERS];
    SAME(SOUK_DONE, souk_decode_told(read_16, sizeof read_16, 1, command, SOUK_COMMAND_NUMBERS));
    SAME(SOUK_READ, command[0]);
    SAME(SOUK_BROKEN_RECORD, souk_decode_told(read_16, sizeof read_16, 2, command, SOUK_COMMAND_NUMBERS));
    SAME(SOUK_DONE, souk_decode_told(read_16, sizeof read_16, 0, command, SOUK_COMMAND_NUMBERS));
    SAME(SOUK_UNKNOWN, command[0]);
}

static uint64_t step_told(uint32_t extended, uint64_t *command) {
    return souk_command_step_told(record, sizeof record, io, sizeof io, extended, command, SOUK_COMMAND_NUMBERS);
}

/* The block of the other wrappers, as a READ (16). */
static void told_steps(void) {
    uint8_t bytes[WRAPPER];
    uint64_t command[SOUK_COMMAND_NUMBERS];
    fill_wrapper(bytes, DECLARED, 0x80);
    bytes[14] = SOUK_BLOCK_SIZE;
    bytes[15] = 0x88;
    create();
    offer(bytes, sizeof bytes);
    uint64_t word = step_told(1, command);
    same("souk_flag of souk_command_step_told", souk_flag(word), 1);
    same("souk_lun of souk_command_step_told", souk_lun(word), LUN);
    SAME(SOUK_READ, command[0]);
    same("the address of a READ (16)", command[1], 0x010000000800);
    same("the blocks of a READ (16)", command[2], 0xAABBCCDD);
    SAME(SOUK_BROKEN_RECORD, step_told(2, command));
    same("souk_flag of souk_command_step_told with 0", souk_flag(step_told(0, command)), 1);
    SAME(SOUK_UNKNOWN, command[0]);
    same("the opcode of an unknown command", command[1], 0x88);
    souk_command_step(record, sizeof record, io, sizeof io, command, SOUK_COMMAND_NUMBERS);
    SAME(SOUK_READ, command[0]);
}

static void verdicts(void) {
    uint8_t bytes[WRAPPER] = {0};
    SAME(SOUK_INVALID, souk_verdict(bytes, sizeof bytes, 15));
    fill_wrapper(bytes, 0, 0);
    SAME(SOUK_VALID_ONLY, souk_verdict(bytes, sizeof bytes, LUN - 1));
    SAME(SOUK_MEANINGFUL, souk_verdict(bytes, sizeof bytes, LUN));
    fill_wrapper(bytes, 0, 0x88);
    SAME(SOUK_VALID_ONLY, souk_verdict(bytes, sizeof bytes, LUN));
}

int main(void) {
    sizes();
    new_record();
    fields_of_a_command();
    counters_and_marks();
    states_without_data();
    states_from_host();
    invalid_wrappers();
    endpoints();
    room();
    requests();
    commands();
    kinds();
    page_controls();
    told();
    told_steps();
    verdicts();
    printf("%u numbers of c/include/souklavanh.h are the socket's\n", compared);
    return 0;
}
