/* The status never stands on the stack. A poll that enters state 3 writes the status into the IO buffer and sends its first
   packet. The stack is painted right before each such poll, and right after it the status's signature is looked for there. That
   is done without data, to the host and from the host, for each status byte and each packet size. It would say nothing if the
   poll did not write the status at all; so the host also has to get the right 13 bytes. */
#include "stack.h"

#include <souklavanh.h>
#include <stdbool.h>
#include <stdio.h>
#include <stdlib.h>
#include <string.h>

enum { WRAPPER = 31, STATUS = 13, DATA = 40, IO = 128, TAG = 0x0D0C0B0A, MOST_POLLS = 16 };

/* volatile, so that no register of this test ever has it as one number: a poll saves registers of its caller on the stack. */
static const volatile uint8_t signature[] = {0x55, 0x53, 0x42, 0x53};

static const struct story {
    uint8_t flags;
    uint32_t declared, done; /* bytes that the host asks for, and that are put in for it or taken from it */
} stories[] = {{0x00, 0, 0}, {0x80, DATA, DATA}, {0x80, DATA, DATA / 2}, {0x00, DATA, DATA / 2}};

static uint8_t record[SOUK_RECORD_SIZE], io[IO], packet[SOUK_PACKET_LARGEST], data[DATA];
static uint8_t got[MOST_POLLS * SOUK_PACKET_LARGEST]; /* by the host, after the wrapper */
static size_t deepest, got_count, entered;
static const struct story *story;
static uint32_t packet_size;
static uint8_t status;

static void require(bool ok, const char *what, size_t number) {
    if (ok) return;
    printf("BREACH: P %u, L %u, flags %02x, status %u: ", (unsigned)packet_size, (unsigned)story->declared,
           (unsigned)story->flags, (unsigned)status);
    printf("%s: %u\n", what, (unsigned)number);
    exit(1);
}

static uint32_t least(uint32_t a, uint32_t b) {
    return a < b ? a : b;
}

/* The host offers so many bytes, or nothing. */
static uint64_t poll(const uint8_t *one, size_t length) {
    bool was_in_3 = record[SOUK_AT_STATE] == SOUK_STATUS_TRANSFER;
    stack_paint();
    uint64_t word = souk_poll(record, sizeof record, io, sizeof io, packet, sizeof packet, one, length, one, 0,
                              length > 0 ? SOUK_ENDPOINT_READY : SOUK_ENDPOINT_BUSY, SOUK_ENDPOINT_BUSY, SOUK_ENDPOINT_READY);
    size_t used = stack_used(), at = stack_find(signature);
    if (was_in_3 || record[SOUK_AT_STATE] != SOUK_STATUS_TRANSFER) return word;
    require(used < STACK_PAINTED, "the poll goes deeper than what was painted", used);
    require(at == 0, "the status stands on the stack; bytes below the caller of souk_poll", at);
    if (used > deepest) deepest = used;
    entered++;
    return word;
}

static void send_wrapper(void) {
    uint8_t bytes[WRAPPER] = {'U', 'S', 'B', 'C'};
    for (int i = 0; i < 4; i++) bytes[4 + i] = (uint8_t)(TAG >> 8 * i);
    bytes[8] = (uint8_t)story->declared;
    bytes[12] = story->flags;
    bytes[14] = 6;
    for (uint32_t at = 0; at < WRAPPER; at += packet_size) poll(bytes + at, least(packet_size, WRAPPER - at));
}

static void take_packet(void) {
    bool from_host = story->flags == 0;
    uint32_t offered = from_host ? least(packet_size, souk_number(record, SOUK_AT_LEFT)) : 0;
    uint32_t count = least(souk_count(poll(data, offered)), SOUK_PACKET_LARGEST);
    memcpy(got + got_count, packet, count);
    got_count += count;
}

static bool is_due(const uint8_t *bytes) {
    for (size_t i = 0; i < sizeof signature; i++)
        if (bytes[i] != signature[i]) return false;
    return souk_number(bytes, 4) == TAG && souk_number(bytes, 8) == story->declared - story->done && bytes[12] == status;
}

static void tell(void) {
    uint32_t before = story->flags == 0 ? 0 : story->declared;
    souk_create(record, sizeof record, packet_size, 0, sizeof io);
    send_wrapper();
    souk_write_data(record, sizeof record, io, sizeof io, data, story->done); /* refused if nothing goes to the host */
    souk_set_status(record, sizeof record, io, sizeof io, status, story->done);
    got_count = entered = 0;
    for (int i = 0; i < MOST_POLLS && got_count < before + STATUS; i++) take_packet();
    require(entered == 1, "polls that entered state 3", entered);
    require(got_count == before + STATUS, "bytes that the host got", got_count);
    require(is_due(got + before), "another status than is due; its last byte", got[before + STATUS - 1]);
}

int main(void) {
    for (story = stories; story < stories + sizeof stories / sizeof *stories; story++)
        for (packet_size = 8; packet_size <= SOUK_PACKET_LARGEST; packet_size *= 2)
            for (status = SOUK_PASSED; status <= SOUK_PHASE_ERROR; status++) tell();
    printf("souk_poll entering state 3: %u bytes of stack, the status not among them\n", (unsigned)deepest);
    return 0;
}
