/* What no bench file can ask for: lengths and numbers beyond its fields, an endpoint that is not ready while the caller lends a
   packet, and a state in which no poll ends. */
#include <souklavanh.h>
#include <stdio.h>
#include <string.h>

enum { IO = 65536, P = 64, WRAPPER = 31, LONG = 200000 };

static uint8_t record[SOUK_RECORD_SIZE], io[IO], packet[1024], source[IO + 1], back[IO];
static unsigned different, looked_at;

static void same(const char *what, uint64_t found, uint64_t due) {
    looked_at++;
    if (found == due) return;
    different++;
    printf("%s: %llu, and %llu is due\n", what, (unsigned long long)found, (unsigned long long)due);
}

static uint64_t poll(const uint8_t *one, size_t length, uint8_t out, size_t room) {
    return souk_poll(record, sizeof record, io, sizeof io, packet, room, one, length, one, 0, out, SOUK_ENDPOINT_BUSY,
                     SOUK_ENDPOINT_READY);
}

/* A new device that has taken a wrapper with this L. */
static uint64_t start(uint32_t declared, uint8_t flags) {
    uint8_t bytes[WRAPPER] = {0};
    memcpy(bytes, "USBC", 4);
    for (int i = 0; i < 4; i++) bytes[8 + i] = (uint8_t)(declared >> 8 * i);
    bytes[12] = flags;
    bytes[14] = 6;
    souk_create(record, sizeof record, P, 0, sizeof io);
    return poll(bytes, sizeof bytes, SOUK_ENDPOINT_READY, P);
}

static uint64_t write_all(size_t length) {
    return souk_try_write_data_all(record, sizeof record, io, sizeof io, source, length);
}

static uint32_t unread(void) {
    return souk_number(record, SOUK_AT_WRITE_MARK) - souk_number(record, SOUK_AT_READ_MARK);
}

/* The whole buffer in one call, and more than 32,767 bytes moved to its front. */
static void counts(void) {
    start(LONG, 0x80);
    same("write_data of 65,536", souk_count(souk_write_data(record, sizeof record, io, sizeof io, source, IO)), IO);
    same("unread then", unread(), IO);
    same("a packet goes out", souk_count(poll(source, 0, SOUK_ENDPOINT_BUSY, P)), P);
    same("write_data behind it", souk_count(souk_write_data(record, sizeof record, io, sizeof io, source, P)), P);
    same("unread in front of it", (uint64_t)memcmp(io, source + P, IO - P), 0);
    start(LONG, 0x80);
    same("write_data of 65,537", souk_count(souk_write_data(record, sizeof record, io, sizeof io, source, IO + 1)), IO);
    start(LONG, 0x80);
    same("missing for 65,537 in an empty buffer", souk_missing(write_all(IO + 1)), 1);
    same("try_write_data_all of 65,536", souk_count(write_all(IO)), IO);
    same("missing for 65,537 in a full buffer", souk_missing(write_all(IO + 1)), IO + 1);
    start(LONG, 0);
    for (int i = 0; i < IO / P - 1; i++) poll(source, P, SOUK_ENDPOINT_READY, P);
    same("read_data into 65,536", souk_count(souk_read_data(record, sizeof record, io, sizeof io, back, IO)), IO - P);
}

static void packets(void) {
    start(LONG, 0);
    same("a packet of 256", souk_answer(poll(source, 256, SOUK_ENDPOINT_READY, P)), SOUK_PACKET_REFUSED);
    same("a packet of 320", souk_answer(poll(source, 320, SOUK_ENDPOINT_READY, P)), SOUK_PACKET_REFUSED);
    same("a packet buffer of 256", souk_answer(poll(source, P, SOUK_ENDPOINT_READY, 256)), SOUK_DONE);
    /* the endpoint is busy, then it fails: it hands over nothing, whatever is lent */
    for (uint8_t out = SOUK_ENDPOINT_BUSY; out < SOUK_ENDPOINT_BUSY + 2; out++) {
        start(LONG, 0);
        poll(source, 20, out, P);
        same("unread in 7 with OUT not ready", unread(), 0);
        same("left in 7 with OUT not ready", souk_number(record, SOUK_AT_LEFT), LONG);
        souk_create(record, sizeof record, P, 0, sizeof io);
        poll(source, 20, out, P);
        same("unread in 0 with OUT not ready", unread(), 0);
    }
}

static void numbers(void) {
    uint8_t message[WRAPPER] = {'U', 'S', 'B', 'C'};
    same("P 65,600", souk_create(record, sizeof record, 65600, 0, IO), SOUK_BUFFER_TOO_SMALL);
    same("16 MiB to the host", souk_answer(start(1u << 24, 0x80)), SOUK_FULL_PACKET_EXPECTED);
    same("left of 16 MiB", souk_number(record, SOUK_AT_LEFT), 1u << 24);
    same("16 MiB declared", souk_number(record, SOUK_AT_DECLARED), 1u << 24);
    start(0, 0);
    record[SOUK_AT_STATE] = 2;
    same("a status in 2", souk_set_status(record, sizeof record, io, sizeof io, SOUK_PASSED, 0), SOUK_DONE);
    message[13] = 15;
    message[14] = 6;
    same("the verdict for max LUN 16", souk_verdict(message, sizeof message, 16), 2);
}

/* Numbers that are 0 or 1 in fewer bits, and the largest fields that a block can have. */
static void told(void) {
    static const uint32_t others[] = {2, 256, 257, 65536, 65537, 0xFFFFFFFF};
    uint8_t read_16[SOUK_BLOCK_SIZE];
    uint64_t command[SOUK_COMMAND_NUMBERS];
    memset(read_16, 0xFF, sizeof read_16);
    read_16[0] = 0x88;
    start(0, 0);
    for (size_t i = 0; i < sizeof others / sizeof *others; i++) {
        same("decoding told another number than 0 or 1",
             souk_decode_told(read_16, sizeof read_16, others[i], command, SOUK_COMMAND_NUMBERS), SOUK_BROKEN_RECORD);
        same("a step told another number than 0 or 1",
             souk_command_step_told(record, sizeof record, io, sizeof io, others[i], command, SOUK_COMMAND_NUMBERS),
             SOUK_BROKEN_RECORD);
    }
    souk_decode(read_16, sizeof read_16, command, SOUK_COMMAND_NUMBERS);
    same("the largest address", command[1], 0xFFFFFFFFFFFFFFFF);
    same("the most blocks", command[2], 0xFFFFFFFF);
}

int main(void) {
    for (size_t i = 0; i < sizeof source; i++) source[i] = (uint8_t)(i * 7 + i / 256);
    counts();
    packets();
    numbers();
    told();
    printf("%u of %u lengths and numbers at their bounds are not as due\n", different, looked_at);
    return different != 0;
}
