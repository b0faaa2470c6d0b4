/* Answer 1 says how much room is missing: souk_missing has the exact number, and souk_count is 0, so that a main loop which
   sends souk_count bytes sends none. What the header says of the number is tried too: with that much more room the same call
   succeeds, and with one byte less it does not. With every other answer nothing is missing.
   The first difference is reported and ends the program. */
#define _DEFAULT_SOURCE /* for MAP_ANONYMOUS and MAP_NORESERVE */
#include <souklavanh.h>
#include <stdbool.h>
#include <stdio.h>
#include <stdlib.h>
#include <string.h>
#if SIZE_MAX > 0xFFFFFFFF
#include <sys/mman.h>
#endif

enum { WRAPPER = 31, STATUS = 13, IO = 128, TO_HOST = 0x80, FROM_HOST = 0 };
enum { DECLARED = 1000, MAX_LUN = 3, BLOCK_LENGTH = 6 }; /* the host's data is longer than any that is sent here */

/* A device can be copied, and both copies tried. */
struct device {
    uint8_t record[SOUK_RECORD_SIZE], io[IO];
    size_t io_length;
};

static uint32_t packet_size; /* P */
static uint8_t packet[SOUK_PACKET_LARGEST];
static const uint8_t data[2 * IO];
static unsigned looked_at;

static size_t least(size_t a, size_t b) {
    return a < b ? a : b;
}

static void same(const char *what, const char *part, uint64_t found, uint64_t due) {
    if (found == due) return;
    printf("P %u, %s: %s is %llu, and %llu is due\n", (unsigned)packet_size, what, part, (unsigned long long)found,
           (unsigned long long)due);
    exit(1);
}

static void counted(const char *what, uint64_t word, uint32_t answer, uint32_t count) {
    looked_at++;
    same(what, "the answer", souk_answer(word), answer);
    same(what, "souk_count", souk_count(word), count);
    same(what, "souk_missing", souk_missing(word), 0);
}

static void lacks(const char *what, uint64_t word, uint32_t missing) {
    looked_at++;
    same(what, "the answer", souk_answer(word), SOUK_IO_BUFFER_OVERFLOW);
    same(what, "souk_missing", souk_missing(word), missing);
    same(what, "souk_count", souk_count(word), 0);
}

/* ---- The calls */

static uint64_t poll(struct device *d, const uint8_t *one, size_t length, uint8_t out, uint8_t in) {
    return souk_poll(d->record, sizeof d->record, d->io, d->io_length, packet, packet_size, one, length, data, packet_size, out,
                     out, in);
}

/* A packet of the host; behind it another one waits. */
static uint64_t offer(struct device *d, const uint8_t *bytes, size_t count) {
    return poll(d, bytes, count, SOUK_ENDPOINT_READY, SOUK_ENDPOINT_READY);
}

/* The host sends nothing. */
static uint64_t idle(struct device *d) {
    return poll(d, data, 0, SOUK_ENDPOINT_BUSY, SOUK_ENDPOINT_READY);
}

static uint64_t read_data(struct device *d, size_t count) {
    static uint8_t back[IO];
    return souk_read_data(d->record, sizeof d->record, d->io, d->io_length, back, count);
}

static uint64_t write_all(struct device *d, const uint8_t *source, size_t count) {
    return souk_try_write_data_all(d->record, sizeof d->record, d->io, d->io_length, source, count);
}

/* ---- Devices */

static void fill_wrapper(uint8_t *bytes, uint32_t declared, uint8_t flags) {
    memset(bytes, 0, WRAPPER);
    memcpy(bytes, "USBC", 4);
    for (int i = 0; i < 4; i++) bytes[8 + i] = (uint8_t)(declared >> 8 * i);
    bytes[12] = flags;
    bytes[14] = BLOCK_LENGTH;
}

static void create(struct device *d, size_t io_length) {
    d->io_length = io_length;
    souk_create(d->record, sizeof d->record, packet_size, MAX_LUN, (uint32_t)io_length);
}

/* In packets of at most 'piece' bytes; each has to be taken. Nothing waits behind them. */
static void feed_pieces(struct device *d, const uint8_t *bytes, size_t count, size_t piece) {
    for (size_t at = 0; at < count; at += piece) {
        uint64_t word = souk_poll(d->record, sizeof d->record, d->io, d->io_length, packet, packet_size, bytes + at,
                                  least(piece, count - at), data, 0, SOUK_ENDPOINT_READY, SOUK_ENDPOINT_BUSY,
                                  SOUK_ENDPOINT_READY);
        same("a packet that has room", "souk_taken", souk_taken(word), 1);
    }
}

static void feed(struct device *d, const uint8_t *bytes, size_t count) {
    feed_pieces(d, bytes, count, packet_size);
}

/* It has taken a wrapper, and nothing is unread. */
static void start(struct device *d, uint8_t flags) {
    uint8_t bytes[WRAPPER];
    fill_wrapper(bytes, DECLARED, flags);
    create(d, IO);
    feed(d, bytes, sizeof bytes);
}

/* ---- Polls in state 7 */

/* So many bytes are missing for a packet. */
static void read_what_is_missing(struct device *d, uint32_t missing) {
    counted("one byte less read", read_data(d, missing - 1), SOUK_DONE, missing - 1);
    lacks("a poll behind it", offer(d, data, packet_size), 1);
    counted("the last byte read", read_data(d, 1), SOUK_DONE, 1);
    feed(d, data, packet_size);
}

/* Room for a whole packet is wanted, whatever the packet's length. */
static void from_host(void) {
    for (uint32_t missing = 1; missing <= packet_size; missing++) {
        struct device d;
        start(&d, FROM_HOST);
        feed(&d, data, IO - packet_size);
        feed(&d, data, missing);
        uint64_t word = offer(&d, data, packet_size);
        lacks("a full packet in 7", word, missing);
        same("a full packet in 7", "souk_taken", souk_taken(word), 0);
        lacks("an empty packet in 7", offer(&d, data, 0), missing);
        read_what_is_missing(&d, missing);
    }
}

/* A command without data, and its status: the device is in state 3, with nothing unread. */
static void serve_a_command(struct device *d) {
    uint8_t bytes[WRAPPER];
    fill_wrapper(bytes, 0, TO_HOST);
    feed(d, bytes, sizeof bytes);
    souk_set_status(d->record, sizeof d->record, d->io, d->io_length, SOUK_PASSED, 0);
    counted("a status", idle(d), SOUK_DONE, STATUS);
}

/* Data behind a wrapper, in the same packet: the poll goes on to 7, and there is no room for the next packet. */
static void behind_a_wrapper(bool after_a_status) {
    const char *what = after_a_status ? "a wrapper and data after a status" : "a wrapper and data";
    for (uint32_t missing = 1; missing <= SOUK_PACKET_LARGEST - WRAPPER; missing++) {
        uint8_t bytes[SOUK_PACKET_LARGEST] = {0};
        struct device d;
        create(&d, SOUK_PACKET_LARGEST);
        if (after_a_status) serve_a_command(&d);
        fill_wrapper(bytes, DECLARED, FROM_HOST);
        uint64_t word = offer(&d, bytes, WRAPPER + missing);
        lacks(what, word, missing);
        same(what, "souk_taken", souk_taken(word), 1);
        same(what, "the state", d.record[SOUK_AT_STATE], SOUK_FROM_HOST);
        read_what_is_missing(&d, missing);
    }
}

/* ---- Polls in state 0 */

/* So many bytes were missing for the piece at 'at': an IO buffer that is larger by as many takes it. */
static void enlarge(size_t io_length, const uint8_t *bytes, size_t at, size_t piece, uint32_t missing) {
    struct device d;
    create(&d, io_length + missing - 1);
    feed_pieces(&d, bytes, at, piece);
    lacks("a buffer that is a byte too small", offer(&d, bytes + at, least(piece, WRAPPER - at)), 1);
    create(&d, io_length + missing);
    feed_pieces(&d, bytes, at, piece);
    feed(&d, bytes + at, least(piece, WRAPPER - at));
}

static void wrapper_in_pieces(size_t io_length, size_t piece) {
    uint8_t bytes[WRAPPER];
    struct device d;
    size_t at = 0;
    fill_wrapper(bytes, DECLARED, TO_HOST);
    create(&d, io_length);
    for (; at < WRAPPER && io_length - at >= packet_size; at += piece) feed(&d, bytes + at, least(piece, WRAPPER - at));
    if (at >= WRAPPER) {
        same("a wrapper in pieces", "the state", d.record[SOUK_AT_STATE], SOUK_TO_HOST);
        return;
    }
    uint32_t missing = (uint32_t)(packet_size - (io_length - at));
    lacks("a piece of a wrapper", offer(&d, bytes + at, least(piece, WRAPPER - at)), missing);
    lacks("the same piece again", offer(&d, bytes + at, least(piece, WRAPPER - at)), missing);
    enlarge(io_length, bytes, at, piece, missing);
}

/* The largest buffer here has P + 30 bytes, and takes all pieces. */
static void awaiting_a_command(void) {
    size_t smallest = packet_size > SOUK_IO_SMALLEST ? packet_size : SOUK_IO_SMALLEST, largest = packet_size + WRAPPER - 1;
    for (size_t piece = 1; piece <= packet_size; piece++) {
        uint8_t bytes[WRAPPER];
        struct device d;
        for (size_t io_length = smallest; io_length < largest; io_length++) wrapper_in_pieces(io_length, piece);
        fill_wrapper(bytes, DECLARED, TO_HOST);
        create(&d, largest);
        feed_pieces(&d, bytes, sizeof bytes, piece);
    }
}

/* What a reset leaves is in the way of every wrapper; with a new record it is not. */
static void behind_a_reset(void) {
    uint8_t bytes[WRAPPER];
    struct device d;
    fill_wrapper(bytes, DECLARED, TO_HOST);
    start(&d, FROM_HOST);
    feed(&d, data, IO - packet_size);
    feed(&d, data, 5);
    souk_reset(d.record, sizeof d.record, d.io, d.io_length);
    for (int i = 0; i < 3; i++) lacks("a wrapper after a reset", offer(&d, bytes, 8), 5);
    create(&d, IO);
    feed(&d, bytes, sizeof bytes);
}

/* ---- souk_try_write_data_all */

/* Tried on a copy: all bytes of the source fit, or so many are missing. */
static void try_all(const struct device *d, size_t count, size_t room) {
    struct device copy = *d;
    uint64_t word = write_all(&copy, data, count);
    if (count <= room) counted("a source that fits", word, SOUK_DONE, (uint32_t)count);
    else lacks("a source that does not fit", word, (uint32_t)(count - room));
}

/* Each byte that is sent makes room for another one. The polls send no more when less than a packet is unread. */
static void send_and_try(struct device *d, size_t count, size_t room) {
    for (size_t unread = IO - room; unread >= packet_size; unread -= packet_size) {
        counted("a poll that sends", idle(d), SOUK_DONE, packet_size);
        room += packet_size;
        try_all(d, count, room);
    }
    counted("a poll that has to be given more", idle(d), SOUK_FULL_PACKET_EXPECTED, 0);
    try_all(d, count, room);
}

/* With every length of a source: also with one that is shorter by what is missing, and one byte longer than that. */
static void to_host(void) {
    const size_t unread[] = {0, 1, packet_size, IO - 1, IO};
    for (size_t i = 0; i < sizeof unread / sizeof *unread; i++) {
        size_t room = IO - unread[i];
        for (size_t count = 0; count <= sizeof data; count++) {
            struct device d;
            start(&d, TO_HOST);
            counted("what is unread", write_all(&d, data, unread[i]), SOUK_DONE, (uint32_t)unread[i]);
            try_all(&d, count, room);
            send_and_try(&d, count, room);
        }
    }
}

/* Only a length of more than 32 bits can lack more than the number can say. The source is not read, so it takes no memory. */
static void more_than_4_gib(void) {
#if SIZE_MAX > 0xFFFFFFFF
    const uint32_t most = 0xFFFFFFFF;
    const size_t length = ((size_t)1 << 33) + IO;
    const uint8_t *source = mmap(NULL, length, PROT_READ, MAP_PRIVATE | MAP_ANONYMOUS | MAP_NORESERVE, -1, 0);
    struct device d;
    same("a source of 8 GiB", "its absence", source == MAP_FAILED, false);
    start(&d, TO_HOST);
    lacks("2^32 - 2 bytes too long", write_all(&d, source, IO + (size_t)most - 1), most - 1);
    lacks("2^32 - 1 bytes too long", write_all(&d, source, IO + (size_t)most), most);
    lacks("2^32 bytes too long", write_all(&d, source, IO + (size_t)most + 1), most);
    lacks("2^32 + 1 bytes too long", write_all(&d, source, IO + (size_t)most + 2), most);
    lacks("2^33 bytes too long", write_all(&d, source, length), most);
#endif
}

/* ---- Every other answer */

static void other_answers(void) {
    uint8_t block[SOUK_BLOCK_SIZE];
    struct device d;
    start(&d, TO_HOST);
    counted("a poll without data", idle(&d), SOUK_FULL_PACKET_EXPECTED, 0);
    counted("write_data", souk_write_data(d.record, sizeof d.record, d.io, IO, data, 100), SOUK_DONE, 100);
    counted("IN is busy", poll(&d, data, 0, SOUK_ENDPOINT_BUSY, SOUK_ENDPOINT_BUSY), SOUK_WOULD_BLOCK, 0);
    counted("IN fails with 255", poll(&d, data, 0, SOUK_ENDPOINT_BUSY, 255), SOUK_ENDPOINT_FAILED, 0);
    counted("a poll that sends", idle(&d), SOUK_DONE, packet_size);
    counted("read_data in 4", read_data(&d, 1), SOUK_INVALID_STATE, 0);
    counted("a packet of P + 1", offer(&d, data, packet_size + 1), SOUK_PACKET_REFUSED, 0);
    counted("max LUN", souk_control(d.record, sizeof d.record, d.io, IO, 0xA1, 0xFE), SOUK_DONE, MAX_LUN);
    counted("a command", souk_command(d.record, sizeof d.record, d.io, IO, block, sizeof block), SOUK_DONE, BLOCK_LENGTH);
    counted("a shorter buffer", souk_reset(d.record, sizeof d.record, d.io, IO - 1), SOUK_BROKEN_RECORD, 0);
}

int main(void) {
    for (packet_size = 8; packet_size <= SOUK_PACKET_LARGEST; packet_size *= 2) {
        from_host();
        awaiting_a_command();
        behind_a_reset();
        to_host();
        other_answers();
    }
    packet_size = SOUK_PACKET_LARGEST;
    behind_a_wrapper(false);
    behind_a_wrapper(true);
    more_than_4_gib();
    printf("%u results say what room is missing, and count what they have to\n", looked_at);
    return 0;
}
