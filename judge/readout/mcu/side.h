/* The side whose instructions are counted, as readout.c sees it: the exported calls or, with ORIGINAL, the Rust behind the few
   functions of original.rs. Each call of a side is one call out of the loop. */
#ifndef SIDE_H
#define SIDE_H

#include <souklavanh.h>

enum { SIDE_IO = 512 };

/* A poll while IN would take a packet, and with one from the host if 'first' is 0. souk_answer and souk_count take the word
   apart. */
static inline uint64_t side_poll(const uint8_t *one, size_t length, uint8_t first);
static inline uint32_t side_write_data(const uint8_t *source, size_t length);
static inline uint32_t side_read_data(uint8_t *destination, size_t length);
static inline void side_set_status(uint32_t processed);
/* A new device; 0 if there is none. */
static inline int side_create(uint32_t packet_size);
/* The packet that a poll sent is here. side_create sets it. */
static const uint8_t *side_packet;

#ifdef ORIGINAL

struct original;
struct original *original_create(uint16_t packet_size);
uint64_t original_poll(struct original *device, const uint8_t *one, size_t length, uint8_t first);
const uint8_t *original_packet(const struct original *device);
size_t original_write_data(struct original *device, const uint8_t *source, size_t length);
size_t original_read_data(struct original *device, uint8_t *destination, size_t length);
void original_set_status(struct original *device, uint32_t processed);

static struct original *device;

static inline int side_create(uint32_t packet_size) {
    device = original_create((uint16_t)packet_size);
    if (device == NULL) return 0;
    side_packet = original_packet(device);
    return 1;
}

static inline uint64_t side_poll(const uint8_t *one, size_t length, uint8_t first) {
    return original_poll(device, one, length, first);
}

static inline uint32_t side_write_data(const uint8_t *source, size_t length) {
    return original_write_data(device, source, length);
}

static inline uint32_t side_read_data(uint8_t *destination, size_t length) {
    return original_read_data(device, destination, length);
}

static inline void side_set_status(uint32_t processed) {
    original_set_status(device, processed);
}

#else

static uint8_t record[SOUK_RECORD_SIZE], io[SIDE_IO], packet[SOUK_PACKET_LARGEST];

static inline int side_create(uint32_t packet_size) {
    side_packet = packet;
    return souk_create(record, sizeof record, packet_size, 0, sizeof io) == SOUK_DONE;
}

static inline uint64_t side_poll(const uint8_t *one, size_t length, uint8_t first) {
    return souk_poll(record, sizeof record, io, sizeof io, packet, sizeof packet, one, length, one, 0, first,
                     SOUK_ENDPOINT_BUSY, SOUK_ENDPOINT_READY);
}

static inline uint32_t side_write_data(const uint8_t *source, size_t length) {
    return souk_count(souk_write_data(record, sizeof record, io, sizeof io, source, length));
}

static inline uint32_t side_read_data(uint8_t *destination, size_t length) {
    return souk_count(souk_read_data(record, sizeof record, io, sizeof io, destination, length));
}

static inline void side_set_status(uint32_t processed) {
    souk_set_status(record, sizeof record, io, sizeof io, SOUK_PASSED, processed);
}

#endif

#endif
