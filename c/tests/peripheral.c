#include "peripheral.h"

#include <string.h>

/* What an interrupt handler and the hardware share with the main loop. In a real firmware these are volatile. */
static bool was_reset;
static bool reset_keeps_packets;
static bool setup_waits;
static struct setup setup;
static enum bus setup_result;
static uint8_t setup_byte;
static struct packet out[2];
static unsigned out_full;
static struct packet in;
static bool in_full;
static unsigned in_busy;
static bool stalled;

static void copy_packet(struct packet *to, const uint8_t *bytes, size_t length) {
    memcpy(to->bytes, bytes, length);
    to->length = length;
}

/* ---- for the firmware */

bool usb_bus_was_reset(void) {
    bool was = was_reset;
    was_reset = false;
    return was;
}

bool usb_setup_came(struct setup *came) {
    *came = setup;
    return setup_waits;
}

void usb_setup_answer(uint8_t byte) {
    setup_byte = byte;
    setup_result = BUS_DONE;
    setup_waits = false;
}

void usb_setup_refuse(void) {
    setup_result = BUS_STALLED;
    setup_waits = false;
}

const struct packet *usb_out_packet(unsigned which) {
    return which < out_full ? &out[which] : NULL;
}

void usb_out_give_back(unsigned count) {
    for (; count > 0 && out_full > 0; count--) {
        out[0] = out[1];
        out_full--;
    }
}

bool usb_in_accepts(void) {
    if (in_full) in_busy++;
    return !in_full;
}

void usb_in_send(const uint8_t *bytes, size_t length) {
    copy_packet(&in, bytes, length);
    in_full = true;
}

void usb_stall_both(void) {
    stalled = true;
}

void usb_unstall_both(void) {
    stalled = false;
}

void usb_empty_both(void) {
    out_full = 0;
    in_full = false;
}

/* ---- for the host */

void bus_reset(void) {
    if (!reset_keeps_packets) usb_empty_both();
    setup_waits = false;
    was_reset = true;
}

void bus_reset_keeps_packets(void) {
    reset_keeps_packets = true;
}

bool bus_packets_wait(void) {
    return in_full && out_full > 0;
}

void bus_setup(uint8_t request_type, uint8_t request) {
    setup = (struct setup){request_type, request};
    setup_result = BUS_NOT_READY;
    setup_waits = true;
}

enum bus bus_setup_result(uint8_t *byte) {
    *byte = setup_byte;
    return setup_result;
}

enum bus bus_out(const uint8_t *bytes, size_t length) {
    if (was_reset) return BUS_NOT_READY;
    if (stalled) return BUS_STALLED;
    if (out_full == 2) return BUS_NOT_READY;
    copy_packet(&out[out_full++], bytes, length);
    return BUS_DONE;
}

enum bus bus_in(struct packet *came) {
    if (was_reset) return BUS_NOT_READY;
    if (stalled) return BUS_STALLED;
    if (!in_full) return BUS_NOT_READY;
    *came = in;
    in_full = false;
    return BUS_DONE;
}

unsigned bus_in_was_busy(void) {
    return in_busy;
}
