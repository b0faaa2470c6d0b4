/* An imitated USB peripheral. The first part is what a firmware has from a real one: flags that the interrupt handler sets,
   and the buffers of the two bulk endpoints. The second part is the other end of the cable. */
#ifndef PERIPHERAL_H
#define PERIPHERAL_H

#include <stdbool.h>
#include <stddef.h>
#include <stdint.h>

enum { PACKET_SIZE = 64 };

struct packet {
    uint8_t bytes[PACKET_SIZE];
    size_t length;
};

struct setup {
    uint8_t request_type, request;
};

/* ---- for the firmware */

/* Whether a reset came since the last time this was asked. After a reset no bulk packet comes or goes before this is asked: the
   host has to set the device up first. So what the endpoints hold then is from before the reset. */
bool usb_bus_was_reset(void);

bool usb_setup_came(struct setup *came); /* a control request; it waits for one of the two answers */
void usb_setup_answer(uint8_t byte);
void usb_setup_refuse(void);

/* The OUT endpoint has two buffers, so that the host can go on sending while the firmware works. 0 is the older packet; NULL if
   there is none. A packet stays until it is given back. */
const struct packet *usb_out_packet(unsigned which);
void usb_out_give_back(unsigned count);

bool usb_in_accepts(void);
void usb_in_send(const uint8_t *bytes, size_t length);

void usb_stall_both(void);
void usb_unstall_both(void);
void usb_empty_both(void); /* drops what IN has not sent yet and what OUT holds: a bus reset may leave both */

/* ---- for the host */

enum bus { BUS_DONE, BUS_NOT_READY, BUS_STALLED };

void bus_reset(void);
void bus_reset_keeps_packets(void); /* from now on it leaves the packets in both endpoints: some peripherals do */
bool bus_packets_wait(void);        /* in both endpoints */
void bus_setup(uint8_t request_type, uint8_t request);
enum bus bus_setup_result(uint8_t *byte); /* BUS_STALLED: refused */
enum bus bus_out(const uint8_t *bytes, size_t length);
enum bus bus_in(struct packet *came);
unsigned bus_in_was_busy(void); /* how often the firmware found the IN endpoint busy */

#endif
