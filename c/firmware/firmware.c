/* A firmware's main loop around the socket: copy from it. A real one is
       firmware_start();
       for (;;) { firmware_turn(); wait_for_interrupt(); }
   with its own peripheral in place of peripheral.c, and its own disk in place of commands.c and faults.c. */
#include "firmware.h"

#include "commands.h"
#include "peripheral.h"
#include "souklavanh.h"

enum { MAX_LUN = 0 };

static uint8_t record[SOUK_RECORD_SIZE]; /* belongs to the socket: read here, never written */
static uint8_t io[512];
static uint8_t packet[PACKET_SIZE];

/* The present command: it is offered in every turn until its status is set, so its reply is made once and kept. */
static bool at_work;
static struct reply reply;

bool firmware_start(void) {
    usb_empty_both();
    usb_unstall_both();
    commands_start();
    at_work = false;
    return souk_create(record, sizeof record, PACKET_SIZE, MAX_LUN, sizeof io) == SOUK_DONE;
}

/* A broken-off command may have left bytes in the buffer, and souk_reset keeps them: they would stand before the next command.
   It may have left packets in the endpoints too: one in IN would go out as the answer to the next command, one in OUT would be
   taken for a command. So the firmware starts afresh, at a bus reset and after any answer that should be impossible. */
static void start_afresh(void) {
    (void)firmware_start();
}

static void obey_stalls(uint64_t word) {
    uint32_t stalls = souk_stalls(word);
    if (stalls == SOUK_STALLS_CLEAR || stalls == SOUK_STALLS_CLEAR_THEN_SET) usb_unstall_both();
    if (stalls == SOUK_STALLS_SET || stalls == SOUK_STALLS_CLEAR_THEN_SET) usb_stall_both();
}

/* ---- control requests of the class; the USB framework handles the standard ones */

static void serve_setup(void) {
    struct setup setup;
    if (!usb_setup_came(&setup)) return;
    uint64_t word = souk_control(record, sizeof record, io, sizeof io, setup.request_type, setup.request);
    obey_stalls(word);
    if (record[SOUK_AT_STATE] == SOUK_COMMAND_TRANSFER) at_work = false; /* the request may have broken off the command */
    if (souk_flag(word)) usb_setup_answer((uint8_t)souk_count(word));
    else usb_setup_refuse();
}

/* ---- commands */

/* How many bytes the host wants. */
static uint32_t wanted(void) {
    return record[SOUK_AT_DIRECTION] == SOUK_DIRECTION_TO_HOST ? souk_number(record, SOUK_AT_DECLARED) : 0;
}

/* If the host wants fewer bytes than the reply has, nothing of the reply goes out. */
static void begin(uint8_t lun, const uint64_t *command) {
    at_work = true;
    reply = commands_reply(lun, command);
    if (reply.length > wanted()) {
        reply.length = 0;
        reply.status = SOUK_PHASE_ERROR;
    }
}

/* First the data, as much as the socket has room for; the rest in later turns. Then, in the turn in which the last byte went
   in, the status, with the number of bytes that truly went in as its figure. From the residue the host knows which bytes are
   the recorder's. The socket fills up with FFh what is missing, and only a true figure keeps the host from reading that as
   entries. */
static void carry_on(void) {
    uint32_t put_in = souk_put_in(record); /* how much of the reply the socket has: it counts anew with each command */
    if (put_in < reply.length) {
        (void)souk_write_data(record, sizeof record, io, sizeof io, reply.bytes + put_in, reply.length - put_in);
        put_in = souk_put_in(record);
    }
    if (put_in == reply.length) {
        uint32_t answer = souk_set_status(record, sizeof record, io, sizeof io, reply.status, put_in);
        if (answer == SOUK_DONE) at_work = false;
    }
}

static void serve_command(void) {
    if (record[SOUK_AT_STATE] == SOUK_COMMAND_TRANSFER_INVALID) return; /* what is shown there is an old command */
    uint64_t command[SOUK_COMMAND_NUMBERS];
    uint64_t word = souk_command_step(record, sizeof record, io, sizeof io, command, SOUK_COMMAND_NUMBERS);
    if (!souk_flag(word)) return;
    if (!at_work) begin(souk_lun(word), command);
    carry_on();
}

/* ---- packets */

/* Whether the answer is a normal one. 4 asks for more data, which the next turn brings; 6 asks for another turn. */
static bool ordinary(uint32_t answer) {
    return answer == SOUK_DONE || answer == SOUK_FULL_PACKET_EXPECTED || answer == SOUK_WOULD_BLOCK;
}

/* A wrapper is one message of exactly 31 bytes. The socket also takes longer ones, and would send the bytes after a wrapper
   back to the host, before the data. So while the socket waits for a command, a message that the standard calls invalid is
   offered as 31 zeros. The socket then does what the standard says: it has both endpoints stalled until a reset. A message that
   is valid only is offered as it came: some laptops set a reserved bit, and shall have the list all the same. */
static const struct packet *checked(const struct packet *came) {
    static const struct packet no_wrapper = {.length = 31};
    bool is_command = record[SOUK_AT_STATE] == SOUK_COMMAND_TRANSFER || record[SOUK_AT_STATE] == SOUK_STATUS_TRANSFER;
    if (is_command && souk_verdict(came->bytes, came->length, MAX_LUN) == SOUK_INVALID) return &no_wrapper;
    return came;
}

static void serve_packets(void) {
    static const struct packet none;
    const struct packet *one = usb_out_packet(0), *two = usb_out_packet(1);
    uint8_t first = one ? SOUK_ENDPOINT_READY : SOUK_ENDPOINT_BUSY;
    uint8_t second = two ? SOUK_ENDPOINT_READY : SOUK_ENDPOINT_BUSY;
    uint8_t write = usb_in_accepts() ? SOUK_ENDPOINT_READY : SOUK_ENDPOINT_BUSY;
    one = one ? checked(one) : &none;
    if (!two) two = &none;

    uint64_t word = souk_poll(record, sizeof record, io, sizeof io, packet, sizeof packet, one->bytes, one->length, two->bytes,
                              two->length, first, second, write);

    /* All of this, whatever the answer is: a poll that ends busy may have gone on to another state first. */
    obey_stalls(word);
    usb_out_give_back(souk_taken(word)); /* a packet that was not taken stays, and is offered again */
    if (souk_count(word) > 0) usb_in_send(packet, souk_count(word));
    if (!ordinary(souk_answer(word))) start_afresh();
}

void firmware_turn(void) {
    if (usb_bus_was_reset()) start_afresh();
    serve_setup();
    serve_command();
    serve_packets();
}
