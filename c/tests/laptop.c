/* The depot's laptop, and the program's main: it finds the disk, reads out the fault list, makes the mistakes that laptops and
   cables make, and reads again. It sends what a stock Linux sends to a small disk. It judges what comes back only by the rules
   of Bulk-Only Transport, and prints what it saw; a broken rule ends it. While it waits, the firmware turns. */
#include "firmware.h"
#include "peripheral.h"

#include <stdio.h>
#include <stdlib.h>
#include <string.h>

enum { BLOCK = 512, LINE = 32, WRAPPER = 31, STATUS = 13, LONGEST = 3 * BLOCK };
enum { LARGEST_STATUS = 2 };
enum { PATIENCE = 10000 }; /* turns */

static unsigned waits;      /* turns that the laptop lets pass before it fetches a packet */
static uint8_t stray_flags; /* reserved bits that the driver sets */
static uint32_t tag;        /* of the last command */
static uint8_t data[LONGEST], list[LONGEST];

struct request {
    const char *name;
    uint8_t block[16];
    uint8_t block_length, lun;
    bool to_host;
    uint32_t length;
};

static void require(bool ok, const char *what) {
    if (ok) return;
    printf("BREACH: %s\n", what);
    exit(1);
}

static void turn(void) {
    static unsigned turns;
    require(turns++ < PATIENCE, "the disk does not come to an end");
    firmware_turn();
}

/* ---- packets */

/* false: the endpoint is stalled */
static bool send(const uint8_t *bytes, size_t length) {
    enum bus said;
    while ((said = bus_out(bytes, length)) == BUS_NOT_READY) turn();
    return said == BUS_DONE;
}

static bool receive(struct packet *came) {
    enum bus said;
    for (unsigned i = 0; i < waits; i++) turn();
    while ((said = bus_in(came)) == BUS_NOT_READY) turn();
    return said == BUS_DONE;
}

static void reset_bus(void) {
    bus_reset();
    turn();
    printf("bus reset\n");
}

/* ---- Bulk-Only Transport */

static void put_le32(uint8_t *at, uint32_t number) {
    for (int i = 0; i < 4; i++) at[i] = (uint8_t)(number >> 8 * i);
}

static uint32_t le32(const uint8_t *at) {
    return (uint32_t)at[0] | (uint32_t)at[1] << 8 | (uint32_t)at[2] << 16 | (uint32_t)at[3] << 24;
}

static uint32_t be32(const uint8_t *at) {
    return (uint32_t)at[0] << 24 | (uint32_t)at[1] << 16 | (uint32_t)at[2] << 8 | (uint32_t)at[3];
}

static void fill_wrapper(uint8_t *bytes, const struct request *r) {
    memset(bytes, 0, WRAPPER);
    memcpy(bytes, "USBC", 4);
    put_le32(bytes + 4, ++tag);
    put_le32(bytes + 8, r->length);
    bytes[12] = (r->to_host ? 0x80 : 0) | stray_flags;
    bytes[13] = r->lun;
    bytes[14] = r->block_length;
    memcpy(bytes + 15, r->block, r->block_length);
}

static void send_wrapper(const struct request *r) {
    uint8_t bytes[WRAPPER];
    fill_wrapper(bytes, r);
    require(send(bytes, sizeof bytes), "a stall before a command");
}

/* The host's read ends with the last byte that it asked for, or with a short packet. */
static size_t receive_data(uint32_t length) {
    struct packet came;
    size_t got = 0;
    do {
        require(receive(&came), "a stall in the data");
        require(came.length <= length - got, "more data than was asked for");
        memcpy(data + got, came.bytes, came.length);
        got += came.length;
    } while (got < length && came.length == PACKET_SIZE);
    return got;
}

static void send_data(uint32_t length) {
    static const uint8_t zeros[PACKET_SIZE];
    for (uint32_t done = 0; done < length; done += PACKET_SIZE) {
        uint32_t rest = length - done;
        require(send(zeros, rest < PACKET_SIZE ? rest : PACKET_SIZE), "a stall in the data");
    }
}

/* The residue. */
static uint32_t receive_status(const struct request *r) {
    static const char *const names[] = {"passed", "failed", "phase error"};
    struct packet came;
    require(receive(&came), "a stall in place of a status");
    require(came.length == STATUS && memcmp(came.bytes, "USBS", 4) == 0, "no status where one is due");
    require(le32(came.bytes + 4) == tag, "the status of another command");
    uint32_t residue = le32(came.bytes + 8);
    require(residue <= r->length, "a residue above the length");
    require(came.bytes[12] <= LARGEST_STATUS, "no such status");
    printf("status %s, residue %u\n", names[came.bytes[12]], (unsigned)residue);
    return residue;
}

/* A whole command: wrapper, data, status. Returns how many bytes of data are the disk's: all except the residue, because what
   comes after them is filler. */
static uint32_t run(const struct request *r) {
    size_t got = 0;
    printf("%s: ", r->name);
    if (r->length > 0) printf("%u bytes %s, ", (unsigned)r->length, r->to_host ? "asked" : "offered");
    send_wrapper(r);
    if (r->to_host && r->length > 0) got = receive_data(r->length);
    else send_data(r->length);
    uint32_t valid = r->length - receive_status(r);
    require(!r->to_host || valid <= got, "the residue counts bytes that did not come");
    return valid;
}

static void control(const char *name, uint8_t request_type, uint8_t request) {
    uint8_t byte;
    enum bus said;
    bus_setup(request_type, request);
    while ((said = bus_setup_result(&byte)) == BUS_NOT_READY) turn();
    if (said == BUS_DONE) printf("%s: %u\n", name, byte);
    else printf("%s: refused\n", name);
}

/* ---- commands */

static const struct request inquiry = {"INQUIRY", {0x12, 0, 0, 0, 36}, 6, 0, true, 36};
static const struct request inquiry_of_unit_1 = {"INQUIRY of unit 1", {0x12, 0, 0, 0, 36}, 6, 1, true, 36};
static const struct request test_unit_ready = {"TEST UNIT READY", {0x00}, 6, 0, false, 0};
static const struct request read_capacity = {"READ CAPACITY (10)", {0x25}, 10, 0, true, 8};
static const struct request mode_sense = {"MODE SENSE (6)", {0x1A, 0, 0x3F, 0, 192}, 6, 0, true, 192};
/* Less than a packet, and more than the disk has: data and filler have to come in one packet. */
static const struct request format_capacities = {"READ FORMAT CAPACITIES", {0x23, 0, 0, 0, 0, 0, 0, 0, 20}, 10, 0, true, 20};
static const struct request prevent_removal = {"PREVENT REMOVAL", {0x1E, 0, 0, 0, 1}, 6, 0, false, 0};
static const struct request request_sense = {"REQUEST SENSE", {0x03, 0, 0, 0, 96}, 6, 0, true, 96};
static const struct request write_block_0 = {"WRITE (10), block 0", {0x2A, 0, 0, 0, 0, 0, 0, 0, 1}, 10, 0, false, BLOCK};
static const struct request read_block_0 = {"READ (10), block 0", {0x28, 0, 0, 0, 0, 0, 0, 0, 1}, 10, 0, true, BLOCK};
static const struct request read_list = {"READ (10), blocks 0 to 2", {0x28, 0, 0, 0, 0, 0, 0, 0, 3}, 10, 0, true, 3 * BLOCK};
static const struct request read_block_3 = {"READ (10), block 3", {0x28, 0, 0, 0, 0, 3, 0, 0, 1}, 10, 0, true, BLOCK};
static const struct request read_too_short = {
    "READ (10), 2 blocks with room for 1", {0x28, 0, 0, 0, 0, 0, 0, 0, 2}, 10, 0, true, BLOCK};

/* What laptops send to large disks: the address in bytes 2 to 9, the number of blocks in 10 to 13. */
static const struct request read_list_16 = {"READ (16), blocks 0 to 2", {0x88, [13] = 3}, 16, 0, true, 3 * BLOCK};
static const struct request write_block_0_16 = {"WRITE (16), block 0", {0x8A, [13] = 1}, 16, 0, false, BLOCK};
/* Cut to 32 bits, this address is 0. */
static const struct request read_block_2_to_32 = {"READ (16), block 2^32", {0x88, [5] = 1, [13] = 1}, 16, 0, true, BLOCK};
/* Address and number of blocks together are 2^64, which is 0 in 64 bits. */
static const struct request read_last_address = {
    "READ (16), block 2^64 - 1", {0x88, 0, 0xFF, 0xFF, 0xFF, 0xFF, 0xFF, 0xFF, 0xFF, 0xFF, [13] = 1}, 16, 0, true, BLOCK};
/* These are 2^32 bytes, which is 0 in 32 bits. */
static const struct request read_2_to_23_blocks = {"READ (16), 2^23 blocks", {0x88, [11] = 0x80}, 16, 0, true, BLOCK};

static bool is_blank(const uint8_t *line) {
    for (int i = 0; i < LINE - 1; i++)
        if (line[i] != ' ') return false;
    return true;
}

/* Those who order from this list must find only entries and blank lines in it. */
static void require_line(const uint8_t *line) {
    for (int i = 0; i < LINE - 1; i++) require(line[i] >= ' ' && line[i] <= '~', "a byte in the list that is no text");
    require(line[LINE - 1] == '\n', "a line of the list that does not end");
}

static void print_list(uint32_t length) {
    unsigned entries = 0, blanks = 0;
    for (uint32_t at = 0; at + LINE <= length; at += LINE) {
        require_line(data + at);
        if (is_blank(data + at)) {
            blanks++;
        } else {
            printf("    %.*s\n", LINE - 1, (const char *)data + at);
            entries++;
        }
    }
    printf("    %u entries, %u blank lines\n", entries, blanks);
}

static void ask_why(void) {
    uint32_t length = run(&request_sense);
    printf("    %u bytes: sense %X/%02X/%02X\n", (unsigned)length, data[2] & 15u, data[12], data[13]);
}

static void ask_name(void) {
    run(&inquiry);
    printf("    '%.8s' '%.16s' '%.4s'\n", (const char *)data + 8, (const char *)data + 16, (const char *)data + 32);
}

static void plug_in(void) {
    control("Get Max LUN", 0xA1, 0xFE);
    ask_name();
    run(&test_unit_ready);
    run(&read_capacity);
    printf("    %u blocks of %u bytes\n", (unsigned)be32(data) + 1, (unsigned)be32(data + 4));
    run(&mode_sense);
    printf("    %s\n", data[2] & 0x80 ? "write protected" : "writable");
    run(&read_block_0);
    run(&prevent_removal);
    ask_why();
}

static void read_out(void) {
    print_list(run(&read_list));
    memcpy(list, data, sizeof list);
}

static void read_again(const struct request *r) {
    uint32_t length = run(r);
    require(length == sizeof list && memcmp(list, data, sizeof list) == 0, "another list");
    printf("    the same list\n");
}

static void refusals(void) {
    run(&write_block_0);
    ask_why();
    run(&read_block_3);
    ask_why();
    run(&write_block_0_16);
    ask_why();
    run(&read_block_2_to_32);
    ask_why();
    run(&read_last_address);
    ask_why();
    run(&read_2_to_23_blocks);
    ask_why();
    run(&inquiry_of_unit_1);
    ask_why();
    run(&format_capacities);
    ask_why();
}

/* In the middle of a read, when the disk has much more to send. */
static void break_off(void) {
    struct packet came;
    send_wrapper(&read_list);
    for (int i = 0; i < 5; i++) require(receive(&came), "a stall in the data");
    printf("%s: broken off after 5 packets\n", read_list.name);
}

/* The cable is pulled. */
static void broken_off(void) {
    break_off();
    control("Bulk-Only Reset", 0x21, 0xFF);
    reset_bus();
    run(&test_unit_ready);
}

/* A packet of the read waits in IN, and in OUT waits a command, which the disk does not take within a read. The peripheral
   keeps both through the reset. Neither of them may become part of the answer to the next command. */
static void packets_left_behind(void) {
    bus_reset_keeps_packets();
    break_off();
    send_wrapper(&test_unit_ready);
    turn();
    require(bus_packets_wait(), "no packet left behind, so nothing is tried");
    printf("%s: sent within the read\n", test_unit_ready.name);
    reset_bus();
    ask_name();
    run(&test_unit_ready);
}

static void disagreement(void) {
    run(&read_too_short);
    reset_bus();
}

static void require_refused(const char *name, const uint8_t *bytes, size_t length) {
    struct packet came;
    require(send(bytes, length), "a stall before a command");
    require(!receive(&came), "an answer to what is no wrapper");
    require(!send(bytes, length), "an endpoint that is not stalled");
    printf("%s: both endpoints stalled\n", name);
    reset_bus();
    run(&test_unit_ready);
}

/* The disk must not take the last two of 33 bytes for data. */
static void no_wrappers(void) {
    uint8_t bytes[WRAPPER + 2];
    fill_wrapper(bytes, &read_block_0);
    bytes[WRAPPER] = bytes[WRAPPER + 1] = 0x5A;
    require_refused("a READ (10) of 33 bytes", bytes, WRAPPER + 2);
    require_refused("a READ (10) of 30 bytes", bytes, WRAPPER - 1);
    bytes[0] = 0;
    require_refused("a READ (10) without its signature", bytes, WRAPPER);
}

int main(void) {
    require(firmware_start(), "the firmware does not start");
    printf("-- the laptop is plugged in\n");
    reset_bus();
    plug_in();
    printf("-- the fault list\n");
    read_out();
    printf("-- the same, from a slow laptop\n");
    waits = 3;
    read_again(&read_list);
    printf("the disk found the laptop busy %u times\n", bus_in_was_busy());
    printf("-- the same, from a laptop whose driver sets flag bit 3\n");
    stray_flags = 1 << 3;
    read_again(&read_list);
    stray_flags = 0;
    printf("-- the same, as laptops read large disks\n");
    read_again(&read_list_16);
    printf("-- what the recorder refuses\n");
    refusals();
    printf("-- what goes wrong\n");
    broken_off();
    disagreement();
    no_wrappers();
    printf("-- a reset that leaves packets in the endpoints\n");
    packets_left_behind();
    printf("-- the fault list again\n");
    read_again(&read_list);
    return 0;
}
