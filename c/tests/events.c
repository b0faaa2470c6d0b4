/* Random events, the same on every machine: whoever runs this on two of them compares the lines. A host and a firmware that
   mostly do as they should, and now and then anything, drive device after device through all states.
   Every call is tested by lending.h. A running sum takes in, after each event, the result and all bytes of what was lent; every
   1,000 events it is printed. The last line says how often each call gave each answer, and how often an event found a device
   in each state. With STACK_WATCH a line for each call follows, with the most bytes of stack that it needed. */
#include "lending.h"

#ifndef EVENTS
#define EVENTS 400000
#endif

enum { EVENTS_PER_LINE = 1000 };
enum { STATES = SOUK_FROM_HOST_ENDING + 1 };
enum { WRAPPER = 31, LONGEST_MESSAGE = 40, LONGEST_DATA = 66000, LONGEST_OFFER = 300, LONGEST_PACKET = 1024 };
enum { USUAL_IO = 600 };

static unsigned device_number, event_number;

static void print_where(void) {
    printf("device %u, event %u", device_number, event_number);
}

/* ---- Random numbers of other kinds */

static uint32_t random_between(uint32_t smallest, uint32_t largest) {
    return smallest + random_below(largest - smallest + 1);
}

static uint32_t least(uint32_t a, uint32_t b) {
    return a < b ? a : b;
}

static void fill_randomly(uint8_t *bytes, size_t count) {
    uint64_t word = 0;
    for (size_t i = 0; i < count; i++) {
        word = i % 8 ? word >> 8 : random_word();
        bytes[i] = (uint8_t)word;
    }
}

static void lend_random(enum area a, size_t count) {
    fill_randomly(lend(a, count), count);
}

/* ---- The running sum. What it gets is put together from single bytes, in the same order on every machine. */

static uint64_t sum = 0xCBF29CE484222325u;

static void add(uint64_t word) {
    sum = (sum ^ word) * 0x100000001B3u;
    sum ^= sum >> 32;
}

static uint64_t le64(const uint8_t *at) {
    uint64_t word = 0;
    for (int i = 0; i < 8; i++) word |= (uint64_t)at[i] << 8 * i;
    return word;
}

static void add_bytes(const uint8_t *bytes, size_t count) {
    add(count);
    for (; count >= 8; bytes += 8, count -= 8) add(le64(bytes));
    for (; count > 0; bytes++, count--) add(*bytes);
}

static void add_numbers(const uint64_t *numbers, size_t count) {
    for (size_t i = 0; i < count; i++) add(numbers[i]);
}

static void add_event(enum call which, uint64_t word) {
    add(which);
    add(word);
    for (enum area a = 0; a < AREAS; a++) {
        if (!(calls[which].lent & BIT(a))) continue;
        if (a == COMMAND) add_numbers((const uint64_t *)(const void *)lent(a), length[a] / sizeof(uint64_t));
        else add_bytes(lent(a), length[a]);
    }
}

/* ---- The device, and what goes on around it */

static uint32_t packet_size; /* P */
static uint32_t io_size;
static unsigned events_to_live; /* a new device comes after so many events */
static bool spoiled;            /* something has written into the record */
static bool stuck;              /* bytes that a reset left in io are in the way of a wrapper */
static bool wildly;             /* this event is none that a good host or firmware would make */

static unsigned state(void) {
    return lent(RECORD)[SOUK_AT_STATE];
}

static uint32_t left(void) {
    return souk_number(lent(RECORD), SOUK_AT_LEFT);
}

/* ---- Creation */

/* Mostly enough for a wrapper in pieces. */
static uint32_t random_io_size(uint32_t p) {
    uint32_t smallest = p > SOUK_IO_SMALLEST ? p : SOUK_IO_SMALLEST, enough = p + WRAPPER - 1;
    if (one_in(100)) return SOUK_IO_LARGEST;
    if (one_in(8)) return random_between(smallest, enough);
    return random_between(enough, USUAL_IO);
}

/* One of the numbers is none that a device can have. */
static void spoil_creation(void) {
    static const uint32_t sizes[] = {0, 1, 7, 30, SOUK_IO_LARGEST + 1, 1u << 20, 0xFFFFFFFF};
    static const uint32_t packet_sizes[] = {0, 1, 12, 24, 31, 65, 128, 264, 65600};
    switch (random_below(3)) {
    case 0: with.size = sizes[random_below(sizeof sizes / sizeof *sizes)]; break;
    case 1: with.packet_size = packet_sizes[random_below(sizeof packet_sizes / sizeof *packet_sizes)]; break;
    default: with.max_lun = (uint8_t)random_between(SOUK_LUN_LARGEST + 1, 255); break;
    }
}

static void choose_creation(void) {
    with.packet_size = 8u << random_below(4);
    with.max_lun = (uint8_t)random_below(SOUK_LUN_LARGEST + 1);
    with.size = random_io_size(with.packet_size);
    if (wildly) spoil_creation();
}

/* ---- Messages of the host */

struct message {
    uint8_t bytes[LONGEST_MESSAGE];
    size_t length;
};
static struct message message; /* the one on its way to the device */
static size_t message_at;      /* so much of it is through */

static void put_le32(uint8_t *at, uint32_t number) {
    for (int i = 0; i < 4; i++) at[i] = (uint8_t)(number >> 8 * i);
}

static void fill_block(uint8_t *block, size_t count) {
    static const uint8_t opcodes[] = {0x00, 0x03, 0x12, 0x1A, 0x23, 0x25, 0x28, 0x2A, 0x5A, 0x88, 0x8A, 0x9E};
    fill_randomly(block, count);
    if (count > 0 && !one_in(10)) block[0] = opcodes[random_below(sizeof opcodes)];
}

static uint32_t random_declared(void) {
    switch (random_below(10)) {
    case 0:
    case 1: return 0;
    case 2:
    case 3: return random_below(packet_size + 2);
    case 4: return packet_size * random_below(6);
    case 5: return random_below(1500);
    case 6: return one_in(4) ? (uint32_t)random_word() : random_below(5000);
    default: return random_below(6 * packet_size);
    }
}

static void write_wrapper(struct message *m) {
    memcpy(m->bytes, "USBC", 4);
    put_le32(m->bytes + 4, (uint32_t)random_word());
    put_le32(m->bytes + 8, random_declared());
    m->bytes[12] = (uint8_t)(one_in(2) ? 0x80 : 0);
    m->bytes[13] = (uint8_t)random_below(one_in(4) ? 16 : 2);
    m->bytes[14] = (uint8_t)random_between(1, SOUK_BLOCK_SIZE);
    fill_block(m->bytes + 15, LONGEST_MESSAGE - 15);
    m->length = WRAPPER;
}

static void damage(struct message *m) {
    uint32_t signature_bit = random_below(32);
    switch (random_below(6)) {
    case 0: m->bytes[signature_bit / 8] ^= (uint8_t)BIT(signature_bit % 8); break;
    case 1: m->bytes[14] = one_in(2) ? 0 : (uint8_t)random_between(SOUK_BLOCK_SIZE + 1, 255); break;
    case 2: m->bytes[12] = random_byte(); break;
    case 3: m->bytes[13] = random_byte(); break;
    case 4: m->length = random_between(WRAPPER + 1, LONGEST_MESSAGE); break;
    default: m->length = random_below(WRAPPER); break;
    }
}

static void drop_message(void) {
    message.length = message_at = 0;
}

/* The first message to a device is damaged more often: only before a good one can a command step find an empty block. */
static void new_message(void) {
    bool first = message.length == 0;
    write_wrapper(&message);
    message_at = 0;
    if (one_in(first ? 3 : 10)) damage(&message);
}

/* ---- Polls */

static uint8_t random_endpoint(uint32_t ready_in_ten) {
    if (random_below(10) < ready_in_ten) return SOUK_ENDPOINT_READY;
    return one_in(6) ? (uint8_t)random_between(SOUK_ENDPOINT_BUSY + 1, 255) : SOUK_ENDPOINT_BUSY;
}

static size_t offered[2]; /* how many bytes of the message the two packets have */

/* The next piece of the message, mostly as long as it can be; data if the message is through. */
static void offer_message(enum area a, size_t from) {
    uint32_t rest = (uint32_t)(message.length - from), count = least(rest, packet_size);
    if (one_in(20)) count = random_below(count + 1);
    if (rest > 0) lend_copy(a, message.bytes + from, count);
    else lend_random(a, random_below(packet_size + 1));
    offered[a - ONE] = count;
}

static void offer_command(void) {
    if (message_at == message.length) new_message();
    offer_message(ONE, message_at);
    offer_message(TWO, message_at + offered[0]);
}

static void offer_data(void) {
    uint32_t due = least(packet_size, left());
    lend_random(ONE, one_in(5) ? random_below(packet_size + 1) : due);
    lend_random(TWO, random_below(packet_size + 1));
    offered[0] = offered[1] = 0;
}

/* A packet that no endpoint has, or a packet buffer that is too short. */
static void spoil_poll(void) {
    enum area a = one_in(2) ? PACKET : one_in(2) ? ONE : TWO;
    if (a == PACKET) lend(a, random_below(packet_size));
    else lend_random(a, random_between(packet_size + 1, LONGEST_OFFER));
}

static void choose_poll(void) {
    bool awaits_command = state() == SOUK_COMMAND_TRANSFER || state() == SOUK_STATUS_TRANSFER;
    if (awaits_command) offer_command();
    else offer_data();
    lend(PACKET, one_in(50) ? LONGEST_PACKET : packet_size + random_below(4));
    with.first = random_endpoint(8);
    with.second = random_endpoint(7);
    with.write = random_endpoint(8);
    if (wildly) spoil_poll();
}

static void after_poll(uint64_t word) {
    for (uint32_t i = 0; i < least(souk_taken(word), 2); i++) message_at += offered[i];
    if (souk_answer(word) == SOUK_IO_BUFFER_OVERFLOW && state() == SOUK_COMMAND_TRANSFER) stuck = true;
}

/* ---- The firmware's calls */

static void choose_status(void) {
    uint32_t declared = souk_number(lent(RECORD), SOUK_AT_DECLARED);
    with.status = (uint8_t)random_below(3);
    with.figure = one_in(2) ? declared : random_below(least(declared, USUAL_IO) + 3);
    if (one_in(8)) with.figure = (uint32_t)random_word();
    if (wildly) with.status = random_byte();
}

static uint32_t random_length(void) {
    if (one_in(12)) return 0;
    if (one_in(400)) return random_below(LONGEST_DATA + 1);
    return one_in(6) ? random_below(2 * USUAL_IO) : random_below(4 * packet_size);
}

static void choose_control(void) {
    with.request_type = wildly || one_in(8) ? random_byte() : 0xA1;
    with.request = wildly || one_in(8) ? random_byte() : 0xFE;
    if (one_in(8) || state() == SOUK_COMMAND_TRANSFER_INVALID) with.request = 0xFF;
}

/* A reset broke off the message too. */
static void after_control(void) {
    if (state() == SOUK_COMMAND_TRANSFER) drop_message();
}

static void choose_extended(void) {
    with.extended = wildly ? wild_extended() : random_below(2);
}

static void choose_block(void) {
    uint32_t count = one_in(12) ? random_below(LONGEST_MESSAGE + 1) : random_below(SOUK_BLOCK_SIZE + 1);
    fill_block(lend(SRC, count), count);
    choose_extended();
}

static void choose_message(void) {
    struct message m;
    write_wrapper(&m);
    for (int i = 0; i < 2; i++)
        if (one_in(2)) damage(&m);
    lend_copy(SRC, m.bytes, m.length);
    with.max_lun = wildly ? random_byte() : (uint8_t)random_below(4);
}

/* ---- Events */

/* How often a call is made in each state, as parts of the row. */
static const uint8_t weights[STATES][CALLS] = {
    /* create, poll, status, read, write, all, reset, control, show, step, told, decode, told, verdict */
    {2, 170, 1, 2, 2, 2, 1, 3, 3, 3, 3, 4, 4, 6},     /* command transfer */
    {20, 30, 2, 2, 2, 2, 15, 15, 5, 9, 9, 2, 2, 2},   /* invalid */
    {1, 50, 30, 2, 2, 2, 1, 1, 10, 10, 10, 1, 1, 1},  /* no data */
    {1, 130, 3, 2, 2, 2, 1, 1, 3, 3, 3, 1, 1, 1},     /* status transfer */
    {1, 120, 8, 2, 60, 30, 1, 1, 4, 8, 8, 1, 1, 1},   /* to host */
    {1, 40, 50, 2, 2, 2, 1, 2, 6, 10, 10, 1, 1, 1},   /* status awaited */
    {1, 130, 3, 2, 2, 2, 1, 1, 3, 3, 3, 1, 1, 1},     /* to host, ending */
    {1, 120, 8, 60, 2, 2, 1, 1, 4, 8, 8, 1, 1, 1},    /* from host */
    {1, 130, 3, 2, 2, 2, 1, 1, 3, 3, 3, 1, 1, 1},     /* from host, ending */
};

static enum call weighted_call(const uint8_t *row) {
    uint32_t all = 0;
    for (enum call which = 0; which < CALLS; which++) all += row[which];
    uint32_t at = random_below(all);
    for (enum call which = 0; which < VERDICT; which++) {
        if (at < row[which]) return which;
        at -= row[which];
    }
    return VERDICT;
}

static enum call choose_call(void) {
    if (events_to_live == 0 || (stuck && one_in(3))) return CREATE;
    if (wildly || spoiled || state() >= STATES) return (enum call)random_below(CALLS);
    return weighted_call(weights[state()]);
}

static void choose_arguments(enum call which) {
    switch (which) {
    case CREATE: choose_creation(); break;
    case POLL: choose_poll(); break;
    case SET_STATUS: choose_status(); break;
    case READ_DATA: lend(DST, random_length()); break;
    case WRITE_DATA:
    case TRY_WRITE_DATA_ALL: lend_random(SRC, random_length()); break;
    case RESET: break;
    case CONTROL: choose_control(); break;
    case SHOW_COMMAND: lend(BLOCK, SOUK_BLOCK_SIZE); break;
    case COMMAND_STEP: lend_command(SOUK_COMMAND_NUMBERS); break;
    case COMMAND_STEP_TOLD:
        choose_extended();
        lend_command(SOUK_COMMAND_NUMBERS);
        break;
    case DECODE:
    case DECODE_TOLD:
        choose_block();
        lend_command(SOUK_COMMAND_NUMBERS);
        break;
    case VERDICT: choose_message(); break;
    case CALLS: break;
    }
}

/* Lends one thing too short or too long. What stands beside it is then kept too. Record and io have a byte behind them that
   is lent only here. */
static void choose_a_wrong_length(void) {
    switch (random_below(4)) {
    case 0: length[RECORD] = one_in(4) ? 0 : one_in(2) ? SOUK_RECORD_SIZE - 1 : SOUK_RECORD_SIZE + 1; break;
    case 1: length[IO] = one_in(4) ? 0 : one_in(2) ? io_size - 1 : io_size + 1; break;
    case 2: lend(BLOCK, random_below(SOUK_BLOCK_SIZE + 2)); break;
    default: lend_command(random_below(SOUK_COMMAND_NUMBERS + 2)); break;
    }
}

static void right_lengths(void) {
    length[RECORD] = SOUK_RECORD_SIZE;
    length[IO] = io_size;
}

/* A stray pointer writes into the record. A few events later the firmware makes a new device. */
static void spoil_record(void) {
    for (uint32_t n = random_between(1, 3); n > 0; n--) {
        uint32_t at = random_below(SOUK_RECORD_SIZE);
        lent(RECORD)[at] = (uint8_t)random_below(one_in(2) ? 256 : 18);
    }
    spoiled = true;
    events_to_live = least(events_to_live, random_between(1, 8));
}

/* No call leaves a device in this state, yet it is a state of a record. */
static void put_into_no_data(void) {
    if (state() == SOUK_STATUS_AWAITED) lent(RECORD)[SOUK_AT_STATE] = SOUK_NO_DATA;
}

static void after_creation(uint64_t word) {
    if (souk_answer(word) != SOUK_DONE) return;
    packet_size = with.packet_size;
    io_size = with.size;
    lend(IO, io_size + 1);
    right_lengths();
    events_to_live = random_between(20, 400);
    drop_message();
    spoiled = stuck = false;
    device_number++;
}

static uint32_t given[CALLS][ANSWERS], seen[STATES];

static void tally(enum call which, unsigned found, uint64_t word) {
    given[which][souk_answer(word)]++;
    if (!spoiled && found < STATES) seen[found]++;
}

/* What the host and the firmware make of it. */
static void after(enum call which, uint64_t word) {
    if (which == POLL) after_poll(word);
    else if (which == CREATE) after_creation(word);
    else if (which == RESET || which == CONTROL) after_control();
}

static void make_event(void) {
    wildly = one_in(40);
    if (events_to_live > 0 && one_in(400)) spoil_record();
    if (one_in(8)) put_into_no_data();
    unsigned found = state();
    enum call which = choose_call();
    choose_arguments(which);
    if (wildly && one_in(2)) choose_a_wrong_length();
    uint64_t word = call(which);
    tally(which, found, word);
    add_event(which, word);
    right_lengths();
    if (events_to_live > 0) events_to_live--;
    after(which, word);
}

/* ---- What was reached */

static void print_counts(const char *name, const uint32_t *counts, size_t kinds) {
    printf("%s", name);
    for (size_t i = 0; i < kinds; i++)
        if (counts[i] > 0) printf(" %u:%u", (unsigned)i, (unsigned)counts[i]);
}

static void print_reached(void) {
    for (enum call which = 0; which < CALLS; which++) {
        print_counts(calls[which].name, given[which], ANSWERS);
        printf("; ");
    }
    print_counts("states", seen, STATES);
    printf("\n");
}

static void print_stack(void) {
#ifdef STACK_WATCH
    for (enum call which = 0; which < CALLS; which++) printf("%s %u\n", calls[which].name, (unsigned)most_stack[which]);
#endif
}

int main(void) {
    make_area(RECORD, SOUK_RECORD_SIZE + 1);
    make_area(IO, SOUK_IO_LARGEST + 1);
    make_area(PACKET, LONGEST_PACKET);
    make_area(DST, LONGEST_DATA);
    make_area(BLOCK, SOUK_BLOCK_SIZE + 1);
    make_area(COMMAND, (SOUK_COMMAND_NUMBERS + 1) * sizeof(uint64_t));
    make_area(SRC, LONGEST_DATA);
    make_area(ONE, LONGEST_OFFER);
    make_area(TWO, LONGEST_OFFER);
    lend(RECORD, SOUK_RECORD_SIZE + 1);
    right_lengths();
    for (event_number = 1; event_number <= EVENTS; event_number++) {
        make_event();
        if (event_number % EVENTS_PER_LINE == 0) printf("%u %016llx\n", event_number, (unsigned long long)sum);
    }
    print_reached();
    print_stack();
    return 0;
}
