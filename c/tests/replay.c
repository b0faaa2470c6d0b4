/* Bench files through the exported calls: the program prints the lines of ./bench for each file, so that they can be compared
   with those of judge/vectors on any machine. What a line cannot show is tested after every call (lending.h), and a breach
   ends the program.
   Files come on standard input: 4 bytes with the length, then the file, again and again. A line '==' comes before the lines of
   each file. A length above 65,537, or an input that ends within a file, counts as the end. */
#include "lending.h"

enum { LONGEST = 65536, TRAILER = 12, HEAD = 3 }; /* the head of an event: kind, length */
enum { LONGEST_OFFER = 255, REFUSED_FILE = 14 };
enum { SPARE = 3 }; /* bytes that a packet may have above P */

static uint8_t file[LONGEST + 1];
static size_t file_length;
static unsigned file_number, event_number;

static void print_where(void) {
    printf("file %u, event %u", file_number, event_number);
}

/* ---- Reading */

static bool read_bytes(uint8_t *bytes, size_t count) {
    for (size_t i = 0; i < count; i++) {
        int byte = getchar();
        if (byte < 0) return false;
        bytes[i] = (uint8_t)byte;
    }
    return true;
}

static uint32_t le16(const uint8_t *at) {
    return (uint32_t)at[0] | (uint32_t)at[1] << 8;
}

static uint32_t le32(const uint8_t *at) {
    return le16(at) | le16(at + 2) << 16;
}

static bool read_file(void) {
    uint8_t head[4];
    if (!read_bytes(head, sizeof head) || le32(head) > sizeof file) return false;
    file_length = le32(head);
    return read_bytes(file, file_length);
}

/* ---- Events */

enum kind {
    KIND_CREATE,
    KIND_POLL,
    KIND_STATUS,
    KIND_WRITE_DATA,
    KIND_TRY_WRITE_DATA_ALL,
    KIND_READ_DATA,
    KIND_RESET,
    KIND_CONTROL,
    KIND_COMMAND_STEP
};

struct event {
    uint8_t kind;
    uint32_t count;
    const uint8_t *body;
};

static size_t events_end(void) {
    return file_length - TRAILER;
}

/* The event at this offset; false if none is there as a whole. */
static bool event_at(size_t at, struct event *e) {
    if (events_end() - at < HEAD) return false;
    e->kind = file[at];
    e->count = le16(file + at + 1);
    e->body = file + at + HEAD;
    return events_end() - at - HEAD >= e->count;
}

/* The body of a poll: the answers of IN and of two OUT reads, the lengths of two packets, the packets. */
enum { AT_WRITE, AT_FIRST, AT_SECOND, AT_ONE, AT_TWO, AT_PACKETS };

static bool is_good_poll(const struct event *e) {
    const uint8_t *b = e->body;
    if (e->count < AT_PACKETS || e->count != AT_PACKETS + (uint32_t)b[AT_ONE] + b[AT_TWO]) return false;
    return (b[AT_ONE] == 0 || b[AT_FIRST] == SOUK_ENDPOINT_READY) && (b[AT_TWO] == 0 || b[AT_SECOND] == SOUK_ENDPOINT_READY);
}

static bool is_good_event(const struct event *e) {
    switch (e->kind) {
    case KIND_CREATE: return e->count == 7;
    case KIND_POLL: return is_good_poll(e);
    case KIND_STATUS: return e->count == 5 && e->body[0] <= SOUK_PHASE_ERROR;
    case KIND_WRITE_DATA:
    case KIND_TRY_WRITE_DATA_ALL: return true;
    case KIND_READ_DATA:
    case KIND_CONTROL: return e->count == 2;
    case KIND_RESET: return e->count == 0;
    case KIND_COMMAND_STEP: return e->count == 0 || (e->count == 1 && e->body[0] <= 1);
    default: return false;
    }
}

/* The whole file is judged before its first event is played. */
static bool is_good_file(void) {
    struct event e;
    size_t last = 0, at = 0;
    uint32_t count = 0;
    if (file_length > LONGEST || file_length < TRAILER) return false;
    for (; at < events_end(); at += HEAD + e.count) {
        if (!event_at(at, &e) || !is_good_event(&e)) return false;
        if ((e.kind == KIND_CREATE) != (at == 0)) return false;
        last = at;
        count++;
    }
    const uint8_t *trailer = file + events_end();
    return le32(trailer) == count && le32(trailer + 4) == last && memcmp(trailer + 8, "BOT1", 4) == 0;
}

/* ---- Lines */

/* What a line shows of an event, beside the record. */
struct line {
    uint32_t answer, count, stalls;
    const uint8_t *bytes;
    size_t shown;
    uint32_t missing;
};

static void print_hex(const uint8_t *bytes, size_t count) {
    static const char digits[] = "0123456789abcdef";
    char text[2 * 64 + 1];
    for (size_t i = 0; i < count;) {
        size_t n = 0;
        for (; n < sizeof text - 1 && i < count; i++) {
            text[n++] = digits[bytes[i] >> 4];
            text[n++] = digits[bytes[i] & 15];
        }
        text[n] = 0;
        printf("%s", text);
    }
}

static void print_line(const struct line *l) {
    static const char *const stalls[] = {"-", "S", "U", "US"};
    const uint8_t *record = lent(RECORD);
    uint32_t unread = souk_number(record, SOUK_AT_WRITE_MARK) - souk_number(record, SOUK_AT_READ_MARK);
    printf("%u %u %u %u %u %u %s ", event_number, (unsigned)l->answer, record[SOUK_AT_STATE],
           (unsigned)souk_number(record, SOUK_AT_LEFT), (unsigned)unread, (unsigned)l->count, stalls[l->stalls]);
    if (l->shown == 0) printf("-");
    print_hex(l->bytes, l->shown);
    printf(" %u\n", (unsigned)l->missing);
}

/* ---- Playing */

static struct line play_poll(const uint8_t *body) {
    static const uint8_t nothing_of_this[] = "busy"; /* lent with an endpoint that is not ready: it hands over nothing */
    const uint8_t *one = body + AT_PACKETS, *two = one + body[AT_ONE];
    with.write = body[AT_WRITE];
    with.first = body[AT_FIRST];
    with.second = body[AT_SECOND];
    if (with.first == SOUK_ENDPOINT_READY) lend_copy(ONE, one, body[AT_ONE]);
    else lend_copy(ONE, nothing_of_this, sizeof nothing_of_this);
    if (with.second == SOUK_ENDPOINT_READY) lend_copy(TWO, two, body[AT_TWO]);
    else lend_copy(TWO, nothing_of_this, sizeof nothing_of_this);
    const uint8_t *packet = lend(PACKET, lent(RECORD)[SOUK_AT_PACKET_SIZE] + event_number % (SPARE + 1));
    uint64_t word = call(POLL);
    bool failed = souk_answer(word) == SOUK_ENDPOINT_FAILED;
    require(failed ? souk_carried(word) > SOUK_ENDPOINT_BUSY : souk_carried(word) == 0, POLL, "the endpoint's error",
            "and the answer do not agree");
    return (struct line){souk_answer(word), souk_taken(word), souk_stalls(word), packet, souk_count(word), souk_missing(word)};
}

static struct line play_status(const uint8_t *body) {
    with.status = body[0];
    with.figure = le32(body + 1);
    return (struct line){.answer = souk_answer(call(SET_STATUS))};
}

static struct line play_write(enum call which, const struct event *e) {
    lend_copy(SRC, e->body, e->count);
    uint64_t word = call(which);
    return (struct line){.answer = souk_answer(word), .count = souk_count(word), .missing = souk_missing(word)};
}

static struct line play_read(const uint8_t *body) {
    const uint8_t *dst = lend(DST, le16(body));
    uint64_t word = call(READ_DATA);
    return (struct line){.answer = souk_answer(word), .count = souk_count(word), .bytes = dst, .shown = souk_count(word)};
}

static struct line play_reset(void) {
    uint64_t word = call(RESET);
    return (struct line){.answer = souk_answer(word), .stalls = souk_stalls(word)};
}

static struct line play_control(const uint8_t *body) {
    static uint8_t byte;
    with.request_type = body[0];
    with.request = body[1];
    uint64_t word = call(CONTROL);
    byte = (uint8_t)souk_count(word);
    return (struct line){.answer = souk_answer(word), .stalls = souk_stalls(word), .bytes = &byte, .shown = souk_flag(word)};
}

/* No line shows what a step decoded: it has to be what the block is alone, told the same. */
static void require_decoded(const uint8_t *block, size_t count) {
    uint64_t offered[SOUK_COMMAND_NUMBERS];
    memcpy(offered, lent(COMMAND), sizeof offered);
    lend_copy(SRC, block, count);
    lend_command(SOUK_COMMAND_NUMBERS);
    require(call(DECODE_TOLD) == SOUK_DONE && memcmp(offered, lent(COMMAND), sizeof offered) == 0, DECODE_TOLD, "the block",
            "is decoded to another command than the one offered");
}

/* The line shows the LUN and the block. The step decodes the block and does not hand it out; another call shows it. A step
   without a byte has extended addressing off. */
static struct line play_command_step(const struct event *e) {
    static uint8_t shown[1 + SOUK_BLOCK_SIZE];
    with.extended = e->count == 0 ? 0 : e->body[0];
    lend_command(SOUK_COMMAND_NUMBERS);
    uint64_t word = call(COMMAND_STEP_TOLD);
    if (!souk_flag(word)) return (struct line){.answer = souk_answer(word)};
    const uint8_t *block = lend(BLOCK, SOUK_BLOCK_SIZE);
    uint64_t second = call(SHOW_COMMAND);
    require(souk_answer(second) == SOUK_DONE && souk_flag(second), SHOW_COMMAND, "the command", "is offered and not shown");
    require(souk_lun(second) == souk_lun(word), SHOW_COMMAND, "the LUN", "is another than the one offered");
    require(souk_count(second) <= SOUK_BLOCK_SIZE, SHOW_COMMAND, "the block", "is longer than any");
    shown[0] = souk_lun(word);
    memcpy(shown + 1, block, souk_count(second));
    require_decoded(block, souk_count(second));
    return (struct line){.answer = souk_answer(word), .bytes = shown, .shown = 1 + souk_count(second)};
}

/* Any event but the first. */
static struct line play(const struct event *e) {
    switch (e->kind) {
    case KIND_POLL: return play_poll(e->body);
    case KIND_STATUS: return play_status(e->body);
    case KIND_WRITE_DATA: return play_write(WRITE_DATA, e);
    case KIND_TRY_WRITE_DATA_ALL: return play_write(TRY_WRITE_DATA_ALL, e);
    case KIND_READ_DATA: return play_read(e->body);
    case KIND_RESET: return play_reset();
    case KIND_CONTROL: return play_control(e->body);
    default: return play_command_step(e);
    }
}

/* False: there is no device, and the run ends. */
static bool play_creation(const uint8_t *body) {
    lend(RECORD, SOUK_RECORD_SIZE);
    with.packet_size = le16(body);
    with.max_lun = body[2];
    with.size = le32(body + 3);
    uint32_t answer = souk_answer(call(CREATE));
    if (answer != SOUK_DONE) {
        printf("0 %u 0 0 0 0 - - 0\n", (unsigned)answer);
        return false;
    }
    require(with.size <= SOUK_IO_LARGEST && with.packet_size <= SOUK_PACKET_LARGEST, CREATE, "the device",
            "is larger than any");
    lend(IO, with.size);
    print_line(&(struct line){.answer = answer});
    return true;
}

static void play_file(void) {
    struct event e;
    event_number = 0;
    if (!event_at(0, &e) || !play_creation(e.body)) return;
    for (size_t at = HEAD + e.count; event_at(at, &e); at += HEAD + e.count) {
        event_number++;
        struct line l = play(&e);
        require(l.stalls <= SOUK_STALLS_CLEAR_THEN_SET, POLL, "the stalls", "are no such number");
        print_line(&l);
    }
}

int main(void) {
    make_area(RECORD, SOUK_RECORD_SIZE);
    make_area(IO, SOUK_IO_LARGEST);
    make_area(PACKET, SOUK_PACKET_LARGEST + SPARE);
    make_area(DST, LONGEST);
    make_area(BLOCK, SOUK_BLOCK_SIZE);
    make_area(COMMAND, SOUK_COMMAND_NUMBERS * sizeof(uint64_t));
    make_area(SRC, LONGEST);
    make_area(ONE, LONGEST_OFFER);
    make_area(TWO, LONGEST_OFFER);
    for (; read_file(); file_number++) {
        printf("==\n");
        if (is_good_file()) play_file();
        else printf("%u\n", REFUSED_FILE);
    }
    return 0;
}
