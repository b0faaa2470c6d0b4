/* Gives each line of standard input to one of the proved codecs and prints what it answered, in the words of judge/oracle/run.
       decode, decode-told-off, decode-told-on     a block in hex; decode calls the plain entry, the others the one that is told
       parse                                       a message in hex
       status                                      tag, length, figure and status byte, decimal
       verdict                                     max LUN in decimal and a message in hex; prints the verdict's number
   The mode 'refusals' reads nothing: every refusal has to give its number and to leave all that was lent as it was.
   The kit has no C headers, so the few names used are declared here. */
typedef __UINT8_TYPE__ uint8_t;
typedef __UINT32_TYPE__ uint32_t;
typedef __UINT64_TYPE__ uint64_t;
typedef __SIZE_TYPE__ size_t;
int getchar(void);
int putchar(int);
int puts(const char *);
int printf(const char *, ...);
void *memset(void *, int, size_t);
int strcmp(const char *, const char *);
_Noreturn void exit(int);

/* crates/leafhost: a slice is a pointer and then a length */
uint32_t scsi_decode(const uint8_t *block, size_t block_len, uint64_t *command, size_t command_len);
uint32_t scsi_decode_told(const uint8_t *block, size_t block_len, uint32_t extended, uint64_t *command, size_t command_len);
uint32_t wrapper_parse(const uint8_t *message, size_t message_len, uint32_t *fields, size_t fields_len, uint8_t *block,
                       size_t block_len);
uint32_t wrapper_status(uint32_t tag, uint32_t length, uint32_t figure, uint8_t byte, uint8_t *out, size_t out_len);
uint32_t wrapper_verdict(const uint8_t *message, size_t message_len, uint8_t max_lun);

enum { COMMAND = 6, FIELDS = 5, BLOCK = 16, STATUS = 13, WRAPPER = 31 };
enum { MOST = 1024 };

static char line[2 * MOST];
static const char *at; /* the part of the line that is not read yet */
static uint8_t bytes[MOST];

static void require(int ok, const char *what) {
    if (!ok) {
        puts(what);
        exit(1);
    }
}

/* The next line, without its end; 0 if there is none. */
static int next_line(void) {
    size_t n = 0;
    int c;
    while ((c = getchar()) >= 0 && c != '\n') {
        require(n + 1 < sizeof line, "a line is longer than this program's room");
        line[n++] = (char)c;
    }
    line[n] = 0;
    at = line;
    return c >= 0 || n > 0;
}

static int digit(char c) {
    if (c >= '0' && c <= '9') return c - '0';
    require(c >= 'a' && c <= 'f', "not a hex digit");
    return c - 'a' + 10;
}

/* The rest of the line, into bytes. */
static size_t hex(void) {
    size_t n = 0;
    for (; *at; at += 2) bytes[n++] = (uint8_t)(digit(at[0]) << 4 | digit(at[1]));
    return n;
}

/* A decimal number, and the space or the end after it. */
static uint32_t number(uint32_t most) {
    uint64_t n = 0;
    require(*at != 0 && *at != ' ', "a number is missing");
    for (; *at != 0 && *at != ' '; at++) {
        require(*at >= '0' && *at <= '9', "not a decimal digit");
        n = 10 * n + (uint64_t)(*at - '0');
        require(n <= most, "a number is too large");
    }
    if (*at == ' ') at++;
    return (uint32_t)n;
}

static void print_hex(const uint8_t *s, size_t n) {
    static const char digits[] = "0123456789abcdef";
    for (size_t i = 0; i < n; i++) {
        putchar(digits[s[i] >> 4]);
        putchar(digits[s[i] & 15]);
    }
    putchar('\n');
}

/* By kind: the name of the command and the names of its fields. A number without a name has to be 0. */
static const char *const words[][COMMAND] = {
    {"Unknown", "opcode"},
    {"Inquiry", "evpd", "page", "allocation"},
    {"TestUnitReady"},
    {"RequestSense", "desc", "allocation"},
    {"ModeSense6", "dbd", "control", "page", "subpage", "allocation"},
    {"ModeSense10", "dbd", "control", "page", "subpage", "allocation"},
    {"ReadCapacity10"},
    {"ReadCapacity16", "allocation"},
    {"Read", "address", "blocks"},
    {"Write", "address", "blocks"},
    {"ReadFormatCapacities", "allocation"},
};

/* What is lent to the codecs for their results, each with room for one more. All of it is 0xEE before a call. */
static struct {
    uint64_t command[COMMAND + 1];
    uint32_t fields[FIELDS + 1];
    uint8_t block[BLOCK + 1], out[STATUS + 1];
} lent;

static void lend(void) { memset(&lent, 0xEE, sizeof lent); }

static void require_kept(const char *what) {
    for (size_t i = 0; i < sizeof lent; i++) {
        if (((const uint8_t *)&lent)[i] != 0xEE) {
            printf("%s: a refusal changed what was lent\n", what);
            exit(1);
        }
    }
}

static void print_refusal(uint32_t answer) {
    require_kept(line);
    printf("%u\n", answer);
}

static void print_command(uint32_t answer) {
    const uint64_t *command = lent.command;
    if (answer != 0) {
        print_refusal(answer);
        return;
    }
    require(command[0] < sizeof words / sizeof words[0], "there is no such kind of command");
    const char *const *word = words[command[0]];
    printf("%s", word[0]);
    for (size_t i = 1; i < COMMAND; i++) {
        if (word[i])
            printf(" %s %lu", word[i], command[i]);
        else if (command[i] != 0)
            printf(" unused %lu", command[i]);
    }
    putchar('\n');
}

static void decode(void) { print_command(scsi_decode(bytes, hex(), lent.command, COMMAND)); }
static void decode_told_off(void) { print_command(scsi_decode_told(bytes, hex(), 0, lent.command, COMMAND)); }
static void decode_told_on(void) { print_command(scsi_decode_told(bytes, hex(), 1, lent.command, COMMAND)); }

static void parse(void) {
    static const char *const directions[] = {"none", "in", "out"};
    const uint32_t *fields = lent.fields;
    uint32_t answer = wrapper_parse(bytes, hex(), lent.fields, FIELDS, lent.block, BLOCK);
    if (answer == 0) {
        require_kept(line);
        puts("invalid");
        return;
    }
    require(answer == 1, "there is no such answer to a message");
    require(fields[2] < 3, "there is no such direction");
    printf("tag %u length %u direction %s ", fields[0], fields[1], directions[fields[2]]);
    printf("lun %u block %u ", fields[3], fields[4]);
    print_hex(lent.block, BLOCK);
}

static void status(void) {
    uint32_t tag = number(0xFFFFFFFF), length = number(0xFFFFFFFF), figure = number(0xFFFFFFFF);
    uint8_t byte = (uint8_t)number(255);
    uint32_t answer = wrapper_status(tag, length, figure, byte, lent.out, STATUS);
    if (answer == 0)
        print_hex(lent.out, STATUS);
    else
        print_refusal(answer);
}

static void verdict(void) {
    uint8_t max_lun = (uint8_t)number(255);
    printf("%u\n", wrapper_verdict(bytes, hex(), max_lun));
}

static unsigned refused;

static void refusal(const char *what, uint32_t answer, uint32_t due) {
    if (answer != due) {
        printf("%s: the answer is %u and should be %u\n", what, answer, due);
        exit(1);
    }
    require_kept(what);
    refused++;
}

static void refuses_message(const char *what, const uint8_t *message, size_t n) {
    refusal(what, wrapper_parse(message, n, lent.fields, FIELDS, lent.block, BLOCK), 0);
}

/* Three wrong lengths. */
static size_t wrong(size_t right, size_t which) { return (size_t[]){0, right - 1, right + 1}[which]; }

static void refusals(void) {
    static const uint8_t inquiry[] = {0x12, 1, 0x80, 0, 0xFF};
    static const uint8_t wrapper[WRAPPER + 1] = {'U', 'S', 'B', 'C', [14] = 6};
    static const uint8_t other_signature[WRAPPER] = {'U', 'S', 'B', 'S', [14] = 6};
    static const uint8_t block_length_0[WRAPPER] = {'U', 'S', 'B', 'C', [14] = 0};
    static const uint8_t block_length_17[WRAPPER] = {'U', 'S', 'B', 'C', [14] = 17};
    uint32_t answer;
    lend();

    for (size_t i = 0; i < 3; i++) {
        answer = scsi_decode(inquiry, 5, lent.command, wrong(COMMAND, i));
        refusal("decode, wrong length of the command", answer, 10);
        answer = scsi_decode_told(inquiry, 5, 0, lent.command, wrong(COMMAND, i));
        refusal("told off, wrong length of the command", answer, 10);
        answer = scsi_decode_told(inquiry, 5, 1, lent.command, wrong(COMMAND, i));
        refusal("told on, wrong length of the command", answer, 10);
        answer = wrapper_parse(wrapper, WRAPPER, lent.fields, wrong(FIELDS, i), lent.block, BLOCK);
        refusal("parse, wrong length of the fields", answer, 10);
        answer = wrapper_parse(wrapper, WRAPPER, lent.fields, FIELDS, lent.block, wrong(BLOCK, i));
        refusal("parse, wrong length of the block", answer, 10);
        answer = wrapper_status(1, 512, 500, 0, lent.out, wrong(STATUS, i));
        refusal("status, wrong length", answer, 10);
        refuses_message("parse, wrong length of the message", wrapper, wrong(WRAPPER, i));
        refusal("verdict, wrong length of the message", wrapper_verdict(wrapper, wrong(WRAPPER, i), 15), 0);
    }
    refusal("decode, empty block", scsi_decode(inquiry, 0, lent.command, COMMAND), 13);
    refusal("told off, empty block", scsi_decode_told(inquiry, 0, 0, lent.command, COMMAND), 13);
    refusal("told on, empty block", scsi_decode_told(inquiry, 0, 1, lent.command, COMMAND), 13);
    refusal("told 2", scsi_decode_told(inquiry, 5, 2, lent.command, COMMAND), 10);
    refusal("told 2^32 - 1", scsi_decode_told(inquiry, 5, 0xFFFFFFFF, lent.command, COMMAND), 10);
    refuses_message("parse, another signature", other_signature, WRAPPER);
    refusal("verdict, another signature", wrapper_verdict(other_signature, WRAPPER, 15), 0);
    refuses_message("parse, block length 0", block_length_0, WRAPPER);
    refuses_message("parse, block length 17", block_length_17, WRAPPER);
    refusal("status byte 3", wrapper_status(1, 512, 500, 3, lent.out, STATUS), 12);
    refusal("status byte 255", wrapper_status(1, 512, 500, 255, lent.out, STATUS), 12);
    printf("%u refusals as they should be\n", refused);
}

int main(int argc, char **argv) {
    static const struct {
        const char *name;
        void (*of_line)(void);
    } modes[] = {
        {"decode", decode}, {"decode-told-off", decode_told_off}, {"decode-told-on", decode_told_on},
        {"parse", parse},   {"status", status},                   {"verdict", verdict},
    };
    require(argc == 2, "one argument: the mode");
    if (strcmp(argv[1], "refusals") == 0) {
        refusals();
        return 0;
    }
    for (size_t i = 0; i < sizeof modes / sizeof modes[0]; i++) {
        if (strcmp(argv[1], modes[i].name) == 0) {
            while (next_line()) {
                lend();
                modes[i].of_line();
            }
            return 0;
        }
    }
    puts("there is no such mode");
    return 1;
}
