/* Replays buffer operations on the proved buffer and prints what each left.
   Standard input: the operations that judge/oracle/buffer-ops writes. Standard output: a line for each,
       op answer count read write CONTENT [DESTINATION]
   with the bytes missing in the place of the count where the answer is 1,
   as judge/oracle/buffer-ops writes it for buffer.rs. Before that, every call is given broken marks, which buffer.rs cannot be
   given: each call has to answer 10 and to leave everything as it was.
   The kit has no C headers, so the few names used are declared here. */
typedef __UINT8_TYPE__ uint8_t;
typedef __UINT32_TYPE__ uint32_t;
typedef __SIZE_TYPE__ size_t;
int getchar(void);
int putchar(int);
int printf(const char *, ...);
void *memset(void *, int, size_t);
int memcmp(const void *, const void *, size_t);
_Noreturn void exit(int);

/* crates/leafhost: a slice is a pointer and then a length; marks are read mark, write mark, and count or, with answer 1, bytes missing */
uint32_t buffer_available(const uint8_t *io, size_t io_len, size_t *marks, size_t marks_len);
uint32_t buffer_clean(const uint8_t *io, size_t io_len, size_t *marks, size_t marks_len);
uint32_t buffer_shift(uint8_t *io, size_t io_len, size_t *marks, size_t marks_len);
uint32_t buffer_write(uint8_t *io, size_t io_len, size_t *marks, size_t marks_len, const uint8_t *src, size_t src_len);
uint32_t buffer_write_all(uint8_t *io, size_t io_len, size_t *marks, size_t marks_len, size_t want, const uint8_t *src,
                          size_t src_len);
uint32_t buffer_fill_up_to(uint8_t *io, size_t io_len, size_t *marks, size_t marks_len, uint8_t v, size_t n);
uint32_t buffer_read(const uint8_t *io, size_t io_len, size_t *marks, size_t marks_len, uint8_t *dst, size_t dst_len);

enum { NEW, WRITE, WRITE_ALL, READ, FILL_UP_TO, CLEAN, WRITE_ALL_BUSY, SHIFT };
enum { MOST = 4096 };

static uint8_t io[MOST], bytes[MOST];
static size_t io_len, marks[3];

static void require(int ok, const char *what) {
    if (!ok) {
        printf("%s\n", what);
        exit(1);
    }
}

static void refuses(size_t read, size_t write, size_t marks_len) {
    const uint8_t source[2] = {1, 2};
    uint8_t content[4] = {5, 6, 7, 8}, destination[2] = {9, 9};
    size_t broken[3] = {read, write, 77};
    require(buffer_available(content, 4, broken, marks_len) == 10, "available took broken marks");
    require(buffer_clean(content, 4, broken, marks_len) == 10, "clean took broken marks");
    require(buffer_shift(content, 4, broken, marks_len) == 10, "shift took broken marks");
    require(buffer_write(content, 4, broken, marks_len, source, 2) == 10, "write took broken marks");
    require(buffer_write_all(content, 4, broken, marks_len, 1, source, 2) == 10, "write_all took broken marks");
    require(buffer_fill_up_to(content, 4, broken, marks_len, 255, 2) == 10, "fill_up_to took broken marks");
    require(buffer_read(content, 4, broken, marks_len, destination, 2) == 10, "read took broken marks");
    require(memcmp(content, (uint8_t[]){5, 6, 7, 8}, 4) == 0, "a refusal changed the buffer");
    require(memcmp(destination, (uint8_t[]){9, 9}, 2) == 0, "a refusal changed the destination");
    require(memcmp(broken, (size_t[]){read, write, 77}, sizeof broken) == 0, "a refusal changed the marks");
}

static uint8_t byte(void) {
    int c = getchar();
    require(c >= 0, "the operations end in the middle of one");
    return (uint8_t)c;
}

static size_t number(void) {
    size_t n = byte();
    n |= (size_t)byte() << 8;
    n |= (size_t)byte() << 16;
    return n | (size_t)byte() << 24;
}

static size_t length(void) {
    size_t n = number();
    require(n <= MOST, "an operand is longer than this program's buffers");
    return n;
}

static size_t take(uint8_t *to) {
    size_t n = length();
    for (size_t i = 0; i < n; i++) to[i] = byte();
    return n;
}

static void hex(const uint8_t *s, size_t n) {
    static const char digits[] = "0123456789abcdef";
    putchar(' ');
    if (n == 0) putchar('-');
    for (size_t i = 0; i < n; i++) {
        putchar(digits[s[i] >> 4]);
        putchar(digits[s[i] & 15]);
    }
}

static size_t unread(void) {
    size_t copy[3] = {marks[0], marks[1], 0};
    require(buffer_available(io, io_len, copy, 3) == 0, "available refused sound marks");
    return copy[2];
}

int main(void) {
    refuses(1, 0, 3);
    refuses(0, 5, 3);
    refuses(0, 0, 2);
    for (int op; (op = getchar()) >= 0;) {
        uint32_t answer = 0;
        size_t n = 0;
        marks[2] = 0;
        switch (op) {
        case NEW:
            io_len = take(io);
            marks[0] = marks[1] = 0;
            break;
        case WRITE:
            n = take(bytes);
            answer = buffer_write(io, io_len, marks, 3, bytes, n);
            break;
        case WRITE_ALL: {
            size_t want = number();
            n = take(bytes);
            answer = buffer_write_all(io, io_len, marks, 3, want, bytes, n);
            break;
        }
        case READ:
            n = length();
            memset(bytes, 0xEE, n);
            answer = buffer_read(io, io_len, marks, 3, bytes, n);
            break;
        case FILL_UP_TO: {
            uint8_t value = byte();
            answer = buffer_fill_up_to(io, io_len, marks, 3, value, number());
            break;
        }
        case CLEAN:
            answer = buffer_clean(io, io_len, marks, 3);
            break;
        case WRITE_ALL_BUSY:
            answer = buffer_write_all(io, io_len, marks, 3, number(), bytes, 0);
            break;
        case SHIFT:
            answer = buffer_shift(io, io_len, marks, 3);
            break;
        default:
            require(0, "there is no such operation");
        }
        require(unread() == marks[1] - marks[0], "available is not what the marks say");
        printf("%d %u %zu %zu %zu", op, answer, marks[2], marks[0], marks[1]);
        hex(io, io_len);
        if (op == READ) hex(bytes, n);
        putchar('\n');
    }
    return 0;
}
