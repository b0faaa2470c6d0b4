/* For programs on the RISC-V board: standard input and output are the emulator's, as newlib has them on a Cortex-M. By itself picolibc
   goes through a console, from which files of any bytes do not come whole. */
#include <semihost.h>
#include <stdio.h>

enum { ROOM = 512 };

static char coming[ROOM], going[ROOM];
static size_t got, taken, put;

/* The emulator's name for both. */
static int terminal(int mode) {
    return (int)sys_semihost_open(":tt", mode);
}

static int send(FILE *stream) {
    static int handle = -1;
    (void)stream;
    if (handle < 0) handle = terminal(SH_OPEN_W);
    size_t left = sys_semihost_write(handle, going, put);
    put = 0;
    return left == 0 ? 0 : EOF;
}

static int put_character(char c, FILE *stream) {
    going[put++] = c;
    return put == ROOM || c == '\n' ? send(stream) : 0;
}

static int get_character(FILE *stream) {
    static int handle = -1;
    (void)stream;
    if (handle < 0) handle = terminal(SH_OPEN_R);
    if (taken == got) {
        got = ROOM - sys_semihost_read(handle, coming, ROOM);
        taken = 0;
    }
    return taken < got ? (unsigned char)coming[taken++] : EOF;
}

static FILE console = FDEV_SETUP_STREAM(put_character, get_character, send, _FDEV_SETUP_RW);

FILE *const stdin = &console;
FILE *const stdout = &console;
FILE *const stderr = &console;
