/* Souklavanh: the code behind a small USB disk's socket, for firmware in C or C++.
 *
 * It speaks USB Mass Storage Bulk-Only Transport and decodes SCSI commands. It never touches the USB hardware. The firmware
 * asks its endpoints, hands over what they said, and does what the call tells it to do.
 *
 * WHAT THE FIRMWARE KEEPS
 *   record   SOUK_RECORD_SIZE bytes: the device. The firmware may read it (offsets below) but never writes it.
 *   io       SOUK_IO_SMALLEST to SOUK_IO_LARGEST bytes: data on its way. Always lend the same buffer, at its full length. Give
 *            it P + 30 bytes or more: with less, a wrapper that comes in pieces may never fit.
 *   packet   P bytes or more: after a poll, the packet that you must send is here. P is the packet size of the two bulk
 *            endpoints: 8, 16, 32 or 64.
 *
 * NO CALL allocates, blocks, keeps a pointer, or has a precondition on values: any bytes, any lengths and any numbers get an
 * answer. A pointer and the length after it must be true, and what a call may write must not overlap anything else lent to
 * it. A length of 0 is allowed; the call then does not follow the pointer, but the pointer must not be null. Make only one
 * call at a time for one record: make all calls from the main loop, and let interrupt handlers only set flags.
 *
 * A TURN OF THE MAIN LOOP
 *   1. Was there a bus reset? Empty both bulk endpoints, unstall them, and call souk_create again: see A BUS RESET, below. Was
 *      there a control request? Call souk_control.
 *   2. Call souk_command_step. Is a command offered? Put data in with souk_write_data, or take it with souk_read_data. When
 *      the last byte is in, set the status with souk_set_status, in the same turn.
 *   3. Ask the endpoints, then call souk_poll:
 *        OUT  offer up to two packets that have come in: 'one' is the older. Its answer 'first' is 0 if the packet is there
 *             and 1 (busy) if not; 'second' is the same for 'two'. A packet of no bytes is also a packet.
 *        IN   'write' is 0 if the IN endpoint would accept a packet now, and 1 (busy) if not.
 *   4. After the poll, in this order:
 *        souk_stalls(word)  what to do with the stalls of the two bulk endpoints.
 *        souk_taken(word)   0, 1 or 2 packets were taken, 'one' first. Give those buffers back to the hardware. If a packet
 *                           was not taken, offer it again, before any newer one.
 *        souk_count(word)   if this is n > 0, send the first n bytes of 'packet': hand exactly these bytes to the IN
 *                           endpoint, as one packet, before the next poll. If 'write' was not 0, n is 0.
 *      Do all three whatever the answer is: a poll that ends with 4 or 6 may have gone on to another state first.
 *   The answer 6 (busy) is not a fault. Poll again later; the firmware must not undo or repeat anything. The answer 4 means
 *   that the firmware has to write data first. The answer 1 in state 7 means that it has to read data first, at least
 *   souk_missing(word) bytes.
 *
 * A BUS RESET, or a plug that was pulled, breaks off the present command, and the host no longer knows about it. Before the
 * next poll, in this order:
 *   1. Empty both bulk endpoints. A packet that was handed to IN and is not yet fetched must not go out after the reset. OUT
 *      packets that came before the reset must not be offered after it. Not every peripheral does this by itself, and the main
 *      loop may hand over one more packet before it sees the reset. Do this before the host can send again, because a packet
 *      that comes after the reset is its next command: do not drop any of those.
 *   2. Unstall both.
 *   3. Call souk_create, with the same numbers. Do not call souk_reset: it keeps unread bytes in io.
 *   4. Forget the command that the firmware was working on.
 * What was seen when IN kept its packet: 64 bytes of the list went out as the answer to INQUIRY, statuses came one command
 * late, and the disk was gone. What was seen with souk_reset in place of souk_create: the rest of a read stood before every
 * later wrapper, and neither replugging nor further resets brought the disk back.
 *
 * WHAT GOES TO THE HOST is what was put in, then filler FFh up to the length that the host asked for, then the status. So
 *   - only offer commands of exactly 31 bytes. The polls also take longer messages, and then the bytes after the wrapper go
 *     back to the host before the data. With P 32 or 64 a wrapper is one packet: in states 0 and 3 ask souk_verdict about
 *     'one', and if it says SOUK_INVALID offer 31 zeros in its place. Both endpoints are then stalled, as the standard says;
 *   - put in at most L bytes for one command (SOUK_AT_DECLARED): more would go out. souk_put_in counts them: the call after
 *     which it is above L is the one that made the read-out too long;
 *   - put in all that fits before each poll: with less than P left, what is there goes out at once as a short packet, and a
 *     short packet ends the host's read;
 *   - then give the status, with the number of bytes truly put in, souk_put_in, as the figure. The host learns from the
 *     residue where the filler starts. If the figure is too large, filler counts as data.
 *
 * THE STATES (souk_state; arrows are followed within one poll; reset and the request FF lead from every state to 0)
 *
 *    0 command --- invalid wrapper ---> 1 both endpoints stalled
 *       |
 *       +-- L = 0 ------> 2 no data -----------------------------> 5 awaits --- status ---> 3 status --- sent ---> 0
 *       |
 *       +-- to host ----> 4 sends -------- left 0 ---------------> 5
 *       |                    +------------ status --> 6 fills up and sends --- left 0 ---> 3
 *       |
 *       +-- from host --> 7 reads -------- left 0 ---------------> 5
 *                            +------------ status --> 8 reads and drops ------ left 0 ---> 3
 *
 *    call                             makes sense in states
 *    souk_poll                        all
 *    souk_command_step, .._told       2, 4, 5, 7 (in 1 they show an old command or an empty one: do not act on it)
 *    souk_command                     the same
 *    souk_write_data, ..._all         4
 *    souk_read_data                   7
 *    souk_set_status                  2, 4, 5, 7
 *    souk_reset, souk_control         all
 *    souk_decode, .._told, _verdict   need no record
 */
#ifndef SOUKLAVANH_H
#define SOUKLAVANH_H

#include <stddef.h>
#include <stdint.h>

/* Where size_t has 32 bits, each call goes by a symbol that says so. An archive whose lengths have another width lacks these
   symbols, so the linker refuses it. Without them it would link, and take parts of other arguments for lengths. */
#if SIZE_MAX == 0xFFFFFFFF
#define souk_create souk_create_size32
#define souk_poll souk_poll_size32
#define souk_set_status souk_set_status_size32
#define souk_read_data souk_read_data_size32
#define souk_write_data souk_write_data_size32
#define souk_try_write_data_all souk_try_write_data_all_size32
#define souk_reset souk_reset_size32
#define souk_control souk_control_size32
#define souk_command souk_command_size32
#define souk_command_step souk_command_step_size32
#define souk_command_step_told souk_command_step_told_size32
#define souk_decode souk_decode_size32
#define souk_decode_told souk_decode_told_size32
#define souk_verdict souk_verdict_size32
#endif

#ifdef __cplusplus
extern "C" {
#endif

enum {
    SOUK_RECORD_SIZE = 56,
    SOUK_BLOCK_SIZE = 16,     /* a command block as souk_command shows it */
    SOUK_COMMAND_NUMBERS = 6, /* a decoded command: its kind and up to five fields */
    SOUK_IO_SMALLEST = 31,
    SOUK_IO_LARGEST = 65536,
    SOUK_PACKET_LARGEST = 64,
    SOUK_LUN_LARGEST = 15
};

/* The answers. 'As before' means: record, io, packet, dst, block and command hold the same bytes as before the call. */
enum souk_answer {
    SOUK_DONE = 0,
    /* No room: souk_missing says how many bytes of it are missing. From a poll: fewer than P bytes are free for an OUT packet,
       whatever its length; the packet was not taken. The state reached stays; unread bytes may have moved to the front of io
       but are the same.
       In state 7: read at least as many bytes as are missing with souk_read_data, then poll. souk_taken is 1 if the poll took a
       wrapper first, with data behind it in the same packet.
       In state 0: io is too small by as many bytes for a wrapper in such pieces, and later polls answer the same. P + 30 bytes
       are enough for all pieces. If io has these, bytes of a command that was broken off are in the way; create the record
       anew.
       From souk_try_write_data_all: the source does not fit; nothing of it was taken, but unread bytes may have moved to the
       front of io. */
    SOUK_IO_BUFFER_OVERFLOW = 1,
    SOUK_INVALID_MAX_LUN = 2, /* souk_create: max_lun is above 15. There is no device; the record is as before */
    SOUK_INVALID_STATE = 3,   /* read call outside 7, write call outside 4. As before */
    /* A poll in state 4: at least P bytes are left, fewer than P are there, and there is no status. The state reached stays.
       Write data, or set the status if there is no more. */
    SOUK_FULL_PACKET_EXPECTED = 4,
    SOUK_BUFFER_TOO_SMALL = 5, /* souk_create: size is below 31 or below P. There is no device; the record is as before */
    SOUK_WOULD_BLOCK = 6,      /* a poll needed an endpoint that is busy. What was reached stays: poll again */
    SOUK_ENDPOINT_FAILED = 7,  /* a poll needed an endpoint that gave an error: see souk_carried. What was reached stays */
    SOUK_INVALID_PACKET_SIZE = 8, /* souk_create: P is not 8, 16, 32 or 64. There is no device; the record is as before */
    SOUK_BUFFER_TOO_LARGE = 9,    /* souk_create: size is above 65,536. There is no device; the record is as before */
    /* The record is broken: record or io does not have the length that it had at creation, or these calls never leave such
       bytes, so something else wrote into the record. Then only souk_create helps. Also: record, block or command was lent with
       a wrong length, or 'extended' is another number than 0 or 1. As before. */
    SOUK_BROKEN_RECORD = 10,
    SOUK_PACKET_REFUSED = 11, /* a poll: an offered packet is longer than P, or 'packet' has fewer than P bytes. As before */
    SOUK_STATUS_REFUSED = 12, /* souk_set_status: in state 0, 1, 3, 6 or 8, or a status byte above 2. As before */
    SOUK_EMPTY_BLOCK = 13     /* decoding a block of no bytes. Nothing was done */
};

/* What an endpoint said, for 'first', 'second' and 'write'. Any other number is an error whose meaning the firmware chooses; a
   poll that needed this endpoint answers 7 and carries the number. */
enum souk_endpoint {
    SOUK_ENDPOINT_READY = 0,
    SOUK_ENDPOINT_BUSY = 1
};

enum souk_stalls {
    SOUK_STALLS_KEEP = 0,
    SOUK_STALLS_SET = 1,           /* stall both bulk endpoints */
    SOUK_STALLS_CLEAR = 2,         /* unstall both */
    SOUK_STALLS_CLEAR_THEN_SET = 3 /* first unstall both, then stall both */
};

enum souk_state {
    SOUK_COMMAND_TRANSFER = 0,         /* waits for a wrapper */
    SOUK_COMMAND_TRANSFER_INVALID = 1, /* got an invalid one: both endpoints stalled until a reset */
    SOUK_NO_DATA = 2,                  /* passed within a poll, never seen between calls */
    SOUK_STATUS_TRANSFER = 3,
    SOUK_TO_HOST = 4,
    SOUK_STATUS_AWAITED = 5, /* all data is through, or there is none: set the status */
    SOUK_TO_HOST_ENDING = 6,
    SOUK_FROM_HOST = 7,
    SOUK_FROM_HOST_ENDING = 8
};

enum souk_status {
    SOUK_PASSED = 0,
    SOUK_FAILED = 1,     /* the host will ask why, with REQUEST SENSE */
    SOUK_PHASE_ERROR = 2 /* the host will reset the device */
};

enum souk_verdict {
    SOUK_INVALID = 0,    /* not 31 bytes, or not the signature */
    SOUK_VALID_ONLY = 1, /* a unit above max_lun, a block length other than 1 to 16, or a reserved bit is set */
    SOUK_MEANINGFUL = 2
};

enum souk_direction {
    SOUK_DIRECTION_NO_DATA = 0,
    SOUK_DIRECTION_TO_HOST = 1,
    SOUK_DIRECTION_FROM_HOST = 2
};

/* command[0]; each comment says what stands in command[1], [2] and so on. Numbers without a meaning are 0. The block address of
   READ (16) and WRITE (16) has 64 bits, and their number of blocks has 32. Compare both with the disk's size as they are,
   before you add, multiply or cut them. */
enum souk_kind {
    SOUK_UNKNOWN = 0,                /* opcode */
    SOUK_INQUIRY = 1,                /* EVPD, page, allocation length */
    SOUK_TEST_UNIT_READY = 2,        /* - */
    SOUK_REQUEST_SENSE = 3,          /* DESC, allocation length */
    SOUK_MODE_SENSE_6 = 4,           /* DBD, page control, page, subpage, allocation length */
    SOUK_MODE_SENSE_10 = 5,          /* the same */
    SOUK_READ_CAPACITY_10 = 6,       /* - */
    SOUK_READ_CAPACITY_16 = 7,       /* allocation length; the service action is not looked at */
    SOUK_READ = 8,                   /* READ (10) and READ (16): block address, number of blocks */
    SOUK_WRITE = 9,                  /* WRITE (10) and WRITE (16): the same */
    SOUK_READ_FORMAT_CAPACITIES = 10 /* allocation length */
};

/* Page control, of MODE SENSE. */
enum souk_page_control {
    SOUK_CURRENT_VALUES = 0,
    SOUK_CHANGEABLE_VALUES = 1,
    SOUK_DEFAULT_VALUES = 2,
    SOUK_SAVED_VALUES = 3
};

/* Where each field stands in the record, for reading. Four-byte numbers are little-endian: souk_number reads them. */
enum souk_record {
    SOUK_AT_PACKET_SIZE = 0,    /* 1 byte */
    SOUK_AT_MAX_LUN = 1,        /* 1 */
    SOUK_AT_STATE = 2,          /* 1: souk_state */
    SOUK_AT_STATUS_PRESENT = 3, /* 1: 0 or 1 */
    SOUK_AT_IO_LENGTH = 4,      /* 4 */
    SOUK_AT_READ_MARK = 8,      /* 4: unread bytes of io start here */
    SOUK_AT_WRITE_MARK = 12,    /* 4: and end here */
    SOUK_AT_LEFT = 16,          /* 4: bytes of this command still to go over the wire */
    SOUK_AT_RESIDUE = 20,       /* 4: as the status reports it; an old value if none is present */
    SOUK_AT_STATUS = 24,        /* 1: souk_status; an old value if none is present */
    SOUK_AT_DIRECTION = 25,     /* 1: souk_direction */
    SOUK_AT_LUN = 26,           /* 1 */
    SOUK_AT_BLOCK_LENGTH = 27,  /* 1: 0 before the first wrapper, then 1 to 16 */
    SOUK_AT_TAG = 28,           /* 4 */
    SOUK_AT_DECLARED = 32,      /* 4: L, the length that the host declared */
    SOUK_AT_BLOCK = 36,         /* 16: the command block */
    SOUK_AT_PUT_IN = 52         /* 4: bytes put in since the wrapper: souk_put_in */
};

/* ---- The parts of a 64-bit result. A part that a call does not give is 0. */

static inline uint32_t souk_answer(uint64_t word) {
    return (uint32_t)(word & 255u);
}

/* souk_poll: the endpoint's error that goes with SOUK_ENDPOINT_FAILED. */
static inline uint8_t souk_carried(uint64_t word) {
    return (uint8_t)(word >> 8 & 255u);
}

/* souk_command, souk_command_step, .._told: the unit that the command is for, 0 to 15, which may be above the max LUN. */
static inline uint8_t souk_lun(uint64_t word) {
    return (uint8_t)(word >> 8 & 255u);
}

/* souk_poll, souk_reset, souk_control: an enum souk_stalls. */
static inline uint32_t souk_stalls(uint64_t word) {
    return (uint32_t)(word >> 16 & 255u);
}

/* souk_poll: OUT packets taken, 0 to 2. */
static inline uint32_t souk_taken(uint64_t word) {
    return (uint32_t)(word >> 24 & 255u);
}

/* 1 or 0. souk_control: a byte is answered. souk_command: a command is shown. souk_command_step, .._told: one is offered. */
static inline uint32_t souk_flag(uint64_t word) {
    return (uint32_t)(word >> 24 & 255u);
}

/* souk_poll: bytes sent. souk_read_data, souk_write_data, souk_try_write_data_all: bytes read or written. souk_control: the
   byte answered. souk_command: the block's length. With SOUK_IO_BUFFER_OVERFLOW nothing was sent or written, and these bits
   hold another number, souk_missing; so the count is then 0 here. */
static inline uint32_t souk_count(uint64_t word) {
    return souk_answer(word) == SOUK_IO_BUFFER_OVERFLOW ? 0u : (uint32_t)(word >> 32);
}

/* souk_poll, souk_try_write_data_all: with SOUK_IO_BUFFER_OVERFLOW, how many bytes of room are missing: those wanted, P or
   src_len, less those free in io. It is at least 1, and from a poll at most P. 0xFFFFFFFF also stands for more, which only a
   source of 4 GiB or more can lack. With every other answer it is 0. */
static inline uint32_t souk_missing(uint64_t word) {
    return souk_answer(word) == SOUK_IO_BUFFER_OVERFLOW ? (uint32_t)(word >> 32) : 0u;
}

/* A four-byte number of the record. */
static inline uint32_t souk_number(const uint8_t *record, size_t at) {
    return (uint32_t)record[at] | (uint32_t)record[at + 1] << 8 | (uint32_t)record[at + 2] << 16 |
           (uint32_t)record[at + 3] << 24;
}

/* How many bytes the firmware has put in since the wrapper: what souk_write_data took, and all of src for which
   souk_try_write_data_all answered 0. Filler, status and refused calls do not count. It starts at 0 with each wrapper, and
   whenever state 0 is entered. At 0xFFFFFFFF it stops.
   Which call made this read-out too long? Look after each write call: it is the one after which this is above L
   (SOUK_AT_DECLARED).
   In states 4 and 6, this less the bytes sent since the wrapper is what is unread in io: if nothing was unread after the
   wrapper, as long as no filler was added, and unless the count has stopped. */
static inline uint32_t souk_put_in(const uint8_t *record) {
    return souk_number(record, SOUK_AT_PUT_IN);
}

/* ---- The calls. Every call that takes a record, except souk_create, first answers 10 if the record is broken. */

/* Makes a new device in the record's 56 bytes, whatever they were. Answers 0; or 2, 5, 8, 9, tested in this order; then 10 if
   the record does not have 56 bytes: a firmware that was compiled with an older header has fewer.
   packet_size  P: 8, 16, 32 or 64
   max_lun      the highest unit number, 0 to 15: 0 for one disk
   size         the length of io
   Call it at power-up and at every bus reset. Empty both endpoints and unstall them first: A BUS RESET, above, has the order
   and the reasons. */
uint32_t souk_create(uint8_t *record, size_t record_len, uint32_t packet_size, uint8_t max_lun, uint32_t size);

/* One turn of the device, as described above. Answers 0, 1, 4, 6, 7, 10, 11. */
uint64_t souk_poll(uint8_t *record, size_t record_len, uint8_t *io, size_t io_len, uint8_t *packet, size_t packet_len,
                   const uint8_t *one, size_t one_len, const uint8_t *two, size_t two_len, uint8_t first, uint8_t second,
                   uint8_t write);

/* Sets the status of the present command. The next poll goes on to it; another call before that poll replaces it. Answers 0,
   10, 12.
   status  an enum souk_status
   figure  how many bytes of L were dealt with: put in for the host, or taken from it. The host is told L less the figure, or 0
           if the figure is above L. */
uint32_t souk_set_status(uint8_t *record, size_t record_len, const uint8_t *io, size_t io_len, uint8_t status,
                         uint32_t figure);

/* Takes data that came from the host: as much as is there and fits into dst. The rest of dst is kept. Take all the data before
   the next poll: once nothing is left on the wire, or a status is set, the poll drops what was not taken. Answers 0, 3, 10. */
uint64_t souk_read_data(uint8_t *record, size_t record_len, const uint8_t *io, size_t io_len, uint8_t *dst, size_t dst_len);

/* Puts in data for the host: as much of src as fits, but at most as many bytes as are left on the wire (unread bytes that were
   put in before do not count here). Go on with the rest after the next poll. Answers 0, 3, 10. */
uint64_t souk_write_data(uint8_t *record, size_t record_len, uint8_t *io, size_t io_len, const uint8_t *src,
                         size_t src_len);

/* Puts in all of src, or puts in nothing and answers 1. What is left does not limit it: if more than L is put in, more than L
   would go out, and souk_put_in tells. Answers 0, 1, 3, 10.
   After answer 1 the same call succeeds once polls have sent at least souk_missing bytes. If a poll answers 4 before that, it
   has to be given more first. src without its last souk_missing bytes fits at once. */
uint64_t souk_try_write_data_all(uint8_t *record, size_t record_len, uint8_t *io, size_t io_len, const uint8_t *src,
                                 size_t src_len);

/* NOT for a bus reset: see A BUS RESET, above. Breaks off the present command: state 0, no status, nothing left, both endpoints
   to be unstalled. Unread bytes stay in io, and the next wrapper is read in after them. This is the reset of the Rust crate
   usbd-storage, for those who want exactly that. Answers 0, 10. */
uint64_t souk_reset(uint8_t *record, size_t record_len, const uint8_t *io, size_t io_len);

/* A control request's first two bytes. Hand over only requests for the disk's own interface (wIndex): the other bytes are not
   looked at. Answers 0, 10; it also answers 0 if the request does not count and nothing was done.
   A1h, FEh (Get Max LUN): souk_flag is 1 and souk_count is the byte to answer.
   A1h, FFh: the same as souk_reset, unread bytes stay; souk_stalls says to unstall. BOT's own reset request is 21h, FFh and
   does not count here. */
uint64_t souk_control(uint8_t *record, size_t record_len, const uint8_t *io, size_t io_len, uint8_t request_type,
                      uint8_t request);

/* Shows the command block as it came, in every state but 0: see souk_flag and souk_lun; the first souk_count of the 16 bytes
   are the block. If none is shown, block is kept. Answers 0, 10 (also if block does not have 16 bytes). */
uint64_t souk_command(const uint8_t *record, size_t record_len, const uint8_t *io, size_t io_len, uint8_t *block,
                      size_t block_len);

/* Decodes the command that waits for the firmware, in every state but 0 while there is no status. So it is offered again and
   again until the status is set. If none is offered, command is kept. In state 1 it is not a new command. READ (16) and WRITE
   (16) are known. Answers 0, 10 (also if command does not have 6 numbers), 13 (state 1 before the first good wrapper). */
uint64_t souk_command_step(const uint8_t *record, size_t record_len, const uint8_t *io, size_t io_len, uint64_t *command,
                           size_t command_len);

/* The same, and the firmware says whether READ (16) and WRITE (16) are known: 'extended' is 1 if they are. If it is 0, they are
   SOUK_UNKNOWN, as in usbd-storage without its feature extended_addressing, and as the plain calls once had them. Any other
   number: 10, and nothing is changed. */
uint64_t souk_command_step_told(const uint8_t *record, size_t record_len, const uint8_t *io, size_t io_len, uint32_t extended,
                                uint64_t *command, size_t command_len);

/* Decodes a block into six numbers: kind and fields. A block that is too short for its opcode is SOUK_UNKNOWN. READ (16) and
   WRITE (16) are known. Answers 0, 10 (command does not have 6 numbers), 13 (empty block); with 10 and 13 command is kept. */
uint32_t souk_decode(const uint8_t *block, size_t block_len, uint64_t *command, size_t command_len);

/* The same, with 'extended' as in souk_command_step_told. */
uint32_t souk_decode_told(const uint8_t *block, size_t block_len, uint32_t extended, uint64_t *command, size_t command_len);

/* What BOT says of one received message: an enum souk_verdict, not an answer. Reserved are all flags but the direction (bits 0
   to 6 of byte 12) and what stands beside the unit (bits 4 to 7 of byte 13). The polls do not use it: they take messages that
   BOT calls invalid (in pieces, or longer than 31 bytes), units above max_lun and reserved bits. A firmware refuses
   SOUK_INVALID alone: there are laptops whose driver sets a reserved bit, and they would lose the disk. */
uint32_t souk_verdict(const uint8_t *message, size_t message_len, uint8_t max_lun);

#ifdef __cplusplus
}
#endif

#endif
