/* Souklavanh, the laptop's end: for a depot tool in C or C++ that reads a recorder over USB Mass Storage Bulk-Only Transport
 * (BOT).
 *
 * One call writes the wrapper of a command, the other reads the status that comes back. Neither touches the USB hardware: the
 * tool moves the bytes. Of souklavanh.h, the firmware's header, a tool uses SOUK_DONE, SOUK_BROKEN_RECORD, SOUK_BLOCK_SIZE,
 * SOUK_LUN_LARGEST, enum souk_status and souk_answer, and need not read the rest.
 *
 * ONE COMMAND
 *   1. Take a fresh tag, for example from a counter. By its tag a late status of an earlier command is refused.
 *   2. Call souk_write_wrapper, and send its 31 bytes as one OUT transfer.
 *   3. Move the data: at most 'length' bytes, which is called L. A packet that is not full ends data to the host.
 *   4. Receive the status, 13 bytes, and join its packets. With a packet size of 8 it comes as 8 and 5 bytes; 8 bytes alone are
 *      refused with 22.
 *   5. Call souk_read_status with the same tag and length.
 *
 * A STATUS THAT IS TAKEN says by souk_status_byte, an enum souk_status, how the command ended, and by souk_residue how many of
 * the L bytes do not count. Of data to the host only the first L less residue bytes are the recorder's. Drop what is behind
 * them: it is filler, FFh. After SOUK_FAILED ask why, with REQUEST SENSE; after SOUK_PHASE_ERROR do a reset recovery.
 *
 * A STATUS THAT IS REFUSED is one that BOT calls not valid (6.3.1: answers 22, 23 and 24) or not meaningful (6.3.2: 25 and 26).
 * Tool and recorder are then out of step (6.5). Drop what was read, do a reset recovery, and give the command again with
 * another tag. BOT calls a status 2 meaningful whatever its residue is; here it is refused with 25 if its residue is above L. A
 * reset recovery follows in both cases. The socket of souklavanh.h sends no status that is refused for its own wrapper.
 *
 * A RESET RECOVERY (5.3.4) is the request 21h, FFh and then an unstall of both bulk endpoints. The socket does not act on that
 * request: if the recorder's firmware does not do so either, reset the port.
 *
 * NO CALL allocates, blocks, keeps a pointer, or has a precondition on values: any bytes, any lengths and any numbers get an
 * answer. A pointer and the length after it must be true, and the wrapper must not overlap the block. A length of 0 is allowed;
 * the call then does not follow the pointer, but the pointer must not be null.
 */
#ifndef SOUKLAVANH_HOST_H
#define SOUKLAVANH_HOST_H

#include "souklavanh.h"

/* As in souklavanh.h: an archive whose lengths have another width than size_t is refused by the linker. */
#if SIZE_MAX == 0xFFFFFFFF
#define souk_write_wrapper souk_write_wrapper_size32
#define souk_read_status souk_read_status_size32
#endif

#ifdef __cplusplus
extern "C" {
#endif

enum {
    SOUK_WRAPPER_SIZE = 31,
    SOUK_STATUS_SIZE = 13
};

/* The refusals of the two calls; souk_write_wrapper also has SOUK_BROKEN_RECORD. They are tested in this order. */
enum souk_host_answer {
    SOUK_BUFFER_REFUSED = 19,     /* the wrapper does not have 31 bytes */
    SOUK_BLOCK_REFUSED = 20,      /* the block does not have 1 to 16 bytes */
    SOUK_LUN_REFUSED = 21,        /* the unit is above 15 */
    SOUK_LENGTH_REFUSED = 22,     /* the status does not have 13 bytes */
    SOUK_SIGNATURE_REFUSED = 23,  /* it does not start with "USBS" */
    SOUK_TAG_REFUSED = 24,        /* it is the status of another wrapper */
    SOUK_RESIDUE_REFUSED = 25,    /* its residue is above L */
    SOUK_STATUS_BYTE_REFUSED = 26 /* its status byte is above 2 */
};

/* ---- The parts of what souk_read_status returns, beside souk_answer. Both are 0 if the status was refused. */

/* An enum souk_status. */
static inline uint8_t souk_status_byte(uint64_t word) {
    return (uint8_t)(word >> 8 & 255u);
}

static inline uint32_t souk_residue(uint64_t word) {
    return (uint32_t)(word >> 32);
}

/* ---- The calls */

/* Writes the wrapper of a command. Answers 0; or 10, 19, 20, 21, tested in this order, and then wrapper is as before.
   wrapper  31 bytes; all of them are written
   tag      comes back in the status
   length   L: how many bytes of data the command moves at most
   to_host  1 if the data goes to the host, 0 if it comes from the host; any other number: 10. If L is 0, there is no data, and
            the direction bit is written as 0
   lun      the unit, 0 to 15. It has 32 bits so that a number above 255 is refused, and not cut to that of another unit
   block    the command block, 1 to 16 bytes, whatever they say. The bytes behind it are written as 0 */
uint32_t souk_write_wrapper(uint8_t *wrapper, size_t wrapper_len, uint32_t tag, uint32_t length, uint32_t to_host, uint32_t lun,
                            const uint8_t *block, size_t block_len);

/* Reads the status that came for the wrapper with this tag and length. Answers 0; or 22, 23, 24, 25, 26, tested in this
   order. */
uint64_t souk_read_status(const uint8_t *status, size_t status_len, uint32_t tag, uint32_t length);

#ifdef __cplusplus
}
#endif

#endif
