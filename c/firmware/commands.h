/* What the disk says to each SCSI command. */
#ifndef COMMANDS_H
#define COMMANDS_H

#include <stddef.h>
#include <stdint.h>

struct reply {
    const uint8_t *bytes; /* for the host */
    size_t length;
    uint8_t status; /* an enum souk_status */
};

/* Forgets the sense: nothing has gone wrong yet. */
void commands_start(void);

/* The reply to a command of SOUK_COMMAND_NUMBERS numbers for this unit. Its bytes stay until the next call. */
struct reply commands_reply(uint8_t lun, const uint64_t *command);

#endif
