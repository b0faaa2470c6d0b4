/* In a recorder these bytes are in flash memory, and their number grows. Each entry has 32 bytes: number, day, minute, battery
   voltage. A place without an entry is a blank line. The byte FFh never occurs, so that filler can never look like the list. */
#include "faults.h"

#define BLANK "                               \n"
#define BLANKS_4 BLANK BLANK BLANK BLANK

static const char list[] =
    "0001 2026-03-02 06:14 low 21.8V\n"
    "0002 2026-03-02 06:31 ok  24.6V\n"
    "0003 2026-03-09 05:58 low 21.6V\n"
    "0004 2026-03-09 06:40 ok  24.4V\n"
    "0005 2026-03-17 06:02 low 21.1V\n"
    "0006 2026-03-17 06:55 ok  24.1V\n"
    "0007 2026-03-21 05:47 low 20.9V\n"
    "0008 2026-03-21 06:49 ok  23.9V\n"
    "0009 2026-03-24 06:11 low 20.4V\n"
    "0010 2026-03-24 07:20 ok  23.6V\n"
    "0011 2026-03-27 05:52 low 20.2V\n"
    "0012 2026-03-27 07:04 ok  23.5V\n"
    "0013 2026-03-29 06:08 low 19.7V\n"
    "0014 2026-03-29 07:31 ok  23.1V\n"
    "0015 2026-03-31 05:49 low 19.3V\n"
    "0016 2026-03-31 07:22 ok  22.8V\n"
    "0017 2026-04-02 06:05 low 18.8V\n"
    "0018 2026-04-02 07:58 ok  22.7V\n"
    "0019 2026-04-03 05:55 low 18.2V\n"
    "0020 2026-04-03 08:11 ok  22.4V\n"
    "0021 2026-04-04 06:13 off 11.7V\n"
    BLANK BLANK BLANK BLANKS_4 BLANKS_4
    BLANKS_4 BLANKS_4 BLANKS_4 BLANKS_4;

_Static_assert(sizeof list == FAULT_BLOCKS * FAULT_BLOCK + 1, "the list fills its blocks, each line 32 bytes");

const uint8_t *faults_from(uint32_t address) {
    return (const uint8_t *)list + (uint64_t)address * FAULT_BLOCK;
}
