/* The recorder's fault list, as the blocks of a small disk. */
#ifndef FAULTS_H
#define FAULTS_H

#include <stdint.h>

enum { FAULT_BLOCK = 512, FAULT_BLOCKS = 3 };

/* The bytes of the disk, starting at a block; the address is at most FAULT_BLOCKS. */
const uint8_t *faults_from(uint32_t address);

#endif
