/* The recorder's side of the cable: start it once, then call firmware_turn for ever. */
#ifndef FIRMWARE_H
#define FIRMWARE_H

#include <stdbool.h>

bool firmware_start(void); /* false: the socket does not take the sizes in firmware.c */
void firmware_turn(void);

#endif
