/* How much stack a call takes, and whether it leaves some bytes there. The stack is painted below the caller before the call,
   and looked at after it; the function that makes the call does both. */
#ifndef STACK_H
#define STACK_H

#include <stddef.h>
#include <stdint.h>

enum { STACK_PAINTED = 2048 }; /* bytes */

void stack_paint(void);
size_t stack_used(void);                         /* bytes since the last stack_paint; at most what was painted */
size_t stack_find(const volatile uint8_t *four); /* how far below the caller these four bytes are found there; 0 if nowhere */

#endif
