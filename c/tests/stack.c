/* How deep a call goes into the stack, and what it leaves there: what lies below is painted before the call and looked at after
   it. stack_paint and stack_used are leaves that keep everything in registers. So the stack pointer that stack_paint sees is
   the caller's, but for the return address on x86-64, and the paint covers nothing that is needed. stack_find may save a few
   registers where the paint ends; the call had its own saved registers there. Nothing else may use the stack in between: no
   interrupt, no signal handler. */
#include "stack.h"

enum { WORDS = STACK_PAINTED / 4 };            /* painted below the stack pointer; no call goes so deep */
static const uint32_t untouched = 0x5AC3F00Du; /* bytes that differ, so that the loop stays one */
static volatile uint32_t *painted;             /* what was painted ends here */

#if defined(__x86_64__)
enum { RETURN_ADDRESS = 8 }; /* each call pushes it: stack_paint's stood where that of the call then stands */
#else
enum { RETURN_ADDRESS = 0 };
#endif

static volatile uint32_t *stack_pointer(void) {
    volatile uint32_t *here;
#if defined(__x86_64__)
    __asm volatile("mov %%rsp, %0" : "=r"(here));
#elif defined(__riscv)
    __asm volatile("mv %0, sp" : "=r"(here));
#else
    __asm volatile("mov %0, sp" : "=r"(here));
#endif
    return here;
}

void stack_paint(void) {
    volatile uint32_t *here = stack_pointer();
    for (int i = 1; i <= WORDS; i++) here[-i] = untouched;
    painted = here;
}

size_t stack_used(void) {
    volatile uint32_t *here = painted;
    int deepest = WORDS;
    while (deepest > 0 && here[-deepest] == untouched) deepest--;
    return (size_t)deepest * sizeof *here + RETURN_ADDRESS;
}

size_t stack_find(const volatile uint8_t *four) {
    const volatile uint8_t *at = (const volatile uint8_t *)(painted - WORDS);
    for (size_t below = STACK_PAINTED; below >= 4; below--, at++)
        if (at[0] == four[0] && at[1] == four[1] && at[2] == four[2] && at[3] == four[3]) return below + RETURN_ADDRESS;
    return 0;
}
