/* From reset to main on a Cortex-M: copy from it. The linker script (sections.ld) names the places. */
#include <stddef.h>
#include <stdint.h>

extern uint32_t data_in_flash[], data_start[], data_end[], bss_start[], bss_end[], stack_top[];
extern int main(void);
extern _Noreturn void exit(int);

/* Only for programs that print under the emulator: their C library hands files and text to it. */
extern void initialise_monitor_handles(void) __attribute__((weak));

_Noreturn void reset_handler(void);
_Noreturn void fault_handler(void);

/* The core takes the stack's top and the first address to run from here. The firmware's interrupt handlers follow. */
__attribute__((section(".vectors"), used)) static const struct {
    void *stack;
    void (*handlers[15])(void);
} vectors = {stack_top,
             {reset_handler, fault_handler, fault_handler, fault_handler, fault_handler, fault_handler, fault_handler,
              fault_handler, fault_handler, fault_handler, fault_handler, fault_handler, fault_handler, fault_handler,
              fault_handler}};

/* With a floating-point unit, the C library may use it; it is off after reset. Without unaligned access, as on a Cortex-M0+, a
   core that has it is told to trap it. */
static void set_up_core(void) {
#if defined(__ARM_FP)
    *(volatile uint32_t *)0xE000ED88 |= 0xFu << 20; /* CPACR: full access to CP10 and CP11 */
#endif
#if !defined(__ARM_FEATURE_UNALIGNED)
    *(volatile uint32_t *)0xE000ED14 |= 1u << 3; /* CCR: UNALIGN_TRP */
#endif
    __asm volatile("dsb\n\tisb" ::: "memory");
}

_Noreturn void reset_handler(void) {
    for (size_t i = 0; &data_start[i] < data_end; i++) data_start[i] = data_in_flash[i];
    for (size_t i = 0; &bss_start[i] < bss_end; i++) bss_start[i] = 0;
    set_up_core();
    if (initialise_monitor_handles) initialise_monitor_handles();
    exit(main());
}

/* A real firmware logs the fault and restarts. Here the emulator is told that the program has failed. */
_Noreturn void fault_handler(void) {
    exit(99);
}
