/* The first code of an image: the vectors of a Cortex-M or the entry of a RISC-V, memory made ready, then main. */
#include <stdint.h>
#include <stdlib.h>
#include <string.h>

/* Places that the linker script names. */
extern uint8_t data_begin[], data_end[], data_in_rom[], bss_begin[], bss_end[], stack_top[];

int main(void);

enum { FAULT = 4 };

static void start(void) {
    memcpy(data_begin, data_in_rom, (size_t)(data_end - data_begin));
    memset(bss_begin, 0, (size_t)(bss_end - bss_begin));
    exit(main());
}

/* What nothing here asks for: an instruction or an address that this processor does not have. */
__attribute__((aligned(4))) static void fault(void) { exit(FAULT); }

#ifdef __riscv

/* Begins without a stack, and with every trap a fault. */
__attribute__((section(".vectors"), used, naked)) static void enter(void) {
    __asm__ volatile("la sp, stack_top\n\tla t0, %0\n\tcsrw mtvec, t0\n\tj %1" ::"i"(fault), "i"(start));
}

#else

/* chip.c has these two, and an image without it none. */
__attribute__((weak)) void chip_timer_interrupt(void);
__attribute__((weak)) void chip_line_interrupt(void);

struct vectors {
    void *stack;
    void (*handlers[16])(void);
};

/* Of the first sixteen the reset, the non-maskable one and the faults, and last the SysTick timer; then the first of
 * the interrupt lines. */
__attribute__((section(".vectors"), used)) static const struct vectors vectors = {
    stack_top,
    {start, fault, fault, fault, fault, fault, 0, 0, 0, 0, fault, fault, 0, fault, chip_timer_interrupt,
     chip_line_interrupt}};

#endif
