/* The interrupts of a Cortex-M: SysTick every ten milliseconds, and the first line of the interrupt controller, which
 * is pended by hand where a board's bus and inputs would. Both put words, and both keep the priority that they have
 * after a reset, which is the same: so neither interrupts the other. CLOCK_HZ is how fast the board's processor is. */
#include "../c/board.h"
#include "../c/chip.h"
#include "timer.h"

#include <stdint.h>

#define LINES_ENABLE (*(volatile uint32_t *)0xE000E100)
#define LINES_PEND (*(volatile uint32_t *)0xE000E200)

#define LINE_0 1u
#define TICKS_A_SECOND 100u

/* The script waits for a tick. The timer never stops, but between the script's lines time stands still: a tick that
 * nothing waits for is none. */
static volatile uint8_t awaited;

void chip_timer_interrupt(void);
void chip_line_interrupt(void);

void chip_timer_interrupt(void) {
    if (awaited) {
        awaited = 0;
        board_timer();
    }
}

void chip_line_interrupt(void) { board_line(); }

void chip_listen(void) {
    TIMER_RELOAD = CLOCK_HZ / TICKS_A_SECOND - 1;
    TIMER_COUNT = 0;
    TIMER_CONTROL = RUN_WITH_INTERRUPT;
    LINES_ENABLE = LINE_0;
}

/* The clobber keeps the compiler from moving a reading or a writing of the queue across. */
void board_mask(void) { __asm__ volatile("cpsid i" ::: "memory"); }
void board_unmask(void) { __asm__ volatile("cpsie i" ::: "memory"); }

/* The barriers have it come before anything that follows. */
void chip_raise(void) {
    LINES_PEND = LINE_0;
    __asm__ volatile("dsb\n\tisb" ::: "memory");
}

/* Asleep with interrupts held back, so that none falls between the look and the sleep: a pending one ends it. */
void chip_tick(void) {
    awaited = 1;
    board_mask();
    while (awaited) {
        __asm__ volatile("wfi\n\tcpsie i\n\tisb\n\tcpsid i" ::: "memory");
    }
    board_unmask();
}
