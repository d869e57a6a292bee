/* The firmware's loop on a board whose interrupt comes at any moment, also in the middle of a take. SysTick's interrupt
 * gives the inputs the next number as their levels; which numbers the dock's state has had, one after the other, is
 * seen where the pins are driven. The timer goes as fast as the loop keeps up with, and the loop is held up now and
 * then until words are lost. Prints how many words were put, how many were taken and how many of these out of order;
 * the status is 0 where each was taken, in order.
 *
 * With UNMASKED defined the mask does nothing, and that must go wrong: it shows that the interrupt does come there. */
#include "../c/board.h"
#include "../c/firmware.h"
#include "timer.h"

#include <stdio.h>

#define WORDS 5000u
#define HELD_UP_EVERY 1024u
#define HALF_FULL (DOCK_QUEUE_WORDS / 2)
#define FAST_CLOCKS 256u
#define SLOW_CLOCKS 16384u
#define MORE_CLOCKS 1023u

static struct firmware dock;
static volatile unsigned put, without_room; /* the interrupt counts them */
static volatile unsigned taken;             /* .. and looks at this */
static uint8_t last;                        /* the number that came last */
static unsigned out_of_order, steps;
static uint32_t seed = 1;

/* ---- the interrupt ---- */

void chip_timer_interrupt(void);

/* Clocks until the interrupt after the next, never quite as many as before: about half of the queue is to be in use, so
 * that the loop always has words to take. */
static uint32_t next_pace(void) {
    seed = 1664525u * seed + 1013904223u;
    return (put - taken < HALF_FULL ? FAST_CLOCKS : SLOW_CLOCKS) + (seed >> 16 & MORE_CLOCKS);
}

/* The number rises with each word that is put, so that those put have no gap. */
void chip_timer_interrupt(void) {
    TIMER_RELOAD = next_pace();
    if (put == WORDS) {
        return;
    }
    if (firmware_event(&dock, DOCK_PINS, (uint8_t)(put + 1), 0)) {
        put++;
    } else {
        without_room++;
    }
}

/* ---- what the firmware asks ---- */

#ifdef UNMASKED
void board_mask(void) {}
void board_unmask(void) {}
#else
void board_mask(void) { __asm__ volatile("cpsid i" ::: "memory"); }
void board_unmask(void) { __asm__ volatile("cpsie i" ::: "memory"); }
#endif

void board_listen(void) {
    TIMER_RELOAD = next_pace();
    TIMER_COUNT = 0;
    TIMER_CONTROL = RUN_WITH_INTERRUPT;
}

uint16_t board_straps(void) { return 0; }
void board_acknowledge(int ack) { (void)ack; }
void board_send(uint8_t byte) { (void)byte; }
void board_memory_write(unsigned at, uint8_t byte) { (void)at, (void)byte; }

/* As the dock has them, so that a sample which the firmware takes itself changes nothing. */
uint8_t board_levels(void) { return last; }

/* Nothing was ever saved. */
uint8_t board_memory_read(unsigned at) {
    (void)at;
    return 0;
}

/* The levels that the state has: n1394, nUSB, nREMREQ and nSL of bay 0, then of bay 1. */
static uint8_t levels_in_state(void) {
    unsigned levels = 0;
    for (int bay = 0; bay < 2; bay++) {
        const uint8_t *flags = dock.state + DOCK_AT_BAY_FLAGS(bay);
        for (unsigned i = 0; i < 3; i++) {
            levels = 2 * levels + flags[DOCK_BAY_LEVELS + i];
        }
        levels = 2 * levels + flags[DOCK_BAY_N_SL];
    }
    return (uint8_t)levels;
}

/* Until more came than there is room for. */
static void hold_up(void) {
    unsigned before = without_room;
    while (without_room == before && put < WORDS) {
    }
}

/* After every step. The same levels again are a TIMEOUT's, or those that the firmware sampled. */
void board_drive(uint16_t outputs) {
    uint8_t number = levels_in_state();
    (void)outputs;
    if (number != last) {
        taken++;
        out_of_order += number != (uint8_t)(last + 1);
        last = number;
    }
    if (++steps % HELD_UP_EVERY == 0) {
        hold_up();
    }
}

/* The last word may have come after the loop last looked, so it looks once more. */
int board_wait(void) {
    static int looked;
    return put < WORDS || !looked++;
}

int main(void) {
    firmware_run(&dock);
    printf("%u words put by an interrupt, %u taken, %u out of order; the queue was %s\n", put, taken, out_of_order,
           without_room > 0 ? "full" : "never full");
    return put != WORDS || taken != put || out_of_order != 0 || without_room == 0;
}
