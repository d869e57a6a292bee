/* Counting instructions on an emulated board, which is told that each takes the same time. What the processor counts is
 * that time; how much of it an instruction takes is measured on some that do nothing. */
#ifndef COUNT_H
#define COUNT_H

#include <stdint.h>

#define CALIBRATION 1024u

#ifdef __riscv

#define STACK_POINTER "mv %0, sp"

static inline void count_start(void) {}

static inline uint32_t count_now(void) {
    uint32_t count;
    __asm__ volatile("csrr %0, minstret" : "=r"(count)::"memory");
    return count;
}

static inline uint32_t count_between(uint32_t before, uint32_t after) { return after - before; }

#else

#define STACK_POINTER "mov %0, sp"

#include "timer.h"

static inline void count_start(void) {
    TIMER_RELOAD = TIMER_BITS;
    TIMER_COUNT = 0;
    TIMER_CONTROL = RUN_FROM_CLOCK;
}

static inline uint32_t count_now(void) { return TIMER_COUNT; }
static inline uint32_t count_between(uint32_t before, uint32_t after) { return (before - after) & TIMER_BITS; }

#endif

static inline uint32_t *stack_now(void) {
    uint32_t *top;
    __asm__ volatile(STACK_POINTER : "=r"(top));
    return top;
}

#endif
