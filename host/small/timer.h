/* The SysTick timer of a Cortex-M, which counts the processor's clock downwards in 24 bits. */
#ifndef TIMER_H
#define TIMER_H

#include <stdint.h>

#define TIMER(offset) (*(volatile uint32_t *)(0xE000E010u + (offset)))
#define TIMER_CONTROL TIMER(0)
#define TIMER_RELOAD TIMER(4)
#define TIMER_COUNT TIMER(8)

#define TIMER_BITS 0xFFFFFFu
#define RUN_FROM_CLOCK 5u
#define RUN_WITH_INTERRUPT 7u

#endif
