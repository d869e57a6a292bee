/* A dock's firmware: the part to copy. firmware.c and store.c use neither the heap nor stdio; what a board must give
 * them is in board.h. */
#ifndef FIRMWARE_H
#define FIRMWARE_H

#include "dock.h"

struct firmware {
    uint8_t state[DOCK_STATE_BYTES];
    uint8_t saved[DOCK_STATE_BYTES]; /* as it was last saved, or zeros */
    /* The words that interrupts have put and the loop has not taken. Only calls of the library touch these bytes, in an
     * interrupt, or in the loop with the interrupts masked. The compiler sees into none of these calls, nor into those
     * that mask, and so keeps their order: the bytes need not be volatile. The marks below are looked at outside. */
    uint8_t waiting[DOCK_QUEUE_BYTES];
    volatile uint8_t lost;        /* words are missing behind those that wait, and none is put until the loop knows */
    volatile uint8_t reset_waits; /* a RESET was put since the queue was last found empty */
    volatile uint8_t reset_lost;  /* a RESET is not among the words that wait, and is to be made up for */
};

/* Starts, from the saved state where it can, and then runs until board_wait tells that the power is gone. Interrupts
 * are off until it calls board_listen. Returns at once, with nothing driven, where the library is not the header's. */
void firmware_run(struct firmware *dock);

/* What every interrupt calls: the bus for START, STOP, BYTE, TAKE and TIMEOUT, the inputs for PINS, the timer for TICK
 * every ten milliseconds, the reset line for RESET. These must not interrupt one another, since a put is not atomic:
 * they have one priority. 0 where there is no room, or no event has these numbers: then the interrupt answers a BYTE
 * without ACK, and a TAKE with FFh, itself. A RESET is made up for by the loop. */
int firmware_event(struct firmware *dock, uint8_t kind, uint16_t first, uint8_t second);

#endif
