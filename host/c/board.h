/* What the firmware asks of a board. On a chip each of these is a few lines; board.c and chip.c stand in for all of
 * them. */
#ifndef BOARD_H
#define BOARD_H

#include <stdint.h>

/* RESET's first number. The straps as wired: SMB_A1, SMB_A0, LOCK_DEF, LOCK_MODE, so at most 15; above that the firmware
 * keeps everything off. Beside them DOCK_SHORT_PULSE, where the dock was built on the short unlock pulse. */
uint16_t board_straps(void);

/* The eight inputs as they are now: n1394, nUSB, nREMREQ, nSL of bay 0, then of bay 1. */
uint8_t board_levels(void);

/* Sets the nine output pins, bit by bit as dock.h names them. */
void board_drive(uint16_t outputs);

/* The answer to a BYTE: the bus, which was held at the ninth clock, goes on with this bit. */
void board_acknowledge(int ack);

/* The answer to a TAKE: the bus, which was held before the first clock, goes on with these bits; FFh drives nothing. */
void board_send(uint8_t byte);

/* Memory that keeps its bytes without power. A byte is written whole or not at all. */
uint8_t board_memory_read(unsigned at);
void board_memory_write(unsigned at, uint8_t byte);

/* Turns the interrupts on. */
void board_listen(void);

/* Holds the interrupts back, and lets them in again: one that comes meanwhile comes then. The firmware's loop calls
 * them in turns, after board_listen and outside of interrupts. Neither the processor nor the compiler may move a
 * reading or a writing of memory across them. */
void board_mask(void);
void board_unmask(void);

/* Sleeps until an interrupt came. On a chip this is never 0: it tells that the power is gone. */
int board_wait(void);

#endif
