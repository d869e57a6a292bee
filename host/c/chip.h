/* How something happens to the board of board.c: by an interrupt. On a PC a program has none, and chip.c calls what an
 * interrupt would; small/chip.c has those of a Cortex-M, its timer among them. Both also mask them, as board.h asks. */
#ifndef CHIP_H
#define CHIP_H

/* Turns the interrupts on. */
void chip_listen(void);

/* The interrupt of the bus, the inputs and the reset line comes: it calls board_line. */
void chip_raise(void);

/* Ten milliseconds pass, and the timer's interrupt comes: it calls board_timer. */
void chip_tick(void);

/* What the two interrupts call. */
void board_line(void);
void board_timer(void);

#endif
