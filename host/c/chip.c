/* No interrupts: what they would call is called, and there is nothing to mask. */
#include "chip.h"

#include "board.h"

void chip_listen(void) {}
void chip_raise(void) { board_line(); }
void chip_tick(void) { board_timer(); }

void board_mask(void) {}
void board_unmask(void) {}
