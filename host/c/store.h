/* The saved state, in memory that keeps its bytes without power.
 *
 * Two slots take turns, each a number and an image. A save makes the older slot's number 0, writes the image and writes
 * the number last, so that a save that is cut in the middle is none, and the one before it still stands. This is for
 * memory that is written byte by byte; in flash, erasing a slot's page takes the place of its number 0. A save holds up
 * the loop and with it the bus, so it must be over before the host loses patience.
 *
 * A newest image that is damaged is the library's to refuse, and then the older one is not taken in its place: what has
 * changed since is not known. Damage that makes the image of another fit state shows nowhere: where the memory is that
 * bad, a slot needs a check sum. */
#ifndef STORE_H
#define STORE_H

#include <stdint.h>

/* Reads the newest image; 0 where there is no whole save. */
int store_load(uint8_t *image);

void store_save(const uint8_t *image);

#endif
