/* What words should come to before a run of them tells anything: each is counted, bay by bay where a bay has it. */
#ifndef SITUATIONS_H
#define SITUATIONS_H

#include <stdint.h>

/* A step: the states before and after it, and its record. */
void situations_see(const uint8_t *before, const uint8_t *after, uint32_t record);

/* Prints how often each was seen; how many never were. */
unsigned situations_missing(void);

#endif
