/* A chassis of one to four C controllers, which are of the first kind alone, with states that it keeps, as a firmware
 * without the library would have it. Its answers have the layout of dock_chassis_step's (include/dock.h). It tests the
 * call and nothing of its states, so it never refuses with 9 or 1. */
#ifndef PLAIN_CHASSIS_H
#define PLAIN_CHASSIS_H

#include <stdint.h>

#define PLAIN_CHASSIS_MOST 4u

void plain_chassis_begin(unsigned controllers); /* so many, none of which has had a RESET */
uint64_t plain_chassis_step(unsigned named, uint16_t word);

#endif
