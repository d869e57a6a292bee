/* What stands between two pins and the core on a processor that has no bus cell, to copy: samples of SCLK and SDAT go to
 * the wire cell, its words to the core, and SDAT is pulled low as the core says. It has neither heap nor stdio. Each time
 * that samples have come, one every 2 microseconds:
 *
 *     size_t count = driver_listen(&driver, samples, samples_len, words);
 *     for (size_t i = 0; i < count; i++)
 *         driver_heed(&driver, words[i], dock_step(state, DOCK_STATE_BYTES, words[i]));
 *     set_sdat_low(driver_pulls(&driver, state));
 *
 * Words that are none of the bus (TICK, PINS, RESET) go to dock_step beside this, in the order in which they happen.
 *
 * SDAT is changed only after a sample in which SCLK is low, and has to be changed before SCLK rises: so from the sample
 * to the pin it may take no longer than the host keeps SCLK low. A host on a 100 kHz bus does so for 4.7 microseconds,
 * which is two samples. A processor that needs longer pulls SCLK low itself when it sees it fall, goes on sampling, and lets
 * it go when SDAT is set. */
#ifndef DRIVER_H
#define DRIVER_H

#include "dock.h"

struct driver {
    uint8_t held[DOCK_WIRE_BYTES]; /* the wire cell's state */
    uint8_t acks;                  /* 1 where the core ACKs the last byte from the host */
    uint8_t pulls;                 /* 1 where SDAT is pulled low */
};

/* Nothing pulled, nothing heard. */
void driver_begin(struct driver *driver);

/* The count of words that the samples give, each in the next place. There is a place for each sample, at least one, and
 * at most DOCK_MOST_SAMPLES samples. */
size_t driver_listen(struct driver *driver, const uint8_t *samples, size_t samples_len, uint16_t *words);

/* What the core answered to one of those words. */
void driver_heed(struct driver *driver, uint16_t word, uint32_t record);

/* Whether SDAT is to be pulled low from now on, 1, or let go, 0. */
int driver_pulls(struct driver *driver, const uint8_t *state);

#endif
