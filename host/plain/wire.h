/* A wire cell in plain C, for the benchmark: the same job as the library's, on a struct that it trusts. */
#ifndef PLAIN_WIRE_H
#define PLAIN_WIRE_H

#include <stddef.h>
#include <stdint.h>

struct plain_wire {
    uint8_t data;     /* SDAT in the last sample */
    uint8_t listens;  /* 0 for nothing, 1 for a START's first byte, 2 for bytes of the host, 3 for those it clocks in */
    uint8_t count;    /* of the nine bits */
    uint8_t value;    /* of the bits so far */
    uint16_t low_run; /* of SCLK, in samples */
};

void plain_wire_begin(struct plain_wire *wire);

/* The count of words, each in the next place; there is a place for every sample. */
size_t plain_wire_listen(struct plain_wire *wire, const uint8_t *samples, size_t count, uint16_t *words);

#endif
