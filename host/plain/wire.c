#include "wire.h"

enum { DATA = 1, CLOCK = 2 };
enum { NOTHING, FIRST_BYTE, FROM_HOST, TO_HOST };
enum { LONGEST_LOW = 17500 };
enum { START = 0x0000, STOP = 0x2000, BYTE = 0x4000, TAKE = 0x6000, TIMEOUT = 0xE000, NO_WORD = 0xFFFF };

void plain_wire_begin(struct plain_wire *wire) { *wire = (struct plain_wire){.data = 1}; }

static uint16_t ended(struct plain_wire *wire, uint8_t listens, uint16_t word) {
    wire->listens = listens;
    wire->count = 0;
    wire->value = 0;
    return word;
}

static uint16_t ninth(struct plain_wire *wire, unsigned bit) {
    switch (wire->listens) {
    case TO_HOST:
        return ended(wire, TO_HOST, (uint16_t)(TAKE | !bit));
    case FIRST_BYTE:
        return ended(wire, wire->value & 1 ? TO_HOST : FROM_HOST, NO_WORD);
    default:
        return ended(wire, FROM_HOST, NO_WORD);
    }
}

static uint16_t on_bit(struct plain_wire *wire, unsigned bit) {
    if (wire->listens == NOTHING) {
        return NO_WORD;
    }
    if (wire->count == 8) {
        return ninth(wire, bit);
    }
    wire->value = (uint8_t)(2u * wire->value + bit);
    wire->count++;
    return wire->count == 8 && wire->listens != TO_HOST ? (uint16_t)(BYTE | wire->value) : NO_WORD;
}

static uint16_t on_low(struct plain_wire *wire) {
    if (wire->low_run > LONGEST_LOW) {
        return NO_WORD;
    }
    wire->low_run++;
    return wire->low_run > LONGEST_LOW ? ended(wire, NOTHING, TIMEOUT) : NO_WORD;
}

static uint16_t on_high(struct plain_wire *wire, unsigned before, unsigned data) {
    if (wire->low_run != 0) {
        wire->low_run = 0;
        return on_bit(wire, data);
    }
    if (before == data) {
        return NO_WORD;
    }
    return data ? ended(wire, NOTHING, STOP) : ended(wire, FIRST_BYTE, START);
}

static uint16_t on_sample(struct plain_wire *wire, unsigned sample) {
    unsigned before = wire->data, data = sample & DATA;
    wire->data = (uint8_t)data;
    return sample & CLOCK ? on_high(wire, before, data) : on_low(wire);
}

size_t plain_wire_listen(struct plain_wire *wire, const uint8_t *samples, size_t count, uint16_t *words) {
    size_t given = 0;
    for (size_t i = 0; i < count; i++) {
        uint16_t word = on_sample(wire, samples[i]);
        if (word != NO_WORD) {
            words[given++] = word;
        }
    }
    return given;
}
