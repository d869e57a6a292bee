/* The controller is plain.c's, compiled here for itself, so that the one in held.c stays what it is. */
#include "chassis.h"

#define PLAIN_STEP_ONLY
#include "plain.c"

enum { ABSENT = 10, TAKEN_ADDRESS = 11 };

static struct dock docks[PLAIN_CHASSIS_MOST];
static unsigned docks_len;

void plain_chassis_begin(unsigned controllers) {
    docks_len = controllers;
    for (unsigned i = 0; i < docks_len; i++) {
        docks[i] = (struct dock){0};
    }
}

static unsigned pins_refusal(unsigned named) { return docks[named].started ? ACCEPTED : NOT_STARTED; }

static unsigned reset_refusal(unsigned named, uint16_t word) {
    unsigned own = 0x90 + 2 * (word >> 10 & 3u);
    for (unsigned i = 0; i < docks_len; i++) {
        if (i != named && docks[i].started && docks[i].own == own) {
            return TAKEN_ADDRESS;
        }
    }
    return ACCEPTED;
}

static unsigned bus_refusal(void) {
    for (unsigned i = 0; i < docks_len; i++) {
        if (docks[i].started) {
            return ACCEPTED;
        }
    }
    return NOT_STARTED;
}

static unsigned call_refusal(unsigned named, uint16_t word) {
    unsigned kind = word >> 13;
    if (word & 0x1FFF & ~data_bits[kind]) {
        return STRAY_BIT;
    }
    if (kind != PINS && kind != RESET) {
        return bus_refusal();
    }
    if (named >= docks_len) {
        return ABSENT;
    }
    return kind == PINS ? pins_refusal(named) : reset_refusal(named, word);
}

/* A set of outputs more, by a shift that a small processor needs no function for. */
static uint64_t with_outputs(uint64_t sets, uint32_t pins) { return sets << 12 | pins; }

uint64_t plain_chassis_step(unsigned named, uint16_t word) {
    unsigned kind = word >> 13;
    unsigned refusal = call_refusal(named, word);
    uint64_t reply = kind == BYTE ? NO_ACK : kind == TAKE ? NOT_DRIVEN : NO_REPLY;
    uint64_t byte = kind == TAKE ? 0xFF : 0;
    uint64_t sets = 0;
    if (refusal != ACCEPTED) {
        return (uint64_t)refusal << 60;
    }
    for (unsigned i = 0; i < PLAIN_CHASSIS_MOST; i++) {
        if (i >= docks_len) {
            sets = with_outputs(sets, 0);
        } else if (i != named && (kind == PINS || kind == RESET)) {
            sets = with_outputs(sets, (uint32_t)outputs_of(&docks[i]));
        } else {
            uint32_t record = step(&docks[i], word);
            unsigned said = record >> 25 & 7;
            if (said == ACK || said == DRIVEN) {
                reply = said;
                byte = record >> 17 & 0xFF;
            }
            sets = with_outputs(sets, record >> 8 & 0x1FF);
        }
    }
    return reply << 57 | byte << 49 | sets;
}
