#include "driver.h"

/* Of a byte; the ninth clock is for the ACK. */
enum { BITS = 8 };

/* A fresh wire cell takes the lines for high. What they were before the first sample is not known, so a low clock is put
 * there: SDAT that is low already, as in the middle of another's transfer, is then no START. */
void driver_begin(struct driver *driver) {
    static const uint8_t low = 0;
    uint16_t none;
    dock_wire_begin(driver->held, sizeof driver->held);
    dock_wire_listen(driver->held, sizeof driver->held, &low, 1, &none, 1);
    driver->acks = 0;
    driver->pulls = 0;
}

/* A held state that no samples explain, as after a flipped bit in RAM, is not mended: listening starts anew, and a TIMEOUT
 * ends the command that the core may have open. */
size_t driver_listen(struct driver *driver, const uint8_t *samples, size_t samples_len, uint16_t *words) {
    uint32_t heard = dock_wire_listen(driver->held, sizeof driver->held, samples, samples_len, words, samples_len);
    if (dock_refusal(heard) != DOCK_UNFIT_STATE) {
        return dock_value(heard);
    }
    driver_begin(driver);
    words[0] = dock_value(dock_pack(DOCK_TIMEOUT, 0, 0));
    return 1;
}

void driver_heed(struct driver *driver, uint16_t word, uint32_t record) {
    if (dock_kind(word) == DOCK_BYTE) {
        driver->acks = dock_record_reply(record) == DOCK_ACK;
    }
}

/* The held byte's bit after so many; a line that is let go is a 1. */
static int sends_zero(const uint8_t *state, unsigned bits) {
    uint32_t held = dock_held_byte(state, DOCK_STATE_BYTES);
    return dock_is_held(held) && (dock_held(held) >> (BITS - 1 - bits) & 1) == 0;
}

/* For the clock to come: the ACK after eight bits from the host, or a bit of a byte that the host clocks in. That byte's
 * ninth bit is the host's. */
static int wants_low(const struct driver *driver, const uint8_t *state) {
    unsigned bits = driver->held[DOCK_WIRE_AT_BITS];
    switch (driver->held[DOCK_WIRE_AT_LISTENING]) {
    case DOCK_HEARS_FIRST_BYTE:
    case DOCK_HEARS_BYTES:
        return bits == BITS && driver->acks;
    case DOCK_HEARS_TAKES:
        return bits < BITS && sends_zero(state, bits);
    default:
        return 0;
    }
}

/* Under a high SCLK a move of SDAT would be a START or a STOP. */
int driver_pulls(struct driver *driver, const uint8_t *state) {
    if (dock_wire_low(driver->held) != 0) {
        driver->pulls = (uint8_t)wants_low(driver, state);
    }
    return driver->pulls;
}
