/* Two slots, each a number and an image; store.h says how they keep a state through a power cut. */
#include "store.h"

#include "board.h"
#include "dock.h"

#define SLOT_BYTES (1u + DOCK_STATE_BYTES)
#define NO_SAVE 0

static uint8_t number_of(unsigned slot) { return board_memory_read(slot * SLOT_BYTES); }

/* 255 is followed by 1. */
static uint8_t number_after(uint8_t number) { return (uint8_t)(number % 255 + 1); }

/* The two numbers follow one another. A slot without a number is never the newest, unless neither has one. */
static unsigned newest(void) {
    uint8_t first = number_of(0), second = number_of(1);
    return first == NO_SAVE || (second != NO_SAVE && second == number_after(first));
}

int store_load(uint8_t *image) {
    unsigned slot = newest();
    for (unsigned i = 0; i < DOCK_STATE_BYTES; i++) {
        image[i] = board_memory_read(slot * SLOT_BYTES + 1 + i);
    }
    return number_of(slot) != NO_SAVE;
}

void store_save(const uint8_t *image) {
    uint8_t number = number_after(number_of(newest()));
    unsigned slot = 1 - newest();
    board_memory_write(slot * SLOT_BYTES, NO_SAVE);
    for (unsigned i = 0; i < DOCK_STATE_BYTES; i++) {
        board_memory_write(slot * SLOT_BYTES + 1 + i, image[i]);
    }
    board_memory_write(slot * SLOT_BYTES, number);
}
