/* plain.c itself is compiled here, so that it stays for the benchmark as it is. */
#include "held.h"

#include "plain.c"

static struct dock held;

size_t plain_bytes(void) { return sizeof held; }
void plain_begin(void) { held = (struct dock){0}; }
uint32_t plain_step(uint16_t word) { return step(&held, word); }
uint8_t plain_register(uint8_t address) { return read_register(&held, address); }
uint16_t plain_pins(void) { return (uint16_t)outputs_of(&held); }

void plain_batch(const uint16_t *words, size_t words_len, uint8_t *records) {
    for (size_t i = 0; i < words_len; i++) {
        put_record(records + RECORD_BYTES * i, step(&held, words[i]));
    }
}
