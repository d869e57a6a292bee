/* The C controller, which is of the first kind alone, with a state that it keeps, one event at a time, as a firmware
 * without the library would have it. It tests nothing that it is given but the word. */
#ifndef PLAIN_HELD_H
#define PLAIN_HELD_H

#include <stddef.h>
#include <stdint.h>

size_t plain_bytes(void); /* of the state */
void plain_begin(void);
uint32_t plain_step(uint16_t word);
void plain_batch(const uint16_t *words, size_t words_len, uint8_t *records);
uint8_t plain_register(uint8_t address);
uint16_t plain_pins(void);

#endif
