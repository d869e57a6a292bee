/* Words as a dock may meet them, and as it never should, from a seed: the same ones on every processor. */
#ifndef WORDS_H
#define WORDS_H

#include <stdint.h>

#define SCENE_WORDS 224u

struct words {
    uint32_t random;
    uint16_t scene[SCENE_WORDS]; /* the scene that is being played: a command, a press, some ticks .. */
    unsigned length, next;
    uint8_t own;    /* the address byte for writing that the last RESET gave */
    uint8_t levels; /* as the last PINS or RESET gave them */
};

/* Words for the dock whose state this is, mostly a RESET first where it has had none. */
void words_begin(struct words *words, uint32_t seed, const uint8_t *state);

uint16_t words_next(struct words *words);

#endif
