/* A queue of waiting words in plain C, for the benchmark: in place, with the library's bytes, tests and answers. */
#ifndef PLAIN_QUEUE_H
#define PLAIN_QUEUE_H

#include <stdint.h>

uint32_t plain_queue_put(uint8_t *queue, uint64_t queue_len, uint16_t word);
uint32_t plain_queue_take(uint8_t *queue, uint64_t queue_len);

#endif
