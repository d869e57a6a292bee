#include "queue.h"

enum { BYTES = 261, LAYOUT = 1, WORDS = 128 };
enum { AT_VERSION = 0, AT_START = 1, AT_COUNT = 3, AT_WORDS = 5 };
enum { UNFIT = 1, FULL = 7, EMPTY = 8 };

static uint32_t refused(uint32_t number) { return number << 16; }

static unsigned get(const uint8_t *bytes) { return (unsigned)bytes[0] << 8 | bytes[1]; }

static void set(uint8_t *bytes, unsigned number) {
    bytes[0] = (uint8_t)(number >> 8);
    bytes[1] = (uint8_t)(number & 0xFF);
}

static int fits(const uint8_t *queue, uint64_t queue_len) {
    return queue_len == BYTES && queue[AT_VERSION] == LAYOUT && get(queue + AT_START) < WORDS &&
           get(queue + AT_COUNT) <= WORDS;
}

uint32_t plain_queue_put(uint8_t *queue, uint64_t queue_len, uint16_t word) {
    if (!fits(queue, queue_len)) {
        return refused(UNFIT);
    }
    unsigned count = get(queue + AT_COUNT);
    if (count == WORDS) {
        return refused(FULL);
    }
    set(queue + AT_WORDS + 2 * ((get(queue + AT_START) + count) % WORDS), word);
    set(queue + AT_COUNT, count + 1);
    return 0;
}

uint32_t plain_queue_take(uint8_t *queue, uint64_t queue_len) {
    if (!fits(queue, queue_len)) {
        return refused(UNFIT);
    }
    unsigned start = get(queue + AT_START), count = get(queue + AT_COUNT);
    if (count == 0) {
        return refused(EMPTY);
    }
    set(queue + AT_START, (start + 1) % WORDS);
    set(queue + AT_COUNT, count - 1);
    return get(queue + AT_WORDS + 2 * start);
}
