/* Checks the calls of the queue from C: what they answer, and which bytes they change. The queue stands between guards,
 * and after each call the whole of it is compared with a copy, in which what the call should change was changed by
 * hand. Valid as C99 and as C++11. */
#include "dock.h"

#include <stdio.h>
#include <string.h>

#define GUARD 8u
#define PAINT 0xA5
#define COUNT(list) (sizeof(list) / sizeof((list)[0]))
#define LENGTHS (2u * DOCK_QUEUE_BYTES)
#define ROUNDS 3u

#define UNFIT 0x00010000u
#define FULL 0x00070000u
#define EMPTY 0x00080000u

static unsigned long checks, failures;

static void check(int good, const char *what, int line) {
    checks++;
    if (!good) {
        failures++;
        printf("queue_calls.c:%d: not so: %s\n", line, what);
    }
}
#define CHECK(good) check((good), #good, __LINE__)

static uint8_t buffer[GUARD + LENGTHS + GUARD], copy[GUARD + LENGTHS + GUARD];
static uint8_t *const queue = buffer + GUARD;
static uint8_t *const expected = copy + GUARD;

static void remember(void) { memcpy(copy, buffer, sizeof buffer); }
static int as_expected(void) { return memcmp(buffer, copy, sizeof buffer) == 0; }

/* ---- the bytes, by hand ---- */

static unsigned number_at(const uint8_t *bytes) { return (unsigned)bytes[0] << 8 | bytes[1]; }

static void set_number(uint8_t *bytes, unsigned number) {
    bytes[0] = (uint8_t)(number >> 8);
    bytes[1] = (uint8_t)(number & 0xFF);
}

static uint8_t *place(uint8_t *bytes, unsigned number) {
    return bytes + DOCK_QUEUE_AT_WORDS + 2 * (number % DOCK_QUEUE_WORDS);
}

/* Old words in every place, all different, so that one that moves or goes shows. */
static void make(unsigned start, unsigned count) {
    memset(buffer, PAINT, sizeof buffer);
    queue[DOCK_QUEUE_AT_VERSION] = DOCK_QUEUE_LAYOUT;
    set_number(queue + DOCK_QUEUE_AT_START, start);
    set_number(queue + DOCK_QUEUE_AT_COUNT, count);
    for (unsigned i = 0; i < DOCK_QUEUE_WORDS; i++) {
        set_number(place(queue, i), 0x8100 + 3 * i);
    }
    remember();
}

static void begin(void) {
    memset(buffer, PAINT, sizeof buffer);
    remember();
    memset(expected, 0, DOCK_QUEUE_BYTES);
    expected[0] = 1;
    CHECK(dock_queue_begin(queue, DOCK_QUEUE_BYTES) == 0);
    CHECK(as_expected());
}

/* ---- accepted calls, and refused ones ---- */

/* The count and the one place change, and nothing else. */
static void put(uint16_t word) {
    unsigned start = number_at(expected + DOCK_QUEUE_AT_START), count = number_at(expected + DOCK_QUEUE_AT_COUNT);
    set_number(place(expected, start + count), word);
    set_number(expected + DOCK_QUEUE_AT_COUNT, count + 1);
    CHECK(dock_queue_put(queue, DOCK_QUEUE_BYTES, word) == 0);
    CHECK(as_expected());
    CHECK(dock_queue_count(queue) == count + 1);
}

/* The start and the count change, and the word stays where it stood. */
static void take(uint16_t word) {
    unsigned start = number_at(expected + DOCK_QUEUE_AT_START), count = number_at(expected + DOCK_QUEUE_AT_COUNT);
    set_number(expected + DOCK_QUEUE_AT_START, start == DOCK_QUEUE_WORDS - 1 ? 0 : start + 1);
    set_number(expected + DOCK_QUEUE_AT_COUNT, count - 1);
    CHECK(dock_queue_take(queue, DOCK_QUEUE_BYTES) == word);
    CHECK(as_expected());
    CHECK(dock_queue_count(queue) == count - 1);
}

static void refuse_put(uint16_t word, uint32_t answer) {
    CHECK(dock_queue_put(queue, DOCK_QUEUE_BYTES, word) == answer);
    CHECK(as_expected());
}

static void refuse_take(uint32_t answer) {
    CHECK(dock_queue_take(queue, DOCK_QUEUE_BYTES) == answer);
    CHECK(as_expected());
}

static void refuse_both(uint32_t answer) {
    refuse_put(0x0000, answer);
    refuse_put(0xA000, answer);
    refuse_take(answer);
}

/* ---- tests ---- */

/* Each name stands for the byte that it says. */
static void test_begin(void) {
    begin();
    CHECK(queue[DOCK_QUEUE_AT_VERSION] == DOCK_QUEUE_LAYOUT && dock_queue_count(queue) == 0);
    CHECK(DOCK_QUEUE_AT_WORDS + 2 * DOCK_QUEUE_WORDS == DOCK_QUEUE_BYTES);
    CHECK(FULL >> 16 == DOCK_QUEUE_FULL && EMPTY >> 16 == DOCK_QUEUE_EMPTY && UNFIT >> 16 == DOCK_UNFIT_STATE);
    refuse_take(EMPTY);
    put(0x1234);
    CHECK(queue[3] == 0 && queue[4] == 1 && queue[5] == 0x12 && queue[6] == 0x34);
    take(0x1234);
    CHECK(queue[1] == 0 && queue[2] == 1 && queue[4] == 0 && queue[5] == 0x12 && queue[6] == 0x34);
    refuse_take(EMPTY);
    begin();
}

/* Bytes of another length are refused by all calls, and neither read nor written: here NULL serves as well. */
static void refuse_length(uint8_t *bytes, uint64_t length) {
    CHECK(dock_queue_begin(bytes, length) == UNFIT);
    CHECK(dock_queue_put(bytes, length, 0xA000) == UNFIT);
    CHECK(dock_queue_take(bytes, length) == UNFIT);
    CHECK(as_expected());
}

static void test_lengths(void) {
    make(5, 9);
    for (size_t length = 0; length <= LENGTHS; length++) {
        if (length != DOCK_QUEUE_BYTES) {
            refuse_length(queue, length);
            refuse_length(NULL, length);
        }
    }
    /* A length has 64 bits, and all of them count. */
    for (uint64_t more = 0x10000; more != 0; more *= 2) {
        refuse_length(queue, more + DOCK_QUEUE_BYTES);
        refuse_length(NULL, more);
    }
}

/* 0, FFFFh, words that dock_step would refuse, and every value of either byte. */
static void test_words(void) {
    CHECK(dock_refusal(dock_unpack(0xA001)) == DOCK_STRAY_BIT && dock_refusal(dock_unpack(0xFFFF)) == DOCK_STRAY_BIT);
    begin();
    for (unsigned value = 0; value < 256; value++) {
        uint16_t high = (uint16_t)(value << 8), low = (uint16_t)value, both = (uint16_t)(high | (255 - value));
        put(0xA001);
        put(high);
        put(low);
        put(both);
        take(0xA001);
        take(high);
        put(0xFFFF);
        put(0x0000);
        take(low);
        take(both);
        take(0xFFFF);
        take(0x0000);
        refuse_take(EMPTY);
    }
}

/* 128 fit and the 129th doesn't; each is given in its order, and a place that a take frees is used again. */
static void test_full(void) {
    for (unsigned start = 0; start < DOCK_QUEUE_WORDS; start += 31) {
        make(start, 0);
        for (unsigned i = 0; i < DOCK_QUEUE_WORDS; i++) {
            put((uint16_t)(0x4000 + 7 * i));
        }
        refuse_put(0x0000, FULL);
        refuse_put(0xFFFF, FULL);
        take(0x4000);
        put(0x2000);
        refuse_put(0x4000, FULL);
        for (unsigned i = 1; i < DOCK_QUEUE_WORDS; i++) {
            take((uint16_t)(0x4000 + 7 * i));
        }
        take(0x2000);
        refuse_take(EMPTY);
        refuse_take(EMPTY);
    }
}

/* So many wait, a word comes and a word goes, some times round: each is given as many puts later. */
static void test_round(void) {
    static const unsigned waiting[] = {0, 1, 2, 63, 64, 65, 126, 127};
    for (size_t which = 0; which < COUNT(waiting); which++) {
        unsigned ahead = waiting[which];
        begin();
        for (unsigned i = 0; i < ahead; i++) {
            put((uint16_t)(251 * i));
        }
        for (unsigned i = 0; i < ROUNDS * DOCK_QUEUE_WORDS; i++) {
            put((uint16_t)(251 * (i + ahead)));
            take((uint16_t)(251 * i));
        }
        CHECK(number_at(queue + DOCK_QUEUE_AT_START) == 0 && dock_queue_count(queue) == ahead);
    }
}

/* A put and a take from every start, on places that hold anything. */
static void test_every_start(void) {
    static const unsigned counts[] = {0, 1, 2, 100, 126, 127, 128};
    for (unsigned start = 0; start < DOCK_QUEUE_WORDS; start++) {
        for (size_t which = 0; which < COUNT(counts); which++) {
            make(start, counts[which]);
            if (counts[which] == DOCK_QUEUE_WORDS) {
                refuse_put(0xBEEF, FULL);
            } else {
                put(0xBEEF);
            }
            make(start, counts[which]);
            if (counts[which] == 0) {
                refuse_take(EMPTY);
            } else {
                take((uint16_t)number_at(place(queue, start)));
            }
        }
    }
}

/* What the two calls make of a queue with this start and this count: taken, full, empty, or unfit before all. */
static void try_numbers(unsigned start, unsigned count) {
    make(start, count);
    if (start >= DOCK_QUEUE_WORDS || count > DOCK_QUEUE_WORDS) {
        refuse_both(UNFIT);
        return;
    }
    if (count == DOCK_QUEUE_WORDS) {
        refuse_put(0xA000, FULL);
        take((uint16_t)number_at(place(queue, start)));
    } else {
        put(0xA000);
        take((uint16_t)number_at(place(queue, start)));
    }
}

/* Every value of each byte of the start and of the count, also beside one that is full, empty or unfit. */
static void test_numbers(void) {
    static const unsigned counts[] = {0, 1, 127, 128, 129, 0x8000, 0xFFFF};
    static const unsigned starts[] = {0, 1, 127, 128, 0x0100, 0x017F, 0xFFFF};
    for (size_t which = 0; which < COUNT(counts); which++) {
        for (unsigned value = 0; value < 256; value++) {
            try_numbers(value, counts[which]);
            try_numbers(value << 8 | 5, counts[which]);
            try_numbers(starts[which], value);
            try_numbers(starts[which], value << 8 | 5);
        }
    }
}

/* Another first byte is another layout, whatever the rest is. */
static void test_layouts(void) {
    static const unsigned counts[] = {0, 9, 128, 129};
    for (size_t which = 0; which < COUNT(counts); which++) {
        for (unsigned layout = 0; layout < 256; layout++) {
            make(5, counts[which]);
            queue[DOCK_QUEUE_AT_VERSION] = (uint8_t)layout;
            remember();
            if (layout != DOCK_QUEUE_LAYOUT) {
                refuse_both(UNFIT);
            }
        }
    }
}

int main(void) {
    test_begin();
    test_lengths();
    test_words();
    test_full();
    test_round();
    test_every_start();
    test_numbers();
    test_layouts();
    printf("queue calls: %lu checks, %lu failed\n", checks, failures);
    return failures != 0;
}
