/* Checks the calls of the wire cell from C: what they answer, and that they touch nothing else. Every buffer stands
 * between guards, and the whole of it is compared. Valid as C99 and as C++11. What the cell makes of samples is compared
 * with the model's by wire/; here it is the boundary. */
#include "dock.h"

#include <stdio.h>
#include <string.h>

#define GUARD 8u
#define PAINT 0xA5
#define COUNT(list) (sizeof(list) / sizeof((list)[0]))
#define LENGTHS (3u * DOCK_WIRE_BYTES)

static unsigned long checks, failures;

static void check(int good, const char *what, int line) {
    checks++;
    if (!good) {
        failures++;
        printf("wire_calls.c:%d: not so: %s\n", line, what);
    }
}
#define CHECK(good) check((good), #good, __LINE__)

static uint8_t held_buffer[GUARD + LENGTHS + GUARD], held_copy[GUARD + LENGTHS + GUARD];
static uint16_t word_buffer[GUARD + DOCK_MOST_SAMPLES + GUARD], word_copy[GUARD + DOCK_MOST_SAMPLES + GUARD];
static uint8_t *const held = held_buffer + GUARD;
static uint16_t *const words = word_buffer + GUARD;
static uint8_t samples[DOCK_MOST_SAMPLES + 1];

static void remember(void) {
    memcpy(held_copy, held_buffer, sizeof held_buffer);
    memcpy(word_copy, word_buffer, sizeof word_buffer);
}

/* Whether nothing changed since it was remembered but so many held bytes and words. */
static int only_changed(size_t bytes, size_t places) {
    size_t behind = GUARD + bytes, after = GUARD + places;
    return memcmp(held_buffer, held_copy, GUARD) == 0 && memcmp(word_buffer, word_copy, GUARD * sizeof *words) == 0 &&
           memcmp(held_buffer + behind, held_copy + behind, sizeof held_buffer - behind) == 0 &&
           memcmp(word_buffer + after, word_copy + after, sizeof word_buffer - after * sizeof *words) == 0;
}

static int untouched(void) { return only_changed(0, 0); }

static void begin(void) {
    memset(held_buffer, PAINT, sizeof held_buffer);
    memset(word_buffer, PAINT, sizeof word_buffer);
    remember();
    CHECK(dock_wire_begin(held, DOCK_WIRE_BYTES) == 0);
    CHECK(only_changed(DOCK_WIRE_BYTES, 0));
    remember();
}

/* ---- a story: the own read byte, a byte that the host ACKs, one that it doesn't, a STOP ---- */

static uint8_t story[512];
static size_t story_len;

static void put(int clock, int data) {
    story[story_len++] = (uint8_t)((clock ? DOCK_SCLK : 0) | (data ? DOCK_SDAT : 0));
}

static void put_bit(int bit) {
    put(0, bit);
    put(1, bit);
    put(0, bit);
}

static void put_nine(unsigned value, int ninth) {
    for (int place = 7; place >= 0; place--) {
        put_bit((int)(value >> place & 1u));
    }
    put_bit(ninth);
}

static void make_story(void) {
    story_len = 0;
    put(1, 1);
    put(1, 0);
    put_nine(0x91, 0);
    put_nine(0x55, 0);
    put_nine(0x10, 1);
    put(0, 0);
    put(1, 0);
    put(1, 1);
}

static const uint16_t STORY_WORDS[] = {0x0000, 0x4091, 0x6001, 0x6000, 0x2000};

static void test_begin(void) {
    static const uint8_t fresh[DOCK_WIRE_BYTES] = {DOCK_WIRE_LAYOUT, 1, DOCK_HEARS_NOTHING, 0, 0, 0, 0};
    begin();
    CHECK(memcmp(held, fresh, sizeof fresh) == 0);
    CHECK(dock_wire_low(held) == 0);
}

/* Held bytes of another length are refused by both calls, and neither read nor written: here NULL serves as well. */
static void refuse_length(uint8_t *bytes, uint64_t length) {
    CHECK(dock_wire_begin(bytes, length) == 0x00010000u);
    CHECK(dock_wire_listen(bytes, length, story, 2, words, 2) == 0x00010000u);
    CHECK(untouched());
}

static void test_lengths(void) {
    for (size_t length = 0; length <= LENGTHS; length++) {
        if (length == DOCK_WIRE_BYTES) {
            continue;
        }
        begin();
        refuse_length(held, length);
        refuse_length(NULL, length);
    }
    /* A length has 64 bits, and all of them count. */
    for (uint64_t more = 0x10000; more != 0; more *= 2) {
        begin();
        refuse_length(held, more + DOCK_WIRE_BYTES);
        refuse_length(NULL, more);
    }
}

static void test_empty_lists(void) {
    begin();
    CHECK(dock_wire_listen(held, DOCK_WIRE_BYTES, NULL, 0, NULL, 0) == 0);
    CHECK(dock_wire_listen(held, DOCK_WIRE_BYTES, samples, 0, words, 0) == 0);
    CHECK(dock_wire_listen(held, DOCK_WIRE_BYTES, NULL, 0, words, DOCK_MOST_SAMPLES) == 0);
    CHECK(dock_wire_listen(NULL, 0, NULL, 0, NULL, 0) == 0x00010000u);
    CHECK(dock_wire_listen(held, DOCK_WIRE_BYTES, story, 1, NULL, 0) == 0x00040000u);
    CHECK(untouched());
}

/* Refusals 1, 5 and 4, in that order, and the most samples that are taken. */
static void test_order(void) {
    memset(samples, DOCK_SCLK, sizeof samples);
    begin();
    CHECK(dock_wire_listen(held, DOCK_WIRE_BYTES, samples, DOCK_MOST_SAMPLES + 1, words, 3) == 0x00050000u);
    CHECK(dock_wire_listen(held, DOCK_WIRE_BYTES, samples, DOCK_MOST_SAMPLES, words, DOCK_MOST_SAMPLES - 1) ==
          0x00040000u);
    CHECK(dock_wire_listen(held, DOCK_WIRE_BYTES, samples, 3, words, 2) == 0x00040000u);
    CHECK(untouched());
    held[DOCK_WIRE_AT_BITS] = 9;
    remember();
    CHECK(dock_wire_listen(held, DOCK_WIRE_BYTES, samples, DOCK_MOST_SAMPLES + 1, words, 3) == 0x00010000u);
    CHECK(dock_wire_listen(held, DOCK_WIRE_BYTES, samples, 3, words, 2) == 0x00010000u);
    CHECK(dock_wire_listen(held, DOCK_WIRE_BYTES, NULL, 0, NULL, 0) == 0x00010000u);
    CHECK(untouched());
    begin();
    CHECK(dock_wire_listen(held, DOCK_WIRE_BYTES, samples, DOCK_MOST_SAMPLES, words, DOCK_MOST_SAMPLES) == 1);
    CHECK(only_changed(DOCK_WIRE_BYTES, 1) && words[0] == 0x0000);
    /* Moved on every sample, so that every sample gives a word. */
    for (size_t i = 0; i < DOCK_MOST_SAMPLES; i++) {
        samples[i] = (uint8_t)(DOCK_SCLK | (i % 2 == 0 ? 0 : DOCK_SDAT));
    }
    begin();
    CHECK(dock_wire_listen(held, DOCK_WIRE_BYTES, samples, DOCK_MOST_SAMPLES, words, DOCK_MOST_SAMPLES) ==
          DOCK_MOST_SAMPLES);
    CHECK(only_changed(DOCK_WIRE_BYTES, DOCK_MOST_SAMPLES));
    CHECK(words[DOCK_MOST_SAMPLES - 2] == 0x0000 && words[DOCK_MOST_SAMPLES - 1] == 0x2000);
}

/* Every value of every byte of a fresh image: taken as it is, or refused and left. */
static void test_damage(void) {
    static const unsigned least[DOCK_WIRE_BYTES] = {1, 0, 0, 0, 0, 0, 0};
    static const unsigned most[DOCK_WIRE_BYTES] = {1, 1, 3, 8, 255, 0x44, 255};
    for (size_t at = 0; at < DOCK_WIRE_BYTES; at++) {
        for (unsigned value = 0; value < 256; value++) {
            int fit = value >= least[at] && value <= most[at];
            begin();
            held[at] = (uint8_t)value;
            remember();
            CHECK(dock_wire_listen(held, DOCK_WIRE_BYTES, story, 0, words, 8) == (fit ? 0u : 0x00010000u));
            CHECK(fit || dock_wire_listen(held, DOCK_WIRE_BYTES, story, 8, words, 8) == 0x00010000u);
            CHECK(untouched());
        }
    }
    for (unsigned run = 17499; run <= 17503; run++) {
        begin();
        held[DOCK_WIRE_AT_LOW] = (uint8_t)(run >> 8);
        held[DOCK_WIRE_AT_LOW + 1] = (uint8_t)(run & 0xFF);
        remember();
        CHECK(dock_wire_low(held) == run);
        CHECK(dock_wire_listen(held, DOCK_WIRE_BYTES, NULL, 0, NULL, 0) == (run <= 17501 ? 0u : 0x00010000u));
        CHECK(untouched());
    }
}

/* In one call, and cut anywhere into two, of which either may be empty. */
static void test_story(void) {
    uint8_t end[DOCK_WIRE_BYTES];
    begin();
    CHECK(dock_wire_listen(held, DOCK_WIRE_BYTES, story, story_len, words, story_len) == COUNT(STORY_WORDS));
    CHECK(only_changed(DOCK_WIRE_BYTES, COUNT(STORY_WORDS)));
    CHECK(memcmp(words, STORY_WORDS, sizeof STORY_WORDS) == 0);
    memcpy(end, held, sizeof end);
    for (size_t cut = 0; cut <= story_len; cut++) {
        uint32_t first, second;
        begin();
        first = dock_wire_listen(held, DOCK_WIRE_BYTES, story, cut, words, cut);
        second = dock_wire_listen(held, DOCK_WIRE_BYTES, story + cut, story_len - cut, words + first, story_len - cut);
        CHECK(first + second == COUNT(STORY_WORDS));
        CHECK(only_changed(DOCK_WIRE_BYTES, COUNT(STORY_WORDS)));
        CHECK(memcmp(words, STORY_WORDS, sizeof STORY_WORDS) == 0 && memcmp(held, end, sizeof end) == 0);
    }
}

/* Field by field, so that each name stands for the byte that it says. */
static void test_fields(void) {
    static const uint8_t first_bit[] = {DOCK_SCLK, 0, DOCK_SDAT, DOCK_SCLK | DOCK_SDAT};
    static const uint8_t low[] = {DOCK_SDAT, 0, 0};
    begin();
    CHECK(dock_wire_listen(held, DOCK_WIRE_BYTES, first_bit, sizeof first_bit, words, sizeof first_bit) == 1);
    CHECK(held[DOCK_WIRE_AT_VERSION] == DOCK_WIRE_LAYOUT && held[DOCK_WIRE_AT_SDAT] == 1);
    CHECK(held[DOCK_WIRE_AT_LISTENING] == DOCK_HEARS_FIRST_BYTE && dock_wire_low(held) == 0);
    CHECK(held[DOCK_WIRE_AT_BITS] == 1 && held[DOCK_WIRE_AT_VALUE] == 1);
    CHECK(dock_wire_listen(held, DOCK_WIRE_BYTES, low, sizeof low, words, sizeof low) == 0);
    CHECK(held[DOCK_WIRE_AT_SDAT] == 0 && dock_wire_low(held) == 3);
    /* Up to the ninth bit of the first byte, and past it. */
    for (size_t at = 2; at <= 2 + 3 * 9; at++) {
        begin();
        dock_wire_listen(held, DOCK_WIRE_BYTES, story, at, words, at);
        CHECK(held[DOCK_WIRE_AT_LISTENING] == (at < 2 + 3 * 9 - 1 ? DOCK_HEARS_FIRST_BYTE : DOCK_HEARS_TAKES));
        CHECK(held[DOCK_WIRE_AT_BITS] == (at - 1) / 3 % 9);
    }
}

/* One word for the whole stretch, with the first sample past 35 ms. */
static void test_timeout(void) {
    memset(samples, 0, sizeof samples);
    begin();
    CHECK(dock_wire_listen(held, DOCK_WIRE_BYTES, samples, 16000, words, 16000) == 0);
    CHECK(dock_wire_listen(held, DOCK_WIRE_BYTES, samples, 1500, words, 1500) == 0);
    CHECK(dock_wire_low(held) == 17500 && untouched() == 0 && only_changed(DOCK_WIRE_BYTES, 0));
    CHECK(dock_wire_listen(held, DOCK_WIRE_BYTES, samples, 1500, words, 1500) == 1 && words[0] == 0xE000);
    CHECK(dock_wire_low(held) == 17501 && only_changed(DOCK_WIRE_BYTES, 1));
    CHECK(dock_wire_listen(held, DOCK_WIRE_BYTES, samples, 16384, words, 16384) == 0);
    CHECK(dock_wire_low(held) == 17501 && held[DOCK_WIRE_AT_LISTENING] == DOCK_HEARS_NOTHING);
}

int main(void) {
    make_story();
    test_begin();
    test_lengths();
    test_empty_lists();
    test_order();
    test_damage();
    test_story();
    test_fields();
    test_timeout();
    printf("wire calls: %lu checks, %lu failed\n", checks, failures);
    return failures != 0;
}
