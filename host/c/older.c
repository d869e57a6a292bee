/* Programs that were built on older headers and linked with the library of today. All ask whether it is theirs and are
 * told that it is not; what they see where they go on all the same is told here, so that nothing is misread silently.
 *
 * One was built on the header of version 2.1: its declarations are that header's, and it packs and unpacks every event.
 * The others were built on those of 3.1 and 4.0, and their states have 51 and 54 bytes. */
#include <stdint.h>
#include <stdio.h>
#include <string.h>

uint32_t dock_version(void);
uint32_t dock_begin(uint8_t *state, size_t state_len);
uint32_t dock_step(uint8_t *state, size_t state_len, uint16_t word);
uint32_t dock_batch(uint8_t *state, size_t state_len, const uint16_t *words, size_t words_len, uint8_t *records,
                    size_t records_len);
uint32_t dock_reading(const uint8_t *state, size_t state_len, uint8_t address);
uint32_t dock_outputs(const uint8_t *state, size_t state_len);
uint32_t dock_replay(const uint16_t *words, size_t words_len, uint8_t *records, size_t records_len);
uint32_t dock_pack(uint8_t kind, uint8_t first, uint8_t second);
uint32_t dock_unpack(uint16_t word);

#define GUARD 16u

static uint32_t refusal(uint32_t answer) { return answer >> 16; }
static uint8_t first(uint32_t answer) { return (uint8_t)(answer >> 8 & 0xFFu); }
static uint8_t second(uint32_t answer) { return (uint8_t)(answer & 0xFFu); }

static unsigned long checks, failed;

static void check(int good, const char *what, unsigned long number) {
    checks++;
    if (!good && failed++ < 10) {
        printf("older: %s, %lX\n", what, number);
    }
}

/* The question of each header, which has its own version in it. */
static void ask_version(void) {
    static const uint32_t built_on[] = {0x0200, 0x0201, 0x0300, 0x0301, 0x0400};
    for (size_t i = 0; i < sizeof built_on / sizeof built_on[0]; i++) {
        check(dock_version() >> 8 != built_on[i] >> 8, "taken for its library", built_on[i]);
    }
}

/* A word is what it was, or looks refused: with 2 as before, or with 256 where it is a RESET with the short pulse. */
static void unpack_all(void) {
    for (unsigned long number = 0; number <= 0xFFFF; number++) {
        uint16_t word = (uint16_t)number;
        uint32_t answer = dock_unpack(word);
        if (word >> 12 == 0xD) {
            check(refusal(answer) == 256, "a RESET with the short pulse does not look refused", number);
        } else if (refusal(answer) == 0) {
            check(dock_pack((uint8_t)(word >> 13), first(answer), second(answer)) == word, "misread", number);
        } else {
            check(answer == 2u << 16, "refused otherwise", number);
        }
    }
}

/* An event of version 2.1 is the word that it was, and numbers that were refused still are. */
static uint32_t packed(unsigned kind, unsigned one, unsigned two) {
    static const unsigned most[8] = {0, 0, 255, 1, 255, 0, 15, 0};
    if (kind > 7 || (kind != 6 && (one > most[kind] || two != 0))) {
        return 2u << 16;
    }
    return one > most[kind] ? 6u << 16 : kind << 13 | (kind == 6 ? one << 8 | two : one);
}

static void pack_all(void) {
    for (unsigned kind = 0; kind < 10; kind++) {
        for (unsigned numbers = 0; numbers <= 0xFFFF; numbers++) {
            uint8_t one = (uint8_t)(numbers >> 8);
            uint8_t two = (uint8_t)(numbers & 0xFFu);
            check(dock_pack((uint8_t)kind, one, two) == packed(kind, one, two), "packed otherwise", kind << 16 | numbers);
        }
    }
}

/* What a library saved after a RESET with a USB device in bay 0: flags of bay 0 with the device and DEVSTSCHG, and of
 * bay 1. */
#define BAY_FLAGS 1, 0, 1, 1, 0, 1, 1, 0, 1, 0, 0, 0, 0, 0, 1, 1, 1, 1, 1, 1, 1, 0, 0, 0, 0, 0, 0, 0

/* Library 3.1, layout 2. */
static const uint8_t SAVED_3_1[51] = {
    2, 1, 0, 0, BAY_FLAGS,                       /* layout, started */
    0, 0, 1, 0,                                  /* LETR */
    0, 0, 0, 0, 0, 0, 0, 0, 0, 0, 0, 0, 0, 0, 0, /* no counts, no command */
};

/* Library 4.0, layout 3. */
static const uint8_t SAVED_4_0[54] = {
    3, 1, 0, 0, BAY_FLAGS,                             /* layout, started */
    0, 0, 1, 0, 0,                                     /* LETR, no wait */
    0, 0, 0, 0, 0, 0, 0, 0, 0, 0, 0, 0, 0, 0, 0, 0, 0, /* no counts, no command */
};

static const uint16_t RESET_AND_TICK[] = {0xC0BF, 0xA000};

/* Every call that takes a state refuses it with 1. NULL does as well, so the state is not even read. */
static void refuse_state(uint8_t *state, size_t length, uint8_t *records) {
    unsigned long number = (unsigned long)length << 4 | (state == NULL);
    check(dock_begin(state, length) == 1u << 16, "begun", number);
    check(dock_step(state, length, 0xC0BF) == 1u << 28, "stepped", number);
    check(dock_batch(state, length, RESET_AND_TICK, 2, records, 8) == 1u << 16, "batched", number);
    check(dock_reading(state, length, 0x10) == 1u << 16, "read", number);
    check(dock_outputs(state, length) == 1u << 16, "asked for outputs", number);
}

/* A state that was saved and one that was never begun; a byte beside it is another variable of the program. */
static void refuse_all_states(const uint8_t *saved, size_t length) {
    static uint8_t bytes[GUARD + sizeof SAVED_4_0 + GUARD], before[sizeof bytes], records[8];
    static const uint8_t untouched[sizeof records];
    for (int begun = 0; begun < 2; begun++) {
        memset(bytes, 0xA5, sizeof bytes);
        if (begun) {
            memcpy(bytes + GUARD, saved, length);
        }
        memcpy(before, bytes, sizeof bytes);
        refuse_state(bytes + GUARD, length, records);
        check(memcmp(bytes, before, sizeof bytes) == 0, "a state written", (unsigned long)begun);
    }
    refuse_state(NULL, length, records);
    check(memcmp(records, untouched, sizeof records) == 0, "records written", 0);
}

/* A replay takes no state, and a program that knows nothing of 42h or of kinds sees what it saw: the trace of document
 * 01. */
static void replay_trace(void) {
    static const uint16_t trace[] = {0xC0BF, 0x0000, 0x4090, 0x4014, 0x4004, 0x2000,
                                     0x0000, 0x4090, 0x4010, 0x0000, 0x4091, 0x6000};
    static const uint8_t last[4] = {0x06, 0x2A, 0x41, 0x00};
    static uint8_t records[sizeof trace / sizeof trace[0] * 4];
    check(dock_replay(trace, 12, records, sizeof records) == 12, "a replay refused", 0);
    check(memcmp(records + sizeof records - 4, last, 4) == 0, "replayed otherwise", 0);
}

int main(void) {
    ask_version();
    unpack_all();
    pack_all();
    refuse_all_states(SAVED_3_1, sizeof SAVED_3_1);
    refuse_all_states(SAVED_4_0, sizeof SAVED_4_0);
    replay_trace();
    printf("older: %lu checks, %lu failed\n", checks, failed);
    return failed != 0;
}
