/* Plays words to the library and, beside it, to the C controller, and tells what came of them. It reads what to play,
 * one thing on a line, and prints the same on every processor: where two libraries print the same, they did the same.
 *
 *   begin                  a fresh state
 *   kind N                 names a kind of controller: prints the refusal
 *   words HHHH ..          these words, one step each: prints each record
 *   stream SEED COUNT      so many words from a seed, one step each
 *   batches SEED COUNT     the same, in batches of 1 to 32
 *   save, load HEX         prints the state as hex digits, or goes on from one
 *   registers              what all 256 addresses read, outside the bus, as a sum, and the outputs
 *   situations             what the steps so far came to; one that they did not come to counts as a difference
 *
 * A stream and its batches, whose words are meant for the first kind, print a sum over every record and every image on
 * the way. It ends with how many words were
 * played and how many differences there were between the two controllers; the status is 0 where there was none. */
#include "../plain/held.h"
#include "dock.h"
#include "situations.h"
#include "words.h"

#include <stdio.h>
#include <string.h>

enum { LINE_BYTES = 256, BATCH_WORDS = 32, MISUSED = 2 };

/* Fowler, Noll and Vo's sum, of 32 bits. */
#define SUM_START 2166136261u
#define SUM_FACTOR 16777619u

static uint8_t state[DOCK_STATE_BYTES];
static struct words words;
/* The C controller has no image to go on from, so it stands aside after a load until a RESET; and it is of the first
 * kind, so it stands aside from a RESET into the second. */
static int beside;
static unsigned long played, differences;
static uint32_t sum;

/* ---- one word, one batch ---- */

static void add(const uint8_t *bytes, unsigned length) {
    for (unsigned i = 0; i < length; i++) {
        sum = (sum ^ bytes[i]) * SUM_FACTOR;
    }
}

static void compare(uint16_t word, uint32_t record) {
    uint32_t other = plain_step(word);
    if (dock_kind(word) == DOCK_RESET) {
        beside = !state[DOCK_AT_NAMED];
    }
    if (beside && record != other && differences++ < 10) {
        printf("  %04X: library %08lX, C controller %08lX\n", (unsigned)word, (unsigned long)record,
               (unsigned long)other);
    }
    played++;
}

static uint32_t step(uint16_t word) {
    uint8_t before[DOCK_STATE_BYTES], bytes[DOCK_RECORD_BYTES];
    memcpy(before, state, sizeof state);
    uint32_t record = dock_step(state, sizeof state, word);
    for (int i = 0; i < 4; i++) {
        bytes[i] = (uint8_t)(record >> (24 - 8 * i));
    }
    add(bytes, sizeof bytes);
    add(state, sizeof state);
    situations_see(before, state, record);
    compare(word, record);
    return record;
}

static void batch(const uint16_t *list, unsigned length) {
    static uint8_t records[BATCH_WORDS * DOCK_RECORD_BYTES];
    uint32_t answer = dock_batch(state, sizeof state, list, length, records, sizeof records);
    if (answer != length) {
        differences++;
    }
    add(records, length * DOCK_RECORD_BYTES);
    add(state, sizeof state);
    for (unsigned i = 0; i < length; i++) {
        compare(list[i], dock_record(records + DOCK_RECORD_BYTES * i));
    }
}

/* ---- lines ---- */

static void begin(void) {
    dock_begin(state, sizeof state);
    plain_begin();
    beside = 1;
}

static void name(unsigned kind) {
    uint32_t answer = dock_name_kind(state, sizeof state, (uint8_t)kind);
    printf("  refusal %lu\n", (unsigned long)dock_refusal(answer));
}

static void play_stream(unsigned seed, unsigned count) {
    sum = SUM_START;
    words_begin(&words, seed, state);
    for (unsigned i = 0; i < count; i++) {
        step(words_next(&words));
    }
    printf("  sum %08lX\n", (unsigned long)sum);
}

static void play_batches(unsigned seed, unsigned count) {
    static uint16_t list[BATCH_WORDS];
    sum = SUM_START;
    words_begin(&words, seed, state);
    for (unsigned done = 0, length; done < count; done += length) {
        length = 1 + done % BATCH_WORDS;
        length = length < count - done ? length : count - done;
        for (unsigned i = 0; i < length; i++) {
            list[i] = words_next(&words);
        }
        batch(list, length);
    }
    printf("  sum %08lX\n", (unsigned long)sum);
}

/* Each a space and four digits. 0 where one is not. */
static int play_words(const char *at) {
    unsigned word;
    for (; *at != '\0'; at += strlen(" HHHH")) {
        if (strlen(at) < strlen(" HHHH") || sscanf(at, " %x", &word) != 1) {
            return 0;
        }
        printf("  %08lX\n", (unsigned long)step((uint16_t)word));
    }
    return 1;
}

static void save(void) {
    printf("  ");
    for (unsigned i = 0; i < sizeof state; i++) {
        printf("%02X", (unsigned)state[i]);
    }
    puts("");
}

/* Bytes that are no image are told by the library's refusal, and the state stays as it was. 0 where these are not the
 * digits of as many bytes as a state has. */
static int load(const char *hex) {
    uint8_t bytes[DOCK_STATE_BYTES];
    unsigned high, low;
    if (strlen(hex) != 2 * sizeof bytes) {
        return 0;
    }
    for (unsigned i = 0; i < sizeof bytes; i++) {
        char pair[4] = {hex[2 * i], ' ', hex[2 * i + 1], '\0'};
        if (sscanf(pair, "%x %x", &high, &low) != 2) {
            return 0;
        }
        bytes[i] = (uint8_t)(high << 4 | low);
    }
    uint32_t outputs = dock_outputs(bytes, sizeof bytes);
    printf("  refusal %lu, outputs %03X\n", (unsigned long)dock_refusal(outputs), (unsigned)dock_value(outputs));
    if (dock_refusal(outputs) == DOCK_ACCEPTED) {
        memcpy(state, bytes, sizeof state);
        beside = 0;
    }
    return 1;
}

static void ask_registers(void) {
    sum = SUM_START;
    for (unsigned address = 0; address < 256; address++) {
        uint32_t reading = dock_reading(state, sizeof state, (uint8_t)address);
        uint8_t byte = (uint8_t)dock_value(reading);
        differences += dock_refusal(reading) != DOCK_ACCEPTED;
        differences += beside && byte != plain_register((uint8_t)address);
        add(&byte, 1);
    }
    unsigned outputs = dock_value(dock_outputs(state, sizeof state));
    differences += beside && outputs != plain_pins();
    printf("  sum %08lX, outputs %03X\n", (unsigned long)sum, outputs);
}

/* 0 where the line is not understood. */
static int play(const char *line) {
    unsigned kind, seed, count;
    if (strcmp(line, "begin") == 0) {
        begin();
    } else if (sscanf(line, "kind %u", &kind) == 1) {
        name(kind);
    } else if (memcmp(line, "words ", 6) == 0) {
        return play_words(line + 5);
    } else if (sscanf(line, "stream %u %u", &seed, &count) == 2) {
        play_stream(seed, count);
    } else if (sscanf(line, "batches %u %u", &seed, &count) == 2) {
        play_batches(seed, count);
    } else if (strcmp(line, "save") == 0) {
        save();
    } else if (memcmp(line, "load ", 5) == 0) {
        return load(line + 5);
    } else if (strcmp(line, "registers") == 0) {
        ask_registers();
    } else if (strcmp(line, "situations") == 0) {
        differences += situations_missing();
    } else {
        return 0;
    }
    return 1;
}

int main(void) {
    static char line[LINE_BYTES];
    begin();
    while (fgets(line, sizeof line, stdin) != NULL) {
        line[strcspn(line, "\n")] = '\0';
        printf("> %s\n", line);
        if (!play(line)) {
            puts("  not understood");
            return MISUSED;
        }
    }
    printf("%lu words, %lu differences\n", played, differences);
    return differences > 0;
}
