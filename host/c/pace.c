/* The library and the C controller on the same words, the wire cells of both on the same samples, the queues of both,
 * and the chassis of both, made by one compiler: `pace REPEATS` tells the nanoseconds for each event, for each sample,
 * for each word that is put and taken and for each call of a chassis on the machine itself, medians of so many runs of
 * each, which take turns. With PACE_COUNT
 * defined it is a program without a system, `pace LIST SIDE COUNT`, that only gives the words, or the samples, to one
 * side, for an emulator to count the instructions. The lists are those of speed/src/lists.rs and speed/src/wire.rs; the
 * lists of samples come after those of words, then the words that go through a queue, which are the mix, and then the
 * lists of words again, for a chassis. */
#include "chassis.h"
#include "dock.h"
#include "held.h"
#include "queue.h"
#include "wire.h"

#include <stddef.h>
#include <stdint.h>

enum { WORDS = 16384, PART = 256, LISTS = 3, SIDES = 4 };
enum { SAMPLES = DOCK_MOST_SAMPLES, SAMPLE_PART = 512, SAMPLE_LISTS = 3 };

static const uint16_t RESET = 0xC0BF, STOP = 0x2000, BYTE = 0x4000, TAKE_NACK = 0x6000, TICK = 0xA000;
static const uint16_t LOCKED_RESET = 0xC2BF;
static const uint16_t DEVICE = 0x80BF, DEVICE_AND_BUTTON = 0x809F, NOTHING = 0x80FF;
static const uint16_t START = 0x0000, OWN_WRITE = 0x90, OWN_READ = 0x91;

static uint16_t words[LISTS][WORDS];
static uint8_t records[SIDES][DOCK_RECORD_BYTES * WORDS];
static uint16_t part[PART];
static size_t part_length;

static void put(uint16_t word) { part[part_length++] = word; }

static void put_byte(uint16_t byte) { put((uint16_t)(BYTE + byte)); }

static void put_ticks(int count) {
    for (int i = 0; i < count; i++) {
        put(TICK);
    }
}

static void put_write(uint16_t address, uint16_t value) {
    put(START);
    put_byte(OWN_WRITE);
    put_byte(address);
    put_byte(value);
    put(STOP);
}

static void put_read(uint16_t address) {
    put(START);
    put_byte(OWN_WRITE);
    put_byte(address);
    put(START);
    put_byte(OWN_READ);
    put(TAKE_NACK);
    put(STOP);
}

/* A RESET, then the part over and over. */
static void repeat_part(uint16_t *list) {
    size_t at = 0;
    list[0] = RESET;
    for (size_t i = 1; i < WORDS; i++) {
        list[i] = part[at];
        at = at + 1 == part_length ? 0 : at + 1;
    }
    part_length = 0;
}

static void make_lists(void) {
    put_ticks(1);
    repeat_part(words[0]);

    put_write(0x14, 0xAC);
    put_read(0x10);
    put_write(0x10, 0x04);
    put_read(0x14);
    put_write(0x1C, 0x0C);
    put_read(0x18);
    put_write(0x40, 0x01);
    put_read(0x0C);
    repeat_part(words[1]);

    put(DEVICE);
    put_ticks(10);
    put_read(0x10);
    put_write(0x10, 0x04);
    put_write(0x14, 0xAD);
    put_ticks(100);
    put(DEVICE_AND_BUTTON);
    put_ticks(10);
    put_read(0x10);
    put_write(0x10, 0x08);
    put(DEVICE);
    put_ticks(10);
    put_write(0x14, 0x4C);
    put(NOTHING);
    put_ticks(10);
    put_read(0x10);
    repeat_part(words[2]);
}

/* ---- samples ---- */

static uint8_t samples[SAMPLE_LISTS][SAMPLES];
static uint16_t heard[SIDES][SAMPLES];
static uint8_t sample_part[SAMPLE_PART];
static size_t sample_part_length;

static void put_sample(int sample) { sample_part[sample_part_length++] = (uint8_t)sample; }

/* Five samples for each bit, which is 100 kHz. */
static void put_bit(int bit) {
    put_sample(bit);
    put_sample(bit);
    put_sample(DOCK_SCLK | bit);
    put_sample(DOCK_SCLK | bit);
    put_sample(bit);
}

static void put_nine(int value, int ninth) {
    for (int place = 7; place >= 0; place--) {
        put_bit(value >> place & 1);
    }
    put_bit(ninth);
}

static void put_start(void) {
    put_sample(DOCK_SDAT);
    put_sample(DOCK_SCLK | DOCK_SDAT);
    put_sample(DOCK_SCLK | DOCK_SDAT);
    put_sample(DOCK_SCLK);
    put_sample(0);
}

static void put_stop(void) {
    put_sample(0);
    put_sample(DOCK_SCLK);
    put_sample(DOCK_SCLK);
    put_sample(DOCK_SCLK | DOCK_SDAT);
    put_sample(DOCK_SCLK | DOCK_SDAT);
}

static void repeat_samples(uint8_t *list) {
    size_t at = 0;
    for (size_t i = 0; i < SAMPLES; i++) {
        list[i] = sample_part[at];
        at = at + 1 == sample_part_length ? 0 : at + 1;
    }
    sample_part_length = 0;
}

static void make_samples(void) {
    put_sample(DOCK_SCLK | DOCK_SDAT);
    repeat_samples(samples[0]);

    put_sample(DOCK_SDAT);
    repeat_samples(samples[1]);

    put_start();
    put_nine(0x90, 0);
    put_nine(0x10, 0);
    put_start();
    put_nine(0x91, 0);
    put_nine(0x55, 1);
    put_stop();
    repeat_samples(samples[2]);
}

static void library_listen(const uint8_t *list, size_t count, uint16_t *into) {
    uint8_t held[DOCK_WIRE_BYTES];
    dock_wire_begin(held, sizeof held);
    dock_wire_listen(held, sizeof held, list, count, into, count);
}

static void plain_listen(const uint8_t *list, size_t count, uint16_t *into) {
    struct plain_wire wire;
    plain_wire_begin(&wire);
    plain_wire_listen(&wire, list, count, into);
}

static void library_singly(const uint8_t *list, size_t count, uint16_t *into) {
    uint8_t held[DOCK_WIRE_BYTES];
    dock_wire_begin(held, sizeof held);
    for (size_t i = 0; i < count; i++) {
        into += dock_value(dock_wire_listen(held, sizeof held, list + i, 1, into, 1));
    }
}

static void plain_singly(const uint8_t *list, size_t count, uint16_t *into) {
    struct plain_wire wire;
    plain_wire_begin(&wire);
    for (size_t i = 0; i < count; i++) {
        into += plain_wire_listen(&wire, list + i, 1, into);
    }
}

typedef void listen_t(const uint8_t *list, size_t count, uint16_t *into);
static listen_t *const listens[SIDES] = {library_listen, plain_listen, library_singly, plain_singly};

/* ---- words that wait ---- */

static uint16_t taken[SIDES][WORDS];

/* Each word is taken before the next is put. */
static void library_turns(const uint16_t *list, size_t count, uint16_t *into) {
    uint8_t queue[DOCK_QUEUE_BYTES];
    dock_queue_begin(queue, sizeof queue);
    for (size_t i = 0; i < count; i++) {
        dock_queue_put(queue, sizeof queue, list[i]);
        into[i] = dock_value(dock_queue_take(queue, sizeof queue));
    }
}

static void plain_turns(const uint16_t *list, size_t count, uint16_t *into) {
    uint8_t queue[DOCK_QUEUE_BYTES];
    dock_queue_begin(queue, sizeof queue);
    for (size_t i = 0; i < count; i++) {
        plain_queue_put(queue, sizeof queue, list[i]);
        into[i] = dock_value(plain_queue_take(queue, sizeof queue));
    }
}

static size_t least(size_t one, size_t other) { return one < other ? one : other; }

/* The queue is filled, and then emptied. */
static void library_fills(const uint16_t *list, size_t count, uint16_t *into) {
    uint8_t queue[DOCK_QUEUE_BYTES];
    dock_queue_begin(queue, sizeof queue);
    for (size_t i = 0; i < count; i += DOCK_QUEUE_WORDS) {
        size_t end = least(count, i + DOCK_QUEUE_WORDS);
        for (size_t at = i; at < end; at++) {
            dock_queue_put(queue, sizeof queue, list[at]);
        }
        for (size_t at = i; at < end; at++) {
            into[at] = dock_value(dock_queue_take(queue, sizeof queue));
        }
    }
}

static void plain_fills(const uint16_t *list, size_t count, uint16_t *into) {
    uint8_t queue[DOCK_QUEUE_BYTES];
    dock_queue_begin(queue, sizeof queue);
    for (size_t i = 0; i < count; i += DOCK_QUEUE_WORDS) {
        size_t end = least(count, i + DOCK_QUEUE_WORDS);
        for (size_t at = i; at < end; at++) {
            plain_queue_put(queue, sizeof queue, list[at]);
        }
        for (size_t at = i; at < end; at++) {
            into[at] = dock_value(plain_queue_take(queue, sizeof queue));
        }
    }
}

typedef void queue_t(const uint16_t *list, size_t count, uint16_t *into);
static queue_t *const queues[SIDES] = {library_turns, plain_turns, library_fills, plain_fills};

/* ---- words ---- */

static void put_record(uint8_t *record, uint32_t bits) {
    for (unsigned i = 0; i < DOCK_RECORD_BYTES; i++) {
        record[i] = (uint8_t)(bits >> (24 - 8 * i));
    }
}

static void library_batch(const uint16_t *list, size_t count, uint8_t *into) {
    uint8_t state[DOCK_STATE_BYTES];
    dock_begin(state, sizeof state);
    dock_batch(state, sizeof state, list, count, into, DOCK_RECORD_BYTES * count);
}

static void plain_whole(const uint16_t *list, size_t count, uint8_t *into) {
    plain_begin();
    plain_batch(list, count, into);
}

static void library_steps(const uint16_t *list, size_t count, uint8_t *into) {
    uint8_t state[DOCK_STATE_BYTES];
    dock_begin(state, sizeof state);
    for (size_t i = 0; i < count; i++) {
        put_record(into + DOCK_RECORD_BYTES * i, dock_step(state, sizeof state, list[i]));
    }
}

static void plain_steps(const uint16_t *list, size_t count, uint8_t *into) {
    plain_begin();
    for (size_t i = 0; i < count; i++) {
        put_record(into + DOCK_RECORD_BYTES * i, plain_step(list[i]));
    }
}

typedef void side_t(const uint16_t *list, size_t count, uint8_t *into);
static side_t *const sides[SIDES] = {library_batch, plain_whole, library_steps, plain_steps};

/* ---- several controllers ---- */

static uint64_t answers[SIDES][WORDS];

/* The first is the one that the lists are for; the others have a RESET at the addresses above it, and their locks
 * driven, so that each shows in the answers. */
static uint16_t reset_of(unsigned place) { return (uint16_t)(LOCKED_RESET + 0x400u * place); }

static void library_chassis(unsigned controllers, const uint16_t *list, size_t count, uint64_t *into) {
    uint8_t states[DOCK_CHASSIS_BYTES];
    uint64_t length = controllers * (uint64_t)DOCK_STATE_BYTES;
    for (unsigned i = 0; i < controllers; i++) {
        dock_begin(states + i * DOCK_STATE_BYTES, DOCK_STATE_BYTES);
    }
    for (unsigned i = 0; i < controllers; i++) {
        dock_chassis_step(states, length, i, reset_of(i));
    }
    for (size_t i = 0; i < count; i++) {
        into[i] = dock_chassis_step(states, length, 0, list[i]);
    }
}

static void plain_chassis(unsigned controllers, const uint16_t *list, size_t count, uint64_t *into) {
    plain_chassis_begin(controllers);
    for (unsigned i = 0; i < controllers; i++) {
        plain_chassis_step(i, reset_of(i));
    }
    for (size_t i = 0; i < count; i++) {
        into[i] = plain_chassis_step(0, list[i]);
    }
}

static void library_four(const uint16_t *list, size_t count, uint64_t *into) { library_chassis(4, list, count, into); }
static void plain_four(const uint16_t *list, size_t count, uint64_t *into) { plain_chassis(4, list, count, into); }
static void library_one(const uint16_t *list, size_t count, uint64_t *into) { library_chassis(1, list, count, into); }
static void plain_one(const uint16_t *list, size_t count, uint64_t *into) { plain_chassis(1, list, count, into); }

typedef void chassis_t(const uint16_t *list, size_t count, uint64_t *into);
static chassis_t *const chassis[SIDES] = {library_four, plain_four, library_one, plain_one};

#ifdef PACE_COUNT

static size_t number(const char *text) {
    size_t n = 0;
    for (; *text != '\0'; text++) {
        n = 10 * n + (size_t)(*text - '0');
    }
    return n;
}

/* Entered with the stack that a Linux process begins with: the count of arguments, then the arguments. */
__attribute__((used, noreturn)) static void begin(char **stack) {
    size_t list = number(stack[2]), side = number(stack[3]), count = number(stack[4]);
    make_lists();
    make_samples();
    if (list < LISTS) {
        sides[side](words[list], count, records[0]);
    } else if (list < LISTS + SAMPLE_LISTS) {
        listens[side](samples[list - LISTS], count, heard[0]);
    } else if (list == LISTS + SAMPLE_LISTS) {
        queues[side](words[LISTS - 1], count, taken[0]);
    } else {
        chassis[side](words[list - LISTS - SAMPLE_LISTS - 1], count, answers[0]);
    }
    __asm__ volatile("syscall" : : "a"(60), "D"(0));
    __builtin_unreachable();
}

__asm__(".globl _start\n_start: mov %rsp, %rdi\n and $-16, %rsp\n call begin\n");

#else

#include <stdio.h>
#include <stdlib.h>
#include <string.h>
#include <time.h>

static double *times[SIDES];

static double now(void) {
    struct timespec at;
    clock_gettime(CLOCK_MONOTONIC, &at);
    return 1e9 * (double)at.tv_sec + (double)at.tv_nsec;
}

static int by_size(const void *one, const void *other) {
    double a = *(const double *)one, b = *(const double *)other;
    return (a > b) - (a < b);
}

static double median(double *of, size_t count) {
    qsort(of, count, sizeof *of, by_size);
    return of[count / 2];
}

/* They take turns, so that a slow moment of the machine hits all. */
static void time_list(const uint16_t *list, size_t repeats) {
    for (size_t run = 0; run < repeats; run++) {
        for (int side = 0; side < SIDES; side++) {
            memset(records[side], 0, sizeof records[side]);
            double from = now();
            sides[side](list, WORDS, records[side]);
            times[side][run] = (now() - from) / WORDS;
        }
    }
}

static void time_samples(const uint8_t *list, size_t repeats) {
    for (size_t run = 0; run < repeats; run++) {
        for (int side = 0; side < SIDES; side++) {
            memset(heard[side], 0, sizeof heard[side]);
            double from = now();
            listens[side](list, SAMPLES, heard[side]);
            times[side][run] = (now() - from) / SAMPLES;
        }
    }
}

static void time_queues(const uint16_t *list, size_t repeats) {
    for (size_t run = 0; run < repeats; run++) {
        for (int side = 0; side < SIDES; side++) {
            memset(taken[side], 0, sizeof taken[side]);
            double from = now();
            queues[side](list, WORDS, taken[side]);
            times[side][run] = (now() - from) / WORDS;
        }
    }
}

static void time_chassis(const uint16_t *list, size_t repeats) {
    for (size_t run = 0; run < repeats; run++) {
        for (int side = 0; side < SIDES; side++) {
            memset(answers[side], 0, sizeof answers[side]);
            double from = now();
            chassis[side](list, WORDS, answers[side]);
            times[side][run] = (now() - from) / WORDS;
        }
    }
}

/* A chassis of four and one of one answer otherwise: each library's with the one in C. */
static int chassis_agree(void) {
    return memcmp(answers[0], answers[1], sizeof answers[0]) == 0 &&
           memcmp(answers[2], answers[3], sizeof answers[2]) == 0;
}

static int all_agree(void) {
    for (int side = 1; side < SIDES; side++) {
        if (memcmp(records[0], records[side], sizeof records[0]) != 0 ||
            memcmp(heard[0], heard[side], sizeof heard[0]) != 0 ||
            memcmp(taken[0], taken[side], sizeof taken[0]) != 0) {
            return 0;
        }
    }
    return chassis_agree();
}

/* What the lists of one kind took. */
static int tell(const char *name, size_t repeats) {
    double of[SIDES];
    if (!all_agree()) {
        fprintf(stderr, "pace: the records, the words or the answers differ\n");
        return 0;
    }
    for (int side = 0; side < SIDES; side++) {
        of[side] = median(times[side], repeats);
    }
    printf("%-36s %8.2f %8.2f %6.2f %8.2f %8.2f %6.2f\n", name, of[0], of[1], of[0] / of[1], of[2], of[3],
           of[2] / of[3]);
    return 1;
}

int main(int count, char **arguments) {
    static const char *const names[LISTS] = {"ticks", "bus events (whole writes and reads)", "a realistic mix"};
    static const char *const sample_names[SAMPLE_LISTS] = {"idle lines", "a clock held low", "a bus at 100 kHz"};
    long repeats = count == 2 ? strtol(arguments[1], NULL, 10) : 0;
    if (repeats < 1 || repeats > 1000000) {
        fprintf(stderr, "usage: pace REPEATS\n");
        return 2;
    }
    make_lists();
    make_samples();
    for (int side = 0; side < SIDES; side++) {
        times[side] = malloc((size_t)repeats * sizeof *times[side]);
        if (times[side] == NULL) {
            fprintf(stderr, "pace: no memory for %ld times\n", repeats);
            return 1;
        }
    }
    printf("%-36s %8s %8s %6s %8s %8s %6s\n", "ns for each event", "batch", "C", "ratio", "step", "C", "ratio");
    for (int list = 0; list < LISTS; list++) {
        time_list(words[list], (size_t)repeats);
        if (!tell(names[list], (size_t)repeats)) {
            return 1;
        }
    }
    printf("\n%-36s %8s %8s %6s %8s %8s %6s\n", "ns for each sample", "listen", "C", "ratio", "singly", "C", "ratio");
    for (int list = 0; list < SAMPLE_LISTS; list++) {
        time_samples(samples[list], (size_t)repeats);
        if (!tell(sample_names[list], (size_t)repeats)) {
            return 1;
        }
    }
    printf("\n%-36s %8s %8s %6s %8s %8s %6s\n", "ns for each word", "in turns", "C", "ratio", "128", "C", "ratio");
    time_queues(words[LISTS - 1], (size_t)repeats);
    if (!tell("a put and a take", (size_t)repeats)) {
        return 1;
    }
    printf("\n%-36s %8s %8s %6s %8s %8s %6s\n", "ns for each call of a chassis", "four", "C", "ratio", "one", "C",
           "ratio");
    for (int list = 0; list < LISTS; list++) {
        time_chassis(words[list], (size_t)repeats);
        if (!tell(names[list], (size_t)repeats)) {
            return 1;
        }
    }
    return 0;
}

#endif
