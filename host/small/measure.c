/* What calls take on the board: the stack that they write to and the instructions that they run, of the library and of
 * the C controller, or the wire cell, the queue or the chassis in C, beside it. Prints a line for each, its numbers
 * behind bars:
 *
 *   what | instructions of the library | of the C controller | stack of the library | of the C controller
 *
 * The stack below this program is painted before a call, and the deepest word that lost its paint is looked for after
 * it. How instructions are counted is in count.h. What an empty call takes is subtracted from both. */
#include "../plain/chassis.h"
#include "../plain/held.h"
#include "../plain/queue.h"
#include "../plain/wire.h"
#include "count.h"
#include "dock.h"

#include <stdint.h>
#include <stdio.h>

#define COUNT(list) (sizeof(list) / sizeof((list)[0]))
#define PAINT 0xA5A5A5A5u
#define WORDS 33u

extern uint32_t bss_end[];

static uint8_t state[DOCK_STATE_BYTES];
static uint16_t word;
static uint16_t words[WORDS];
static unsigned words_len;
static uint8_t records[WORDS * DOCK_RECORD_BYTES];
static volatile uint32_t answer;
static uint8_t held[DOCK_WIRE_BYTES];
static struct plain_wire plain_held;
static uint8_t samples[WORDS];
static unsigned samples_len;
static uint8_t queue[DOCK_QUEUE_BYTES], c_queue[DOCK_QUEUE_BYTES];
static uint8_t states[DOCK_CHASSIS_BYTES];
static unsigned states_len;
static volatile uint64_t chassis_answer;

/* ---- calls ---- */

typedef void call(void);

static void nothing(void) { answer = 0; }
static void library_begin(void) { answer = dock_begin(state, sizeof state); }
static void library_step(void) { answer = dock_step(state, sizeof state, word); }
static void library_batch(void) { answer = dock_batch(state, sizeof state, words, words_len, records, sizeof records); }
static void library_replay(void) { answer = dock_replay(words, words_len, records, sizeof records); }
static void library_reading(void) { answer = dock_reading(state, sizeof state, 0x10); }
static void library_outputs(void) { answer = dock_outputs(state, sizeof state); }
static void library_name_kind(void) { answer = dock_name_kind(state, sizeof state, DOCK_FIRST_KIND); }
static void library_pack(void) { answer = dock_pack(DOCK_BYTE, 0x90, 0); }
static void library_unpack(void) { answer = dock_unpack(0x4090); }
static void library_version(void) { answer = dock_version(); }
static void library_wire_begin(void) { answer = dock_wire_begin(held, sizeof held); }
static void library_listen(void) {
    answer = dock_wire_listen(held, sizeof held, samples, samples_len, words, samples_len);
}
static void library_queue_begin(void) { answer = dock_queue_begin(queue, sizeof queue); }
static void library_put(void) { answer = dock_queue_put(queue, sizeof queue, word); }
static void library_take(void) { answer = dock_queue_take(queue, sizeof queue); }
static void library_chassis(void) { chassis_answer = dock_chassis_step(states, states_len, 0, word); }
static void c_chassis(void) { chassis_answer = plain_chassis_step(0, word); }
static void c_begin(void) { plain_begin(); }
static void c_step(void) { answer = plain_step(word); }
static void c_batch(void) { plain_batch(words, words_len, records); }
static void c_reading(void) { answer = plain_register(0x10); }
static void c_outputs(void) { answer = plain_pins(); }
static void c_wire_begin(void) { plain_wire_begin(&plain_held); }
static void c_listen(void) { answer = (uint32_t)plain_wire_listen(&plain_held, samples, samples_len, words); }
static void c_put(void) { answer = plain_queue_put(c_queue, sizeof c_queue, word); }
static void c_take(void) { answer = plain_queue_take(c_queue, sizeof c_queue); }

/* ---- measures ---- */

struct cost {
    uint32_t instructions, stack;
};

/* Counts of as many instructions as the calibration has. */
static uint32_t calibrated;

static void no_instructions(void) {}
static void known_instructions(void) { __asm__ volatile(".rept 1024\n\tnop\n\t.endr"); }

/* Volatile, so that the compiler knows of no call what it does, the empty one included. */
static call *volatile measured;

/* Everything between the variables and this function's own frame is free. That is volatile too, or the loop would be a
 * call that paints the stack under its own feet. */
__attribute__((noinline)) static struct cost raw_cost(call *this_one) {
    volatile uint32_t *top = stack_now(), *at;
    struct cost cost;
    measured = this_one;
    for (at = bss_end; at < top; at++) {
        *at = PAINT;
    }
    uint32_t before = count_now();
    measured();
    cost.instructions = count_between(before, count_now());
    for (at = bss_end; at < top && *at == PAINT; at++) {
    }
    cost.stack = (uint32_t)((uintptr_t)top - (uintptr_t)at);
    return cost;
}

static void calibrate(void) {
    count_start();
    calibrated = raw_cost(known_instructions).instructions - raw_cost(no_instructions).instructions;
}

/* Rounded, and without a product that is too large. */
static uint32_t instructions_in(uint32_t counts) {
    uint32_t rest = counts % calibrated;
    return counts / calibrated * CALIBRATION + (rest * CALIBRATION + calibrated / 2) / calibrated;
}

static struct cost cost_of(call *this_one) {
    struct cost empty = raw_cost(nothing), cost = raw_cost(this_one);
    cost.instructions = instructions_in(cost.instructions - empty.instructions);
    cost.stack -= empty.stack;
    return cost;
}

static void tell(const char *what, struct cost library, struct cost c) {
    printf("%s|%lu|%lu|%lu|%lu\n", what, (unsigned long)library.instructions, (unsigned long)c.instructions,
           (unsigned long)library.stack, (unsigned long)c.stack);
}

static void tell_both(const char *what, call *library, call *c) { tell(what, cost_of(library), cost_of(c)); }

static void tell_alone(const char *what, call *library) {
    struct cost cost = cost_of(library);
    printf("%s|%lu||%lu|\n", what, (unsigned long)cost.instructions, (unsigned long)cost.stack);
}

/* ---- events, one step each ---- */

struct event {
    const char *name; /* none: it only leads on */
    uint16_t word;
};

/* A cartridge in bay 0 is enabled by a write, its status is read, and its button goes down. */
static const struct event events[] = {
    {"RESET", 0xC0BF},
    {"START", 0x0000},
    {"BYTE: own address", 0x4090},
    {"BYTE: register", 0x4014},
    {"BYTE: data", 0x40AD},
    {"STOP: writes BCER", 0x2000},
    {"TICK: nothing to do", 0xA000},
    {0, 0x0000},
    {0, 0x4090},
    {0, 0x4010},
    {"START: second", 0x0000},
    {"BYTE: own address, reads BSTR", 0x4091},
    {"TAKE", 0x6000},
    {"STOP: nothing open", 0x2000},
    {"PINS: a button", 0x809F},
    {"TICK: a level counted", 0xA000},
    {0, 0xA000},
    {0, 0xA000},
    {0, 0xA000},
    {"TICK: a press accepted", 0xA000},
    {"TIMEOUT", 0xE000},
    {"a word refused with 2", 0xA001},
};

static void tell_events(void) {
    library_begin();
    c_begin();
    for (unsigned i = 0; i < COUNT(events); i++) {
        word = events[i].word;
        if (events[i].name == 0) {
            library_step();
            c_step();
        } else {
            tell_both(events[i].name, library_step, c_step);
        }
    }
}

/* ---- batches ---- */

/* A write of BCER and a read of BSTR, both of bay 0. */
static const uint16_t commands[] = {0x0000, 0x4090, 0x4014, 0x40AD, 0x2000, 0x0000,
                                    0x4090, 0x4010, 0x0000, 0x4091, 0x6000};
static const uint16_t ticks[] = {0xA000};

static void fill(const uint16_t *part, unsigned length) {
    words_len = WORDS;
    for (unsigned i = 0; i < WORDS; i++) {
        words[i] = part[i % length];
    }
}

/* One word's share, and the stack of all. */
static struct cost share(struct cost cost) {
    cost.instructions = (cost.instructions + WORDS / 2) / WORDS;
    return cost;
}

static void tell_batch(const char *what, const uint16_t *part, unsigned length) {
    word = 0xC0BF;
    library_step();
    c_step();
    fill(part, length);
    tell(what, share(cost_of(library_batch)), share(cost_of(c_batch)));
}

static void tell_empty_batch(void) {
    words_len = 0;
    tell("no words: the image loaded, tested and saved", cost_of(library_batch), cost_of(c_batch));
}

/* ---- samples ---- */

struct moment {
    const char *name; /* none: it only leads on */
    uint8_t sample;
};

/* From idle lines: a START, the bits of 90h up to the eighth, and a STOP. */
static const struct moment moments[] = {
    {"lines that stay high", 3},
    {"START", 2},
    {"SCLK falls", 0},
    {"SCLK stays low", 1},
    {"a bit", 3},
    {0, 0}, {0, 2}, {0, 0}, {0, 2}, {0, 1}, {0, 3}, {0, 0}, {0, 2}, {0, 0}, {0, 2}, {0, 0}, {0, 2}, {0, 0},
    {"the eighth bit: BYTE", 2},
    {0, 0},
    {"the ninth bit", 2},
    {"STOP", 3},
};

static void tell_moments(void) {
    library_wire_begin();
    c_wire_begin();
    samples_len = 1;
    for (unsigned i = 0; i < COUNT(moments); i++) {
        samples[0] = moments[i].sample;
        if (moments[i].name == 0) {
            library_listen();
            c_listen();
        } else {
            tell_both(moments[i].name, library_listen, c_listen);
        }
    }
}

/* Each sample's share, from a fresh held state. */
static void tell_samples(const char *what, const uint8_t *part, unsigned length) {
    library_wire_begin();
    c_wire_begin();
    samples_len = WORDS;
    for (unsigned i = 0; i < WORDS; i++) {
        samples[i] = part[i % length];
    }
    tell(what, share(cost_of(library_listen)), share(cost_of(c_listen)));
}

/* START, then bits of five samples each: 100 kHz. */
static const uint8_t traffic[WORDS] = {3, 2, 0, 1, 1, 3, 3, 1, 0, 0, 2, 2, 0, 0, 0, 2, 2,
                                       0, 1, 1, 3, 3, 1, 0, 0, 2, 2, 0, 1, 1, 3, 3, 1};
static const uint8_t idle[] = {3};

static void tell_wire(void) {
    samples_len = 0;
    library_wire_begin();
    c_wire_begin();
    tell("no samples: the image loaded, tested and saved", cost_of(library_listen), cost_of(c_listen));
    tell_moments();
    tell_samples("33 samples of idle lines, each", idle, COUNT(idle));
    tell_samples("33 samples of a bus at 100 kHz, each", traffic, COUNT(traffic));
}

/* ---- words that wait ---- */

/* Both queues, with so many words waiting from place 100 on, so that they go round. */
static void make_queues(unsigned waiting) {
    dock_queue_begin(queue, sizeof queue);
    dock_queue_begin(c_queue, sizeof c_queue);
    queue[DOCK_QUEUE_AT_START + 1] = c_queue[DOCK_QUEUE_AT_START + 1] = 100;
    word = 0xA000;
    for (unsigned i = 0; i < waiting; i++) {
        library_put();
        c_put();
    }
}

static void tell_put(const char *what, unsigned waiting) {
    make_queues(waiting);
    tell_both(what, library_put, c_put);
}

static void tell_take(const char *what, unsigned waiting) {
    make_queues(waiting);
    tell_both(what, library_take, c_take);
}

static void tell_queue(void) {
    tell_put("a put, none waits", 0);
    tell_put("a put, 64 wait", 64);
    tell_put("a put, 127 wait", 127);
    tell_put("a put refused with 7", 128);
    tell_take("a take, one waits", 1);
    tell_take("a take, 64 wait", 64);
    tell_take("a take, 128 wait", 128);
    tell_take("a take refused with 8", 0);
    make_queues(1);
    queue[DOCK_QUEUE_AT_VERSION] = c_queue[DOCK_QUEUE_AT_VERSION] = 0;
    tell_both("a take refused with 1", library_take, c_take);
}

/* ---- several controllers ---- */

/* So many in both, each with an own address and both its locks driven. */
static int make_chassis(unsigned count) {
    int same = 1;
    states_len = count * DOCK_STATE_BYTES;
    plain_chassis_begin(count);
    for (unsigned i = 0; i < count; i++) {
        dock_begin(states + i * DOCK_STATE_BYTES, DOCK_STATE_BYTES);
    }
    for (unsigned i = 0; i < count; i++) {
        uint16_t reset = (uint16_t)(0xC2FFu + 0x400u * i);
        uint64_t reply = dock_chassis_step(states, states_len, i, reset);
        same = same && dock_chassis_refusal(reply) == DOCK_ACCEPTED && reply == plain_chassis_step(i, reset);
    }
    return same;
}

/* Two that answer otherwise can't be compared. */
static int chassis_differ;

static void tell_chassis(const char *what, unsigned count, uint16_t event) {
    int same = make_chassis(count);
    word = event;
    struct cost library = cost_of(library_chassis);
    uint64_t told = chassis_answer;
    struct cost c = cost_of(c_chassis);
    chassis_differ = chassis_differ || !same || told != chassis_answer;
    tell(what, library, c);
}

int main(void) {
    calibrate();
    printf("events\n");
    tell_events();
    printf("batches\n");
    tell_empty_batch();
    tell_batch("33 ticks, each", ticks, COUNT(ticks));
    tell_batch("33 bus events, each", commands, COUNT(commands));
    printf("samples\n");
    tell_wire();
    printf("words\n");
    tell_queue();
    printf("chassis\n");
    tell_chassis("a TICK, one controller", 1, 0xA000);
    tell_chassis("a TICK, two", 2, 0xA000);
    tell_chassis("a TICK, four", 4, 0xA000);
    tell_chassis("PINS for one of four", 4, 0x80FF);
    tell_chassis("a word refused with 2, four", 4, 0x0001);
    printf("calls\n");
    tell_both("dock_begin: a fresh image", library_begin, c_begin);
    tell_both("dock_outputs: an image loaded and tested", library_outputs, c_outputs);
    tell_both("dock_reading of BSTR: the same", library_reading, c_reading);
    tell_alone("dock_name_kind: the same, and saved", library_name_kind);
    fill(ticks, COUNT(ticks));
    tell_alone("dock_replay of 33 words", library_replay);
    tell_both("dock_wire_begin: a fresh image", library_wire_begin, c_wire_begin);
    tell_alone("dock_queue_begin: an empty queue", library_queue_begin);
    tell_alone("dock_pack", library_pack);
    tell_alone("dock_unpack", library_unpack);
    tell_alone("dock_version", library_version);
    printf("state|%u|%u\n", (unsigned)sizeof state, (unsigned)plain_bytes());
    printf("held|%u|%u\n", (unsigned)sizeof held, (unsigned)sizeof plain_held);
    return chassis_differ;
}
