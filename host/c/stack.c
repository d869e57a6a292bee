/* Measures the stack that the library's calls take: each call runs on a stack of its own that was painted before, and
 * the deepest byte that lost its paint is looked for afterwards. What an empty call takes is subtracted. A part of a
 * frame that is reserved and never written, below the deepest byte that is, is not seen. */
#define _XOPEN_SOURCE 700
#include "dock.h"

#include <stdio.h>
#include <string.h>
#include <ucontext.h>

#define STACK_BYTES 65536u
#define PAINT 0xA5
#define WORDS 1024u

static const uint16_t RESET = 0xC0BF;
static const uint16_t TICK = 0xA000;
/* A write of BCER and a read of BSTR, both of bay 0. */
static const uint16_t COMMANDS[] = {0x0000, 0x4090, 0x4014, 0x40AD, 0x2000, 0x0000,
                                    0x4090, 0x4010, 0x0000, 0x4091, 0x6000};

/* A START, eight bits, and a STOP. */
static const uint8_t BYTE_OF_ZEROS[] = {3, 2, 0, 2, 0, 2, 0, 2, 0, 2, 0, 2, 0, 2, 0, 2, 0, 2, 3};

static unsigned char stack[STACK_BYTES];
static uint8_t state[DOCK_STATE_BYTES];
static uint16_t words[WORDS];
static uint8_t records[WORDS * DOCK_RECORD_BYTES];
static volatile uint32_t answer;
static uint8_t held[DOCK_WIRE_BYTES];
static uint8_t samples[WORDS];
static uint8_t queue[DOCK_QUEUE_BYTES];
static uint8_t states[DOCK_CHASSIS_BYTES];

static void nothing(void) { answer = 0; }
static void version(void) { answer = dock_version(); }
static void begin(void) { answer = dock_begin(state, sizeof state); }
static void batch(void) { answer = dock_batch(state, sizeof state, words, WORDS, records, sizeof records); }
static void replay(void) { answer = dock_replay(words, WORDS, records, sizeof records); }
static void reading(void) { answer = dock_reading(state, sizeof state, 0x10); }
static void outputs(void) { answer = dock_outputs(state, sizeof state); }
static void held_byte(void) { answer = dock_held_byte(state, sizeof state); }
static void name_kind(void) { answer = dock_name_kind(state, sizeof state, DOCK_FIRST_KIND); }
/* The deepest of them is what counts. */
static void steps(void) {
    for (size_t i = 0; i < WORDS; i++)
        answer = dock_step(state, sizeof state, words[i]);
}
static void wire_begin(void) { answer = dock_wire_begin(held, sizeof held); }
static void wire_listen(void) { answer = dock_wire_listen(held, sizeof held, samples, WORDS, words, WORDS); }
static void queue_begin(void) { answer = dock_queue_begin(queue, sizeof queue); }
/* Accepted and refused ones, from every place. */
static void queue_puts(void) {
    for (size_t i = 0; i <= DOCK_QUEUE_WORDS; i++)
        answer = dock_queue_put(queue, sizeof queue, TICK);
}
static void queue_takes(void) {
    for (size_t i = 0; i <= DOCK_QUEUE_WORDS; i++)
        answer = dock_queue_take(queue, sizeof queue);
}
static void chassis_steps(void) {
    for (size_t i = 0; i < WORDS; i++)
        answer = (uint32_t)dock_chassis_step(states, sizeof states, 0, words[i]);
}
static void pack(void) { answer = dock_pack(DOCK_TICK, 0, 0); }
static void unpack(void) { answer = dock_unpack(TICK); }

/* RESET, then the part over and over. */
static void fill_words(const uint16_t *part, size_t length) {
    words[0] = RESET;
    for (size_t i = 1; i < WORDS; i++)
        words[i] = part[(i - 1) % length];
}

static void fill_samples(void) {
    for (size_t i = 0; i < WORDS; i++)
        samples[i] = BYTE_OF_ZEROS[i % sizeof BYTE_OF_ZEROS];
}

/* Four controllers, each at an address of its own; RESET, which the words begin with, is for the first. */
static void start_chassis(void) {
    for (unsigned place = 0; place < DOCK_CHASSIS_RECORDS; place++) {
        dock_begin(states + DOCK_STATE_BYTES * place, DOCK_STATE_BYTES);
        dock_chassis_step(states, sizeof states, place, (uint16_t)(RESET | place << 10));
    }
}

/* A stack grows down: the paint is whole from its low end up to the deepest byte that was written. */
static size_t depth_of(void (*call)(void)) {
    ucontext_t here, there;
    size_t painted = 0;
    memset(stack, PAINT, sizeof stack);
    getcontext(&there);
    there.uc_stack.ss_sp = stack;
    there.uc_stack.ss_size = sizeof stack;
    there.uc_link = &here;
    makecontext(&there, call, 0);
    swapcontext(&here, &there);
    while (painted < sizeof stack && stack[painted] == PAINT)
        painted++;
    return sizeof stack - painted;
}

static void report(const char *name, void (*call)(void)) {
    printf("    %5zu  %s\n", depth_of(call) - depth_of(nothing), name);
}

/* The calls that take words, from a fresh state. */
static void report_words(const char *what) {
    printf("  %s\n", what);
    report("dock_step", steps);
    report("dock_batch", batch);
    report("dock_replay", replay);
}

int main(void) {
    printf("deepest byte of the stack that a call writes to:\n");
    report("dock_begin", begin);
    fill_words(&TICK, 1);
    report_words("ticks");
    fill_words(COMMANDS, sizeof COMMANDS / sizeof COMMANDS[0]);
    report_words("bus events");
    printf("  questions, and the rest\n");
    report("dock_reading", reading);
    report("dock_outputs", outputs);
    report("dock_held_byte", held_byte);
    report("dock_name_kind", name_kind);
    start_chassis();
    report("dock_chassis_step", chassis_steps);
    dock_wire_begin(held, sizeof held);
    fill_samples();
    report("dock_wire_begin", wire_begin);
    report("dock_wire_listen", wire_listen);
    report("dock_queue_begin", queue_begin);
    report("dock_queue_put", queue_puts);
    report("dock_queue_take", queue_takes);
    report("dock_pack", pack);
    report("dock_unpack", unpack);
    report("dock_version", version);
    return 0;
}
