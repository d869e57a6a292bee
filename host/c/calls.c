/* Checks the calls from C: what they answer, and that they touch nothing else. Every buffer stands between guard bytes,
 * and the whole of it is compared. Valid as C99 and as C++11. What the calls do with events is the differential test's
 * to compare; here it is the boundary. */
#include "dock.h"

#include <stdio.h>
#include <string.h>

#define GUARD 16u
#define PAINT 0xA5
#define ROOM (DOCK_MOST_WORDS * DOCK_RECORD_BYTES)
#define LENGTHS (2u * DOCK_STATE_BYTES)
#define COUNT(list) (sizeof(list) / sizeof((list)[0]))

static unsigned long checks, failures;

static void check(int good, const char *what, int line) {
    checks++;
    if (!good) {
        failures++;
        printf("calls.c:%d: not so: %s\n", line, what);
    }
}
#define CHECK(good) check((good), #good, __LINE__)

/* A buffer with guards, and a copy to hold it against. */
struct guarded {
    uint8_t bytes[GUARD + ROOM + GUARD];
    uint8_t copy[GUARD + ROOM + GUARD];
};

static struct guarded state_buffer, record_buffer;
static uint8_t *const state = state_buffer.bytes + GUARD;
static uint8_t *const records = record_buffer.bytes + GUARD;
static uint16_t words[DOCK_MOST_WORDS + 1];

static void paint(struct guarded *buffer) { memset(buffer->bytes, PAINT, sizeof buffer->bytes); }
static void remember(struct guarded *buffer) { memcpy(buffer->copy, buffer->bytes, sizeof buffer->bytes); }

/* Whether nothing changed since it was remembered but the bytes from the buffer's start up to this length. */
static int only_changed(const struct guarded *buffer, size_t length) {
    return memcmp(buffer->bytes, buffer->copy, GUARD) == 0 &&
           memcmp(buffer->bytes + GUARD + length, buffer->copy + GUARD + length, ROOM + GUARD - length) == 0;
}

static void begin(void) {
    paint(&state_buffer);
    paint(&record_buffer);
    CHECK(dock_begin(state, DOCK_STATE_BYTES) == 0);
    remember(&state_buffer);
    remember(&record_buffer);
}

static int untouched(void) { return only_changed(&state_buffer, 0) && only_changed(&record_buffer, 0); }

/* ---- a story with everything in it: refused words, both forms of a command, pins and ticks inside one ---- */

static const uint16_t STORY[] = {
    0xA000,                                                         /* a TICK before any RESET: 3 */
    0xC5BF,                                                         /* RESET, straps 5, USB device in bay 0 */
    0x0001,                                                         /* a stray bit: 2 */
    0x0000, 0x4092, 0x4014, 0x40AD, 0x2000,                         /* BCER of bay 0 */
    0x0000, 0x4092, 0x4010, 0x809F, 0xA000, 0xA000, 0x4004, 0x2000, /* BSTR, with a press inside */
    0xFFFF, 0xA000, 0xA000, 0xA000,                                 /* .. which is accepted at the last */
    0x0000, 0x4092, 0x400C, 0x4012, 0x2000,                         /* DBCCR */
    0x0000, 0x4092, 0x4040, 0x4002, 0x2000,                         /* LETR */
    0x0000, 0x4092, 0x4042, 0x405A, 0x2000,                         /* 42h, the wait */
    0x0000, 0x4092, 0x4010, 0x0000, 0x4093, 0x6001,                 /* a read */
    0x80DF, 0xA000, 0x0000, 0x4092, 0x4014, 0x4081,                 /* a write that is still open */
};

static void test_version(void) {
    CHECK(dock_version() == DOCK_VERSION);
    CHECK(dock_fits_header());
    CHECK(dock_refusal(dock_version()) == DOCK_ACCEPTED);
}

static void test_begin(void) {
    begin();
    CHECK(state[DOCK_AT_VERSION] == DOCK_LAYOUT);
    CHECK(state[DOCK_AT_STARTED] == 0 && state[DOCK_AT_KIND] == 0 && state[DOCK_AT_NAMED] == 0);
    memset(state_buffer.copy, PAINT, sizeof state_buffer.copy);
    CHECK(only_changed(&state_buffer, DOCK_STATE_BYTES));
    CHECK(dock_outputs(state, DOCK_STATE_BYTES) == 0);
    CHECK(dock_held_byte(state, DOCK_STATE_BYTES) == 0);
    for (unsigned address = 0; address < 256; address++) {
        CHECK(dock_reading(state, DOCK_STATE_BYTES, (uint8_t)address) == 0);
    }
}

/* A state of another length is refused by every call, and neither read nor written: here NULL serves as well. */
static void refuse_length(uint8_t *bytes, uint64_t length) {
    CHECK(dock_begin(bytes, length) == 0x00010000u);
    CHECK(dock_step(bytes, length, 0xC0BF) == 0x10000000u);
    CHECK(dock_batch(bytes, length, words, 1, records, DOCK_RECORD_BYTES) == 0x00010000u);
    CHECK(dock_reading(bytes, length, 0x00) == 0x00010000u);
    CHECK(dock_outputs(bytes, length) == 0x00010000u);
    CHECK(dock_held_byte(bytes, length) == 0x00010000u);
    CHECK(dock_name_kind(bytes, length, DOCK_SECOND_KIND) == 0x00010000u);
    CHECK(dock_name_kind(bytes, length, 0) == 0x00010000u);
    CHECK(untouched());
}

static void test_lengths(void) {
    words[0] = 0xC0BF;
    for (size_t length = 0; length <= LENGTHS; length++) {
        if (length == DOCK_STATE_BYTES) {
            continue;
        }
        begin();
        refuse_length(state, length);
        refuse_length(NULL, length);
    }
    /* A length has 64 bits, and all of them count. */
    for (uint64_t more = 0x10000; more != 0; more *= 2) {
        begin();
        refuse_length(state, more + DOCK_STATE_BYTES);
        refuse_length(NULL, more);
    }
}

static void test_empty_lists(void) {
    begin();
    CHECK(dock_step(state, DOCK_STATE_BYTES, 0xC0BF) == 0);
    remember(&state_buffer);
    CHECK(dock_batch(state, DOCK_STATE_BYTES, NULL, 0, NULL, 0) == 0);
    CHECK(dock_batch(state, DOCK_STATE_BYTES, words, 0, records, 0) == 0);
    CHECK(dock_batch(state, DOCK_STATE_BYTES, NULL, 0, records, ROOM) == 0);
    CHECK(dock_replay(NULL, 0, NULL, 0) == 0);
    CHECK(dock_replay(words, 0, records, 0) == 0);
    CHECK(dock_replay(NULL, 0, records, ROOM) == 0);
    CHECK(dock_batch(NULL, 0, NULL, 0, NULL, 0) == 0x00010000u);
    CHECK(dock_batch(state, DOCK_STATE_BYTES, words, 1, NULL, 0) == 0x00040000u);
    CHECK(dock_replay(words, 1, NULL, 0) == 0x00040000u);
    CHECK(untouched());
}

/* Refusals 1, 5 and 4, in that order, and a batch of the most words that is taken. */
static void test_order(void) {
    for (size_t i = 0; i < COUNT(words); i++) {
        words[i] = i == 0 ? 0xC0BF : 0xA000;
    }
    begin();
    CHECK(dock_batch(state, DOCK_STATE_BYTES, words, DOCK_MOST_WORDS + 1, records, 3) == 0x00050000u);
    CHECK(dock_replay(words, DOCK_MOST_WORDS + 1, records, 3) == 0x00050000u);
    CHECK(dock_batch(state, DOCK_STATE_BYTES, words, DOCK_MOST_WORDS, records, ROOM - 1) == 0x00040000u);
    CHECK(dock_replay(words, DOCK_MOST_WORDS, records, ROOM - 1) == 0x00040000u);
    CHECK(dock_batch(state, DOCK_STATE_BYTES, words, 3, records, 11) == 0x00040000u);
    CHECK(untouched());
    state[DOCK_AT_PHASE] = 200;
    remember(&state_buffer);
    CHECK(dock_batch(state, DOCK_STATE_BYTES, words, DOCK_MOST_WORDS + 1, records, 3) == 0x00010000u);
    CHECK(dock_batch(state, DOCK_STATE_BYTES, words, 1, records, 3) == 0x00010000u);
    CHECK(untouched());
    begin();
    CHECK(dock_batch(state, DOCK_STATE_BYTES, words, 3, records, 12) == 3);
    CHECK(only_changed(&state_buffer, DOCK_STATE_BYTES));
    CHECK(only_changed(&record_buffer, 12));
    CHECK(dock_batch(state, DOCK_STATE_BYTES, words, DOCK_MOST_WORDS, records, ROOM) == DOCK_MOST_WORDS);
    CHECK(only_changed(&record_buffer, ROOM));
}

/* One byte of an image changed so that it is refused, by every call, with nothing touched. */
static void refuse_byte(size_t at, uint8_t value) {
    uint8_t before = state[at];
    state[at] = value;
    remember(&state_buffer);
    CHECK(dock_step(state, DOCK_STATE_BYTES, 0xC0BF) == 0x10000000u);
    CHECK(dock_batch(state, DOCK_STATE_BYTES, STORY, 1, records, ROOM) == 0x00010000u);
    CHECK(dock_batch(state, DOCK_STATE_BYTES, NULL, 0, NULL, 0) == 0x00010000u);
    CHECK(dock_reading(state, DOCK_STATE_BYTES, 0x00) == 0x00010000u);
    CHECK(dock_outputs(state, DOCK_STATE_BYTES) == 0x00010000u);
    CHECK(dock_held_byte(state, DOCK_STATE_BYTES) == 0x00010000u);
    CHECK(dock_name_kind(state, DOCK_STATE_BYTES, DOCK_FIRST_KIND) == 0x00010000u);
    CHECK(dock_name_kind(state, DOCK_STATE_BYTES, 3) == 0x00010000u);
    CHECK(untouched());
    state[at] = before;
}

/* What a state holds is what a TAKE drives, ACKed or not: asked of a copy. */
static void check_held(const uint8_t *bytes) {
    uint32_t held = dock_held_byte(bytes, DOCK_STATE_BYTES);
    for (uint16_t take = 0x6000; take <= 0x6001; take++) {
        uint8_t copy[DOCK_STATE_BYTES];
        uint32_t record;
        memcpy(copy, bytes, sizeof copy);
        record = dock_step(copy, sizeof copy, take);
        CHECK(held == (dock_record_reply(record) == DOCK_DRIVEN ? DOCK_HELD | dock_record_byte(record) : 0u));
        CHECK(dock_is_held(held) == (dock_record_reply(record) == DOCK_DRIVEN));
        CHECK(!dock_is_held(held) || dock_held(held) == dock_record_byte(record));
    }
}

/* One byte of an image changed so that it is the image of another fit state, which is asked and left as it is. */
static void take_byte(size_t at, uint8_t value) {
    uint8_t before = state[at];
    state[at] = value;
    remember(&state_buffer);
    CHECK(dock_refusal(dock_outputs(state, DOCK_STATE_BYTES)) == DOCK_ACCEPTED);
    check_held(state);
    CHECK(untouched());
    state[at] = before;
}

/* Byte by byte, the largest value that the header calls fit beside bytes of 0; those with the progress are the test's
 * below. Pulse and wait have two bytes, whose ranges go by the kind. */
static uint8_t most_at(size_t at, uint8_t kind) {
    static const uint8_t numbers[12] = {15, 3, 3, 255, 199, 255, 255, 255, 255, 7, 7, 255};
    static const uint8_t in_first[9] = {9, 9, 4, 4, 4, 0, 200, 0, 255};
    static const uint8_t in_second[9] = {9, 9, 4, 4, 4, 4, 255, 2, 255};
    size_t in_bay = (at - DOCK_AT_NUMBERS_0) % COUNT(in_first);
    if (at < DOCK_AT_STRAPS) {
        return 1;
    }
    if (at < DOCK_AT_NUMBERS_0) {
        return numbers[at - DOCK_AT_STRAPS];
    }
    return kind == DOCK_FIRST_KIND ? in_first[in_bay] : in_second[in_bay];
}

/* A state after a RESET into this kind. */
static void start(uint8_t kind, uint16_t reset) {
    begin();
    CHECK(dock_name_kind(state, DOCK_STATE_BYTES, kind) == 0);
    CHECK(dock_record_refusal(dock_step(state, DOCK_STATE_BYTES, reset)) == DOCK_ACCEPTED);
    remember(&state_buffer);
}

static void test_damage(void) {
    for (uint8_t kind = DOCK_FIRST_KIND; kind <= DOCK_SECOND_KIND; kind++) {
        start(kind, 0xC0BF);
        for (unsigned version = 0; version < 256; version++) {
            if (version != DOCK_LAYOUT) {
                refuse_byte(DOCK_AT_VERSION, (uint8_t)version);
            }
        }
        for (size_t at = DOCK_AT_STARTED; at < DOCK_AT_PROGRESS; at++) {
            take_byte(at, most_at(at, kind));
            for (unsigned value = most_at(at, kind) + 1u; value < 256; value++) {
                refuse_byte(at, (uint8_t)value);
            }
        }
        for (unsigned progress = 9; progress < 256; progress++) {
            refuse_byte(DOCK_AT_PROGRESS, (uint8_t)progress);
        }
    }
}

/* A pulse or a wait at the last number that is fit, and the one after it. */
static void test_ticks(void) {
    static const uint16_t most[2][2] = {{200, 255}, {1200, 560}};
    for (uint8_t kind = DOCK_FIRST_KIND; kind <= DOCK_SECOND_KIND; kind++) {
        for (int bay = 0; bay < 2; bay++) {
            for (int wait = 0; wait < 2; wait++) {
                size_t at = DOCK_AT_BAY_NUMBERS(bay) + (wait ? DOCK_BAY_WAIT : DOCK_BAY_PULSE);
                uint16_t last = most[kind - DOCK_FIRST_KIND][wait];
                start(kind, 0xC0FF);
                state[at] = (uint8_t)(last >> 8);
                take_byte(at + 1, (uint8_t)last);
                CHECK(dock_ticks(state + at) == (last & 0xFF00));
                state[at] = (uint8_t)((last + 1) >> 8);
                refuse_byte(at + 1, (uint8_t)(last + 1));
                state[at] = 0xFF;
                refuse_byte(at + 1, (uint8_t)last);
            }
        }
    }
}

/* A saved count of the button's is fit up to 4, and then a tick is left; those of presence are fit up to 9. */
static void test_counts(void) {
    for (int bay = 0; bay < 2; bay++) {
        size_t counts = DOCK_AT_BAY_NUMBERS(bay) + DOCK_BAY_COUNTS;
        const uint8_t *status = state + DOCK_AT_BAY_FLAGS(bay) + DOCK_BAY_REMREQ_STS;
        begin();
        CHECK(dock_step(state, DOCK_STATE_BYTES, 0xC0BB) == 0);
        CHECK(dock_step(state, DOCK_STATE_BYTES, 0x8099) == 0);
        refuse_byte(counts, 10);
        refuse_byte(counts + 1, 10);
        refuse_byte(counts + 2, 5);
        take_byte(counts, 9);
        take_byte(counts + 1, 9);
        take_byte(counts + 2, 4);
        state[counts + 2] = 3;
        CHECK(dock_step(state, DOCK_STATE_BYTES, 0xA000) == 0 && state[counts + 2] == 4 && *status == 0);
        CHECK(dock_step(state, DOCK_STATE_BYTES, 0xA000) == 0 && state[counts + 2] == 0 && *status == 1);
    }
}

static void write_register(uint8_t address, uint8_t value) {
    dock_step(state, DOCK_STATE_BYTES, 0x0000);
    dock_step(state, DOCK_STATE_BYTES, 0x4090);
    dock_step(state, DOCK_STATE_BYTES, (uint16_t)(0x4000 | address));
    dock_step(state, DOCK_STATE_BYTES, (uint16_t)(0x4000 | value));
    dock_step(state, DOCK_STATE_BYTES, 0x2000);
}

/* A device that is to wait for three ticks is Inserted in the third, and its count goes on from any saved value. */
static void test_waits(void) {
    for (int bay = 0; bay < 2; bay++) {
        /* The low byte; the high one stays 0. */
        uint8_t *wait = state + DOCK_AT_BAY_NUMBERS(bay) + DOCK_BAY_WAIT + 1;
        const uint8_t *of_bay = state + DOCK_AT_BAY_NUMBERS(bay) + DOCK_BAY_STATE;
        begin();
        CHECK(dock_step(state, DOCK_STATE_BYTES, 0xC0BB) == 0);
        write_register(0x42, 3);
        CHECK(dock_reading(state, DOCK_STATE_BYTES, 0x42) == 3 && state[DOCK_AT_WAIT_TIME] == 3 && *wait == 0);
        write_register(bay == 0 ? 0x14 : 0x1C, 0x04);
        CHECK(*wait == 3 && *of_bay == 0);
        CHECK(dock_step(state, DOCK_STATE_BYTES, 0xA000) == DOCK_INTERRUPT << 8 && *wait == 2 && *of_bay == 0);
        for (unsigned value = 0; value < 256; value++) {
            take_byte(DOCK_AT_WAIT_TIME, (uint8_t)value);
            take_byte(DOCK_AT_BAY_NUMBERS(bay) + DOCK_BAY_WAIT + 1, (uint8_t)value);
        }
        CHECK(dock_step(state, DOCK_STATE_BYTES, 0xA000) == DOCK_INTERRUPT << 8 && *wait == 1 && *of_bay == 0);
        *wait = 255;
        dock_step(state, DOCK_STATE_BYTES, 0xA000);
        CHECK(*wait == 254 && *of_bay == 0);
        *wait = 1;
        dock_step(state, DOCK_STATE_BYTES, 0xA000);
        CHECK(*wait == 0 && *of_bay == 1 && state[DOCK_AT_WAIT_TIME] == 3);
    }
}

/* The bytes behind it move up by one. */
static void take_out(size_t at) { memmove(state + at, state + at + 1, DOCK_STATE_BYTES - at - 1); }

/* Whether an older layout did not have this byte. */
static int is_newer(size_t at, uint8_t layout) {
    size_t in_bay = at < DOCK_AT_NUMBERS_1 ? at - DOCK_AT_NUMBERS_0 : at - DOCK_AT_NUMBERS_1;
    int of_kinds = at == DOCK_AT_KIND || at == DOCK_AT_NAMED;
    int of_second = (at >= DOCK_AT_SUBSYSTEM_WRITTEN && at < DOCK_AT_FLAGS_0) ||
                    (at >= DOCK_AT_SUBSYSTEM && at < DOCK_AT_NUMBERS_0);
    int in_numbers = at >= DOCK_AT_NUMBERS_0 && at < DOCK_AT_PROGRESS;
    int high_byte = in_numbers && (in_bay == DOCK_BAY_PULSE || in_bay == DOCK_BAY_WAIT);
    int of_waits = at == DOCK_AT_WAIT_TIME || (in_numbers && in_bay == DOCK_BAY_WAIT + 1);
    return of_kinds || of_second || high_byte || (layout < 3 && of_waits);
}

/* What older libraries saved: before 5.0 54 bytes of layout 3, before 4.0 51 of layout 2 or 1, without the waits. */
static void test_older_layouts(void) {
    for (uint8_t layout = 1; layout < DOCK_LAYOUT; layout++) {
        size_t length = DOCK_STATE_BYTES;
        begin();
        CHECK(dock_step(state, DOCK_STATE_BYTES, 0xC0BF) == 0);
        for (size_t at = DOCK_STATE_BYTES; at-- > 0;) {
            if (is_newer(at, layout)) {
                take_out(at);
                length--;
            }
        }
        CHECK(length == (layout < 3 ? 51 : 54));
        state[DOCK_AT_VERSION] = layout;
        remember(&state_buffer);
        refuse_length(state, length);
        refuse_byte(DOCK_AT_VERSION, layout);
    }
}

/* The two bytes behind the progress are free where it uses them, and 0 elsewhere. */
static void test_progress(void) {
    begin();
    for (unsigned progress = 0; progress <= 8; progress++) {
        state[DOCK_AT_PROGRESS] = (uint8_t)progress;
        for (size_t at = DOCK_AT_FIRST; at <= DOCK_AT_SECOND; at++) {
            if (at == DOCK_AT_FIRST ? progress >= 3 : progress == 4 || progress == 8) {
                take_byte(at, 0xFF);
            } else {
                refuse_byte(at, 1);
                refuse_byte(at, 0xFF);
            }
        }
    }
}

/* Word by word, in one batch, and replayed: the same records and the same state; outputs and, at a TAKE, the byte are
 * those that the questions tell; a refused word leaves the state. */
static void test_story(void) {
    static uint8_t by_step[DOCK_STATE_BYTES], replayed[COUNT(STORY) * DOCK_RECORD_BYTES];
    begin();
    CHECK(dock_batch(state, DOCK_STATE_BYTES, STORY, COUNT(STORY), records, ROOM) == COUNT(STORY));
    CHECK(only_changed(&state_buffer, DOCK_STATE_BYTES));
    CHECK(only_changed(&record_buffer, sizeof replayed));
    CHECK(dock_replay(STORY, COUNT(STORY), replayed, sizeof replayed) == COUNT(STORY));
    CHECK(memcmp(records, replayed, sizeof replayed) == 0);
    CHECK(dock_begin(by_step, sizeof by_step) == 0);
    for (size_t i = 0; i < COUNT(STORY); i++) {
        uint8_t before[DOCK_STATE_BYTES];
        uint16_t read = dock_value(dock_reading(by_step, sizeof by_step, 0x10));
        uint32_t record;
        memcpy(before, by_step, sizeof before);
        record = dock_step(by_step, sizeof by_step, STORY[i]);
        CHECK(record == dock_record(records + DOCK_RECORD_BYTES * i));
        CHECK(dock_outputs(by_step, sizeof by_step) == dock_record_outputs(record));
        check_held(by_step);
        CHECK(dock_record_refusal(record) == DOCK_ACCEPTED || memcmp(before, by_step, sizeof before) == 0);
        CHECK(dock_kind(STORY[i]) != DOCK_TAKE || dock_record_byte(record) == read);
    }
    CHECK(memcmp(by_step, state, sizeof by_step) == 0);
    CHECK(dock_record_refusal(dock_record(records)) == DOCK_NOT_STARTED);
    CHECK(dock_record_refusal(dock_record(records + 2 * DOCK_RECORD_BYTES)) == DOCK_STRAY_BIT);
}

/* A read of the register in a fresh state of this kind: what is held at each event up to the own read byte. */
static void open_read(uint8_t kind, uint8_t address) {
    const uint16_t opening[] = {0xC0BF, 0x0000, 0x4090, (uint16_t)(0x4000u | address), 0x0000};
    begin();
    CHECK(dock_name_kind(state, DOCK_STATE_BYTES, kind) == 0);
    for (size_t i = 0; i < COUNT(opening); i++) {
        CHECK(dock_record_refusal(dock_step(state, DOCK_STATE_BYTES, opening[i])) == DOCK_ACCEPTED);
        CHECK(dock_held_byte(state, DOCK_STATE_BYTES) == 0);
    }
    CHECK(dock_record_reply(dock_step(state, DOCK_STATE_BYTES, 0x4091)) == DOCK_ACK);
    remember(&state_buffer);
    CHECK(dock_held_byte(state, DOCK_STATE_BYTES) == (DOCK_HELD | dock_reading(state, DOCK_STATE_BYTES, address)));
    CHECK(untouched());
}

/* What is held once a read is open, in either kind: BSTR of bay 0, and 02h, which reads 00h. */
static void test_held_byte(void) {
    static const uint16_t ends[] = {0x0000, 0x2000, 0x4091, 0x6000, 0xE000, 0xC0BF};
    static const uint16_t passed_over[] = {0x80FF, 0xA000, 0xA001};
    for (uint8_t kind = DOCK_FIRST_KIND; kind <= DOCK_SECOND_KIND; kind++) {
        uint8_t status = kind == DOCK_FIRST_KIND ? 0x10 : 0x14;
        for (size_t i = 0; i < COUNT(ends); i++) {
            open_read(kind, status);
            dock_step(state, DOCK_STATE_BYTES, ends[i]);
            CHECK(dock_held_byte(state, DOCK_STATE_BYTES) == 0);
        }
        /* The byte stays what it was read as, though the device leaves; a name leaves it too. */
        open_read(kind, status);
        for (size_t i = 0; i < 20 * COUNT(passed_over); i++) {
            dock_step(state, DOCK_STATE_BYTES, passed_over[i % COUNT(passed_over)]);
            CHECK(dock_name_kind(state, DOCK_STATE_BYTES, (uint8_t)(1 + i % 2)) == 0);
            CHECK(dock_held_byte(state, DOCK_STATE_BYTES) == (DOCK_HELD | 0x05));
        }
        CHECK(dock_reading(state, DOCK_STATE_BYTES, status) != 0x05);
        open_read(kind, 0x02);
        CHECK(dock_held_byte(state, DOCK_STATE_BYTES) == DOCK_HELD);
        /* A TAKE that is ACKed reads the next register in the second kind, and ends the read in the first. */
        open_read(kind, 0x00);
        for (uint8_t address = 1; address != 0; address++) {
            uint32_t next = DOCK_HELD | dock_reading(state, DOCK_STATE_BYTES, address);
            dock_step(state, DOCK_STATE_BYTES, 0x6001);
            CHECK(dock_held_byte(state, DOCK_STATE_BYTES) == (kind == DOCK_SECOND_KIND ? next : 0));
        }
        /* Before a RESET no read is open, and one of the other kind counts as none. */
        open_read(kind, status);
        state[DOCK_AT_STARTED] = 0;
        CHECK(dock_held_byte(state, DOCK_STATE_BYTES) == 0);
        state[DOCK_AT_STARTED] = 1;
        state[DOCK_AT_KIND] ^= 1;
        CHECK(dock_held_byte(state, DOCK_STATE_BYTES) == 0);
    }
}

/* What the story leaves, field by field, so that each name stands for the byte that it says. */
static void test_fields(void) {
    static const uint8_t flags_0[14] = {1, 1, 0, 1, 0, 0, 1, 1, 0, 1, 1, 1, 0, 1};
    const uint8_t *flags = state + DOCK_AT_BAY_FLAGS(0);
    const uint8_t *numbers = state + DOCK_AT_BAY_NUMBERS(0);
    begin();
    CHECK(dock_batch(state, DOCK_STATE_BYTES, STORY, COUNT(STORY), records, ROOM) == COUNT(STORY));
    CHECK(state[DOCK_AT_STARTED] == 1 && state[DOCK_AT_DBCCR_WRITTEN] == 1 && state[DOCK_AT_SECLOCK] == 1);
    CHECK(state[DOCK_AT_STRAPS] == 5 && state[DOCK_AT_BAY_COUNT] == 2 && state[DOCK_AT_LOCK_TIME] == 2);
    CHECK(state[DOCK_AT_WAIT_TIME] == 0x5A && state[DOCK_AT_PHASE] == 6);
    CHECK(memcmp(flags, flags_0, sizeof flags_0) == 0);
    CHECK(flags[DOCK_BAY_LEVELS + 1] == 1 && flags[DOCK_BAY_ACCEPTED + 1] == 0 && flags[DOCK_BAY_N_SL] == 1);
    CHECK(flags[DOCK_BAY_REMREQ_STS] == 1 && flags[DOCK_BAY_DEVSTSCHG] == 0 && flags[DOCK_BAY_LOCK_CTL] == 1);
    CHECK(flags[DOCK_BAY_REMREQ_EN] == 1 && flags[DOCK_BAY_DEVSTSCHG_EN] == 1);
    CHECK(flags[DOCK_BAY_REMEVTWAK_EN] == 0 && flags[DOCK_BAY_PWR_CTL] == 1);
    CHECK(numbers[DOCK_BAY_COUNTS] == 0 && numbers[DOCK_BAY_COUNTS + 1] == 1 && numbers[DOCK_BAY_COUNTS + 2] == 0);
    CHECK(numbers[DOCK_BAY_STATE] == 3 && numbers[DOCK_BAY_REQUEST] == 2);
    CHECK(dock_ticks(numbers + DOCK_BAY_PULSE) == 0 && dock_ticks(numbers + DOCK_BAY_WAIT) == 0);
    CHECK(state[DOCK_AT_PROGRESS] == 4 && state[DOCK_AT_FIRST] == 0x14 && state[DOCK_AT_SECOND] == 0x81);
    /* The STOP of that write; then LOCK_CTL from 1 to 0 in LOCK_MODE 1 starts a pulse of LETR's 100 ticks. */
    dock_step(state, DOCK_STATE_BYTES, 0x2000);
    dock_step(state, DOCK_STATE_BYTES, 0x0000);
    dock_step(state, DOCK_STATE_BYTES, 0x4092);
    dock_step(state, DOCK_STATE_BYTES, 0x4014);
    dock_step(state, DOCK_STATE_BYTES, 0x4002);
    dock_step(state, DOCK_STATE_BYTES, 0x2000);
    CHECK(flags[DOCK_BAY_REMEVTWAK_EN] == 1 && flags[DOCK_BAY_LOCK_CTL] == 0);
    CHECK(dock_ticks(numbers + DOCK_BAY_PULSE) == 100);
    /* Bay 1 has the same fields behind its own two offsets. */
    dock_step(state, DOCK_STATE_BYTES, 0xC3FB);
    flags = state + DOCK_AT_BAY_FLAGS(1);
    CHECK(flags[DOCK_BAY_LEVELS + 1] == 0 && flags[DOCK_BAY_DEVSTSCHG] == 1 && flags[DOCK_BAY_LOCK_CTL] == 0);
    dock_step(state, DOCK_STATE_BYTES, 0x80FF);
    dock_step(state, DOCK_STATE_BYTES, 0xA000);
    CHECK(state[DOCK_AT_BAY_NUMBERS(1) + DOCK_BAY_COUNTS + 1] == 1);
}

/* ---- kinds ---- */

/* One flag changes, and nothing else. */
static void name(uint8_t kind) {
    remember(&state_buffer);
    CHECK(dock_name_kind(state, DOCK_STATE_BYTES, kind) == 0);
    CHECK(state[DOCK_AT_NAMED] == (kind == DOCK_SECOND_KIND));
    state_buffer.copy[GUARD + DOCK_AT_NAMED] = state[DOCK_AT_NAMED];
    CHECK(untouched());
}

/* Both names, and every number that is none, in this state. */
static void try_names(void) {
    uint8_t named = state[DOCK_AT_NAMED];
    remember(&record_buffer);
    for (unsigned number = 0; number < 256; number++) {
        if (number == DOCK_FIRST_KIND || number == DOCK_SECOND_KIND) {
            name((uint8_t)number);
        } else {
            remember(&state_buffer);
            CHECK(dock_name_kind(state, DOCK_STATE_BYTES, (uint8_t)number) == (uint32_t)DOCK_NO_SUCH_KIND << 16);
            CHECK(untouched());
        }
    }
    name(named ? DOCK_SECOND_KIND : DOCK_FIRST_KIND);
}

/* Anywhere in the story, also inside a command: what the words then do is the same. */
static void test_names(void) {
    static uint8_t unnamed[DOCK_STATE_BYTES];
    begin();
    dock_begin(unnamed, sizeof unnamed);
    for (size_t i = 0; i < COUNT(STORY); i++) {
        try_names();
        CHECK(dock_step(state, DOCK_STATE_BYTES, STORY[i]) == dock_step(unnamed, sizeof unnamed, STORY[i]));
        CHECK(memcmp(state, unnamed, sizeof unnamed) == 0);
    }
    /* The name comes into force with the next RESET, and stays for the one after it. */
    name(DOCK_SECOND_KIND);
    CHECK(state[DOCK_AT_KIND] == 0 && dock_reading(state, DOCK_STATE_BYTES, 0x00) == 0x55);
    for (int times = 0; times < 2; times++) {
        CHECK(dock_step(state, DOCK_STATE_BYTES, 0xC0BF) == 0);
        CHECK(state[DOCK_AT_KIND] == 1 && dock_reading(state, DOCK_STATE_BYTES, 0x00) == 0x60);
        CHECK(dock_reading(state, DOCK_STATE_BYTES, 0x14) == 0x05);
    }
    try_names();
    name(DOCK_FIRST_KIND);
    CHECK(dock_step(state, DOCK_STATE_BYTES, 0xC0BF) == 0);
    CHECK(state[DOCK_AT_KIND] == 0 && dock_reading(state, DOCK_STATE_BYTES, 0x00) == 0x55);
}

/* The batch of document 03, word by word too, and what it leaves. A replay of the same words is of the first kind. */
static void test_second_kind(void) {
    static const uint16_t trace[] = {0xC0FF, 0x0000, 0x4090, 0x400B, 0x4077, 0x4012, 0x4055, 0x2000, 0x0000,
                                     0x4090, 0x400A, 0x0000, 0x4091, 0x6001, 0x6001, 0x6001, 0x6000, 0x6000};
    static const uint8_t replies[] = {0, 0, 1, 1, 1, 1, 1, 0, 0, 1, 1, 0, 1, 3, 3, 3, 3, 4};
    static const uint8_t taken[5] = {0x00, 0x77, 0x12, 0x00, 0xFF};
    static const uint8_t second_take[4] = {0x06, 0xEE, 0x00, 0x00};
    static uint8_t by_step[DOCK_STATE_BYTES];
    begin();
    name(DOCK_SECOND_KIND);
    memcpy(by_step, state, sizeof by_step);
    CHECK(dock_batch(state, DOCK_STATE_BYTES, trace, COUNT(trace), records, ROOM) == COUNT(trace));
    for (size_t i = 0; i < COUNT(trace); i++) {
        uint32_t record = dock_record(records + DOCK_RECORD_BYTES * i);
        uint8_t byte = i + COUNT(taken) < COUNT(trace) ? 0 : taken[i + COUNT(taken) - COUNT(trace)];
        CHECK(dock_record_refusal(record) == DOCK_ACCEPTED && dock_record_outputs(record) == 0);
        CHECK(dock_record_reply(record) == replies[i] && dock_record_byte(record) == byte);
        CHECK(dock_step(by_step, sizeof by_step, trace[i]) == record);
    }
    CHECK(memcmp(records + 14 * DOCK_RECORD_BYTES, second_take, sizeof second_take) == 0);
    CHECK(memcmp(by_step, state, sizeof by_step) == 0);
    CHECK(state[DOCK_AT_SUBSYSTEM_WRITTEN + 3] == 1 && state[DOCK_AT_SUBSYSTEM + 3] == 0x77);
    CHECK(state[DOCK_AT_DBCCR_WRITTEN] == 1 && state[DOCK_AT_SECLOCK] == 1 && state[DOCK_AT_BAY_COUNT] == 2);
    CHECK(dock_replay(trace, COUNT(trace), records, ROOM) == COUNT(trace));
    CHECK(dock_record_reply(dock_record(records + 5 * DOCK_RECORD_BYTES)) == DOCK_NO_ACK);
}

/* Field by field, so that each name stands for the byte that it says. */
static void test_second_fields(void) {
    const uint8_t *bay_0 = state + DOCK_AT_BAY_NUMBERS(0), *bay_1 = state + DOCK_AT_BAY_NUMBERS(1);
    start(DOCK_SECOND_KIND, 0xC0FF);
    write_register(0x09, 0x34);
    write_register(0x15, 0x0A);
    write_register(0x21, 0xFD);
    write_register(0xFC, 0xFF);
    CHECK(state[DOCK_AT_SUBSYSTEM_WRITTEN] == 0 && state[DOCK_AT_SUBSYSTEM_WRITTEN + 1] == 1);
    CHECK(state[DOCK_AT_SUBSYSTEM] == 0 && state[DOCK_AT_SUBSYSTEM + 1] == 0x34);
    CHECK(state[DOCK_AT_FORM_FACTORS_WRITTEN] == 1 && state[DOCK_AT_FORM_FACTORS_WRITTEN + 1] == 1);
    CHECK(state[DOCK_AT_FORM_FACTORS] == 2 && state[DOCK_AT_FORM_FACTORS + 1] == 5);
    CHECK(state[DOCK_AT_SFR_WRITTEN] == 1 && state[DOCK_AT_SFR] == 0xFF);
    /* The longest pulse in bay 1, and ten ticks later the longest wait in bay 0. */
    write_register(0x18, 0x80);
    write_register(0x18, 0x00);
    CHECK(dock_ticks(bay_1 + DOCK_BAY_PULSE) == 1200);
    dock_step(state, DOCK_STATE_BYTES, 0x80BF);
    for (int ticks = 0; ticks < 10; ticks++) {
        CHECK(dock_step(state, DOCK_STATE_BYTES, 0xA000) == DOCK_LOCK_1 << 8);
    }
    CHECK(dock_ticks(bay_1 + DOCK_BAY_PULSE) == 1190 && dock_ticks(bay_0 + DOCK_BAY_WAIT) == 560);
    CHECK(dock_ticks(bay_0 + DOCK_BAY_PULSE) == 0 && dock_ticks(bay_1 + DOCK_BAY_WAIT) == 0);
    CHECK(dock_reading(state, DOCK_STATE_BYTES, 0x14) == 0x00);
    /* A write and a read within. */
    dock_step(state, DOCK_STATE_BYTES, 0x0000);
    dock_step(state, DOCK_STATE_BYTES, 0x4090);
    dock_step(state, DOCK_STATE_BYTES, 0x40FF);
    dock_step(state, DOCK_STATE_BYTES, 0x4001);
    CHECK(state[DOCK_AT_PROGRESS] == 7 && state[DOCK_AT_FIRST] == 0x00 && state[DOCK_AT_SECOND] == 0);
    dock_step(state, DOCK_STATE_BYTES, 0x2000);
    dock_step(state, DOCK_STATE_BYTES, 0x0000);
    dock_step(state, DOCK_STATE_BYTES, 0x4090);
    dock_step(state, DOCK_STATE_BYTES, 0x40FF);
    dock_step(state, DOCK_STATE_BYTES, 0x0000);
    dock_step(state, DOCK_STATE_BYTES, 0x4091);
    CHECK(state[DOCK_AT_PROGRESS] == 8 && state[DOCK_AT_FIRST] == 0xFF && state[DOCK_AT_SECOND] == 0x00);
    dock_step(state, DOCK_STATE_BYTES, 0x6001);
    CHECK(state[DOCK_AT_PROGRESS] == 8 && state[DOCK_AT_FIRST] == 0x00 && state[DOCK_AT_SECOND] == 0x60);
}

/* P1 to P3 of document 01, and its last record. */
static void test_paper(void) {
    static const uint16_t bcer[] = {0x0000, 0x4090, 0x4014, 0x4004, 0x2000};
    static const uint16_t read[] = {0x0000, 0x4090, 0x4010, 0x0000, 0x4091, 0x6000};
    static const uint8_t last[4] = {0x06, 0x2A, 0x41, 0x00};
    uint32_t record = 0;
    begin();
    CHECK(dock_step(state, DOCK_STATE_BYTES, 0xC0BF) == 0);
    CHECK(dock_reading(state, DOCK_STATE_BYTES, 0x10) == 0x05);
    for (size_t i = 0; i < COUNT(bcer); i++) {
        dock_step(state, DOCK_STATE_BYTES, bcer[i]);
    }
    CHECK(dock_reading(state, DOCK_STATE_BYTES, 0x10) == 0x15);
    for (size_t i = 0; i < COUNT(read); i++) {
        record = dock_step(state, DOCK_STATE_BYTES, read[i]);
    }
    CHECK(record == dock_record(last) && record == 0x062A4100u);
    CHECK(dock_record_refusal(record) == DOCK_ACCEPTED && dock_record_reply(record) == DOCK_DRIVEN);
    CHECK(dock_record_byte(record) == 0x15 && dock_record_outputs(record) == (DOCK_GREEN_0 | DOCK_INTERRUPT));
}

/* Saved in the middle of the story by a copy, and put back into bytes that held something else. */
static void test_save(void) {
    static uint8_t saved[DOCK_STATE_BYTES], end[DOCK_STATE_BYTES];
    for (size_t cut = 0; cut <= COUNT(STORY); cut++) {
        begin();
        CHECK(dock_batch(state, DOCK_STATE_BYTES, STORY, cut, records, ROOM) == cut);
        memcpy(saved, state, sizeof saved);
        dock_batch(state, DOCK_STATE_BYTES, STORY + cut, COUNT(STORY) - cut, records, ROOM);
        memcpy(end, state, sizeof end);
        memset(state, PAINT, DOCK_STATE_BYTES);
        memcpy(state, saved, sizeof saved);
        CHECK(dock_batch(state, DOCK_STATE_BYTES, STORY + cut, COUNT(STORY) - cut, records, ROOM) ==
              COUNT(STORY) - cut);
        CHECK(memcmp(state, end, sizeof end) == 0);
    }
}

/* The short pulse in bit 24, straps and levels in bits 11-0. */
static uint32_t reset_numbers(uint16_t data) { return (uint32_t)(data >> 12) << 24 | (data & 0x0FFFu); }

/* Every word, by the bits that documents 01 and 02 leave its kind. */
static void test_words(void) {
    static const uint16_t data[8] = {0x0000, 0x0000, 0x00FF, 0x0001, 0x00FF, 0x0000, 0x1FFF, 0x0000};
    unsigned taken = 0;
    for (unsigned long number = 0; number <= 0xFFFF; number++) {
        uint16_t word = (uint16_t)number;
        uint16_t low = (uint16_t)(word & 0x1FFF);
        uint32_t unpacked = dock_unpack(word);
        if ((low & ~data[dock_kind(word)]) != 0) {
            CHECK(unpacked == 0x00020000u);
            continue;
        }
        taken++;
        CHECK(unpacked == (dock_kind(word) == DOCK_RESET ? reset_numbers(low) : (uint32_t)low << 8));
        CHECK(dock_refusal(unpacked) == DOCK_ACCEPTED);
        CHECK(dock_pack(dock_kind(word), dock_first(unpacked), dock_second(unpacked)) == word);
    }
    CHECK(taken == 8710);
    CHECK(dock_pack(DOCK_RESET, 16, 0) == 0x00060000u);
    CHECK(dock_pack(DOCK_RESET, DOCK_SHORT_PULSE | 16, 0) == 0x00060000u);
    CHECK(dock_pack(DOCK_RESET, DOCK_SHORT_PULSE | 1, 0xFF) == 0xD1FFu);
    CHECK(dock_pack(DOCK_RESET, 2 * DOCK_SHORT_PULSE, 0) == 0x00020000u);
    CHECK(dock_pack(DOCK_BYTE, 0x190, 0) == 0x00020000u);
    CHECK(dock_pack(DOCK_TAKE, 2, 0) == 0x00020000u);
    CHECK(dock_pack(DOCK_TICK, 0, 1) == 0x00020000u);
    CHECK(dock_pack(8, 0, 0) == 0x00020000u);
}

int main(void) {
    test_version();
    test_begin();
    test_lengths();
    test_empty_lists();
    test_order();
    test_damage();
    test_ticks();
    test_counts();
    test_waits();
    test_older_layouts();
    test_progress();
    test_story();
    test_held_byte();
    test_fields();
    test_names();
    test_second_kind();
    test_second_fields();
    test_paper();
    test_save();
    test_words();
    printf("calls: %lu checks, %lu failed\n", checks, failures);
    return failures != 0;
}
