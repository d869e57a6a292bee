/* Checks the chassis' call from C: what it answers, and which bytes it changes. The list stands between guards, and
 * after each call the whole of it is compared with a copy, in which dock_step gave the event to each controller that it
 * should reach. Valid as C99 and as C++11. */
#include "dock.h"

#include <stdio.h>
#include <string.h>

#define GUARD 8u
#define PAINT 0xA5
#define COUNT(list) (sizeof(list) / sizeof((list)[0]))
#define LENGTHS (5u * DOCK_STATE_BYTES + 3u)

#define START 0x0000u
#define STOP 0x2000u
#define BYTE(value) (uint16_t)(0x4000u | (value))
#define TAKE 0x6000u
#define TAKE_ACKED 0x6001u
#define PINS(levels) (uint16_t)(0x8000u | (levels))
#define TICK 0xA000u
#define RESET(straps, levels) (uint16_t)(0xC000u | (straps) << 8 | (levels))
#define TIMEOUT 0xE000u
#define STRAY 0x0100u /* in no word but a RESET */

static unsigned long checks, failures;

static void check(int good, const char *what, int line) {
    checks++;
    if (!good) {
        failures++;
        printf("chassis_calls.c:%d: not so: %s\n", line, what);
    }
}
#define CHECK(good) check((good), #good, __LINE__)

static uint8_t buffer[GUARD + LENGTHS + GUARD], copy[GUARD + LENGTHS + GUARD];
static uint8_t *const list = buffer + GUARD;
static uint8_t *const expected = copy + GUARD;
static unsigned count; /* of controllers */

static uint8_t *image(uint8_t *images, unsigned place) { return images + DOCK_STATE_BYTES * place; }
static void remember(void) { memcpy(copy, buffer, sizeof buffer); }
static int as_expected(void) { return memcmp(buffer, copy, sizeof buffer) == 0; }

/* ---- lists, made by calls on single images and by hand ---- */

static void make(unsigned controllers) {
    count = controllers;
    memset(buffer, PAINT, sizeof buffer);
    for (unsigned place = 0; place < count; place++) {
        CHECK(dock_begin(image(list, place), DOCK_STATE_BYTES) == 0);
    }
    remember();
}

/* To one alone, past the chassis. */
static void alone(unsigned place, uint16_t word) {
    CHECK(dock_record_refusal(dock_step(image(list, place), DOCK_STATE_BYTES, word)) == DOCK_ACCEPTED);
    remember();
}

static void set(unsigned place, unsigned at, unsigned value) {
    image(list, place)[at] = (uint8_t)value;
    remember();
}

/* Its own read byte has come; the register is one that reads 0 in both kinds. */
static void open_read(unsigned place, unsigned address) {
    alone(place, TIMEOUT);
    alone(place, START);
    alone(place, BYTE(address));
    alone(place, BYTE(0x02));
    alone(place, START);
    alone(place, BYTE(address + 1));
    CHECK(dock_is_held(dock_held_byte(image(list, place), DOCK_STATE_BYTES)));
}

/* ---- one call ---- */

static int is_for_one(uint16_t word) { return dock_kind(word) == DOCK_PINS || dock_kind(word) == DOCK_RESET; }

static uint64_t step(uint64_t record, uint16_t word) {
    return dock_chassis_step(list, DOCK_STATE_BYTES * count, record, word);
}

/* Refused, with every byte as it came. */
static void refuse(uint64_t record, uint16_t word, unsigned refusal) {
    uint64_t answer = step(record, word);
    CHECK(answer == (uint64_t)refusal << 60);
    CHECK(dock_chassis_refusal(answer) == refusal);
    CHECK(as_expected());
}

/* What one should be after the word, where that reaches it, and then its outputs. */
static uint16_t step_expected(unsigned place, uint64_t record, uint16_t word) {
    uint8_t *one = image(expected, place);
    if (place >= count) {
        return 0;
    }
    if (is_for_one(word) ? place == record : one[DOCK_AT_STARTED] == 1) {
        dock_step(one, DOCK_STATE_BYTES, word);
    }
    return dock_value(dock_outputs(one, DOCK_STATE_BYTES));
}

/* Accepted: each is as dock_step leaves it, and below its byte the answer has the outputs of all and no other bit. */
static uint64_t take(uint64_t record, uint16_t word) {
    uint64_t answer = step(record, word), below = 0;
    for (unsigned place = 0; place < DOCK_CHASSIS_RECORDS; place++) {
        uint16_t outputs = step_expected(place, record, word);
        CHECK(dock_chassis_outputs(answer, place) == outputs);
        below = below << 12 | outputs;
    }
    CHECK(answer << 15 == below << 15);
    CHECK(dock_chassis_refusal(answer) == DOCK_ACCEPTED);
    CHECK(as_expected());
    return answer;
}

static void reply(uint16_t word, unsigned number, unsigned byte) {
    uint64_t answer = take(0, word);
    CHECK(dock_chassis_reply(answer) == number && dock_chassis_byte(answer) == byte);
}

static void write_register(unsigned address, unsigned at, unsigned value) {
    reply(START, DOCK_NO_REPLY, 0);
    reply(BYTE(address), DOCK_ACK, 0);
    reply(BYTE(at), DOCK_ACK, 0);
    reply(BYTE(value), DOCK_ACK, 0);
    reply(STOP, DOCK_NO_REPLY, 0);
}

/* Up to the TAKE. */
static void read_register(unsigned address, unsigned at) {
    reply(START, DOCK_NO_REPLY, 0);
    reply(BYTE(address), DOCK_ACK, 0);
    reply(BYTE(at), DOCK_ACK, 0);
    reply(START, DOCK_NO_REPLY, 0);
    reply(BYTE(address + 1), DOCK_ACK, 0);
}

/* ---- tests ---- */

/* Each name stands for the bits that the header says. */
static void test_answers(void) {
    const uint64_t answer = (uint64_t)0x062A0411u << 32 | 0xFF000088u;
    CHECK(DOCK_CHASSIS_BYTES == 296 && DOCK_CHASSIS_RECORDS == 4);
    CHECK(DOCK_CHASSIS_LENGTH == 9 && DOCK_ABSENT_RECORD == 10 && DOCK_TAKEN_ADDRESS == 11);
    CHECK(dock_chassis_refusal(answer) == 0 && dock_chassis_reply(answer) == 3 && dock_chassis_byte(answer) == 0x15);
    CHECK(dock_chassis_outputs(answer, 0) == 0x041 && dock_chassis_outputs(answer, 1) == 0x1FF);
    CHECK(dock_chassis_outputs(answer, 2) == 0x000 && dock_chassis_outputs(answer, 3) == 0x088);
    CHECK(dock_chassis_outputs(answer, 4) == 0 && dock_chassis_outputs(answer, (uint64_t)1 << 32) == 0);
    CHECK(dock_chassis_refusal(~(uint64_t)0) == 15 && dock_chassis_reply(~(uint64_t)0) == 7);
    CHECK(dock_chassis_byte(~(uint64_t)0) == 0xFF && dock_chassis_outputs(~(uint64_t)0, 2) == 0x1FF);
}

/* A list of another length is refused, and neither read nor written: here NULL serves as well. */
static void refuse_length(uint8_t *bytes, uint64_t length) {
    static const uint16_t words[] = {START, TICK, TICK | STRAY, PINS(0xBF), RESET(0, 0xFF)};
    for (size_t which = 0; which < COUNT(words); which++) {
        CHECK(dock_chassis_step(bytes, length, which, words[which]) == (uint64_t)DOCK_CHASSIS_LENGTH << 60);
    }
    CHECK(as_expected());
}

static void test_lengths(void) {
    make(5);
    alone(0, RESET(0, 0xBF));
    for (size_t length = 0; length <= LENGTHS; length++) {
        if (length == 0 || length % DOCK_STATE_BYTES != 0 || length > DOCK_CHASSIS_BYTES) {
            refuse_length(list, length);
            refuse_length(NULL, length);
        }
    }
    /* A length has 64 bits, and all of them count. */
    for (uint64_t more = 0x10000; more != 0; more *= 2) {
        refuse_length(list, more + DOCK_STATE_BYTES);
        refuse_length(list, more + DOCK_CHASSIS_BYTES);
        refuse_length(NULL, more);
    }
}

/* Every number of none, for the two kinds of words that name one; for any other word it is not looked at. */
static void test_numbers(void) {
    for (unsigned controllers = 1; controllers <= DOCK_CHASSIS_RECORDS; controllers++) {
        make(controllers);
        take(controllers - 1, RESET(0, 0xBF));
        for (uint64_t more = 4; more != 0; more *= 2) {
            const uint64_t numbers[] = {controllers, more, more + controllers - 1, more - 1 + more};
            for (size_t which = 0; which < COUNT(numbers); which++) {
                refuse(numbers[which], PINS(0xFF), DOCK_ABSENT_RECORD);
                refuse(numbers[which], RESET(4, 0xFF), DOCK_ABSENT_RECORD);
                take(numbers[which], TICK);
            }
        }
    }
}

/* What is against a call, tried with a list that is refused for itself: none of it comes before that. */
static void refuse_all(unsigned refusal) {
    refuse(0, START, refusal);
    refuse(0, START | STRAY, refusal);
    refuse(0, PINS(0xFF), refusal);
    refuse(2, PINS(0xFF), refusal);
    refuse(9, PINS(0xFF), refusal);
    refuse(9, PINS(0xFF) | STRAY, refusal);
    refuse(0, RESET(0, 0xFF), refusal);
    refuse(2, RESET(4, 0xFF), refusal);
    refuse(9, RESET(4, 0xFF), refusal);
}

/* Controllers 0 and 1 at 90h and 92h, and controller 2 without a RESET. */
static void make_three(void) {
    make(3);
    alone(0, RESET(0, 0xBF));
    alone(1, RESET(4, 0xBF));
}

static void test_unfit(void) {
    for (unsigned place = 0; place < 3; place++) {
        make_three();
        set(place, DOCK_AT_PHASE, 200);
        refuse_all(DOCK_UNFIT_STATE);
        make_three();
        set(place, DOCK_AT_VERSION, DOCK_LAYOUT - 1);
        refuse_all(DOCK_UNFIT_STATE);
    }
    /* None is started, and one is unfit. */
    make(3);
    set(2, DOCK_AT_STRAPS, 16);
    refuse_all(DOCK_UNFIT_STATE);
}

/* Two that are started with one own address, whatever their other straps are; one of them not started is no matter. */
static void test_one_address(void) {
    make_three();
    set(1, DOCK_AT_STRAPS, 3);
    refuse_all(DOCK_UNFIT_STATE);
    set(1, DOCK_AT_STARTED, 0);
    take(0, TICK);
    make_three();
    set(2, DOCK_AT_STRAPS, 4);
    take(0, TICK);
    set(2, DOCK_AT_STARTED, 1);
    refuse_all(DOCK_UNFIT_STATE);
}

/* Two that are started with a read open, in either kind; a read of one not started, or of the other kind, is none. */
static void test_two_reads(void) {
    make_three();
    open_read(0, 0x90);
    take(0, TICK);
    open_read(1, 0x92);
    refuse_all(DOCK_UNFIT_STATE);
    set(1, DOCK_AT_STARTED, 0);
    reply(TAKE, DOCK_DRIVEN, 0x00);
    make_three();
    CHECK(dock_name_kind(image(list, 1), DOCK_STATE_BYTES, DOCK_SECOND_KIND) == 0);
    alone(1, RESET(4, 0xBF));
    open_read(1, 0x92);
    open_read(0, 0x90);
    refuse_all(DOCK_UNFIT_STATE);
    set(1, DOCK_AT_KIND, 0);
    reply(TAKE, DOCK_DRIVEN, 0x00);
}

/* 2 before 10 and 3; 10 before 3 and 11; 3 and 11, each alone. */
static void test_order(void) {
    make(2);
    refuse(9, PINS(0xFF) | STRAY, DOCK_STRAY_BIT);
    refuse(0, TICK | STRAY, DOCK_STRAY_BIT);
    refuse(9, PINS(0xFF), DOCK_ABSENT_RECORD);
    refuse(9, RESET(0, 0xFF), DOCK_ABSENT_RECORD);
    refuse(0, PINS(0xFF), DOCK_NOT_STARTED);
    for (unsigned kind = 0; kind < 8; kind++) {
        if (kind != DOCK_RESET && kind != DOCK_PINS) {
            refuse(9, (uint16_t)(kind << 13), DOCK_NOT_STARTED);
        }
    }
    take(1, RESET(6, 0xBF));
    refuse(0, PINS(0xFF), DOCK_NOT_STARTED);
    refuse(0, PINS(0xFF) | STRAY, DOCK_STRAY_BIT);
    refuse(2, RESET(4, 0xFF), DOCK_ABSENT_RECORD);
    refuse(0, RESET(4, 0xFF), DOCK_TAKEN_ADDRESS);
    refuse(0, RESET(7, 0xFF) | 0x1000u, DOCK_TAKEN_ADDRESS);
    /* The own address again, and one that a controller has which is not started. */
    take(1, RESET(5, 0xBF));
    take(1, RESET(0, 0xBF));
    take(0, RESET(4, 0xFF));
}

/* All four addresses against each other. */
static void test_addresses(void) {
    make(4);
    for (unsigned place = 0; place < 4; place++) {
        take(place, RESET(place << 2, 0xFF));
    }
    for (unsigned place = 0; place < 4; place++) {
        for (unsigned straps = 0; straps < 16; straps++) {
            if (straps >> 2 == place) {
                take(place, RESET(straps, 0xFF));
            } else {
                refuse(place, RESET(straps, 0xFF), DOCK_TAKEN_ADDRESS);
            }
        }
    }
}

/* PINS and RESET reach one, at every place of every list, and the others stay. */
static void test_one(void) {
    for (unsigned controllers = 1; controllers <= DOCK_CHASSIS_RECORDS; controllers++) {
        for (unsigned place = 0; place < controllers; place++) {
            make(controllers);
            for (unsigned other = 0; other < controllers; other++) {
                take(other, RESET(other << 2 | 2, 0xFF));
            }
            take(place, PINS(0xBB));
            for (unsigned tick = 0; tick < 10; tick++) {
                take(0, TICK);
            }
            CHECK(dock_reading(image(list, place), DOCK_STATE_BYTES, 0x10) == 0x05);
            take(place, RESET(place << 2, 0xFF));
        }
    }
}

/* Two docks, the second of the second kind: a device in each, what the host is told, and a read of several bytes. */
static void test_two_docks(void) {
    make(2);
    CHECK(dock_name_kind(image(list, 1), DOCK_STATE_BYTES, DOCK_SECOND_KIND) == 0);
    remember();
    CHECK(take(0, RESET(2, 0xBF)) == (uint64_t)0x088u << 36);
    reply(TAKE, DOCK_NOT_DRIVEN, 0xFF);
    reply(START, DOCK_NO_REPLY, 0);
    reply(BYTE(0x92), DOCK_NO_ACK, 0);
    CHECK(take(1, RESET(4, 0xBF)) == (uint64_t)0x088u << 36);
    write_register(0x90, 0x14, 0x84);
    write_register(0x92, 0x10, 0x24);
    CHECK(take(0, TIMEOUT) == ((uint64_t)0x0C9u << 36 | (uint64_t)0x041u << 24));
    read_register(0x90, 0x10);
    take(1, PINS(0xFF));
    reply(TAKE_ACKED, DOCK_DRIVEN, 0x15);
    reply(TAKE, DOCK_NOT_DRIVEN, 0xFF);
    read_register(0x92, 0xFF);
    reply(TAKE_ACKED, DOCK_DRIVEN, 0x00);
    reply(TAKE_ACKED, DOCK_DRIVEN, 0x60);
    reply(TICK, DOCK_NO_REPLY, 0);
    reply(TAKE, DOCK_DRIVEN, 0x12);
    reply(TAKE, DOCK_NOT_DRIVEN, 0xFF);
    reply(BYTE(0x90), DOCK_NO_ACK, 0);
    for (unsigned tick = 0; tick < 9; tick++) {
        take(0, TICK);
    }
    CHECK(dock_reading(image(list, 0), DOCK_STATE_BYTES, 0x10) == 0x15);
    CHECK(dock_reading(image(list, 1), DOCK_STATE_BYTES, 0x14) == 0x04);
}

/* Four sets of outputs in one answer, all different; and a byte that all four ACK, each for itself. */
static void test_together(void) {
    make(4);
    for (unsigned place = 0; place < 4; place++) {
        take(place, RESET(place << 2 | 2, 0xBB));
        write_register(0x90 + 2 * place, 0x14, place % 2 == 0 ? 0xA5 : 0x84);
        write_register(0x90 + 2 * place, 0x1C, place < 2 ? 0xA5 : 0x84);
    }
    CHECK(take(0, TIMEOUT) == ((uint64_t)0x1DD0u << 32 | 0xDD1CD0CDu));
    for (unsigned place = 0; place < 4; place++) {
        set(place, DOCK_AT_PROGRESS, 2);
    }
    reply(BYTE(0x10), DOCK_ACK, 0);
    reply(START, DOCK_NO_REPLY, 0);
    reply(BYTE(0x95), DOCK_ACK, 0);
    reply(TAKE, DOCK_DRIVEN, 0x25);
}

int main(void) {
    test_answers();
    test_lengths();
    test_numbers();
    test_unfit();
    test_one_address();
    test_two_reads();
    test_order();
    test_addresses();
    test_one();
    test_two_docks();
    test_together();
    printf("chassis calls: %lu checks, %lu failed\n", checks, failures);
    return failures != 0;
}
