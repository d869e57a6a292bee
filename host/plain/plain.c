/* The dock's controller as firmware C: one file, state in place, written by hand from documents 01 and 02.
 *
 * It is of the first kind alone, and a yardstick for the benchmark and nothing else. Its calls have the shape of the library's (include/dock.h):
 * each begins with a fresh controller, and answers with a refusal number times 65,536 plus a value. */
#include <stdbool.h>
#include <stddef.h>
#include <stdint.h>

enum {
    BAYS = 2,
    INPUTS = 3,
    PRESENCE_TICKS = 10,
    BUTTON_TICKS = 5,
    PHASES = 200,
    LIT_PHASES = 100,
    MOST_WORDS = 16384,
    RECORD_BYTES = 4
};

enum kind { START, STOP, BYTE, TAKE, PINS, TICK, RESET, TIMEOUT };
enum refusal { ACCEPTED = 0, STRAY_BIT = 2, NOT_STARTED = 3, SHORT_ANSWERS = 4, TOO_MANY_WORDS = 5 };
enum reply { NO_REPLY, ACK, NO_ACK, DRIVEN, NOT_DRIVEN };
enum bay_state { EMPTY, INSERTED, ENABLED, REMOVAL_REQUESTED, REMOVAL_ALLOWED };
enum command { IDLE, OPENED, ADDRESSED, AT_REGISTER, AT_DATA, RESTARTED, DRIVING };

/* A bay's levels; 0 is asserted. */
enum { N1394 = 0x8, NUSB = 0x4, NREMREQ = 0x2, NSL = 0x1, PRESENCE = N1394 | NUSB, DEBOUNCED = PRESENCE | NREMREQ };

/* BSTR's sticky bits and BCER's bits, where the registers have them. */
enum { REMREQ_STS = 0x08, DEVSTSCHG = 0x04 };
enum { LOCK_CTL = 0x80, REQUEST = 0x70, REMREQ_EN = 0x08, DEVSTSCHG_EN = 0x04, REMEVTWAK_EN = 0x02, PWR_CTL = 0x01 };

enum { LOCK_DEF = 0x2, LOCK_MODE = 0x1 };
enum { DBCCR = 0x0C, BSTR_0 = 0x10, BCER_0 = 0x14, BSTR_1 = 0x18, BCER_1 = 0x1C, LETR = 0x40, WAIT = 0x42 };
enum { DBCCR_BITS = 0x13, COUNT_BITS = 0x03, LETR_BITS = 0x03 };

struct bay {
    uint8_t levels;
    uint8_t accepted;
    uint8_t counts[INPUTS]; /* 1394, USB, removal request */
    uint8_t state;
    uint8_t sticky;  /* REMREQ_STS and DEVSTSCHG */
    uint8_t control; /* BCER as it reads */
    uint8_t pulse;
    uint8_t wait; /* ticks until it is Inserted, 0 where no count runs */
};

struct dock {
    bool started;
    bool pulsing;
    bool dbccr_written;
    uint8_t own;
    uint8_t dbccr;
    uint8_t letr;
    uint8_t wait_time;
    uint8_t phase;
    uint8_t open_bays;
    uint8_t command;
    uint8_t address;
    uint8_t data; /* what a write brings, or what a read drives */
    struct bay bays[BAYS];
};

enum { SHORT_PULSE = 0x1000 }; /* of a RESET: LETR starts at 0, not at 1 */
static const uint16_t data_bits[8] = {0, 0, 0x00FF, 0x0001, 0x00FF, 0, 0x1FFF, 0};
static const uint8_t pulse_ticks[4] = {12, 50, 100, 200};
static const uint8_t input_bits[INPUTS] = {N1394, NUSB, NREMREQ};
static const uint8_t input_ticks[INPUTS] = {PRESENCE_TICKS, PRESENCE_TICKS, BUTTON_TICKS};

static bool is_present(const struct bay *bay) { return (bay->accepted & PRESENCE) != PRESENCE; }

static bool takes_press(const struct bay *bay) { return bay->state == INSERTED || bay->state == ENABLED; }

static void reset_bay(struct bay *bay, uint8_t levels, uint8_t control) {
    *bay = (struct bay){.levels = levels, .accepted = levels, .control = control};
    if (is_present(bay)) {
        bay->sticky = DEVSTSCHG;
    }
}

static void bay_pins(struct bay *bay, uint8_t levels) {
    bay->levels = levels;
    for (int input = 0; input < INPUTS; input++) {
        if (((levels ^ bay->accepted) & input_bits[input]) == 0) {
            bay->counts[input] = 0;
        }
    }
}

/* The inputs whose level was accepted in this tick. */
static uint8_t debounce(struct bay *bay) {
    uint8_t differing = bay->levels ^ bay->accepted;
    uint8_t changed = 0;
    for (int input = 0; input < INPUTS; input++) {
        if ((differing & input_bits[input]) && ++bay->counts[input] == input_ticks[input]) {
            bay->counts[input] = 0;
            changed |= input_bits[input];
        }
    }
    bay->accepted ^= changed;
    return changed;
}

/* At once, or after the wait that begins here. Says whether the bay has a state by it. */
static bool insert(struct bay *bay, uint8_t wait_time) {
    if (wait_time > 0) {
        bay->wait = wait_time;
        return false;
    }
    bay->state = INSERTED;
    return true;
}

/* Says whether a presence bit that changed, or the end of a wait, gave the bay a state. */
static bool presence_step(struct bay *bay, bool was_present, bool changed, uint8_t wait_time) {
    bool present = is_present(bay);
    bool leaves = was_present && !present;
    if (changed && !(leaves && bay->state == REMOVAL_ALLOWED && !(bay->control & REMEVTWAK_EN))) {
        bay->sticky |= DEVSTSCHG;
    }
    if (leaves) {
        bay->state = EMPTY;
        bay->control &= (uint8_t)~(REQUEST | PWR_CTL);
        bay->wait = 0;
        return true;
    }
    if (!was_present && present && (bay->control & DEVSTSCHG_EN)) {
        return insert(bay, wait_time);
    }
    if (bay->wait > 0 && --bay->wait == 0) {
        bay->state = INSERTED;
        return true;
    }
    return false;
}

static void settle(struct bay *bay, uint8_t wait_time) {
    bool was_present = is_present(bay);
    uint8_t changed = debounce(bay);
    bool moved = presence_step(bay, was_present, changed & PRESENCE, wait_time);
    if ((changed & NREMREQ) && !(bay->accepted & NREMREQ) && is_present(bay)) {
        bool first = !(bay->sticky & REMREQ_STS);
        bay->sticky |= REMREQ_STS;
        if (first && !moved && (bay->control & REMREQ_EN) && takes_press(bay)) {
            bay->state = REMOVAL_REQUESTED;
        }
    }
}

static void bay_tick(struct bay *bay, uint8_t wait_time) {
    if (((bay->levels ^ bay->accepted) & DEBOUNCED) || bay->wait > 0) {
        settle(bay, wait_time);
    }
    if (bay->pulse > 0) {
        bay->pulse--;
    }
}

static uint8_t read_bstr(const struct bay *bay) {
    return (uint8_t)((bay->levels & NSL ? 0 : 0x80) | bay->state << 4 | bay->sticky |
                     (bay->accepted & N1394 ? 0 : 0x02) | (bay->accepted & NUSB ? 0 : 0x01));
}

static void write_bstr(struct bay *bay, uint8_t value) {
    bay->sticky &= (uint8_t)~(value & (REMREQ_STS | DEVSTSCHG));
}

static void write_bcer(struct bay *bay, uint8_t value, uint8_t pulse, uint8_t wait_time) {
    uint8_t old = bay->control;
    uint8_t rising = value & (uint8_t)~old;
    uint8_t request = value >> 4 & 7;
    bool asks = request >= INSERTED && request <= REMOVAL_ALLOWED;
    bool present = is_present(bay);

    bay->control = (uint8_t)((value & (uint8_t)~(REQUEST | PWR_CTL)) | (asks ? request << 4 : old & REQUEST));
    if ((value & PWR_CTL) && (value & LOCK_CTL) && present) {
        bay->control |= PWR_CTL;
    }
    if (!(value & DEVSTSCHG_EN) || (asks && present)) {
        bay->wait = 0;
    }
    if (asks && present) {
        bay->state = request;
    } else if ((rising & DEVSTSCHG_EN) && bay->state == EMPTY && present) {
        insert(bay, wait_time);
    } else if ((rising & REMREQ_EN) && (bay->sticky & REMREQ_STS) && takes_press(bay)) {
        bay->state = REMOVAL_REQUESTED;
    }
    if (pulse > 0 && (old & LOCK_CTL) && !(value & LOCK_CTL)) {
        bay->pulse = pulse;
    }
}

/* Power, lock pin, green and yellow, bits 3 to 0. */
static unsigned bay_outputs(const struct bay *bay, bool pulsing, bool lit) {
    unsigned outputs = bay->control & PWR_CTL ? 8 : 0;
    if (pulsing ? bay->pulse == 0 : (bay->control & LOCK_CTL) != 0) {
        outputs |= 4;
    }
    if (bay->state == ENABLED || (bay->state == INSERTED && lit)) {
        outputs |= 2;
    }
    if (bay->state == REMOVAL_REQUESTED && lit) {
        outputs |= 1;
    }
    return outputs;
}

static unsigned outputs_of(const struct dock *dock) {
    bool lit = dock->phase < LIT_PHASES;
    unsigned outputs = 0;
    for (int i = 0; i < dock->open_bays; i++) {
        const struct bay *bay = &dock->bays[i];
        outputs |= bay_outputs(bay, dock->pulsing, lit) << (i == 0 ? 5 : 1);
        /* A status bit and its enable stand at the same place. */
        outputs |= (bay->sticky & bay->control) != 0;
    }
    return outputs;
}

static uint8_t read_register(const struct dock *dock, uint8_t address) {
    bool open_1 = dock->open_bays == BAYS;
    if (!dock->started) {
        return 0;
    }
    switch (address) {
    case 0x00: return 0x55;
    case 0x01: return 0x10;
    case 0x04: return 0x01;
    case DBCCR: return dock->dbccr;
    case LETR: return dock->letr;
    case WAIT: return dock->wait_time;
    case BSTR_0: return read_bstr(&dock->bays[0]);
    case BCER_0: return dock->bays[0].control;
    case BSTR_1: return open_1 ? read_bstr(&dock->bays[1]) : 0;
    case BCER_1: return open_1 ? dock->bays[1].control : 0;
    default: return 0;
    }
}

/* Only the first write after a RESET counts; a count of 1 closes bay 1. */
static void write_dbccr(struct dock *dock, uint8_t value) {
    if (dock->dbccr_written) {
        return;
    }
    dock->dbccr_written = true;
    dock->dbccr = value & DBCCR_BITS;
    if ((value & COUNT_BITS) == 1) {
        dock->open_bays = 1;
        reset_bay(&dock->bays[1], 0xF, 0);
    }
}

static void write_register(struct dock *dock, uint8_t address, uint8_t value) {
    bool open_1 = dock->open_bays == BAYS;
    uint8_t pulse = dock->pulsing ? pulse_ticks[dock->letr] : 0;
    switch (address) {
    case DBCCR: write_dbccr(dock, value); break;
    case LETR: dock->letr = value & LETR_BITS; break;
    case WAIT: dock->wait_time = value; break;
    case BSTR_0: write_bstr(&dock->bays[0], value); break;
    case BCER_0: write_bcer(&dock->bays[0], value, pulse, dock->wait_time); break;
    case BSTR_1:
        if (open_1) {
            write_bstr(&dock->bays[1], value);
        }
        break;
    case BCER_1:
        if (open_1) {
            write_bcer(&dock->bays[1], value, pulse, dock->wait_time);
        }
        break;
    default: break;
    }
}

static void do_reset(struct dock *dock, uint8_t straps, uint8_t levels, bool short_pulse) {
    bool pulsing = straps & LOCK_MODE;
    uint8_t control = !pulsing && (straps & LOCK_DEF) ? LOCK_CTL : 0;
    *dock = (struct dock){.started = true, .pulsing = pulsing, .open_bays = BAYS, .letr = short_pulse ? 0 : 1};
    dock->own = (uint8_t)(0x90 + 2 * (straps >> 2));
    reset_bay(&dock->bays[0], levels >> 4, control);
    reset_bay(&dock->bays[1], levels & 0xF, control);
}

static void do_start(struct dock *dock) {
    switch (dock->command) {
    case IDLE: dock->command = OPENED; break;
    case AT_REGISTER: dock->command = RESTARTED; break;
    default: dock->command = IDLE; break;
    }
}

static enum reply do_byte(struct dock *dock, uint8_t value) {
    uint8_t next = IDLE;
    switch (dock->command) {
    case OPENED:
        if (value == dock->own) {
            next = ADDRESSED;
        }
        break;
    case ADDRESSED:
        dock->address = value;
        next = AT_REGISTER;
        break;
    case AT_REGISTER:
        dock->data = value;
        next = AT_DATA;
        break;
    case RESTARTED:
        if (value == dock->own + 1) {
            dock->data = read_register(dock, dock->address);
            next = DRIVING;
        }
        break;
    default: break;
    }
    dock->command = next;
    return next == IDLE ? NO_ACK : ACK;
}

static void do_pins(struct dock *dock, uint8_t levels) {
    bay_pins(&dock->bays[0], levels >> 4);
    if (dock->open_bays == BAYS) {
        bay_pins(&dock->bays[1], levels & 0xF);
    }
}

static void do_tick(struct dock *dock) {
    for (int i = 0; i < dock->open_bays; i++) {
        bay_tick(&dock->bays[i], dock->wait_time);
    }
    dock->phase = dock->phase == PHASES - 1 ? 0 : dock->phase + 1;
}

/* One event word. The answer is a record's 32 bits: refusal 4, reply 3, byte 8, outputs 9, eight zero bits. */
static uint32_t step(struct dock *dock, uint16_t word) {
    unsigned kind = word >> 13;
    uint8_t low = (uint8_t)(word & 0xFF);
    uint32_t refusal = ACCEPTED;
    uint32_t reply = NO_REPLY;
    uint32_t byte = 0;
    if (word & 0x1FFF & ~data_bits[kind]) {
        refusal = STRAY_BIT;
    } else if (!dock->started && kind != RESET) {
        refusal = NOT_STARTED;
    } else {
        switch (kind) {
        case START: do_start(dock); break;
        case STOP:
            if (dock->command == AT_DATA) {
                write_register(dock, dock->address, dock->data);
            }
            dock->command = IDLE;
            break;
        case BYTE: reply = do_byte(dock, low); break;
        case TAKE:
            reply = dock->command == DRIVING ? DRIVEN : NOT_DRIVEN;
            byte = dock->command == DRIVING ? dock->data : 0xFF;
            dock->command = IDLE;
            break;
        case PINS: do_pins(dock, low); break;
        case TICK: do_tick(dock); break;
        case RESET: do_reset(dock, word >> 8 & 0xF, low, word & SHORT_PULSE); break;
        case TIMEOUT: dock->command = IDLE; break;
        }
    }
    return refusal << 28 | reply << 25 | byte << 17 | (uint32_t)outputs_of(dock) << 8;
}

#ifndef PLAIN_STEP_ONLY

static void put_record(uint8_t *record, uint32_t bits) {
    record[0] = (uint8_t)(bits >> 24);
    record[1] = (uint8_t)(bits >> 16);
    record[2] = (uint8_t)(bits >> 8);
    record[3] = (uint8_t)bits;
}

static uint32_t refused(enum refusal refusal) { return (uint32_t)refusal << 16; }

static void run(struct dock *dock, const uint16_t *words, size_t words_len) {
    *dock = (struct dock){0};
    for (size_t i = 0; i < words_len; i++) {
        step(dock, words[i]);
    }
}

uint32_t plain_replay(const uint16_t *words, size_t words_len, uint8_t *records, size_t records_len);
uint32_t plain_reading(const uint16_t *words, size_t words_len, uint8_t address);
uint32_t plain_outputs(const uint16_t *words, size_t words_len);

uint32_t plain_replay(const uint16_t *words, size_t words_len, uint8_t *records, size_t records_len) {
    struct dock dock = {0};
    if (words_len > MOST_WORDS) {
        return refused(TOO_MANY_WORDS);
    }
    if (records_len < RECORD_BYTES * words_len) {
        return refused(SHORT_ANSWERS);
    }
    for (size_t i = 0; i < words_len; i++) {
        put_record(records + RECORD_BYTES * i, step(&dock, words[i]));
    }
    return (uint32_t)words_len;
}

uint32_t plain_reading(const uint16_t *words, size_t words_len, uint8_t address) {
    struct dock dock;
    if (words_len > MOST_WORDS) {
        return refused(TOO_MANY_WORDS);
    }
    run(&dock, words, words_len);
    return read_register(&dock, address);
}

uint32_t plain_outputs(const uint16_t *words, size_t words_len) {
    struct dock dock;
    if (words_len > MOST_WORDS) {
        return refused(TOO_MANY_WORDS);
    }
    run(&dock, words, words_len);
    return outputs_of(&dock);
}

#endif
