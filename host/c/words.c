#include "words.h"

#include "dock.h"

#define COUNT(list) (sizeof(list) / sizeof((list)[0]))

enum {
    KIND = 0xE000,
    START = 0x0000,
    STOP = 0x2000,
    BYTE = 0x4000,
    TAKE = 0x6000,
    PINS = 0x8000,
    TICK = 0xA000,
    RESET = 0xC000,
    TIMEOUT = 0xE000
};
enum { BUTTONS = 0x22 }; /* among the levels */
enum { DBCCR = 0x0C, BSTR_0 = 0x10, BCER_0 = 0x14, BSTR_1 = 0x18, BCER_1 = 0x1C, LETR = 0x40, WAIT = 0x42 };

/* Every register and some neighbours; BCER and BSTR more often than the others. */
static const uint8_t registers[] = {BCER_0, BCER_1, BCER_0, BCER_1, BCER_0, BCER_1, BSTR_0,
                                    BSTR_1, BSTR_0, BSTR_1, LETR,   WAIT,   DBCCR,  0x00,
                                    0x01,   0x04,   0x02,   0x11,   0x41,   0x43,   0xFF};
/* BCER's bytes that lead somewhere: enables, each request, power with and without its lock. */
static const uint8_t controls[] = {0x04, 0x08, 0x0C, 0x0E, 0x10, 0x18, 0x1C, 0x28, 0x2C, 0x30,
                                   0x3C, 0x40, 0x42, 0x81, 0xAD, 0x80, 0x8C, 0x8F, 0x00};
/* About the ticks in which a level is accepted, a pulse ends, a lamp changes. */
static const uint8_t ticks[] = {1, 1, 2, 4, 5, 6, 9, 10, 11, 12, 13, 49, 51, 100, 200};
static const uint8_t waits[] = {0, 1, 2, 3, 5, 10, 20, 255};

static uint32_t drawn(struct words *words) {
    uint32_t number = words->random;
    number ^= number << 13;
    number ^= number >> 17;
    number ^= number << 5;
    words->random = number;
    return number;
}

static unsigned below(struct words *words, unsigned limit) { return (drawn(words) >> 8) % limit; }
static uint8_t drawn_byte(struct words *words) { return (uint8_t)(drawn(words) >> 11); }

/* The address byte for writing that these straps give. */
static uint8_t own_by(unsigned straps) { return (uint8_t)(0x90 + 2 * (straps >> 2)); }

/* What comes later is meant for the dock as it then is: its address byte and its levels are kept in mind. */
static void put(struct words *words, unsigned word) {
    if (words->length == SCENE_WORDS) {
        return;
    }
    words->scene[words->length++] = (uint16_t)word;
    if ((word & KIND) == RESET) {
        words->own = own_by(word >> 8 & 0xF);
        words->levels = (uint8_t)word;
    } else if ((word & ~0xFFu) == PINS) {
        words->levels = (uint8_t)word;
    }
}

static void put_ticks(struct words *words, unsigned count) {
    for (unsigned i = 0; i < count; i++) {
        put(words, TICK);
    }
}

/* What falls between the bytes of a command, now and then. */
static void interfere(struct words *words) {
    switch (below(words, 24)) {
    case 0: put_ticks(words, 1 + below(words, 11)); break;
    case 1: put(words, PINS | (words->levels ^ 1u << below(words, 8))); break;
    case 2: put(words, PINS | words->levels); break;
    default: break;
    }
}

static void put_byte(struct words *words, unsigned byte) {
    interfere(words);
    put(words, BYTE | byte);
}

static unsigned register_byte(struct words *words) { return registers[below(words, COUNT(registers))]; }

/* Now and then another address than the dock's own. */
static unsigned own_byte(struct words *words) { return below(words, 32) == 0 ? drawn_byte(words) : words->own; }

static unsigned data_byte(struct words *words, unsigned address) {
    if (below(words, 5) == 0) {
        return drawn_byte(words);
    }
    switch (address) {
    case BCER_0:
    case BCER_1: return controls[below(words, COUNT(controls))];
    case WAIT: return waits[below(words, COUNT(waits))];
    case DBCCR: return below(words, 8) == 0 ? 1 : 2;
    default: return below(words, 16);
    }
}

/* STOP, or something else that a command is cut off by. */
static void put_end(struct words *words) {
    switch (below(words, 16)) {
    case 0: put(words, TIMEOUT); break;
    case 1: put(words, START); break;
    case 2: break;
    default: put(words, STOP); break;
    }
}

static void put_write(struct words *words) {
    unsigned address = register_byte(words);
    put(words, START);
    put_byte(words, own_byte(words));
    put_byte(words, address);
    put_byte(words, data_byte(words, address));
    if (below(words, 24) == 0) {
        put_byte(words, drawn_byte(words));
    }
    interfere(words);
    put_end(words);
}

static void put_read(struct words *words) {
    put(words, START);
    put_byte(words, own_byte(words));
    put_byte(words, register_byte(words));
    put(words, START);
    put_byte(words, own_byte(words) + 1u);
    interfere(words);
    put(words, TAKE | (drawn_byte(words) & 1));
    put_end(words);
}

/* One or two inputs change, and mostly for long enough; a button goes up again. */
static void move_inputs(struct words *words) {
    static const uint8_t inputs[] = {0x80, 0x40, 0xC0, 0x08, 0x04, 0x0C, 0x20,
                                     0x02, 0x20, 0x02, 0x60, 0x06, 0x10, 0x01};
    unsigned flipped = inputs[below(words, COUNT(inputs))];
    put(words, PINS | (words->levels ^ flipped));
    put_ticks(words, ticks[below(words, 11)]);
    if (flipped & BUTTONS) {
        put(words, PINS | (words->levels | BUTTONS));
        put_ticks(words, 5);
    }
}

/* With devices in both bays, one or none. */
static void reset(struct words *words) {
    static const uint8_t levels[] = {0xFF, 0xFF, 0xBF, 0x7B, 0xF7, 0x3F};
    unsigned straps_and_pulse = below(words, 32);
    put(words, RESET | straps_and_pulse << 8 | levels[below(words, COUNT(levels))]);
}

static void next_scene(struct words *words) {
    unsigned scene = below(words, 100);
    words->length = words->next = 0;
    if (scene < 45) {
        put_write(words);
    } else if (scene < 60) {
        put_read(words);
    } else if (scene < 85) {
        move_inputs(words);
    } else if (scene < 96) {
        put_ticks(words, ticks[below(words, COUNT(ticks))]);
    } else if (scene < 99) {
        put(words, drawn(words) >> 9 & 0xFFFF);
    } else {
        reset(words);
    }
}

/* The levels are in the image as flags, n1394, nUSB and nREMREQ of a bay and apart from them nSL. */
static uint8_t levels_of(const uint8_t *state) {
    uint8_t levels = 0;
    for (int bay = 0; bay < 2; bay++) {
        const uint8_t *flags = state + DOCK_AT_BAY_FLAGS(bay);
        for (int input = 0; input < 3; input++) {
            levels = (uint8_t)(levels << 1 | flags[DOCK_BAY_LEVELS + (unsigned)input]);
        }
        levels = (uint8_t)(levels << 1 | flags[DOCK_BAY_N_SL]);
    }
    return levels;
}

void words_begin(struct words *words, uint32_t seed, const uint8_t *state) {
    words->random = seed == 0 ? 1 : seed;
    words->length = words->next = 0;
    words->own = own_by(state[DOCK_AT_STRAPS]);
    words->levels = levels_of(state);
    for (int i = 0; i < 8; i++) {
        drawn(words);
    }
    if (!state[DOCK_AT_STARTED] && below(words, 4) > 0) {
        reset(words);
    }
}

uint16_t words_next(struct words *words) {
    while (words->next == words->length) {
        next_scene(words);
    }
    return words->scene[words->next++];
}
