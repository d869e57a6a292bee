/* A dock's main loop: words from the queue, one step each, then the bus, the pins and the saved state. */
#include "firmware.h"

#include "board.h"
#include "store.h"

#include <string.h>

/* Neither is ever refused. */
static uint16_t timeout_word(void) { return dock_value(dock_pack(DOCK_TIMEOUT, 0, 0)); }
static uint16_t levels_word(void) { return dock_value(dock_pack(DOCK_PINS, board_levels(), 0)); }

/* ---- words that wait ---- */

/* In an interrupt. 0 where the word is lost, and with it every later one until the loop has seen that: what the loop
 * takes has no gap that it does not know of. */
static int put(struct firmware *dock, uint16_t word) {
    if (!dock->lost && dock_refusal(dock_queue_put(dock->waiting, sizeof dock->waiting, word)) != DOCK_ACCEPTED) {
        dock->lost = 1;
    }
    return !dock->lost;
}

/* A RESET is never just lost: the loop makes up for it, and what comes after it waits for that. */
int firmware_event(struct firmware *dock, uint8_t kind, uint16_t first, uint8_t second) {
    uint32_t packed = dock_pack(kind, first, second);
    int waits = dock_refusal(packed) == DOCK_ACCEPTED && put(dock, dock_value(packed));
    if (kind == DOCK_RESET && waits) {
        dock->reset_waits = 1;
    } else if (kind == DOCK_RESET) {
        dock->reset_lost = 1;
        dock->lost = 1;
    }
    return waits;
}

/* Masked: bytes that no call explains, as after a flipped bit in RAM. What waited is lost, also a RESET. */
static void begin_queue_anew(struct firmware *dock) {
    dock_queue_begin(dock->waiting, sizeof dock->waiting);
    dock->lost = 1;
    if (dock->reset_waits) {
        dock->reset_lost = 1;
    }
}

/* In the loop, so masked: a put in the middle of a take would lose a word. The answer of dock_queue_take. */
static uint32_t take(struct firmware *dock) {
    board_mask();
    uint32_t taken = dock_queue_take(dock->waiting, sizeof dock->waiting);
    if (dock_refusal(taken) == DOCK_UNFIT_STATE) {
        begin_queue_anew(dock);
    }
    if (dock_refusal(taken) != DOCK_ACCEPTED) {
        dock->reset_waits = 0;
    }
    board_unmask();
    return taken;
}

/* ---- one event ---- */

/* The host waits for this, so it comes first. A word that was refused has no ACK and drives nothing.
 * A stand-in: the TAKE's own record has the byte, so the bus is held until the loop comes to it. Once the library tells
 * the byte before the TAKE, the bus can have it ready. The TAKE is put before the host's ACK is known: this dock is of the
 * first kind, where its bit changes nothing. One of the second would put the TAKE when the ACK has come. */
static void answer_bus(uint16_t word, uint32_t record) {
    if (dock_kind(word) == DOCK_BYTE) {
        board_acknowledge(dock_record_reply(record) == DOCK_ACK);
    }
    if (dock_kind(word) == DOCK_TAKE) {
        board_send(dock_record_reply(record) == DOCK_DRIVEN ? dock_record_byte(record) : 0xFF);
    }
}

/* The refusal. An unfit state tells no outputs: the pins stay as they are. */
static uint32_t give(struct firmware *dock, uint16_t word) {
    uint32_t record = dock_step(dock->state, sizeof dock->state, word);
    answer_bus(word, record);
    if (dock_record_refusal(record) != DOCK_UNFIT_STATE) {
        board_drive(dock_record_outputs(record));
    }
    return dock_record_refusal(record);
}

/* ---- starting ---- */

/* Straps that the board cannot have make no RESET. Then the state stays a fresh one, which drives no pin, acknowledges
 * nothing and refuses every event, until a RESET comes whose straps are right. */
static void start_anew(struct firmware *dock) {
    uint32_t reset = dock_pack(DOCK_RESET, board_straps(), board_levels());
    dock_begin(dock->state, sizeof dock->state);
    if (dock_refusal(reset) == DOCK_ACCEPTED) {
        give(dock, dock_value(reset));
    } else {
        board_drive(dock_value(dock_outputs(dock->state, sizeof dock->state)));
    }
}

/* Goes on from the saved state; 0 where there is none, it is refused or not started, or the board has other straps.
 * No command outlives a power cut, so TIMEOUT ends one that was open. The levels are sampled anew: a cartridge that
 * left or came meanwhile is debounced as ever. Time stood still: phase, counts, a pulse and a wait go on as they were
 * saved. */
static int go_on(struct firmware *dock) {
    if (!store_load(dock->saved)) {
        return 0;
    }
    memcpy(dock->state, dock->saved, sizeof dock->state);
    return dock->state[DOCK_AT_STRAPS] == (board_straps() & ~DOCK_SHORT_PULSE) &&
           give(dock, timeout_word()) == DOCK_ACCEPTED && give(dock, levels_word()) == DOCK_ACCEPTED;
}

/* The interrupts come on before the levels are sampled, so that no change falls between the two. Until then none comes,
 * and nothing need be masked. */
static void start(struct firmware *dock) {
    dock_queue_begin(dock->waiting, sizeof dock->waiting);
    dock->lost = dock->reset_waits = dock->reset_lost = 0;
    board_listen();
    if (!go_on(dock)) {
        memset(dock->saved, 0, sizeof dock->saved);
        start_anew(dock);
    }
}

/* ---- saving ---- */

static int same(const struct firmware *dock, size_t from, size_t end) {
    return memcmp(dock->state + from, dock->saved + from, end - from) == 0;
}

/* Of ticks that are left: whether any are. */
static int same_running(const struct firmware *dock, size_t at) {
    return (dock_ticks(dock->state + at) == 0) == (dock_ticks(dock->saved + at) == 0);
}

static int same_bay(const struct firmware *dock, int bay) {
    size_t flags = DOCK_AT_BAY_FLAGS(bay), numbers = DOCK_AT_BAY_NUMBERS(bay);
    return same(dock, flags + DOCK_BAY_ACCEPTED, flags + DOCK_BAY_PWR_CTL + 1) &&
           same(dock, numbers + DOCK_BAY_STATE, numbers + DOCK_BAY_PULSE) &&
           same_running(dock, numbers + DOCK_BAY_PULSE) && same_running(dock, numbers + DOCK_BAY_WAIT);
}

/* Saves where something changed that a restart could not do without. What changes with every tick or bounce is saved
 * along with it and is no reason by itself: phase, counts, the ticks of a pulse or a wait, sampled levels, an open
 * command. So a pulse or a wait that is cut may last longer after the restart, by the ticks since the last save. */
static void save(struct firmware *dock) {
    if (same(dock, DOCK_AT_VERSION, DOCK_AT_FLAGS_0) && same(dock, DOCK_AT_STRAPS, DOCK_AT_PHASE) &&
        same(dock, DOCK_AT_SUBSYSTEM, DOCK_AT_NUMBERS_0) && same_bay(dock, 0) && same_bay(dock, 1)) {
        return;
    }
    store_save(dock->state);
    memcpy(dock->saved, dock->state, sizeof dock->saved);
}

/* ---- the loop ---- */

/* A state that no event explains, as after a flipped bit in RAM, is not mended: the dock starts anew. */
static void turn(struct firmware *dock, uint16_t word) {
    if (give(dock, word) == DOCK_UNFIT_STATE) {
        start_anew(dock);
    }
}

static void drain(struct firmware *dock) {
    uint32_t taken;
    while (taken = take(dock), dock_refusal(taken) == DOCK_ACCEPTED) {
        turn(dock, dock_value(taken));
    }
}

/* Words were lost behind those that wait. A command may have a gap, so it ends here; the levels are sampled anew; lost
 * ticks stay lost. A lost RESET does all that and more. Each mark goes before what it asks for, so that nothing that
 * happens from here on is missed. */
static void catch_up(struct firmware *dock) {
    drain(dock);
    dock->lost = 0;
    if (dock->reset_lost) {
        dock->reset_lost = 0;
        start_anew(dock);
    } else {
        turn(dock, timeout_word());
        turn(dock, levels_word());
    }
}

void firmware_run(struct firmware *dock) {
    if (!dock_fits_header()) {
        return;
    }
    start(dock);
    do {
        drain(dock);
        if (dock->lost) {
            catch_up(dock);
        }
        save(dock);
    } while (board_wait());
}
