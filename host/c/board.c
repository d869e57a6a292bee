/* A board made of text: stands in for the pins, the bus and the memory of a real one, and on a PC for its interrupts
 * and its timer too (chip.h). It reads a script, one thing that happens on a line, and prints what the firmware drives
 * and answers. Nothing here is to be copied.
 *
 *   straps H, pins HH     how the straps are wired, and 100 more for the short unlock pulse; the inputs change, with an
 *                         interrupt where the power is on
 *   power, cut            the power comes, or goes
 *   cut after N           the power goes while the next save writes, after N bytes of it
 *   tick N                N ticks of the timer, the loop between each
 *   flood N HH            N ticks while the loop is held up, and then the inputs change
 *   flood reset N         .. and then the reset line is pulled
 *   hold, go              the loop is held up from the one to the other: what happens in between waits
 *   start, stop, byte HH, take, timeout, reset      one event
 *   write RR VV, read RR  a whole command of the host, which waits for each answer
 *   memory N HH, ram N HH a byte of the memory, or of the held state, changes by itself
 *   queue N HH            .. or of the queue in which words wait
 *   registers             what the four bay registers read, asked outside the bus
 */
#include "board.h"
#include "chip.h"
#include "firmware.h"

#include <stdio.h>
#include <stdlib.h>
#include <string.h>

#define MEMORY_BYTES 256u
#define LINE_BYTES 128
#define MOST_EVENTS 8
#define OWN_WRITE 0x90
#define OWN_READ 0x91
#define NEVER 0xFFFFFFFFu
#define NONE_ASSERTED 0xFF

struct event {
    uint8_t kind;
    uint16_t first;
    uint8_t second;
    unsigned times;
};

static struct firmware dock;
static uint8_t memory[MEMORY_BYTES]; /* FFh from its maker */
static uint16_t straps;
static uint8_t levels = NONE_ASSERTED;
static uint16_t driven;
static int powered, listening, held_up;
static unsigned written, written_from, writes_left = NEVER;
static volatile unsigned without_room; /* interrupts count it */
static struct event coming[MOST_EVENTS];
static unsigned events_coming, next_event;
static struct event on_line; /* what the line's interrupt finds */

/* ---- what the firmware asks ---- */

uint16_t board_straps(void) { return straps; }
uint8_t board_levels(void) { return levels; }

void board_listen(void) {
    listening = 1;
    chip_listen();
}

static void print_outputs(uint16_t outputs) {
    static const char *const names[9] = {"power 0", "lock 0",  "green 0",  "yellow 0", "power 1",
                                         "lock 1",  "green 1", "yellow 1", "interrupt"};
    const char *between = "";
    printf("  pins: ");
    for (int place = 0; place < 9; place++) {
        if (outputs >> (8 - place) & 1) {
            printf("%s%s", between, names[place]);
            between = ", ";
        }
    }
    puts(outputs == 0 ? "all low" : "");
}

void board_drive(uint16_t outputs) {
    if (powered && outputs != driven) {
        driven = outputs;
        print_outputs(outputs);
    }
}

void board_acknowledge(int ack) { printf("  bus: %s\n", ack ? "ACK" : "no ACK"); }
void board_send(uint8_t byte) { printf("  bus: %02X\n", (unsigned)byte); }

uint8_t board_memory_read(unsigned at) { return memory[at]; }

void board_memory_write(unsigned at, uint8_t byte) {
    if (writes_left == 0) {
        powered = 0;
    }
    if (!powered) {
        return;
    }
    if (written == 0) {
        written_from = at;
    }
    memory[at] = byte;
    written++;
    writes_left -= writes_left == NEVER ? 0 : 1;
}

/* ---- the script ---- */

static void fail(const char *line) {
    fprintf(stderr, "board: not understood: %s\n", line);
    exit(2);
}

static void add(uint8_t kind, uint16_t first, uint8_t second, unsigned times) {
    struct event event = {kind, first, second, times};
    coming[events_coming++] = event;
}

static void add_byte(unsigned byte) { add(DOCK_BYTE, (uint8_t)byte, 0, 1); }

static void add_write(unsigned address, unsigned value) {
    add(DOCK_START, 0, 0, 1);
    add_byte(OWN_WRITE);
    add_byte(address);
    add_byte(value);
    add(DOCK_STOP, 0, 0, 1);
}

static void add_read(unsigned address) {
    add(DOCK_START, 0, 0, 1);
    add_byte(OWN_WRITE);
    add_byte(address);
    add(DOCK_START, 0, 0, 1);
    add_byte(OWN_READ);
    add(DOCK_TAKE, 0, 0, 1);
    add(DOCK_STOP, 0, 0, 1);
}

/* Inside an interrupt. One that finds no room lets go of the bus itself. */
static void interrupt(struct event event) {
    if (firmware_event(&dock, event.kind, event.first, event.second)) {
        return;
    }
    without_room++;
    if (event.kind == DOCK_BYTE) {
        board_acknowledge(0);
    }
    if (event.kind == DOCK_TAKE) {
        board_send(0xFF);
    }
}

void board_line(void) { interrupt(on_line); }

void board_timer(void) {
    struct event tick = {DOCK_TICK, 0, 0, 1};
    interrupt(tick);
}

static void happen(struct event event) {
    if (!listening) {
        return;
    }
    if (event.kind == DOCK_TICK) {
        chip_tick();
    } else {
        on_line = event;
        chip_raise();
    }
}

static void flood(unsigned count, struct event last) {
    struct event tick = {DOCK_TICK, 0, 0, 1};
    for (unsigned i = 0; i < count; i++) {
        happen(tick);
    }
    happen(last);
}

static void flood_pins(unsigned count, unsigned value) {
    levels = (uint8_t)value;
    struct event pins = {DOCK_PINS, levels, 0, 1};
    flood(count, pins);
}

static void flood_reset(unsigned count) {
    struct event reset = {DOCK_RESET, straps, levels, 1};
    flood(count, reset);
}

static void print_registers(void) {
    static const uint8_t addresses[4] = {0x10, 0x14, 0x18, 0x1C};
    printf("  registers:");
    for (int i = 0; i < 4; i++) {
        uint32_t reading = dock_reading(dock.state, sizeof dock.state, addresses[i]);
        printf(" %02X=%02X", (unsigned)addresses[i], (unsigned)dock_value(reading));
    }
    puts("");
}

static void change_pins(unsigned value) {
    levels = (uint8_t)value;
    add(DOCK_PINS, levels, 0, 1);
}

/* What needs no power. 1 where the line was such a thing. */
static int play_outside(const char *line) {
    unsigned a, b;
    if (sscanf(line, "straps %x", &a) == 1) {
        straps = (uint16_t)a;
    } else if (sscanf(line, "pins %x", &a) == 1) {
        change_pins(a);
    } else if (sscanf(line, "memory %u %x", &a, &b) == 2 && a < MEMORY_BYTES) {
        memory[a] = (uint8_t)b;
    } else {
        return 0;
    }
    return 1;
}

static int play_single(const char *line) {
    unsigned a;
    if (strcmp(line, "start") == 0) {
        add(DOCK_START, 0, 0, 1);
    } else if (strcmp(line, "stop") == 0) {
        add(DOCK_STOP, 0, 0, 1);
    } else if (sscanf(line, "byte %x", &a) == 1) {
        add_byte(a);
    } else if (strcmp(line, "take") == 0) {
        add(DOCK_TAKE, 0, 0, 1);
    } else if (strcmp(line, "timeout") == 0) {
        add(DOCK_TIMEOUT, 0, 0, 1);
    } else if (strcmp(line, "reset") == 0) {
        add(DOCK_RESET, straps, levels, 1);
    } else {
        return 0;
    }
    return 1;
}

static void play_powered(const char *line) {
    unsigned a, b;
    if (play_outside(line) || play_single(line)) {
        return;
    }
    if (sscanf(line, "cut after %u", &a) == 1) {
        writes_left = a;
    } else if (strcmp(line, "cut") == 0) {
        powered = 0;
    } else if (sscanf(line, "tick %u", &a) == 1) {
        add(DOCK_TICK, 0, 0, a);
    } else if (sscanf(line, "flood %u %x", &a, &b) == 2) {
        flood_pins(a, b);
    } else if (sscanf(line, "flood reset %u", &a) == 1) {
        flood_reset(a);
    } else if (sscanf(line, "write %x %x", &a, &b) == 2) {
        add_write(a, b);
    } else if (sscanf(line, "read %x", &a) == 1) {
        add_read(a);
    } else if (sscanf(line, "ram %u %x", &a, &b) == 2 && a < DOCK_STATE_BYTES) {
        dock.state[a] = (uint8_t)b;
    } else if (sscanf(line, "queue %u %x", &a, &b) == 2 && a < DOCK_QUEUE_BYTES) {
        dock.waiting[a] = (uint8_t)b;
    } else if (strcmp(line, "hold") == 0) {
        held_up = 1;
    } else if (strcmp(line, "go") == 0) {
        held_up = 0;
    } else if (strcmp(line, "registers") == 0) {
        print_registers();
    } else {
        fail(line);
    }
}

/* Echoes the next line and cuts its comment and its end off; 0 at the end of the script. */
static int next_line(char *line) {
    do {
        if (fgets(line, LINE_BYTES, stdin) == NULL) {
            return 0;
        }
        printf("%s%s", line[0] == '\n' || line[0] == '#' ? "" : "> ", line);
        line[strcspn(line, "#\n")] = '\0';
        while (*line != '\0' && line[strlen(line) - 1] == ' ') {
            line[strlen(line) - 1] = '\0';
        }
    } while (*line == '\0');
    return 1;
}

static void tell_counts(void) {
    if (without_room > 0) {
        printf("  lost: %u\n", without_room);
    }
    if (written > 0) {
        printf("  memory: %u bytes written from %u on\n", written, written_from);
    }
    without_room = written = 0;
}

/* The next interrupt of the line, or the next line. 0 where the power is gone. */
static int go_on(void) {
    char line[LINE_BYTES];
    tell_counts();
    if (!powered) {
        return 0;
    }
    while (next_event < events_coming && coming[next_event].times == 0) {
        next_event++;
    }
    if (next_event < events_coming) {
        coming[next_event].times--;
        happen(coming[next_event]);
        return 1;
    }
    events_coming = next_event = 0;
    if (!next_line(line)) {
        return 0;
    }
    play_powered(line);
    return powered;
}

int board_wait(void) {
    int on;
    do {
        on = go_on();
    } while (on && held_up);
    return on;
}

/* RAM without power holds anything. */
static void spoil(uint8_t *bytes, size_t length) {
    for (size_t i = 0; i < length; i++) {
        bytes[i] = (uint8_t)(37 * i + 1);
    }
}

/* Nothing in RAM outlives a cut, and the pins fall. */
static void lose_power(void) {
    spoil((uint8_t *)&dock, sizeof dock);
    powered = listening = held_up = 0;
    writes_left = NEVER;
    driven = 0;
    puts("  power is gone");
}

static int wait_for_power(void) {
    char line[LINE_BYTES];
    while (next_line(line)) {
        if (strcmp(line, "power") == 0) {
            events_coming = next_event = 0;
            powered = 1;
            return 1;
        }
        if (!play_outside(line)) {
            fail(line);
        }
        events_coming = 0;
    }
    return 0;
}

int main(void) {
    memset(memory, 0xFF, sizeof memory);
    spoil((uint8_t *)&dock, sizeof dock);
    while (wait_for_power()) {
        firmware_run(&dock);
        lose_power();
    }
    return 0;
}
