/* A user presses the removal button of bay 0 while the host is in the middle of a write.
 *
 * The dock starts with a USB device in bay 0. The host enables the bay, locked and powered, and then clears the
 * "device status changed" bit; between the register byte and the data byte of that write the button goes down and
 * settles. The program holds the dock's state, gives it one event at a time, prints every record in words, and at the
 * end what the status register reads. */
#include "dock.h"

#include <stdio.h>
#include <stdlib.h>

enum {
    OWN_WRITE = 0x90,
    OWN_READ = 0x91,
    BAY_0_STATUS = 0x10,
    BAY_0_CONTROL = 0x14,
    /* Locked, Enabled requested, both interrupts enabled, powered. */
    ENABLE = 0x80 | 0x20 | 0x08 | 0x04 | 0x01,
    CLEAR_STATUS_CHANGED = 0x04,
    USB_IN_BAY_0 = 0xBF,
    BUTTON_DOWN = 0x9F,
    BUTTON_TICKS = 5
};

static uint8_t state[DOCK_STATE_BYTES];

static void give_up(const char *why) {
    fprintf(stderr, "%s\n", why);
    exit(1);
}

/* The numbers that an event has beside its kind, as text. */
static void tell_data(uint16_t word, char *text, size_t size) {
    uint32_t unpacked = dock_unpack(word);
    unsigned first = dock_first(unpacked);
    unsigned second = dock_second(unpacked);
    switch (dock_kind(word)) {
    case DOCK_BYTE:
    case DOCK_PINS: snprintf(text, size, " %02Xh", first); break;
    case DOCK_TAKE: snprintf(text, size, "%s", first == 1 ? ", ACK" : ", NACK"); break;
    case DOCK_RESET:
        snprintf(text, size, " %Xh %02Xh%s", first & 0xFFu, second, first & DOCK_SHORT_PULSE ? ", short pulse" : "");
        break;
    default: snprintf(text, size, "%s", ""); break;
    }
}

static void print_event(uint16_t word) {
    static const char *const names[8] = {"START", "STOP", "BYTE", "TAKE", "PINS", "TICK", "RESET", "TIMEOUT"};
    char data[32];
    char text[48];
    tell_data(word, data, sizeof data);
    snprintf(text, sizeof text, "%s%s", names[dock_kind(word)], data);
    printf("%04X  %-12s", (unsigned)word, text);
}

static void print_outputs(uint16_t outputs) {
    static const char *const names[9] = {"power 0", "lock 0",  "green 0",  "yellow 0", "power 1",
                                         "lock 1",  "green 1", "yellow 1", "interrupt"};
    const char *between = "";
    for (int place = 0; place < 9; place++) {
        if (outputs >> (8 - place) & 1) {
            printf("%s%s", between, names[place]);
            between = ", ";
        }
    }
    puts(outputs == 0 ? "all off" : "");
}

static void print_record(uint32_t record) {
    static const char *const replies[8] = {"-",       "acknowledged", "not acknowledged", "drives", "drives nothing",
                                           "reply 5", "reply 6",      "reply 7"};
    char reply[24];
    if (dock_record_reply(record) == DOCK_DRIVEN) {
        snprintf(reply, sizeof reply, "drives %02Xh", (unsigned)dock_record_byte(record));
    } else {
        snprintf(reply, sizeof reply, "%s", replies[dock_record_reply(record)]);
    }
    printf("  %-16s  ", reply);
    print_outputs(dock_record_outputs(record));
}

static void print_status(uint8_t status) {
    static const char *const states[8] = {"Empty",           "Inserted", "Enabled",  "Removal Requested",
                                          "Removal Allowed", "reserved", "reserved", "reserved"};
    static const char *const flags[4] = {"USB device present", "1394 device present", "device status changed",
                                         "removal button pressed"};
    printf("bay 0 reads %02Xh, %s%s", (unsigned)status, states[status >> 4 & 7],
           status & 0x80 ? ", security lock engaged" : "");
    for (int bit = 3; bit >= 0; bit--) {
        if (status >> bit & 1) {
            printf(", %s", flags[bit]);
        }
    }
    puts("");
}

/* One event: packed, stepped and told. */
static void event(uint8_t kind, uint8_t first, uint8_t second) {
    uint32_t packed = dock_pack(kind, first, second);
    uint32_t record;
    if (dock_refusal(packed) != DOCK_ACCEPTED) {
        give_up("no event has these numbers");
    }
    record = dock_step(state, sizeof state, dock_value(packed));
    if (dock_record_refusal(record) != DOCK_ACCEPTED) {
        give_up("the library refused an event that it should take");
    }
    print_event(dock_value(packed));
    print_record(record);
}

static void byte(uint8_t value) { event(DOCK_BYTE, value, 0); }

static void press_button(void) {
    event(DOCK_PINS, BUTTON_DOWN, 0);
    for (int tick = 0; tick < BUTTON_TICKS; tick++) {
        event(DOCK_TICK, 0, 0);
    }
}

static void write_enable(void) {
    event(DOCK_START, 0, 0);
    byte(OWN_WRITE);
    byte(BAY_0_CONTROL);
    byte(ENABLE);
    event(DOCK_STOP, 0, 0);
}

static void write_with_a_press_inside(void) {
    event(DOCK_START, 0, 0);
    byte(OWN_WRITE);
    byte(BAY_0_STATUS);
    press_button();
    byte(CLEAR_STATUS_CHANGED);
    event(DOCK_STOP, 0, 0);
}

static void read_status(void) {
    event(DOCK_START, 0, 0);
    byte(OWN_WRITE);
    byte(BAY_0_STATUS);
    event(DOCK_START, 0, 0);
    byte(OWN_READ);
    event(DOCK_TAKE, 0, 0);
}

int main(void) {
    uint32_t reading;
    if (!dock_fits_header()) {
        give_up("the library is of another version than the header");
    }
    if (dock_refusal(dock_begin(state, sizeof state)) != DOCK_ACCEPTED) {
        give_up("the library has a state of another length");
    }
    event(DOCK_RESET, 0, USB_IN_BAY_0);
    write_enable();
    write_with_a_press_inside();
    read_status();
    reading = dock_reading(state, sizeof state, BAY_0_STATUS);
    if (dock_refusal(reading) != DOCK_ACCEPTED) {
        give_up("the library refused a question that it should answer");
    }
    print_status((uint8_t)dock_value(reading));
    return 0;
}
