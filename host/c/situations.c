#include "situations.h"

#include "dock.h"

#include <stdio.h>

enum { INSERTED = 1, ONE_BAY = 1 };

/* Of a bay. */
enum { TO_STATE, PRESSED = 5, CHANGED, POWERED, UNPOWERED, PULSE, PULSE_ENDS, WAIT, WAIT_ENDS, WAIT_CUT, OF_BAY };
static const char *const of_bay[OF_BAY] = {"to Empty",           "to Inserted",    "to Enabled", "to Removal Requested",
                                           "to Removal Allowed", "REMREQ_STS",     "DEVSTSCHG",  "power on",
                                           "power off",          "pulse begins",   "pulse ends", "wait begins",
                                           "wait to its end",    "wait broken off"};

/* Of the dock. */
enum { REFUSED_2, REFUSED_3, ACKED, NOT_ACKED, DRIVES, DRIVES_NOT, CLOSES, INTERRUPTS, OF_DOCK };
static const char *const of_dock[OF_DOCK] = {"refused with 2", "refused with 3",  "ACK",          "no ACK",
                                             "byte driven",    "byte not driven", "bay 1 closes", "interrupt"};

static unsigned long bay_seen[2][OF_BAY], dock_seen[OF_DOCK];

static void see_bay(unsigned long *seen, const uint8_t *before, const uint8_t *after, int bay) {
    unsigned flags = DOCK_AT_BAY_FLAGS(bay), numbers = DOCK_AT_BAY_NUMBERS(bay);
    unsigned state = numbers + DOCK_BAY_STATE, power = flags + DOCK_BAY_PWR_CTL;
    unsigned pulse_before = dock_ticks(before + numbers + DOCK_BAY_PULSE);
    unsigned pulse_after = dock_ticks(after + numbers + DOCK_BAY_PULSE);
    unsigned wait_before = dock_ticks(before + numbers + DOCK_BAY_WAIT);
    unsigned wait_after = dock_ticks(after + numbers + DOCK_BAY_WAIT);
    int inserted = before[state] != after[state] && after[state] == INSERTED;
    if (before[state] != after[state]) {
        seen[TO_STATE + after[state]]++;
    }
    seen[PRESSED] += !before[flags + DOCK_BAY_REMREQ_STS] && after[flags + DOCK_BAY_REMREQ_STS];
    seen[CHANGED] += !before[flags + DOCK_BAY_DEVSTSCHG] && after[flags + DOCK_BAY_DEVSTSCHG];
    seen[POWERED] += !before[power] && after[power];
    seen[UNPOWERED] += before[power] && !after[power];
    seen[PULSE] += pulse_before == 0 && pulse_after > 0;
    seen[PULSE_ENDS] += pulse_before == 1 && pulse_after == 0;
    seen[WAIT] += wait_before == 0 && wait_after > 0;
    seen[WAIT_ENDS] += wait_before == 1 && wait_after == 0 && inserted;
    seen[WAIT_CUT] += wait_before > 1 && wait_after == 0;
}

void situations_see(const uint8_t *before, const uint8_t *after, uint32_t record) {
    uint32_t refusal = dock_record_refusal(record), reply = dock_record_reply(record);
    dock_seen[REFUSED_2] += refusal == DOCK_STRAY_BIT;
    dock_seen[REFUSED_3] += refusal == DOCK_NOT_STARTED;
    dock_seen[ACKED] += reply == DOCK_ACK;
    dock_seen[NOT_ACKED] += reply == DOCK_NO_ACK;
    dock_seen[DRIVES] += reply == DOCK_DRIVEN;
    dock_seen[DRIVES_NOT] += reply == DOCK_NOT_DRIVEN;
    dock_seen[CLOSES] += before[DOCK_AT_BAY_COUNT] != ONE_BAY && after[DOCK_AT_BAY_COUNT] == ONE_BAY;
    dock_seen[INTERRUPTS] += dock_record_outputs(record) & DOCK_INTERRUPT;
    for (int bay = 0; bay < 2; bay++) {
        see_bay(bay_seen[bay], before, after, bay);
    }
}

static unsigned tell(const char *whose, const char *const *names, const unsigned long *seen, unsigned count) {
    unsigned missing = 0;
    printf("%s", whose);
    for (unsigned i = 0; i < count; i++) {
        printf("%s %s %lu", i == 0 ? ":" : ",", names[i], seen[i]);
        missing += seen[i] == 0;
    }
    puts("");
    return missing;
}

unsigned situations_missing(void) {
    return tell("dock", of_dock, dock_seen, OF_DOCK) + tell("bay 0", of_bay, bay_seen[0], OF_BAY) +
           tell("bay 1", of_bay, bay_seen[1], OF_BAY);
}
