/* The proved controller of a two-bay cartridge dock, version 5.3, for C99 or C++11 and newer.
 *
 * A program holds the controller's state as DOCK_STATE_BYTES bytes and gives it one event at a time:
 *
 *     uint8_t state[DOCK_STATE_BYTES], flash[DOCK_STATE_BYTES];
 *     uint32_t reset = dock_pack(DOCK_RESET, 2, 0xFF);      // straps and input levels
 *     dock_begin(state, sizeof state);                      // a fresh state, which waits for a RESET
 *     uint32_t record = dock_step(state, sizeof state, dock_value(reset));
 *     uint16_t pins = dock_record_outputs(record);          // what to drive after the event
 *     memcpy(flash, state, sizeof state);                   // to save it is to copy it
 *     memcpy(state, flash, sizeof state);                   // to go on from there is to hand it in again
 *     uint32_t outputs = dock_outputs(state, sizeof state); // what to drive, asked without an event
 *     if (dock_refusal(outputs) != DOCK_ACCEPTED)
 *         dock_begin(state, sizeof state);                  // the bytes came back damaged
 *
 * Any bytes at all may come back as a state: those that are no image of a fit state are refused with 1. The library
 * keeps nothing between calls, takes no memory but some of the stack, and calls nothing outside itself.
 *
 * A list is a pointer and the number of its elements (not bytes). That number has 64 bits on every processor, also where
 * size_t has fewer. Any bytes, words, numbers and lengths are taken: a call returns, and what it cannot do it refuses
 * with a number, and leaves the state and every list as they came.
 *
 * What a call cannot see stays the caller's duty:
 * - A pointer leads to as many elements as the call is told, aligned for their type, and writable where it is not
 *   const. An empty list may come with NULL. So may a state of any length but DOCK_STATE_BYTES: it is refused unread.
 * - State, words and records of one call do not overlap.
 * - During the call nobody else (a thread, an interrupt) writes to them, nor reads what the call may write. Calls on
 *   different states may run at the same time.
 * - The events are given in the order in which they happened, a TICK every ten milliseconds.
 * - Bytes that are the image of a fit state are taken for that state. Whether they are the bytes that were saved, only
 *   the caller can know, by a check sum for example.
 */
#ifndef DOCK_H
#define DOCK_H

#include <stddef.h>
#include <stdint.h>

#ifdef __cplusplus
extern "C" {
#endif

/* The version of the library that this header belongs to: first number in bits 15-8, second in bits 7-0. The first
 * rises where a program that was built on an older header would misread or misuse a call, the second where it would
 * not.
 *
 * Since 5.3 dock_chassis_step gives an event to one to four controllers on one bus, and gives refusals 9, 10 and 11. No
 * other call has changed.
 *
 * Since 5.2 dock_queue_begin, dock_queue_put and dock_queue_take are a queue of words that wait, and give refusals 7
 * and 8. No other call has changed.
 *
 * Since 5.1 dock_held_byte tells the byte that an open read holds, and dock_wire_begin and dock_wire_listen are a wire
 * cell. No other call has changed.
 *
 * Since 5.0 the library serves a second kind of controller behind the same calls, for drivers of the other maker's
 * part: dock_name_kind names it, and a RESET puts it in force; enum dock_controller_kind tells what is then different. A
 * program that never calls it sees what it saw. A state holds what that kind needs, so DOCK_STATE_BYTES is 74, where it
 * was 54, and images have DOCK_LAYOUT 4. A program that was built on an older header has every call with a state refused
 * with 1, and must be built again: dock_fits_header() tells it. An image that an older library saved is refused with 1,
 * and a program that finds one begins anew.
 *
 * Since 4.0 register 42h holds a wait of 0 to 255 ticks for cartridges that seat slowly, 0 after a RESET. A driver that
 * leaves it at 0 sees what it saw. Above 0, a device that arrives with DEVSTSCHG_EN set, or over which that is set in
 * Empty, leaves its bay Empty while a count of so many ticks runs, and is Inserted at the count's end; DEVSTSCHG and
 * the interrupt come with the device, as ever. A state came to hold 42h and a count for each bay, so it had 54 bytes,
 * where it had 51, and images had layout 3.
 *
 * Since 3.1 a level of the removal button is accepted after 5 ticks, pressed and released, and not after 10; presence
 * still takes 10. No call has changed. A saved count of the button's is now at most 4, so images had layout 2.
 *
 * Since 3.0 a RESET starts LETR at 1, a pulse of 50 ticks, and not at 0, one of 12. A dock that was built on the short
 * pulse says so in each RESET: DOCK_SHORT_PULSE beside the straps, bit 12 of the word, which is refused no more. For it
 * dock_pack's first number has 16 bits, and dock_unpack tells it in bit 24, above the refusal. A program that was built
 * on an older header packs as it did, and takes an unpacked RESET with the short pulse for a word that is refused with
 * 256; every other answer has the layout that it had. It is to be built again all the same, by someone who knows which
 * pulse its dock was built on.
 *
 * Since 2.1 a press of the removal button counts only with a device in the bay: over none, REMREQ_STS stays as it is.
 *
 * Before version 2, dock_reading and dock_outputs took words where they take a state now, and dock_unpack had a layout
 * of its own. A program that was built on such a header must be built again. */
#define DOCK_VERSION 0x0503u

/* Bits of words and answers, numbers of events, replies and refusals that this header does not name are 0 or not given
 * in this version. A later one may use them, and then has a higher first number. A program that begins by asking
 * dock_fits_header() misreads nothing silently. */
uint32_t dock_version(void); /* value: as DOCK_VERSION */
static inline int dock_fits_header(void) { return dock_version() >> 8 == DOCK_VERSION >> 8; }

#define DOCK_STATE_BYTES 74u
#define DOCK_RECORD_BYTES 4u
#define DOCK_MOST_WORDS 16384u
#define DOCK_WIRE_BYTES 7u
#define DOCK_MOST_SAMPLES 16384u
#define DOCK_QUEUE_BYTES 261u
#define DOCK_QUEUE_WORDS 128u
#define DOCK_CHASSIS_RECORDS 4u
#define DOCK_CHASSIS_BYTES (DOCK_CHASSIS_RECORDS * DOCK_STATE_BYTES)

/* The kinds of events, and the two numbers that dock_pack takes and dock_unpack gives for each. A number that is not
 * named is 0. */
enum dock_kind_number {
    DOCK_START = 0,
    DOCK_STOP = 1,
    DOCK_BYTE = 2,   /* first: the byte from the host */
    DOCK_TAKE = 3,   /* first: 1 if the host ACKs the byte it clocks in, else 0 */
    DOCK_PINS = 4,   /* first: levels n1394, nUSB, nREMREQ, nSL of bay 0, then of bay 1; 0 is asserted */
    DOCK_TICK = 5,   /* ten milliseconds */
    DOCK_RESET = 6,  /* first: straps SMB_A1, SMB_A0, LOCK_DEF, LOCK_MODE, or DOCK_SHORT_PULSE; second: levels */
    DOCK_TIMEOUT = 7 /* the bus clock was held low too long */
};

/* RESET's first number has this beside its straps where LETR is to start at 0, a pulse of 12 ticks, and not at 1, one of
 * 50 ticks. It is LETR's start only: a driver can write LETR as ever. */
#define DOCK_SHORT_PULSE 0x100u

/* The refusals, by call. "call": the call refuses. "record": the record of that word says so, and the call goes on.
 * dock_version gives 0 only, and dock_held_byte is refused as dock_outputs is. The wire cell's calls, the queue's and
 * the chassis' have tables of their own, below.
 *
 * | no. | given when | begin | step | batch | reading, outputs | name_kind | replay | pack | unpack |
 * |---|---|---|---|---|---|---|---|---|---|
 * | 0 | none below | call | call | call, record | call | call | call, record | call | call |
 * | 1 | the state has another length, or (not begin) is no image of a fit state | call | call | call | call | call | | | |
 * | 2 | a bit is set that must be 0, or the three numbers are no event's | | call | record | | | record | call | call |
 * | 3 | no RESET yet, and the word is not one | | call | record | | | record | | |
 * | 4 | fewer than 4 record bytes for each word | | | call | | | call | | |
 * | 5 | over 16,384 words | | | call | | | call | | |
 * | 6 | RESET with straps above 15 | | | | | | | call | |
 * | 7, 8 | by the queue's calls alone | | | | | | | | |
 * | 9-11 | by the chassis' call alone | | | | | | | | |
 * | 14 | the number is that of no kind of controller | | | | | call | | | |
 * | 12, 13, 15 | never in this version | | | | | | | | |
 *
 * Where more than one could be given, the order is 1, 5, 4 for a call with words, 1, 2, 3 for an event, and 1, 14 for a
 * name. */
enum dock_refusal_number {
    DOCK_ACCEPTED = 0,
    DOCK_UNFIT_STATE = 1,
    DOCK_STRAY_BIT = 2,
    DOCK_NOT_STARTED = 3,
    DOCK_SHORT_ANSWERS = 4,
    DOCK_TOO_MANY_WORDS = 5,
    DOCK_WIDE_STRAPS = 6,
    DOCK_QUEUE_FULL = 7,
    DOCK_QUEUE_EMPTY = 8,
    DOCK_CHASSIS_LENGTH = 9,
    DOCK_ABSENT_RECORD = 10,
    DOCK_TAKEN_ADDRESS = 11,
    DOCK_NO_SUCH_KIND = 14
};

enum dock_reply_number {
    DOCK_NO_REPLY = 0,
    DOCK_ACK = 1,
    DOCK_NO_ACK = 2,
    DOCK_DRIVEN = 3,    /* the record's byte is what the dock drives */
    DOCK_NOT_DRIVEN = 4 /* the host clocks in FFh */
};

/* The kinds of controller, by the numbers that dock_name_kind takes: the DBC98C51, which a fresh state is, and the
 * CDP1020 of older backplanes.
 *
 * Words, records, outputs, refusals and the own address bytes are the same in both. What is different in the second:
 *
 * | address | in the second kind | written | in the first |
 * |---|---|---|---|
 * | 00h, 01h, 04h | 60h, 12h, 01h: vendor and revision | never | 55h, 10h, 01h |
 * | 08h-0Bh | subsystem vendor and subsystem, low byte first | each byte once after each RESET | |
 * | 0Ch | DBCCR: bit 4 SECLOCK, 3-0 bay count, above 2 stored as 2; 02h after RESET | once after each RESET | DBCCR |
 * | 10h, 18h | BCER of bay 0, bay 1 | always | 14h, 1Ch |
 * | 14h, 20h | BSTR of bay 0, bay 1 | bits 3 and 2: 1 clears | 10h, 18h |
 * | 15h, 21h | bits 2-0: BAY_FF of bay 0, bay 1; kept over RESET | once in the controller's life | |
 * | FCh | SFR: bits 7-5 ITO, 4-1 SOL, 0 SPD; 00h after RESET | once after each RESET | |
 * | 40h, 42h | not there: 0 | | LETR, the wait |
 *
 * - A write takes any number of data bytes, each written at once, and a read gives bytes for as long as the host ACKs
 *   them, each read before it is asked for; the address rises by one with each, FFh to 00h.
 * - A device is not there for the host, for power or for the button, before 80 x ITO ticks have gone by since its
 *   contact was accepted; meanwhile green flashes where DEVSTSCHG_EN is set.
 * - The lock pin is LOCK_CTL where SOL is 0. Else it is high for SOL x 5 ticks, with SPD SOL x 80, after LOCK_CTL went
 *   from 1 to 0. The first write of SFR after a RESET clears LOCK_CTL and PWR_CTL of both bays.
 * - Lamps flash with 50 ticks on and 50 off, where the first kind has 100 and 100.
 * - BSTR shows nSL only where SECLOCK is set.
 * - LOCK_DEF, LOCK_MODE and DOCK_SHORT_PULSE are taken in a RESET and mean nothing. */
enum dock_controller_kind {
    DOCK_FIRST_KIND = 1,
    DOCK_SECOND_KIND = 2
};

/* The nine outputs. A lock bit is the level of the lock pin. */
enum dock_output {
    DOCK_POWER_0 = 0x100,
    DOCK_LOCK_0 = 0x080,
    DOCK_GREEN_0 = 0x040,
    DOCK_YELLOW_0 = 0x020,
    DOCK_POWER_1 = 0x010,
    DOCK_LOCK_1 = 0x008,
    DOCK_GREEN_1 = 0x004,
    DOCK_YELLOW_1 = 0x002,
    DOCK_INTERRUPT = 0x001
};

/* ---- calls: all but dock_step and dock_chassis_step answer the refusal in bits 23-16 and a value in bits 15-0, 0 with
 * a refusal; bits 31-24 are 0 but where dock_unpack uses them ---- */

/* Writes the image of a fresh state, which has had no RESET yet. Value: 0. */
uint32_t dock_begin(uint8_t *state, uint64_t state_len);

/* One event. The answer is the event's record as a number, and has a layout of its own: refusal in bits 31-28, reply in
 * 27-25, byte in 24-17, outputs in 16-8, zeros in 7-0. With refusal 1 everything below it is 0; with 2 and 3 the state
 * stays as it was and its outputs are told. */
uint32_t dock_step(uint8_t *state, uint64_t state_len, uint16_t word);

/* The words one after the other, each as by dock_step, and for each a record of four bytes, in order, from records[0]
 * on: the number that dock_step answers, most significant byte first. A word that is refused with 2 or 3 has its record
 * like any other. Bytes past the last record are not touched. Value: the count of records. */
uint32_t dock_batch(uint8_t *state, uint64_t state_len, const uint16_t *words, uint64_t words_len, uint8_t *records,
                    uint64_t records_len);

/* Value: what the register at the address reads, outside the bus. */
uint32_t dock_reading(const uint8_t *state, uint64_t state_len, uint8_t address);

/* Value: the nine outputs. */
uint32_t dock_outputs(const uint8_t *state, uint64_t state_len);

/* Value: the byte that an open read holds for the next TAKE, in bits 7-0 beside DOCK_HELD, or 0 where none is held. A
 * read is open from the own read byte, which has reply DOCK_ACK, until the next START, STOP, BYTE, TAKE, TIMEOUT or
 * RESET; in the second kind a TAKE that the host ACKs leaves it open, with the next byte. Pin changes, ticks and names
 * leave the byte as it is. SDAT is driven from it before the TAKE is known, and from the reply to a BYTE. */
uint32_t dock_held_byte(const uint8_t *state, uint64_t state_len);
#define DOCK_HELD 0x100u /* set exactly if a byte is held: 00h isn't none */

/* Names the kind of controller, DOCK_FIRST_KIND or DOCK_SECOND_KIND; any other number is refused with 14. The name comes
 * into force with the next RESET and stays for later ones; until then nothing changes, also within a command. It is no
 * event, and is taken before the first RESET too. Value: 0. */
uint32_t dock_name_kind(uint8_t *state, uint64_t state_len, uint8_t kind);

/* As dock_batch, from a fresh state that nobody keeps, and so of the first kind. */
uint32_t dock_replay(const uint16_t *words, uint64_t words_len, uint8_t *records, uint64_t records_len);

/* Value: the word of an event. Three numbers are no event's where the kind is above 7, a TAKE's first number is above
 * 1, a BYTE's or a PINS' above 255, a RESET's above 511, or a number is set that the kind does not have. */
uint32_t dock_pack(uint8_t kind, uint16_t first, uint8_t second);

/* Value: the two numbers of a word's event, the first in bits 15-8, the second in 7-0. What the first has above a byte,
 * which is RESET's short pulse, is in bits 31-24. */
uint32_t dock_unpack(uint16_t word);

/* ---- the wire cell: for a processor that has no bus cell, only two sampled pins ----
 *
 * It listens: samples of SCLK and SDAT come in, one every 2 microseconds, and words for dock_step or dock_batch go out.
 * What it holds between calls are DOCK_WIRE_BYTES bytes of its own, beside the dock's state and handled as that is: saved
 * by a copy, taken back as any bytes at all. What stays the caller's duty is the same, for held bytes, samples and words.
 *
 * - START and STOP: SDAT falls or rises while SCLK stays high, in the sample before and in this one.
 * - BYTE: with the eighth bit of a byte. A bit is SDAT at the first high sample of SCLK, also where SDAT moves in that
 *   sample; the most significant comes first. The ninth is passed over.
 * - TAKE: after a START's first byte whose lowest bit is 1, whoever's address it is, with the ninth bit of each later
 *   nine, which is low where the host ACKs.
 * - TIMEOUT: with the 17,501st sample in a row in which SCLK is low (35 ms), once for that stretch.
 *
 * START, STOP and TIMEOUT are given whenever they are seen, and drop an unfinished byte. Bits count for nothing after a
 * STOP or a TIMEOUT and in a fresh held state, whose lines are high, until a START comes.
 *
 * A sample gives at most one word, and however samples are cut into calls, the words and the held bytes are the same. A
 * START or STOP whose own rise of SCLK completes a byte gives the BYTE first, or the TAKE where that rise is its ninth
 * bit, and then the START or STOP. A host that does so is off the protocol.
 *
 * The cell drives nothing. Who drives SDAT does so from dock_step's reply to a BYTE and from dock_held_byte; driver.c,
 * among the examples, is one to copy. The refusals:
 *
 * | no. | of dock_wire_begin | of dock_wire_listen |
 * |---|---|---|
 * | 1 | the held bytes have another length | .. or are no image of a fit held state |
 * | 5 | | over 16,384 samples |
 * | 4 | | fewer places for words than samples |
 *
 * Where more than one could be given, the order is 1, 5, 4. */

/* The lines in a sample; its other bits are ignored. */
enum dock_line {
    DOCK_SDAT = 1,
    DOCK_SCLK = 2
};

/* Writes the image of a fresh held state. Value: 0. */
uint32_t dock_wire_begin(uint8_t *held, uint64_t held_len);

/* The samples one after the other, and each word in the next place, from words[0] on. Places past the last word are not
 * touched. Value: the count of words. */
uint32_t dock_wire_listen(uint8_t *held, uint64_t held_len, const uint8_t *samples, uint64_t samples_len,
                          uint16_t *words, uint64_t words_len);

/* ---- the queue: words that wait while the main loop is busy ----
 *
 * An interrupt puts the words of events, and the main loop takes them for dock_step. At most DOCK_QUEUE_WORDS wait;
 * they are taken in the order in which they were put, and a place that a take frees is used again. Every word of 16
 * bits is accepted, also one that dock_step refuses. A queue is DOCK_QUEUE_BYTES bytes of its own, beside the dock's
 * state and handled as that is: any bytes at all may come back as one. What stays the caller's duty is the same.
 *
 * A put and a take are NOT atomic: each reads the queue and writes it later. A call in between, from an interrupt, can
 * lose a word or have one given twice, and no answer tells. So a caller with an interrupt does one of two things:
 *
 * - It masks the interrupt around every call that is made outside of it: each take, dock_queue_begin, and any look at
 *   the bytes, dock_queue_count among them. The interrupt itself puts without a mask, and so interrupts that put must
 *   not interrupt one another: they have one priority, or mask each other. The functions that mask must also keep the
 *   compiler from moving a reading or a writing of memory across them, as those of a chip's maker do.
 * - Or it makes all calls from one context, the loop or the interrupt, and masks nothing.
 *
 * Words are put as they come, and lost where 128 wait, so the loop has to be told of that. With mask and unmask as the
 * chip has them:
 *
 *     static uint8_t queue[DOCK_QUEUE_BYTES];               // where the interrupt and the loop find it
 *     static volatile uint8_t lost;
 *     dock_queue_begin(queue, sizeof queue);                // before the interrupt is let in, or masked
 *                                                           // in the interrupt, here with a TICK:
 *     uint32_t put = dock_queue_put(queue, sizeof queue, 0xA000);
 *     if (dock_refusal(put) != DOCK_ACCEPTED)
 *         lost = 1;
 *                                                           // in the loop:
 *     mask();
 *     uint32_t taken = dock_queue_take(queue, sizeof queue);
 *     unmask();
 *     if (dock_refusal(taken) == DOCK_ACCEPTED)             // else none waits, or the bytes are damaged
 *         record = dock_step(state, sizeof state, dock_value(taken));
 *
 * firmware.c, among the examples, is a loop to copy: it makes up for words that were lost, and begins a damaged queue
 * anew. The refusals:
 *
 * | no. | of dock_queue_begin | of dock_queue_put | of dock_queue_take |
 * |---|---|---|---|
 * | 1 | the queue has another length | .. or is no image of a fit queue | .. or is no image of a fit queue |
 * | 7 | | 128 words wait | |
 * | 8 | | | no word waits |
 *
 * Where more than one could be given, 1 comes first. */

/* Writes the image of an empty queue. Value: 0. */
uint32_t dock_queue_begin(uint8_t *queue, uint64_t queue_len);

/* Puts the word behind those that wait. Value: 0. */
uint32_t dock_queue_put(uint8_t *queue, uint64_t queue_len, uint16_t word);

/* Takes the word that has waited longest. Value: the word; 0 is one too, so the refusal tells whether there was any. */
uint32_t dock_queue_take(uint8_t *queue, uint64_t queue_len);

/* ---- the chassis: one to four controllers on one bus ----
 *
 * A list of states, one image after the other: DOCK_STATE_BYTES bytes, or two, three or four times as many. Each is a
 * state of its own as well: it is begun by dock_begin, named by dock_name_kind and asked by dock_reading, dock_outputs
 * and dock_held_byte, with a pointer into the list. Both kinds of controller may stand in one list.
 *
 *     static uint8_t states[2 * DOCK_STATE_BYTES];          // two controllers, four bays
 *     uint8_t *other = states + DOCK_STATE_BYTES;
 *     dock_begin(states, DOCK_STATE_BYTES);
 *     dock_begin(other, DOCK_STATE_BYTES);
 *     dock_name_kind(other, DOCK_STATE_BYTES, DOCK_SECOND_KIND);
 *     dock_chassis_step(states, sizeof states, 0, 0xC2FF);  // a RESET of controller 0, at 90h
 *     dock_chassis_step(states, sizeof states, 1, 0xC4FF);  // .. of controller 1, at 92h
 *     dock_chassis_step(states, sizeof states, 0, 0x0000);  // a START, for both
 *     uint64_t answer = dock_chassis_step(states, sizeof states, 0, 0x4092);
 *     uint32_t reply = dock_chassis_reply(answer);          // DOCK_ACK, by controller 1
 *     uint16_t pins_0 = dock_chassis_outputs(answer, 0);    // what to drive after the event, of each controller
 *
 * START, STOP, BYTE, TAKE, TIMEOUT and TICK go to every controller that has had a RESET; the others are passed over and
 * stay as they are. PINS and RESET go to the one that `record` names, counted from 0; with any other word that number
 * is not looked at. To a controller, an event that reaches it is what it is by dock_step, and any other is nothing.
 *
 * A BYTE has reply DOCK_ACK where a controller ACKs it, else DOCK_NO_ACK. A TAKE has reply DOCK_DRIVEN and the byte of
 * the one that drives, else DOCK_NOT_DRIVEN and 255. No two drive: at most one of a list that is accepted holds a byte
 * by dock_held_byte, and SDAT is driven from that one before the TAKE is known.
 *
 * The refusals:
 *
 * | no. | of dock_chassis_step |
 * |---|---|
 * | 9 | the list has another length; it is not read, and may be NULL |
 * | 1 | one is no image of a fit state; or two that have had a RESET have one own address, or both have a read open |
 * | 2 | a bit of the word is set that must be 0 |
 * | 10 | PINS or RESET for one that is not in the list |
 * | 3 | PINS for one that has had no RESET yet; any other word but RESET where none has had one |
 * | 11 | RESET to the own address of another that has had a RESET |
 *
 * Where more than one could be given, the order is 9, 1, 2, 10, 3, 11. A RESET may give a controller the address that
 * it has. A list that was refused neither with 9 nor with 1 is not refused with 1 at the next call either, unless its
 * bytes were changed in between: by damage, or by words that dock_step or dock_batch gave to a part of it. */

/* One event. The answer has a layout of its own: refusal in bits 63-60, reply in 59-57 and byte in 56-49, as at the top
 * of a record; a zero; and in twelve bits each the outputs after the event, of controller 0 in 47-36, of 1 in 35-24, of
 * 2 in 23-12, of 3 in 11-0, and 0 for one that is not there or has had no RESET. With a refusal, with 2 as well,
 * everything below it is 0, and every byte of the list is as it came. */
uint64_t dock_chassis_step(uint8_t *states, uint64_t states_len, uint64_t record, uint16_t word);

/* ---- answers taken apart ---- */

/* Of every call but dock_step and dock_chassis_step. */
static inline uint32_t dock_refusal(uint32_t answer) { return answer >> 16 & 0xFFu; }
static inline uint16_t dock_value(uint32_t answer) { return (uint16_t)(answer & 0xFFFFu); }

/* dock_held_byte's answer: whether a byte is held, and which. */
static inline int dock_is_held(uint32_t answer) { return (answer & DOCK_HELD) != 0; }
static inline uint8_t dock_held(uint32_t answer) { return (uint8_t)(answer & 0xFFu); }

/* dock_step's answer, or a record's four bytes as the same number. */
static inline uint32_t dock_record(const uint8_t *bytes) {
    return (uint32_t)bytes[0] << 24 | (uint32_t)bytes[1] << 16 | (uint32_t)bytes[2] << 8 | bytes[3];
}
static inline uint32_t dock_record_refusal(uint32_t record) { return record >> 28; }
static inline uint32_t dock_record_reply(uint32_t record) { return record >> 25 & 7u; }
static inline uint8_t dock_record_byte(uint32_t record) { return (uint8_t)(record >> 17 & 0xFFu); }
static inline uint16_t dock_record_outputs(uint32_t record) { return (uint16_t)(record >> 8 & 0x1FFu); }

/* dock_chassis_step's answer. */
static inline uint32_t dock_chassis_refusal(uint64_t answer) { return (uint32_t)(answer >> 60); }
static inline uint32_t dock_chassis_reply(uint64_t answer) { return (uint32_t)(answer >> 57) & 7u; }
static inline uint8_t dock_chassis_byte(uint64_t answer) { return (uint8_t)(answer >> 49 & 0xFFu); }

/* Of the controller with this number, and 0 for one that no list has. Each shift is by a constant, since by a variable
 * it would be a function of the compiler's library on a Cortex-M0. */
static inline uint16_t dock_chassis_outputs(uint64_t answer, uint64_t record) {
    uint32_t outputs = (uint32_t)(record == 0   ? answer >> 36
                                  : record == 1 ? answer >> 24
                                  : record == 2 ? answer >> 12
                                  : record == 3 ? answer
                                                : 0);
    return (uint16_t)(outputs & 0x1FFu);
}

/* A word's kind, and the two numbers in dock_unpack's answer. */
static inline uint8_t dock_kind(uint16_t word) { return (uint8_t)(word >> 13); }
static inline uint16_t dock_first(uint32_t unpacked) {
    return (uint16_t)((unpacked >> 16 & 0xFF00u) | (unpacked >> 8 & 0xFFu));
}
static inline uint8_t dock_second(uint32_t unpacked) { return (uint8_t)(unpacked & 0xFFu); }

/* ---- the image of a state, byte by byte: for reports and for tests, the calls need none of it ----
 *
 * Bytes are no image where the length is another one, byte 0 is not DOCK_LAYOUT, a flag is above 1, the progress is
 * above 8, or a byte is not 0 that the progress does not use. Every other byte string is the image of exactly one
 * state, which is unfit where a number is outside the range named. To a caller both are refusal 1. Only the ranges of a
 * pulse and a wait go by the kind in force. What the other kind alone uses may hold anything in its range, and a
 * progress of the other kind counts as none.
 *
 * DOCK_LAYOUT rises whenever a byte, a range or the length changes. An image of another layout is refused with 1: it is
 * not carried over, and a program that finds one begins anew. */
#define DOCK_LAYOUT 4u

#define DOCK_AT_VERSION 0u /* DOCK_LAYOUT */
/* Flags: 0 or 1. */
#define DOCK_AT_STARTED 1u               /* a RESET came */
#define DOCK_AT_KIND 2u                  /* the second kind is in force */
#define DOCK_AT_NAMED 3u                 /* .. is named */
#define DOCK_AT_DBCCR_WRITTEN 4u         /* since the RESET */
#define DOCK_AT_SECLOCK 5u
#define DOCK_AT_SUBSYSTEM_WRITTEN 6u     /* four, since the RESET: 08h to 0Bh */
#define DOCK_AT_FORM_FACTORS_WRITTEN 10u /* two, ever: BAY_FF of bay 0, bay 1 */
#define DOCK_AT_SFR_WRITTEN 12u          /* since the RESET */
#define DOCK_AT_FLAGS_0 13u              /* fourteen flags of bay 0 */
#define DOCK_AT_FLAGS_1 27u              /* the same of bay 1 */
/* Numbers. */
#define DOCK_AT_STRAPS 41u       /* 0-15 */
#define DOCK_AT_BAY_COUNT 42u    /* 0-3 */
#define DOCK_AT_LOCK_TIME 43u    /* 0-3: LETR */
#define DOCK_AT_WAIT_TIME 44u    /* 0-255: 42h */
#define DOCK_AT_PHASE 45u        /* 0-199 */
#define DOCK_AT_SUBSYSTEM 46u    /* four of 0-255: 08h to 0Bh */
#define DOCK_AT_FORM_FACTORS 50u /* two of 0-7: BAY_FF of bay 0, bay 1 */
#define DOCK_AT_SFR 52u          /* 0-255 */
#define DOCK_AT_NUMBERS_0 53u    /* nine bytes of numbers of bay 0 */
#define DOCK_AT_NUMBERS_1 62u    /* the same of bay 1 */
/* The command in progress: 0 none is open; 1 START came, 2 own write byte, 3 register byte, 5 second START. In the
 * first kind: 4 data byte, 6 own read byte. In the second: 7 a data byte was written, 8 a byte is held for the TAKE. */
#define DOCK_AT_PROGRESS 71u
/* 3 to 5: the register byte; 6: the value that the TAKE gives; 7: the address that the next data byte goes to; 8: the
 * address that the held byte was read at; else 0. */
#define DOCK_AT_FIRST 72u
#define DOCK_AT_SECOND 73u /* 4: the data byte; 8: the held byte; else 0 */

/* Where the flags and the numbers of bay 0 or 1 begin. */
#define DOCK_AT_BAY_FLAGS(bay) ((bay) == 0 ? DOCK_AT_FLAGS_0 : DOCK_AT_FLAGS_1)
#define DOCK_AT_BAY_NUMBERS(bay) ((bay) == 0 ? DOCK_AT_NUMBERS_0 : DOCK_AT_NUMBERS_1)

/* From DOCK_AT_BAY_FLAGS on. */
#define DOCK_BAY_LEVELS 0u   /* n1394, nUSB, nREMREQ as last sampled */
#define DOCK_BAY_ACCEPTED 3u /* the same as accepted */
#define DOCK_BAY_N_SL 6u     /* as last sampled */
#define DOCK_BAY_REMREQ_STS 7u
#define DOCK_BAY_DEVSTSCHG 8u
#define DOCK_BAY_LOCK_CTL 9u
#define DOCK_BAY_REMREQ_EN 10u
#define DOCK_BAY_DEVSTSCHG_EN 11u
#define DOCK_BAY_REMEVTWAK_EN 12u
#define DOCK_BAY_PWR_CTL 13u

/* From DOCK_AT_BAY_NUMBERS on. */
#define DOCK_BAY_COUNTS 0u  /* 0-9 of n1394, 0-9 of nUSB, 0-4 of nREMREQ */
#define DOCK_BAY_STATE 3u   /* 0-4 */
#define DOCK_BAY_REQUEST 4u /* 0-4 */
/* Ticks, in two bytes each, the high one first; a wait's are those until a device that waits is Inserted, in the second
 * kind until it is there, and 0 where none does. */
#define DOCK_BAY_PULSE 5u /* 0-200, in the second kind 0-1200 */
#define DOCK_BAY_WAIT 7u  /* 0-255, in the second kind 0-560 */
static inline uint16_t dock_ticks(const uint8_t *bytes) { return (uint16_t)(bytes[0] << 8 | bytes[1]); }

/* ---- the image of the wire cell's held state, byte by byte ----
 *
 * Bytes are no image where the length is another one or byte 0 is not DOCK_WIRE_LAYOUT. Every other number outside its
 * range makes them unfit. To a caller both are refusal 1. DOCK_WIRE_LAYOUT rises as DOCK_LAYOUT does. */
#define DOCK_WIRE_LAYOUT 1u

#define DOCK_WIRE_AT_VERSION 0u   /* DOCK_WIRE_LAYOUT */
#define DOCK_WIRE_AT_SDAT 1u      /* 0-1: in the last sample */
#define DOCK_WIRE_AT_LISTENING 2u /* 0-3: enum dock_wire_listening */
#define DOCK_WIRE_AT_BITS 3u      /* 0-8: how many of the nine bits have come */
#define DOCK_WIRE_AT_VALUE 4u     /* 0-255: of those bits, each taken in at the low end */
#define DOCK_WIRE_AT_LOW 5u       /* 0-17501, in two bytes, the high one first: samples for which SCLK has been low */

enum dock_wire_listening {
    DOCK_HEARS_NOTHING = 0,
    DOCK_HEARS_FIRST_BYTE = 1, /* of a START */
    DOCK_HEARS_BYTES = 2,      /* from the host */
    DOCK_HEARS_TAKES = 3       /* bytes that the host clocks in */
};

/* 0 where SCLK is high; at 17,501 it stays until then. */
static inline uint16_t dock_wire_low(const uint8_t *held) { return dock_ticks(held + DOCK_WIRE_AT_LOW); }

/* ---- the image of a queue, byte by byte ----
 *
 * Bytes are no image where the length is another one or byte 0 is not DOCK_QUEUE_LAYOUT. Every other byte string is the
 * image of exactly one queue, which is unfit where the start or the count is outside its range. To a caller both are
 * refusal 1. DOCK_QUEUE_LAYOUT rises as DOCK_LAYOUT does.
 *
 * As many words wait as the count says, from the start's place on, 127 followed by 0. A put changes the place behind
 * them and the count, a take the start and the count: the word that it gives stays where it stood. The other places may
 * hold anything. */
#define DOCK_QUEUE_LAYOUT 1u

#define DOCK_QUEUE_AT_VERSION 0u /* DOCK_QUEUE_LAYOUT */
#define DOCK_QUEUE_AT_START 1u   /* 0-127, in two bytes, the high one first: the place of the word that is taken next */
#define DOCK_QUEUE_AT_COUNT 3u   /* 0-128, likewise: how many wait */
#define DOCK_QUEUE_AT_WORDS 5u   /* the 128 places, two bytes each, the high one first */

/* Of a fit queue, and with the interrupt masked as for a call. */
static inline uint16_t dock_queue_count(const uint8_t *queue) { return dock_ticks(queue + DOCK_QUEUE_AT_COUNT); }

#ifdef __cplusplus
}
#endif

#endif
