/*
 * What the checks of the C interface share: the count of them, comparisons of states, of what a clock
 * shows and of what encoders and decoders answer, and a buffer for text with guards.
 */
#ifndef CHECKS_H
#define CHECKS_H

#include "ttcrx.h"

#include <stddef.h>
#include <stdint.h>
#include <stdio.h>
#include <string.h>

static unsigned passed = 0;
static unsigned failed = 0;

static void check(int holds, const char *what, const char *file, int line)
{
    if (holds) {
        passed++;
    } else {
        failed++;
        printf("c interface: failed: %s:%d: %s\n", file, line, what);
    }
}

#define CHECK(holds) check((holds), #holds, __FILE__, __LINE__)

/* Frames of document 01: data 35 for register 2 of ID 5, and RESET of ID 5; the broadcast of 01, the
   same with stop bit 0, and with two wrong bits; frames with an odd syndrome that belongs to no bit.
   Data F3, which belong to no fine delay setting, for register 0 of ID 5. */
#define WRITE_35 UINT64_C(0x100150235AD)
#define WRITE_35_WORD 0x00150235
#define RESET_5 UINT64_C(0x100150600F3)
#define RESET_5_WORD 0x00150600
#define DELAY_F3 UINT64_C(0x1001500F387)
#define DELAY_F3_WORD 0x001500F3
#define BROADCAST_01 0x004F
#define BAD_STOP 0x004E
#define TWO_FLIPS 0x304F
#define STORM_SHORT 0x0039
#define STORM_LONG UINT64_C(0x1FFFFFFFFFF)

/* So many ones as a number: the ones that a receiver wants after a bad stop bit, and one fewer. */
#define ONES_41 UINT64_C(0x1FFFFFFFFFF)
#define ONES_40 UINT64_C(0x0FFFFFFFFFF)

/* The fresh state of ID 5 and I2C ID 5, and one that is not well formed. They lie in memory that cannot
   be written. */
#define STATE_5(status5) \
    {{{5, 5}, {0, 0, 0, 0x93, 0x85, 0xA7}, {0, 0, status5}, {0, 0}, {0, 0}}, {0, 0, 0}}
static const ttcrx_receiver fresh_5 = STATE_5(1);
static const ttcrx_receiver ill_formed = STATE_5(2);

static int same_settings(ttcrx_settings one, ttcrx_settings other)
{
    return one.fine1 == other.fine1 && one.fine2 == other.fine2 && one.coarse == other.coarse &&
           one.control == other.control && one.config2 == other.config2 &&
           one.config3 == other.config3;
}

static int same_core(ttcrx_core one, ttcrx_core other)
{
    return one.ids.id == other.ids.id && one.ids.i2c == other.ids.i2c &&
           same_settings(one.settings, other.settings) &&
           one.errors.single_errors == other.errors.single_errors &&
           one.errors.double_errors == other.errors.double_errors &&
           one.errors.status5 == other.errors.status5 &&
           one.counters.bunch == other.counters.bunch &&
           one.counters.event == other.counters.event &&
           one.sequence.left == other.sequence.left &&
           one.sequence.event == other.sequence.event;
}

static int held_is(ttcrx_receiver receiver, uint8_t count, uint8_t ones_wanted, uint64_t bits)
{
    return receiver.held.count == count && receiver.held.ones_wanted == ones_wanted &&
           receiver.held.bits == bits;
}

static int same_state(ttcrx_receiver one, ttcrx_receiver other)
{
    return same_core(one.core, other.core) &&
           held_is(one, other.held.count, other.held.ones_wanted, other.held.bits);
}

/* The fresh state, but it holds so many frame bits, all 0, and wants so many ones. */
static ttcrx_receiver keeping(uint8_t count, uint8_t ones_wanted)
{
    ttcrx_receiver receiver = fresh_5;
    receiver.held.count = count;
    receiver.held.ones_wanted = ones_wanted;
    return receiver;
}

/* The fresh state with these fine delays. */
static ttcrx_receiver delaying(uint8_t fine1, uint8_t fine2)
{
    ttcrx_receiver receiver = fresh_5;
    receiver.core.settings.fine1 = fine1;
    receiver.core.settings.fine2 = fine2;
    return receiver;
}

static int counters_are(ttcrx_receiver receiver, uint16_t bunch, uint32_t event)
{
    return receiver.core.counters.bunch == bunch && receiver.core.counters.event == event;
}

static int bus_is(ttcrx_outputs outputs, uint8_t trigger, uint8_t missed, uint8_t strobe,
                  uint16_t number)
{
    return outputs.trigger == trigger && outputs.missed == missed && outputs.strobe == strobe &&
           outputs.number == number;
}

/* The corrected flag is 0 if and only if the place is. */
static int fate_is(ttcrx_outputs outputs, uint8_t verdict, uint8_t place, uint32_t word)
{
    return outputs.verdict == verdict && outputs.corrected == (place != 0) &&
           outputs.place == place && outputs.word == word;
}

/* An accepted clock without trigger and sequence, with this on the frame. */
static int received(ttcrx_clock_answer answer, uint8_t verdict, uint8_t place, uint32_t word)
{
    return answer.refusal == TTCRX_ACCEPTED && fate_is(answer.outputs, verdict, place, word) &&
           bus_is(answer.outputs, 0, 0, TTCRX_STROBE_NONE, 0);
}

/* A refused clock: the state as given, all outputs 0. */
static int clock_refused(ttcrx_clock_answer answer, uint8_t refusal, ttcrx_receiver given)
{
    return answer.refusal == refusal && same_state(answer.receiver, given) &&
           bus_is(answer.outputs, 0, 0, 0, 0) && fate_is(answer.outputs, 0, 0, 0);
}

/* So many bits of a number, without triggers. The answer is that of the last bit. */
static ttcrx_clock_answer send_bits(ttcrx_receiver receiver, unsigned length, uint64_t number)
{
    ttcrx_clock_answer answer;
    memset(&answer, 0, sizeof answer);
    answer.receiver = receiver;
    while (length > 0) {
        length--;
        answer = ttcrx_clock(answer.receiver, 0, (uint8_t)(number >> length & 1));
    }
    return answer;
}

static int encoded_is(ttcrx_encoded answer, uint8_t refusal, uint64_t number)
{
    return answer.refusal == refusal && answer.number == number;
}

static int fields_are(ttcrx_fields fields, uint16_t address, uint8_t e, uint8_t sub_address,
                      uint8_t data)
{
    return fields.address == address && fields.e == e && fields.sub_address == sub_address &&
           fields.data == data;
}

/* A good frame: the corrected flag is 0 if and only if the place is. */
static int good(ttcrx_decoded answer, uint8_t place, uint32_t word)
{
    return answer.refusal == TTCRX_ACCEPTED && answer.verdict == TTCRX_DECODED_GOOD &&
           answer.corrected == (place != 0) && answer.place == place && answer.word == word;
}

/* A refusal, or a verdict of 7, 8, 9 or 11: no flag, no place and no fields. */
static int bad(ttcrx_decoded answer, uint8_t refusal, uint8_t verdict, uint32_t word)
{
    return answer.refusal == refusal && answer.verdict == verdict && answer.corrected == 0 &&
           answer.place == 0 && answer.word == word && fields_are(answer.fields, 0, 0, 0, 0);
}

/* A buffer for text, between guards. Before it is lent, neighbours differ, and no byte is text. */
#define GUARD 16
#define ROOM 400
static char guarded[GUARD + ROOM + GUARD];

static char unwritten(size_t place)
{
    return (char)(0x80 + place % 127);
}

/* The buffer, before it is lent. */
static char *text_buffer(void)
{
    size_t place;
    for (place = 0; place < sizeof guarded; place++) {
        guarded[place] = unwritten(place);
    }
    return guarded + GUARD;
}

/* The buffer begins with this text, and all other bytes, the guards too, are as they were. */
static int only_written(const char *text, size_t length)
{
    size_t place;
    for (place = 0; place < sizeof guarded; place++) {
        const int in_text = place >= GUARD && place < GUARD + length;
        if (guarded[place] != (in_text ? text[place - GUARD] : unwritten(place))) {
            return 0;
        }
    }
    return 1;
}

#endif
