/*
 * Checks of the functions on blocks of clocks; interface.c runs them.
 */
#ifndef BLOCKS_H
#define BLOCKS_H

#include "checks.h"

/* Records of any block, and one more; before and after them a guard of one. */
#define MOST (TTCRX_BLOCK_CLOCKS + 1)
static ttcrx_record guarded_records[1 + MOST + 1];
static ttcrx_record *const records = guarded_records + 1;

/* Numbers of so many records. */
#define NUMBERS(count) (TTCRX_RECORD_NUMBERS * (size_t)(count))

/* One block, one byte longer than a block may be. */
static uint8_t block[MOST];

/* The byte of a clock: idle, and idle with a trigger. */
#define IDLE 2
#define IDLE_TRIGGER 3

static int record_is(const ttcrx_record *record, uint32_t place, uint32_t bunch, uint32_t event,
                     uint32_t code, uint32_t word)
{
    return record->place == place && record->bunch == bunch && record->event == event &&
           record->code == code && record->word == word;
}

/* What a record is before it is lent: nothing of a block is so large. */
#define UNWRITTEN UINT32_C(0xA5A5A5A5)

static void unwrite(void)
{
    memset(guarded_records, 0xA5, sizeof guarded_records);
}

/* The guards, and all but so many records, are as they were before. */
static int only_records(size_t count)
{
    size_t at;
    for (at = 0; at < 1 + MOST + 1; at++) {
        const int lent = at >= 1 && at < 1 + count;
        if (!lent && !record_is(&guarded_records[at], UNWRITTEN, UNWRITTEN, UNWRITTEN, UNWRITTEN,
                                UNWRITTEN)) {
            return 0;
        }
    }
    return 1;
}

/* The bits of a frame as the bytes of so many clocks, without triggers. */
static void put_frame(uint8_t *clocks, unsigned length, uint64_t number)
{
    while (length > 0) {
        length--;
        *clocks++ = (uint8_t)((number >> length & 1) << 1);
    }
}

/* The block's first clocks, with the records lent as a buffer that is just large enough. */
static ttcrx_block_outcome run(ttcrx_receiver *receiver, size_t clocks)
{
    return ttcrx_run_block(receiver, block, clocks, (uint32_t *)records, NUMBERS(clocks));
}

static int outcome_is(ttcrx_block_outcome outcome, uint8_t refusal, size_t count)
{
    return outcome.refusal == refusal && outcome.records == count;
}

/* Triggers on clocks 1, 2 and 4: the second is missed, and the first of the next block too. */
static void check_triggers_in_blocks(void)
{
    const uint32_t missed = TTCRX_CODE_TRIGGER | TTCRX_CODE_MISSED;
    ttcrx_receiver receiver = fresh_5;
    memset(block, IDLE_TRIGGER, 4);
    block[2] = block[4] = IDLE;
    unwrite();
    CHECK(outcome_is(run(&receiver, 5), TTCRX_ACCEPTED, 3));
    CHECK(record_is(&records[0], 0, 0, 0, TTCRX_CODE_TRIGGER, 0));
    CHECK(record_is(&records[1], 1, 1, 1, missed, 0));
    CHECK(record_is(&records[2], 3, 3, 2, TTCRX_CODE_TRIGGER, 0));
    CHECK(only_records(3));
    CHECK(counters_are(receiver, 5, 3) && receiver.core.sequence.left == 1);
    CHECK(outcome_is(run(&receiver, 1), TTCRX_ACCEPTED, 1));
    CHECK(record_is(&records[0], 0, 5, 3, missed, 0));
    CHECK(record_is(&records[1], 1, 1, 1, missed, 0)); /* still that of the first block */
}

/* A corrected broadcast that clears the event counter, then RESET with a trigger, cut in two. */
static void check_frames_in_blocks(void)
{
    ttcrx_receiver receiver = fresh_5;
    receiver.core.counters.event = 7;
    put_frame(block, 16, 0x0095);
    put_frame(block + 16, 42, RESET_5);
    unwrite();
    CHECK(outcome_is(run(&receiver, 36), TTCRX_ACCEPTED, 1));
    CHECK(record_is(&records[0], 15, 15, 7, TTCRX_VERDICT_BROADCAST | TTCRX_CODE_CORRECTED, 0x02));
    CHECK(receiver.held.count == 20 && receiver.held.bits == RESET_5 >> 22);
    memmove(block, block + 36, 22);
    block[21] |= 1;
    CHECK(outcome_is(run(&receiver, 22), TTCRX_ACCEPTED, 1));
    CHECK(record_is(&records[0], 21, 57, 0, TTCRX_VERDICT_RESET | TTCRX_CODE_TRIGGER,
                    RESET_5_WORD));
    CHECK(only_records(1) && same_state(receiver, fresh_5));
}

/* A bad stop bit, ones, and the broadcast of 01: it has a record after 41 ones, and none after 40.
   Cut within the ones, so that the second block begins with a receiver that wants 31. */
static void check_ones_in_blocks(void)
{
    ttcrx_receiver receiver = fresh_5;
    put_frame(block, 16, BAD_STOP);
    put_frame(block + 16, 40, ONES_40);
    put_frame(block + 56, 16, BROADCAST_01);
    unwrite();
    CHECK(outcome_is(run(&receiver, 72), TTCRX_ACCEPTED, 1));
    CHECK(record_is(&records[0], 15, 15, 0, TTCRX_VERDICT_STOP_BIT, 0));
    CHECK(held_is(receiver, 0, 37, 0) && counters_are(receiver, 72, 0));
    receiver = fresh_5;
    put_frame(block + 16, 41, ONES_41);
    put_frame(block + 57, 16, BROADCAST_01);
    CHECK(outcome_is(run(&receiver, 26), TTCRX_ACCEPTED, 1) && held_is(receiver, 0, 31, 0));
    memmove(block, block + 26, 47);
    block[0] |= 1; /* a trigger among the ones */
    CHECK(outcome_is(run(&receiver, 47), TTCRX_ACCEPTED, 2));
    CHECK(record_is(&records[0], 0, 26, 0, TTCRX_CODE_TRIGGER, 0));
    CHECK(record_is(&records[1], 46, 72, 1, TTCRX_VERDICT_BROADCAST, 0x01));
    CHECK(only_records(2) && held_is(receiver, 0, 0, 0) && counters_are(receiver, 0, 1));
    receiver = keeping(0, 2);
    put_frame(block, 2, 2); /* a one, and a 0 that is no start bit */
    CHECK(outcome_is(run(&receiver, 2), TTCRX_ACCEPTED, 0) && held_is(receiver, 0, 41, 0));
}

/* Data F3 for a fine delay, clean, then with a wrong bit and a trigger: records with verdict 10, and
   nothing stored. */
static void check_delays_in_blocks(void)
{
    const uint32_t code = TTCRX_VERDICT_NO_SETTING | TTCRX_CODE_CORRECTED | TTCRX_CODE_TRIGGER;
    ttcrx_receiver receiver = fresh_5;
    put_frame(block, 42, DELAY_F3);
    put_frame(block + 42, 42, DELAY_F3 ^ 0x1000);
    block[83] |= 1;
    unwrite();
    CHECK(outcome_is(run(&receiver, 84), TTCRX_ACCEPTED, 2));
    CHECK(record_is(&records[0], 41, 41, 0, TTCRX_VERDICT_NO_SETTING, DELAY_F3_WORD));
    CHECK(record_is(&records[1], 83, 83, 0, code, DELAY_F3_WORD));
    CHECK(only_records(2) && receiver.core.settings.fine1 == 0);
    CHECK(receiver.core.errors.single_errors == 1 && held_is(receiver, 0, 0, 0));
}

/* Frames that cannot be corrected, of which the second has a trigger on its last clock; then one wrong
   bit, of which a record has no place. */
static void check_storms_in_blocks(void)
{
    ttcrx_receiver receiver = fresh_5;
    put_frame(block, 16, STORM_SHORT);
    put_frame(block + 16, 42, STORM_LONG);
    put_frame(block + 58, 16, TWO_FLIPS);
    put_frame(block + 74, 42, WRITE_35 ^ 2);
    block[57] |= 1;
    unwrite();
    CHECK(outcome_is(run(&receiver, 116), TTCRX_ACCEPTED, 4));
    CHECK(record_is(&records[0], 15, 15, 0, TTCRX_VERDICT_ODD_SYNDROME, 0));
    CHECK(record_is(&records[1], 57, 57, 0, TTCRX_VERDICT_ODD_SYNDROME | TTCRX_CODE_TRIGGER, 0));
    CHECK(record_is(&records[2], 73, 73, 1, TTCRX_VERDICT_EVEN_SYNDROME, 0));
    CHECK(record_is(&records[3], 115, 115, 1, TTCRX_VERDICT_STORED | TTCRX_CODE_CORRECTED,
                    WRITE_35_WORD));
    CHECK(only_records(4) && held_is(receiver, 0, 0, 0));
    CHECK(receiver.core.errors.single_errors == 1 && receiver.core.errors.double_errors == 3);
}

/* The longest block, with a record for every clock. */
static void check_full_block(void)
{
    ttcrx_receiver receiver = fresh_5;
    memset(block, IDLE_TRIGGER, sizeof block);
    unwrite();
    CHECK(outcome_is(run(&receiver, TTCRX_BLOCK_CLOCKS), TTCRX_ACCEPTED, TTCRX_BLOCK_CLOCKS));
    CHECK(record_is(&records[4095], 4095, 4095, 4095, TTCRX_CODE_TRIGGER, 0));
    CHECK(only_records(TTCRX_BLOCK_CLOCKS));
    CHECK(counters_are(receiver, 0, 4096));
}

/* A refused block leaves buffer and receiver as they were. */
static int refused_by(uint8_t refusal, ttcrx_receiver given, size_t clocks, size_t numbers)
{
    ttcrx_receiver lent = given;
    unwrite();
    return outcome_is(ttcrx_run_block(&lent, block, clocks, (uint32_t *)records, numbers), refusal,
                      0) &&
           same_state(lent, given) && only_records(0);
}

/* A refused block writes no byte of the receiver: a store to this one would end the program. */
static int refused_unwritten(const ttcrx_receiver *state, uint8_t refusal, size_t clocks,
                             size_t numbers)
{
    ttcrx_receiver *lent = (ttcrx_receiver *)state;
    return outcome_is(ttcrx_run_block(lent, block, clocks, (uint32_t *)records, numbers), refusal,
                      0);
}

static void check_refused_blocks(void)
{
    memset(block, IDLE_TRIGGER, sizeof block);
    block[2] = 4;
    CHECK(refused_by(TTCRX_REFUSED_STATE, ill_formed, MOST, 0));
    CHECK(refused_by(TTCRX_REFUSED_STATE, keeping(0, 42), MOST, 0));
    CHECK(refused_by(TTCRX_REFUSED_STATE, keeping(1, 1), MOST, 0));
    CHECK(refused_by(TTCRX_REFUSED_STATE, delaying(240, 0), MOST, 0));
    CHECK(refused_by(TTCRX_REFUSED_STATE, delaying(0, 255), 1, NUMBERS(1)));
    CHECK(refused_by(TTCRX_REFUSED_BLOCK_LENGTH, fresh_5, MOST, 0));
    CHECK(refused_by(TTCRX_REFUSED_RECORD_BUFFER, fresh_5, 3, NUMBERS(3) - 1));
    CHECK(refused_by(TTCRX_REFUSED_BIT, fresh_5, 3, NUMBERS(3)));
    CHECK(refused_unwritten(&ill_formed, TTCRX_REFUSED_STATE, 1, NUMBERS(1)));
    CHECK(refused_unwritten(&fresh_5, TTCRX_REFUSED_BLOCK_LENGTH, MOST, NUMBERS(MOST)));
    CHECK(refused_unwritten(&fresh_5, TTCRX_REFUSED_RECORD_BUFFER, 1, 0));
    CHECK(refused_unwritten(&fresh_5, TTCRX_REFUSED_BIT, TTCRX_BLOCK_CLOCKS,
                            NUMBERS(TTCRX_BLOCK_CLOCKS)));
    CHECK(only_records(0));
}

static void check_empty_blocks(void)
{
    ttcrx_receiver receiver = fresh_5;
    ttcrx_receiver bad = ill_formed;
    CHECK(outcome_is(ttcrx_run_block(&receiver, NULL, 0, NULL, 0), TTCRX_ACCEPTED, 0));
    CHECK(outcome_is(ttcrx_run_block(&bad, NULL, 0, NULL, 0), TTCRX_REFUSED_STATE, 0));
    CHECK(outcome_is(ttcrx_run_block(&receiver, block, 1, NULL, 0), TTCRX_REFUSED_RECORD_BUFFER,
                     0));
    CHECK(same_state(receiver, fresh_5) && same_state(bad, ill_formed));
}

static void check_filled_length(void)
{
    CHECK(ttcrx_filled_length(NUMBERS(TTCRX_BLOCK_CLOCKS), 0) == 0);
    CHECK(ttcrx_filled_length(19, 3) == 15);
    CHECK(ttcrx_filled_length(14, 3) == 0);
    CHECK(ttcrx_filled_length(SIZE_MAX, SIZE_MAX / 5) == SIZE_MAX);
    CHECK(ttcrx_filled_length(SIZE_MAX, SIZE_MAX / 5 + 1) == 0); /* five times as many wrap to 4 */
}

static void check_blocks(void)
{
    check_triggers_in_blocks();
    check_frames_in_blocks();
    check_ones_in_blocks();
    check_delays_in_blocks();
    check_storms_in_blocks();
    check_full_block();
    check_refused_blocks();
    check_empty_blocks();
    check_filled_length();
}

#endif
