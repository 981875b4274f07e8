/*
 * Checks of the functions with lent columns; interface.c runs them.
 */
#ifndef COLUMNS_H
#define COLUMNS_H

#include "blocks.h"
#include "checks.h"

/* The library's own columns, and those of another encoder: the same numbers from the last to the first
   in each group, but 31 and 127, with five and seven ones, come first. */
static const uint8_t own_columns[TTCRX_COLUMNS] = {
    7,  11, 13, 14, 19, 21, 22, 25,
    7,  11, 13, 14, 19, 21, 22, 25, 26, 28, 35, 37, 38, 41, 42, 44,
    49, 50, 52, 56, 67, 69, 70, 73, 74, 76, 81, 82, 84, 88, 97, 98,
};
static const uint8_t their_columns[TTCRX_COLUMNS] = {
    31,  22, 21, 19, 14, 13, 11, 7,
    127, 31, 88, 84, 82, 81, 76, 74, 73, 70, 69, 67, 56, 52, 50, 49,
    44,  42, 41, 38, 37, 35, 28, 26, 25, 22, 21, 19, 14, 13, 11, 7,
};

/* Frames with those columns: the broadcast of 01, and data 35 for register 2 of ID 5. With the own
   columns two bits of each seem wrong. */
#define THEIR_01 0x007F
#define THEIR_35 UINT64_C(0x10015023585)

/* Columns as they are lent: a pointer and a length. */
#define LENT(columns) (columns), (size_t)TTCRX_COLUMNS

/* Those columns with another number at an index. */
static const uint8_t *with_column(size_t index, uint8_t number)
{
    static uint8_t changed[TTCRX_COLUMNS];
    memcpy(changed, their_columns, sizeof changed);
    changed[index] = number;
    return changed;
}

static int columns_are(const uint8_t *columns, size_t length, uint8_t refusal, uint8_t index)
{
    const ttcrx_columns_answer answer = ttcrx_check_columns(columns, length);
    return answer.refusal == refusal && answer.index == index;
}

/* Every column made bad in turn: no ones, one, two, four; too wide; equal to the first of its group. */
static void check_columns_at_every_index(void)
{
    size_t index;
    for (index = 0; index < TTCRX_COLUMNS; index++) {
        const int is_short = index < TTCRX_COLUMNS_SHORT;
        const size_t first = is_short ? 0 : TTCRX_COLUMNS_SHORT;
        const uint8_t bad[6] = {0, 16, 3, 15, (uint8_t)(is_short ? 35 : 131), 255};
        size_t i;
        for (i = 0; i < sizeof bad; i++) {
            CHECK(columns_are(LENT(with_column(index, bad[i])), TTCRX_REFUSED_BAD_COLUMN,
                              (uint8_t)index));
        }
        if (index != first) {
            CHECK(columns_are(LENT(with_column(index, their_columns[first])), TTCRX_REFUSED_BAD_COLUMN,
                              (uint8_t)index));
            CHECK(columns_are(LENT(with_column(first, their_columns[index])), TTCRX_REFUSED_BAD_COLUMN,
                              (uint8_t)index));
        }
    }
}

static void check_columns_and_lengths(void)
{
    static const uint8_t many[80] = {0};
    size_t length;
    CHECK(columns_are(LENT(own_columns), TTCRX_ACCEPTED, 0));
    CHECK(columns_are(LENT(their_columns), TTCRX_ACCEPTED, 0));
    CHECK(columns_are(NULL, 0, TTCRX_REFUSED_COLUMN_COUNT, 0));
    CHECK(columns_are(their_columns, TTCRX_COLUMNS - 1, TTCRX_REFUSED_COLUMN_COUNT, 0));
    for (length = 0; length <= sizeof many; length++) {
        const uint8_t refusal =
            length == TTCRX_COLUMNS ? TTCRX_REFUSED_BAD_COLUMN : TTCRX_REFUSED_COLUMN_COUNT;
        CHECK(columns_are(many, length, refusal, 0));
    }
}

static int encoded_with(ttcrx_encoded_with_index answer, uint8_t refusal, uint8_t index,
                        uint64_t number)
{
    return encoded_is(answer.answer, refusal, number) && answer.index == index;
}

static void check_encoders_with_columns(void)
{
    const uint8_t *bad;
    CHECK(encoded_with(ttcrx_encode_short_with_columns(LENT(their_columns), 0x01), TTCRX_ACCEPTED,
                       0, THEIR_01));
    CHECK(encoded_with(ttcrx_encode_short_with_columns(LENT(own_columns), 0x01), TTCRX_ACCEPTED, 0,
                       BROADCAST_01));
    CHECK(encoded_with(ttcrx_encode_long_with_columns(LENT(their_columns), 5, 0, 2, 0x35),
                       TTCRX_ACCEPTED, 0, THEIR_35));
    CHECK(encoded_with(ttcrx_encode_long_with_columns(LENT(own_columns), 5, 0, 2, 0x35),
                       TTCRX_ACCEPTED, 0, WRITE_35));
    CHECK(encoded_with(ttcrx_encode_long_with_columns(LENT(their_columns), 16384, 0, 0, 0),
                       TTCRX_REFUSED_FIELD, 0, 0));
    CHECK(encoded_with(ttcrx_encode_long_with_columns(their_columns, 39, 0, 2, 0, 0),
                       TTCRX_REFUSED_COLUMN_COUNT, 0, 0));
    bad = with_column(39, 8); /* of a long frame: also refused for a short one */
    CHECK(encoded_with(ttcrx_encode_short_with_columns(LENT(bad), 0x01), TTCRX_REFUSED_BAD_COLUMN, 39,
                       0));
    CHECK(encoded_with(ttcrx_encode_long_with_columns(LENT(bad), 0, 2, 0, 0), TTCRX_REFUSED_BAD_COLUMN,
                       39, 0));
    CHECK(encoded_with(ttcrx_encode_short_with_columns(bad, 39, 0x01), TTCRX_REFUSED_COLUMN_COUNT,
                       0, 0));
}

/* One wrong bit at every place, of both frames; two; and frames of the own columns. */
static void check_decoders_with_columns(void)
{
    ttcrx_decoded_with_index answer;
    uint8_t place;
    for (place = 0; place <= TTCRX_PLACES_SHORT; place++) {
        const uint64_t flip = place == 0 ? 0 : UINT64_C(1) << (TTCRX_PLACES_SHORT + 1 - place);
        answer = ttcrx_decode_short_with_columns(LENT(their_columns), THEIR_01 ^ flip);
        CHECK(good(answer.answer, place, 0x01) && answer.index == 0);
    }
    for (place = 0; place <= TTCRX_PLACES_LONG; place++) {
        const uint64_t flip = place == 0 ? 0 : UINT64_C(1) << (TTCRX_PLACES_LONG + 1 - place);
        answer = ttcrx_decode_long_with_columns(LENT(their_columns), THEIR_35 ^ flip);
        CHECK(good(answer.answer, place, WRITE_35_WORD) && answer.index == 0);
        CHECK(fields_are(answer.answer.fields, 5, 0, 2, 0x35));
    }
    answer = ttcrx_decode_short_with_columns(LENT(their_columns), BROADCAST_01);
    CHECK(bad(answer.answer, TTCRX_ACCEPTED, TTCRX_VERDICT_EVEN_SYNDROME, 0));
    answer = ttcrx_decode_long_with_columns(LENT(their_columns), WRITE_35);
    CHECK(bad(answer.answer, TTCRX_ACCEPTED, TTCRX_VERDICT_EVEN_SYNDROME, 0));
    CHECK(bad(ttcrx_decode_short(THEIR_01), TTCRX_ACCEPTED, TTCRX_VERDICT_EVEN_SYNDROME, 0));
    CHECK(bad(ttcrx_decode_long(THEIR_35), TTCRX_ACCEPTED, TTCRX_VERDICT_EVEN_SYNDROME, 0));
}

static int decoding_refused(ttcrx_decoded_with_index answer, uint8_t refusal, uint8_t index)
{
    return bad(answer.answer, refusal, 0, 0) && answer.index == index;
}

static void check_refused_decoders(void)
{
    CHECK(decoding_refused(ttcrx_decode_short_with_columns(LENT(their_columns), 0x4001),
                           TTCRX_REFUSED_FRAME, 0));
    CHECK(decoding_refused(ttcrx_decode_long_with_columns(LENT(their_columns), 0x007F),
                           TTCRX_REFUSED_FRAME, 0));
    CHECK(decoding_refused(ttcrx_decode_short_with_columns(LENT(with_column(20, 8)), 0x4001),
                           TTCRX_REFUSED_BAD_COLUMN, 20));
    CHECK(decoding_refused(ttcrx_decode_long_with_columns(LENT(with_column(3, 8)), 0),
                           TTCRX_REFUSED_BAD_COLUMN, 3));
    CHECK(decoding_refused(ttcrx_decode_short_with_columns(NULL, 0, 0x4001), TTCRX_REFUSED_COLUMN_COUNT,
                           0));
    CHECK(decoding_refused(ttcrx_decode_long_with_columns(with_column(3, 8), 39, 0),
                           TTCRX_REFUSED_COLUMN_COUNT, 0));
}

static int refused_with(ttcrx_clock_with_index answer, uint8_t refusal, uint8_t index,
                        ttcrx_receiver given)
{
    return clock_refused(answer.answer, refusal, given) && answer.index == index;
}

/* All but the last clock of a frame are lent nothing; those of the last decide. */
static void check_clocks_with_columns(void)
{
    const ttcrx_receiver front = send_bits(fresh_5, 41, THEIR_35 >> 1).receiver;
    const ttcrx_clock_answer plain = ttcrx_clock(front, 0, 1);
    const ttcrx_clock_with_index theirs = ttcrx_clock_with_columns(front, LENT(their_columns), 0, 1);
    const ttcrx_clock_with_index own = ttcrx_clock_with_columns(front, LENT(own_columns), 0, 1);
    CHECK(received(plain, TTCRX_VERDICT_EVEN_SYNDROME, 0, 0));
    CHECK(received(own.answer, TTCRX_VERDICT_EVEN_SYNDROME, 0, 0) && own.index == 0);
    CHECK(same_state(own.answer.receiver, plain.receiver));
    CHECK(received(theirs.answer, TTCRX_VERDICT_STORED, 0, WRITE_35_WORD) && theirs.index == 0);
    CHECK(theirs.answer.receiver.core.settings.coarse == 0x35);
    CHECK(refused_with(ttcrx_clock_with_columns(ill_formed, NULL, 0, 2, 2), TTCRX_REFUSED_STATE, 0,
                       ill_formed));
    CHECK(refused_with(ttcrx_clock_with_columns(ill_formed, LENT(with_column(9, 0)), 0, 1),
                       TTCRX_REFUSED_STATE, 0, ill_formed));
    CHECK(refused_with(ttcrx_clock_with_columns(front, with_column(0, 0), 39, 2, 2),
                       TTCRX_REFUSED_COLUMN_COUNT, 0, front));
    CHECK(refused_with(ttcrx_clock_with_columns(fresh_5, LENT(with_column(9, 0)), 2, 2),
                       TTCRX_REFUSED_BAD_COLUMN, 9, fresh_5));
    CHECK(refused_with(ttcrx_clock_with_columns(front, LENT(their_columns), 0, 2),
                       TTCRX_REFUSED_BIT, 0, front));
}

static void check_whole_frames_with_columns(void)
{
    const ttcrx_clock_with_index first =
        ttcrx_receive_short_with_columns(fresh_5, LENT(their_columns), THEIR_01 ^ 2);
    const ttcrx_clock_with_index second =
        ttcrx_receive_long_with_columns(first.answer.receiver, LENT(their_columns), THEIR_35 ^ 2);
    const ttcrx_clock_with_index by_kind =
        ttcrx_receive_with_columns(fresh_5, LENT(their_columns), TTCRX_LONG, WRITE_35);
    CHECK(received(first.answer, TTCRX_VERDICT_BROADCAST, 13, 0x01) && first.index == 0);
    CHECK(received(second.answer, TTCRX_VERDICT_STORED, 39, WRITE_35_WORD) && second.index == 0);
    CHECK(second.answer.receiver.core.errors.single_errors == 2);
    CHECK(received(by_kind.answer, TTCRX_VERDICT_EVEN_SYNDROME, 0, 0) && by_kind.index == 0);
    CHECK(refused_with(ttcrx_receive_with_columns(ill_formed, NULL, 0, 2, 0), TTCRX_REFUSED_STATE,
                       0, ill_formed));
    CHECK(refused_with(ttcrx_receive_with_columns(fresh_5, NULL, 0, 2, 0), TTCRX_REFUSED_COLUMN_COUNT, 0,
                       fresh_5));
    CHECK(refused_with(ttcrx_receive_short_with_columns(fresh_5, LENT(with_column(30, 6)), 0x4001),
                       TTCRX_REFUSED_BAD_COLUMN, 30, fresh_5));
    CHECK(refused_with(ttcrx_receive_long_with_columns(fresh_5, LENT(with_column(1, 31)), 0),
                       TTCRX_REFUSED_BAD_COLUMN, 1, fresh_5));
    CHECK(refused_with(ttcrx_receive_with_columns(fresh_5, LENT(their_columns), 2, THEIR_35),
                       TTCRX_REFUSED_FRAME, 0, fresh_5));
}

/* The block's first clocks with these columns, with the records lent as a buffer. */
static ttcrx_block_with_index run_lent(ttcrx_receiver *receiver, const uint8_t *columns,
                                       size_t length, size_t clocks, size_t numbers)
{
    return ttcrx_run_block_with_columns(receiver, columns, length, block, clocks,
                                        (uint32_t *)records, numbers);
}

static int block_is(ttcrx_block_with_index done, uint8_t refusal, uint8_t index, size_t count)
{
    return outcome_is(done.answer, refusal, count) && done.index == index;
}

static void check_blocks_with_columns(void)
{
    const uint32_t code = TTCRX_VERDICT_STORED | TTCRX_CODE_CORRECTED;
    ttcrx_receiver receiver = fresh_5;
    put_frame(block, 16, THEIR_01);
    put_frame(block + 16, 42, THEIR_35 ^ 0x100);
    put_frame(block + 58, 16, BROADCAST_01);
    unwrite();
    CHECK(block_is(run_lent(&receiver, LENT(their_columns), 74, NUMBERS(74)), TTCRX_ACCEPTED, 0,
                   3));
    CHECK(record_is(&records[0], 15, 15, 0, TTCRX_VERDICT_BROADCAST, 0x01));
    CHECK(record_is(&records[1], 57, 41, 0, code, WRITE_35_WORD));
    CHECK(record_is(&records[2], 73, 57, 0, TTCRX_VERDICT_EVEN_SYNDROME, 0));
    CHECK(only_records(3) && receiver.core.settings.coarse == 0x35);
    receiver = fresh_5;
    CHECK(block_is(run_lent(&receiver, LENT(own_columns), 74, NUMBERS(74)), TTCRX_ACCEPTED, 0, 3));
    CHECK(record_is(&records[0], 15, 15, 0, TTCRX_VERDICT_EVEN_SYNDROME, 0));
    CHECK(record_is(&records[2], 73, 73, 0, TTCRX_VERDICT_BROADCAST, 0x01));
}

/* Refused blocks write no byte of the receiver, which lies in memory that cannot be written, and no
   number of the buffer. An empty block has its columns checked too. */
static void check_refused_blocks_with_columns(void)
{
    ttcrx_receiver *fresh = (ttcrx_receiver *)&fresh_5;
    ttcrx_receiver *bad_state = (ttcrx_receiver *)&ill_formed;
    ttcrx_receiver receiver = fresh_5;
    memset(block, IDLE_TRIGGER, sizeof block);
    block[2] = 4;
    unwrite();
    CHECK(block_is(run_lent(bad_state, NULL, 0, MOST, 0), TTCRX_REFUSED_STATE, 0, 0));
    CHECK(block_is(run_lent(bad_state, LENT(with_column(5, 0)), 1, 5), TTCRX_REFUSED_STATE, 0, 0));
    CHECK(block_is(run_lent(fresh, their_columns, 39, MOST, 0), TTCRX_REFUSED_COLUMN_COUNT, 0, 0));
    CHECK(block_is(run_lent(fresh, LENT(with_column(5, 0)), MOST, 0), TTCRX_REFUSED_BAD_COLUMN, 5, 0));
    CHECK(block_is(run_lent(fresh, LENT(their_columns), MOST, 0), TTCRX_REFUSED_BLOCK_LENGTH, 0,
                   0));
    CHECK(block_is(run_lent(fresh, LENT(their_columns), 3, 14), TTCRX_REFUSED_RECORD_BUFFER, 0, 0));
    CHECK(block_is(run_lent(fresh, LENT(their_columns), 3, 15), TTCRX_REFUSED_BIT, 0, 0));
    CHECK(block_is(ttcrx_run_block_with_columns(fresh, NULL, 0, NULL, 0, NULL, 0),
                   TTCRX_REFUSED_COLUMN_COUNT, 0, 0));
    CHECK(block_is(ttcrx_run_block_with_columns(fresh, LENT(with_column(8, 1)), NULL, 0, NULL, 0),
                   TTCRX_REFUSED_BAD_COLUMN, 8, 0));
    CHECK(block_is(ttcrx_run_block_with_columns(&receiver, LENT(own_columns), NULL, 0, NULL, 0),
                   TTCRX_ACCEPTED, 0, 0));
    CHECK(only_records(0) && same_state(receiver, fresh_5));
}

static void check_lent_columns(void)
{
    check_columns_at_every_index();
    check_columns_and_lengths();
    check_encoders_with_columns();
    check_decoders_with_columns();
    check_refused_decoders();
    check_clocks_with_columns();
    check_whole_frames_with_columns();
    check_blocks_with_columns();
    check_refused_blocks_with_columns();
}

#endif
