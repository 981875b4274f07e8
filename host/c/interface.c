/*
 * The C interface used from C11 and from C++17: the layouts of ttcrx.h, every function called
 * through the header, every number of refusal, and document 01's tables. More cases are in host/tests.
 */
#include "blocks.h"
#include "checks.h"
#include "columns.h"
#include "layouts.h"
#include "reports.h"
#include "tables.h"

static void check_encoders(void)
{
    CHECK(ttcrx_version() == TTCRX_VERSION);
    CHECK(encoded_is(ttcrx_encode_short(0x02), TTCRX_ACCEPTED, 0x0097));
    CHECK(encoded_is(ttcrx_encode_long(5, 0, 2, 0x35), TTCRX_ACCEPTED, WRITE_35));
    CHECK(encoded_is(ttcrx_encode_long(16384, 0, 0, 0), TTCRX_REFUSED_FIELD, 0));
    CHECK(encoded_is(ttcrx_encode_long(0, 2, 0, 0), TTCRX_REFUSED_FIELD, 0));
}

static void check_decoders(void)
{
    const ttcrx_decoded corrected = ttcrx_decode_short(0x0095);
    const ttcrx_decoded clean = ttcrx_decode_long(UINT64_C(0x1001710AAB7));
    CHECK(good(corrected, 13, 0x02) && fields_are(corrected.fields, 0, 0, 0, 0x02));
    CHECK(good(clean, 0, 0x001710AA) && fields_are(clean.fields, 5, 1, 0x10, 0xAA));
    CHECK(bad(ttcrx_decode_short(0x2096), TTCRX_ACCEPTED, TTCRX_VERDICT_STOP_BIT, 0));
    CHECK(bad(ttcrx_decode_short(TWO_FLIPS), TTCRX_ACCEPTED, TTCRX_VERDICT_EVEN_SYNDROME, 0));
    CHECK(bad(ttcrx_decode_long(WRITE_35 ^ 6), TTCRX_ACCEPTED, TTCRX_VERDICT_EVEN_SYNDROME, 0));
    CHECK(bad(ttcrx_decode_short(STORM_SHORT), TTCRX_ACCEPTED, TTCRX_VERDICT_ODD_SYNDROME, 0));
    CHECK(bad(ttcrx_decode_long(STORM_LONG), TTCRX_ACCEPTED, TTCRX_VERDICT_ODD_SYNDROME, 0));
    CHECK(bad(ttcrx_decode_long(UINT64_C(0x1000000010F)), TTCRX_ACCEPTED, TTCRX_VERDICT_FIXED_BIT,
              1));
    CHECK(bad(ttcrx_decode_long(UINT64_C(0x1000000010D)), TTCRX_ACCEPTED, TTCRX_VERDICT_FIXED_BIT,
              1));
    CHECK(bad(ttcrx_decode_short(0x4001), TTCRX_REFUSED_FRAME, 0, 0));
    CHECK(bad(ttcrx_decode_long(UINT64_C(0x20000000000)), TTCRX_REFUSED_FRAME, 0, 0));
}

/* One wrong bit at every place, decoded and as a whole frame: flipped back there, the frame is as it was
   sent. RESET shows the place too. */
static void check_places(void)
{
    const uint64_t sent_short = BROADCAST_01;
    uint8_t place;
    for (place = 1; place <= TTCRX_PLACES_SHORT; place++) {
        const uint64_t flip = UINT64_C(1) << (TTCRX_PLACES_SHORT + 1 - place);
        const ttcrx_clock_answer answer = ttcrx_receive_short(fresh_5, sent_short ^ flip);
        CHECK(good(ttcrx_decode_short(sent_short ^ flip), place, 0x01));
        CHECK(received(answer, TTCRX_VERDICT_BROADCAST, place, 0x01));
    }
    for (place = 1; place <= TTCRX_PLACES_LONG; place++) {
        const uint64_t flip = UINT64_C(1) << (TTCRX_PLACES_LONG + 1 - place);
        const ttcrx_clock_answer stored = ttcrx_receive_long(fresh_5, WRITE_35 ^ flip);
        const ttcrx_clock_answer reset = send_bits(fresh_5, 42, RESET_5 ^ flip);
        const ttcrx_clock_answer delay = ttcrx_receive(fresh_5, TTCRX_LONG, DELAY_F3 ^ flip);
        CHECK(good(ttcrx_decode_long(WRITE_35 ^ flip), place, WRITE_35_WORD));
        CHECK(received(stored, TTCRX_VERDICT_STORED, place, WRITE_35_WORD));
        CHECK(received(reset, TTCRX_VERDICT_RESET, place, RESET_5_WORD));
        CHECK(received(delay, TTCRX_VERDICT_NO_SETTING, place, DELAY_F3_WORD));
        CHECK(same_state(reset.receiver, fresh_5));
    }
}

/* Verdict 11 by clocks and as a whole frame: a double error, status bit 5 at 1, and no ones wanted. */
static void check_storms(void)
{
    ttcrx_receiver full = fresh_5;
    ttcrx_clock_answer answer = send_bits(fresh_5, 16, STORM_SHORT);
    CHECK(received(answer, TTCRX_VERDICT_ODD_SYNDROME, 0, 0) && held_is(answer.receiver, 0, 0, 0));
    CHECK(answer.receiver.core.errors.double_errors == 1);
    answer = ttcrx_receive_long(answer.receiver, STORM_LONG);
    CHECK(received(answer, TTCRX_VERDICT_ODD_SYNDROME, 0, 0));
    CHECK(answer.receiver.core.errors.double_errors == 2);
    CHECK(answer.receiver.core.errors.single_errors == 0);
    full.core.errors.double_errors = 255;
    full.core.errors.status5 = 0;
    answer = ttcrx_receive_short(full, STORM_SHORT);
    CHECK(received(answer, TTCRX_VERDICT_ODD_SYNDROME, 0, 0));
    CHECK(answer.receiver.core.errors.double_errors == 255);
    CHECK(answer.receiver.core.errors.status5 == 1);
}

static int line_is(const char *characters, uint8_t refusal, uint8_t kind, uint64_t number)
{
    const ttcrx_line answer = ttcrx_read_line(characters, strlen(characters));
    return answer.refusal == refusal && answer.kind == kind && answer.number == number;
}

static void check_reader(void)
{
    CHECK(line_is("004f", TTCRX_ACCEPTED, TTCRX_SHORT, 0x004F));
    CHECK(line_is("100150235AD", TTCRX_ACCEPTED, TTCRX_LONG, WRITE_35));
    CHECK(line_is("00g", TTCRX_REFUSED_LINE_LENGTH, 0, 0));
    CHECK(line_is("400g", TTCRX_REFUSED_CHARACTER, 0, 0));
    CHECK(line_is("4001", TTCRX_REFUSED_FRAME, 0, 0));
    CHECK(ttcrx_read_line(NULL, 0).refusal == TTCRX_REFUSED_LINE_LENGTH);
}

/* The answer of a writer, and what it wrote to a buffer with guards. */
static int written_is(ttcrx_written answer, uint8_t refusal, const char *line)
{
    const size_t length = strlen(line);
    return answer.refusal == refusal && answer.length == length && only_written(line, length);
}

static void check_writers(void)
{
    char *buffer = text_buffer();
    CHECK(written_is(ttcrx_write_short(0x4000, buffer, 4), TTCRX_REFUSED_FRAME, ""));
    CHECK(written_is(ttcrx_write_short(0x004F, buffer, 4), TTCRX_REFUSED_LINE_BUFFER, ""));
    CHECK(written_is(ttcrx_write_long(0x004F, buffer, 11), TTCRX_REFUSED_FRAME, ""));
    CHECK(written_is(ttcrx_write_long(WRITE_35, buffer, 11), TTCRX_REFUSED_LINE_BUFFER, ""));
    CHECK(written_is(ttcrx_write_long(WRITE_35, NULL, 0), TTCRX_REFUSED_LINE_BUFFER, ""));
    CHECK(written_is(ttcrx_write_short(0x004F, buffer, 5), TTCRX_ACCEPTED, "004F\n"));
    CHECK(written_is(ttcrx_write_short(0x3FCD, buffer, ROOM), TTCRX_ACCEPTED, "3FCD\n"));
    CHECK(written_is(ttcrx_write_long(WRITE_35, buffer, 12), TTCRX_ACCEPTED, "100150235AD\n"));
    CHECK(written_is(ttcrx_write_long(RESET_5, buffer, ROOM), TTCRX_ACCEPTED, "100150600F3\n"));
}

static void check_delays(void)
{
    const ttcrx_byte_answer byte = ttcrx_delay_byte(1);
    const ttcrx_byte_answer no_byte = ttcrx_delay_byte(240);
    const ttcrx_setting_answer setting = ttcrx_delay_setting(29);
    const ttcrx_setting_answer no_setting = ttcrx_delay_setting(240);
    CHECK(byte.refusal == TTCRX_ACCEPTED && byte.byte == 29);
    CHECK(no_byte.refusal == TTCRX_REFUSED_SETTING && no_byte.byte == 0);
    CHECK(setting.refusal == TTCRX_ACCEPTED && setting.setting == 1);
    CHECK(no_setting.refusal == TTCRX_REFUSED_DELAY_BYTE && no_setting.setting == 0);
}

static int fresh_is(ttcrx_fresh_answer answer, uint8_t refusal, ttcrx_receiver receiver)
{
    return answer.refusal == refusal && same_state(answer.receiver, receiver);
}

static void check_fresh(void)
{
    ttcrx_receiver zero;
    memset(&zero, 0, sizeof zero);
    CHECK(fresh_is(ttcrx_fresh(5, 5), TTCRX_ACCEPTED, fresh_5));
    CHECK(fresh_is(ttcrx_fresh(16384, 64), TTCRX_REFUSED_ID, zero));
    CHECK(fresh_is(ttcrx_fresh(16383, 64), TTCRX_REFUSED_I2C_ID, zero));
    CHECK(ttcrx_well_formed(fresh_5) == 1);
    CHECK(ttcrx_well_formed(ill_formed) == 0);
}

/* Two triggers: the first shows the bunch number, the second is missed. Then RESET, bit by bit. */
static void check_clocks(void)
{
    const ttcrx_clock_answer first = ttcrx_clock(fresh_5, 1, 1);
    const ttcrx_clock_answer second = ttcrx_clock(first.receiver, 1, 1);
    const ttcrx_clock_answer part = send_bits(second.receiver, 41, RESET_5 >> 1);
    const ttcrx_clock_answer whole = send_bits(part.receiver, 1, RESET_5);
    CHECK(first.refusal == TTCRX_ACCEPTED && bus_is(first.outputs, 1, 0, TTCRX_STROBE_BUNCH, 0));
    CHECK(bus_is(second.outputs, 1, 1, TTCRX_STROBE_EVENT_LOW, 0));
    CHECK(fate_is(second.outputs, TTCRX_VERDICT_NONE, 0, 0));
    CHECK(counters_are(second.receiver, 2, 2));
    CHECK(second.receiver.core.sequence.left == 1 && second.receiver.core.sequence.event == 0);
    CHECK(received(part, TTCRX_VERDICT_NONE, 0, 0));
    CHECK(part.receiver.held.count == 41 && part.receiver.held.bits == RESET_5 >> 1);
    CHECK(received(whole, TTCRX_VERDICT_RESET, 0, RESET_5_WORD));
    CHECK(same_state(whole.receiver, fresh_5));
}

/* After a bad stop bit 40 ones are not enough: a 0 is then no start bit, and 41 ones are wanted again.
   After 41 ones a frame is received. No other verdict wants ones. */
static void check_ones_wanted(void)
{
    const ttcrx_clock_answer slipped = send_bits(fresh_5, 16, BAD_STOP);
    const ttcrx_clock_answer nearly = send_bits(slipped.receiver, 40, ONES_40);
    const ttcrx_clock_answer again = send_bits(nearly.receiver, 1, 0);
    const ttcrx_clock_answer waiting = send_bits(again.receiver, 41, ONES_41);
    const ttcrx_clock_answer start = send_bits(waiting.receiver, 1, 0);
    const ttcrx_clock_answer frame = send_bits(start.receiver, 15, BROADCAST_01);
    const ttcrx_clock_answer two_flips = send_bits(fresh_5, 16, TWO_FLIPS);
    CHECK(received(slipped, TTCRX_VERDICT_STOP_BIT, 0, 0) && held_is(slipped.receiver, 0, 41, 0));
    CHECK(received(nearly, TTCRX_VERDICT_NONE, 0, 0) && held_is(nearly.receiver, 0, 1, 0));
    CHECK(received(again, TTCRX_VERDICT_NONE, 0, 0) && held_is(again.receiver, 0, 41, 0));
    CHECK(received(waiting, TTCRX_VERDICT_NONE, 0, 0) && held_is(waiting.receiver, 0, 0, 0));
    CHECK(received(start, TTCRX_VERDICT_NONE, 0, 0) && held_is(start.receiver, 1, 0, 0));
    CHECK(counters_are(start.receiver, 16 + 40 + 1 + 41 + 1, 0));
    CHECK(received(frame, TTCRX_VERDICT_BROADCAST, 0, 0x01));
    CHECK(received(two_flips, TTCRX_VERDICT_EVEN_SYNDROME, 0, 0));
    CHECK(held_is(two_flips.receiver, 0, 0, 0));
}

/* What is well formed: up to 41 ones wanted, and none beside a held bit. Writes leave the run. */
static void check_states_that_want_ones(void)
{
    const ttcrx_receiver states[2] = {keeping(0, 42), keeping(1, 1)};
    size_t i;
    CHECK(ttcrx_well_formed(keeping(0, 41)) == 1 && ttcrx_well_formed(keeping(1, 0)) == 1);
    CHECK(ttcrx_write(keeping(0, 17), 11, 0).refusal == TTCRX_ACCEPTED);
    CHECK(same_state(ttcrx_write(keeping(0, 17), 11, 0).receiver, keeping(0, 17)));
    for (i = 0; i < 2; i++) {
        const ttcrx_write_answer write = ttcrx_write(states[i], 4, 0);
        CHECK(ttcrx_well_formed(states[i]) == 0);
        CHECK(clock_refused(ttcrx_clock(states[i], 2, 2), TTCRX_REFUSED_STATE, states[i]));
        CHECK(ttcrx_read(states[i], 4).refusal == TTCRX_REFUSED_STATE);
        CHECK(write.refusal == TTCRX_REFUSED_STATE && same_state(write.receiver, states[i]));
        CHECK(clock_refused(ttcrx_receive(states[i], 2, 0), TTCRX_REFUSED_STATE, states[i]));
    }
}

static void check_refused_clocks(void)
{
    CHECK(clock_refused(ttcrx_clock(ill_formed, 2, 2), TTCRX_REFUSED_STATE, ill_formed));
    CHECK(clock_refused(ttcrx_clock(fresh_5, 2, 0), TTCRX_REFUSED_BIT, fresh_5));
    CHECK(clock_refused(ttcrx_clock(fresh_5, 1, 2), TTCRX_REFUSED_BIT, fresh_5));
}

static int read_is(ttcrx_read_answer answer, uint8_t refusal, uint8_t byte)
{
    return answer.refusal == refusal && answer.byte == byte;
}

static int write_is(ttcrx_write_answer answer, uint8_t refusal, ttcrx_receiver receiver)
{
    return answer.refusal == refusal && same_state(answer.receiver, receiver);
}

static void check_registers(void)
{
    const ttcrx_write_answer stored = ttcrx_write(fresh_5, 2, 0x35);
    ttcrx_receiver counted = fresh_5;
    counted.core.errors.single_errors = 0x7665;
    CHECK(stored.refusal == TTCRX_ACCEPTED && stored.receiver.core.settings.coarse == 0x35);
    CHECK(read_is(ttcrx_read(stored.receiver, 2), TTCRX_ACCEPTED, 0x35));
    CHECK(read_is(ttcrx_read(counted, 9), TTCRX_ACCEPTED, 0x76));
    CHECK(write_is(ttcrx_write(counted, 9, 0xA5), TTCRX_ACCEPTED, fresh_5));
    CHECK(read_is(ttcrx_read(ill_formed, 4), TTCRX_REFUSED_STATE, 0));
    CHECK(read_is(ttcrx_read(fresh_5, 4), TTCRX_REFUSED_REGISTER, 0));
    CHECK(write_is(ttcrx_write(ill_formed, 4, 0), TTCRX_REFUSED_STATE, ill_formed));
    CHECK(write_is(ttcrx_write(fresh_5, 4, 0), TTCRX_REFUSED_REGISTER, fresh_5));
    CHECK(write_is(ttcrx_write(fresh_5, 22, 0xE0), TTCRX_REFUSED_READ_ONLY, fresh_5));
    CHECK(write_is(ttcrx_write(fresh_5, 21, 0x85), TTCRX_REFUSED_CONFIG, fresh_5));
}

/* Fine delays that belong to no setting: 240 to 255. Register 2 stores them. */
static void check_delay_writes(void)
{
    int byte;
    for (byte = 239; byte < 256; byte++) {
        const uint8_t value = (uint8_t)byte;
        const uint8_t refusal = byte < 240 ? TTCRX_ACCEPTED : TTCRX_REFUSED_NO_SETTING;
        const uint8_t kept = byte < 240 ? value : 0;
        CHECK(write_is(ttcrx_write(fresh_5, 0, value), refusal, delaying(kept, 0)));
        CHECK(write_is(ttcrx_write(fresh_5, 1, value), refusal, delaying(0, kept)));
        CHECK(ttcrx_write(fresh_5, 2, value).receiver.core.settings.coarse == value);
        CHECK(write_is(ttcrx_write(ill_formed, 0, value), TTCRX_REFUSED_STATE, ill_formed));
        CHECK(write_is(ttcrx_write(fresh_5, 4, value), TTCRX_REFUSED_REGISTER, fresh_5));
        CHECK(write_is(ttcrx_write(fresh_5, 16, value), TTCRX_REFUSED_READ_ONLY, fresh_5));
    }
    CHECK(write_is(ttcrx_write(fresh_5, 20, 240), TTCRX_REFUSED_CONFIG, fresh_5));
}

/* A state with such a byte is refused by 2, whatever else is wrong; one with 239 is not. */
static void check_states_without_a_setting(void)
{
    const ttcrx_receiver states[3] = {delaying(240, 0), delaying(0, 255), delaying(0xF3, 0xF3)};
    size_t i;
    CHECK(ttcrx_well_formed(delaying(239, 239)) == 1);
    CHECK(ttcrx_clock(delaying(239, 239), 0, 1).refusal == TTCRX_ACCEPTED);
    for (i = 0; i < 3; i++) {
        CHECK(ttcrx_well_formed(states[i]) == 0);
        CHECK(clock_refused(ttcrx_clock(states[i], 2, 2), TTCRX_REFUSED_STATE, states[i]));
        CHECK(read_is(ttcrx_read(states[i], 4), TTCRX_REFUSED_STATE, 0));
        CHECK(write_is(ttcrx_write(states[i], 0, 250), TTCRX_REFUSED_STATE, states[i]));
        CHECK(clock_refused(ttcrx_receive(states[i], 2, 0), TTCRX_REFUSED_STATE, states[i]));
        CHECK(clock_refused(ttcrx_receive_short(states[i], BROADCAST_01), TTCRX_REFUSED_STATE,
                            states[i]));
        CHECK(clock_refused(ttcrx_receive_long(states[i], WRITE_35), TTCRX_REFUSED_STATE,
                            states[i]));
    }
}

/* Frames with such data: nothing is stored. A correction is counted, and status bit 5 is set. Data EF,
   received as FF, are stored. */
static void check_frames_without_a_setting(void)
{
    const ttcrx_clock_answer clean = ttcrx_receive_long(delaying(239, 0), DELAY_F3);
    const ttcrx_clock_answer by_bits = send_bits(delaying(239, 0), 42, DELAY_F3);
    const ttcrx_clock_answer check_bit = ttcrx_receive_long(clean.receiver, DELAY_F3 ^ 2);
    const ttcrx_clock_answer data_bit = ttcrx_receive_long(check_bit.receiver, DELAY_F3 ^ 0x1000);
    const ttcrx_clock_answer two_bits = ttcrx_receive_long(fresh_5, DELAY_F3 ^ 0x1002);
    const ttcrx_clock_answer stop_bit = ttcrx_receive_long(fresh_5, DELAY_F3 ^ 1);
    const ttcrx_clock_answer stored = ttcrx_receive_long(fresh_5, UINT64_C(0x1001500FFA7));
    CHECK(received(clean, TTCRX_VERDICT_NO_SETTING, 0, DELAY_F3_WORD));
    CHECK(same_state(clean.receiver, by_bits.receiver));
    CHECK(received(by_bits, TTCRX_VERDICT_NO_SETTING, 0, DELAY_F3_WORD));
    CHECK(received(check_bit, TTCRX_VERDICT_NO_SETTING, 39, DELAY_F3_WORD));
    CHECK(received(data_bit, TTCRX_VERDICT_NO_SETTING, 28, DELAY_F3_WORD));
    CHECK(data_bit.receiver.core.settings.fine1 == 239 && held_is(data_bit.receiver, 0, 0, 0));
    CHECK(data_bit.receiver.core.errors.single_errors == 2);
    CHECK(data_bit.receiver.core.errors.double_errors == 0);
    CHECK(data_bit.receiver.core.errors.status5 == 1);
    CHECK(received(two_bits, TTCRX_VERDICT_EVEN_SYNDROME, 0, 0));
    CHECK(received(stop_bit, TTCRX_VERDICT_STOP_BIT, 0, 0));
    CHECK(received(stored, TTCRX_VERDICT_STORED, 28, 0x001500EF));
    CHECK(read_is(ttcrx_read(stored.receiver, 0), TTCRX_ACCEPTED, 239));
}

/* The last 16 bits of WRITE_35 are a short frame's number too. */
static void check_whole_frames(void)
{
    const ttcrx_clock_answer corrected = ttcrx_receive_short(fresh_5, 0x0095);
    const ttcrx_clock_answer stored = ttcrx_receive_long(corrected.receiver, WRITE_35);
    const ttcrx_clock_answer part = send_bits(fresh_5, 26, WRITE_35 >> 16);
    const ttcrx_clock_answer rest = ttcrx_receive(part.receiver, TTCRX_SHORT, WRITE_35 & 0xFFFF);
    const ttcrx_clock_answer quiet = ttcrx_receive_short(keeping(0, 1), BROADCAST_01);
    const ttcrx_clock_answer by_kind = ttcrx_receive(keeping(0, 1), TTCRX_LONG, WRITE_35);
    CHECK(received(corrected, TTCRX_VERDICT_BROADCAST, 13, 0x02));
    CHECK(received(stored, TTCRX_VERDICT_STORED, 0, WRITE_35_WORD));
    CHECK(counters_are(stored.receiver, 16 + 42, 0));
    CHECK(received(rest, TTCRX_VERDICT_STORED, 0, WRITE_35_WORD));
    CHECK(received(quiet, TTCRX_VERDICT_NONE, 0, 0) && held_is(quiet.receiver, 0, 37, 0));
    CHECK(received(by_kind, TTCRX_VERDICT_NONE, 0, 0) && held_is(by_kind.receiver, 0, 40, 0));
    CHECK(received(ttcrx_receive(fresh_5, TTCRX_LONG, RESET_5), TTCRX_VERDICT_RESET, 0,
                   RESET_5_WORD));
    CHECK(clock_refused(ttcrx_receive(ill_formed, 2, 0), TTCRX_REFUSED_STATE, ill_formed));
    CHECK(clock_refused(ttcrx_receive(fresh_5, 2, WRITE_35), TTCRX_REFUSED_FRAME, fresh_5));
    CHECK(clock_refused(ttcrx_receive_short(fresh_5, 0x4001), TTCRX_REFUSED_FRAME, fresh_5));
    CHECK(clock_refused(ttcrx_receive_long(fresh_5, 0x0095), TTCRX_REFUSED_FRAME, fresh_5));
}

int main(void)
{
    check_encoders();
    check_decoders();
    check_places();
    check_storms();
    check_reader();
    check_writers();
    check_delays();
    check_fresh();
    check_clocks();
    check_ones_wanted();
    check_states_that_want_ones();
    check_refused_clocks();
    check_registers();
    check_delay_writes();
    check_states_without_a_setting();
    check_frames_without_a_setting();
    check_whole_frames();
    check_blocks();
    check_lent_columns();
    check_reports();
    check_tables();
    if (failed != 0) {
        return 1;
    }
    printf("c interface: %u checks passed\n", passed);
    return 0;
}
