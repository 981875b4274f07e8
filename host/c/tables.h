/*
 * Document 01's examples and tables through the header: encodings, all settings, all registers,
 * counters that a write clears, triggers on clocks 1, 2 and 4, and the example of ttclines byte by byte.
 */
#ifndef TABLES_H
#define TABLES_H

#include "checks.h"

typedef struct encoding {
    const char *line;
    uint8_t kind;
    ttcrx_fields fields;
} encoding;

static const encoding encodings[] = {
    {"0001", TTCRX_SHORT, {0, 0, 0, 0x00}},        {"004F", TTCRX_SHORT, {0, 0, 0, 0x01}},
    {"0097", TTCRX_SHORT, {0, 0, 0, 0x02}},        {"00D9", TTCRX_SHORT, {0, 0, 0, 0x03}},
    {"3FCD", TTCRX_SHORT, {0, 0, 0, 0xFF}},        {"10001023543", TTCRX_LONG, {0, 0, 2, 0x35}},
    {"100150600F3", TTCRX_LONG, {5, 0, 6, 0x00}},  {"1001710AAB7", TTCRX_LONG, {5, 1, 0x10, 0xAA}},
    {"100150235AD", TTCRX_LONG, {5, 0, 2, 0x35}},  {"100190235B5", TTCRX_LONG, {6, 0, 2, 0x35}},
};

/* The number, its line and its fields, each by the function that gives it. */
static void check_encodings(void)
{
    for (size_t i = 0; i < sizeof encodings / sizeof *encodings; i++) {
        const encoding *one = &encodings[i];
        const ttcrx_fields *in = &one->fields;
        const int is_long = one->kind == TTCRX_LONG;
        const ttcrx_encoded sent =
            is_long ? ttcrx_encode_long(in->address, in->e, in->sub_address, in->data)
                    : ttcrx_encode_short(in->data);
        const ttcrx_line line = ttcrx_read_line(one->line, strlen(one->line));
        const ttcrx_decoded out =
            is_long ? ttcrx_decode_long(sent.number) : ttcrx_decode_short(sent.number);
        char text[13] = "............";
        const ttcrx_written written = is_long ? ttcrx_write_long(sent.number, text, 12)
                                              : ttcrx_write_short(sent.number, text, 12);
        CHECK(sent.refusal == TTCRX_ACCEPTED && line.refusal == TTCRX_ACCEPTED);
        CHECK(line.kind == one->kind && line.number == sent.number);
        CHECK(out.verdict == TTCRX_DECODED_GOOD && out.corrected == 0 && out.place == 0);
        CHECK(out.fields.address == in->address && out.fields.e == in->e);
        CHECK(out.fields.sub_address == in->sub_address && out.fields.data == in->data);
        CHECK(written.length == strlen(one->line) + 1 && text[written.length - 1] == '\n');
        CHECK(strncmp(text, one->line, strlen(one->line)) == 0);
    }
}

/* The rule of document 01, for every setting, there and back. */
static void check_all_settings(void)
{
    for (int setting = 0; setting < 240; setting++) {
        const int n = setting % 15;
        const int m = (setting / 15 - n + 14) % 16;
        const ttcrx_byte_answer there = ttcrx_delay_byte((uint8_t)setting);
        CHECK(there.refusal == TTCRX_ACCEPTED && there.byte == 16 * n + m);
        CHECK(ttcrx_delay_setting(there.byte).setting == setting);
    }
}

/* Every register of a state whose bytes all differ; every other number is refused. */
static void check_all_registers(void)
{
    static const uint8_t held[19][2] = {
        {0, 0x11},  {1, 0xE2},  {2, 0x33},  {3, 0x94},  {8, 0x65},  {9, 0x76},  {10, 0x87},
        {11, 0x00}, {16, 0x34}, {17, 0x12}, {18, 0x3F}, {20, 0x05}, {21, 0x27}, {22, 0xC0},
        {24, 0xDE}, {25, 0x0F}, {26, 0x21}, {27, 0x43}, {28, 0xE5}};
    const ttcrx_receiver state = {{{0x1234, 0x3F},
                                   {0x11, 0xE2, 0x33, 0x94, 0x05, 0x27},
                                   {0x7665, 0x87, 0},
                                   {0x0FDE, 0xE54321},
                                   {0, 0}},
                                  {0, 0, 0}};
    size_t next = 0;
    for (int number = 0; number < 256; number++) {
        const ttcrx_read_answer answer = ttcrx_read(state, (uint8_t)number);
        if (next < 19 && held[next][0] == number) {
            CHECK(answer.refusal == TTCRX_ACCEPTED && answer.byte == held[next][1]);
            next++;
        } else {
            CHECK(answer.refusal == TTCRX_REFUSED_REGISTER && answer.byte == 0);
        }
    }
    CHECK(next == 19);
}

/* A write to any byte of a counter clears all of it. */
static void check_clearing_writes(void)
{
    static const uint8_t clearing[8] = {8, 9, 10, 24, 25, 26, 27, 28};
    for (size_t i = 0; i < 8; i++) {
        const uint8_t number = clearing[i];
        ttcrx_receiver full = fresh_5;
        full.core.errors.single_errors = number < 10 ? 0xFFFF : 0;
        full.core.errors.double_errors = number == 10 ? 0xFF : 0;
        full.core.counters.bunch = number == 24 || number == 25 ? 0x0FFF : 0;
        full.core.counters.event = number > 25 ? 0xFFFFFF : 0;
        const ttcrx_write_answer answer = ttcrx_write(full, number, 0xA5);
        CHECK(ttcrx_read(full, number).byte == (number == 25 ? 0x0F : 0xFF));
        CHECK(answer.refusal == TTCRX_ACCEPTED && same_state(answer.receiver, fresh_5));
    }
}

/* "triggers on clocks 1, 2 and 4 from fresh" */
static void check_trigger_example(void)
{
    static const uint8_t shown[6][4] = {{1, 0, TTCRX_STROBE_BUNCH, 0},
                                        {1, 1, TTCRX_STROBE_EVENT_LOW, 0},
                                        {0, 0, TTCRX_STROBE_EVENT_HIGH, 0},
                                        {1, 0, TTCRX_STROBE_BUNCH, 3},
                                        {0, 0, TTCRX_STROBE_EVENT_LOW, 2},
                                        {0, 0, TTCRX_STROBE_EVENT_HIGH, 0}};
    ttcrx_receiver receiver = fresh_5;
    for (size_t i = 0; i < 6; i++) {
        const ttcrx_clock_answer answer = ttcrx_clock(receiver, shown[i][0], 1);
        CHECK(answer.refusal == TTCRX_ACCEPTED && answer.outputs.trigger == shown[i][0]);
        CHECK(answer.outputs.missed == shown[i][1] && answer.outputs.strobe == shown[i][2]);
        CHECK(answer.outputs.number == shown[i][3]);
        CHECK(fate_is(answer.outputs, TTCRX_VERDICT_NONE, 0, 0));
        receiver = answer.receiver;
    }
    CHECK(receiver.core.counters.bunch == 6 && receiver.core.counters.event == 3);
}

/* The example of ttclines: each byte is used by a call of its own. */
static void check_report_byte_by_byte(void)
{
    static const char lines[] = "004F\n2097\n004E\n304F\n100150235AD\n180150235AD\n100190235B5\n4001\n";
    static const char output[] = "1 1 0 01 0\n2 1 1 02 1\n3 7 0 -\n4 8 0 -\n5 2 0 00150235 0\n"
                                 "6 2 1 00150235 1\n7 5 0 00190235 0\n8 ! 12\nend 2 2 0 215\n";
    char text[256];
    size_t at = 0;
    ttcrx_report report = ttcrx_report_start();
    ttcrx_reported done;
    for (size_t i = 0; i + 1 < sizeof lines; i++) {
        done = ttcrx_report_input(report, &lines[i], 1, &text[at], TTCRX_LONGEST_LINE);
        CHECK(done.used == 1 && done.room_wanted == 0);
        at += done.written;
        report = done.report;
    }
    CHECK(report.lines == 8 && report.part.count == 0);
    done = ttcrx_report_end(report, &text[at], TTCRX_LONGEST_END);
    CHECK(at + done.written == sizeof output - 1 && memcmp(text, output, sizeof output - 1) == 0);
}

static void check_tables(void)
{
    check_encodings();
    check_all_settings();
    check_all_registers();
    check_clearing_writes();
    check_trigger_example();
    check_report_byte_by_byte();
}

#endif
