/*
 * Checks of the functions on reports of stored lines; interface.c runs them.
 */
#ifndef REPORTS_H
#define REPORTS_H

#include "checks.h"

/* A report, and all text that it has written. */
typedef struct reporting {
    ttcrx_report report;
    char text[ROOM];
    size_t length;
} reporting;

static reporting begin(void)
{
    reporting on;
    memset(&on, 0, sizeof on);
    on.report = ttcrx_report_start();
    return on;
}

/* Takes the answer of a call that was lent so many bytes of the buffer with guards. */
static void take(reporting *on, const ttcrx_reported *answer, size_t lent)
{
    const int fits = answer->written <= lent && on->length + answer->written <= ROOM;
    CHECK(fits);
    if (fits) {
        memcpy(on->text + on->length, guarded + GUARD, answer->written);
        CHECK(only_written(on->text + on->length, answer->written));
        on->length += answer->written;
    }
    on->report = answer->report;
}

/* One call on a piece of the input: it uses so many bytes, and wants so much room. */
static void input(reporting *on, const char *piece, size_t lent, size_t used, size_t room_wanted)
{
    char *buffer = text_buffer();
    const ttcrx_reported answer =
        ttcrx_report_input(on->report, piece, strlen(piece), buffer, lent);
    CHECK(answer.used == used && answer.room_wanted == room_wanted);
    take(on, &answer, lent);
}

/* The end of the input. */
static void end(reporting *on, size_t lent, size_t room_wanted)
{
    char *buffer = text_buffer();
    const ttcrx_reported answer = ttcrx_report_end(on->report, buffer, lent);
    CHECK(answer.used == 0 && answer.room_wanted == room_wanted);
    take(on, &answer, lent);
}

static int text_is(const reporting *on, const char *text)
{
    return on->length == strlen(text) && memcmp(on->text, text, on->length) == 0;
}

/* So many lines were reported, and these are the characters of the next. */
static int place_is(const ttcrx_report *report, uint64_t lines, const char *characters)
{
    return report->lines == lines && report->part.count == strlen(characters) &&
           memcmp(report->part.characters, characters, report->part.count) == 0;
}

/* The example of document 01, and what is printed of it. */
static const char example[] =
    "004F\n2097\n004E\n304F\n100150235AD\n180150235AD\n100190235B5\n4001\n";
#define EXAMPLE_LINES                                                                              \
    "1 1 0 01 0\n2 1 1 02 1\n3 7 0 -\n4 8 0 -\n"                                                       \
    "5 2 0 00150235 0\n6 2 1 00150235 1\n7 5 0 00190235 0\n8 ! 12\n"
#define EXAMPLE_END "end 2 2 0 215\n"

static void check_example(void)
{
    reporting on = begin();
    CHECK(same_state(on.report.receiver, fresh_5) && place_is(&on.report, 0, ""));
    input(&on, example, ROOM, strlen(example), 0);
    CHECK(text_is(&on, EXAMPLE_LINES) && place_is(&on.report, 8, ""));
    end(&on, TTCRX_LONGEST_END, 0);
    CHECK(text_is(&on, EXAMPLE_LINES EXAMPLE_END));
}

/* A buffer of under 38 bytes takes no line; a longer one as many as leave 38 bytes free before. A line
   with verdict 10, a number of 20 digits and a place of two has 38. */
static void check_input_room(void)
{
    const size_t line = TTCRX_LONGEST_LINE;
    reporting on = begin();
    input(&on, example, line - 1, 0, line);
    CHECK(ttcrx_report_input(on.report, example, 5, NULL, 0).room_wanted == line);
    CHECK(same_state(on.report.receiver, fresh_5) && place_is(&on.report, 0, ""));
    input(&on, example, line, 5, line);
    input(&on, example + 5, line + 11, 10, line);
    CHECK(text_is(&on, "1 1 0 01 0\n2 1 1 02 1\n3 7 0 -\n"));
    on = begin();
    on.report.lines = UINT64_MAX - 1;
    input(&on, "100150235AD\n", line, 12, 0);
    CHECK(text_is(&on, "18446744073709551615 2 0 00150235 0\n") && on.length == line - 2);
    on = begin();
    on.report.lines = UINT64_MAX - 1;
    input(&on, "1001500F385\n", line, 12, 0);
    CHECK(text_is(&on, "18446744073709551615 10 1 001500F3 39\n") && on.length == line);
}

/* A last line without line feed; a buffer of under 66 bytes takes no end. */
static void check_last_line(void)
{
    reporting on = begin();
    input(&on, "2097", ROOM, 4, 0);
    end(&on, TTCRX_LONGEST_END - 1, TTCRX_LONGEST_END);
    CHECK(ttcrx_report_end(on.report, NULL, 0).room_wanted == TTCRX_LONGEST_END);
    CHECK(text_is(&on, "") && place_is(&on.report, 0, "2097"));
    end(&on, TTCRX_LONGEST_END, 0);
    CHECK(text_is(&on, "1 1 1 02 1\nend 1 0 0 16\n") && place_is(&on.report, 1, ""));
}

static void check_empty_input(void)
{
    reporting on = begin();
    char *buffer = text_buffer();
    const ttcrx_reported answer = ttcrx_report_input(on.report, NULL, 0, buffer, ROOM);
    CHECK(answer.used == 0 && answer.written == 0 && answer.room_wanted == 0);
    CHECK(only_written("", 0) && same_state(answer.report.receiver, fresh_5));
    end(&on, TTCRX_LONGEST_END, 0);
    CHECK(text_is(&on, "end 0 0 0 0\n"));
}

static void check_refused_lines(void)
{
    const char lines[] = "\n00G\n000G\nF000\n111111111111\n11111111111111";
    reporting on = begin();
    input(&on, lines, ROOM, strlen(lines), 0);
    CHECK(text_is(&on, "1 ! 10\n2 ! 10\n3 ! 11\n4 ! 12\n5 ! 10\n"));
    CHECK(on.report.lines == 5 && on.report.part.count == 12);
    CHECK(same_state(on.report.receiver, fresh_5));
    on = begin();
    on.report.receiver = ill_formed;
    input(&on, "004F\n4001\n", ROOM, 10, 0);
    CHECK(text_is(&on, "1 ! 2\n2 ! 12\n") && same_state(on.report.receiver, ill_formed));
}

/* Another ID; and a line that finishes a long frame: its word has 2 digits, as a short one has. */
static void check_other_receivers(void)
{
    reporting on = begin();
    on.report.receiver = ttcrx_fresh(6, 0).receiver;
    input(&on, "100190235B5\n", ROOM, 12, 0);
    on.report.receiver = send_bits(fresh_5, 26, WRITE_35 >> 16).receiver;
    input(&on, "35AD\n", ROOM, 5, 0);
    CHECK(text_is(&on, "1 2 0 00190235 0\n2 2 0 35 0\n"));
}

/* 41 ones after a line with verdict 7, the last one too: with the line, not with the next. */
static void check_ones_after_lines(void)
{
    reporting on = begin();
    input(&on, "004E\n", ROOM, 5, 0);
    CHECK(held_is(on.report.receiver, 0, 0, 0) && counters_are(on.report.receiver, 57, 0));
    input(&on, "004E\n304F\n0001\n004E", ROOM, 19, 0);
    end(&on, TTCRX_LONGEST_END, 0);
    CHECK(text_is(&on, "1 7 0 -\n2 7 0 -\n3 8 0 -\n4 1 0 00 0\n5 7 0 -\nend 0 4 0 203\n"));
    CHECK(held_is(on.report.receiver, 0, 0, 0));
}

/* Fine delays of no setting: verdict 10 is printed like verdict 2, and no ones follow it. Held by the
   receiver given, they are refused by 2. */
static void check_delays_in_lines(void)
{
    reporting on = begin();
    input(&on, "1001500F387\n1001500E387\n1001500FFA7\n0001\n", ROOM, 41, 0);
    CHECK(on.report.receiver.core.settings.fine1 == 239);
    end(&on, TTCRX_LONGEST_END, 0);
    CHECK(text_is(&on, "1 10 0 001500F3 0\n2 10 1 001500F3 28\n3 2 1 001500EF 28\n4 1 0 00 0\n"
                       "end 2 0 0 142\n"));
    on = begin();
    on.report.receiver = delaying(0, 240);
    input(&on, "1001500F387\n4001\n", ROOM, 17, 0);
    CHECK(text_is(&on, "1 ! 2\n2 ! 12\n") && same_state(on.report.receiver, delaying(0, 240)));
}

/* The place is the last field for verdicts 1 to 6, 9 and 10; with 8 and 11 the word is '-', and no ones
   follow. The fixed bit of some frames is wrong; fixed bit 0 after a correction has place 0. */
static void check_places_in_lines(void)
{
    reporting on = begin();
    input(&on, "0095\n100150235AF\n1001610AAB7\n100180235B5\n100140735DF\n", ROOM, 53, 0);
    CHECK(text_is(&on, "1 1 1 02 13\n2 2 1 00150235 39\n3 4 1 001710AA 16\n"
                       "4 5 1 00190235 16\n5 6 1 00150735 16\n"));
    on = begin();
    input(&on, "304F\n0039\n10000000003\n1FFFFFFFFFF\n1001500F385\n100140600F3\n0001", ROOM, 62,
          0);
    end(&on, TTCRX_LONGEST_END, 0);
    CHECK(text_is(&on, "1 8 0 -\n2 11 0 -\n3 9 0 00000000 0\n4 11 0 -\n5 10 1 001500F3 39\n"
                       "6 3 1 00150600 16\n7 1 0 00 0\nend 0 0 0 16\n"));
}

/* A receiver that wants ones takes no frame of a line; no ones are sent for verdict 0. */
static void check_receivers_that_want_ones(void)
{
    reporting on = begin();
    on.report.receiver = keeping(0, 1);
    input(&on, "004E\n004F\n", ROOM, 10, 0);
    CHECK(held_is(on.report.receiver, 0, 37, 0) && counters_are(on.report.receiver, 32, 0));
    input(&on, "1FFFFFFFFFF\n004F\n", ROOM, 17, 0);
    CHECK(text_is(&on, "1 0 0 00\n2 0 0 00\n3 0 0 00000000\n4 1 0 01 0\n"));
    on = begin();
    on.report.receiver = keeping(1, 1);
    input(&on, "004F\n", ROOM, 5, 0);
    CHECK(text_is(&on, "1 ! 2\n") && same_state(on.report.receiver, keeping(1, 1)));
}

static void check_reports(void)
{
    check_example();
    check_ones_after_lines();
    check_receivers_that_want_ones();
    check_delays_in_lines();
    check_places_in_lines();
    check_input_room();
    check_last_line();
    check_empty_input();
    check_refused_lines();
    check_other_receivers();
}

#endif
