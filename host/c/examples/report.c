/* What ttclines prints, for a receiver of any ID, with input in pieces and a small buffer. */
#include "ttcrx.h"
#include <assert.h>
#include <stdio.h>
#include <stdlib.h>
#include <string.h>

static char text[TTCRX_LONGEST_END]; /* a larger buffer needs fewer calls */

/* Writes out what a call has written, and gives the report to go on with. */
static ttcrx_report go_on(ttcrx_reported done)
{
    if (done.room_wanted > sizeof text) {
        fprintf(stderr, "a buffer of %zu bytes is needed\n", done.room_wanted);
        exit(1);
    }
    if (fwrite(text, 1, done.written, stdout) != done.written)
        exit(1);
    return done.report;
}

/* All of a piece, with as many calls as it needs. */
static ttcrx_report give(ttcrx_report report, const char *input, size_t length)
{
    ttcrx_reported done;
    do {
        done = ttcrx_report_input(report, input, length, text, sizeof text);
        report = go_on(done);
        input += done.used;
        length -= done.used;
    } while (done.room_wanted != 0);
    return report;
}

int main(void)
{
    ttcrx_fresh_answer fresh = ttcrx_fresh(7, 0); /* not ID 5 */
    if (fresh.refusal != TTCRX_ACCEPTED)
        return 1;
    ttcrx_report report = ttcrx_report_start();
    report.receiver = fresh.receiver;

    const char *first = "004F\n1001D0235";          /* a line, and the front of one */
    const char *second = "DD\n100150235AD\n004E\n"; /* its end; a line for ID 5; stop bit 0 */
    report = give(report, first, strlen(first));
    report = give(report, second, strlen(second));
    report = go_on(ttcrx_report_end(report, text, sizeof text));

    assert(report.lines == 4);
    assert(ttcrx_read(report.receiver, 2).byte == 0x35);
    return 0;
}
