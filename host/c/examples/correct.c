#include "ttcrx.h"
#include <assert.h>

int main(void)
{
    assert(ttcrx_version() == TTCRX_VERSION); /* the archive is the one of this header */

    /* Data 35 for register 2 of the receiver with ID 5; one data bit is flipped on the way. */
    uint64_t frame = ttcrx_encode_long(5, 0, 2, 0x35).number ^ 0x100;
    ttcrx_clock_answer answer = ttcrx_receive_long(ttcrx_fresh(5, 5).receiver, frame);
    assert(answer.refusal == TTCRX_ACCEPTED);
    assert(answer.outputs.verdict == TTCRX_VERDICT_STORED && answer.outputs.corrected == 1);
    assert(ttcrx_read(answer.receiver, 2).byte == 0x35); /* stored as it was sent */
    assert(ttcrx_read(answer.receiver, 8).byte == 1);    /* one single error counted */
    return 0;
}
