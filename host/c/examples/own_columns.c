/* An encoder with columns of its own: they are lent with each call that uses them. */
#include "ttcrx.h"
#include <assert.h>

/* Of the 8 data bits of a short frame from bit 0 on, then of the 32 word bits of a long one. */
static const uint8_t columns[TTCRX_COLUMNS] = {
    31,  22, 21, 19, 14, 13, 11, 7, /* short */
    127, 31, 88, 84, 82, 81, 76, 74, 73, 70, 69, 67, 56, 52, 50, 49, /* long */
    44,  42, 41, 38, 37, 35, 28, 26, 25, 22, 21, 19, 14, 13, 11, 7,
};

int main(void)
{
    /* With refusal 28 the index tells the first bad column. */
    ttcrx_columns_answer check = ttcrx_check_columns(columns, TTCRX_COLUMNS);
    assert(check.refusal == TTCRX_ACCEPTED);

    /* Data 35 for register 2 of the receiver with ID 5. */
    ttcrx_encoded_with_index sent =
        ttcrx_encode_long_with_columns(columns, TTCRX_COLUMNS, 5, 0, 2, 0x35);
    assert(sent.answer.refusal == TTCRX_ACCEPTED);
    uint64_t frame = sent.answer.number;

    /* One data bit is flipped on the way: it is found and corrected. */
    ttcrx_receiver receiver = ttcrx_fresh(5, 5).receiver;
    ttcrx_clock_answer answer =
        ttcrx_receive_long_with_columns(receiver, columns, TTCRX_COLUMNS, frame ^ 0x100).answer;
    assert(answer.outputs.verdict == TTCRX_VERDICT_STORED && answer.outputs.place == 32);
    assert(ttcrx_read(answer.receiver, 2).byte == 0x35);

    /* Without those columns the frame is another one, which cannot be corrected. */
    answer = ttcrx_receive_long(receiver, frame);
    assert(answer.outputs.verdict == TTCRX_VERDICT_EVEN_SYNDROME);
    return 0;
}
