#include "ttcrx.h"
#include <cassert>
#include <string>

// The event counter, from its three registers.
static unsigned events(const ttcrx_receiver &receiver)
{
    unsigned low = ttcrx_read(receiver, 26).byte;
    unsigned middle = ttcrx_read(receiver, 27).byte;
    unsigned high = ttcrx_read(receiver, 28).byte;
    return low | middle << 8 | high << 16;
}

int main()
{
    ttcrx_receiver receiver = ttcrx_fresh(5, 5).receiver;
    receiver = ttcrx_clock(receiver, 1, 1).receiver; // a trigger on an idle clock
    assert(events(receiver) == 1);

    // A stored line goes on by its kind and number. This one is a broadcast with a wrong check bit.
    std::string text = "0095";
    ttcrx_line line = ttcrx_read_line(text.data(), text.size());
    assert(line.refusal == TTCRX_ACCEPTED && line.kind == TTCRX_SHORT);
    ttcrx_clock_answer answer = ttcrx_receive(receiver, line.kind, line.number);
    assert(answer.outputs.verdict == TTCRX_VERDICT_BROADCAST && answer.outputs.corrected == 1);
    assert(events(answer.receiver) == 0); // the broadcast of 02 clears the event counter

    // A refused call: its number, and the state as it was given.
    ttcrx_write_answer refused = ttcrx_write(answer.receiver, 22, 0);
    assert(refused.refusal == TTCRX_REFUSED_READ_ONLY);
    assert(events(refused.receiver) == 0);
}
