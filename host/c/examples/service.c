/* A board service: it keeps one receiver for weeks, and lends it out for each block of the trace. */
#include "ttcrx.h"
#include <assert.h>
#include <stdio.h>

static ttcrx_record records[TTCRX_BLOCK_CLOCKS]; /* room for the records of any block */

static uint64_t clocks_before; /* places in a block count from 0, so the service counts blocks */

static const char *fate(uint32_t verdict)
{
    switch (verdict) {
    case TTCRX_VERDICT_NONE: return "";
    case TTCRX_VERDICT_OTHER_ADDRESS: return ", a frame for another receiver";
    case TTCRX_VERDICT_OTHER_SUB_ADDRESS: return ", a frame without a meaning here";
    case TTCRX_VERDICT_STOP_BIT: return ", a frame dropped: stop bit";
    case TTCRX_VERDICT_EVEN_SYNDROME: return ", a frame dropped: even syndrome";
    case TTCRX_VERDICT_FIXED_BIT: return ", a frame dropped: fixed bit";
    case TTCRX_VERDICT_NO_SETTING: return ", a frame with a fine delay of no setting";
    case TTCRX_VERDICT_ODD_SYNDROME: return ", a frame dropped: odd syndrome";
    default: return ", a frame executed";
    }
}

static void print(const ttcrx_record *record)
{
    printf("clock %llu, bunch %u, event %u%s%s%s%s\n",
           (unsigned long long)(clocks_before + record->place), (unsigned)record->bunch,
           (unsigned)record->event, record->code & TTCRX_CODE_TRIGGER ? ", trigger" : "",
           record->code & TTCRX_CODE_MISSED ? ", missed" : "",
           fate(record->code & TTCRX_CODE_VERDICT),
           record->code & TTCRX_CODE_CORRECTED ? " after a correction" : "");
}

/* 1 if the block was worked through. If it was refused, receiver and records are as they were. */
static int work(ttcrx_receiver *receiver, const uint8_t *block, size_t length)
{
    ttcrx_block_outcome outcome = ttcrx_run_block(receiver, block, length, &records[0].place,
                                                  TTCRX_RECORD_NUMBERS * TTCRX_BLOCK_CLOCKS);
    if (outcome.refusal != TTCRX_ACCEPTED) {
        fprintf(stderr, "block refused by %d\n", outcome.refusal);
        return 0;
    }
    for (size_t place = 0; place < outcome.records; place++)
        print(&records[place]);
    clocks_before += length;
    return 1;
}

int main(void)
{
    ttcrx_receiver receiver = ttcrx_fresh(5, 5).receiver;

    /* One byte a clock: bit 0 is the trigger, bit 1 channel B. The broadcast of 01, then idle. */
    uint8_t block[20];
    uint64_t frame = ttcrx_encode_short(0x01).number;
    for (int clock = 0; clock < 20; clock++)
        block[clock] = (uint8_t)(clock < 16 ? (frame >> (15 - clock) & 1) << 1 : 2);
    block[17] |= 1; /* a trigger */

    if (!work(&receiver, block, sizeof block))
        return 1;
    assert(records[0].place == 15 && records[0].code == TTCRX_VERDICT_BROADCAST);
    assert(records[1].place == 17 && records[1].code == TTCRX_CODE_TRIGGER);
    assert(ttcrx_read(receiver, 26).byte == 1); /* registers may be read between blocks */

    block[3] = 4; /* no clock has such a byte: the whole block is refused */
    int done = work(&receiver, block, sizeof block);
    return done ? 1 : 0;
}
