/*
 * The C interface of the TTCrx model, libttcrx.a: frames, stored lines, fine delays, the receiver,
 * clock by clock, with register accesses between clocks, frame by frame, or a block of clocks at
 * once; the same with an encoder's own columns; and reports of stored lines. docs/USING.md shows how
 * it is used.
 *
 * Every function takes every value of its arguments, but for pointers (below). Each answer begins with
 * a number of refusal: TTCRX_ACCEPTED (0), or one of the TTCRX_REFUSED_ numbers. A refused call leaves
 * every other field of its answer 0, but for the index of a bad column, and for a state that was given,
 * which comes back as it was; it leaves a state that was lent as it was, and writes nothing of a lent
 * buffer. ttcrx_version, ttcrx_well_formed, ttcrx_filled_length and the functions on reports refuse
 * nothing, and their answers have no such number.
 *
 * A function that is lent characters, bytes, columns or a buffer takes a pointer and a length in
 * elements. What the caller must ensure: the pointer is aligned and valid for that length, for writing
 * too where it is not const, and is not null unless the length is 0; it spans at most PTRDIFF_MAX
 * bytes; a lent receiver is one element; a region that is lent for writing overlaps no other that is
 * lent to the call; and while the function runs, nothing else writes those elements, nor reads those
 * that are lent for writing. Characters may be any bytes, and no zero byte ends them.
 *
 * A frame is a number whose most significant bit is sent first. A short frame (broadcast) has 16 bits:
 * start bit 0, format bit 0, a word of 8, 5 check bits, stop bit 1. A long frame (individually
 * addressed) has 42: start bit 0, format bit 1, a word of 32, 7 check bits, stop bit 1. Word and check
 * bits are protected: bits 1 to 13 of a short number, 1 to 39 of a long one. Bit 0 is the stop bit.
 *
 * The place of a protected bit counts the frame's bits after the format bit, in the order sent, from 1:
 * the word's most significant bit has place 1, its least 8 or 32, and the check bits follow, 9 to 13 or
 * 33 to 39. The bit at a place is bit TTCRX_PLACES_SHORT + 1 - place of a short number, and bit
 * TTCRX_PLACES_LONG + 1 - place of a long one. A corrected frame, flipped at its place, is the clean
 * frame of the word that is answered; if no other bit was wrong, it is the frame as it was sent.
 */
#ifndef TTCRX_H
#define TTCRX_H

#include <stddef.h>
#include <stdint.h>

#ifdef __cplusplus
extern "C" {
#endif

/*
 * The version of this header. It is raised by each change of a struct or of a meaning. Structs go by
 * value, so a program must be compiled with the header of the archive that it is linked with:
 * compare TTCRX_VERSION with ttcrx_version() once, at the start.
 */
#define TTCRX_VERSION 4

/* The version of the archive. Refuses nothing. */
uint32_t ttcrx_version(void);

/*
 * Numbers of refusal, the field refusal of an answer. Each function says which it gives, in which
 * order: if several fit, the first is given. They are not verdicts: refusal 7 is not verdict 7.
 */
#define TTCRX_ACCEPTED 0
#define TTCRX_REFUSED_BIT 1            /* a trigger or data bit over 1; a byte of a block over 3 */
#define TTCRX_REFUSED_STATE 2          /* a state that is not well formed */
#define TTCRX_REFUSED_ID 3             /* an ID of 0 or over 16383 */
#define TTCRX_REFUSED_I2C_ID 4         /* an I2C ID over 63 */
#define TTCRX_REFUSED_REGISTER 5       /* a register that is not in the map */
#define TTCRX_REFUSED_READ_ONLY 6      /* a write to register 16, 17, 18 or 22 */
#define TTCRX_REFUSED_CONFIG 7         /* a write to 20 or 21: bits 6 to 0 are not the fresh ones */
#define TTCRX_REFUSED_SETTING 8        /* a fine delay setting over 239 */
#define TTCRX_REFUSED_DELAY_BYTE 9     /* a fine delay byte over 239 */
#define TTCRX_REFUSED_LINE_LENGTH 10   /* a line that has not 4 or 11 characters */
#define TTCRX_REFUSED_CHARACTER 11     /* a character that is not 0-9, A-F or a-f */
#define TTCRX_REFUSED_FRAME 12         /* a number that is no frame of its kind; a kind over 1 */
#define TTCRX_REFUSED_FIELD 13         /* an address over 16383, or e over 1 */
#define TTCRX_REFUSED_LINE_BUFFER 14   /* a buffer too small for a line: under 5 or 12 bytes */
#define TTCRX_REFUSED_BLOCK_LENGTH 15  /* a block of more than TTCRX_BLOCK_CLOCKS bytes */
#define TTCRX_REFUSED_RECORD_BUFFER 16 /* fewer than five numbers of room for each byte of a block */
#define TTCRX_REFUSED_NO_SETTING 17    /* a write to 0 or 1: the byte belongs to no fine delay setting */
#define TTCRX_REFUSED_COLUMN_COUNT 27  /* not 40 lent columns */
#define TTCRX_REFUSED_BAD_COLUMN 28    /* a lent column that is bad: the index tells the first */

/*
 * Verdicts on a finished frame, the field verdict of a clock's outputs. 1 to 4 were executed; 7, 8, 9
 * and 11 were dropped, and each raised the double error counter, up to 255. A frame with verdict 1, 2,
 * 4, 5, 6 or 10 that was corrected raised the single error counter, up to 65535. RESET clears both, and
 * so does a write to their registers.
 *
 * 8 and 11 are the frames that cannot be corrected. The syndrome is the received check number xor that
 * of the received word. With 8 the number of ones in it is even and not 0; with 11 it is odd, and the
 * syndrome belongs to no bit. If a frame was sent, and only protected bits were wrong, 8 means an even
 * number of them, two or more, and 11 an odd number, three or more. Two wrong bits always give 8. Three
 * may also look like one, so that the frame is corrected to another, and four like two or like none.
 *
 * After a finished frame with any other verdict than 7 the receiver waits for a start bit, and the next
 * bit may be one. After verdict 7 it wants 41 ones in a row on channel B first: a 0 among them is no
 * start bit, and the run begins again. After the 41st one it waits. No frame finishes meanwhile, and no
 * error is counted; triggers, register accesses and the bunch and event counters work as always.
 */
#define TTCRX_VERDICT_NONE 0              /* no frame finished on this clock */
#define TTCRX_VERDICT_BROADCAST 1         /* short: data bit 0 clears the bunch, 1 the event counter */
#define TTCRX_VERDICT_STORED 2            /* the data went to register 0, 1, 2 or 3 */
#define TTCRX_VERDICT_RESET 3             /* the state became the fresh one of the same IDs */
#define TTCRX_VERDICT_OUTSIDE 4           /* E = 1: the word was shown to the electronics outside */
#define TTCRX_VERDICT_OTHER_ADDRESS 5     /* addressed to another receiver: no effect */
#define TTCRX_VERDICT_OTHER_SUB_ADDRESS 6 /* a sub-address without a meaning: no effect */
#define TTCRX_VERDICT_STOP_BIT 7          /* the stop bit was 0: dropped; 41 ones are wanted then */
#define TTCRX_VERDICT_EVEN_SYNDROME 8     /* an even number of ones in the syndrome: dropped */
#define TTCRX_VERDICT_FIXED_BIT 9         /* long, fixed bit 0 after correction: dropped */
#define TTCRX_VERDICT_NO_SETTING 10       /* for register 0 or 1, but data 240 to 255: nothing stored */
#define TTCRX_VERDICT_ODD_SYNDROME 11     /* an odd number, which belongs to no bit: dropped */

/* The field verdict of a decoder is this, or one of the verdicts 7, 8, 9 and 11. */
#define TTCRX_DECODED_GOOD 0

/* How many columns are lent: those of a short frame's 8 data bits, then those of a long one's 32. */
#define TTCRX_COLUMNS 40
#define TTCRX_COLUMNS_SHORT 8

/* Kinds of frames. */
#define TTCRX_SHORT 0
#define TTCRX_LONG 1

/* How many protected bits a frame has: the places are 1 to that. */
#define TTCRX_PLACES_SHORT 13
#define TTCRX_PLACES_LONG 39

/* The address of every receiver, and the sub-address of RESET. */
#define TTCRX_ADDRESS_ALL 0
#define TTCRX_SUB_ADDRESS_RESET 6

/* What the bus shows, the field strobe of a clock's outputs. */
#define TTCRX_STROBE_NONE 0
#define TTCRX_STROBE_BUNCH 1
#define TTCRX_STROBE_EVENT_LOW 2
#define TTCRX_STROBE_EVENT_HIGH 3

/* The answer of an encoder. */
typedef struct ttcrx_encoded {
    uint8_t refusal;
    uint64_t number; /* the frame */
} ttcrx_encoded;

/*
 * The fields of a frame. A short frame has data alone; its other fields are 0. The word of a long
 * frame is address (bits 31 to 18), e (17), a fixed 1 (16), sub-address (15 to 8), data (7 to 0).
 */
typedef struct ttcrx_fields {
    uint16_t address;    /* 0 to 16383; 0 is for every receiver */
    uint8_t e;           /* 0: the receiver itself; 1: the electronics outside */
    uint8_t sub_address;
    uint8_t data;
} ttcrx_fields;

/* The answer of a decoder. A verdict of 7, 8, 9 or 11 is no refusal. */
typedef struct ttcrx_decoded {
    uint8_t refusal;
    uint8_t verdict;     /* TTCRX_DECODED_GOOD (0), or TTCRX_VERDICT_STOP_BIT (7), _EVEN_SYNDROME (8),
                            _FIXED_BIT (9) or _ODD_SYNDROME (11) */
    uint8_t corrected;   /* 1: one wrong bit was corrected; always 0 with verdicts 7, 8, 9 and 11 */
    uint8_t place;       /* the place of the corrected bit, 1 to 13 or 39; 0 if corrected is 0 */
    uint32_t word;       /* the corrected word; 0 with verdicts 7, 8 and 11 */
    ttcrx_fields fields; /* of a good frame; 0 with verdicts 7, 8, 9 and 11 */
} ttcrx_decoded;

/* The answer of the reader of a line. */
typedef struct ttcrx_line {
    uint8_t refusal;
    uint8_t kind;    /* TTCRX_SHORT (0) or TTCRX_LONG (1) */
    uint64_t number; /* the frame */
} ttcrx_line;

/* The answer of a writer of a line. */
typedef struct ttcrx_written {
    uint8_t refusal;
    uint8_t length; /* bytes written, the line feed among them: 5 or 12 */
} ttcrx_written;

/* The answer to a fine delay setting. */
typedef struct ttcrx_byte_answer {
    uint8_t refusal;
    uint8_t byte;
} ttcrx_byte_answer;

/* The answer to a fine delay byte. */
typedef struct ttcrx_setting_answer {
    uint8_t refusal;
    uint8_t setting; /* 0 to 239 */
} ttcrx_setting_answer;

/*
 * The state of a receiver: a struct by value. Any copy may be kept and clocked further. A state
 * within the ranges below is well formed; ttcrx_well_formed tests it.
 */
typedef struct ttcrx_ids {
    uint16_t id; /* 1 to 16383 */
    uint8_t i2c; /* 0 to 63 */
} ttcrx_ids;

/* Registers 0 to 3, 20 and 21. */
typedef struct ttcrx_settings {
    uint8_t fine1;   /* under 240: the byte of a fine delay setting */
    uint8_t fine2;   /* likewise */
    uint8_t coarse;
    uint8_t control;
    uint8_t config2; /* bits 6 to 0 are those of 0x85 */
    uint8_t config3; /* bits 6 to 0 are those of 0xA7 */
} ttcrx_settings;

/* The error counters, and bit 5 of the status register. */
typedef struct ttcrx_errors {
    uint16_t single_errors;
    uint8_t double_errors;
    uint8_t status5; /* 0 or 1: 0 after a frame whose stop bit was 0; 1 after any other, and fresh */
} ttcrx_errors;

typedef struct ttcrx_counters {
    uint16_t bunch; /* clocks, under 4096; then 0 again */
    uint32_t event; /* triggers, under 2^24; then 0 again */
} ttcrx_counters;

/*
 * If no words are left, a trigger starts a sequence on the bus, by bits 1 and 0 of register 3:
 * 0: nothing; 1: the bunch number on the same clock; 2: event low on the same clock, event high on the
 * next; 3: bunch number, event low, event high on three clocks. Event low is bits 11 to 0 of the event
 * number, event high bits 23 to 12. These are the words that it has still to show.
 */
typedef struct ttcrx_sequence {
    uint8_t left;   /* 0, 1 or 2 */
    uint32_t event; /* the kept event number, under 2^24; 0 with no words left */
} ttcrx_sequence;

/* All of a receiver but what it keeps of channel B. */
typedef struct ttcrx_core {
    ttcrx_ids ids;
    ttcrx_settings settings;
    ttcrx_errors errors;
    ttcrx_counters counters;
    ttcrx_sequence sequence;
} ttcrx_core;

/*
 * What the receiver keeps of channel B: it waits for a start bit (all three are 0), wants ones after a
 * frame with stop bit 0 (count and bits are 0), or holds the bits of an unfinished frame (ones_wanted
 * is 0).
 */
typedef struct ttcrx_held {
    uint8_t count;       /* how many frame bits are held, 0 to 41 */
    uint8_t ones_wanted; /* the ones still wanted before a 0 counts as a start bit, 0 to 41 */
    uint64_t bits;       /* the frame bits as a number, the first received most significant. The first
                            is 0, so it is under 2^(count - 1); from 16 bits on the second is 1, so it
                            is 2^(count - 2) or more; 0 with no bit held */
} ttcrx_held;

typedef struct ttcrx_receiver {
    ttcrx_core core;
    ttcrx_held held;
} ttcrx_receiver;

/* The answer to a request for a fresh state. */
typedef struct ttcrx_fresh_answer {
    uint8_t refusal;
    ttcrx_receiver receiver; /* every field 0 with a refusal */
} ttcrx_fresh_answer;

/* What a clock shows. */
typedef struct ttcrx_outputs {
    uint8_t trigger;   /* the trigger output */
    uint8_t missed;    /* 1: a trigger came while a sequence had words left. It is counted like any
                          other, but its own numbers are not shown */
    uint16_t number;   /* the number on the bus; 0 with TTCRX_STROBE_NONE */
    uint8_t strobe;    /* what the bus shows: one of TTCRX_STROBE_ */
    uint8_t verdict;   /* of the frame that this clock finished: one of TTCRX_VERDICT_ */
    uint8_t corrected; /* 1: one wrong bit of it was corrected; 0 with verdicts 0, 7, 8, 9 and 11 */
    uint8_t place;     /* the place of the corrected bit, 1 to 13 or 39; 0 if corrected is 0 */
    uint32_t word;     /* its corrected word; 0 with verdicts 0, 7, 8 and 11 */
} ttcrx_outputs;

/* The answer of a clock. */
typedef struct ttcrx_clock_answer {
    uint8_t refusal;
    ttcrx_receiver receiver; /* the state after the clock; with a refusal, the state as given */
    ttcrx_outputs outputs;
} ttcrx_clock_answer;

/* The answer of a register read. */
typedef struct ttcrx_read_answer {
    uint8_t refusal;
    uint8_t byte;
} ttcrx_read_answer;

/* The answer of a register write. */
typedef struct ttcrx_write_answer {
    uint8_t refusal;
    ttcrx_receiver receiver; /* the state after the write; with a refusal, the state as given */
} ttcrx_write_answer;

/*
 * A record of a block. The buffer of ttcrx_run_block is an array of them: to lend an array of records,
 * give &records[0].place, and TTCRX_RECORD_NUMBERS numbers for each.
 */
typedef struct ttcrx_record {
    uint32_t place; /* of the clock in its block, from 0 */
    uint32_t bunch; /* the bunch counter before the clock */
    uint32_t event; /* the event counter before the clock */
    uint32_t code;  /* the verdict, and the bits of TTCRX_CODE_ */
    uint32_t word;  /* as the clock shows it */
} ttcrx_record;

/* The bits of a record's code. code & TTCRX_CODE_VERDICT is one of TTCRX_VERDICT_. */
#define TTCRX_CODE_VERDICT 15
#define TTCRX_CODE_CORRECTED 16 /* one wrong bit of the frame was corrected */
#define TTCRX_CODE_TRIGGER 32   /* a trigger came on this clock */
#define TTCRX_CODE_MISSED 64    /* while a sequence had words left */

/* The clocks that a block may have, and the numbers of a record: a buffer of both multiplied is always
   enough. */
#define TTCRX_BLOCK_CLOCKS 4096
#define TTCRX_RECORD_NUMBERS 5

#if defined(__cplusplus) && __cplusplus >= 201103L
static_assert(sizeof(ttcrx_record) == TTCRX_RECORD_NUMBERS * sizeof(uint32_t), "no padding");
#elif defined(__STDC_VERSION__) && __STDC_VERSION__ >= 201112L
_Static_assert(sizeof(ttcrx_record) == TTCRX_RECORD_NUMBERS * sizeof(uint32_t), "no padding");
#endif

/* What a block answers; its state stays in the receiver that was lent. */
typedef struct ttcrx_block_outcome {
    uint8_t refusal;
    size_t records; /* how many were written, from the front of the buffer */
} ttcrx_block_outcome;

/* The characters of a line so far, as far as they matter. */
typedef struct ttcrx_line_part {
    uint8_t count;       /* how many they are; 12 for more than 11 (a larger one is taken as 12) */
    char characters[11]; /* the characters; those beyond the count do not matter */
} ttcrx_line_part;

/*
 * What a report of stored lines keeps between two pieces of input. A report may start with any
 * receiver, and go on with any: set the field receiver.
 */
typedef struct ttcrx_report {
    ttcrx_receiver receiver;
    uint64_t lines; /* lines reported so far; past 2^64 - 1 it goes on from 0 */
    ttcrx_line_part part;
} ttcrx_report;

/* The answer of a call on a report. */
typedef struct ttcrx_reported {
    ttcrx_report report;
    size_t used;    /* bytes of the input used, from its front */
    size_t written; /* bytes of the buffer written, from its front; those beyond stay */
    size_t room_wanted; /* 0: all was done. Else room stopped the call: go on with a buffer of at least
                           so many bytes, TTCRX_LONGEST_LINE or TTCRX_LONGEST_END; with a smaller one
                           the same call does nothing, however often it is made */
} ttcrx_reported;

/* The longest text of a line, and of the end: so much room is always enough. */
#define TTCRX_LONGEST_LINE 38
#define TTCRX_LONGEST_END 66

/*
 * The encoder's own columns. Each data bit of a frame has a column, a number that it brings into the
 * check number: the exclusive-or of the columns of the data bits that are 1. The library has columns of
 * its own, which are below. Beside each function that encodes, decodes, clocks, receives a whole frame
 * or runs a block stands one whose name ends in _with_columns: it is lent TTCRX_COLUMNS numbers, and
 * uses them instead, in this call alone. columns[i] is that of data bit i of a short frame (bit 0 is
 * the least), for i from 0 to 7, and columns[8 + i] that of word bit i of a long one, for i from 0 to
 * 31. No state keeps them. So if the clocks of one frame are lent different columns, those of its last
 * clock decide what becomes of it.
 *
 * The columns of a group, the 8 or the 32, must be distinct numbers with an odd number of ones, three
 * or more, and be under 2^5 for a short frame, under 2^7 for a long one. Any other column is bad, and
 * of two equal ones in a group the later is. Columns of different groups may be equal.
 *
 * Refusals of these functions, in this order: 2, where a receiver is given or lent and is not well
 * formed; 27: not TTCRX_COLUMNS numbers; 28: a bad column; then those of the function without columns.
 * All columns are checked at each call, whatever it needs of them. The answer is what the function
 * without columns would answer if these columns were the library's, with the index of the first bad
 * column beside it, counted from 0 over both groups; it is 0 but with refusal 28. What is said here of
 * wrong bits holds if the sender used the same columns. With the library's own,
 *
 *     7, 11, 13, 14, 19, 21, 22, 25,
 *     7, 11, 13, 14, 19, 21, 22, 25, 26, 28, 35, 37, 38, 41, 42, 44,
 *     49, 50, 52, 56, 67, 69, 70, 73, 74, 76, 81, 82, 84, 88, 97, 98,
 *
 * these functions answer what those without columns do, with index 0.
 */

/* What the check of columns answers. */
typedef struct ttcrx_columns_answer {
    uint8_t refusal;
    uint8_t index; /* of the first bad column, 0 to 39, with refusal 28; else 0 */
} ttcrx_columns_answer;

/* The answers of the functions with columns: that of the function without, and the index. */
typedef struct ttcrx_encoded_with_index {
    ttcrx_encoded answer;
    uint8_t index;
} ttcrx_encoded_with_index;

typedef struct ttcrx_decoded_with_index {
    ttcrx_decoded answer;
    uint8_t index;
} ttcrx_decoded_with_index;

typedef struct ttcrx_clock_with_index {
    ttcrx_clock_answer answer;
    uint8_t index;
} ttcrx_clock_with_index;

typedef struct ttcrx_block_with_index {
    ttcrx_block_outcome answer;
    uint8_t index;
} ttcrx_block_with_index;

/* The short frame of a byte. Refuses nothing. */
ttcrx_encoded ttcrx_encode_short(uint8_t data);

/* The long frame of these fields. Refusal 13: address over 16383, or e over 1; the number is then 0. */
ttcrx_encoded ttcrx_encode_long(uint16_t address, uint8_t e, uint8_t sub_address, uint8_t data);

/*
 * What a number says as a short frame. Refusal 12: the number is 2^14 or more; all other fields are
 * then 0.
 */
ttcrx_decoded ttcrx_decode_short(uint64_t number);

/*
 * What a number says as a long frame. Refusal 12: number / 2^40 is not 1; all other fields are then 0.
 */
ttcrx_decoded ttcrx_decode_long(uint64_t number);

/*
 * The frame of a stored line: its characters, without the line feed. Refusals, in this order:
 * 10: not 4 or 11 characters; 11: a character that is not 0-9, A-F or a-f; 12: a number that is no
 * short frame (4 characters) or no long frame (11), as for the decoders. Kind and number are then 0.
 * The stop bit may be 0.
 */
ttcrx_line ttcrx_read_line(const char *characters, size_t length);

/*
 * Writes the line of a short frame to the front of the buffer: 4 capital digits and a line feed.
 * Later bytes stay. Refusals, in this order: 12: no short frame; 14: a buffer under 5 bytes. No byte
 * is then written, and the length is 0.
 */
ttcrx_written ttcrx_write_short(uint64_t number, char *buffer, size_t length);

/*
 * Writes the line of a long frame to the front of the buffer: 11 capital digits and a line feed.
 * Later bytes stay. Refusals, in this order: 12: no long frame; 14: a buffer under 12 bytes. No byte
 * is then written, and the length is 0.
 */
ttcrx_written ttcrx_write_long(uint64_t number, char *buffer, size_t length);

/* The byte of a fine delay setting. Refusal 8: a setting over 239; the byte is then 0. */
ttcrx_byte_answer ttcrx_delay_byte(uint8_t setting);

/* The setting of a fine delay byte. Refusal 9: a byte over 239; the setting is then 0. */
ttcrx_setting_answer ttcrx_delay_setting(uint8_t byte);

/* Whether a state is well formed: 1 or 0. Refuses nothing. */
uint8_t ttcrx_well_formed(ttcrx_receiver receiver);

/*
 * The fresh state of a receiver. Refusals, in this order: 3: an ID of 0 or over 16383; 4: an I2C ID
 * over 63. Every field of the receiver is then 0, and it is not well formed.
 */
ttcrx_fresh_answer ttcrx_fresh(uint16_t id, uint8_t i2c);

/*
 * One clock, with a bit of channel A (the trigger) and a bit of channel B (the data; idle is 1).
 * Refusals, in this order: 2: a state that is not well formed; 1: a bit over 1. The receiver is then
 * the one given, and all outputs are 0.
 */
ttcrx_clock_answer ttcrx_clock(ttcrx_receiver receiver, uint8_t trigger, uint8_t data);

/*
 * The byte that a register holds; the state stays as it is. Refusals, in this order: 2: a state that
 * is not well formed; 5: a register that is not in the map. The byte is then 0.
 */
ttcrx_read_answer ttcrx_read(ttcrx_receiver receiver, uint8_t register_number);

/*
 * Writes a byte to a register. Registers 0 to 3, 20 and 21 store it; a write to any byte of a
 * counter clears all of the counter, whatever the value; register 11 stays 0. Refusals, in this
 * order: 2: a state that is not well formed; 5: a register that is not in the map; 6: register 16,
 * 17, 18 or 22; then 17: register 0 or 1, and a byte over 239, which belongs to no setting; or 7:
 * register 20 or 21, and a byte that differs from the fresh one in bits 6 to 0. The receiver is then
 * the one given.
 */
ttcrx_write_answer ttcrx_write(ttcrx_receiver receiver, uint8_t register_number, uint8_t value);

/*
 * Feeds a whole frame to the receiver: its bits in the order sent, one a clock, without triggers. The
 * answer is that of the last clock. Kind and number are as ttcrx_read_line answers them; test its
 * refusal first: a refused line has kind 0 and number 0, which is a short frame with stop bit 0.
 *
 * It is meant for a receiver that waits (held.count and held.ones_wanted are 0). One that holds bits
 * takes these as more bits of that frame; a frame that so finishes on an earlier clock acts, and only
 * the state shows it. One that wants ones takes no frame: of the frame's bits only the ones at its end
 * count, for the run. So after verdict 7 send 41 ones first, as one block of 41 bytes, each 2.
 *
 * Refusals, in this order: 2: a state that is not well formed; 12: a kind over 1, or a number that is
 * no frame of this kind, as for the decoders. The receiver is then the one given, no clock is done, and
 * all outputs are 0.
 */
ttcrx_clock_answer ttcrx_receive(ttcrx_receiver receiver, uint8_t kind, uint64_t number);

/* The same with kind TTCRX_SHORT. */
ttcrx_clock_answer ttcrx_receive_short(ttcrx_receiver receiver, uint64_t number);

/* The same with kind TTCRX_LONG. */
ttcrx_clock_answer ttcrx_receive_long(ttcrx_receiver receiver, uint64_t number);

/*
 * The clocks of a whole block on the receiver that is lent: one byte a clock, in order; bit 0 is the
 * trigger, bit 1 channel B. The receiver becomes the one that these clocks leave, done singly.
 *
 * Each clock with a trigger, or with a verdict other than 0, writes a record after the last one, from
 * the front of the buffer. Its five numbers are those of ttcrx_record; the code is verdict
 * + 16 * corrected + 32 * trigger + 64 * missed as the clock shows them. The numbers after the last
 * record stay as they were.
 *
 * Refusals, in this order: 2: a state that is not well formed; 15: a block of more than 4096 bytes;
 * 16: a buffer of fewer than five numbers for each byte of the block; 1: a byte over 3. A refused call
 * does no clock, and writes no byte of the receiver and no number of the buffer; records is 0. The
 * buffer's length is in numbers, not in bytes. Bytes of the receiver that are no field (padding) may
 * change in a call that is accepted: receivers are to be compared field by field.
 */
ttcrx_block_outcome ttcrx_run_block(ttcrx_receiver *receiver, const uint8_t *block,
                                   size_t block_length, uint32_t *buffer, size_t buffer_length);

/*
 * How many numbers that many records take up, at the front of a buffer of that length: five for each;
 * or 0 where these are more than the length. Refuses nothing.
 */
size_t ttcrx_filled_length(size_t buffer_length, size_t records);

/*
 * Checks lent columns, as each function with columns does. Refusals, in this order: 27: not
 * TTCRX_COLUMNS numbers; 28: a bad column, of which the index tells the first.
 */
ttcrx_columns_answer ttcrx_check_columns(const uint8_t *columns, size_t columns_length);

/* ttcrx_encode_short with lent columns. Refusals, in this order: 27, 28. */
ttcrx_encoded_with_index ttcrx_encode_short_with_columns(const uint8_t *columns,
                                                         size_t columns_length, uint8_t data);

/* ttcrx_encode_long with lent columns. Refusals, in this order: 27, 28, 13. */
ttcrx_encoded_with_index ttcrx_encode_long_with_columns(const uint8_t *columns,
                                                        size_t columns_length, uint16_t address,
                                                        uint8_t e, uint8_t sub_address,
                                                        uint8_t data);

/* ttcrx_decode_short with lent columns. Refusals, in this order: 27, 28, 12. */
ttcrx_decoded_with_index ttcrx_decode_short_with_columns(const uint8_t *columns,
                                                         size_t columns_length, uint64_t number);

/* ttcrx_decode_long with lent columns. Refusals, in this order: 27, 28, 12. */
ttcrx_decoded_with_index ttcrx_decode_long_with_columns(const uint8_t *columns,
                                                        size_t columns_length, uint64_t number);

/* ttcrx_clock with lent columns. Refusals, in this order: 2, 27, 28, 1. */
ttcrx_clock_with_index ttcrx_clock_with_columns(ttcrx_receiver receiver, const uint8_t *columns,
                                                size_t columns_length, uint8_t trigger,
                                                uint8_t data);

/* ttcrx_receive with lent columns. Refusals, in this order: 2, 27, 28, 12. */
ttcrx_clock_with_index ttcrx_receive_with_columns(ttcrx_receiver receiver, const uint8_t *columns,
                                                  size_t columns_length, uint8_t kind,
                                                  uint64_t number);

/* The same with kind TTCRX_SHORT. */
ttcrx_clock_with_index ttcrx_receive_short_with_columns(ttcrx_receiver receiver,
                                                        const uint8_t *columns,
                                                        size_t columns_length, uint64_t number);

/* The same with kind TTCRX_LONG. */
ttcrx_clock_with_index ttcrx_receive_long_with_columns(ttcrx_receiver receiver,
                                                       const uint8_t *columns,
                                                       size_t columns_length, uint64_t number);

/*
 * ttcrx_run_block with lent columns, the same on every clock of the block. Refusals, in this order: 2,
 * 27, 28, 15, 16, 1. As there, a refused call writes no byte of the receiver and no number of the
 * buffer, and records is 0.
 */
ttcrx_block_with_index ttcrx_run_block_with_columns(ttcrx_receiver *receiver,
                                                    const uint8_t *columns, size_t columns_length,
                                                    const uint8_t *block, size_t block_length,
                                                    uint32_t *buffer, size_t buffer_length);

/*
 * A report of stored lines at the beginning of its input: what the program ttclines does, with a
 * fresh receiver of ID 5 and I2C ID 5. For another receiver, set the field receiver of the answer.
 * The three functions on reports refuse nothing.
 */
ttcrx_report ttcrx_report_start(void);

/*
 * Reports the lines that end in a piece of the input, each as ttclines prints it: the line's number,
 * then verdict, corrected flag and word as the clock of its last bit shows them, and with verdicts 1 to
 * 6, 9 and 10 the place, 0 if no bit was corrected; or '!' and the refusal: 10, 11 or 12 of the line,
 * or 2 for a frame on a receiver that is not well formed. One space stands between them. The word is in
 * capital hexadecimal digits, or '-' with verdicts 7, 8 and 11; all else is decimal. It has 2 digits in
 * a line of 4 characters and 8 in one of 11, also if the receiver given held bits of another frame, so
 * that the line's last bit finishes that one, or none (verdict 0, without a place); of a longer word
 * these are the last digits. A receiver that wants ones finishes none.
 *
 * Each line whose printed verdict is 7 is followed by 41 clocks with a 1 on channel B and no trigger,
 * after which the receiver waits. They print nothing, and the bunch counter counts them. So a receiver
 * that waits before the first line waits before each one.
 *
 * It works until the piece is used up or fewer than TTCRX_LONGEST_LINE bytes of the buffer are free.
 * If input is left, room_wanted is TTCRX_LONGEST_LINE, else 0: write out the text, and give the rest
 * of the input again, at the front of the next piece, with a buffer of so many bytes at least. A
 * smaller buffer uses no input and writes nothing, however often it is given. How the input is cut
 * into pieces does not show in the text.
 */
ttcrx_reported ttcrx_report_input(ttcrx_report report, const char *input, size_t input_length,
                                  char *buffer, size_t buffer_length);

/*
 * At the end of the input: reports a last line without line feed, if it has any character, as
 * ttcrx_report_input does, with the 41 ones after verdict 7; then writes the line "end", single errors,
 * double errors, event count and bunch count of the receiver; room_wanted is 0. With a buffer of under
 * TTCRX_LONGEST_END bytes, however short the text would be, nothing is written, the report stays, and
 * room_wanted is TTCRX_LONGEST_END. Uses no input.
 */
ttcrx_reported ttcrx_report_end(ttcrx_report report, char *buffer, size_t buffer_length);

#ifdef __cplusplus
}
#endif

#endif
