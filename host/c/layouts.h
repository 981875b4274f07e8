/*
 * The layouts of ttcrx.h: the size of each struct, and where its fields are.
 */
#ifndef LAYOUTS_H
#define LAYOUTS_H

#include "ttcrx.h"

#include <assert.h>
#include <stddef.h>

#define SIZE(type, size) static_assert(sizeof(ttcrx_##type) == (size), #type)
#define AT(type, place, field)                                                                     \
    static_assert(offsetof(ttcrx_##type, field) == (place), #type "." #field)

SIZE(encoded, 16); AT(encoded, 0, refusal); AT(encoded, 8, number);
SIZE(fields, 6); AT(fields, 0, address); AT(fields, 2, e); AT(fields, 3, sub_address);
    AT(fields, 4, data);
SIZE(decoded, 16); AT(decoded, 0, refusal); AT(decoded, 1, verdict); AT(decoded, 2, corrected);
    AT(decoded, 3, place); AT(decoded, 4, word); AT(decoded, 8, fields);
SIZE(line, 16); AT(line, 0, refusal); AT(line, 1, kind); AT(line, 8, number);
SIZE(written, 2); AT(written, 0, refusal); AT(written, 1, length);
SIZE(byte_answer, 2); AT(byte_answer, 0, refusal); AT(byte_answer, 1, byte);
SIZE(setting_answer, 2); AT(setting_answer, 0, refusal); AT(setting_answer, 1, setting);
SIZE(ids, 4); AT(ids, 0, id); AT(ids, 2, i2c);
SIZE(settings, 6); AT(settings, 0, fine1); AT(settings, 1, fine2); AT(settings, 2, coarse);
    AT(settings, 3, control); AT(settings, 4, config2); AT(settings, 5, config3);
SIZE(errors, 4); AT(errors, 0, single_errors); AT(errors, 2, double_errors); AT(errors, 3, status5);
SIZE(counters, 8); AT(counters, 0, bunch); AT(counters, 4, event);
SIZE(sequence, 8); AT(sequence, 0, left); AT(sequence, 4, event);
SIZE(core, 32); AT(core, 0, ids); AT(core, 4, settings); AT(core, 10, errors);
    AT(core, 16, counters); AT(core, 24, sequence);
SIZE(held, 16); AT(held, 0, count); AT(held, 1, ones_wanted); AT(held, 8, bits);
SIZE(receiver, 48); AT(receiver, 0, core); AT(receiver, 32, held);
SIZE(fresh_answer, 56); AT(fresh_answer, 0, refusal); AT(fresh_answer, 8, receiver);
SIZE(outputs, 12); AT(outputs, 0, trigger); AT(outputs, 1, missed); AT(outputs, 2, number);
    AT(outputs, 4, strobe); AT(outputs, 5, verdict); AT(outputs, 6, corrected);
    AT(outputs, 7, place); AT(outputs, 8, word);
SIZE(clock_answer, 72); AT(clock_answer, 0, refusal); AT(clock_answer, 8, receiver);
    AT(clock_answer, 56, outputs);
SIZE(read_answer, 2); AT(read_answer, 0, refusal); AT(read_answer, 1, byte);
SIZE(write_answer, 56); AT(write_answer, 0, refusal); AT(write_answer, 8, receiver);
SIZE(record, 20); AT(record, 0, place); AT(record, 4, bunch); AT(record, 8, event);
    AT(record, 12, code); AT(record, 16, word);
SIZE(block_outcome, 16); AT(block_outcome, 0, refusal); AT(block_outcome, 8, records);
SIZE(line_part, 12); AT(line_part, 0, count); AT(line_part, 1, characters);
SIZE(report, 72); AT(report, 0, receiver); AT(report, 48, lines); AT(report, 56, part);
SIZE(reported, 96); AT(reported, 0, report); AT(reported, 72, used); AT(reported, 80, written);
    AT(reported, 88, room_wanted);
SIZE(columns_answer, 2); AT(columns_answer, 0, refusal); AT(columns_answer, 1, index);
SIZE(encoded_with_index, 24); AT(encoded_with_index, 0, answer); AT(encoded_with_index, 16, index);
SIZE(decoded_with_index, 20); AT(decoded_with_index, 0, answer); AT(decoded_with_index, 16, index);
SIZE(clock_with_index, 80); AT(clock_with_index, 0, answer); AT(clock_with_index, 72, index);
SIZE(block_with_index, 24); AT(block_with_index, 0, answer); AT(block_with_index, 16, index);

#endif
