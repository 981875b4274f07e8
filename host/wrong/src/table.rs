//! All mistakes: the function that each is in, the tests that must find it, and what is wrong.

use crate::mistakes::columns::{Index, Lent};
use crate::mistakes::frames::{Sent, Taken};
use crate::mistakes::lending::Keeping;
use crate::mistakes::places::{Decoders, Told};
use crate::mistakes::*;
use crate::Shared;

pub struct Mistake {
    pub name: &'static str,
    /// Files of ../tests, each with the filter of its tests after a space if only some are to run.
    pub tests: &'static [&'static str],
    pub what: &'static str,
    pub library: Shared,
}

macro_rules! table {
    ($($library:ident $file:ident::$name:ident, $($test:literal)+: $what:literal;)*) => {
        pub static MISTAKES: &[Mistake] = &[$(Mistake {
            name: stringify!($name),
            tests: &[$($test),+],
            what: $what,
            library: &$library($file::$name),
        }),*];
    };
}

table! {
    // "Traps seen in our old code" of document 01.
    Taken frames::stop_bit_tested_last, "frames" "clock":
        "a frame with stop bit 0 and one wrong bit is corrected and executed";
    Taken frames::stop_bit_protected, "frames" "clock":
        "a frame of which the stop bit alone is wrong counts as corrected";
    Taken frames::every_odd_syndrome_is_one_flip, "frames" "clock" "three_flips":
        "a syndrome with an odd number of ones that is no column is taken for a wrong check bit";
    Clock clock::new_event_number_on_bus, "clock":
        "a sequence shows the event number after its trigger";
    Clock clock::cleared_bunch_number_on_bus, "clock":
        "the bus shows bunch number 0 on the clock that clears it";
    Clock clock::corrected_counted_only_if_ours, "clock":
        "a corrected frame for another address does not raise the single error counter";

    // Frames and fine delays.
    Sent frames::check_bits_reversed, "frames" "examples":
        "the encoders send the check bits least significant first";
    DelayByte frames::delay_difference_cut_off, "delays":
        "a negative difference K div 15 - n counts as 0";
    DelaySetting frames::delay_byte_240_accepted, "delays":
        "byte 240 has a setting";
    Version frames::version_one_too_low, "interface":
        "the version is one less than that of the header";

    // States and the clock.
    Fresh clock::i2c_id_before_id, "fresh":
        "refusal 4 comes before 3";
    WellFormed clock::short_frame_of_16_bits_held, "clock":
        "16 held bits of a short frame are well formed";
    Clock clock::bit_before_state, "clock":
        "refusal 1 comes before 2";
    Clock clock::refused_clock_counts, "clock":
        "a clock that is refused by 1 raises the bunch counter";
    Clock clock::long_frame_of_41_bits, "clock" "lists":
        "a long frame finishes with its 41st bit: 40 ones end any frame";
    Clock clock::short_frame_of_15_bits, "clock" "lists":
        "a short frame finishes with its 15th bit";
    Clock clock::mode_of_this_clocks_frame, "clock":
        "a trigger takes the mode that the frame of the same clock writes";
    Clock clock::last_word_not_missed, "clock":
        "a trigger on the last word of a sequence is not missed";
    Clock clock::clear_reaches_sequence, "clock":
        "a broadcast that clears the event counter clears the kept event number too";
    Clock clock::reset_keeps_sequence, "clock":
        "RESET does not end a running sequence";
    Clock clock::corrected_reset_counted, "clock":
        "after a corrected RESET the single error counter is 1";
    Clock clock::status_not_set_by_8, "clock":
        "verdict 8 does not set status bit 5";
    Clock clock::double_errors_wrap, "clock":
        "the double error counter goes from 255 to 0";
    Clock clock::single_errors_wrap, "clock":
        "the single error counter goes from 65535 to 0";
    Clock clock::orbit_of_3564_bunches, "clock":
        "the bunch counter goes up modulo 3564";
    Clock clock::address_before_fixed_bit, "clock":
        "verdict 5 is tested before 9";
    Clock clock::outside_before_address, "clock":
        "verdict 4 is tested before 5";

    // Quiet after a bad stop bit: Q-1 of document 02.
    Clock quiet::forty_ones, "clock ones_wanted" "lists quiet":
        "40 ones in a row are enough after a bad stop bit";
    Clock quiet::forty_two_ones, "clock ones_wanted" "lists quiet":
        "42 ones in a row are wanted after a bad stop bit";
    Clock quiet::zero_keeps_the_run, "clock ones_wanted" "lists quiet":
        "a 0 in the run does not begin it again";
    Clock quiet::zero_starts_a_frame, "clock ones_wanted" "lists quiet":
        "a 0 in the run is taken as a start bit";
    Clock quiet::quiet_after_8, "clock last_bits" "lists receives_frames":
        "verdict 8 makes the receiver want ones too";
    Clock quiet::quiet_after_9, "clock last_bits":
        "verdict 9 makes the receiver want ones too";
    Clock quiet::fifteen_ones_after_a_short_frame, "clock last_bits" "lists quiet":
        "after a short frame with a bad stop bit only 15 ones are wanted";
    Clock quiet::ones_with_triggers_not_counted, "clock ones_wanted" "lists quiet" "lists waits":
        "a one on a clock with a trigger does not count in the run";
    Clock quiet::refused_clock_begins_again, "clock ones_wanted" "lists quiet":
        "a clock that is refused by 1 begins the run again";
    Clock quiet::bunch_stands_in_the_run, "clock ones_wanted" "lists quiet":
        "the bunch counter does not count the clocks of the run";
    Clock quiet::trigger_ignored_in_the_run, "clock ones_wanted" "lists quiet":
        "a trigger on a clock of the run is not taken";
    Clock quiet::run_sets_status, "clock ones_wanted" "lists quiet" "registers between_clocks":
        "the end of the run sets status bit 5";
    Write quiet::write_ends_the_run, "registers between_clocks" "registers writes" "lists quiet":
        "a register write ends the run";
    Fresh quiet::fresh_wants_ones, "fresh":
        "a fresh receiver wants 41 ones";
    WellFormed quiet::forty_two_wanted_accepted, "clock ones_wanted" "fresh":
        "42 ones wanted are well formed";
    WellFormed quiet::ones_wanted_beside_bits, "clock ones_wanted" "fresh":
        "ones wanted beside held bits are well formed";
    Clock quiet::forty_one_wanted_refused, "clock ones_wanted" "lists quiet":
        "a state that wants 41 ones is refused by 2";
    Receive quiet::frame_taken_in_the_run, "receive":
        "a receiver that wants ones takes a whole frame as if it waited";
    RunBlock quiet::block_begins_the_run_again, "blocks quiet" "blocks cuts":
        "a block begins the run again: 41 ones are wanted";
    RunBlock quiet::block_ends_the_run, "blocks quiet" "blocks cuts":
        "a block ends the run: the receiver waits";
    RunBlock quiet::block_hunts_at_once, "blocks quiet":
        "within a block the receiver waits at once after a bad stop bit";
    ReportInput quiet::no_ones_after_7, "reports quiet" "examples":
        "no ones are sent after a line with verdict 7";
    ReportInput quiet::ones_before_the_next_line, "reports quiet":
        "the ones are sent before the next line, and none after the last";
    ReportEnd quiet::no_ones_after_the_last_line, "reports quiet" "reports ends":
        "no ones are sent after a last line without line feed";
    ReportInput quiet::ones_count_no_bunches, "reports quiet" "examples":
        "the bunch counter does not count the ones after a line with verdict 7";
    ReportInput quiet::ones_after_8, "reports quiet" "examples":
        "ones are sent after a line with verdict 8 too";
    ReportInput quiet::ones_after_11, "reports quiet":
        "ones are sent after a line with verdict 11 too";
    ReportInput quiet::ones_after_every_line_in_a_run, "reports quiet" "reports held_bits":
        "ones are sent after each line that leaves the receiver wanting ones";

    // No delay byte without a setting: Q-4 of document 02.
    Clock no_setting::no_setting_stores, "clock no_setting" "lists keeps_settings":
        "a byte of no setting is stored, with verdict 10";
    Clock no_setting::delay_byte_239_not_stored, "clock no_setting":
        "fine delay byte 239 gets verdict 10";
    Clock no_setting::delay_byte_240_stored, "clock no_setting" "lists keeps_settings":
        "fine delay byte 240 is stored";
    Clock no_setting::received_data_decide, "clock no_setting" "lists receives_frames":
        "verdict 10 goes by the data before their correction";
    Clock no_setting::no_setting_before_outside, "clock no_setting":
        "verdict 10 is tested before 4";
    Clock no_setting::no_setting_before_address, "clock no_setting":
        "verdict 10 is tested before 5";
    Clock no_setting::no_setting_in_register_2, "clock no_setting":
        "sub-address 2 has verdict 10 too";
    Clock no_setting::no_setting_not_counted, "clock no_setting" "lists receives_frames":
        "a corrected frame with verdict 10 does not raise the single error counter";
    Clock no_setting::no_setting_without_word, "clock no_setting":
        "the word is 0 with verdict 10";
    Clock no_setting::no_setting_is_a_double_error, "clock no_setting":
        "verdict 10 raises the double error counter";
    Clock no_setting::no_setting_leaves_status, "clock no_setting" "lists receives_frames":
        "verdict 10 does not set status bit 5";
    Clock no_setting::quiet_after_10, "clock no_setting":
        "verdict 10 makes the receiver want ones too";
    WellFormed no_setting::fine_delay_240_well_formed, "clock every_fine_delay" "fresh":
        "byte 240 in register 1 is well formed";
    Read no_setting::any_fine_delay_read, "clock every_fine_delay" "registers ill_formed":
        "a read does not refuse a state whose fine delays have no setting";
    Write no_setting::any_fine_delay_written, "registers no_setting" "registers table"
        "lists keeps_settings":
        "registers 0 and 1 store any byte: refusal 17 is forgotten";
    Write no_setting::refused_fine_delay_stored, "registers no_setting" "registers table"
        "lists keeps_settings":
        "a write that is refused by 17 stores its byte";
    Write no_setting::coarse_delay_refused, "registers no_setting" "registers table":
        "a write of 240 and more to register 2 is refused by 17";
    Write no_setting::fine_delay_before_state, "registers no_setting" "clock every_fine_delay":
        "refusal 17 comes before 2";
    Receive no_setting::received_delay_stored, "receive":
        "a whole frame with a byte of no setting stores it, with verdict 2";
    RunBlock no_setting::block_on_any_fine_delay, "blocks no_setting" "blocks refusals":
        "a block does not refuse a receiver whose fine delays have no setting";
    RunBlock no_setting::verdict_10_recorded_as_2, "blocks no_setting":
        "the code of a record has verdict 2 instead of 10";
    ReportInput no_setting::verdict_10_without_word, "reports no_setting":
        "a line with verdict 10 is printed with - instead of its word";
    ReportInput no_setting::verdict_10_printed_as_a, "reports no_setting":
        "verdict 10 is printed as a hexadecimal digit";
    ReportInput no_setting::longest_line_of_37_bytes, "reports no_setting" "reports rooms":
        "37 bytes are taken as room for any line";

    // Say what was wrong and which bit: Q-8 of document 02.
    Told places::odd_for_two_flips, "frames" "clock places" "lists receives_frames":
        "two flips get verdict 11";
    Told places::even_for_every_storm, "frames" "clock places" "lists storms" "three_flips"
        "examples":
        "every frame that cannot be corrected gets verdict 8";
    Told places::check_bits_alone_decide, "frames" "clock places" "lists storms" "three_flips":
        "verdict 8 or 11 goes by the received check bits alone";
    Clock places::odd_syndrome_in_decoders_only, "clock places" "lists storms":
        "the decoders give verdict 11, but the clock gives 8";
    Decoders places::odd_syndrome_in_clocks_only, "frames" "three_flips" "examples":
        "the clock gives verdict 11, but the decoders give 8";
    Clock places::odd_syndrome_not_counted, "clock places" "lists storms":
        "verdict 11 does not raise the double error counter";
    Clock places::odd_syndrome_is_a_single_error, "clock places" "lists storms":
        "verdict 11 raises the single error counter instead of the double one";
    Clock places::odd_syndromes_wrap, "clock places" "lists storms":
        "verdict 11 takes the double error counter from 255 to 0";
    Clock places::odd_syndrome_clears_status, "clock places" "lists storms":
        "verdict 11 clears status bit 5";
    Clock places::odd_syndrome_leaves_status, "clock places" "lists storms":
        "verdict 11 does not set status bit 5";
    Clock places::quiet_after_11, "clock places" "lists storms":
        "verdict 11 makes the receiver want ones too";
    Clock places::word_with_11, "clock places" "lists storms":
        "the word as received is shown with verdict 11";
    Told places::places_from_0, "frames" "clock places" "lists receives_frames" "examples":
        "places count from 0";
    Told places::places_from_the_start_bit, "frames" "clock places" "lists receives_frames":
        "places count from the start bit";
    Told places::check_bits_first, "frames" "clock places" "lists receives_frames":
        "the check bits have the first places";
    Told places::least_significant_first, "frames" "clock places" "lists receives_frames":
        "places count from the bit before the stop bit";
    Told places::least_significant_first_in_each, "frames" "clock places" "lists receives_frames":
        "places of word and of check bits count from the least significant";
    Told places::no_place_for_check_bits, "frames" "clock places" "lists receives_frames":
        "a wrong check bit has place 0";
    Told places::long_places_as_short, "frames" "clock places" "lists receives_frames":
        "places of a long frame count as in a short one";
    Told places::flag_without_place, "frames" "clock places" "lists receives_frames":
        "the place is always 0";
    Told places::place_with_9, "clock places" "lists storms":
        "verdict 9 after a correction has a place";
    Clock places::reset_clears_the_place, "clock places" "lists receives_frames":
        "a corrected RESET has place 0";
    Clock places::no_place_for_other_addresses, "clock places" "lists receives_frames":
        "a corrected frame for another address has place 0";
    Clock places::no_place_without_a_setting, "clock places" "lists receives_frames":
        "a corrected frame with verdict 10 has place 0";
    Clock places::place_of_the_frame_before, "clock places" "lists receives_frames":
        "a frame that is not corrected has the place of the last one that was";
    Clock places::place_stays, "clock places" "lists receives_frames":
        "the place is shown until the next frame finishes";
    Clock places::place_of_a_refused_clock, "clock every_combination":
        "a refused clock shows a place";
    Receive places::received_without_place, "receive":
        "a whole frame has place 0";
    Receive places::whole_storm_is_even, "receive":
        "a whole frame that cannot be corrected always gets verdict 8";
    RunBlock places::place_in_the_code, "blocks places" "blocks cuts":
        "the code of a record has the place of the flipped bit";
    RunBlock places::place_of_the_bit_recorded, "blocks places" "blocks cuts":
        "the place of a record is that of the flipped bit";
    RunBlock places::verdict_11_recorded_as_8, "blocks places" "blocks cuts":
        "the code of a record has verdict 8 instead of 11";
    ReportInput places::place_printed_for_0, "reports places" "reports quiet" "reports held_bits":
        "a place is printed for verdict 0";
    ReportInput places::place_printed_for_8, "reports places" "examples":
        "a place is printed for verdict 8";
    ReportInput places::place_printed_for_11, "reports places":
        "a place is printed for verdict 11";
    ReportInput places::no_place_printed_for_5, "reports places" "examples":
        "no place is printed for verdict 5";
    ReportInput places::no_place_printed_for_9, "reports places":
        "no place is printed for verdict 9";
    ReportInput places::no_place_printed_for_10, "reports places" "reports no_setting":
        "no place is printed for verdict 10";
    ReportInput places::no_place_printed_if_clean, "reports places" "examples":
        "a place of 0 is not printed";
    ReportInput places::place_printed_before_the_word, "reports places" "examples":
        "the place is printed before the word";
    ReportInput places::place_printed_in_hexadecimal, "reports places" "reports no_setting":
        "the place is printed in hexadecimal";
    ReportInput places::word_printed_for_11, "reports places":
        "the word is printed for verdict 11 instead of -";
    ReportEnd places::last_line_without_place, "reports places" "reports ends":
        "a last line without line feed is printed without its place";

    // The encoder's own columns: Q-11 of document 02.
    Lent columns::single_ones_accepted, "columns check" "columns refusals":
        "a column with one one is accepted";
    Lent columns::even_counts_accepted, "columns check" "columns refusals":
        "a column with two, four or six ones is accepted";
    Lent columns::zero_accepted, "columns check":
        "a column of 0 is accepted";
    Lent columns::wide_short_columns_accepted, "columns check" "columns refusals":
        "a short column of 32 to 127 is accepted";
    Lent columns::wide_long_columns_accepted, "columns check" "columns refusals":
        "a long column of 128 and more is accepted";
    Lent columns::equal_columns_accepted, "columns check" "columns refusals":
        "equal columns of a group are accepted";
    Lent columns::neighbours_compared_only, "columns check":
        "a column is compared with the one before it alone";
    Lent columns::five_ones_refused, "columns check" "columns clocks" "blocks columns":
        "a column with five ones is refused";
    Lent columns::groups_compared, "columns check" "columns own":
        "a long column that is equal to a short one is refused";
    Lent columns::earlier_of_two_told, "columns check" "columns refusals" "blocks columns":
        "of two equal columns the earlier is told";
    Lent columns::last_bad_column_told, "columns check":
        "of several bad columns the last is told";
    Lent columns::column_before_length, "columns check" "columns refusals" "blocks columns":
        "refusal 28 comes before 27";
    Lent columns::more_than_40_accepted, "columns check" "columns refusals":
        "of more than 40 columns the first 40 are taken";
    Lent columns::length_in_one_byte, "columns check" "columns refusals":
        "the number of columns is taken modulo 256";
    Lent columns::own_columns_for_long_frames, "columns frames" "columns clocks" "lists with_columns"
        "blocks columns":
        "long frames have the own columns, whatever is lent";
    Lent columns::own_columns_for_short_frames, "columns frames" "columns clocks"
        "lists with_columns" "blocks columns":
        "short frames have the own columns, whatever is lent";
    Lent columns::columns_from_the_highest_bit, "columns frames" "columns clocks" "columns own"
        "lists with_columns":
        "the first column of a group is that of its highest bit";
    Index columns::index_within_the_group, "columns check" "columns refusals" "blocks columns":
        "the index counts from the first column of the group";
    Index columns::indices_from_1, "columns check" "columns refusals" "blocks columns":
        "the index counts from 1";
    Index columns::index_beside_refusal_2, "columns refusals" "blocks columns":
        "the index of a bad column is told beside refusal 2";
    Index columns::index_40_with_27, "columns check" "columns refusals" "blocks columns":
        "the index is 40 with refusal 27";
    ClockWithColumns lending::length_before_state, "columns refusals":
        "refusal 27 comes before 2 in a clock";
    ReceiveWithColumns lending::column_before_state, "columns refusals":
        "refusal 28 comes before 2 in a whole frame";
    ClockWithColumns lending::bit_before_column, "columns refusals" "columns runs":
        "refusal 1 comes before 28";
    ClockWithColumns lending::bit_before_length, "columns refusals" "columns runs":
        "refusal 1 comes before 27";
    ReceiveWithColumns lending::kind_before_column, "columns refusals":
        "refusal 12 of a kind comes before 28";
    DecodeLongWithColumns lending::frame_before_column, "columns refusals":
        "refusal 12 of a number comes before 27 and 28";
    EncodeLongWithColumns lending::field_before_column, "columns refusals":
        "refusal 13 comes before 27 and 28";
    EncodeShortWithColumns lending::long_columns_not_checked, "columns refusals":
        "the encoder of short frames does not check the long columns";
    DecodeLongWithColumns lending::short_columns_not_checked, "columns refusals":
        "the decoder of long frames does not check the short columns";
    ClockWithColumns lending::columns_checked_with_a_frame_only, "columns refusals" "columns runs":
        "a clock checks its columns only if a frame finishes on it";
    ClockWithColumns lending::refused_columns_count_a_clock, "columns refusals" "columns runs":
        "a clock that is refused by 27 or 28 changes the bunch counter";
    ClockWithColumns lending::outputs_of_a_refused_clock, "columns refusals" "columns runs":
        "a clock that is refused by 28 shows its trigger";
    ClockWithColumns lending::first_clock_decides, "columns changes" "columns runs":
        "the columns of a frame's first clock decide";
    Keeping lending::lent_columns_stay, "columns changes":
        "a clock without columns uses those that were lent last";
    RunBlockWithColumns lending::own_columns_in_blocks, "blocks columns":
        "blocks have the own columns, whatever is lent";
    RunBlockWithColumns lending::block_length_before_columns, "blocks columns":
        "refusal 15 comes before 27 and 28";
    RunBlockWithColumns lending::empty_block_takes_any_columns, "blocks columns":
        "an empty block does not check its columns";
    RunBlockWithColumns lending::refused_columns_clear_the_buffer, "blocks columns":
        "a block that is refused by 28 clears the buffer";
    RunBlockWithColumns lending::refused_columns_run_the_block, "blocks columns":
        "the clocks of a block that is refused by 28 are done";

    // Registers.
    Read registers::register_before_state, "registers":
        "refusal 5 comes before 2 in a read";
    Read registers::bunch_high_byte_is_the_low_one, "registers":
        "register 25 shows the low byte of the bunch counter";
    Write registers::write_9_clears_high_byte, "registers":
        "a write to register 9 clears the high byte alone";
    Write registers::register_19_read_only, "registers":
        "a write to register 19 is refused by 6";
    Write registers::config_3_takes_any_byte, "registers":
        "register 21 stores any byte: refusal 7 is forgotten";
    Write registers::refused_write_stores, "registers":
        "a write that is refused by 7 stores a byte";
    Write registers::event_write_ends_sequence, "registers":
        "a write to the event counter ends a running sequence";

    // Stored lines.
    ReadLine lines::character_before_length, "lines":
        "refusal 11 comes before 10";
    ReadLine lines::frame_before_character, "lines":
        "refusal 12 comes before 11 where the first digit is wrong";
    WriteShort lines::room_before_frame, "lines":
        "refusal 14 comes before 12";
    WriteShort lines::zero_after_line, "lines":
        "a byte after the line is written";
    WriteLong lines::refused_line_writes_a_byte, "lines":
        "a line refused by 14 writes a byte";
    WriteLong lines::zero_after_buffer, "lines":
        "a byte after the lent buffer is written, where the line fills it";
    WriteLong lines::small_digits_written, "lines":
        "the digits A to F are written small";

    // Whole frames.
    Receive clock::kind_ignored, "receive":
        "the kind is taken from the number, whatever was given";
    Receive clock::kind_2_is_long, "receive":
        "kind 2 is taken as long";
    ReceiveShort clock::frame_before_state, "receive":
        "refusal 12 comes before 2";
    ReceiveLong clock::held_bits_dropped, "receive":
        "the bits that the receiver holds are dropped";

    // Blocks.
    RunBlock blocks::room_before_block_length, "blocks":
        "refusal 16 comes before 15";
    RunBlock blocks::clocks_before_a_bad_byte, "blocks":
        "the clocks before a byte over 3 are done";
    RunBlock blocks::empty_block_wants_room, "blocks":
        "an empty block is refused by 16 if the buffer is empty";
    RunBlock blocks::channels_swapped, "blocks":
        "bit 0 is channel B, bit 1 the trigger";
    RunBlock blocks::bunch_after_the_clock, "blocks":
        "a record has the bunch counter after its clock";
    RunBlock blocks::missed_not_in_code, "blocks":
        "the code of a missed trigger is without 64";
    RunBlock blocks::places_from_1, "blocks":
        "places count from 1";
    RunBlock blocks::no_record_for_5, "blocks":
        "verdict 5 has no record";
    FilledLength blocks::filled_length_wraps, "blocks":
        "five times the number of records wraps";

    // Reports.
    ReportStart reports::report_of_i2c_id_0, "reports":
        "a report starts with I2C ID 0";
    ReportInput reports::carriage_return_ends_a_line, "reports":
        "a carriage return ends a line";
    ReportInput reports::empty_line_not_counted, "reports":
        "an empty line is skipped";
    ReportInput reports::no_room_wanted, "reports":
        "room_wanted is 0 where input is left";
    ReportInput reports::room_always_wanted, "reports":
        "room_wanted is 38 although all was used";
    ReportInput reports::line_numbers_from_0, "reports":
        "line numbers count from 0";
    ReportInput reports::receiver_of_id_5_only, "reports":
        "lines go to ID 5, whatever the ID of the receiver";
    ReportEnd reports::last_line_forgotten, "reports":
        "a last line without line feed is not reported";
    ReportEnd reports::end_wants_a_line, "reports":
        "room_wanted of the end is 38";
}
