//! Compares delay_byte and delay_setting with the model.

use ttcrx_host::sys::{REFUSED_DELAY_BYTE, REFUSED_SETTING};
use ttcrx_host::testing::compare::Both;
use ttcrx_host::testing::library::Library;

#[test]
fn every_setting_and_every_byte() {
    let both = Both::of("settings and bytes");
    for number in 0..=255 {
        let refusals = [both.delay_byte(number).refusal, both.delay_setting(number).refusal];
        let expected = match number <= 239 {
            true => [0, 0],
            false => [REFUSED_SETTING, REFUSED_DELAY_BYTE],
        };
        both.same(number, refusals, expected);
    }
    both.at_least(3 * 256);
}

#[test]
fn there_and_back() {
    let both = Both::of("settings and bytes there and back");
    for number in 0..=239 {
        let byte = both.delay_byte(number).byte;
        let setting = both.delay_setting(number).setting;
        both.same(number, both.delay_setting(byte).setting, number);
        both.same(number, both.delay_byte(setting).byte, number);
    }
    both.at_least(6 * 240);
}
