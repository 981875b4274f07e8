//! Fine delay settings and their bytes: document 01, section "Registers", last paragraph; its table
//! "Numbers of refusal", 8 and 9; document 02, Q-2.
//!
//! The paper has one formula for each way. Here each answer is found by the formula of the other
//! way: it is the only number 0..239 from which that formula leads to the argument. An argument to
//! which none leads is refused. The formula of the answer's own way is a check: up to 239 it must
//! give the number found, and over 239 none may be found. All this is done once for each way.

use std::sync::LazyLock;

use super::Refusal;

/// "Fine delay settings K run 0..239". "Bytes 240..255 belong to no setting."
const LAST: u8 = 239;

/// What each of the 256 arguments is answered; none where it is refused.
type Answers = [Option<u8>; 256];

static BYTES: LazyLock<Answers> = LazyLock::new(|| answers(setting_formula, byte_formula));
static SETTINGS: LazyLock<Answers> = LazyLock::new(|| answers(byte_formula, setting_formula));

/// The byte of a setting. Refusal 8: "setting over 239".
pub fn delay_byte(setting: u8) -> Result<u8, Refusal> {
    BYTES[usize::from(setting)].ok_or(Refusal::Setting)
}

/// The setting of a byte. Refusal 9: "byte over 239".
pub fn delay_setting(byte: u8) -> Result<u8, Refusal> {
    SETTINGS[usize::from(byte)].ok_or(Refusal::DelayByte)
}

/// "With n = K mod 15 and m = (K div 15 − n + 14) mod 16, the byte is 16n + m".
/// "The difference K div 15 − n can be negative; mind it."
fn byte_formula(setting: u8) -> u8 {
    let k = i32::from(setting);
    let n = k.rem_euclid(15);
    let m = (k.div_euclid(15) - n + 14).rem_euclid(16);
    u8::try_from(16 * n + m).expect("n is under 15 and m under 16")
}

/// "back, K = (15m + 16n + 30) mod 240". As the byte is 16n + m, n is its high half and m its low.
fn setting_formula(byte: u8) -> u8 {
    let (n, m) = (i32::from(byte).div_euclid(16), i32::from(byte).rem_euclid(16));
    u8::try_from((15 * m + 16 * n + 30).rem_euclid(240)).expect("a remainder is under 240")
}

/// All answers of one way, found by the formula `back` and checked by the formula `direct`.
fn answers(back: fn(u8) -> u8, direct: fn(u8) -> u8) -> Answers {
    let mut answers = [None; 256];
    for argument in 0..=u8::MAX {
        let found = only_source(back, argument);
        let given = (argument <= LAST).then(|| direct(argument));
        assert_eq!(found, given, "the two formulas do not agree on {argument}");
        answers[usize::from(argument)] = found;
    }
    answers
}

/// The only number 0..239 from which the formula leads to the result, or none.
fn only_source(formula: fn(u8) -> u8, result: u8) -> Option<u8> {
    let mut sources = (0..=LAST).filter(|&number| formula(number) == result);
    let first = sources.next();
    assert_eq!(sources.next(), None, "two numbers lead to {result}");
    first
}
