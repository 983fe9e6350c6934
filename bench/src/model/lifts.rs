//! Lifts: a run goes on in whole numbers, and the tables hold them less so many lifts.

use super::limits::LIFT;

fn amount_of(lifts: u64) -> u128 {
    u128::from(lifts) * u128::from(LIFT)
}

/// The whole number that a word stands for after so many lifts; exact for any two words.
pub fn whole(lifts: u64, word: u64) -> u128 {
    amount_of(lifts) + u128::from(word)
}

/// The word that stands for a whole number after so many lifts.
pub fn word_of(lifts: u64, whole: u128) -> u64 {
    let word = whole.checked_sub(amount_of(lifts)).map(u64::try_from);
    word.and_then(Result::ok)
        .expect("so many lifts leave a word")
}

/// The lifts that a request is served with: one more where L has reached the amount before it, and never two.
pub fn lifts_for_a_request(lifts: u64, whole_inflation: u128) -> u64 {
    lifts + u64::from(word_of(lifts, whole_inflation) >= LIFT)
}
