//! The settings and the tally of a run, and their words in the boundary's order.

use super::lifts::{whole, word_of};
use super::limits::{MOST_CAPACITY, MOST_CATALOGUE, MOST_PLACES, MOST_POLICY, MOST_UNIT};

/// Least and most of each setting, in the order of a trace file.
pub const SETTING_RANGES: [(u64, u64); 5] = [
    (0, MOST_UNIT),
    (1, MOST_POLICY),
    (1, MOST_CAPACITY),
    (1, MOST_PLACES),
    (1, MOST_CATALOGUE),
];

pub const TALLY_WORDS: usize = 19;

#[derive(Clone, Copy, Debug, PartialEq, Eq)]
pub struct Settings {
    pub unit: u64,
    pub policy: u64,
    pub capacity: u64,
    pub places: u64,
    pub catalogue: u64,
}

impl Settings {
    pub fn from_words(words: [u64; 5]) -> Self {
        let [unit, policy, capacity, places, catalogue] = words;
        Settings {
            unit,
            policy,
            capacity,
            places,
            catalogue,
        }
    }

    pub fn words(&self) -> [u64; 5] {
        [
            self.unit,
            self.policy,
            self.capacity,
            self.places,
            self.catalogue,
        ]
    }

    pub fn in_range(&self) -> bool {
        (0..5).all(|field| setting_in_range(field, self.words()[field]))
    }
}

pub fn setting_in_range(field: usize, word: u64) -> bool {
    let (least, most) = SETTING_RANGES[field];
    (least..=most).contains(&word)
}

pub fn catalogue_in_range(catalogue: u64) -> bool {
    setting_in_range(4, catalogue)
}

#[derive(Clone, Copy, Debug, PartialEq, Eq)]
pub struct Tally {
    pub settings: Settings,
    /// L and all that was taken from it: a lift leaves this as it was.
    pub whole_inflation: u128,
    pub bytes_kept: u64,
    pub files_kept: u64,
    pub requests: u64,
    pub hits: u64,
    pub admitted: u64,
    pub passed: u64,
    pub evicted: u64,
    pub bytes_asked: u64,
    pub hit_bytes: u64,
    pub cost_asked: u64,
    pub hit_cost: u64,
    pub dropped: u64,
    pub lifts: u64,
}

impl Tally {
    pub fn fresh(settings: Settings) -> Self {
        let mut words = [0; TALLY_WORDS];
        words[..5].copy_from_slice(&settings.words());
        Tally::from_words(words)
    }

    /// The tally that a lent slice begins with, if the slice is long enough.
    pub fn read(lent: &[u64]) -> Option<Self> {
        lent.first_chunk().copied().map(Tally::from_words)
    }

    pub fn from_words(words: [u64; TALLY_WORDS]) -> Self {
        Tally {
            settings: Settings::from_words([words[0], words[1], words[2], words[3], words[4]]),
            whole_inflation: whole(words[18], words[5]),
            bytes_kept: words[6],
            files_kept: words[7],
            requests: words[8],
            hits: words[9],
            admitted: words[10],
            passed: words[11],
            evicted: words[12],
            bytes_asked: words[13],
            hit_bytes: words[14],
            cost_asked: words[15],
            hit_cost: words[16],
            dropped: words[17],
            lifts: words[18],
        }
    }

    /// L as the tally has it.
    pub fn inflation(&self) -> u64 {
        word_of(self.lifts, self.whole_inflation)
    }

    pub fn words(&self) -> [u64; TALLY_WORDS] {
        let [unit, policy, capacity, places, catalogue] = self.settings.words();
        [
            unit,
            policy,
            capacity,
            places,
            catalogue,
            self.inflation(),
            self.bytes_kept,
            self.files_kept,
            self.requests,
            self.hits,
            self.admitted,
            self.passed,
            self.evicted,
            self.bytes_asked,
            self.hit_bytes,
            self.cost_asked,
            self.hit_cost,
            self.dropped,
            self.lifts,
        ]
    }
}
