//! Zipf-like traces: a few files are asked for often, most of them seldom; in one of them files are cut anew.

use crate::model::limits::{MOST_CAPACITY, MOST_CATALOGUE};
use crate::model::tally::Settings;
use crate::model::trace::write_number;
use crate::random::Random;

const LEAST_SIZE: f64 = 1_000.0;
const MOST_SIZE: f64 = 1_000_000.0;

/// How many files a store keeps at once, where the traces are timed.
pub const PLACES: [u64; 3] = [64, 512, 4_096];

/// A trace that is timed in one call is made whole in memory first, so there is a most to it.
pub const MOST_AT_ONCE: u64 = 10_000_000;

/// What one sort of trace is made by.
#[derive(Clone, Copy)]
pub struct Sort {
    pub name: &'static str,
    skew: f64,
    /// Bytes of capacity for each place, if the bytes are to bind before the places.
    bytes_a_place: Option<u64>,
    /// One request in so many finds its file cut anew.
    recuts: Option<u64>,
}

pub const HIT_HEAVY: Sort = Sort {
    name: "hit-heavy",
    skew: 1.4,
    bytes_a_place: None,
    recuts: None,
};

pub const MISS_HEAVY: Sort = Sort {
    name: "miss-heavy",
    skew: 0.6,
    bytes_a_place: Some(40_000),
    recuts: None,
};

const RECUT: Sort = Sort {
    name: "recut",
    recuts: Some(20),
    ..HIT_HEAVY
};

impl Sort {
    pub fn settings(&self, policy: u64, places: u64) -> Settings {
        let bytes = self.bytes_a_place.map(|bytes| places * bytes);
        Settings {
            unit: 7,
            policy,
            capacity: bytes.unwrap_or(MOST_CAPACITY),
            places,
            catalogue: MOST_CATALOGUE,
        }
    }

    pub fn asking(&self) -> Asking {
        let mut random = Random::new(self.skew.to_bits());
        Asking {
            files: files(&mut random),
            random,
            heights: heights(self.skew),
            recuts: self.recuts,
        }
    }
}

/// The requests of a trace, one after the other without an end.
pub struct Asking {
    random: Random,
    files: Vec<[u64; 3]>,
    heights: Vec<f64>,
    recuts: Option<u64>,
}

impl Asking {
    /// Puts so many further requests in place of what the part held.
    pub fn fill(&mut self, part: &mut Vec<u8>, requests: u64) {
        part.clear();
        for _ in 0..requests {
            for number in self.request() {
                write_number(number, part);
            }
        }
    }

    fn request(&mut self) -> [u64; 3] {
        let height = self.random.fraction() * self.heights[self.heights.len() - 1];
        let rank = self.heights.partition_point(|&below| below <= height);
        let recuts = self.recuts;
        if recuts.is_some_and(|chances| self.random.one_in(chances)) {
            self.files[rank][1] = size(&mut self.random);
        }
        self.files[rank]
    }
}

/// A trace that is timed in one call.
pub struct Workload {
    pub name: &'static str,
    pub requests: u64,
    pub part: Vec<u8>,
    sort: Sort,
}

impl Workload {
    pub fn settings(&self, policy: u64, places: u64) -> Settings {
        self.sort.settings(policy, places)
    }
}

pub fn all(requests: u64) -> [Workload; 3] {
    [HIT_HEAVY, MISS_HEAVY, RECUT].map(|sort| {
        let mut part = Vec::new();
        sort.asking().fill(&mut part, requests);
        Workload {
            name: sort.name,
            requests,
            part,
            sort,
        }
    })
}

fn size(random: &mut Random) -> u64 {
    (LEAST_SIZE * (MOST_SIZE / LEAST_SIZE).powf(random.fraction())) as u64
}

/// File number, size and cost by rank of popularity, the numbers in any order.
fn files(random: &mut Random) -> Vec<[u64; 3]> {
    let mut numbers: Vec<u64> = (0..MOST_CATALOGUE).collect();
    for last in (1..numbers.len()).rev() {
        numbers.swap(last, random.index(last + 1));
    }
    numbers
        .into_iter()
        .map(|number| [number, size(random), random.below(2_000)])
        .collect()
}

/// The sums of 1 / rank^skew up to each rank.
fn heights(skew: f64) -> Vec<f64> {
    let mut sum = 0.0;
    (1..=MOST_CATALOGUE)
        .map(|rank| {
            sum += (rank as f64).powf(-skew);
            sum
        })
        .collect()
}
