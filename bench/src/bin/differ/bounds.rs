//! Ticket 5's bounds on tables: just below, at and past each of them, all else sound.
//! Whether the tables are sound is told here a second time, apart from the model.

use bench::model::lifts::{whole, word_of};
use bench::model::limits::{
    INFLATION_BOUND, LIFT, MOST_COST, MOST_FREQUENCY, MOST_REQUESTS, MOST_WORTH,
};
use bench::model::run::Kept;
use bench::model::tally::{Settings, Tally};
use bench::random::Random;

use crate::agree::{self, Lent};
use crate::craft::{
    edge, frequencies, most_inflation, placed, products, set_stamps_and_keys,
    settings_and_large_records, settings_and_records, some_lifts, tally,
};
use crate::runs::carried;
use crate::{make, Verdict};

/// Tables at a bound, and whether they are on its sound side.
struct AtBound {
    lent: Lent,
    is_sound: bool,
}

/// Where the tally has its lifts.
pub const LIFTS_WORD: usize = 18;

/// From this many requests on, their bound on inflation and products is past 64 bits.
const PAST_64_BITS: u64 = 16_777_473;

/// Fewer lifts than these leave room in the longest run for any files that are made here.
const MANY_LIFTS: u64 = 4_000;

const BOUNDS: [fn(&mut Random) -> AtBound; 9] = [
    requests,
    inflation,
    frequency,
    stamp,
    met,
    passed_in_inflation,
    passed_in_requests,
    passed_in_worth,
    other_lifts,
];

/// Judges tables at each of the bounds, then carries on where they are sound: an empty part, and others.
pub fn each(random: &mut Random) -> Verdict {
    let mut answers = Vec::new();
    for at_bound in BOUNDS {
        let AtBound { mut lent, is_sound } = at_bound(random);
        for most in [0, 1, 12] {
            let requests = make::further(random, &lent, most);
            let given = carried(random, &mut lent, &requests)?;
            agree::same("not 7", &(given.number != 7), &is_sound)?;
            answers.push(given);
        }
    }
    Ok(answers)
}

/// Settings of one of these policies and files, at least one.
pub fn files_of(random: &mut Random, policies: &[u64]) -> (Settings, Vec<Kept>) {
    loop {
        let (settings, records) = settings_and_records(random);
        if policies.contains(&settings.policy) && !records.is_empty() {
            return (settings, records);
        }
    }
}

/// Tables of these files after so many requests, with so many lifts and this L: sound where these agree.
pub fn with_inflation(
    random: &mut Random,
    (settings, mut records): (Settings, Vec<Kept>),
    requests: u64,
    (lifts, inflation): (u64, u64),
) -> Lent {
    let tally = Tally {
        lifts,
        whole_inflation: whole(lifts, inflation),
        ..tally(random, settings, &records, requests)
    };
    set_stamps_and_keys(random, &tally, &mut records);
    placed(random, &tally, &records)
}

/// Requests that leave room for these files and this inflation, as few as will do, as many as a run may have, or any.
pub fn requests_for(random: &mut Random, records: &[Kept], whole_inflation: u128) -> u64 {
    let needed = (whole_inflation + products(records)).div_ceil(MOST_WORTH.into());
    let least = frequencies(records).max(needed as u64);
    edge(random, least, MOST_REQUESTS)
}

/// Any files, or one time in four the largest that there are.
fn some_files(random: &mut Random) -> (Settings, Vec<Kept>) {
    if random.one_in(4) {
        settings_and_large_records(random)
    } else {
        settings_and_records(random)
    }
}

fn requests(random: &mut Random) -> AtBound {
    let files = some_files(random);
    let most = MOST_REQUESTS;
    let requests = random.pick(&[most - 1, most, most, most + 1, most + 2, 1 << 33]);
    let lifts = random.below(MANY_LIFTS);
    let lent = with_inflation(random, files, requests, (lifts, LIFT - 1));
    AtBound {
        lent,
        is_sound: requests <= MOST_REQUESTS,
    }
}

fn inflation(random: &mut Random) -> AtBound {
    let files = some_files(random);
    let few = random.below(100);
    let bound = INFLATION_BOUND;
    let words = [LIFT - 1, LIFT, LIFT + few, bound - 1, bound, bound + few];
    let inflation = random.pick(&words);
    let any = random.below(MANY_LIFTS);
    let lifts = random.pick(&[0, 1, any]);
    let requests = requests_for(random, &files.1, whole(lifts, inflation));
    let lent = with_inflation(random, files, requests, (lifts, inflation));
    AtBound {
        lent,
        is_sound: inflation < bound,
    }
}

fn frequency(random: &mut Random) -> AtBound {
    let mut files = files_of(random, &[2]);
    let most = MOST_FREQUENCY;
    let past = random.pick(&[most + 1, most + 2, 2 * most + 1, 1 << 31]);
    let frequency = random.pick(&[most - 1, most, past]);
    let index = random.index(files.1.len());
    files.1[index].frequency = frequency;
    let inflation = random.below(LIFT);
    let requests = requests_for(random, &files.1, inflation.into());
    let lent = with_inflation(random, files, requests, (0, inflation));
    AtBound {
        lent,
        is_sound: frequency <= most,
    }
}

fn stamp(random: &mut Random) -> AtBound {
    let (settings, mut records) = files_of(random, &[1, 2]);
    let least = frequencies(&records);
    let requests = edge(random, least, MOST_REQUESTS);
    let tally = tally(random, settings, &records, requests);
    set_stamps_and_keys(random, &tally, &mut records);
    let index = random.index(records.len());
    let old = records[index].stamp;
    let past = random.pick(&[requests, requests + 1, old + (1 << 32), u64::MAX]);
    let stamp = random.pick(&[requests - 1, past]);
    let is_taken = records.iter().any(|kept| kept.stamp == stamp) && stamp != old;
    records[index].stamp = stamp;
    AtBound {
        lent: placed(random, &tally, &records),
        is_sound: stamp < requests && !is_taken,
    }
}

/// Files, requests, and as many lifts and as much L as these leave, more often than not past 64 bits together.
struct Met {
    files: (Settings, Vec<Kept>),
    requests: u64,
    lifts: u64,
    inflation: u64,
}

impl Met {
    fn any(random: &mut Random) -> Self {
        let files = some_files(random);
        let past = random.pick(&[1, PAST_64_BITS, PAST_64_BITS]);
        let least = frequencies(&files.1).max(past);
        let requests = edge(random, least, MOST_REQUESTS);
        let most = most_inflation(requests, &files.1);
        let lifts = some_lifts(random, most);
        Met {
            files,
            requests,
            lifts,
            inflation: word_of(lifts, most),
        }
    }

    fn lent(self, random: &mut Random) -> Lent {
        let inflation = (self.lifts, self.inflation);
        with_inflation(random, self.files, self.requests, inflation)
    }
}

/// The bound on whole inflation and products, met or all but met.
fn met(random: &mut Random) -> AtBound {
    let mut met = Met::any(random);
    met.inflation -= random.below(2).min(met.inflation);
    AtBound {
        lent: met.lent(random),
        is_sound: true,
    }
}

fn passed_in_inflation(random: &mut Random) -> AtBound {
    let mut met = Met::any(random);
    met.inflation += 1;
    AtBound {
        lent: met.lent(random),
        is_sound: false,
    }
}

/// One request less leaves less by the largest worth; there are no fewer than files.
fn passed_in_requests(random: &mut Random) -> AtBound {
    let mut met = Met::any(random);
    let is_sound = met.requests == met.files.1.len() as u64;
    met.requests -= u64::from(!is_sound);
    AtBound {
        lent: met.lent(random),
        is_sound,
    }
}

/// One file of more cost, where there is one that has not the most.
fn passed_in_worth(random: &mut Random) -> AtBound {
    let mut met = Met::any(random);
    let cheaper = met.files.1.iter_mut().find(|kept| kept.cost < MOST_COST);
    let is_sound = cheaper.is_none();
    if let Some(kept) = cheaper {
        kept.cost += 1;
    }
    AtBound {
        lent: met.lent(random),
        is_sound,
    }
}

/// More lifts beside the same L, so many that it is the same modulo 2 to the 64th among them; or one lift less.
fn other_lifts(random: &mut Random) -> AtBound {
    let met = Met::any(random);
    let lifts = met.lifts;
    let any = random.between(1, 1 << 59);
    let more = lifts + random.pick(&[1, 15, 16, 32, 16 * any, 1 << 60, 1 << 63]);
    let other = random.pick(&[more, more, u64::MAX, lifts.saturating_sub(1)]);
    let mut lent = met.lent(random);
    lent.tally[LIFTS_WORD] = other;
    AtBound {
        lent,
        is_sound: other <= lifts,
    }
}
