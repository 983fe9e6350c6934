//! Runs that lift from a fresh start: one place, and files of the largest worth in turn.
//! How many lifts there are, and the inflation, are told here a second time, apart from the model.

use bench::model::lifts::whole;
use bench::model::limits::{LIFT, MOST_COST, MOST_WORTH};
use bench::model::tally::{Settings, Tally};
use bench::model::trace::write_number;
use bench::random::Random;

use crate::{agree, make, Verdict};

/// Two lifts under policy 1, where L rises with each request, and one under policy 2, where it does with every second.
const REQUESTS: u64 = 2_097_200;

pub fn both(random: &mut Random) -> Verdict {
    let mut answers = in_parts(random, 1, 2)?;
    answers.extend(in_parts(random, 2, 1)?);
    Ok(answers)
}

fn in_parts(random: &mut Random, policy: u64, lifts: u64) -> Verdict {
    let settings = Settings {
        unit: 7,
        policy,
        capacity: 1,
        places: 1,
        catalogue: 2,
    };
    let mut lent = make::fresh_lent(random, &settings)?;
    let mut answers = Vec::new();
    let mut served = 0;
    while served < REQUESTS {
        let count = random.between(100_000, 400_000).min(REQUESTS - served);
        let part = part(served, count);
        let mut events = vec![0; 2 * count as usize + 1];
        let answer = agree::carry_on(settings.unit, &mut lent, &part, &mut events)?;
        as_told(&events[..answer.value as usize], served, count)?;
        served += count;
        inflation_as_told(&lent.read_tally(), policy, served)?;
        answers.push(answer);
    }
    agree::same("lifts in all", &lent.read_tally().lifts, &lifts)?;
    Ok(answers)
}

/// Files 0 and 1 in turn, each of size 1 and the largest cost.
fn part(served: u64, count: u64) -> Vec<u8> {
    let mut part = Vec::new();
    for request in served..served + count {
        for number in [request % 2, 1, MOST_COST] {
            write_number(number, &mut part);
        }
    }
    part
}

/// Each request evicts the file before it, but for the first, and is admitted.
fn as_told(events: &[u32], served: u64, count: u64) -> Result<(), String> {
    let [evict, admit] = [5 * 32_768, 2 * 32_768];
    let mut due = Vec::new();
    for request in served..served + count {
        let file = (request % 2) as u32;
        if request > 0 {
            due.push(evict + 1 - file);
        }
        due.push(admit + file);
    }
    agree::same_list("events in turn", events, &due)
}

/// Evictions raise the whole inflation by the largest worth, under policy 2 every second one. There are as many lifts
/// as the inflation before the last request has whole amounts.
fn inflation_as_told(tally: &Tally, policy: u64, served: u64) -> Result<(), String> {
    let after = |evictions: u64| u128::from(evictions.div_ceil(policy)) * u128::from(MOST_WORTH);
    let given = whole(tally.words()[18], tally.words()[5]);
    agree::same("whole inflation", &given, &after(served - 1))?;
    let lifts = after(served - 2) / u128::from(LIFT);
    agree::same("lifts", &u128::from(tally.lifts), &lifts)
}
