//! Whole runs in parts, with calls between that are to be refused, the same through both archives.

use bench::damage::damage;
use bench::lent::Lent;
use bench::make::{self, Asking};
use bench::model::limits::{MOST_CAPACITY, MOST_CATALOGUE, MOST_PLACES, MOST_UNIT};
use bench::model::tally::{Settings, TALLY_WORDS};
use bench::model::trace::Request;
use bench::random::Random;

use crate::both;
use crate::reached::Reached;

/// Compares so many runs, and tells the first difference or what they did not reach.
pub fn compare_all(runs: u64, seed: u64, policies: &[u64]) -> Result<(), String> {
    println!("seed {seed}, policies {policies:?}; the archive before gives what is due");
    let mut reached = Reached::none(both::has_shorter_tally(), policies);
    if reached.shorter_tally {
        println!("it has a shorter tally: its limits are left out, and the last word is 0 from the start");
    }
    for run in 0..runs {
        let mut random = Random::of_case(seed, 0, run);
        compare(&mut random, policies, &mut reached).map_err(|difference| {
            let call = reached.calls_of_run;
            format!("DIFFERENCE at seed {seed}, run {run}, call {call}: {difference}")
        })?;
    }
    reached.print();
    let missed = reached.missed();
    if missed.is_empty() {
        Ok(())
    } else {
        Err(missed.join("\n"))
    }
}

fn compare(random: &mut Random, policies: &[u64], reached: &mut Reached) -> Result<(), String> {
    let settings = settings(random, policies);
    let mut lent = make::old_lent(random, &settings);
    if reached.shorter_tally {
        lent.tally[TALLY_WORDS - 1] = 0;
    }
    both::fresh(&settings, &mut lent, reached)?;
    let mut asking = Asking::afresh(&settings);
    let choice = random.pick(&[any_file as Choice, low_file]);
    let parts = random.between(1, 6);
    let most = random.between(1, 8 * settings.places + 60) * 2 / parts;
    for _ in 0..parts {
        if random.one_in(4) {
            compare_spoiled(random, lent.clone(), reached)?;
        }
        // A request alone in its call shows by the queue whether a hit moves.
        let count = if random.one_in(3) {
            1
        } else {
            random.below(most + 1)
        };
        let requests: Vec<Request> = (0..count)
            .map(|_| request(random, &mut asking, choice))
            .collect();
        let part = make::part_of(&requests);
        let mut events = make::events_for(random, &lent, requests.len());
        both::carry_on(settings.unit, &mut lent, &part, &mut events, reached)?;
    }
    reached.end_of_run(&lent.read_tally());
    Ok(())
}

/// Small stores more often than large ones; the places limit some, the bytes others, and some keep every file there is.
fn settings(random: &mut Random, policies: &[u64]) -> Settings {
    let most = MOST_PLACES >> random.below(13);
    let any = random.between(1, most);
    let places = random.pick(&[any, most]);
    let few = random.between(1, 2 * places);
    let many = (8 * places).min(MOST_CATALOGUE);
    let (tight, loose) = (random.between(1, 60 * places), 1_000_000 * places);
    let capacities = [
        tight,
        loose,
        100_000,
        40_000_000,
        MOST_CAPACITY,
        MOST_CAPACITY,
    ];
    Settings {
        unit: random.below(MOST_UNIT + 1),
        policy: random.pick(policies),
        capacity: random.pick(&capacities),
        places,
        catalogue: random.pick(&[few, many, many, MOST_CATALOGUE]),
    }
}

/// A way to choose a file of a catalogue.
type Choice = fn(&mut Random, u64) -> u64;

fn any_file(random: &mut Random, catalogue: u64) -> u64 {
    random.below(catalogue)
}

/// File n about as often as one in n + 1.
fn low_file(random: &mut Random, catalogue: u64) -> u64 {
    (catalogue as f64).powf(random.fraction()) as u64 - 1
}

/// A request by one of these, or for a file that was asked for before.
fn request(random: &mut Random, asking: &mut Asking, choice: Choice) -> Request {
    if random.one_in(3) {
        return asking.request(random);
    }
    let file = choice(random, asking.catalogue());
    asking.request_for(random, file)
}

/// A further part, or another fresh start, with one thing amiss; the tables are a copy, so that the run goes on.
fn compare_spoiled(
    random: &mut Random,
    mut lent: Lent,
    reached: &mut Reached,
) -> Result<(), String> {
    let settings = lent.settings();
    let mut unit = settings.unit;
    let left = random.below(6);
    let requests = make::further(random, &lent, 12);
    let mut part = make::part_of(&requests);
    let mut room = 2 * requests.len() + lent.read_tally().files_kept as usize;
    match random.below(8) {
        0 => unit = MOST_UNIT + 1,
        1 => unit ^= 1,
        2 => shorten(random, &mut lent, reached),
        3 | 4 => damage(random, &mut part),
        5 if reached.shorter_tally => {}
        5 => make::near_the_limit(random, &mut lent, left),
        6 => room = room.saturating_sub(1),
        _ => lent.tables.queue[0] = random.below(settings.places) as u16,
    }
    if random.one_in(4) {
        return both::fresh(&Settings { unit, ..settings }, &mut lent, reached);
    }
    let mut events = make::exact_list(random, room, |word| word as u32);
    both::carry_on(unit, &mut lent, &part, &mut events, reached)
}

/// One list too short for both archives, if it is too short for one.
fn shorten(random: &mut Random, lent: &mut Lent, reached: &Reached) {
    let settings = lent.settings();
    make::shorten(random, lent, &settings);
    if reached.shorter_tally && lent.tally.len() == TALLY_WORDS - 1 {
        lent.tally.pop();
    }
}
