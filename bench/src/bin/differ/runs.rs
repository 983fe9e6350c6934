//! Whole runs, in one call and in parts, and the room and the limit they need.

use bench::model::limits::{MOST_CAPACITY, MOST_SIZE};
use bench::model::tally::Settings;
use bench::model::trace::Request;
use bench::random::Random;

use crate::agree::{self, Agreement, Lent};
use crate::make::Asking;
use crate::{craft, make, Verdict};

/// Carries on with enough room for the events.
pub fn carried(random: &mut Random, lent: &mut Lent, requests: &[Request]) -> Agreement {
    let mut events = make::events_for(random, lent, requests.len());
    let unit = lent.settings().unit;
    agree::carry_on(unit, lent, &make::part_of(requests), &mut events)
}

pub fn in_parts(random: &mut Random) -> Verdict {
    let settings = make::settings(random);
    let requests = make::requests(random, &settings, 120);
    whole_and_in_parts(random, &settings, &requests)
}

/// One run in one call and the same run in parts cut anywhere.
pub fn whole_and_in_parts(
    random: &mut Random,
    settings: &Settings,
    requests: &[Request],
) -> Verdict {
    let lent = make::fresh_lent(random, settings)?;
    lent_whole_and_in_parts(random, lent, requests)
}

/// The same from any sound tables.
pub fn lent_whole_and_in_parts(
    random: &mut Random,
    mut lent: Lent,
    requests: &[Request],
) -> Verdict {
    let mut whole = lent.clone();
    let mut answers = vec![carried(random, &mut whole, requests)?];
    let mut rest = requests;
    while !rest.is_empty() {
        let (part, after) = rest.split_at(random.index(rest.len() + 1));
        answers.push(carried(random, &mut lent, part)?);
        rest = after;
    }
    agree::same_list("tally in parts", &lent.tally, &whole.tally)?;
    let shelves = [&lent, &whole].map(|lent| lent.tables.shelf(lent.settings().catalogue));
    agree::same_list("shelf in parts", &shelves[0], &shelves[1])?;
    Ok(answers)
}

/// An event list just long enough is taken, and one entry less is refused.
pub fn event_room(random: &mut Random) -> Verdict {
    let mut lent = make::running_lent(random)?;
    let settings = lent.settings();
    let requests = make::further(random, &lent, 10);
    let part = make::part_of(&requests);
    let needed = 2 * requests.len() + lent.read_tally().files_kept as usize;
    let mut answers = Vec::new();
    for length in [needed.saturating_sub(1), needed] {
        let mut events = make::exact_list(random, length, |word| word as u32);
        answers.push(agree::carry_on(
            settings.unit,
            &mut lent,
            &part,
            &mut events,
        )?);
    }
    Ok(answers)
}

pub fn near_the_limit(random: &mut Random) -> Verdict {
    let mut lent = make::running_lent(random)?;
    let left = random.below(6);
    make::near_the_limit(random, &mut lent, left);
    let mut answers = Vec::new();
    for _ in 0..3 {
        let requests = make::further(random, &lent, 7);
        answers.push(carried(random, &mut lent, &requests)?);
    }
    Ok(answers)
}

pub fn too_short(random: &mut Random) -> Verdict {
    let mut lent = if random.one_in(2) {
        make::running_lent(random)?
    } else {
        craft::sound_lent(random)
    };
    let settings = lent.settings();
    let requests = make::further(random, &lent, 10);
    make::shorten(random, &mut lent, &settings);
    let part = make::part_of(&requests);
    let mut events = make::exact_list(random, 100, |word| word as u32);
    let answer = agree::carry_on(settings.unit, &mut lent, &part, &mut events)?;
    Ok(vec![answer])
}

/// Large videos at low costs, worth 1 to 27, so that what rounding leaves of the frequency decides who goes.
pub fn videos(random: &mut Random) -> Verdict {
    let settings = Settings {
        capacity: random.pick(&[20_000_000, 40_000_000, 80_000_000]),
        catalogue: random.between(4, 24),
        ..make::settings(random)
    };
    let sizes: Vec<u64> = (0..settings.catalogue)
        .map(|_| random.between(3_000_000, MOST_SIZE))
        .collect();
    let requests: Vec<Request> = (0..120)
        .map(|_| {
            let file = random.below(settings.catalogue);
            let (size, cost) = (sizes[file as usize], random.between(1, 5));
            Request { file, size, cost }
        })
        .collect();
    whole_and_in_parts(random, &settings, &requests)
}

/// Thousands of places, and enough requests to fill and turn them over.
pub fn large(random: &mut Random) -> Verdict {
    let settings = Settings {
        places: random.between(500, 4_096),
        catalogue: random.between(5_000, 32_768),
        capacity: random.pick(&[400_000, MOST_CAPACITY]),
        ..make::largest(random)
    };
    let mut lent = make::fresh_lent(random, &settings)?;
    let mut asking = Asking::afresh(&settings);
    let mut answers = Vec::new();
    for _ in 0..2 {
        let requests: Vec<Request> = (0..settings.places)
            .map(|_| asking.request(random))
            .collect();
        answers.push(carried(random, &mut lent, &requests)?);
    }
    Ok(answers)
}
