//! Fresh starts: settings in and out of range, short tables, old contents.

use bench::model::limits::{MOST_CATALOGUE, MOST_PLACES};
use bench::model::tally::Settings;
use bench::random::Random;

use crate::agree;
use crate::{make, Verdict};

pub fn settings(random: &mut Random) -> Verdict {
    let settings = make::settings_near_their_ends(random);
    let needed = Settings {
        places: settings.places.min(MOST_PLACES),
        catalogue: settings.catalogue.min(MOST_CATALOGUE),
        ..settings
    };
    let mut lent = make::old_lent(random, &needed);
    Ok(vec![agree::fresh(&settings, &mut lent)?])
}

pub fn too_short(random: &mut Random) -> Verdict {
    let settings = if random.one_in(50) {
        make::largest(random)
    } else {
        make::settings(random)
    };
    let mut lent = make::old_lent(random, &settings);
    let shortened = random.below(3);
    for _ in 0..shortened {
        make::shorten(random, &mut lent, &settings);
    }
    Ok(vec![agree::fresh(&settings, &mut lent)?])
}

/// Whatever the tables held before, a fresh start makes the same run follow.
pub fn twins(random: &mut Random) -> Verdict {
    let settings = make::settings(random);
    let part = make::part_of(&make::requests(random, &settings, 40));
    let mut answers = Vec::new();
    let mut ends = Vec::new();
    for _ in 0..2 {
        let mut lent = make::old_lent(random, &settings);
        answers.push(agree::fresh(&settings, &mut lent)?);
        let mut events = make::events_for(random, &lent, part.len() / 3);
        let answer = agree::carry_on(settings.unit, &mut lent, &part, &mut events)?;
        events.truncate(answer.value as usize);
        answers.push(answer);
        ends.push((lent.tables.shelf(settings.catalogue), events));
    }
    agree::same_list("twin's shelf", &ends[0].0, &ends[1].0)?;
    agree::same_list("twin's events", &ends[0].1, &ends[1].1)?;
    Ok(answers)
}
