//! Damaged bytes of parts and of whole files.

use bench::damage::damage;
use bench::random::Random;

use crate::{agree, craft, make, Verdict};

pub fn parts(random: &mut Random) -> Verdict {
    let mut lent = if random.one_in(2) {
        make::running_lent(random)?
    } else {
        craft::sound_lent(random)
    };
    let settings = lent.settings();
    let mut part = make::part_of(&make::further(random, &lent, 12));
    damage(random, &mut part);
    let mut lists = make::old_lists(random, 16);
    let read = agree::read_part(settings.catalogue, &part, &mut lists)?;
    let mut events = make::events_for(random, &lent, 20);
    let carried = agree::carry_on(settings.unit, &mut lent, &part, &mut events)?;
    Ok(vec![read, carried])
}

pub fn files(random: &mut Random) -> Verdict {
    let settings = make::settings(random);
    let mut file = make::file_of(&settings, &make::requests(random, &settings, 8));
    damage(random, &mut file);
    let mut words = make::old_list(random, 5, |word| word);
    let mut lists = make::old_lists(random, 14);
    let read = agree::read_file(&file, &mut words, &mut lists)?;
    let mut out = make::exact_list(random, 1_000, |word| word as u8);
    let sheet = agree::sheet(&file, &mut out)?;
    Ok(vec![read, sheet])
}
