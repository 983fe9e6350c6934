//! Reader and writer: lists just long enough, too short, out of range, and round trips.

use bench::model::limits::MOST_CATALOGUE;
use bench::model::tally::Settings;
use bench::model::trace::Lists;
use bench::random::Random;

use crate::{agree, make, Verdict};

/// Lists just long enough, some of them one entry shorter.
fn tight_lists(random: &mut Random, needed: usize) -> Lists {
    let mut lists = make::old_lists(random, needed);
    let shorter = needed.saturating_sub(1);
    match random.below(6) {
        0 => lists.files.truncate(shorter),
        1 => lists.sizes.truncate(shorter),
        2 => lists.costs.truncate(shorter),
        3 => {
            lists.files.truncate(needed);
            lists.sizes.truncate(needed);
            lists.costs.truncate(needed);
        }
        _ => {}
    }
    lists
}

pub fn reader(random: &mut Random) -> Verdict {
    let settings = make::settings(random);
    let requests = make::requests(random, &settings, 20);
    let length = random.pick(&[0, 4, 5, 5, 5, 7]);
    let mut words = make::exact_list(random, length, |word| word);
    let mut lists = tight_lists(random, requests.len());
    let file = make::file_of(&settings, &requests);
    let whole = agree::read_file(&file, &mut words, &mut lists)?;
    let mut lists = tight_lists(random, requests.len());
    let part = make::part_of(&requests);
    let catalogue = some_catalogue(random, settings.catalogue);
    let further = agree::read_part(catalogue, &part, &mut lists)?;
    Ok(vec![whole, further])
}

fn some_catalogue(random: &mut Random, catalogue: u64) -> u64 {
    let any = random.word();
    let edges = [0, 1, MOST_CATALOGUE, MOST_CATALOGUE + 1, any];
    if random.one_in(4) {
        random.pick(&edges)
    } else {
        catalogue
    }
}

pub fn writer(random: &mut Random) -> Verdict {
    let settings = make::settings(random);
    let requests = make::requests(random, &settings, 20);
    let mut lists = make::lists_of(&requests);
    disturb(random, &mut lists, &settings);
    let needed = make::file_of(&settings, &requests).len();
    let length = random.pick(&[needed, needed, needed - 1, needed + 3, 0]);
    let mut out = make::exact_list(random, length, |word| word as u8);
    let whole = agree::write_file(&settings, &lists, &mut out)?;
    let needed = make::part_of(&requests).len();
    let length = random.pick(&[needed, needed, needed.saturating_sub(1), needed + 3]);
    let mut out = make::exact_list(random, length, |word| word as u8);
    let catalogue = some_catalogue(random, settings.catalogue);
    let further = agree::write_part(catalogue, &lists, &mut out)?;
    Ok(vec![whole, further])
}

/// Puts a list out of range or to another length, at times.
fn disturb(random: &mut Random, lists: &mut Lists, settings: &Settings) {
    let count = lists.files.len();
    if count == 0 {
        return;
    }
    let at = random.index(count);
    match random.below(9) {
        0 => lists.files[at] = settings.catalogue as u16,
        1 => lists.files[at] = random.word() as u16,
        2 => lists.sizes[at] = random.pick(&[0, 1 << 24, u32::MAX]),
        3 => lists.sizes.truncate(at),
        4 => lists.costs.truncate(at),
        5 => lists.sizes.push(0),
        6 => lists.costs.push(0),
        _ => {}
    }
}

/// What is written reads back the same, and what is read writes back the same bytes.
pub fn round_trip(random: &mut Random) -> Verdict {
    let settings = make::settings(random);
    let requests = make::requests(random, &settings, 20);
    let lists = make::lists_of(&requests);
    let mut out = make::exact_list(random, 400, |word| word as u8);
    let written = agree::write_file(&settings, &lists, &mut out)?;
    out.truncate(written.value as usize);
    let mut words = make::exact_list(random, 5, |word| word);
    let mut read_lists = make::lists_of(&requests);
    read_lists.files.fill(1);
    let read = agree::read_file(&out, &mut words, &mut read_lists)?;
    agree::same_list("settings read back", &words, &settings.words())?;
    agree::same_list("files read back", &read_lists.files, &lists.files)?;
    let mut again = vec![0; out.len()];
    let rewritten = agree::write_file(&settings, &read_lists, &mut again)?;
    agree::same_list("bytes written back", &again, &out)?;
    Ok(vec![written, read, rewritten])
}
