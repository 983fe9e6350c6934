//! Several faults at once: the answer due is that of the first in the order of the red card.
//! The order is told here a second time, apart from the model.

use bench::model::red_card::{Answer, Refusal};
use bench::model::sheet::{SHEET_CATALOGUE, SHEET_INPUT, SHEET_PLACES};
use bench::model::tables::Tables;
use bench::model::tally::{Settings, SETTING_RANGES, TALLY_WORDS};
use bench::random::Random;

use crate::agree::{self, Lent};
use crate::fields::{all_requests, bytes_of, request_fault, setting_fault, setting_fields, Field};
use crate::logs::{bad_line, good_lines, log_of, requests_of};
use crate::make::Asking;
use crate::ratios::{at_a_bound, good_tally, old_ratio, past_doubles};
use crate::{make, Verdict};

/// A fault of its own chance: the refusal, where the coin falls so.
fn chance(random: &mut Random, refusal: Refusal) -> Option<Refusal> {
    random.one_in(4).then_some(refusal)
}

/// The first refusal of those in order, or done with this value.
fn first(refusals: &[Option<Refusal>], value: usize) -> Answer {
    let refused = refusals.iter().flatten().next();
    refused.map_or(Answer::done(value), |&refusal| Answer::refused(refusal))
}

pub fn fresh(random: &mut Random) -> Verdict {
    let mut settings = make::settings(random);
    let mut lent = make::old_lent(random, &settings);
    let short = chance(random, Refusal::ShortTable);
    match random.below(2) {
        _ if short.is_none() => {}
        0 => cut_one(random, &mut lent.tables),
        _ => lent.tally.truncate(TALLY_WORDS - 1),
    }
    let outside = chance(random, Refusal::Setting);
    if outside.is_some() {
        settings = put_outside(random, &settings);
    }
    let given = agree::fresh(&settings, &mut lent)?;
    agree::due(given, first(&[outside, short], 0))?;
    Ok(vec![given])
}

fn put_outside(random: &mut Random, settings: &Settings) -> Settings {
    let mut words = settings.words();
    let at = random.index(5);
    words[at] = SETTING_RANGES[at].1 + 1;
    Settings::from_words(words)
}

/// Leaves one table with no entry at all.
fn cut_one(random: &mut Random, tables: &mut Tables) {
    match random.below(8) {
        0 => tables.place.clear(),
        1 => tables.file.clear(),
        2 => tables.size.clear(),
        3 => tables.cost.clear(),
        4 => tables.freq.clear(),
        5 => tables.key.clear(),
        6 => tables.stamp.clear(),
        _ => tables.queue.clear(),
    }
}

/// The faults of a call to carry on, in their order; each is there or not.
struct Faults {
    outside_unit: bool,
    short_tally: bool,
    outside: bool,
    short: bool,
    other_unit: bool,
    unsound: bool,
    in_part: bool,
    limit: bool,
    room: bool,
}

/// None of the first few, so that the last in the order have their turn as well.
fn some_faults(random: &mut Random) -> Faults {
    let from = random.index(10);
    let faults: Vec<bool> = (0..9)
        .map(|at| at == from || (at > from && random.one_in(2)))
        .collect();
    Faults {
        outside_unit: faults[0],
        short_tally: faults[1],
        outside: faults[2],
        short: faults[3],
        other_unit: faults[4],
        unsound: faults[5],
        in_part: faults[6],
        limit: faults[7],
        room: faults[8],
    }
}

pub fn carry_on(random: &mut Random) -> Verdict {
    let faults = some_faults(random);
    let mut lent = make::running_lent(random)?;
    let settings = lent.settings();
    let mut asking = Asking::over(&lent);
    let mut requests = asking.requests(random, 3);
    requests.push(asking.request(random));
    let part = if faults.in_part {
        all_requests(random, &settings, &requests)
    } else {
        vec![Field::good(make::part_of(&requests))]
    };
    if faults.limit {
        make::near_the_limit(random, &mut lent, requests.len() as u64 - 1);
    }
    let needed = 2 * requests.len() + lent.read_tally().files_kept as usize;
    let length = needed - usize::from(faults.room);
    let mut events = make::exact_list(random, length, |word| word as u32);
    let unit = put_faults(random, &faults, &mut lent);
    let given = agree::carry_on(unit, &mut lent, &bytes_of(&part), &mut events)?;
    let order = [
        faults.outside_unit.then_some(Refusal::Setting),
        faults.short_tally.then_some(Refusal::ShortTable),
        faults.outside.then_some(Refusal::Setting),
        faults.short.then_some(Refusal::ShortTable),
        faults.other_unit.then_some(Refusal::OtherUnit),
        faults.unsound.then_some(Refusal::Unsound),
        request_fault(&part, 0),
        faults.limit.then_some(Refusal::RunLimit),
        faults.room.then_some(Refusal::Room),
    ];
    agree::due(given, first(&order, given.value as usize))?;
    Ok(vec![given])
}

/// Puts the faults of tally and tables, and gives the unit to be named.
fn put_faults(random: &mut Random, faults: &Faults, lent: &mut Lent) -> u64 {
    let settings = lent.settings();
    if faults.unsound {
        // Bytes kept, dropped, or more lifts than any run has.
        let (word, by) = random.pick(&[(6, 1), (17, 1), (18, 5_000)]);
        lent.tally[word] += by;
    }
    if faults.short {
        cut_one(random, &mut lent.tables);
    }
    if faults.outside {
        let words = put_outside(random, &settings).words();
        lent.tally[..5].copy_from_slice(&words);
    }
    if faults.short_tally {
        lent.tally.truncate(TALLY_WORDS - 1);
    }
    let named = settings.unit ^ u64::from(faults.other_unit);
    named + (u64::from(faults.outside_unit) << 32)
}

pub fn reader(random: &mut Random) -> Verdict {
    let settings = make::settings(random);
    let requests = make::requests(random, &settings, 3);
    let settings_fields = setting_fields(random, &settings);
    let fields = all_requests(random, &settings, &requests);
    let head = bytes_of(&settings_fields);
    let part = bytes_of(&fields);

    let short_settings = chance(random, Refusal::Room);
    let mut words = vec![9; 5 - usize::from(short_settings.is_some())];
    let short_lists = chance(random, Refusal::Room).filter(|_| !requests.is_empty());
    let mut lists = make::old_lists(random, requests.len());
    if short_lists.is_some() {
        lists.costs.truncate(requests.len() - 1);
    }
    let bytes = [&head[..], &part].concat();
    let whole = agree::read_file(&bytes, &mut words, &mut lists)?;
    let in_file = request_fault(&fields, head.len());
    let order = [
        setting_fault(&settings_fields),
        in_file,
        short_settings,
        short_lists,
    ];
    agree::due(whole, first(&order, requests.len()))?;

    let outside = chance(random, Refusal::Setting);
    let catalogue = if outside.is_some() {
        0
    } else {
        settings.catalogue
    };
    let further = agree::read_part(catalogue, &part, &mut lists)?;
    let order = [outside, request_fault(&fields, 0), short_lists];
    agree::due(further, first(&order, requests.len()))?;
    Ok(vec![whole, further])
}

pub fn writer(random: &mut Random) -> Verdict {
    let mut settings = make::settings(random);
    let requests = make::requests(random, &settings, 4);
    let mut lists = make::lists_of(&requests);
    let needed = make::file_of(&settings, &requests).len();
    let room = chance(random, Refusal::Room);
    let mut out = vec![9; needed - usize::from(room.is_some())];
    let mut at_fault = None;
    for index in 0..requests.len() {
        if let Some(refusal) = chance(random, Refusal::Range(index)) {
            at_fault = at_fault.or(Some(refusal));
            match random.below(2) {
                0 => lists.files[index] = settings.catalogue as u16,
                _ => lists.sizes[index] = 0,
            }
        }
    }
    let short = chance(random, Refusal::ShortTable).filter(|_| !requests.is_empty());
    if short.is_some() {
        match random.below(2) {
            0 => lists.sizes.truncate(requests.len() - 1),
            _ => lists.costs.truncate(requests.len() - 1),
        }
    }
    let outside = chance(random, Refusal::Setting);
    if outside.is_some() {
        settings = put_outside(random, &settings);
    }
    let given = agree::write_file(&settings, &lists, &mut out)?;
    agree::due(given, first(&[outside, short, at_fault, room], needed))?;
    Ok(vec![given])
}

pub fn sheet(random: &mut Random) -> Verdict {
    let mut settings = make::settings(random);
    let large = chance(random, Refusal::ShortTable);
    if large.is_some() {
        match random.below(2) {
            0 => settings.places = SHEET_PLACES + 1,
            _ => settings.catalogue = SHEET_CATALOGUE + 1,
        }
    }
    let requests = make::requests(random, &settings, 3);
    let head = setting_fields(random, &settings);
    let fields = all_requests(random, &settings, &requests);
    let mut bytes = [bytes_of(&head), bytes_of(&fields)].concat();
    let at_fault = request_fault(&fields, 0);
    let long = chance(random, Refusal::LongInput);
    if long.is_some() {
        bytes.resize(SHEET_INPUT + 1, 1);
    }
    let mut out = vec![9; 600];
    let given = agree::sheet(&bytes, &mut out)?;
    let refused = first(&[long, setting_fault(&head), large, at_fault], 0).number;
    if refused > 0 {
        let line = format!("refused {refused}\n");
        agree::same_list(
            "refusal line",
            &out[..given.value as usize],
            line.as_bytes(),
        )?;
    }
    Ok(vec![given, agree::said(&out[..given.value as usize])])
}

pub fn squid(random: &mut Random) -> Verdict {
    let mut settings = make::settings(random);
    let mut lines = good_lines(random, settings.catalogue, 4);
    let requests = requests_of(&lines);
    let room = chance(random, Refusal::Room);
    let mut bad = None;
    for _ in 0..random.below(3) {
        let at = random.index(lines.len() + 1);
        lines.insert(at, bad_line(random, settings.catalogue));
        bad = Some(bad.map_or(at, |first: usize| first.min(at)));
    }
    let bad = bad.map(|at| Refusal::BadLine(at + 1));
    let log = log_of(random, &lines);

    let needed = make::part_of(&requests).len();
    let short = room.filter(|_| needed > 0);
    let mut out = vec![9; needed - usize::from(short.is_some())];
    let outside = chance(random, Refusal::Setting);
    let catalogue = if outside.is_some() {
        SETTING_RANGES[4].1 + 1
    } else {
        settings.catalogue
    };
    let further = agree::squid_part(catalogue, &log, &mut out)?;
    agree::due(further, first(&[outside, bad, short], needed))?;

    let needed = make::file_of(&settings, &requests).len();
    let mut out = vec![9; needed - usize::from(room.is_some())];
    let outside = chance(random, Refusal::Setting);
    if outside.is_some() {
        settings = put_outside(random, &settings);
    }
    let whole = agree::squid_file(&settings, &log, &mut out)?;
    agree::due(whole, first(&[outside, bad, room], needed))?;
    Ok(vec![whole, further])
}

pub fn ratios(random: &mut Random) -> Verdict {
    let unsound = chance(random, Refusal::Unsound);
    let inexact = chance(random, Refusal::Inexact);
    let mut tally = match (unsound, inexact) {
        (None, None) => good_tally(random),
        (Some(_), None) => at_a_bound(random, 1),
        (_, Some(_)) => past_doubles(random),
    };
    if unsound.is_some() && inexact.is_some() {
        tally.passed += 1;
    }
    // With the other counts left as they are, this is unsound as well.
    let none = chance(random, Refusal::NoRequests);
    if none.is_some() {
        tally.requests = 0;
    }
    // What is missing of a short tally lies behind it in memory, but is not lent.
    let words = tally.words();
    let short = chance(random, Refusal::ShortTable);
    let lent = match short {
        Some(_) => random.pick(&[0, 9, TALLY_WORDS - 1]),
        None => TALLY_WORDS,
    };
    let room = chance(random, Refusal::Room);
    let length = match room {
        Some(_) => random.index(2),
        None => 2 + random.index(2),
    };
    let mut list = make::exact_list(random, length, old_ratio);
    let given = agree::ratios(&words[..lent], &mut list)?;
    agree::due(given, first(&[short, none, unsound, inexact, room], 0))?;
    Ok(vec![given])
}
