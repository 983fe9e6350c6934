//! Sound tables made from the conditions alone, also those that no run reaches.

use bench::model::limits::{
    product, LIFT, MOST_CAPACITY, MOST_COST, MOST_FREQUENCY, MOST_REQUESTS, MOST_SIZE, MOST_WORTH,
};
use bench::model::run::Kept;
use bench::model::tables::{Tables, NO_PLACE};
use bench::model::tally::{Settings, Tally};
use bench::random::Random;

use crate::agree::Lent;
use crate::make;

/// Any sound tally and tables, with values at the ends of their ranges more often than not.
pub fn sound_lent(random: &mut Random) -> Lent {
    let (settings, mut records) = settings_and_records(random);
    let requests = edge(random, frequencies(&records), MOST_REQUESTS);
    let whole_inflation = wide_edge(random, 0, most_inflation(requests, &records));
    let lifts = some_lifts(random, whole_inflation);
    let tally = tally(random, settings, &records, requests);
    let tally = Tally {
        whole_inflation,
        lifts,
        ..tally
    };
    set_stamps_and_keys(random, &tally, &mut records);
    placed(random, &tally, &records)
}

/// Settings and files that they can keep, as yet without keys and stamps.
pub fn settings_and_records(random: &mut Random) -> (Settings, Vec<Kept>) {
    let settings = make::settings(random);
    let most_files = settings.places.min(settings.catalogue);
    let count = random.between(0, most_files);
    let records = records_without_keys(random, &settings, count);
    let bytes_kept = bytes_of(&records);
    let capacity = edge(random, bytes_kept.max(1), MOST_CAPACITY);
    let settings = Settings {
        capacity,
        ..settings
    };
    (settings, records)
}

/// Settings and files of the largest products, a few of which are past 64 bits together.
pub fn settings_and_large_records(random: &mut Random) -> (Settings, Vec<Kept>) {
    let count = random.between(1, 40);
    let files = distinct(random, count, 300);
    let each = files.into_iter().map(|file| Kept {
        file,
        size: 1,
        cost: MOST_COST - random.below(2),
        frequency: MOST_FREQUENCY - random.below(2),
        key: 0,
        stamp: 0,
    });
    let records: Vec<Kept> = each.collect();
    let settings = Settings {
        policy: 2,
        places: random.between(count, 40),
        catalogue: 300,
        capacity: edge(random, count, MOST_CAPACITY),
        ..make::settings(random)
    };
    (settings, records)
}

/// The lifts that leave L below a lift, or one less, so that a lift is due.
pub fn some_lifts(random: &mut Random, whole_inflation: u128) -> u64 {
    let lifts = (whole_inflation / u128::from(LIFT)) as u64;
    lifts.saturating_sub(random.below(2))
}

/// The tally and the records in lent tables, with old contents past the needed lengths.
pub fn placed(random: &mut Random, tally: &Tally, records: &[Kept]) -> Lent {
    let mut lent = make::old_lent(random, &tally.settings);
    lent.set_tally(tally);
    lay(random, &mut lent.tables, &tally.settings, records);
    lent
}

/// Lays the records on places by chance, and nothing else.
fn lay(random: &mut Random, tables: &mut Tables, settings: &Settings, records: &[Kept]) {
    let places = distinct(random, records.len() as u64, settings.places);
    clear(tables, settings);
    for (kept, &place) in records.iter().zip(&places) {
        put_record(tables, place as usize, kept);
    }
    arrange(random, tables, &places);
}

/// The least, the most, or any number between.
pub fn edge(random: &mut Random, least: u64, most: u64) -> u64 {
    let between = random.between(least, most);
    random.pick(&[least, most, between])
}

fn wide_edge(random: &mut Random, least: u128, most: u128) -> u128 {
    let any = u128::from(random.word()) << 64 | u128::from(random.word());
    let between = least + any % (most - least + 1);
    random.pick(&[least, most, between])
}

/// So many different numbers below the bound, in any order.
fn distinct(random: &mut Random, count: u64, bound: u64) -> Vec<u64> {
    let mut numbers: Vec<u64> = Vec::new();
    while (numbers.len() as u64) < count {
        let number = edge(random, 0, bound - 1);
        if !numbers.contains(&number) {
            numbers.push(number);
        }
    }
    numbers
}

fn records_without_keys(random: &mut Random, settings: &Settings, count: u64) -> Vec<Kept> {
    let most_frequency = match settings.policy {
        1 => 1,
        _ => random.pick(&[2, 50, MOST_FREQUENCY]),
    };
    let most_size = random.pick(&[10, 1_000, MOST_SIZE]);
    distinct(random, count, settings.catalogue)
        .into_iter()
        .map(|file| Kept {
            file,
            size: edge(random, 1, most_size),
            cost: edge(random, 1, MOST_COST),
            frequency: edge(random, 1, most_frequency),
            key: 0,
            stamp: 0,
        })
        .collect()
}

pub fn products(records: &[Kept]) -> u128 {
    records
        .iter()
        .map(|kept| product(kept.frequency, kept.cost, kept.size))
        .sum()
}

pub fn frequencies(records: &[Kept]) -> u64 {
    records.iter().map(|kept| kept.frequency).sum()
}

fn bytes_of(records: &[Kept]) -> u64 {
    records.iter().map(|kept| kept.size).sum()
}

/// What so many requests leave for the whole inflation beside these files.
pub fn most_inflation(requests: u64, records: &[Kept]) -> u128 {
    u128::from(requests) * u128::from(MOST_WORTH) - products(records)
}

/// Counts of so many requests that leave these files, as yet without inflation.
pub fn tally(random: &mut Random, settings: Settings, records: &[Kept], requests: u64) -> Tally {
    let files_kept = records.len() as u64;
    let admitted = edge(random, files_kept, requests);
    let dropped = edge(random, 0, admitted - files_kept);
    let hits = edge(random, 0, requests - admitted);
    let hit_bytes = edge(random, hits, hits * MOST_SIZE);
    let hit_cost = edge(random, hits, hits * MOST_COST);
    Tally {
        bytes_kept: bytes_of(records),
        files_kept,
        requests,
        hits,
        admitted,
        passed: requests - admitted - hits,
        evicted: admitted - files_kept - dropped,
        bytes_asked: edge(random, requests.max(hit_bytes), requests * MOST_SIZE),
        hit_bytes,
        cost_asked: edge(random, requests.max(hit_cost), requests * MOST_COST),
        hit_cost,
        dropped,
        ..Tally::fresh(settings)
    }
}

pub fn set_stamps_and_keys(random: &mut Random, tally: &Tally, records: &mut [Kept]) {
    let stamps = distinct(random, records.len() as u64, tally.requests.max(1));
    let inflation = u128::from(tally.inflation());
    for (kept, stamp) in records.iter_mut().zip(stamps) {
        let credit = product(kept.frequency, kept.cost, kept.size);
        let most = (inflation + credit).min(u64::MAX.into());
        kept.key = wide_edge(random, inflation, most);
        kept.stamp = stamp;
    }
    let ties = random.below(3);
    for _ in 0..ties {
        tie(random, tally, records);
    }
}

/// Gives one file the key of another where its range allows it.
fn tie(random: &mut Random, tally: &Tally, records: &mut [Kept]) {
    if records.is_empty() {
        return;
    }
    let key = records[random.index(records.len())].key;
    let index = random.index(records.len());
    let kept = &mut records[index];
    let credit = product(kept.frequency, kept.cost, kept.size);
    if key <= u128::from(tally.inflation()) + credit {
        kept.key = key;
    }
}

fn clear(tables: &mut Tables, settings: &Settings) {
    let zero = Kept {
        file: 0,
        size: 0,
        cost: 0,
        frequency: 0,
        key: 0,
        stamp: 0,
    };
    for place in 0..settings.places as usize {
        set_record(tables, place, &zero);
        tables.queue[place] = 0;
    }
    tables.place[..settings.catalogue as usize].fill(NO_PLACE);
}

/// Puts a record at a place and has its file number name that place.
fn put_record(tables: &mut Tables, place: usize, kept: &Kept) {
    set_record(tables, place, kept);
    tables.place[kept.file as usize] = place as u16;
}

fn set_record(tables: &mut Tables, place: usize, kept: &Kept) {
    tables.file[place] = kept.file as u16;
    tables.size[place] = kept.size as u32;
    tables.cost[place] = kept.cost as u16;
    tables.freq[place] = kept.frequency as u32;
    tables.key[place] = kept.key as u64;
    tables.stamp[place] = kept.stamp;
}

/// Any queue of these places: rising at first, then with exchanges that keep it in order.
fn arrange(random: &mut Random, tables: &mut Tables, places: &[u64]) {
    let mut queue: Vec<usize> = places.iter().map(|&place| place as usize).collect();
    let rank = |place: usize| (tables.key[place], tables.stamp[place]);
    queue.sort_by_key(|&place| rank(place));
    let in_order = |queue: &[usize]| {
        (1..queue.len()).all(|entry| rank(queue[entry]) >= rank(queue[(entry - 1) / 2]))
    };
    let exchanges = random.index(4 * queue.len() + 1);
    for _ in 0..exchanges {
        let (one, other) = (random.index(queue.len()), random.index(queue.len()));
        queue.swap(one, other);
        if !in_order(&queue) {
            queue.swap(one, other);
        }
    }
    for (entry, place) in queue.into_iter().enumerate() {
        tables.queue[entry] = place as u16;
    }
}

/// Moves every kept file to another place, and the queue to another order.
pub fn rearrange(random: &mut Random, lent: &mut Lent) {
    let settings = lent.settings();
    let records = lent.tables.shelf(settings.catalogue);
    lay(random, &mut lent.tables, &settings, &records);
}
