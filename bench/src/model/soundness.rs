//! When lent tables and a tally are sound, condition by condition, for any words at all.

use super::limits::{
    product, INFLATION_BOUND, MOST_COST, MOST_FREQUENCY, MOST_REQUESTS, MOST_SIZE, MOST_WORTH,
};
use super::run::Kept;
use super::tables::{Tables, NO_PLACE};
use super::tally::Tally;

/// For settings in range and tables long enough for them; entries beyond are not read.
pub fn sound(tally: &Tally, tables: &Tables) -> bool {
    requests_add_up(tally)
        && admitted_add_up(tally)
        && bytes_in_range(tally)
        && cost_in_range(tally)
        && points_both_ways(tally, tables)
        && queue_holds_each_once(tally, tables)
        && queue_in_order(tally, tables)
        && records_in_range(tally, tables)
        && stamps_of_their_own(tally, tables)
        && sums_agree(tally, tables)
        && unused_are_zero(tally, tables)
        && keys_in_range(tally, tables)
        && inflation_bounded(tally, tables)
}

fn wide(word: u64) -> u128 {
    word.into()
}

pub(super) fn requests_add_up(tally: &Tally) -> bool {
    wide(tally.hits) + wide(tally.admitted) + wide(tally.passed) == wide(tally.requests)
        && tally.requests <= MOST_REQUESTS
}

fn admitted_add_up(tally: &Tally) -> bool {
    wide(tally.evicted) + wide(tally.dropped) + wide(tally.files_kept) == wide(tally.admitted)
}

pub(super) fn bytes_in_range(tally: &Tally) -> bool {
    total_in_range(tally, tally.bytes_asked, tally.hit_bytes, MOST_SIZE)
}

fn cost_in_range(tally: &Tally) -> bool {
    total_in_range(tally, tally.cost_asked, tally.hit_cost, MOST_COST)
}

fn total_in_range(tally: &Tally, asked: u64, hit: u64, most: u64) -> bool {
    tally.hits <= hit
        && wide(hit) <= wide(tally.hits) * wide(most)
        && hit <= asked
        && tally.requests <= asked
        && wide(asked) <= wide(tally.requests) * wide(most)
}

/// The entries of the catalogue that name a place, as file number and place.
fn placed_files<'a>(
    tally: &Tally,
    tables: &'a Tables,
) -> impl Iterator<Item = (usize, usize)> + 'a {
    let catalogue = tally.settings.catalogue as usize;
    let entries = tables.place[..catalogue].iter().enumerate();
    entries
        .filter(|(_, &place)| place != NO_PLACE)
        .map(|(file, &place)| (file, place.into()))
}

/// The places that a file number names, rising.
fn occupied(tally: &Tally, tables: &Tables) -> Vec<usize> {
    let mut places: Vec<usize> = placed_files(tally, tables)
        .map(|(_, place)| place)
        .collect();
    places.sort_unstable();
    places
}

fn occupied_records(tally: &Tally, tables: &Tables) -> Vec<Kept> {
    tables.shelf(tally.settings.catalogue)
}

/// No two file numbers can name one place, since the place names only one of them back.
fn points_both_ways(tally: &Tally, tables: &Tables) -> bool {
    let places = tally.settings.places as usize;
    placed_files(tally, tables)
        .all(|(file, place)| place < places && usize::from(tables.file[place]) == file)
}

/// The entries in use, where the files kept are no more than the places.
fn queued(tally: &Tally, tables: &Tables) -> Option<Vec<usize>> {
    if tally.files_kept > tally.settings.places {
        return None;
    }
    let entries = &tables.queue[..tally.files_kept as usize];
    Some(entries.iter().map(|&place| place.into()).collect())
}

fn queue_holds_each_once(tally: &Tally, tables: &Tables) -> bool {
    let Some(mut places) = queued(tally, tables) else {
        return false;
    };
    places.sort_unstable();
    places == occupied(tally, tables)
}

fn queue_in_order(tally: &Tally, tables: &Tables) -> bool {
    let Some(places) = queued(tally, tables) else {
        return false;
    };
    let rank = |entry: usize| (tables.key[places[entry]], tables.stamp[places[entry]]);
    (1..places.len()).all(|entry| rank(entry) >= rank((entry - 1) / 2))
}

fn records_in_range(tally: &Tally, tables: &Tables) -> bool {
    occupied_records(tally, tables).iter().all(|kept| {
        (1..=MOST_SIZE).contains(&kept.size)
            && (1..=MOST_COST).contains(&kept.cost)
            && (1..=MOST_FREQUENCY).contains(&kept.frequency)
            && (tally.settings.policy == 2 || kept.frequency == 1)
    })
}

fn stamps_of_their_own(tally: &Tally, tables: &Tables) -> bool {
    let records = occupied_records(tally, tables);
    let mut stamps: Vec<u64> = records.iter().map(|kept| kept.stamp).collect();
    stamps.sort_unstable();
    stamps.dedup();
    stamps.len() == records.len() && stamps.iter().all(|&stamp| stamp < tally.requests)
}

fn sums_agree(tally: &Tally, tables: &Tables) -> bool {
    let records = occupied_records(tally, tables);
    let frequencies: u128 = records.iter().map(|kept| wide(kept.frequency)).sum();
    let sizes: u128 = records.iter().map(|kept| wide(kept.size)).sum();
    frequencies <= wide(tally.requests)
        && sizes == wide(tally.bytes_kept)
        && tally.bytes_kept <= tally.settings.capacity
}

fn unused_are_zero(tally: &Tally, tables: &Tables) -> bool {
    let places = tally.settings.places as usize;
    let occupied = occupied(tally, tables);
    let zero = Kept {
        file: 0,
        size: 0,
        cost: 0,
        frequency: 0,
        key: 0,
        stamp: 0,
    };
    let mut unused = (0..places).filter(|place| occupied.binary_search(place).is_err());
    let mut past = tables.queue[..places]
        .iter()
        .skip(tally.files_kept as usize);
    unused.all(|place| tables.record(place) == zero) && past.all(|&entry| entry == 0)
}

/// Of L and the keys as they stand.
fn keys_in_range(tally: &Tally, tables: &Tables) -> bool {
    let inflation = wide(tally.inflation());
    occupied_records(tally, tables).iter().all(|kept| {
        let credit = product(kept.frequency, kept.cost, kept.size);
        inflation <= kept.key && kept.key <= inflation + credit
    })
}

/// L by itself, and the whole inflation with all the products; nothing is cut off at 64 bits.
fn inflation_bounded(tally: &Tally, tables: &Tables) -> bool {
    let records = occupied_records(tally, tables);
    let products: u128 = records
        .iter()
        .map(|kept| product(kept.frequency, kept.cost, kept.size))
        .sum();
    tally.inflation() < INFLATION_BOUND
        && tally.whole_inflation + products <= wide(tally.requests) * wide(MOST_WORTH)
}
