//! Random settings, requests and lent tables, small enough that capacity and places bind.

use std::collections::BTreeMap;

use crate::lent::Lent;
use crate::model::limits::{
    MOST_CAPACITY, MOST_CATALOGUE, MOST_COST, MOST_PLACES, MOST_REQUESTS, MOST_SIZE, MOST_UNIT,
};
use crate::model::tables::Tables;
use crate::model::tally::{Settings, SETTING_RANGES, TALLY_WORDS};
use crate::model::trace::{write_number, Lists, Request};
use crate::random::Random;

pub fn settings(random: &mut Random) -> Settings {
    let few_places = random.between(1, 12);
    let few_files = random.between(1, 24);
    let capacities = [1, 40, 100, 300, 1_000, 100_000, 40_000_000, MOST_CAPACITY];
    Settings {
        unit: random.word() % (MOST_UNIT + 1),
        policy: random.between(1, 2),
        capacity: random.pick(&capacities),
        places: random.pick(&[1, 2, few_places, few_places, few_places, 40]),
        catalogue: random.pick(&[few_files, few_files, few_files, 1, 300]),
    }
}

/// Settings at the ends of their ranges; the tables they need are long.
pub fn largest(random: &mut Random) -> Settings {
    Settings {
        unit: MOST_UNIT,
        policy: random.between(1, 2),
        capacity: MOST_CAPACITY,
        places: MOST_PLACES,
        catalogue: MOST_CATALOGUE,
    }
}

/// Settings with up to two of them at or beyond an end of their range.
pub fn settings_near_their_ends(random: &mut Random) -> Settings {
    let mut words = settings(random).words();
    let changes = random.below(3);
    for _ in 0..changes {
        let field = random.index(5);
        let (least, most) = SETTING_RANGES[field];
        let any = random.word();
        let edges = [0, least, most, most + 1, u64::MAX, any];
        words[field] = random.pick(&edges);
    }
    Settings::from_words(words)
}

/// Requests that know the last size of each file, so that hits and recuts come in turn.
pub struct Asking {
    settings: Settings,
    sizes: BTreeMap<u64, u64>,
}

impl Asking {
    pub fn afresh(settings: &Settings) -> Self {
        Asking {
            settings: *settings,
            sizes: BTreeMap::new(),
        }
    }

    /// Over tables that keep files already.
    pub fn over(lent: &Lent) -> Self {
        let settings = lent.settings();
        let kept = lent.tables.shelf(settings.catalogue);
        Asking {
            settings,
            sizes: kept.iter().map(|kept| (kept.file, kept.size)).collect(),
        }
    }

    pub fn catalogue(&self) -> u64 {
        self.settings.catalogue
    }

    pub fn request(&mut self, random: &mut Random) -> Request {
        let file = self.file(random);
        self.request_for(random, file)
    }

    pub fn request_for(&mut self, random: &mut Random, file: u64) -> Request {
        let size = match self.sizes.get(&file).copied() {
            Some(size) if !random.one_in(RECUT_CHANCES) => size,
            Some(size) => recut(random, &self.settings, size),
            None => self::size(random, &self.settings),
        };
        self.sizes.insert(file, size);
        let any_cost = random.below(MOST_COST + 1);
        Request {
            file,
            size,
            cost: random.pick(&[0, 1, 1, 2, 5, any_cost, MOST_COST]),
        }
    }

    /// Any file, or as often as not the next one above it that was seen before.
    fn file(&self, random: &mut Random) -> u64 {
        let any = file(random, self.settings.catalogue);
        let seen = self.sizes.range(any..).next().map(|(&file, _)| file);
        seen.filter(|_| random.one_in(2)).unwrap_or(any)
    }

    pub fn requests(&mut self, random: &mut Random, most: u64) -> Vec<Request> {
        let count = random.below(most + 1);
        (0..count).map(|_| self.request(random)).collect()
    }
}

/// One in so many requests for a file seen before asks for another size.
const RECUT_CHANCES: u64 = 4;

pub fn size(random: &mut Random, settings: &Settings) -> u64 {
    let near = random.between(1, 200);
    let capacity = settings.capacity.min(MOST_SIZE);
    let above = (settings.capacity + 1).min(MOST_SIZE);
    let any = random.between(1, MOST_SIZE);
    let sizes = [1, 3, 7, 16, 32, 64, near, near, near, capacity, above, any];
    random.pick(&sizes)
}

/// A size of a file that had this one: often next to it, and now and then the same after all.
pub fn recut(random: &mut Random, settings: &Settings, size: u64) -> u64 {
    let any = self::size(random, settings);
    let longer = (size + random.pick(&[1, 6, 256, 65_536])).min(MOST_SIZE);
    random.pick(&[any, any, longer, (size - 1).max(1)])
}

/// A file number, more often a low one, so that some are asked for again and again.
fn file(random: &mut Random, catalogue: u64) -> u64 {
    let most = random.between(1, catalogue);
    random.below(most)
}

pub fn requests(random: &mut Random, settings: &Settings, most: u64) -> Vec<Request> {
    Asking::afresh(settings).requests(random, most)
}

/// Requests of a further part, some for files that the tables keep.
pub fn further(random: &mut Random, lent: &Lent, most: u64) -> Vec<Request> {
    Asking::over(lent).requests(random, most)
}

pub fn part_of(requests: &[Request]) -> Vec<u8> {
    let mut bytes = Vec::new();
    for Request { file, size, cost } in requests {
        for number in [file, size, cost] {
            write_number(*number, &mut bytes);
        }
    }
    bytes
}

pub fn file_of(settings: &Settings, requests: &[Request]) -> Vec<u8> {
    let mut bytes = Vec::new();
    for number in settings.words() {
        write_number(number, &mut bytes);
    }
    bytes.extend(part_of(requests));
    bytes
}

pub fn lists_of(requests: &[Request]) -> Lists {
    let mut lists = Lists::default();
    for request in requests {
        lists.push(*request);
    }
    lists
}

/// A list with old contents, at times a few entries longer than it need be.
pub fn old_list<T>(random: &mut Random, needed: usize, entry: fn(u64) -> T) -> Vec<T> {
    let length = needed + random.index(4);
    exact_list(random, length, entry)
}

pub fn exact_list<T>(random: &mut Random, length: usize, entry: fn(u64) -> T) -> Vec<T> {
    (0..length).map(|_| entry(random.word())).collect()
}

pub fn old_lists(random: &mut Random, needed: usize) -> Lists {
    Lists {
        files: old_list(random, needed, |word| word as u16),
        sizes: old_list(random, needed, |word| word as u32),
        costs: old_list(random, needed, |word| word as u16),
    }
}

/// A tally and tables long enough for the settings, with any old contents.
pub fn old_lent(random: &mut Random, settings: &Settings) -> Lent {
    let places = settings.places as usize;
    Lent {
        tally: old_list(random, TALLY_WORDS, |word| word),
        tables: Tables {
            place: old_list(random, settings.catalogue as usize, |word| word as u16),
            file: old_list(random, places, |word| word as u16),
            size: old_list(random, places, |word| word as u32),
            cost: old_list(random, places, |word| word as u16),
            freq: old_list(random, places, |word| word as u32),
            key: old_list(random, places, |word| word),
            stamp: old_list(random, places, |word| word),
            queue: old_list(random, places, |word| word as u16),
        },
    }
}

/// An event list with room for so many new requests.
pub fn events_for(random: &mut Random, lent: &Lent, requests: usize) -> Vec<u32> {
    let needed = 2 * requests + lent.read_tally().files_kept as usize;
    old_list(random, needed, |word| word as u32)
}

/// Cuts one list to just its needed length, to one less, or to any less.
pub fn shorten(random: &mut Random, lent: &mut Lent, settings: &Settings) {
    let list = random.below(9);
    let needed = match list {
        0 => TALLY_WORDS,
        1 => settings.catalogue as usize,
        _ => settings.places as usize,
    };
    let any = random.index(needed);
    let length = random.pick(&[needed, needed - 1, needed - 1, any]);
    let tables = &mut lent.tables;
    match list {
        0 => lent.tally.truncate(length),
        1 => tables.place.truncate(length),
        2 => tables.file.truncate(length),
        3 => tables.size.truncate(length),
        4 => tables.cost.truncate(length),
        5 => tables.freq.truncate(length),
        6 => tables.key.truncate(length),
        7 => tables.stamp.truncate(length),
        _ => tables.queue.truncate(length),
    }
}

/// Brings the requests near the limit by hits that soundness allows, leaving room for a few.
pub fn near_the_limit(random: &mut Random, lent: &mut Lent, left: u64) {
    let mut tally = lent.read_tally();
    let added = MOST_REQUESTS - left - tally.requests;
    let bytes = added * random.pick(&[1, 2, 1_000, MOST_SIZE]);
    let cost = added * random.pick(&[1, 2, 1_000, MOST_COST]);
    tally.requests += added;
    tally.hits += added;
    tally.hit_bytes += bytes;
    tally.bytes_asked += bytes;
    tally.hit_cost += cost;
    tally.cost_asked += cost;
    lent.set_tally(&tally);
}
