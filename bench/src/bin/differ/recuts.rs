//! Routes cut anew: a kept file asked for in another size, and in the same size at another cost.
//! What ticket 2 asks of each is told here a second time, apart from the model.

use bench::model::limits::{MOST_COST, MOST_REQUESTS, MOST_SIZE};
use bench::model::red_card::Answer;
use bench::model::run::{Kept, Run};
use bench::model::tables::NO_PLACE;
use bench::model::tally::Settings;
use bench::model::trace::Request;
use bench::random::Random;

use crate::agree::{self, Lent};
use crate::runs::{carried, whole_and_in_parts};
use crate::soundness::some_lent;
use crate::{make, Verdict};

pub const HIT: u32 = 1;
const ADMIT: u32 = 2;
const BIG: u32 = 3;
pub const EVICT: u32 = 5;
const STALE: u32 = 6;

fn event(kind: u32, file: u64) -> u32 {
    kind * 32_768 + file as u32
}

pub fn shelf(lent: &Lent) -> Vec<Kept> {
    lent.tables.shelf(lent.settings().catalogue)
}

/// Sound tables that keep a file, that file, and a run that may have a request more.
fn lent_and_kept(random: &mut Random) -> Result<(Lent, Kept), String> {
    loop {
        let lent = some_lent(random)?;
        let kept = shelf(&lent);
        if !kept.is_empty() && lent.read_tally().requests < MOST_REQUESTS {
            let one = random.pick(&kept);
            return Ok((lent, one));
        }
    }
}

fn cost(random: &mut Random) -> u64 {
    let any = random.between(1, MOST_COST);
    random.pick(&[1, 1, any, MOST_COST])
}

/// The answer to one request over these tables, and its events.
pub fn asked(
    random: &mut Random,
    lent: &mut Lent,
    request: Request,
) -> Result<(Answer, Vec<u32>), String> {
    let unit = lent.settings().unit;
    let mut events = make::events_for(random, lent, 1);
    let answer = agree::carry_on(unit, lent, &make::part_of(&[request]), &mut events)?;
    events.truncate(answer.value as usize);
    Ok((answer, events))
}

/// A kept file in another size, then requests that use its place again.
pub fn one(random: &mut Random) -> Verdict {
    let (mut lent, kept) = lent_and_kept(random)?;
    let request = Request {
        file: kept.file,
        size: other_size(random, &lent.settings(), kept.size),
        cost: cost(random),
    };
    let before = lent.clone();
    let (first, events) = asked(random, &mut lent, request)?;
    dropped_first(&before, &lent, request, &events)?;
    let requests = make::further(random, &lent, 12);
    Ok(vec![first, carried(random, &mut lent, &requests)?])
}

fn other_size(random: &mut Random, settings: &Settings, kept: u64) -> u64 {
    let whole = settings.capacity.min(MOST_SIZE);
    let above = (settings.capacity + 1).min(MOST_SIZE);
    loop {
        let any = make::recut(random, settings, kept);
        let within = random.between(1, whole);
        let size = random.pick(&[any, within, whole, above]);
        if size != kept {
            return size;
        }
    }
}

/// The drop comes first and is no eviction; the request goes on as a miss over the files that are left.
fn dropped_first(
    before: &Lent,
    lent: &Lent,
    request: Request,
    events: &[u32],
) -> Result<(), String> {
    let [stale, evictions @ .., own] = events else {
        return Err(format!("{events:?} is too short for a recut"));
    };
    let (old, new) = (before.read_tally(), lent.read_tally());
    agree::same("first event", stale, &event(STALE, request.file))?;
    let evicts_others = evictions
        .iter()
        .all(|&gone| gone / 32_768 == EVICT && gone != event(EVICT, request.file));
    agree::same("only others are evicted", &evicts_others, &true)?;
    let counts = [new.dropped, new.evicted, new.hits];
    let due = [
        old.dropped + 1,
        old.evicted + evictions.len() as u64,
        old.hits,
    ];
    agree::same("dropped, evicted and hits", &counts, &due)?;
    if evictions.is_empty() {
        let [new, old] = [new, old].map(|tally| tally.whole_inflation);
        agree::same("inflation without evictions", &new, &old)?;
    }
    if *own == event(ADMIT, request.file) {
        kept_anew(lent, request, old.requests)
    } else {
        let is_big = request.size > old.settings.capacity;
        agree::same("big", &(*own / 32_768 == BIG), &is_big)?;
        agree::same("evictions of a pass", &evictions.len(), &0)?;
        not_brought_back(before, lent, request.file)
    }
}

fn kept_anew(lent: &Lent, request: Request, stamp: u64) -> Result<(), String> {
    let found = shelf(lent)
        .into_iter()
        .find(|kept| kept.file == request.file);
    let given = found.map(|kept| [kept.size, kept.cost, kept.frequency, kept.stamp]);
    let due = [request.size, request.cost, 1, stamp];
    agree::same("size, cost, frequency and stamp", &given, &Some(due))
}

/// The file has no place, and of every other file the record is as it was, its key whole.
fn not_brought_back(before: &Lent, lent: &Lent, file: u64) -> Result<(), String> {
    let place = lent.tables.place[file as usize];
    agree::same("place of the dropped file", &place, &NO_PLACE)?;
    let whole_shelf = |lent: &Lent| Run::over(lent.read_tally(), shelf(lent)).kept;
    let mut others = whole_shelf(before);
    others.retain(|kept| kept.file != file);
    agree::same_list(
        "shelf without the dropped file",
        &whole_shelf(lent),
        &others,
    )
}

/// The same size is a hit whatever it costs, and the kept cost counts.
pub fn same_size(random: &mut Random) -> Verdict {
    let (mut lent, kept) = lent_and_kept(random)?;
    let request = Request {
        file: kept.file,
        size: kept.size,
        cost: cost(random),
    };
    let old = lent.read_tally();
    let (first, events) = asked(random, &mut lent, request)?;
    agree::same_list("events", &events, &[event(HIT, kept.file)])?;
    let new = lent.read_tally();
    let totals = [new.hit_cost, new.hit_bytes, new.dropped];
    let [hit_cost, hit_bytes] = [old.hit_cost + kept.cost, old.hit_bytes + kept.size];
    let due = [hit_cost, hit_bytes, old.dropped];
    agree::same("hit cost, hit bytes and dropped", &totals, &due)?;
    agree::same("inflation", &new.whole_inflation, &old.whole_inflation)?;
    let requests = make::further(random, &lent, 3);
    Ok(vec![first, carried(random, &mut lent, &requests)?])
}

/// Few files of two cuts each, now the one and now the other, in one call and in parts.
pub fn in_parts(random: &mut Random) -> Verdict {
    let mut settings = make::settings(random);
    settings.catalogue = settings.catalogue.min(8);
    let cuts: Vec<[u64; 2]> = (0..settings.catalogue)
        .map(|_| [make::size(random, &settings), make::size(random, &settings)])
        .collect();
    let count = random.below(121);
    let requests: Vec<Request> = (0..count)
        .map(|_| {
            let file = random.index(cuts.len());
            Request {
                file: file as u64,
                size: random.pick(&cuts[file]),
                cost: cost(random),
            }
        })
        .collect();
    whole_and_in_parts(random, &settings, &requests)
}
