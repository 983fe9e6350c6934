//! Ticket 5 over crafted tables: lifts before the first request and later ones, and the end of the frequencies.
//! What the ticket asks of each is told here a second time, apart from the model.

use bench::model::lifts::whole;
use bench::model::limits::{
    product, LIFT, MOST_COST, MOST_FREQUENCY, MOST_REQUESTS, MOST_SIZE, MOST_WORTH,
};
use bench::model::red_card::{Answer, Refusal};
use bench::model::run::Kept;
use bench::model::tally::Settings;
use bench::model::trace::Request;
use bench::random::Random;

use crate::agree::{self, Lent};
use crate::bounds::{files_of, requests_for, with_inflation, LIFTS_WORD};
use crate::craft::settings_and_records;
use crate::recuts::{asked, shelf, EVICT, HIT};
use crate::runs::{carried, lent_whole_and_in_parts};
use crate::{make, Verdict};

/// Room for the requests that a case makes.
const MADE: u64 = 100;

/// Sound tables with this L, any lifts that they have room for, and room for requests.
fn with_word(
    random: &mut Random,
    files: (Settings, Vec<Kept>),
    lifts: u64,
    inflation: u64,
) -> Lent {
    let requests = requests_for(random, &files.1, whole(lifts, inflation));
    with_inflation(
        random,
        files,
        requests.min(MOST_REQUESTS - MADE),
        (lifts, inflation),
    )
}

/// A lift is due; an empty part and a refused call leave it so, and the first request makes it, whatever it comes to.
pub fn due(random: &mut Random) -> Verdict {
    let mut files = files_of(random, &[1, 2]);
    if random.one_in(2) {
        leave_no_room(&mut files);
    }
    let few = random.below(100);
    let any = random.below(LIFT);
    let lifts = random.below(4_000);
    let inflation = LIFT + random.pick(&[0, few, any, LIFT - 1]);
    let mut lent = with_word(random, files, lifts, inflation);
    let request = first_request(random, &lent);
    let before = lent.clone();

    let empty = carried(random, &mut lent, &[])?;
    agree::same_list("tally after no request", &lent.tally, &before.tally)?;
    agree::same_list("shelf after no request", &shelf(&lent), &shelf(&before))?;
    let (unit, part) = (lent.settings().unit, make::part_of(&[request]));
    let short = 1 + lent.read_tally().files_kept as usize;
    let mut events = make::exact_list(random, short, |word| word as u32);
    let refused = agree::carry_on(unit, &mut lent, &part, &mut events)?;
    agree::due(refused, Answer::refused(Refusal::Room))?;

    let (served, events) = asked(random, &mut lent, request)?;
    lifted_first(&before, &lent, request, &events)?;
    let requests = make::further(random, &lent, 12);
    let rest = carried(random, &mut lent, &requests)?;
    Ok(vec![empty, refused, served, rest])
}

/// So that a newcomer evicts, or is low.
fn leave_no_room((settings, records): &mut (Settings, Vec<Kept>)) {
    settings.places = records.len() as u64;
    settings.capacity = records.iter().map(|kept| kept.size).sum();
}

/// As often as not for a kept file, in its size or in another, and at times too big.
fn first_request(random: &mut Random, lent: &Lent) -> Request {
    let settings = lent.settings();
    let kept = random.pick(&shelf(lent));
    let any_file = random.below(settings.catalogue);
    let file = random.pick(&[kept.file, any_file]);
    let other = make::recut(random, &settings, kept.size);
    let any_size = make::size(random, &settings);
    let above = (settings.capacity + 1).min(MOST_SIZE);
    Request {
        file,
        size: random.pick(&[kept.size, kept.size, other, any_size, above]),
        cost: random.pick(&[0, 1, 1, MOST_COST]),
    }
}

/// One lift more; files that stay have their keys less the amount, and so has L, or the key that it was set to.
fn lifted_first(
    before: &Lent,
    lent: &Lent,
    request: Request,
    events: &[u32],
) -> Result<(), String> {
    let (old, new) = (before.read_tally(), lent.read_tally());
    agree::same("lifts", &new.lifts, &(old.lifts + 1))?;
    let old_shelf = shelf(before);
    let kept_before = |file: u64| old_shelf.iter().find(|kept| kept.file == file);
    let evicted = events.iter().rfind(|&event| event / 32_768 == EVICT);
    let last = evicted.and_then(|event| kept_before((event % 32_768).into()));
    let source = last.map_or(old.inflation().into(), |kept| kept.key);
    let amount = u128::from(LIFT);
    agree::same("L", &u128::from(new.inflation()), &(source - amount))?;
    for kept in shelf(lent) {
        if kept.file == request.file && kept.stamp == old.requests {
            continue;
        }
        let was = kept_before(kept.file).map(|was| Kept {
            key: was.key - amount,
            ..*was
        });
        agree::same("a file that stays", &Some(kept), &was)?;
    }
    Ok(())
}

/// The same whole numbers twice, once with the lift made and once with it due: one request makes them the same.
pub fn twins(random: &mut Random) -> Verdict {
    let files = settings_and_records(random);
    let lifts = random.between(1, 4_000);
    let few = random.below(100);
    let any = random.below(LIFT);
    let inflation = random.pick(&[0, few, any, LIFT - 1]);
    let lifted = with_word(random, files, lifts, inflation);
    let mut waiting = lifted.clone();
    let tally = lifted.read_tally();
    waiting.tally[INFLATION_WORD] += LIFT;
    waiting.tally[LIFTS_WORD] -= 1;
    for entry in 0..tally.files_kept as usize {
        waiting.tables.key[usize::from(lifted.tables.queue[entry])] += LIFT;
    }

    let mut asking = make::Asking::over(&lifted);
    let mut requests = asking.requests(random, 20);
    requests.push(asking.request(random));
    let part = make::part_of(&requests);
    let mut answers = Vec::new();
    let mut ends = Vec::new();
    for mut lent in [lifted, waiting] {
        let mut events = make::events_for(random, &lent, requests.len());
        let given = agree::carry_on(tally.settings.unit, &mut lent, &part, &mut events)?;
        events.truncate(given.value as usize);
        ends.push((events, lent.tally[..=LIFTS_WORD].to_vec(), shelf(&lent)));
        answers.push(given);
    }
    agree::same_list("twin's events", &ends[0].0, &ends[1].0)?;
    agree::same_list("twin's tally", &ends[0].1, &ends[1].1)?;
    agree::same_list("twin's shelf", &ends[0].2, &ends[1].2)?;
    Ok(answers)
}

/// Where the tally has L.
const INFLATION_WORD: usize = 5;

/// L a few evictions of the largest worth below a lift, and files of that worth asked for in one part and in parts.
pub fn later(random: &mut Random) -> Verdict {
    let (settings, records) = files_of(random, &[1, 2]);
    let below = random.below(8) * MOST_WORTH + random.below(3);
    let lifts = random.below(4_000);
    let lent = with_word(random, (settings, records), lifts, LIFT - 1 - below);
    let mut asking = make::Asking::over(&lent);
    let count = random.between(1, 80);
    let requests: Vec<Request> = (0..count)
        .map(|_| match random.below(4) {
            0 => asking.request(random),
            _ => Request {
                file: random.below(settings.catalogue),
                size: 1,
                cost: MOST_COST,
            },
        })
        .collect();
    lent_whole_and_in_parts(random, lent, &requests)
}

/// Hits of a file near the end of the frequencies: it stops there, and each still sets key and stamp.
pub fn frequency(random: &mut Random) -> Verdict {
    let mut files = files_of(random, &[2]);
    let start = MOST_FREQUENCY - random.below(3);
    let index = random.index(files.1.len());
    files.1[index].frequency = start;
    let kept = files.1[index];
    let lifts = random.below(3);
    let inflation = random.pick(&[0, LIFT - 1, LIFT, 2 * LIFT - 1]);
    let mut lent = with_word(random, files, lifts, inflation);
    let request = Request {
        file: kept.file,
        size: kept.size,
        cost: 1,
    };
    let mut answers = Vec::new();
    for hits in 1..=4 {
        let served = lent.read_tally().requests;
        let (answer, events) = asked(random, &mut lent, request)?;
        agree::same_list("events", &events, &[HIT * 32_768 + kept.file as u32])?;
        let frequency = MOST_FREQUENCY.min(start + hits);
        let credit = product(frequency, kept.cost, kept.size);
        let due = Kept {
            frequency,
            key: u128::from(lent.read_tally().inflation()) + credit,
            stamp: served,
            ..kept
        };
        let found = shelf(&lent).into_iter().find(|file| file.file == kept.file);
        agree::same("the file that was hit", &found, &Some(due))?;
        answers.push(answer);
    }
    let requests = make::further(random, &lent, 12);
    answers.push(carried(random, &mut lent, &requests)?);
    Ok(answers)
}
