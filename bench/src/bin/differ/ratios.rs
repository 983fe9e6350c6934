//! Ratios: of tallies that runs leave, of any good ones, and of damaged ones.
//! What ticket 3 asks of each is told here a second time, apart from the model.

use bench::model::limits::{MOST_EXACT, MOST_REQUESTS, MOST_SIZE};
use bench::model::red_card::{Answer, Refusal};
use bench::model::tally::{Tally, TALLY_WORDS};
use bench::model::trace::Request;
use bench::random::Random;

use crate::agree::{self, Lent};
use crate::recuts::{EVICT, HIT};
use crate::soundness::change_entry;
use crate::{make, Verdict};

/// Tallies in one case, good or damaged: the gate's 700 cases of either kind compare 140,000.
const TALLIES: usize = 100;

/// The words that are judged: requests, hits, admitted, passed, bytes asked and hit bytes.
const JUDGED: [usize; 6] = [8, 9, 10, 11, 13, 14];

/// Any old bits, one in four a NaN with whatever it carries.
pub fn old_ratio(word: u64) -> f64 {
    f64::from_bits(match word % 4 {
        0 => word | f64::INFINITY.to_bits(),
        _ => word,
    })
}

/// The answer with room for two or more, and the list as it is left.
fn asked(random: &mut Random, tally: &[u64]) -> Result<(Answer, Vec<f64>), String> {
    let mut list = make::old_list(random, 2, old_ratio);
    let given = agree::ratios(tally, &mut list)?;
    Ok((given, list))
}

/// The tally's words, at times with others behind them.
fn lent_words(random: &mut Random, tally: &Tally) -> Vec<u64> {
    let mut words = make::old_list(random, TALLY_WORDS, |word| word);
    words[..TALLY_WORDS].copy_from_slice(&tally.words());
    words
}

/// The sizes that a run was asked for, and those that hit: a hit has the size asked for.
#[derive(Default)]
struct Told {
    asked: Vec<u64>,
    hit: Vec<u64>,
}

impl Told {
    /// Each request's own entry, the only one that is no eviction or drop, says whether it hit.
    fn add(&mut self, requests: &[Request], events: &[u32]) {
        let kinds = events.iter().map(|event| event / 32_768);
        let own = kinds.filter(|&kind| kind < EVICT);
        for (request, kind) in requests.iter().zip(own) {
            self.asked.push(request.size);
            if kind == HIT {
                self.hit.push(request.size);
            }
        }
    }

    fn ratios(&self) -> [f64; 2] {
        let bytes = |sizes: &[u64]| sizes.iter().sum::<u64>() as f64;
        [
            self.hit.len() as f64 / self.asked.len() as f64,
            bytes(&self.hit) / bytes(&self.asked),
        ]
    }
}

/// After a fresh start, after each part of a run, and near the limit of a run.
pub fn of_runs(random: &mut Random) -> Verdict {
    let settings = make::settings(random);
    let mut lent = make::fresh_lent(random, &settings)?;
    let mut told = Told::default();
    let mut answers = Vec::new();
    for most in [0, 1, 5, 20, 60] {
        carry_on(random, &mut lent, &mut told, most)?;
        let (given, list) = asked(random, &lent.tally)?;
        if told.asked.is_empty() {
            agree::due(given, Answer::refused(Refusal::NoRequests))?;
        } else {
            agree::due(given, Answer::done(0))?;
            agree::same_bits("ratios told", &list[..2], &told.ratios())?;
        }
        answers.push(given);
    }
    let left = random.below(6);
    make::near_the_limit(random, &mut lent, left);
    answers.push(asked(random, &lent.tally)?.0);
    Ok(answers)
}

fn carry_on(
    random: &mut Random,
    lent: &mut Lent,
    told: &mut Told,
    most: u64,
) -> Result<(), String> {
    let requests = make::further(random, lent, most);
    let mut events = make::events_for(random, lent, requests.len());
    let (unit, part) = (lent.settings().unit, make::part_of(&requests));
    let given = agree::carry_on(unit, lent, &part, &mut events)?;
    told.add(&requests, &events[..given.value as usize]);
    Ok(())
}

/// A count of this range: at an end or beside it, small, beside a power of two, or any.
fn count(random: &mut Random, least: u64, most: u64) -> u64 {
    let small = random.below(20);
    let power: u64 = 1 << random.below(54);
    let beside = power + random.below(3) - 1;
    let shorter = random.word() >> random.between(10, 63);
    let any = random.between(least, most);
    let counts = [
        least,
        least + 1,
        most.saturating_sub(1),
        most,
        small,
        beside,
        shorter,
        any,
    ];
    random.pick(&counts).clamp(least, most)
}

/// So many bytes, or as many as a tally with ratios may have.
fn exact(bytes: u64) -> u64 {
    bytes.min(MOST_EXACT)
}

/// A tally of so many requests and hits, its other counts in their ranges and the words that are not judged anything.
fn tally_of(random: &mut Random, requests: u64, hits: u64) -> Tally {
    let admitted = count(random, 0, requests - hits);
    let hit_bytes = count(random, hits, exact(hits * MOST_SIZE));
    let least = requests.max(hit_bytes);
    let bytes_asked = count(random, least, exact(requests * MOST_SIZE));
    let any = std::array::from_fn(|_| random.word());
    Tally {
        requests,
        hits,
        admitted,
        passed: requests - hits - admitted,
        bytes_asked,
        hit_bytes,
        ..Tally::from_words(any)
    }
}

pub fn good_tally(random: &mut Random) -> Tally {
    let requests = count(random, 1, MOST_REQUESTS);
    let hits = count(random, 0, requests);
    tally_of(random, requests, hits)
}

/// What a fitter relies on, of any good tally and of the same with one hit more.
pub fn good(random: &mut Random) -> Verdict {
    let mut answers = Vec::new();
    for _ in 0..TALLIES {
        let tally = good_tally(random);
        let (given, ratios) = relied_on(random, &tally)?;
        answers.push(given);
        if let Some(more) = one_hit_more(random, &tally) {
            let (given, larger) = relied_on(random, &more)?;
            answers.push(given);
            let rises = ratios[0] < larger[0] && ratios[1] < larger[1];
            agree::same("larger with one hit more", &rises, &true)?;
        }
    }
    Ok(answers)
}

/// One miss becomes a hit of some of the bytes that were missed, where there are both.
fn one_hit_more(random: &mut Random, tally: &Tally) -> Option<Tally> {
    let missed = tally.bytes_asked - tally.hit_bytes;
    if tally.hits == tally.requests || missed == 0 {
        return None;
    }
    let mut more = *tally;
    more.hits += 1;
    more.hit_bytes += count(random, 1, missed.min(MOST_SIZE));
    if more.admitted > 0 {
        more.admitted -= 1;
    } else {
        more.passed -= 1;
    }
    Some(more)
}

/// The ratios of a good tally, and the answer.
fn relied_on(random: &mut Random, tally: &Tally) -> Result<(Answer, [f64; 2]), String> {
    let words = lent_words(random, tally);
    let (given, list) = asked(random, &words)?;
    agree::due(given, Answer::done(0))?;
    as_told("hit ratio", list[0], tally.hits, tally.requests)?;
    as_told(
        "byte hit ratio",
        list[1],
        tally.hit_bytes,
        tally.bytes_asked,
    )?;
    Ok((given, [list[0], list[1]]))
}

/// 1 where the counts are equal, 0 where nothing hit, else between, and always the nearest double.
fn as_told(what: &str, ratio: f64, part: u64, whole: u64) -> Result<(), String> {
    let given = [
        ratio == 1.0,
        ratio.to_bits() == 0,
        0.0 < ratio && ratio < 1.0,
    ];
    let due = [part == whole, part == 0, 0 < part && part < whole];
    agree::same(&format!("{what} is 1, 0, between"), &given, &due)?;
    agree::same(
        &format!("{what} is nearest"),
        &is_nearest(ratio, part, whole),
        &true,
    )
}

/// By whole numbers alone: the ratio is so many parts of a power of two, and off by half a part at most.
fn is_nearest(ratio: f64, part: u64, whole: u64) -> bool {
    if part == 0 {
        return ratio.to_bits() == 0;
    }
    // The exponent comes first, 1,075 for parts of 1, then 52 bits of the parts behind a 1 that is not written.
    let (exponent, written) = (ratio.to_bits() >> 52, ratio.to_bits() % (1 << 52));
    let parts = u128::from(written + (1 << 52));
    let off = (parts * u128::from(whole)).abs_diff(u128::from(part) << (1_075 - exponent));
    2 * off <= u128::from(whole)
}

/// Counts at a bound and one beyond, sums that agree only modulo 2 to the 64th, and single words changed.
pub fn damaged(random: &mut Random) -> Verdict {
    let unsound = Some(Answer::refused(Refusal::Unsound));
    let inexact = Some(Answer::refused(Refusal::Inexact));
    let mut answers = Vec::new();
    for _ in 0..TALLIES {
        let (tally, due) = match random.below(8) {
            0 => (at_a_bound(random, 0), Some(Answer::done(0))),
            1 => (at_a_bound(random, 1), unsound),
            2 => (past_64_bits(random), unsound),
            3 => (past_doubles(random), inexact),
            _ => (one_word_changed(random), None),
        };
        let words = lent_words(random, &tally);
        let (given, _) = asked(random, &words)?;
        if let Some(due) = due {
            agree::due(given, due)?;
        }
        answers.push(given);
    }
    Ok(answers)
}

/// A tally that meets one of the clauses with nothing to spare, or misses that one alone by one.
pub fn at_a_bound(random: &mut Random, by: u64) -> Tally {
    // Where the clause is met there are ratios, so of all the requests none may be too many bytes.
    let most_requests = match by {
        0 => MOST_EXACT / MOST_SIZE,
        _ => MOST_REQUESTS,
    };
    let requests = count(random, 2, most_requests);
    // Hits that can have more bytes than there are requests.
    let hits = count(random, requests / MOST_SIZE + 1, requests - 1);
    let tally = tally_of(random, requests, hits);
    let most = requests * MOST_SIZE;
    let bytes = |hit_bytes, bytes_asked| Tally {
        hit_bytes,
        bytes_asked,
        ..tally
    };
    match random.below(8) {
        0 => Tally {
            passed: tally.passed + by,
            ..tally
        },
        1 => tally_of(random, MOST_REQUESTS + by, hits),
        2 => bytes(hits - by, tally.bytes_asked),
        3 => bytes(hits * MOST_SIZE + by, most),
        4 => Tally {
            hit_bytes: by,
            ..tally_of(random, requests, 0)
        },
        5 => {
            let hit_bytes = count(random, requests + 1, hits * MOST_SIZE);
            bytes(hit_bytes, hit_bytes - by)
        }
        6 => bytes(count(random, hits, requests - 1), requests - by),
        _ => bytes(tally.hit_bytes, most + by),
    }
}

/// A tally that is sound as far as it is judged, with more bytes asked than a double holds exactly.
pub fn past_doubles(random: &mut Random) -> Tally {
    let requests = count(random, MOST_EXACT / MOST_SIZE + 1, MOST_REQUESTS);
    let hits = count(random, 0, requests);
    let bytes_asked = count(random, MOST_EXACT + 1, requests * MOST_SIZE);
    let hit_bytes = count(random, hits, bytes_asked.min(hits * MOST_SIZE));
    Tally {
        hit_bytes,
        bytes_asked,
        ..tally_of(random, requests, hits)
    }
}

/// Admitted and passed add up to the misses only where the sum is cut off.
fn past_64_bits(random: &mut Random) -> Tally {
    let mut tally = good_tally(random);
    let misses = tally.admitted + tally.passed;
    let few = random.between(1, 9);
    let any = random.between(1, 1 << 63);
    let by = random.pick(&[few, any, 1 << 63]);
    [tally.admitted, tally.passed] = [misses + by, by.wrapping_neg()];
    if random.one_in(2) {
        std::mem::swap(&mut tally.admitted, &mut tally.passed);
    }
    tally
}

/// A good tally but for one of the words that are judged, which may be good all the same.
fn one_word_changed(random: &mut Random) -> Tally {
    let mut words = good_tally(random).words();
    let at = random.pick(&JUDGED);
    change_entry(random, &mut words, at, u64::MAX);
    Tally::from_words(words)
}
