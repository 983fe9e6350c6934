//! One call of the library beside the model's: the answer and every lent entry must agree.

use std::fmt::Debug;
use std::hint::black_box;
use std::sync::atomic::{AtomicU64, Ordering};

use bench::boundary::NOW;
pub use bench::lent::Lent;
use bench::model::limits::LIFT;
use bench::model::ratios::ratios_into;
use bench::model::red_card::{Answer, Refusal};
use bench::model::sheet::sheet_into;
use bench::model::soundness::sound;
use bench::model::squid;
use bench::model::tables::{self, Carried, Tables};
use bench::model::tally::{Settings, Tally, TALLY_WORDS};
use bench::model::trace::{self, Lists, Request};
pub use bench::same::{same, same_bits, same_list};

pub type Agreement = Result<Answer, String>;

/// Recuts that the library told of since they were last taken: admitted, big and low.
static RECUTS: [AtomicU64; 3] = [const { AtomicU64::new(0) }; 3];

/// Lifts since they were last taken: before the first request of a call by the kind of its first event, and later ones.
static LIFTS: [AtomicU64; 7] = [const { AtomicU64::new(0) }; 7];

/// Counted beside the answers, since every call that carries on may tell of some.
pub fn take_recuts() -> [u64; 3] {
    take(&RECUTS)
}

pub fn take_lifts() -> [u64; 7] {
    take(&LIFTS)
}

fn take<const N: usize>(counts: &[AtomicU64; N]) -> [u64; N] {
    counts
        .each_ref()
        .map(|count| count.swap(0, Ordering::Relaxed))
}

fn count_lifts(before: &Tally, after: &Tally, events: &[u32]) {
    let first = events.first().filter(|_| before.inflation() >= LIFT);
    if let Some(event) = first {
        LIFTS[(event / 32_768 - 1) as usize].fetch_add(1, Ordering::Relaxed);
    }
    let later = after.lifts - before.lifts - u64::from(first.is_some());
    LIFTS[6].fetch_add(later, Ordering::Relaxed);
}

/// What a recut comes to is the next kind of event after `stale` that is no eviction.
fn count_recuts(kinds: impl Iterator<Item = u32>) {
    let mut is_recut = false;
    for kind in kinds {
        match kind {
            6 => is_recut = true,
            5 => {}
            _ => {
                let outcome = kind.checked_sub(2).filter(|_| is_recut);
                let count = outcome.and_then(|outcome| RECUTS.get(outcome as usize));
                count.map(|count| count.fetch_add(1, Ordering::Relaxed));
                is_recut = false;
            }
        }
    }
}

/// The kinds of a sheet's event lines; other lines have none.
fn kinds_of(sheet: &[u8]) -> impl Iterator<Item = u32> + '_ {
    let kinds = ["hit ", "admit ", "big ", "low ", "evict ", "stale "];
    sheet.split(|&byte| byte == b'\n').filter_map(move |line| {
        let kind = kinds
            .iter()
            .position(|name| line.starts_with(name.as_bytes()));
        kind.map(|kind| kind as u32 + 1)
    })
}

pub fn fresh(settings: &Settings, lent: &mut Lent) -> Agreement {
    let mut expected = lent.clone();
    let result = tables::fresh(settings, &mut expected.tally, &mut expected.tables);
    let given = NOW.fresh(settings, &mut lent.tally, lent.tables.lend());
    same_answer(given, result.map(|()| 0))?;
    lent.same_as(&expected)?;
    Ok(given)
}

pub fn carry_on(unit: u64, lent: &mut Lent, part: &[u8], events: &mut [u32]) -> Agreement {
    let before = lent.clone();
    let mut expected = events.to_vec();
    let result = tables::carry_on(unit, &before.tally, &before.tables, part, events.len());
    let given = NOW.carry_on(unit, &mut lent.tally, lent.tables.lend(), part, events);
    let count = result.as_ref().map(|carried| carried.events.len());
    same_answer(given, count.map_err(|refusal| *refusal))?;
    match result {
        Err(_) => lent.same_as(&before)?,
        Ok(carried) => {
            expected[..carried.events.len()].copy_from_slice(&carried.events);
            carried_alike(lent, &before, &carried)?;
            count_recuts(carried.events.iter().map(|event| event / 32_768));
            count_lifts(&before.read_tally(), &carried.run.tally, &carried.events);
        }
    }
    same_list("events", events, &expected)?;
    Ok(given)
}

/// The tally word by word, the shelf file by file, and nothing written beyond what is needed.
fn carried_alike(lent: &Lent, before: &Lent, carried: &Carried) -> Result<(), String> {
    let mut tally = before.tally.clone();
    tally[..TALLY_WORDS].copy_from_slice(&carried.run.tally.words());
    same_list("tally", &lent.tally, &tally)?;
    let Settings {
        places, catalogue, ..
    } = carried.run.tally.settings;
    same_beyond(
        &lent.tables,
        &before.tables,
        catalogue as usize,
        places as usize,
    )?;
    if !sound(&carried.run.tally, &lent.tables) {
        return Err("the tables are left unsound".into());
    }
    same_list("shelf", &lent.tables.shelf(catalogue), &carried.run.shelf())
}

fn same_beyond(
    given: &Tables,
    before: &Tables,
    catalogue: usize,
    places: usize,
) -> Result<(), String> {
    same_list(
        "place beyond",
        &given.place[catalogue..],
        &before.place[catalogue..],
    )?;
    same_list("file beyond", &given.file[places..], &before.file[places..])?;
    same_list("size beyond", &given.size[places..], &before.size[places..])?;
    same_list("cost beyond", &given.cost[places..], &before.cost[places..])?;
    same_list("freq beyond", &given.freq[places..], &before.freq[places..])?;
    same_list("key beyond", &given.key[places..], &before.key[places..])?;
    same_list(
        "stamp beyond",
        &given.stamp[places..],
        &before.stamp[places..],
    )?;
    same_list(
        "queue beyond",
        &given.queue[places..],
        &before.queue[places..],
    )
}

pub fn read_file(bytes: &[u8], settings: &mut [u64], lists: &mut Lists) -> Agreement {
    let mut expected = (settings.to_vec(), lists.clone());
    let result = trace::read_file(bytes, &mut expected.0, &mut expected.1);
    let given = NOW.read_file(bytes, settings, lists.lend());
    same_answer(given, result)?;
    same_list("settings", settings, &expected.0)?;
    same_lists(lists, &expected.1)?;
    Ok(given)
}

pub fn read_part(catalogue: u64, bytes: &[u8], lists: &mut Lists) -> Agreement {
    let mut expected = lists.clone();
    let result = trace::read_part(catalogue, bytes, &mut expected);
    let given = NOW.read_part(catalogue, bytes, lists.lend());
    same_answer(given, result)?;
    same_lists(lists, &expected)?;
    Ok(given)
}

pub fn write_file(settings: &Settings, lists: &Lists, out: &mut [u8]) -> Agreement {
    let mut expected = out.to_vec();
    let result = trace::write_file(settings, lists, &mut expected);
    let given = NOW.write_file(settings, &lists.files, &lists.sizes, &lists.costs, out);
    same_answer(given, result)?;
    same_list("out", out, &expected)?;
    Ok(given)
}

pub fn write_part(catalogue: u64, lists: &Lists, out: &mut [u8]) -> Agreement {
    let mut expected = out.to_vec();
    let result = trace::write_part(catalogue, lists, &mut expected);
    let given = NOW.write_part(catalogue, &lists.files, &lists.sizes, &lists.costs, out);
    same_answer(given, result)?;
    same_list("out", out, &expected)?;
    Ok(given)
}

pub fn sheet(trace: &[u8], out: &mut [u8]) -> Agreement {
    let mut expected = out.to_vec();
    let result = sheet_into(trace, &mut expected);
    let given = NOW.sheet(trace, out);
    same_answer(given, result)?;
    same_list("sheet", out, &expected)?;
    if given.number == 0 {
        count_recuts(kinds_of(&out[..given.value as usize]));
    }
    Ok(given)
}

pub fn squid_file(settings: &Settings, log: &[u8], out: &mut [u8]) -> Agreement {
    let mut expected = out.to_vec();
    let result = squid::squid_file(settings, log, &mut expected);
    let given = framed(out, BYTE, |out| NOW.squid_file(settings, log, out))?;
    same_answer(given, result)?;
    same_list("out", out, &expected)?;
    Ok(given)
}

pub fn squid_part(catalogue: u64, log: &[u8], out: &mut [u8]) -> Agreement {
    let mut expected = out.to_vec();
    let result = squid::squid_part(catalogue, log, &mut expected);
    let given = framed(out, BYTE, |out| NOW.squid_part(catalogue, log, out))?;
    same_answer(given, result)?;
    same_list("out", out, &expected)?;
    Ok(given)
}

/// The ratios bit for bit, and the tally's words as they were.
pub fn ratios(tally: &[u64], list: &mut [f64]) -> Agreement {
    let before = tally.to_vec();
    let mut expected = list.to_vec();
    let result = ratios_into(tally, &mut expected);
    // A frame that is neither 0 nor a NaN is equal only where its bits are.
    let given = framed(list, -7.5, |list| NOW.ratios(tally, list))?;
    same_answer(given, result)?;
    same_bits("ratios", list, &expected)?;
    // The compiler may take a shared slice to be unchanged, so it is read anew.
    same_list("tally", black_box(tally), &before)?;
    Ok(given)
}

/// The byte that frames a buffer.
const BYTE: u8 = 0xa5;

/// Lends the middle of a longer list; nothing before it and nothing behind it may change.
fn framed<T: Copy + PartialEq + Debug>(
    out: &mut [T],
    filler: T,
    call: impl FnOnce(&mut [T]) -> Answer,
) -> Agreement {
    let frame = [filler; 24];
    let mut longer = [&frame, &*out, &frame].concat();
    let (before, rest) = longer.split_at_mut(frame.len());
    let (lent, behind) = rest.split_at_mut(out.len());
    let given = call(lent);
    out.copy_from_slice(lent);
    same_list("entries before out", before, &frame)?;
    same_list("entries behind out", behind, &frame)?;
    Ok(given)
}

/// What the program printed is the model's sheet.
pub fn printed(given: &[u8], expected: &str) -> Agreement {
    same_list("printed sheet", given, expected.as_bytes())?;
    count_recuts(kinds_of(given));
    Ok(said(given))
}

/// What a sheet says by its text: refused by a number, or done.
pub fn said(sheet: &[u8]) -> Answer {
    let text = std::str::from_utf8(sheet).unwrap_or("");
    let number = text.strip_prefix("refused ").map(str::trim_end);
    Answer {
        value: 0,
        number: number.map_or(0, |digits| digits.parse().expect("a number is refused by")),
    }
}

/// Checks the number itself, where a case knows which one is due.
pub fn due(given: Answer, due: Answer) -> Result<(), String> {
    same("the answer due", &given, &due)
}

fn same_answer(given: Answer, expected: Result<usize, Refusal>) -> Result<(), String> {
    let expected = expected.map_or_else(Answer::refused, Answer::done);
    same("answer", &given, &expected)
}

/// The entries that a reader wrote are these requests.
pub fn same_requests(given: &Lists, expected: &[Request]) -> Result<(), String> {
    let read: Vec<Request> = (0..expected.len()).map(|at| given.request(at)).collect();
    same_list("requests read back", &read, expected)
}

fn same_lists(given: &Lists, expected: &Lists) -> Result<(), String> {
    same_list("files", &given.files, &expected.files)?;
    same_list("sizes", &given.sizes, &expected.sizes)?;
    same_list("costs", &given.costs, &expected.costs)
}
