//! Times a season in one run, served in parts: `season [REQUESTS [PART]]`.
//!
//! Each part is made anew and served under either policy in turn, so that no more than one of them is in memory; only
//! the calls are timed. The last tenth beside the first shows whether a run slows down as it goes on.

use std::process::ExitCode;
use std::time::Instant;

use bench::boundary::NOW;
use bench::model::limits::{MOST_CATALOGUE, MOST_COST, MOST_REQUESTS};
use bench::model::tally::{Settings, Tally};
use bench::model::trace::write_number;
use bench::store::Store;
use bench::workload::{Sort, HIT_HEAVY, MISS_HEAVY, MOST_AT_ONCE};

const DEFAULT_REQUESTS: u64 = 100_000_000;
const DEFAULT_PART: u64 = 1_000_000;
const PLACES: u64 = 4_096;

/// A season has at least this many parts, so that its first and last tenth are whole parts.
const TENTHS: u64 = 10;

fn main() -> ExitCode {
    let arguments: Vec<String> = std::env::args().skip(1).collect();
    let number = |at: usize, other| arguments.get(at).map_or(Ok(other), |text| text.parse());
    let numbers = (number(0, DEFAULT_REQUESTS), number(1, DEFAULT_PART));
    let (Ok(requests @ TENTHS..=MOST_REQUESTS), Ok(part @ 1..=MOST_AT_ONCE)) = numbers else {
        eprintln!("season [REQUESTS [PART]]");
        return ExitCode::from(2);
    };
    let part = part.min(requests / TENTHS);
    println!("{requests} requests over {MOST_CATALOGUE} files, in parts of {part}");
    println!("nanoseconds a request: of all, of the first tenth, of the last tenth");
    println!("workload    policy places  hits  lifts     all   first    last  last/first");
    for sort in [HIT_HEAVY, MISS_HEAVY] {
        zipf(&sort, requests, part);
    }
    in_turn(requests, part);
    ExitCode::SUCCESS
}

/// The benchmark's traces, carried on without an end.
fn zipf(sort: &Sort, requests: u64, part: u64) {
    let mut asking = sort.asking();
    let settings = [1, 2].map(|policy| sort.settings(policy, PLACES));
    time(sort.name, settings, requests, part, |bytes, _, count| {
        asking.fill(bytes, count);
    });
}

/// One place and files of the largest worth in turn: no run lifts more often.
fn in_turn(requests: u64, part: u64) {
    let settings = [1, 2].map(|policy| Settings {
        unit: 7,
        policy,
        capacity: 1,
        places: 1,
        catalogue: 2,
    });
    time(
        "in turn",
        settings,
        requests,
        part,
        |bytes, served, count| {
            bytes.clear();
            for request in served..served + count {
                for number in [request % 2, 1, MOST_COST] {
                    write_number(number, bytes);
                }
            }
        },
    );
}

/// Serves a season under both policies; `fill` makes the part after so many requests.
fn time(
    name: &str,
    settings: [Settings; 2],
    requests: u64,
    part: u64,
    mut fill: impl FnMut(&mut Vec<u8>, u64, u64),
) {
    let mut stores = settings.map(|settings| Store::new(settings, part));
    stores.iter_mut().for_each(|store| store.fresh(&NOW));
    let mut times = [const { Vec::new() }; 2];
    let mut bytes = Vec::new();
    let mut served = 0;
    while served < requests {
        let count = part.min(requests - served);
        fill(&mut bytes, served, count);
        served += count;
        for (store, times) in stores.iter_mut().zip(&mut times) {
            let start = Instant::now();
            store.carry_on(&NOW, &bytes);
            times.push((count, start.elapsed().as_nanos()));
        }
    }
    for (store, times) in stores.iter().zip(&times) {
        let tally = Tally::from_words(store.tally);
        assert_eq!(tally.requests, requests, "every request is served");
        print_line(name, &tally, times);
    }
}

/// The times of the parts are with the requests that each of them had.
fn print_line(name: &str, tally: &Tally, times: &[(u64, u128)]) {
    let each = |times: &[(u64, u128)]| {
        let requests: u64 = times.iter().map(|&(count, _)| count).sum();
        let nanoseconds: u128 = times.iter().map(|&(_, nanoseconds)| nanoseconds).sum();
        nanoseconds as f64 / requests as f64
    };
    let tenth = times.len() / TENTHS as usize;
    let [first, last] = [&times[..tenth], &times[times.len() - tenth..]].map(each);
    println!(
        "{name:<11} {:>6} {:>6} {:>4.0}% {:>6} {:>7.1} {first:>7.1} {last:>7.1} {:>11.2}",
        tally.settings.policy,
        tally.settings.places,
        100.0 * tally.hits as f64 / tally.requests as f64,
        tally.lifts,
        each(times),
        last / first
    );
}
