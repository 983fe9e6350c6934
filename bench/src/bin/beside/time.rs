//! Times both archives in turn over the benchmark's traces, in the same memory.

use std::time::Instant;

use bench::boundary::{Library, BEFORE, NOW};
use bench::model::limits::MOST_CATALOGUE;
use bench::model::tables::Tables;
use bench::model::tally::TALLY_WORDS;
use bench::store::{median, Store};
use bench::workload::{self, Workload, PLACES};

const ARCHIVES: [&Library; 2] = [&BEFORE, &NOW];

/// What a run left: its events, tally and tables.
type End = (Vec<u32>, [u64; TALLY_WORDS], Tables);

/// Prints a line for each trace, policy and number of places, or tells where the archives differ.
pub fn time_all(requests: u64, runs: u64, policies: &[u64]) -> Result<(), String> {
    println!(
        "{requests} requests over {MOST_CATALOGUE} files, {runs} runs of each archive in turn"
    );
    println!(
        "nanoseconds a request, medians; then now/before of each run: median, lowest, highest"
    );
    println!("workload    policy places   before      now  now/before  lowest  highest");
    for workload in &workload::all(requests) {
        for &policy in policies {
            for places in PLACES {
                time(workload, policy, places, runs)?;
            }
        }
    }
    println!("events, tallies and tables of both agree in every run");
    Ok(())
}

fn time(workload: &Workload, policy: u64, places: u64, runs: u64) -> Result<(), String> {
    let name = format!("{:<11} {policy:>6} {places:>6}", workload.name);
    let mut store = Store::new(workload.settings(policy, places), workload.requests);
    let mut times = [const { Vec::new() }; 2];
    for run in 0..runs {
        let mut ends: [Option<End>; 2] = [None, None];
        // Neither is always the first.
        let order = if run % 2 == 0 { [0, 1] } else { [1, 0] };
        for at in order {
            let (nanoseconds, end) = timed(&mut store, ARCHIVES[at], &workload.part);
            times[at].push(nanoseconds);
            ends[at] = Some(end);
        }
        if ends[0] != ends[1] {
            return Err(format!("{name}: the archives differ in run {run}"));
        }
    }
    print_line(&name, times, workload.requests as f64);
    Ok(())
}

fn timed(store: &mut Store, library: &Library, part: &[u8]) -> (u128, End) {
    // The other archive's events must not stand in for events that this one fails to write.
    store.events.fill(0);
    store.fresh(library);
    let start = Instant::now();
    let count = store.carry_on(library, part);
    let nanoseconds = start.elapsed().as_nanos();
    let events = store.events[..count].to_vec();
    (nanoseconds, (events, store.tally, store.tables.clone()))
}

fn print_line(name: &str, times: [Vec<u128>; 2], requests: f64) {
    let pairs = times[0].iter().zip(&times[1]);
    let mut ratios: Vec<f64> = pairs
        .map(|(&before, &now)| now as f64 / before as f64)
        .collect();
    ratios.sort_by(f64::total_cmp);
    let [lowest, middle, highest] = [0, ratios.len() / 2, ratios.len() - 1].map(|at| ratios[at]);
    let [before, now] = times.map(|times| median(times) / requests);
    println!("{name} {before:>8.1} {now:>8.1} {middle:>11.3} {lowest:>7.3} {highest:>8.3}");
}
