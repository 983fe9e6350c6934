//! Times the library beside the usual way over the same traces, and beside the plain way over a Squid log:
//! `bench [REQUESTS [RUNS]]`, or `bench squid [RUNS]` for the log alone.

mod decode;
mod logs;
mod plain;
mod usual;

use std::hint::black_box;
use std::process::ExitCode;
use std::time::Instant;

use bench::boundary::NOW;
use bench::model::limits::MOST_CATALOGUE;
use bench::model::tally::Settings;
use bench::store::{median, Store};
use bench::workload::{self, Workload, MOST_AT_ONCE, PLACES};

use usual::Usual;

const DEFAULT_REQUESTS: u64 = 1_000_000;
const DEFAULT_RUNS: u64 = 5;

/// Where the tally has its hits.
const HITS_WORD: usize = 9;

/// Medians of one trace under one policy and number of places, in nanoseconds a request.
struct Line {
    workload: &'static str,
    policy: u64,
    places: u64,
    hits: f64,
    decode: f64,
    library: f64,
    usual: f64,
}

fn main() -> ExitCode {
    let mut arguments: Vec<String> = std::env::args().skip(1).collect();
    let log_alone = arguments.first().is_some_and(|word| word == "squid");
    if log_alone {
        arguments[0] = DEFAULT_REQUESTS.to_string();
    }
    let number = |at: usize, other| arguments.get(at).map_or(Ok(other), |text| text.parse());
    let (requests, runs) = (number(0, DEFAULT_REQUESTS), number(1, DEFAULT_RUNS));
    let (Ok(requests @ 1..=MOST_AT_ONCE), Ok(runs @ 1..)) = (requests, runs) else {
        eprintln!("bench [REQUESTS [RUNS]] | bench squid [RUNS]");
        return ExitCode::from(2);
    };
    let timed = if log_alone {
        println!("medians of {runs} runs");
        logs::time_all(runs)
    } else {
        traces(requests, runs).and_then(|()| logs::time_all(runs))
    };
    if let Err(difference) = timed {
        println!("{difference}");
        return ExitCode::FAILURE;
    }
    ExitCode::SUCCESS
}

fn traces(requests: u64, runs: u64) -> Result<(), String> {
    println!("{requests} requests over {MOST_CATALOGUE} files, medians of {runs} runs");
    let workloads = workload::all(requests);
    let lines = time_all(&workloads, runs)?;
    print_growth(&lines);
    print_calls(&workloads[0], runs);
    Ok(())
}

fn time_all(workloads: &[Workload], runs: u64) -> Result<Vec<Line>, String> {
    println!("library: tables fresh, event list not cleared; usual: its own memory each run");
    println!("nanoseconds a request; in the last column the decoding is taken from both");
    println!(
        "workload    policy places  hits  decode  library   usual  library/usual  less decode"
    );
    let mut lines = Vec::new();
    for workload in workloads {
        for policy in [1, 2] {
            for places in PLACES {
                let line = timed(workload.settings(policy, places), workload, runs)?;
                print_line(&line);
                lines.push(line);
            }
        }
    }
    println!("events of both ways agree in every run");
    Ok(lines)
}

fn timed(settings: Settings, workload: &Workload, runs: u64) -> Result<Line, String> {
    let mut store = Store::new(settings, workload.requests);
    let [mut library, mut usual, mut decode] = [const { Vec::new() }; 3];
    for _ in 0..runs {
        store.fresh(&NOW);
        let start = Instant::now();
        let count = store.carry_on(&NOW, &workload.part);
        library.push(start.elapsed().as_nanos());

        let start = Instant::now();
        let mut other = Usual::new(settings, workload.requests as usize);
        decode::requests(&workload.part).for_each(|request| other.serve(request));
        usual.push(start.elapsed().as_nanos());

        let start = Instant::now();
        for request in decode::requests(&workload.part) {
            black_box(request);
        }
        decode.push(start.elapsed().as_nanos());

        let sums = [checksum(&store.events[..count]), checksum(&other.events)];
        if sums[0] != sums[1] {
            let Settings { policy, places, .. } = settings;
            return Err(format!(
                "{} policy {policy} places {places}: events differ, checksums {sums:x?}",
                workload.name
            ));
        }
    }
    let each = |times| median(times) / workload.requests as f64;
    Ok(Line {
        workload: workload.name,
        policy: settings.policy,
        places: settings.places,
        hits: store.tally[HITS_WORD] as f64 / workload.requests as f64,
        decode: each(decode),
        library: each(library),
        usual: each(usual),
    })
}

/// A sum over the events that depends on their order.
fn checksum(events: &[u32]) -> u64 {
    events.iter().fold(0xcbf2_9ce4_8422_2325, |sum, &event| {
        (sum ^ u64::from(event)).wrapping_mul(0x0100_0000_01b3)
    })
}

fn print_line(line: &Line) {
    println!(
        "{:<11} {:>6} {:>6} {:>4.0}% {:>7.1} {:>8.1} {:>7.1} {:>14.2} {:>12.2}",
        line.workload,
        line.policy,
        line.places,
        100.0 * line.hits,
        line.decode,
        line.library,
        line.usual,
        line.library / line.usual,
        (line.library - line.decode) / (line.usual - line.decode)
    );
}

/// How the time of a request grows from the fewest places to the most.
fn print_growth(lines: &[Line]) {
    println!("\ngrowth from {} to {} places", PLACES[0], PLACES[2]);
    println!("workload    policy  library   usual");
    for group in lines.chunks(PLACES.len()) {
        let (few, many) = (&group[0], &group[PLACES.len() - 1]);
        println!(
            "{:<11} {:>6} {:>8.2} {:>7.2}",
            few.workload,
            few.policy,
            many.library / few.library,
            many.usual / few.usual
        );
    }
}

/// The cost of calls that serve nothing: a fresh start, and the check of full tables.
fn print_calls(workload: &Workload, runs: u64) {
    println!("\na call that serves nothing, microseconds");
    println!("places  fresh start  soundness check");
    for places in PLACES {
        let mut store = Store::new(workload.settings(2, places), workload.requests);
        let [mut fresh, mut check] = [const { Vec::new() }; 2];
        for _ in 0..runs {
            let start = Instant::now();
            store.fresh(&NOW);
            fresh.push(start.elapsed().as_nanos());
            store.carry_on(&NOW, &workload.part);
            let start = Instant::now();
            store.carry_on(&NOW, &[]);
            check.push(start.elapsed().as_nanos());
        }
        let [fresh, check] = [fresh, check].map(|times| median(times) / 1_000.0);
        println!("{places:>6} {fresh:>12.1} {check:>16.1}");
    }
}
