//! The archive of an earlier commit and the library in one process, as tools/beside builds it. `beside runs [RUNS [SEED
//! [POLICY]]]` compares every lent entry after each call, `beside sheets [TRACES [SEED [POLICY]]]` what both print, and
//! `beside time [REQUESTS [RUNS [POLICY]]]` their times. Policy 0 stands for either.

mod both;
mod reached;
mod runs;
mod sheets;
mod time;

use std::process::ExitCode;

use bench::workload::MOST_AT_ONCE;

fn main() -> ExitCode {
    let words: Vec<String> = std::env::args().skip(1).collect();
    match verdict(&words) {
        Some(Ok(())) => ExitCode::SUCCESS,
        Some(Err(said)) => {
            println!("{said}");
            ExitCode::FAILURE
        }
        None => {
            eprintln!("beside runs [RUNS [SEED [POLICY]]] | sheets [TRACES [SEED [POLICY]]] | time [REQUESTS [RUNS [POLICY]]]");
            ExitCode::from(2)
        }
    }
}

/// What the words ask for, done; none where they ask for nothing that there is.
fn verdict(words: &[String]) -> Option<Result<(), String>> {
    let (what, numbers) = words.split_first()?;
    match what.as_str() {
        "runs" => {
            let [runs, seed, policy] = numbers_or(numbers, [10_000, 1, 0])?;
            Some(runs::compare_all(runs, seed, policies(policy)?))
        }
        "sheets" => {
            let [traces, seed, policy] = numbers_or(numbers, [10_000, 1, 0])?;
            Some(sheets::compare_all(traces, seed, policies(policy)?))
        }
        "time" => {
            let [requests, runs, policy] = numbers_or(numbers, [300_000, 7, 0])?;
            let policies = policies(policy)?;
            let has_any = (1..=MOST_AT_ONCE).contains(&requests) && runs > 0;
            has_any.then(|| time::time_all(requests, runs, policies))
        }
        _ => None,
    }
}

/// The policies that a number stands for: 0 for either.
fn policies(policy: u64) -> Option<&'static [u64]> {
    match policy {
        0 => Some(&[1, 2]),
        1 => Some(&[1]),
        2 => Some(&[2]),
        _ => None,
    }
}

fn numbers_or(words: &[String], mut numbers: [u64; 3]) -> Option<[u64; 3]> {
    for (at, word) in words.iter().enumerate() {
        *numbers.get_mut(at)? = word.parse().ok()?;
    }
    Some(numbers)
}
