//! Compares the library with the model over the boundary, and the program's sheets with the model's where it is named:
//! `differ [CASES [SEED [PROGRAM ..]]]`. Each kind of case must reach the answers that it is made for.

mod agree;
mod bounds;
mod craft;
mod damage;
mod fields;
mod fresh;
mod lifting;
mod logs;
mod make;
mod order;
mod pieces;
mod printed;
mod ratios;
mod recuts;
mod runs;
mod season;
mod sheets;
mod soundness;
mod squid;
mod traces;

use std::io::Write;
use std::process::ExitCode;

use bench::model::red_card::Answer;
use bench::random::Random;

/// The answers of one case, or the first difference.
type Verdict = Result<Vec<Answer>, String>;

/// A kind of case, the numbers of the red card that its calls must reach (0 is done), and by how much fewer of it are run.
///
/// The numbers are those of the lists of documents 01 and 02 and of the boundary's orders of refusals that the kind is
/// made for: 1 and 2 for a fresh start, 1, 2, 8, 7, 3, 4, 5 and 6 for carrying on, 1, 3, 4 and 6 for the reader, 1, 2,
/// 4 and 6 for the writer, 9, 1, 2, 3 and 4 on a sheet, 1, 10 and 6 for a Squid log, 2, 11, 7, 12 and 6 for the ratios. A
/// kind that misses one of them tests less than it says, and the run fails; so does one that sees fewer recuts or lifts
/// than it is made for.
struct Kind {
    name: &'static str,
    case: fn(&mut Random) -> Verdict,
    reaches: &'static [u64],
    /// Of each hundred cases at least so many `stale` events whose request is then admitted, big and low.
    recuts: [u64; 3],
    /// And so many lifts: before a call's first request by the kind of its first event, in their order, and later ones.
    lifts: [u64; 7],
    fewer: u64,
}

impl Kind {
    const fn lifts(self, lifts: [u64; 7]) -> Kind {
        Kind { lifts, ..self }
    }

    const fn recuts(self, recuts: [u64; 3]) -> Kind {
        Kind { recuts, ..self }
    }

    const fn fewer(self, fewer: u64) -> Kind {
        Kind { fewer, ..self }
    }
}

const fn kind(
    name: &'static str,
    case: fn(&mut Random) -> Verdict,
    reaches: &'static [u64],
) -> Kind {
    Kind {
        name,
        case,
        reaches,
        recuts: [0; 3],
        lifts: [0; 7],
        fewer: 1,
    }
}

const KINDS: [Kind; 46] = [
    kind("settings in and out of range", fresh::settings, &[0, 1]),
    kind("fresh start, tables too short", fresh::too_short, &[0, 2]),
    kind("fresh start over old contents, twins", fresh::twins, &[0]).recuts([100, 20, 0]),
    kind("fresh start, order of refusals", order::fresh, &[0, 1, 2]),
    kind("runs split into parts", runs::in_parts, &[0]).recuts([300, 50, 3]),
    kind("large videos at low costs", runs::videos, &[0]),
    kind("event list just long enough", runs::event_room, &[0, 6]).recuts([100, 15, 1]),
    kind("requests near the run limit", runs::near_the_limit, &[0, 5]).recuts([80, 15, 1]),
    kind("carrying on, tables too short", runs::too_short, &[0, 2]),
    kind(
        "carrying on, order of refusals",
        order::carry_on,
        &[0, 1, 2, 3, 4, 5, 6, 7, 8],
    ),
    kind("tables that no run reached", soundness::crafted, &[0, 5]).recuts([15, 1, 0]),
    kind("tables arranged otherwise", soundness::rearranged, &[0]).recuts([150, 30, 2]),
    kind("recuts of a kept file", recuts::one, &[0]).recuts([100, 20, 3]),
    kind("recuts back and forth, in parts", recuts::in_parts, &[0]).recuts([700, 150, 20]),
    kind("a kept file at another cost", recuts::same_size, &[0]),
    kind("evicted and dropped set anew", soundness::drops, &[0, 7]).recuts([40, 8, 0]),
    kind("each bound of a season", bounds::each, &[0, 5, 7]).lifts([8, 8, 2, 0, 1, 1, 0]),
    kind("a lift is due", season::due, &[0, 6]).lifts([12, 2, 2, 1, 8, 20, 0]),
    kind("twins, one with the lift made", season::twins, &[0]).lifts([20, 15, 4, 0, 2, 3, 0]),
    kind("lifts later in a run, in parts", season::later, &[0]).lifts([0, 0, 0, 0, 0, 0, 30]),
    kind(
        "hits at the end of the frequencies",
        season::frequency,
        &[0],
    )
    .lifts([20, 0, 0, 0, 0, 0, 0]),
    kind("one entry changed", soundness::one_change, &[0, 1, 2, 7, 8]),
    kind("damaged parts", damage::parts, &[0, 3, 4]),
    kind("damaged files", damage::files, &[0, 1, 3, 4]),
    kind("reader's lists", traces::reader, &[0, 1, 4, 6]),
    kind("reader, order of refusals", order::reader, &[0, 1, 3, 4, 6]),
    kind("writer's lists", traces::writer, &[0, 1, 2, 4, 6]),
    kind("writer, order of refusals", order::writer, &[0, 1, 2, 4, 6]),
    kind("round trips", traces::round_trip, &[0]),
    kind("sheets", sheets::valid, &[0, 2, 6, 9]).recuts([300, 50, 3]),
    kind(
        "sheets, order of refusals",
        order::sheet,
        &[0, 1, 2, 3, 4, 9],
    ),
    kind("large stores", runs::large, &[0])
        .recuts([5_000, 50, 50])
        .fewer(20),
    kind("bench pieces and samples", pieces::all, &[0, 5])
        .recuts([1_000_000, 500_000, 100])
        .fewer(u64::MAX),
    kind("lifts from a fresh start", lifting::both, &[0])
        .lifts([0, 0, 0, 0, 0, 0, 100])
        .fewer(u64::MAX),
    kind("good Squid logs", squid::good, &[0]),
    kind("Squid logs, room for the trace", squid::room, &[0, 6]),
    kind(
        "Squid logs, settings in and out of range",
        squid::settings_in_and_out,
        &[0, 1, 10],
    ),
    kind(
        "Squid logs, each way to be bad",
        squid::each_way_to_be_bad,
        &[10],
    ),
    kind("Squid logs of words by chance", squid::of_words, &[0, 10]),
    kind(
        "Squid logs, order of refusals",
        order::squid,
        &[0, 1, 6, 10],
    ),
    kind("real Squid logs, damaged", squid::damaged, &[0, 10]),
    kind("long Squid logs", squid::long, &[0, 10]).fewer(u64::MAX),
    kind("ratios of runs", ratios::of_runs, &[0, 11, 12]).recuts([250, 35, 1]),
    kind("ratios of any good tally", ratios::good, &[0]),
    kind("ratios, damaged tallies", ratios::damaged, &[0, 7, 11, 12]),
    kind(
        "ratios, order of refusals",
        order::ratios,
        &[0, 2, 6, 7, 11, 12],
    ),
];

/// The numbers on the red card, 0 for done among them.
const NUMBERS: usize = 13;

/// What the cases of a kind came to: calls by their number on the red card, recuts by their outcome, and lifts.
#[derive(Default)]
struct Seen {
    cases: u64,
    calls: [u64; NUMBERS],
    recuts: [u64; 3],
    lifts: [u64; 7],
}

/// Only where a program is named.
const PRINTED: Kind = kind(
    "sheets that the program prints",
    printed::all,
    &[0, 1, 2, 3, 4, 9],
)
.recuts([50, 5, 0])
.fewer(4);

const DEFAULT_CASES: u64 = 400;
const DEFAULT_SEED: u64 = 7;

fn main() -> ExitCode {
    let mut arguments = std::env::args().skip(1);
    let mut number = |missing| arguments.next().map_or(Ok(missing), |text| text.parse());
    let (Ok(cases), Ok(seed)) = (number(DEFAULT_CASES), number(DEFAULT_SEED)) else {
        eprintln!("differ [CASES [SEED [PROGRAM ..]]]");
        return ExitCode::from(2);
    };
    let program: Vec<String> = arguments.collect();
    let printed = (!program.is_empty()).then(|| {
        printed::PROGRAM.get_or_init(|| program);
        &PRINTED
    });
    println!("seed {seed}");
    let mut missed = Vec::new();
    for (number, kind) in KINDS.iter().chain(printed).enumerate() {
        match run_kind(kind, number as u64, cases, seed) {
            Err(difference) => {
                println!("DIFFERENCE at {difference}");
                return ExitCode::FAILURE;
            }
            Ok(seen) => missed.extend(missed_by(kind, &seen)),
        }
    }
    for line in &missed {
        println!("MISSED: {line}");
    }
    if missed.is_empty() {
        ExitCode::SUCCESS
    } else {
        ExitCode::FAILURE
    }
}

const RECUT_OUTCOMES: [&str; 3] = ["admitted", "big", "low"];

/// By the kind of the first event of the request that they come before.
const LIFT_REQUESTS: [&str; 7] = [
    "before a hit",
    "before an admission",
    "before a big file",
    "before a low file",
    "before an eviction",
    "before a stale copy",
    "later in a call",
];

/// The numbers that a kind must reach and has not, and the recuts and lifts that it has too few of.
fn missed_by(kind: &Kind, seen: &Seen) -> Vec<String> {
    let unreached = kind
        .reaches
        .iter()
        .filter(|&&at| seen.calls[at as usize] == 0);
    let numbers = unreached.map(|number| format!("{}: no call answered {number}", kind.name));
    let recuts = too_few(
        "recuts",
        &RECUT_OUTCOMES,
        &seen.recuts,
        &kind.recuts,
        seen.cases,
    );
    let lifts = too_few(
        "lifts",
        &LIFT_REQUESTS,
        &seen.lifts,
        &kind.lifts,
        seen.cases,
    );
    let few = recuts.into_iter().chain(lifts);
    numbers
        .chain(few.map(|line| format!("{}: {line}", kind.name)))
        .collect()
}

/// A line for each count that is below what a hundred cases are due.
fn too_few(what: &str, names: &[&str], counts: &[u64], least: &[u64], cases: u64) -> Vec<String> {
    let few = (0..counts.len()).filter(|&at| 100 * counts[at] < least[at] * cases);
    let line = |at: usize| {
        let (name, count, least) = (names[at], counts[at], least[at]);
        format!("{count} {what} {name}, {least} a hundred cases are due")
    };
    few.map(line).collect()
}

/// Runs the cases of a kind and gives what they came to.
fn run_kind(kind: &Kind, number: u64, cases: u64, seed: u64) -> Result<Seen, String> {
    let cases = cases.div_ceil(kind.fewer);
    // The name goes out first, so that a crash inside the library is seen where it happened.
    print!("{}: ", kind.name);
    let _ = std::io::stdout().flush();
    let mut calls = [0; NUMBERS];
    for case in 0..cases {
        let mut random = Random::of_case(seed, number, case);
        let answers = (kind.case)(&mut random)
            .map_err(|difference| format!("seed {seed}, case {case}: {difference}"))?;
        for answer in answers {
            calls[answer.number as usize] += 1;
        }
    }
    let seen = Seen {
        cases,
        calls,
        recuts: agree::take_recuts(),
        lifts: agree::take_lifts(),
    };
    println!("{cases} cases, {}", listed(&seen));
    Ok(seen)
}

/// The calls by their number on the red card, the recuts by their outcome and the lifts, those that occurred.
fn listed(seen: &Seen) -> String {
    let numbers = seen
        .calls
        .iter()
        .enumerate()
        .filter(|(_, &count)| count > 0);
    let calls = numbers.map(|(number, count)| match number {
        0 => format!("done {count}"),
        _ => format!("refused {number}: {count}"),
    });
    let recuts = occurred("recuts", &RECUT_OUTCOMES, &seen.recuts);
    let lifts = occurred("lifts", &LIFT_REQUESTS, &seen.lifts);
    let parts: Vec<String> = calls.chain(recuts).chain(lifts).collect();
    parts.join(", ")
}

fn occurred(what: &str, names: &[&str], counts: &[u64]) -> Vec<String> {
    let named = names.iter().zip(counts).filter(|(_, &count)| count > 0);
    named
        .map(|(name, count)| format!("{what} {name} {count}"))
        .collect()
}
