//! Writes a crate that computes the proved definitions on small traces and compares them with
//! the model's numbers: `definitions FOLDER [TRACES [SEED]]`.

use std::fs;
use std::io;
use std::path::Path;
use std::process::ExitCode;

use bench::model::run::{Kept, Run};
use bench::model::tally::{Settings, Tally};
use bench::model::trace::Request;
use bench::random::Random;

const DEFAULT_TRACES: u64 = 24;
const DEFAULT_SEED: u64 = 7;
const REQUESTS: u64 = 40;

const HEAD: &str = "\
use Rattle.std.specs.Prelude.{◌≡◌, refl, List, [], ◌∷◌, map, ℕ}
use Rattle.amounts.specs.Worth.{worth_of, product_of, packets, in_force}
use Rattle.amounts.specs.Order.{lower_of}
use Rattle.amounts.specs.Requests.{Request}
use Rattle.method.specs.Shelf.{Slot, none, kept, sum, lowest}
use Rattle.method.specs.Method.{Settings, Policy, gds, gdsf, Run, State, run, step, fresh, clear, admit}
use Rattle.method.specs.Events.{events}
use Rattle.method.specs.Totals.{Totals, totals, zeros}
key_of : Slot → List ℕ
key_of none = []
key_of (kept r) = r.size ∷ r.cost ∷ r.freq ∷ r.key ∷ r.stamp ∷ []
q : ℕ → ℕ → ℕ → Request
q f z c = record { file = f; size = z; cost = c }
tot : Totals → List ℕ
tot y = y.requests ∷ y.hits ∷ y.admitted ∷ y.passed ∷ y.evicted ∷ y.dropped ∷ y.bytes ∷ y.hit_bytes ∷ y.cost ∷ y.hit_cost ∷ []

";

/// The definitions that a computation looks into.
const UNFOLDED: &str = "key_of tot run events totals step admit clear lowest sum \
worth_of product_of packets in_force lower_of";

fn main() -> ExitCode {
    let arguments: Vec<String> = std::env::args().skip(1).collect();
    let number = |at: usize, other| arguments.get(at).map_or(Ok(other), |text| text.parse());
    let (Some(folder), Ok(traces), Ok(seed)) = (
        arguments.first(),
        number(1, DEFAULT_TRACES),
        number(2, DEFAULT_SEED),
    ) else {
        eprintln!("definitions FOLDER [TRACES [SEED]]");
        return ExitCode::from(2);
    };
    if let Err(error) = write_crate(Path::new(folder), &module(traces, seed)) {
        eprintln!("{folder}: {error}");
        return ExitCode::FAILURE;
    }
    ExitCode::SUCCESS
}

fn write_crate(folder: &Path, module: &str) -> io::Result<()> {
    fs::create_dir_all(folder.join("src"))?;
    fs::create_dir_all(folder.join("specs"))?;
    fs::write(
        folder.join("src/lib.rt"),
        "// No code: specs/R.antt computes.\n",
    )?;
    fs::write(folder.join("specs/Lib.antt"), "pub mod R\n")?;
    fs::write(folder.join("specs/R.antt"), module)
}

fn module(traces: u64, seed: u64) -> String {
    let mut text = HEAD.to_string();
    for number in 0..traces {
        let mut random = Random::of_case(seed, 0, number);
        let settings = settings(&mut random, 1 + number % 2);
        let requests = requests(&mut random, &settings);
        text += &theorem(number, settings, &requests);
    }
    text
}

fn settings(random: &mut Random, policy: u64) -> Settings {
    Settings {
        unit: 0,
        policy,
        capacity: random.pick(&[40, 100, 300, 1_000]),
        places: random.pick(&[1, 2, 4, 8]),
        catalogue: random.pick(&[8, 16]),
    }
}

/// Requests that mostly ask for a file in the size that it had before, and one in so many for another cut of it.
const RECUT_CHANCES: u64 = 4;

fn requests(random: &mut Random, settings: &Settings) -> Vec<Request> {
    let mut sizes = vec![None; settings.catalogue as usize];
    let each = (0..REQUESTS).map(|_| {
        let file = random.below(settings.catalogue);
        let last = sizes[file as usize].filter(|_| !random.one_in(RECUT_CHANCES));
        let size = last.unwrap_or_else(|| size(random, settings.capacity));
        sizes[file as usize] = Some(size);
        let any_cost = random.below(65_536);
        let cost = random.pick(&[0, 1, 1, 2, 5, any_cost]);
        Request { file, size, cost }
    });
    each.collect()
}

fn size(random: &mut Random, capacity: u64) -> u64 {
    let any = random.between(1, 199);
    random.pick(&[1, 3, 7, 16, 64, 32, 128, capacity, capacity + 1, any])
}

/// One trace, its run by the definitions, and that the run gives the model's numbers.
fn theorem(n: u64, settings: Settings, requests: &[Request]) -> String {
    let mut run = Run::fresh(settings);
    let events = run.serve_all(requests);
    let policy = if settings.policy == 1 { "gds" } else { "gdsf" };
    let asked: Vec<String> = requests
        .iter()
        .map(|Request { file, size, cost }| format!("q {file} {size} {cost}"))
        .collect();
    let stated = format!(
        "(record {{ capacity = {}; places = {}; catalogue = {} }})",
        settings.capacity, settings.places, settings.catalogue
    );
    let expected = [
        list(&events),
        list(&totals(&run.tally)),
        list(&[run.tally.whole_inflation]),
    ];
    let slots = (0..settings.catalogue).map(|file| slot(&run.kept, file));
    let expected: Vec<String> = expected.into_iter().chain(slots).collect();
    format!(
        "\
rs{n} : List Request
rs{n} = {asked} ∷ []
x{n} : Run State
x{n} = run (step {policy} {stated}) (fresh {stated}) rs{n}
got{n} : List (List ℕ)
got{n} = events rs{n} x{n}.replies ∷ tot (totals zeros x{n}.replies) ∷ (x{n}.state.inflation ∷ []) ∷ map key_of x{n}.state.shelf
same{n} : got{n} ≡ ({expected} ∷ [])
unfolding q rs{n} x{n} got{n} {UNFOLDED}
same{n} = refl

",
        asked = asked.join(" ∷ "),
        expected = expected.join(" ∷ "),
    )
}

fn totals(tally: &Tally) -> [u64; 10] {
    [
        tally.requests,
        tally.hits,
        tally.admitted,
        tally.passed,
        tally.evicted,
        tally.dropped,
        tally.bytes_asked,
        tally.hit_bytes,
        tally.cost_asked,
        tally.hit_cost,
    ]
}

/// What the shelf holds for a file number: nothing, or the record.
fn slot(kept: &[Kept], file: u64) -> String {
    let found = kept.iter().find(|kept| kept.file == file);
    found.map_or("[]".into(), |kept| {
        let [size, cost, frequency, stamp] =
            [kept.size, kept.cost, kept.frequency, kept.stamp].map(u128::from);
        list(&[size, cost, frequency, kept.key, stamp])
    })
}

fn list<T: ToString>(numbers: &[T]) -> String {
    if numbers.is_empty() {
        return "[]".into();
    }
    let numbers: Vec<String> = numbers.iter().map(T::to_string).collect();
    format!("({} ∷ [])", numbers.join(" ∷ "))
}

#[cfg(test)]
mod tests {
    use super::{requests, settings};
    use bench::model::run::Run;
    use bench::random::Random;

    /// The sixty traces that the gate computes hold every kind of event, recuts of each outcome among them.
    #[test]
    fn the_traces_hold_recuts_of_each_outcome() {
        let (mut kinds, mut recuts) = ([0; 7], [0; 7]);
        for number in 0..60 {
            let mut random = Random::of_case(1, 0, number);
            let settings = settings(&mut random, 1 + number % 2);
            let requests = requests(&mut random, &settings);
            let mut is_recut = false;
            for event in Run::fresh(settings).serve_all(&requests) {
                let kind = (event / 32_768) as usize;
                kinds[kind] += 1;
                if kind < 5 {
                    recuts[kind] += u64::from(is_recut);
                    is_recut = false;
                }
                is_recut |= kind == 6;
            }
        }
        assert!(kinds[1..].iter().all(|&count| count > 50), "{kinds:?}");
        assert_eq!(recuts[1], 0, "a recut is no hit");
        assert!(recuts[2..5].iter().all(|&count| count > 5), "{recuts:?}");
    }
}
