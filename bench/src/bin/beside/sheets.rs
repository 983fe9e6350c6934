//! Sheets of random traces through both archives.

use bench::boundary::{BEFORE, NOW};
use bench::make;
use bench::random::Random;
use bench::same::{same, same_list};

/// The longest sheet of either archive is shorter.
const ROOM: usize = 400_000;
const MOST_REQUESTS: u64 = 240;

/// Compares the sheets of so many traces, and tells how many differ and the first of them.
pub fn compare_all(traces: u64, seed: u64, policies: &[u64]) -> Result<(), String> {
    println!("seed {seed}, policies {policies:?}; the archive before gives what is due");
    let (mut differ, mut first, mut letters) = (0, None, 0);
    for trace in 0..traces {
        let mut random = Random::of_case(seed, 0, trace);
        match compare(&mut random, policies) {
            Ok(length) => letters += length,
            Err(difference) => {
                differ += 1;
                first.get_or_insert(format!("first at trace {trace}: {difference}"));
            }
        }
    }
    println!("{traces} traces, {differ} sheets differ; {letters} bytes of the others are the same");
    first.map_or(Ok(()), Err)
}

/// How long the sheet of a random trace is, or where the two differ.
fn compare(random: &mut Random, policies: &[u64]) -> Result<u64, String> {
    let mut settings = make::settings(random);
    settings.policy = random.pick(policies);
    let requests = make::requests(random, &settings, MOST_REQUESTS);
    let file = make::file_of(&settings, &requests);
    let mut due = make::exact_list(random, ROOM, |word| word as u8);
    let mut sheet = due.clone();
    let answer_due = BEFORE.sheet(&file, &mut due);
    let answer = NOW.sheet(&file, &mut sheet);
    same_list("sheet", &sheet, &due)?;
    same("answer", &answer, &answer_due)?;
    Ok(answer.value)
}
