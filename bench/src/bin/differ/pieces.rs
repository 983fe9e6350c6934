//! The bench pieces that a program runs, and the samples, over the boundary.

use bench::model::red_card::{Answer, Refusal};
use bench::model::sheet::sheet;
use bench::model::tally::Settings;
use bench::model::trace::Request;
use bench::random::Random;

use crate::agree::{self, Lent};
use crate::make::Asking;
use crate::runs::carried;
use crate::{make, Verdict};

const SETTINGS: Settings = Settings {
    unit: 7,
    policy: 1,
    capacity: 100,
    places: 8,
    catalogue: 16,
};

const EXAMPLE: [[u64; 3]; 6] = [
    [1, 64, 4],
    [2, 32, 1],
    [1, 64, 4],
    [3, 16, 1],
    [2, 32, 1],
    [4, 128, 1],
];

const SAMPLES: [&[u8]; 2] = [
    include_bytes!("../../../../samples/studio-7.trace"),
    include_bytes!("../../../../samples/class-day.trace"),
];

fn requests_of(fields: &[[u64; 3]]) -> Vec<Request> {
    let request = |&[file, size, cost]: &[u64; 3]| Request { file, size, cost };
    fields.iter().map(request).collect()
}

/// Replays the requests afresh and checks the events by kind and file.
fn piece(
    random: &mut Random,
    settings: Settings,
    fields: &[[u64; 3]],
    events: &[(u32, u32)],
) -> Result<(Lent, Answer), String> {
    let requests = requests_of(fields);
    let mut lent = make::fresh_lent(random, &settings)?;
    let mut list = make::events_for(random, &lent, requests.len());
    let part = make::part_of(&requests);
    let answer = agree::carry_on(settings.unit, &mut lent, &part, &mut list)?;
    let expected: Vec<u32> = events
        .iter()
        .map(|(kind, file)| kind * 32_768 + file)
        .collect();
    agree::same_list(
        "events of the piece",
        &list[..answer.value as usize],
        &expected,
    )?;
    Ok((lent, answer))
}

fn keys(lent: &Lent) -> Vec<(u64, u128)> {
    let shelf = lent.tables.shelf(lent.settings().catalogue);
    shelf.iter().map(|kept| (kept.file, kept.key)).collect()
}

/// Document 01's example under both policies.
fn example(random: &mut Random) -> Verdict {
    let events = [
        (2, 1),
        (2, 2),
        (1, 1),
        (5, 2),
        (2, 3),
        (5, 1),
        (2, 2),
        (3, 4),
    ];
    let (lent, first) = piece(random, SETTINGS, &EXAMPLE, &events)?;
    agree::same_list("keys", &keys(&lent), &[(2, 1_572_864), (3, 1_572_864)])?;
    let second = Settings {
        policy: 2,
        ..SETTINGS
    };
    let events = [
        (2, 1),
        (2, 2),
        (1, 1),
        (5, 2),
        (2, 3),
        (5, 3),
        (2, 2),
        (3, 4),
    ];
    let (lent, second) = piece(random, second, &EXAMPLE, &events)?;
    agree::same_list("keys", &keys(&lent), &[(1, 2_097_152), (2, 1_048_576)])?;
    Ok(vec![first, second])
}

pub fn all(random: &mut Random) -> Verdict {
    let mut answers = example(random)?;

    let fields = [[1, 100, 1], [2, 101, 1]];
    answers.push(piece(random, SETTINGS, &fields, &[(2, 1), (3, 2)])?.1);

    let one_place = Settings {
        places: 1,
        ..SETTINGS
    };
    let fields = [[1, 5, 1], [2, 5, 1], [3, 5, 1]];
    let events = [(2, 1), (5, 1), (2, 2), (5, 2), (2, 3)];
    answers.push(piece(random, one_place, &fields, &events)?.1);

    answers.extend(recuts(random)?);
    answers.push(videos(random)?);
    for sample in SAMPLES {
        let mut out = vec![0; sheet(sample).len()];
        answers.push(agree::sheet(sample, &mut out)?);
    }
    answers.extend(run_limit(random)?);
    answers.extend(long_lists()?);
    Ok(answers)
}

/// The drop of an old cut before the evictions, and old cuts that a big or a low one does not bring back.
fn recuts(random: &mut Random) -> Verdict {
    let fields = [[1, 60, 4], [2, 40, 1], [1, 61, 4], [1, 61, 4], [1, 101, 4]];
    let events = [
        (2, 1),
        (2, 2),
        (6, 1),
        (5, 2),
        (2, 1),
        (1, 1),
        (6, 1),
        (3, 1),
    ];
    let (lent, first) = piece(random, SETTINGS, &fields, &events)?;
    agree::same_list("keys", &keys(&lent), &[])?;
    let second = Settings {
        policy: 2,
        ..SETTINGS
    };
    let fields = [[1, 50, 9], [2, 40, 9], [2, 40, 9], [1, 100, 1]];
    let events = [(2, 1), (2, 2), (1, 2), (6, 1), (4, 1)];
    let (lent, second) = piece(random, second, &fields, &events)?;
    agree::same_list("keys", &keys(&lent), &[(2, 7_549_747)])?;
    Ok(vec![first, second])
}

/// Ticket 6's video, asked for five times, stays before a smaller one of worth 6; rounded twice it would have gone at 5.
fn videos(random: &mut Random) -> Result<Answer, String> {
    let settings = Settings {
        policy: 2,
        capacity: 12_000_000,
        ..SETTINGS
    };
    let asked = [1, 9_000_000, 1];
    let smaller = [[2, 2_500_000, 1], [3, 2_000_000, 1]];
    let fields = [[asked; 5].as_slice(), &smaller].concat();
    let events = [
        (2, 1),
        (1, 1),
        (1, 1),
        (1, 1),
        (1, 1),
        (2, 2),
        (5, 2),
        (2, 3),
    ];
    let (lent, answer) = piece(random, settings, &fields, &events)?;
    agree::same_list("keys", &keys(&lent), &[(1, 9), (3, 8)])?;
    Ok(answer)
}

/// More than a million requests pass in one call; then as many more as a run may have, and one more is refused.
fn run_limit(random: &mut Random) -> Verdict {
    let mut lent = make::fresh_lent(random, &SETTINGS)?;
    let mut asking = Asking::afresh(&SETTINGS);
    let requests: Vec<Request> = (0..MILLION).map(|_| asking.request(random)).collect();
    let million = carried(random, &mut lent, &requests)?;
    make::near_the_limit(random, &mut lent, 2);
    let last = carried(random, &mut lent, &requests[..2])?;
    agree::same("requests", &lent.read_tally().requests, &4_294_967_295)?;
    let none = carried(random, &mut lent, &[])?;
    let one_more = carried(random, &mut lent, &requests[..1])?;
    agree::due(one_more, Answer::refused(Refusal::RunLimit))?;
    Ok(vec![million, last, none, one_more])
}

/// One more than a run could have before ticket 5.
pub const MILLION: usize = 1_048_577;

/// Reader and writer take as many as that too.
fn long_lists() -> Verdict {
    let requests = vec![
        Request {
            file: 1,
            size: 5,
            cost: 1
        };
        MILLION
    ];
    let lists = make::lists_of(&requests);
    let mut part = vec![0; 3 * requests.len()];
    let written = agree::write_part(2, &lists, &mut part)?;
    agree::due(written, Answer::done(part.len()))?;
    let mut read_lists = make::lists_of(&requests);
    let read = agree::read_part(2, &part, &mut read_lists)?;
    agree::due(read, Answer::done(requests.len()))?;
    Ok(vec![written, read])
}
