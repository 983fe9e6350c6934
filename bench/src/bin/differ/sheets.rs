//! Sheets of good files, with the buffer just long enough or too short.

use bench::model::sheet::{sheet, SHEET_INPUT};
use bench::model::trace::Request;
use bench::random::Random;

use crate::{agree, make, Verdict};

/// A good file, now and then with settings or a length at the program's limits.
pub fn good_file(random: &mut Random) -> Vec<u8> {
    let mut settings = make::settings(random);
    if random.one_in(20) {
        settings.places = random.between(500, 520);
        settings.catalogue = random.between(4_090, 4_100);
    }
    let most = if random.one_in(20) { 2_000 } else { 40 };
    let requests = make::requests(random, &settings, most);
    let mut file = make::file_of(&settings, &requests);
    if random.one_in(20) {
        fill(random, &mut file);
    }
    file
}

pub fn valid(random: &mut Random) -> Verdict {
    let file = good_file(random);
    let needed = sheet(&file).len();
    let mut answers = Vec::new();
    for length in [needed - 1, needed, needed + 5] {
        let mut out = make::exact_list(random, length, |word| word as u8);
        let answer = agree::sheet(&file, &mut out)?;
        answers.push(answer);
        if answer.number == 0 {
            answers.push(agree::said(&out[..answer.value as usize]));
        }
    }
    Ok(answers)
}

/// Brings a file to the most bytes that the program takes, or just above.
fn fill(random: &mut Random, file: &mut Vec<u8>) {
    let request = Request {
        file: 0,
        size: 1,
        cost: 1,
    };
    let length = SHEET_INPUT + random.index(5);
    while file.len() + 3 <= length {
        file.extend(make::part_of(&[request]));
    }
}
