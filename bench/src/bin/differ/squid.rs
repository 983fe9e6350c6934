//! Squid logs as a trace file and as a further part: good ones, bad ones, real ones that are damaged, long ones.

use bench::model::limits::MOST_CATALOGUE;
use bench::model::red_card::{Answer, Refusal};
use bench::model::squid;
use bench::model::tally::Settings;
use bench::model::trace::Request;
use bench::random::Random;

use crate::logs::{bad_line, good_lines, log_of, requests_of, Line, FAULTS};
use crate::pieces::MILLION;
use crate::{agree, make, Verdict};

const SAMPLE: &[u8] = include_bytes!("../../../../samples/squid-5.7.log");

/// The file numbers of the sample are below this.
const SAMPLE_CATALOGUE: u64 = 400;

fn settings(random: &mut Random) -> Settings {
    if random.one_in(4) {
        make::largest(random)
    } else {
        make::settings(random)
    }
}

/// Both functions with room enough, and what they wrote read back by the readers.
fn taken(random: &mut Random, settings: &Settings, log: &[u8], requests: &[Request]) -> Verdict {
    let count = Answer::done(requests.len());
    let needed = make::file_of(settings, requests).len();
    let mut out = make::old_list(random, needed, |word| word as u8);
    let whole = agree::squid_file(settings, log, &mut out)?;
    agree::due(whole, Answer::done(needed))?;
    let mut words = make::exact_list(random, 5, |word| word);
    let mut lists = make::old_lists(random, requests.len());
    let file_read = agree::read_file(&out[..needed], &mut words, &mut lists)?;
    agree::due(file_read, count)?;
    agree::same_list("settings read back", &words, &settings.words())?;
    agree::same_requests(&lists, requests)?;

    let needed = make::part_of(requests).len();
    let mut out = make::old_list(random, needed, |word| word as u8);
    let further = agree::squid_part(settings.catalogue, log, &mut out)?;
    agree::due(further, Answer::done(needed))?;
    let mut lists = make::old_lists(random, requests.len());
    let part_read = agree::read_part(settings.catalogue, &out[..needed], &mut lists)?;
    agree::due(part_read, count)?;
    agree::same_requests(&lists, requests)?;
    Ok(vec![whole, file_read, further, part_read])
}

/// Both functions refuse, the buffers being long enough.
fn refused(random: &mut Random, settings: &Settings, log: &[u8], refusal: Refusal) -> Verdict {
    let mut out = make::old_list(random, log.len() + 17, |word| word as u8);
    let whole = agree::squid_file(settings, log, &mut out)?;
    agree::due(whole, Answer::refused(refusal))?;
    let further = agree::squid_part(settings.catalogue, log, &mut out)?;
    agree::due(further, Answer::refused(refusal))?;
    Ok(vec![whole, further])
}

pub fn good(random: &mut Random) -> Verdict {
    let settings = settings(random);
    let lines = good_lines(random, settings.catalogue, 12);
    let log = log_of(random, &lines);
    taken(random, &settings, &log, &requests_of(&lines))
}

/// A buffer just long enough, one byte shorter, longer, and none.
pub fn room(random: &mut Random) -> Verdict {
    let settings = settings(random);
    let lines = good_lines(random, settings.catalogue, 6);
    let log = log_of(random, &lines);
    let requests = requests_of(&lines);
    let mut answers = Vec::new();
    let needed = make::file_of(&settings, &requests).len();
    for length in [0, random.index(needed), needed - 1, needed, needed + 3] {
        let mut out = make::exact_list(random, length, |word| word as u8);
        answers.push(agree::squid_file(&settings, &log, &mut out)?);
    }
    let needed = make::part_of(&requests).len();
    for length in [0, needed.saturating_sub(1), needed, needed + 3] {
        let mut out = make::exact_list(random, length, |word| word as u8);
        answers.push(agree::squid_part(settings.catalogue, &log, &mut out)?);
    }
    Ok(answers)
}

/// Settings at the ends of their ranges and beyond, over a log that is good under any catalogue or bad.
pub fn settings_in_and_out(random: &mut Random) -> Verdict {
    let settings = make::settings_near_their_ends(random);
    let mut lines = good_lines(random, 1, 3);
    if random.one_in(3) {
        lines.push(bad_line(random, MOST_CATALOGUE));
    }
    let log = log_of(random, &lines);
    let mut out = make::old_list(random, log.len() + 17, |word| word as u8);
    let whole = agree::squid_file(&settings, &log, &mut out)?;
    let further = agree::squid_part(settings.catalogue, &log, &mut out)?;
    Ok(vec![whole, further])
}

/// For each way to be bad a log whose first line that is so has just this fault.
pub fn each_way_to_be_bad(random: &mut Random) -> Verdict {
    let mut answers = Vec::new();
    for (name, fault) in FAULTS {
        let settings = settings(random);
        let mut lines = good_lines(random, settings.catalogue, 5);
        let bytes = fault(random, settings.catalogue);
        let request = None;
        lines.push(Line { bytes, request });
        let line = lines.len();
        lines.extend(good_lines(random, settings.catalogue, 3));
        if random.one_in(4) {
            lines.push(bad_line(random, settings.catalogue));
        }
        let log = log_of(random, &lines);
        let given = refused(random, &settings, &log, Refusal::BadLine(line));
        answers.extend(given.map_err(|difference| format!("{name}: {difference}"))?);
    }
    Ok(answers)
}

/// Words of which lines of every kind are made when they are put together by chance.
const WORDS: [&[u8]; 28] = [
    b"GET", b"GET", b"GET", b"GET", b"/200", b"/200", b"/200", b"x/200", b"/1", b"/0", b"a/2",
    b"//3", b"1", b"2", b"0", b"00", b"7", b"65536", b"get", b"/404", b"200", b"-", b"\t", b"\r",
    b"\0", b"\xff", b"/", b"1:",
];

/// Eight fields to eleven, those that are read most often of a form that will do.
fn line_of_words(random: &mut Random) -> Vec<u8> {
    let likely: [&[u8]; 10] = [
        b"1", b"5", b"-", b"/200", b"9", b"GET", b"/1", b"-", b"-", b"-",
    ];
    let count = random.pick(&[8, 9, 10, 10, 10, 10, 10, 10, 10, 11]);
    let mut line = Vec::new();
    for at in 0..count {
        let word = match likely.get(at) {
            Some(likely) if !random.one_in(6) => likely,
            _ => random.pick(&WORDS),
        };
        let spaces = if random.one_in(200) {
            0
        } else {
            random.between(1, 2)
        };
        line.resize(line.len() + spaces as usize, b' ');
        line.extend(word);
    }
    line
}

/// Lines of words put together by chance: nothing is known of them but what the model says.
pub fn of_words(random: &mut Random) -> Verdict {
    let settings = Settings {
        catalogue: random.between(1, 9),
        ..make::settings(random)
    };
    let mut log = Vec::new();
    let count = random.below(4);
    for _ in 0..count {
        log.extend(line_of_words(random));
        log.extend(random.pick::<&[u8]>(&[b"\n", b"\n", b"\n", b"\n", b"\r\n", b"\n\n", b"\r"]));
    }
    judged_alike(random, &settings, &log)
}

/// Whatever the model says of a log, the library does as well; what is written is read back.
fn judged_alike(random: &mut Random, settings: &Settings, log: &[u8]) -> Verdict {
    match squid::requests(log, settings.catalogue) {
        Ok(requests) => taken(random, settings, log, &requests),
        Err(refusal) => refused(random, settings, log, refusal),
    }
}

/// Lines of the sample from anywhere, most often few.
fn part_of_the_sample(random: &mut Random) -> Vec<u8> {
    let lines: Vec<&[u8]> = SAMPLE.split_inclusive(|&byte| byte == b'\n').collect();
    let first = random.index(lines.len());
    let few = random.between(1, 12) as usize;
    let count = random.pick(&[few, few, few, lines.len()]);
    let last = lines.len().min(first + count);
    lines[first..last].concat()
}

/// Flips, puts, inserts or deletes a byte, cuts the log, joins two lines, or doubles a stretch.
fn damage(random: &mut Random, log: &mut Vec<u8>) {
    let telling = [
        b' ', b'\n', b'\r', b'\t', b'/', b'0', b'9', b'-', 0, 128, 255,
    ];
    let byte = random.pick(&telling);
    let at = random.index(log.len() + 1);
    if at == log.len() {
        log.push(byte);
        return;
    }
    match random.below(8) {
        0 => log[at] ^= 1 << random.below(8),
        1 => log[at] = byte,
        2 => log.insert(at, byte),
        3 => drop(log.remove(at)),
        4 => log.truncate(at),
        5 => drop(log.drain(..at)),
        6 => {
            if let Some(end) = log[at..].iter().position(|&byte| byte == b'\n') {
                log[at + end] = random.pick(b" x\r");
            }
        }
        _ => {
            let end = log.len().min(at + random.index(30));
            let stretch = log[at..end].to_vec();
            log.splice(at..at, stretch);
        }
    }
}

pub fn damaged(random: &mut Random) -> Verdict {
    let mut log = part_of_the_sample(random);
    let times = random.below(4);
    for _ in 0..times {
        damage(random, &mut log);
    }
    let catalogues = [SAMPLE_CATALOGUE, MOST_CATALOGUE, SAMPLE_CATALOGUE - 1, 40];
    let settings = Settings {
        catalogue: random.pick(&catalogues),
        ..make::settings(random)
    };
    judged_alike(random, &settings, &log)
}

/// The sample; a line number beyond 16 bits; a line of a million bytes; more requests than a run may have.
pub fn long(random: &mut Random) -> Verdict {
    let settings = make::largest(random);
    let mut answers = judged_alike(random, &settings, SAMPLE)?;
    let mut log = SAMPLE.repeat(300);
    answers.extend(judged_alike(random, &settings, &log)?);
    log.push(b'\n');
    let bad = Refusal::BadLine(300 * 300 + 1);
    answers.extend(refused(random, &settings, &log, bad)?);

    let million = 1_000_000;
    let zeros = "0".repeat(million);
    let spaces = " ".repeat(million);
    let line = format!("1{spaces}{zeros}5 - /200 {zeros}9 GET /{zeros}3 - - {zeros} more{spaces}");
    let (file, size, cost) = (3, 9, 5);
    let request = Request { file, size, cost };
    answers.extend(taken(random, &settings, line.as_bytes(), &[request])?);

    let count = MILLION;
    let log = b"1 5 - /200 9 GET /3 - - -\n".repeat(count);
    answers.extend(taken(random, &settings, &log, &vec![request; count])?);
    Ok(answers)
}
