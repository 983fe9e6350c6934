//! The bench pieces, the sheet of the example, and round trips.

use super::limits::{
    in_force, product, worth, LIFT, MOST_COST, MOST_FREQUENCY, MOST_REQUESTS, MOST_SIZE, MOST_WORTH,
};
use super::red_card::Refusal;
use super::run::{Outcome, Run};
use super::sheet::{sheet, SHEET_INPUT};
use super::tables::{carry_on, fresh, Tables};
use super::tally::{Settings, Tally, TALLY_WORDS};
use super::trace::{
    read_file, read_number, read_part, write_file, write_number, write_part, Lists, Request,
};
use crate::random::Random;

const EXAMPLE: [u8; 24] = [
    0x07, 0x01, 0x64, 0x08, 0x10, 0x01, 0x40, 0x04, 0x02, 0x20, 0x01, 0x01, 0x40, 0x04, 0x03, 0x10,
    0x01, 0x02, 0x20, 0x01, 0x04, 0x80, 0x01, 0x01,
];

const EXAMPLE_SHEET: &str = "unit 7
admit 1
admit 2
hit 1
evict 2
admit 3
evict 1
admit 2
big 4
requests 6 hits 1 admitted 4 passed 1 evicted 2 dropped 0
bytes 336 hitbytes 64
cost 12 hitcost 4
lifts 0 L 1048576 used 48 files 2
";

const SETTINGS: Settings = Settings {
    unit: 7,
    policy: 1,
    capacity: 100,
    places: 8,
    catalogue: 16,
};

fn with_policy(policy: u8) -> Vec<u8> {
    let mut bytes = EXAMPLE.to_vec();
    bytes[1] = policy;
    bytes
}

fn lists_of(requests: &[[u64; 3]]) -> Lists {
    let mut lists = Lists::default();
    for &[file, size, cost] in requests {
        lists.push(Request { file, size, cost });
    }
    lists
}

fn run_of(settings: Settings, requests: &[[u64; 3]]) -> (Run, Vec<u32>) {
    let lists = lists_of(requests);
    let requests: Vec<Request> = (0..requests.len()).map(|at| lists.request(at)).collect();
    let mut run = Run::fresh(settings);
    let events = run.serve_all(&requests);
    (run, events)
}

fn replay(bytes: &[u8]) -> (Run, Vec<u32>) {
    let mut words = [0; 5];
    let mut lists = lists_of(&[[0; 3]; 8]);
    let count = read_file(bytes, &mut words, &mut lists).expect("the file is good");
    let requests: Vec<Request> = (0..count).map(|at| lists.request(at)).collect();
    let mut run = Run::fresh(Settings::from_words(words));
    let events = run.serve_all(&requests);
    (run, events)
}

fn key_of(run: &Run, file: u64) -> u128 {
    let found = run.kept.iter().find(|kept| kept.file == file);
    found.expect("the file is kept").key
}

pub(super) fn fresh_tables(settings: &Settings) -> ([u64; TALLY_WORDS], Tables) {
    let places = settings.places as usize;
    let mut tally = [9; TALLY_WORDS];
    let mut tables = Tables {
        place: vec![9; settings.catalogue as usize],
        file: vec![9; places],
        size: vec![9; places],
        cost: vec![9; places],
        freq: vec![9; places],
        key: vec![9; places],
        stamp: vec![9; places],
        queue: vec![9; places],
    };
    fresh(settings, &mut tally, &mut tables).expect("the settings are in range");
    (tally, tables)
}

#[test]
fn worth_is_rounded_down() {
    assert_eq!(worth(1, 3), 5_592_405);
    assert_eq!(worth(1, MOST_SIZE), 1);
    assert_eq!(worth(65_535, 1), MOST_WORTH);
    assert_eq!(MOST_WORTH, 1_099_494_850_560);
}

#[test]
fn the_product_is_rounded_down_once() {
    assert_eq!(product(5, 1, 9_000_000), 9);
    assert_eq!(product(1, 1, 9_000_000), 1);
    assert_eq!(product(3, 1, 3), 16_777_216);
    let largest = product(MOST_FREQUENCY, MOST_COST, 1);
    assert_eq!(largest, 1_152_902_812_925_952_000);
    assert!(largest < LIFT.into());
}

#[test]
fn cost_0_is_the_packet_estimate() {
    assert_eq!(in_force(0, 535), 2);
    assert_eq!(in_force(0, 536), 3);
    assert_eq!(in_force(0, MOST_SIZE), 31_302);
    assert_eq!(in_force(5, 536), 5);
}

#[test]
fn the_example_prints_its_sheet() {
    assert_eq!(sheet(&EXAMPLE), EXAMPLE_SHEET);
    assert_eq!(&EXAMPLE, include_bytes!("../../../samples/studio-7.trace"));
    let (run, _) = replay(&EXAMPLE);
    assert_eq!(key_of(&run, 3), 1_572_864);
    assert_eq!(key_of(&run, 2), 1_572_864);
}

#[test]
fn the_example_under_policy_2() {
    let (run, events) = replay(&with_policy(2));
    let evicted: Vec<u32> = events
        .into_iter()
        .filter(|event| event / 32_768 == 5)
        .collect();
    assert_eq!(evicted, [5 * 32_768 + 2, 5 * 32_768 + 3]);
    assert_eq!(run.tally.inflation(), 1_048_576);
    assert_eq!(key_of(&run, 1), 2_097_152);
    assert_eq!(key_of(&run, 2), 1_048_576);
    assert_eq!(run.kept.len(), 2);
}

#[test]
fn a_needless_zero_group_is_refused() {
    assert_eq!(read_number(&[0x80, 0x00], 0), Err(Refusal::Form(0)));
    assert_eq!(read_number(&[0x00], 0), Ok((0, 1)));
}

#[test]
fn a_file_of_the_capacity_is_kept_and_one_more_is_big() {
    for policy in [1, 2] {
        let settings = Settings { policy, ..SETTINGS };
        let (run, events) = run_of(settings, &[[1, 100, 1], [2, 101, 1]]);
        assert_eq!(events, [2 * 32_768 + 1, 3 * 32_768 + 2]);
        assert_eq!(run.tally.bytes_kept, 100);
    }
}

#[test]
fn with_one_place_each_new_file_evicts_the_one_before() {
    let settings = Settings {
        places: 1,
        ..SETTINGS
    };
    let (_, events) = run_of(settings, &[[1, 5, 1], [2, 5, 1], [3, 5, 1]]);
    let kinds_and_files: Vec<(u32, u32)> = events
        .iter()
        .map(|event| (event / 32_768, event % 32_768))
        .collect();
    assert_eq!(kinds_and_files, [(2, 1), (5, 1), (2, 2), (5, 2), (2, 3)]);
}

/// Tables of no file, whose requests so far were all big.
#[test]
fn the_run_limit_passes_and_one_more_is_refused() {
    let (words, tables) = fresh_tables(&SETTINGS);
    let served = MOST_REQUESTS - 2;
    let tally = Tally {
        requests: served,
        passed: served,
        bytes_asked: served * 101,
        cost_asked: served,
        ..Tally::from_words(words)
    };
    let served = |part: &[u8], room| carry_on(7, &tally.words(), &tables, part, room);
    let two = served(&[1, 101, 1, 1, 101, 1], 4).expect("the limit itself passes");
    assert_eq!(two.run.tally.requests, MOST_REQUESTS);
    let refusal = |part: &[u8], room| served(part, room).err();
    assert_eq!(refusal(&[1, 101, 1].repeat(3), 0), Some(Refusal::RunLimit));
    let at_the_limit = |part: &[u8]| carry_on(7, &two.run.tally.words(), &tables, part, 0);
    assert_eq!(at_the_limit(&[]).err(), None);
    assert_eq!(at_the_limit(&[1, 101, 1]).err(), Some(Refusal::RunLimit));
}

#[test]
fn a_low_newcomer_leaves_all_as_it_stood() {
    let settings = Settings {
        policy: 2,
        ..SETTINGS
    };
    let (mut run, _) = run_of(settings, &[[1, 50, 9], [2, 40, 9], [1, 50, 9]]);
    let kept = run.kept.clone();
    let low = Request {
        file: 3,
        size: 100,
        cost: 1,
    };
    assert_eq!(run.serve(low).outcome, Outcome::Low);
    assert_eq!(run.kept, kept);
    assert_eq!(run.tally.inflation(), 0);
}

#[test]
fn refusals_come_in_their_order() {
    let (tally, tables) = fresh_tables(&SETTINGS);
    let refusal = |unit, tally: &[u64], part: &[u8]| {
        carry_on(unit, tally, &tables, part, 0)
            .err()
            .map(Refusal::number)
    };
    let mut unsound = tally;
    unsound[8] = 1;
    let mut outside = unsound;
    outside[4] = 0;
    assert_eq!(refusal(1 << 32, &[], &[0x80]), Some(1));
    assert_eq!(refusal(8, &tally[..TALLY_WORDS - 1], &[0x80]), Some(2));
    assert_eq!(refusal(8, &outside, &[0x80]), Some(1));
    assert_eq!(refusal(8, &unsound, &[0x80]), Some(8));
    assert_eq!(refusal(7, &unsound, &[0x80]), Some(7));
    assert_eq!(refusal(7, &tally, &[1, 0, 0x80]), Some(4));
    assert_eq!(refusal(7, &tally, &[1, 1, 0x80]), Some(3));
    assert_eq!(refusal(7, &tally, &[1, 1, 1]), Some(6));
    assert_eq!(refusal(7, &tally, &[]), None);
}

#[test]
fn the_sheet_refuses_in_its_order() {
    let refused = |bytes: &[u8]| sheet(bytes);
    assert_eq!(refused(&vec![0x80; SHEET_INPUT + 1]), "refused 9\n");
    assert_eq!(refused(&[]), "refused 3\n");
    assert_eq!(refused(&[7, 3]), "refused 1\n");
    assert_eq!(refused(&[7, 1, 1, 0x81, 0x04, 1, 9]), "refused 2\n");
    assert_eq!(refused(&[7, 1, 1, 0x81, 0x04]), "refused 3\n");
    assert_eq!(refused(&[7, 1, 1, 1, 1, 1]), "refused 4\n");
}

#[test]
fn numbers_and_files_make_the_round_trip() {
    let mut random = Random::new(1);
    for _ in 0..2_000 {
        let number = random.word() >> random.between(22, 63);
        let mut bytes = Vec::new();
        write_number(number, &mut bytes);
        assert_eq!(read_number(&bytes, 0), Ok((number, bytes.len())));
        round_trip(&mut random);
    }
}

fn round_trip(random: &mut Random) {
    let mut lists = Lists::default();
    for _ in 0..random.below(6) {
        let [file, size] = [random.below(16), random.between(1, MOST_SIZE)];
        let cost = random.below(65_536);
        lists.push(Request { file, size, cost });
    }
    let mut out = [0; 100];
    let mut read = lists_of(&vec![[0; 3]; lists.files.len()]);
    let count = write_part(16, &lists, &mut out).expect("the lists are in range");
    assert_eq!(
        read_part(16, &out[..count], &mut read),
        Ok(lists.files.len())
    );
    assert_eq!(read, lists);

    let mut words = [0; 5];
    let count = write_file(&SETTINGS, &lists, &mut out).expect("the lists are in range");
    assert_eq!(
        read_file(&out[..count], &mut words, &mut read),
        Ok(lists.files.len())
    );
    assert_eq!((words, read), (SETTINGS.words(), lists));
}
