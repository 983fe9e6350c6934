//! Ticket 5: whole numbers, lifts, and the limits of a season.

use super::lifts::{lifts_for_a_request, whole, word_of};
use super::limits::{
    INFLATION_BOUND, LIFT, MOST_EXACT, MOST_FREQUENCY, MOST_REQUESTS, MOST_SIZE, MOST_WORTH,
};
use super::pieces::fresh_tables;
use super::ratios::ratios;
use super::red_card::Refusal;
use super::run::{Kept, Outcome, Run};
use super::sheet::text;
use super::soundness::sound;
use super::tables::{carry_on, Tables};
use super::tally::{Settings, Tally};
use super::trace::Request;

const SETTINGS: Settings = Settings {
    unit: 7,
    policy: 2,
    capacity: 100,
    places: 2,
    catalogue: 16,
};

/// Where a tally's words have L and the lifts.
const INFLATION: usize = 5;
const LIFTS: usize = 18;

/// One file of the largest worth at place 0, with the key L + 1, after requests that hit it.
fn one_file(frequency: u64, requests: u64, lifts: u64, inflation: u64) -> (Tally, Tables) {
    let (words, mut tables) = fresh_tables(&SETTINGS);
    let hits = requests - 1;
    let tally = Tally {
        whole_inflation: whole(lifts, inflation),
        lifts,
        bytes_kept: 1,
        files_kept: 1,
        requests,
        hits,
        admitted: 1,
        bytes_asked: requests,
        hit_bytes: hits,
        cost_asked: requests,
        hit_cost: hits,
        ..Tally::from_words(words)
    };
    tables.place[3] = 0;
    tables.file[0] = 3;
    tables.size[0] = 1;
    tables.cost[0] = 65_535;
    tables.freq[0] = frequency as u32;
    tables.key[0] = inflation + 1;
    tables.stamp[0] = requests - 1;
    (tally, tables)
}

fn judged((tally, tables): &(Tally, Tables)) -> bool {
    sound(tally, tables)
}

#[test]
fn one_lift_where_the_inflation_has_reached_it() {
    for lifts in [0, 1, 4_095] {
        let after = |inflation| lifts_for_a_request(lifts, whole(lifts, inflation));
        assert_eq!([after(0), after(LIFT - 1)], [lifts, lifts]);
        let one_more = lifts + 1;
        let reached = [LIFT, LIFT + 1, INFLATION_BOUND - 1].map(after);
        assert_eq!(reached, [one_more; 3]);
    }
    assert_eq!(LIFT, 1 << 60);
    assert_eq!(
        whole(u64::MAX, u64::MAX),
        (1 << 124) - (1 << 60) + (1 << 64) - 1
    );
    assert_eq!(word_of(3, whole(2, LIFT + 9)), 9);
}

/// A lift takes its amount from L and from the key; what the words stand for is as it was.
#[test]
fn a_hit_lifts_first_and_an_empty_part_does_not() {
    let (tally, tables) = one_file(4, MOST_REQUESTS - 9, 2, LIFT + 5);
    let carried = |part: &[u8]| {
        let carried = carry_on(7, &tally.words(), &tables, part, 9).expect("the tables are sound");
        carried.run
    };
    let empty = carried(&[]);
    assert_eq!(empty.tally, tally);
    assert_eq!(empty.shelf()[0].key, u128::from(LIFT) + 6);
    let hit = carried(&[3, 1, 1]);
    assert_eq!([hit.tally.words()[LIFTS], hit.tally.inflation()], [3, 5]);
    assert_eq!(hit.tally.whole_inflation, tally.whole_inflation);
    assert_eq!(hit.shelf()[0].key, 5 + 5 * u128::from(MOST_WORTH));
}

/// Files of the largest worth in turn at one place: L reaches a lift after 1,048,593 evictions.
#[test]
fn a_run_from_a_fresh_start_lifts() {
    let settings = Settings {
        policy: 1,
        places: 1,
        ..SETTINGS
    };
    let mut run = Run::fresh(settings);
    let mut before_the_last = 0;
    for served in 0..1_048_595_u64 {
        assert_eq!(run.tally.lifts, 0, "after {served} requests");
        before_the_last = run.tally.whole_inflation;
        run.serve(Request {
            file: served % 2,
            size: 1,
            cost: 65_535,
        });
    }
    assert_eq!([run.tally.lifts, run.tally.evicted], [1, 1_048_594]);
    assert_eq!(before_the_last, 1_048_593 * u128::from(MOST_WORTH));
    assert!(before_the_last - u128::from(MOST_WORTH) < u128::from(LIFT));
    assert_eq!(
        u128::from(run.tally.lifts),
        before_the_last / u128::from(LIFT)
    );
    assert_eq!(
        u128::from(run.tally.inflation()),
        1_048_594 * u128::from(MOST_WORTH) - u128::from(LIFT)
    );
}

/// Whether tables come from a lift or wait for it, the same run follows.
#[test]
fn no_outcome_depends_on_a_lift() {
    let (tally, tables) = one_file(9, MOST_REQUESTS - 9, 7, LIFT + 5);
    let waiting = Run::over(tally, tables.shelf(16));
    let lifted = Run {
        tally: Tally { lifts: 8, ..tally },
        ..waiting.clone()
    };
    for request in [[3, 1, 1], [3, 2, 1], [4, 99, 9], [5, 60, 1], [6, 101, 1]] {
        let [file, size, cost] = request;
        let request = Request { file, size, cost };
        let [mut one, mut other] = [waiting.clone(), lifted.clone()];
        assert_eq!(one.serve(request), other.serve(request));
        assert_eq!(one, other);
    }
}

#[test]
fn the_frequency_stops_and_the_key_is_still_set() {
    for (frequency, after) in [
        (MOST_FREQUENCY - 1, MOST_FREQUENCY),
        (MOST_FREQUENCY, MOST_FREQUENCY),
    ] {
        let (tally, tables) = one_file(frequency, MOST_REQUESTS - 9, 0, 8);
        assert!(sound(&tally, &tables));
        let mut run = Run::over(tally, tables.shelf(16));
        let request = Request {
            file: 3,
            size: 1,
            cost: 1,
        };
        assert_eq!(run.serve(request).outcome, Outcome::Hit);
        let due = Kept {
            file: 3,
            size: 1,
            cost: 65_535,
            frequency: after,
            key: 8 + u128::from(after) * u128::from(MOST_WORTH),
            stamp: MOST_REQUESTS - 9,
        };
        assert_eq!(run.kept, [due]);
    }
    assert!(!judged(&one_file(MOST_FREQUENCY + 1, MOST_REQUESTS, 0, 8)));
    assert!(!judged(&one_file(u32::MAX.into(), MOST_REQUESTS, 0, 8)));
}

#[test]
fn inflation_and_stamps_and_requests_at_their_bounds() {
    let tables_of = |inflation| one_file(4, MOST_REQUESTS, 9, inflation);
    assert!(judged(&tables_of(INFLATION_BOUND - 1)));
    assert!(!judged(&tables_of(INFLATION_BOUND)));
    let (tally, mut tables) = tables_of(4);
    for (stamp, is_sound) in [
        (MOST_REQUESTS - 1, true),
        (MOST_REQUESTS, false),
        (MOST_REQUESTS + 1, false),
        (u64::MAX, false),
    ] {
        tables.stamp[0] = stamp;
        assert_eq!(sound(&tally, &tables), is_sound, "{stamp}");
    }
    assert!(!judged(&one_file(4, MOST_REQUESTS + 1, 9, 4)));
}

/// A frequency of 5 leaves the whole inflation 5 times the largest worth less than so many requests, and no more.
#[test]
fn the_bound_on_whole_inflation_is_exact_past_64_bits() {
    for requests in [1_048_592 * 17, 4_000_000_000, MOST_REQUESTS] {
        let most = u128::from(requests - 5) * u128::from(MOST_WORTH);
        let lifts = (most >> 60) as u64;
        let met = one_file(5, requests, lifts, word_of(lifts, most));
        assert!(judged(&met) && most >> 64 > 0);
        assert!(judged(&one_file(
            5,
            requests,
            lifts - 1,
            word_of(lifts - 1, most)
        )));
        let passed = |word: usize, by: u64| {
            let mut words = met.0.words();
            words[word] = words[word].wrapping_add(by);
            !sound(&Tally::from_words(words), &met.1)
        };
        assert!(passed(INFLATION, 1));
        for by in [1, 16, 1 << 60, 1 << 63, u64::MAX - lifts] {
            assert!(passed(LIFTS, by), "{by} lifts more");
        }
        assert!(!judged(&one_file(
            5,
            requests - 1,
            lifts,
            word_of(lifts, most)
        )));
    }
}

#[test]
fn ratios_end_at_2_to_the_53rd() {
    let tally = |bytes_asked, passed| Tally {
        requests: MOST_REQUESTS,
        hits: 1,
        passed,
        hit_bytes: 1,
        bytes_asked,
        ..Tally::fresh(SETTINGS)
    };
    let all = MOST_REQUESTS - 1;
    let refusal = |tally: Tally| ratios(&tally.words()).err();
    assert_eq!(refusal(tally(MOST_EXACT, all)), None);
    assert_eq!(refusal(tally(MOST_EXACT + 1, all)), Some(Refusal::Inexact));
    let most = MOST_REQUESTS * MOST_SIZE;
    assert_eq!(refusal(tally(most, all)), Some(Refusal::Inexact));
    assert_eq!(refusal(tally(most + 1, all)), Some(Refusal::Unsound));
    assert_eq!(refusal(tally(most, all - 1)), Some(Refusal::Unsound));
    assert_eq!(Refusal::Inexact.number(), 12);
    let small = ratios(&tally(MOST_EXACT, all).words()).expect("the limit itself passes");
    assert_eq!(small.byte_hit.to_bits(), (1_023 - 53) << 52);
}

#[test]
fn the_last_line_begins_with_the_lifts() {
    let tally = Tally {
        lifts: 3,
        whole_inflation: whole(3, 41),
        bytes_kept: 48,
        files_kept: 2,
        ..Tally::fresh(SETTINGS)
    };
    let sheet = text(&tally, &[]);
    assert!(
        sheet.ends_with("\nlifts 3 L 41 used 48 files 2\n"),
        "{sheet}"
    );
}
