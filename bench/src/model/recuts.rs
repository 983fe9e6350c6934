//! Ticket 2: a request whose size is not the kept one drops the old copy and goes on as a miss.

use super::limits::{product, worth, MOST_FREQUENCY};
use super::pieces::fresh_tables;
use super::run::{Kept, Outcome, Reply, Run};
use super::sheet::sheet;
use super::soundness::sound;
use super::tables::carry_on;
use super::tally::{Settings, Tally};
use super::trace::{write_number, Request};
use crate::random::Random;

const SETTINGS: Settings = Settings {
    unit: 7,
    policy: 1,
    capacity: 100,
    places: 8,
    catalogue: 16,
};

const SECOND: Settings = Settings {
    policy: 2,
    ..SETTINGS
};

fn ask(run: &mut Run, [file, size, cost]: [u64; 3]) -> Reply {
    run.serve(Request { file, size, cost })
}

fn after(settings: Settings, requests: &[[u64; 3]]) -> Run {
    let mut run = Run::fresh(settings);
    for &request in requests {
        ask(&mut run, request);
    }
    run
}

/// The reply to a request that dropped an old cut.
fn recut(outcome: Outcome) -> Reply {
    let stale = true;
    Reply { stale, outcome }
}

fn kept(run: &Run, file: u64) -> Option<Kept> {
    run.kept.iter().find(|kept| kept.file == file).copied()
}

#[test]
fn a_recut_that_fits_is_kept_anew_with_frequency_1() {
    for settings in [SETTINGS, SECOND] {
        let mut run = after(settings, &[[1, 60, 4], [1, 60, 4], [1, 60, 4]]);
        let reply = ask(&mut run, [1, 50, 9]);
        assert_eq!(reply, recut(Outcome::Admitted(Vec::new())));
        let newcomer = Kept {
            file: 1,
            size: 50,
            cost: 9,
            frequency: 1,
            key: worth(9, 50).into(),
            stamp: 3,
        };
        assert_eq!(run.kept, [newcomer]);
        let tally = &run.tally;
        assert_eq!([tally.hits, tally.admitted], [2, 2]);
        assert_eq!([tally.evicted, tally.dropped], [0, 1]);
        assert_eq!(run.tally.bytes_kept, 50);
        assert_eq!([run.tally.bytes_asked, run.tally.cost_asked], [230, 21]);
        assert_eq!([run.tally.hit_bytes, run.tally.hit_cost], [120, 8]);
    }
}

/// The old copy's room is free before anything is evicted, so a neighbour stays that would not fit beside both.
#[test]
fn the_old_copy_goes_before_the_evictions() {
    for settings in [SETTINGS, SECOND] {
        let mut run = after(settings, &[[1, 60, 4], [2, 40, 1]]);
        let reply = ask(&mut run, [1, 59, 4]);
        assert!(reply.stale);
        assert_eq!(reply.outcome, Outcome::Admitted(Vec::new()));
        let reply = ask(&mut run, [1, 61, 4]);
        let Outcome::Admitted(evicted) = reply.outcome else {
            panic!("the recut is kept");
        };
        assert!(reply.stale);
        assert_eq!(
            evicted.iter().map(|gone| gone.file).collect::<Vec<_>>(),
            [2]
        );
    }
}

#[test]
fn a_big_recut_leaves_no_copy() {
    for settings in [SETTINGS, SECOND] {
        let mut run = after(settings, &[[1, 60, 4], [2, 40, 1]]);
        let reply = ask(&mut run, [1, 101, 4]);
        assert_eq!(reply, recut(Outcome::Big));
        assert_eq!(kept(&run, 1), None);
        assert_eq!([run.tally.passed, run.tally.dropped], [1, 1]);
        assert_eq!([run.tally.bytes_kept, run.tally.files_kept], [40, 1]);
        let again = ask(&mut run, [1, 60, 4]);
        assert_eq!(again.outcome, Outcome::Admitted(Vec::new()));
        assert!(!again.stale, "nothing was kept of it");
    }
}

#[test]
fn a_low_recut_leaves_no_copy_and_evicts_nothing() {
    let mut run = after(SECOND, &[[1, 50, 9], [2, 40, 9], [2, 40, 9]]);
    let neighbour = kept(&run, 2);
    let reply = ask(&mut run, [1, 100, 1]);
    assert_eq!(reply, recut(Outcome::Low));
    assert_eq!([kept(&run, 1), kept(&run, 2)], [None, neighbour]);
    assert_eq!([run.tally.inflation(), run.tally.bytes_kept], [0, 40]);
    let tally = &run.tally;
    assert_eq!([tally.evicted, tally.dropped, tally.passed], [0, 1, 1]);
}

#[test]
fn the_same_size_is_a_hit_at_the_kept_cost() {
    for (settings, frequency) in [(SETTINGS, 1), (SECOND, 2)] {
        let mut run = after(settings, &[[1, 60, 4]]);
        let reply = ask(&mut run, [1, 60, 9]);
        assert_eq!((reply.stale, reply.outcome), (false, Outcome::Hit));
        let file = kept(&run, 1).expect("the file is kept");
        assert_eq!((file.cost, file.frequency), (4, frequency));
        assert_eq!([run.tally.hit_cost, run.tally.cost_asked], [4, 8]);
        assert_eq!(run.tally.dropped, 0);
    }
}

#[test]
fn inflation_is_unmoved_by_a_drop() {
    for settings in [SETTINGS, SECOND] {
        let filled = [[2, 40, 1], [1, 60, 4], [3, 30, 9]];
        let mut run = after(settings, &filled);
        let inflation = run.tally.whole_inflation;
        assert!(inflation > 0, "file 2 was evicted");
        let lowest = kept(&run, 1).expect("the file is kept").key;
        assert!(lowest > inflation);
        ask(&mut run, [1, 50, 4]);
        assert_eq!(run.tally.whole_inflation, inflation);
        assert_eq!(
            kept(&run, 1).map(|file| file.key),
            Some(inflation + product(1, 4, 50))
        );
    }
}

#[test]
fn the_sheet_says_stale_before_the_evictions() {
    let bytes = [
        7, 1, 100, 8, 16, 1, 60, 4, 2, 40, 1, 1, 61, 4, 1, 61, 4, 1, 101, 4,
    ];
    let text = "unit 7
admit 1
admit 2
stale 1
evict 2
admit 1
hit 1
stale 1
big 1
requests 5 hits 1 admitted 3 passed 1 evicted 1 dropped 2
bytes 323 hitbytes 61
cost 17 hitcost 4
lifts 0 L 419430 used 0 files 0
";
    assert_eq!(sheet(&bytes), text);
}

/// The plain method of demand 3: credits in place of keys, and no inflation.
struct Plain {
    settings: Settings,
    served: u64,
    files: Vec<Kept>,
}

impl Plain {
    fn fresh(settings: Settings) -> Self {
        Plain {
            settings,
            served: 0,
            files: Vec::new(),
        }
    }

    fn over(&self, files: &[Kept]) -> bool {
        let bytes: u64 = files.iter().map(|file| file.size).sum();
        bytes > self.settings.capacity || files.len() as u64 > self.settings.places
    }

    /// Takes the lowest credit from every credit and drops its file.
    fn evict(files: &mut Vec<Kept>) -> u64 {
        let rank = |at: &usize| (files[*at].key, files[*at].stamp);
        let lowest = (0..files.len()).min_by_key(rank).expect("a file is there");
        let gone = files.remove(lowest);
        files.iter_mut().for_each(|file| file.key -= gone.key);
        gone.file
    }

    /// The files evicted and the outcome's event number; a dropped file's credit is simply gone.
    fn serve(&mut self, request: Request) -> (Vec<u64>, u32) {
        let Request { file, size, cost } = request;
        let stamp = self.served;
        self.served += 1;
        self.files
            .retain(|kept| kept.file != file || kept.size == size);
        let policy = self.settings.policy;
        if let Some(kept) = self.files.iter_mut().find(|kept| kept.file == file) {
            kept.frequency = (kept.frequency + policy - 1).min(MOST_FREQUENCY);
            kept.key = product(kept.frequency, kept.cost, size);
            kept.stamp = stamp;
            return (Vec::new(), 1);
        }
        if size > self.settings.capacity {
            return (Vec::new(), 3);
        }
        let newcomer = Kept {
            file,
            size,
            cost,
            frequency: 1,
            key: product(1, cost, size),
            stamp,
        };
        self.admit(newcomer)
    }

    fn admit(&mut self, newcomer: Kept) -> (Vec<u64>, u32) {
        let mut files = self.files.clone();
        let mut evicted = Vec::new();
        if self.settings.policy == 1 {
            while self.over(&[&files[..], &[newcomer]].concat()) {
                evicted.push(Plain::evict(&mut files));
            }
            files.push(newcomer);
        } else {
            files.push(newcomer);
            while self.over(&files) {
                evicted.push(Plain::evict(&mut files));
            }
        }
        if evicted.contains(&newcomer.file) {
            return (Vec::new(), 4);
        }
        self.files = files;
        (evicted, 2)
    }
}

/// A trace of few files, most requests for the size that the file had before.
fn request(random: &mut Random, sizes: &mut [u64; 6]) -> Request {
    let file = random.index(sizes.len());
    if sizes[file] == 0 || random.one_in(4) {
        sizes[file] = random.pick(&[1, 9, 30, 50, 99, 100, 101]);
    }
    Request {
        file: file as u64,
        size: sizes[file],
        cost: random.between(1, 9),
    }
}

#[test]
fn the_plain_method_gives_the_same_outcomes_and_credits() {
    let mut random = Random::new(2);
    let mut outcomes = [0; 5];
    for case in 0..400 {
        let settings = Settings {
            policy: 1 + case % 2,
            places: random.between(1, 4),
            ..SETTINGS
        };
        let mut plain = Plain::fresh(settings);
        let mut run = Run::fresh(settings);
        let mut sizes = [0; 6];
        for _ in 0..60 {
            let request = request(&mut random, &mut sizes);
            let reply = run.serve(request);
            let (evicted, kind) = plain.serve(request);
            assert_eq!((evicted, kind), told(&reply));
            outcomes[kind as usize] += u64::from(reply.stale);
            assert_eq!(credits(&run), in_order(&plain.files));
        }
    }
    let [_, hit, admit, big, low] = outcomes;
    assert_eq!(hit, 0, "a recut is no hit");
    assert!(admit > 500 && big > 100 && low > 100, "{outcomes:?}");
}

fn told(reply: &Reply) -> (Vec<u64>, u32) {
    match &reply.outcome {
        Outcome::Hit => (Vec::new(), 1),
        Outcome::Admitted(evicted) => (evicted.iter().map(|gone| gone.file).collect(), 2),
        Outcome::Big => (Vec::new(), 3),
        Outcome::Low => (Vec::new(), 4),
    }
}

fn in_order(files: &[Kept]) -> Vec<Kept> {
    let mut files = files.to_vec();
    files.sort_by_key(|file| file.file);
    files
}

/// The kept files with key less inflation in the key's stead.
fn credits(run: &Run) -> Vec<Kept> {
    let mut files = in_order(&run.kept);
    files
        .iter_mut()
        .for_each(|file| file.key -= run.tally.whole_inflation);
    files
}

/// Evicted, dropped and files kept must add up to the admitted, with no sum cut off at 64 bits.
#[test]
fn soundness_counts_the_dropped_exactly() {
    let (words, tables) = fresh_tables(&SETTINGS);
    let mut part = Vec::new();
    for number in [1, 60, 4, 1, 101, 4, 2, 10, 1, 2, 101, 1] {
        write_number(number, &mut part);
    }
    let carried = carry_on(7, &words, &tables, &part, 8).expect("the call is done");
    let tally = carried.run.tally;
    assert_eq!([tally.admitted, tally.dropped, tally.files_kept], [2, 2, 0]);
    let judged = |evicted, dropped| {
        let tally = Tally {
            evicted,
            dropped,
            ..tally
        };
        sound(&tally, &tables)
    };
    assert!(judged(0, 2) && judged(1, 1) && judged(2, 0));
    assert!(!judged(0, 1) && !judged(0, 3) && !judged(1, 2));
    assert!(!judged(u64::MAX, 3) && !judged(3, u64::MAX));
    assert!(!judged(1 << 63, (1 << 63) + 2));
}
