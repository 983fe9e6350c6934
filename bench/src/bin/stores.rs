//! How many entries of the queue its operations store, in the three ways of `model::queue`: `stores [REQUESTS]`.
//!
//! A run of the model over the benchmark's traces says what is done. An admission is an insertion, a hit a key change, an
//! eviction the removal of entry 0, and the drop of a stale copy the removal of its entry; the freed entry gets the
//! removed place. What policy 2 sets aside and puts back for a file that is then low is left out: the model has no word of it.

use std::process::ExitCode;

use bench::model::limits::MOST_CATALOGUE;
use bench::model::queue::{Operation, Queue, Rank, KINDS, WAYS};
use bench::model::run::{Outcome, Run};
use bench::model::tally::Settings;
use bench::model::trace::{read_requests, Request};
use bench::workload::{self, MOST_AT_ONCE, PLACES};

const DEFAULT_REQUESTS: u64 = 100_000;

/// What the operations of one kind stored, by way.
#[derive(Clone, Copy, Default)]
struct Counts {
    operations: u64,
    sums: [usize; 3],
    largest: [usize; 3],
    /// How many operations stored nothing.
    nothing: [u64; 3],
}

impl Counts {
    fn add(&mut self, stores: [usize; 3]) {
        self.operations += 1;
        for (way, count) in stores.into_iter().enumerate() {
            self.sums[way] += count;
            self.largest[way] = self.largest[way].max(count);
            self.nothing[way] += u64::from(count == 0);
        }
    }

    fn add_all(&mut self, other: &Counts) {
        self.operations += other.operations;
        for way in 0..WAYS.len() {
            self.sums[way] += other.sums[way];
            self.largest[way] = self.largest[way].max(other.largest[way]);
            self.nothing[way] += other.nothing[way];
        }
    }

    fn print(&self, name: &str) {
        print!("{name} {:>9}", self.operations);
        for way in 0..WAYS.len() {
            let average = self.sums[way] as f64 / self.operations as f64;
            let (largest, nothing) = (self.largest[way], self.nothing[way]);
            print!(" | {average:>7.2} {largest:>7} {nothing:>7}");
        }
        println!();
    }
}

/// A run, and its queue in each way.
struct Replay {
    run: Run,
    queues: [Queue; 3],
    /// By file, the place that it has or last had.
    place: Vec<usize>,
    free: Vec<usize>,
    counts: [Counts; 3],
}

impl Replay {
    fn fresh(settings: Settings) -> Self {
        let places = settings.places as usize;
        Replay {
            run: Run::fresh(settings),
            queues: WAYS.map(|way| Queue::empty(way, places)),
            place: vec![0; settings.catalogue as usize],
            free: (0..places).collect(),
            counts: [Counts::default(); 3],
        }
    }

    fn serve(&mut self, request: Request) {
        let file = request.file as usize;
        let reply = self.run.serve(request);
        if reply.stale {
            self.remove(file);
        }
        match reply.outcome {
            Outcome::Hit => self.rekey(file),
            Outcome::Admitted(evicted) => {
                for gone in evicted {
                    let lowest = self.queues[0].entries[0];
                    assert_eq!(lowest, self.place[gone.file as usize], "the lowest goes");
                    self.remove(gone.file as usize);
                }
                self.insert(file);
            }
            Outcome::Big | Outcome::Low => {}
        }
    }

    fn insert(&mut self, file: usize) {
        let place = self.free.pop().expect("a file that is kept has a place");
        self.place[file] = place;
        let rank = self.rank(file);
        self.operate(Operation::Insert { place, rank });
    }

    fn remove(&mut self, file: usize) {
        let place = self.place[file];
        self.free.push(place);
        let at = self.queues[0].index[place];
        self.operate(Operation::Remove { at, left: place });
    }

    fn rekey(&mut self, file: usize) {
        let at = self.queues[0].index[self.place[file]];
        let rank = self.rank(file);
        self.operate(Operation::Rekey { at, rank });
    }

    fn rank(&self, file: usize) -> Rank {
        let mut kept = self.run.kept.iter();
        let found = kept.find(|kept| kept.file == file as u64);
        found
            .map(|kept| (kept.key, kept.stamp))
            .expect("the file is kept")
    }

    fn operate(&mut self, operation: Operation) {
        let stores = self.queues.each_mut();
        let counts = stores.map(|queue| queue.operate(operation).queue.len());
        self.counts[operation.kind()].add(counts);
    }
}

fn main() -> ExitCode {
    let word = std::env::args().nth(1);
    let requests = word.map_or(Ok(DEFAULT_REQUESTS), |word| word.parse());
    let Ok(requests @ 1..=MOST_AT_ONCE) = requests else {
        eprintln!("stores [REQUESTS]");
        return ExitCode::from(2);
    };
    println!("stores of queue entries, {requests} requests over {MOST_CATALOGUE} files");
    print_heads();
    let mut totals = [Counts::default(); 3];
    for workload in workload::all(requests) {
        let requests = read_requests(&workload.part, 0, MOST_CATALOGUE).expect("a good trace");
        for policy in [1, 2] {
            for places in PLACES {
                let counts = replayed(workload.settings(policy, places), &requests);
                let name = format!("{:<11} {policy:>6} {places:>6}", workload.name);
                print_kinds(&name, &counts);
                for (total, counts) in totals.iter_mut().zip(&counts) {
                    total.add_all(counts);
                }
            }
        }
    }
    print_kinds(&format!("{:<25}", "all of them"), &totals);
    println!("all ways left the same queue, entry for entry, in every run");
    ExitCode::SUCCESS
}

/// The operations of a run, counted by kind.
fn replayed(settings: Settings, requests: &[Request]) -> [Counts; 3] {
    let mut replay = Replay::fresh(settings);
    for &request in requests {
        replay.serve(request);
    }
    let [exchanging, before, now] = &replay.queues;
    assert!(now.entries == exchanging.entries && now.entries == before.entries);
    replay.counts
}

fn print_heads() {
    print!("{:<46}", "");
    for way in WAYS {
        print!(" | {:<23}", format!("{way:?}").to_lowercase());
    }
    print!("\nworkload    policy places operation      count");
    for _ in WAYS {
        print!(" | average largest nothing");
    }
    println!();
}

fn print_kinds(name: &str, counts: &[Counts; 3]) {
    for (kind, counts) in KINDS.iter().zip(counts) {
        if counts.operations > 0 {
            counts.print(&format!("{name} {kind:<10}"));
        }
    }
}
