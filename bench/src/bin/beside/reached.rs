//! What the runs came to. Runs that miss what they are made for compare less than they say, and fail.

use bench::lent::Lent;
use bench::model::tally::Tally;

/// The numbers of the red card that a fresh start and carrying on can give, 0 for done among them.
const NUMBERS: usize = 9;
const RUN_LIMIT: usize = 5;

const KINDS: [&str; 6] = ["hits", "admitted", "big", LOW, "evicted", "dropped"];
const LOW: &str = "low";
const HIT: u32 = 1;

/// Runs are counted by whether they have at least so many places.
const PLACES: [u64; 3] = [64, 512, 4_096];

#[derive(Default)]
pub struct Reached {
    /// Calls with a tally too short for one archive alone, and those near its limit, are left out.
    pub shorter_tally: bool,
    /// Under policy 1 no file is low.
    has_low: bool,
    /// Calls since the run began.
    pub calls_of_run: u64,
    calls: [u64; NUMBERS],
    entries: usize,
    kinds: [u64; KINDS.len()],
    /// Hits that were alone in their call: how many stayed where they were in the queue, and how many moved.
    lone_hits: [u64; 2],
    runs: u64,
    large: [u64; PLACES.len()],
    /// Runs that ended with a file in each place.
    full: [u64; PLACES.len()],
}

impl Reached {
    pub fn none(shorter_tally: bool, policies: &[u64]) -> Self {
        Reached {
            shorter_tally,
            has_low: policies.contains(&2),
            ..Reached::default()
        }
    }

    pub fn call(&mut self, number: u64, lent: &Lent, events: &[u32]) {
        self.calls_of_run += 1;
        self.calls[number as usize] += 1;
        let tables: usize = lent.tables.lengths().iter().sum();
        self.entries += lent.tally.len() + tables + events.len();
    }

    pub fn events(&mut self, events: &[u32], has_moved: bool) {
        for event in events {
            self.kinds[(event / 32_768 - 1) as usize] += 1;
        }
        if matches!(events, [event] if event / 32_768 == HIT) {
            self.lone_hits[usize::from(has_moved)] += 1;
        }
    }

    pub fn end_of_run(&mut self, tally: &Tally) {
        self.calls_of_run = 0;
        self.runs += 1;
        let places = tally.settings.places;
        let is_full = tally.files_kept == places;
        for (at, least) in PLACES.into_iter().enumerate() {
            self.large[at] += u64::from(places >= least);
            self.full[at] += u64::from(places >= least && is_full);
        }
    }

    pub fn print(&self) {
        let [done, refused @ ..] = self.calls;
        let calls: u64 = self.calls.iter().sum();
        println!("{} runs, {calls} calls: done {done}", self.runs);
        for (at, count) in refused.iter().enumerate() {
            println!("refused {}: {count}", at + 1);
        }
        let served: u64 = self.kinds[..4].iter().sum();
        println!("{served} requests served");
        for (kind, count) in KINDS.iter().zip(self.kinds) {
            println!("{kind} {count}");
        }
        let [stayed, moved] = self.lone_hits;
        println!("hits alone in their call: {moved} moved in the queue, {stayed} stayed");
        for (at, least) in PLACES.iter().enumerate() {
            let (runs, full) = (self.large[at], self.full[at]);
            println!("runs of at least {least} places: {runs}, of them full at the end: {full}");
        }
        println!("{} lent entries compared, all the same", self.entries);
    }

    /// What no run reached, one line each.
    pub fn missed(&self) -> Vec<String> {
        let numbers = self.calls.iter().enumerate();
        let due = numbers.filter(|&(number, _)| number != RUN_LIMIT || !self.shorter_tally);
        let calls = due.map(|(number, &count)| (format!("a call that answers {number}"), count));
        let kinds = KINDS.iter().zip(self.kinds);
        let due = kinds.filter(|&(&kind, _)| kind != LOW || self.has_low);
        let events = due.map(|(kind, count)| (format!("an event of the kind {kind}"), count));
        let hits = ["stays", "moves"].iter().zip(self.lone_hits);
        let lone = hits.map(|(does, count)| (format!("a hit that {does} in the queue"), count));
        let sizes = PLACES.iter().zip(self.full);
        let full = sizes.map(|(least, count)| (format!("a full store of {least} places"), count));
        let all = calls.chain(events).chain(lone).chain(full);
        all.filter(|&(_, count)| count == 0)
            .map(|(what, _)| format!("MISSED: {what}"))
            .collect()
    }
}
