//! The run under both policies, over a plain vector of the kept files.

use super::lifts::{lifts_for_a_request, whole, word_of};
use super::limits::{in_force, product, MOST_FREQUENCY};
use super::tally::{Settings, Tally};
use super::trace::Request;

/// One kept file; its key is whole in a run, and less the lifts in the tables.
#[derive(Clone, Copy, Debug, PartialEq, Eq)]
pub struct Kept {
    pub file: u64,
    pub size: u64,
    pub cost: u64,
    pub frequency: u64,
    pub key: u128,
    pub stamp: u64,
}

/// What a request came to, with the files it evicted in order.
#[derive(Clone, Debug, PartialEq, Eq)]
pub enum Outcome {
    Hit,
    Admitted(Vec<Kept>),
    Big,
    Low,
}

/// A request's outcome, and whether a copy of another size was dropped before it.
#[derive(Clone, Debug, PartialEq, Eq)]
pub struct Reply {
    pub stale: bool,
    pub outcome: Outcome,
}

#[derive(Clone, Copy)]
enum Kind {
    Hit = 1,
    Admit = 2,
    Big = 3,
    Low = 4,
    Evict = 5,
    Stale = 6,
}

/// A run in whole numbers: its tally, and the kept files in no special order. What it does never asks for the lifts.
#[derive(Clone, Debug, PartialEq, Eq)]
pub struct Run {
    pub tally: Tally,
    pub kept: Vec<Kept>,
}

impl Run {
    pub fn fresh(settings: Settings) -> Self {
        Run {
            tally: Tally::fresh(settings),
            kept: Vec::new(),
        }
    }

    /// The run that sound tables stand for.
    pub fn over(tally: Tally, mut kept: Vec<Kept>) -> Self {
        for file in &mut kept {
            file.key += whole(tally.lifts, 0);
        }
        Run { tally, kept }
    }

    /// The kept files by number with the keys that the tables have of them.
    pub fn shelf(&self) -> Vec<Kept> {
        let mut kept = self.kept.clone();
        for file in &mut kept {
            file.key = word_of(self.tally.lifts, file.key).into();
        }
        kept.sort_by_key(|file| file.file);
        kept
    }

    /// Serves the requests in order and gives their events.
    pub fn serve_all(&mut self, requests: &[Request]) -> Vec<u32> {
        let mut events = Vec::new();
        for request in requests {
            let reply = self.serve(*request);
            push_events(request.file, &reply, &mut events);
        }
        events
    }

    pub fn serve(&mut self, request: Request) -> Reply {
        self.tally.lifts = lifts_for_a_request(self.tally.lifts, self.tally.whole_inflation);
        let stale = self.drop_stale(request);
        let newcomer = Kept {
            file: request.file,
            size: request.size,
            cost: in_force(request.cost, request.size),
            frequency: 1,
            key: 0,
            stamp: self.tally.requests,
        };
        let index = self.kept.iter().position(|kept| kept.file == request.file);
        let outcome = match index {
            Some(index) => self.hit(index),
            None => self.miss(newcomer),
        };
        self.tally.requests += 1;
        self.tally.files_kept = self.kept.len() as u64;
        self.tally.bytes_kept = bytes_of(&self.kept);
        Reply { stale, outcome }
    }

    /// A kept copy of another size is an old cut: it goes for good, whatever the request then comes to.
    fn drop_stale(&mut self, request: Request) -> bool {
        let is_old_cut = |kept: &Kept| kept.file == request.file && kept.size != request.size;
        let before = self.kept.len();
        self.kept.retain(|kept| !is_old_cut(kept));
        let stale = self.kept.len() < before;
        self.tally.dropped += u64::from(stale);
        stale
    }

    fn hit(&mut self, index: usize) -> Outcome {
        let kept = &mut self.kept[index];
        if self.tally.settings.policy == 2 {
            kept.frequency = (kept.frequency + 1).min(MOST_FREQUENCY);
        }
        let credit = product(kept.frequency, kept.cost, kept.size);
        kept.key = self.tally.whole_inflation + credit;
        kept.stamp = self.tally.requests;
        self.tally.hits += 1;
        self.tally.hit_bytes += kept.size;
        self.tally.hit_cost += kept.cost;
        self.tally.bytes_asked += kept.size;
        self.tally.cost_asked += kept.cost;
        Outcome::Hit
    }

    fn miss(&mut self, newcomer: Kept) -> Outcome {
        self.tally.bytes_asked += newcomer.size;
        self.tally.cost_asked += newcomer.cost;
        let outcome = if newcomer.size > self.tally.settings.capacity {
            Outcome::Big
        } else if self.tally.settings.policy == 1 {
            self.admit_by_policy_1(newcomer)
        } else {
            self.admit_by_policy_2(newcomer)
        };
        match &outcome {
            Outcome::Admitted(evicted) => {
                self.tally.admitted += 1;
                self.tally.evicted += evicted.len() as u64;
            }
            _ => self.tally.passed += 1,
        }
        outcome
    }

    /// Evicts while the newcomer doesn't fit; its key has the inflation after that.
    fn admit_by_policy_1(&mut self, mut newcomer: Kept) -> Outcome {
        let mut evicted = Vec::new();
        while !self.fits(newcomer.size) {
            let lowest = take_lowest(&mut self.kept);
            self.tally.whole_inflation = lowest.key;
            evicted.push(lowest);
        }
        newcomer.key = self.tally.whole_inflation + product(1, newcomer.cost, newcomer.size);
        self.kept.push(newcomer);
        Outcome::Admitted(evicted)
    }

    /// The key has the inflation from before; nothing goes until the newcomer is known to stay.
    fn admit_by_policy_2(&mut self, mut newcomer: Kept) -> Outcome {
        newcomer.key = self.tally.whole_inflation + product(1, newcomer.cost, newcomer.size);
        let mut remaining = self.kept.clone();
        remaining.push(newcomer);
        let mut taken = Vec::new();
        while !self.within(&remaining) {
            taken.push(take_lowest(&mut remaining));
        }
        if taken.contains(&newcomer) {
            return Outcome::Low;
        }
        if let Some(last) = taken.last() {
            self.tally.whole_inflation = last.key;
        }
        self.kept = remaining;
        Outcome::Admitted(taken)
    }

    fn fits(&self, size: u64) -> bool {
        let bytes = bytes_of(&self.kept) + size;
        let files = self.kept.len() as u64 + 1;
        bytes <= self.tally.settings.capacity && files <= self.tally.settings.places
    }

    fn within(&self, files: &[Kept]) -> bool {
        bytes_of(files) <= self.tally.settings.capacity
            && files.len() as u64 <= self.tally.settings.places
    }
}

fn bytes_of(files: &[Kept]) -> u64 {
    files.iter().map(|kept| kept.size).sum()
}

/// Takes out the file of the smallest key, among equal keys that of the smallest stamp.
fn take_lowest(files: &mut Vec<Kept>) -> Kept {
    let lowest = (0..files.len())
        .min_by_key(|&index| (files[index].key, files[index].stamp))
        .expect("a file within the capacity fits an empty store");
    files.swap_remove(lowest)
}

fn event(kind: Kind, file: u64) -> u32 {
    kind as u32 * 32_768 + file as u32
}

/// The drop of a stale copy comes first, then the request's evictions, then its own entry.
fn push_events(file: u64, reply: &Reply, events: &mut Vec<u32>) {
    if reply.stale {
        events.push(event(Kind::Stale, file));
    }
    let kind = match &reply.outcome {
        Outcome::Hit => Kind::Hit,
        Outcome::Big => Kind::Big,
        Outcome::Low => Kind::Low,
        Outcome::Admitted(evicted) => {
            events.extend(evicted.iter().map(|gone| event(Kind::Evict, gone.file)));
            Kind::Admit
        }
    };
    events.push(event(kind, file));
}
