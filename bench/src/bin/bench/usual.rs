//! The usual way: a hash map from file to record, and an ordered set for the lowest. Without lifts: of the traces that
//! are timed in one call none has inflation past 64 bits.

use std::collections::{BTreeSet, HashMap};

use bench::model::limits::{in_force, worth, MOST_FREQUENCY, SCALE};
use bench::model::tally::Settings;

#[derive(Clone, Copy)]
struct Record {
    size: u64,
    cost: u64,
    frequency: u64,
    key: u64,
    stamp: u64,
}

pub struct Usual {
    settings: Settings,
    inflation: u64,
    bytes_kept: u64,
    served: u64,
    files: HashMap<u64, Record>,
    order: BTreeSet<(u64, u64, u64)>,
    taken: Vec<(u64, u64, u64)>,
    pub events: Vec<u32>,
}

const HIT: u64 = 1;
const ADMIT: u64 = 2;
const BIG: u64 = 3;
const LOW: u64 = 4;
const EVICT: u64 = 5;
const STALE: u64 = 6;

impl Usual {
    pub fn new(settings: Settings, requests: usize) -> Self {
        Usual {
            settings,
            inflation: 0,
            bytes_kept: 0,
            served: 0,
            files: HashMap::new(),
            order: BTreeSet::new(),
            taken: Vec::new(),
            events: Vec::with_capacity(2 * requests),
        }
    }

    pub fn serve(&mut self, [file, size, cost]: [u64; 3]) {
        let kind = if self.is_kept(file, size) {
            self.hit(file);
            HIT
        } else if size > self.settings.capacity {
            BIG
        } else {
            self.miss(file, size, in_force(cost, size))
        };
        self.push(kind, file);
        self.served += 1;
    }

    /// Whether the file is kept in this size; a copy of another size is dropped.
    fn is_kept(&mut self, file: u64, size: u64) -> bool {
        let Some(&Record {
            size: kept,
            key,
            stamp,
            ..
        }) = self.files.get(&file)
        else {
            return false;
        };
        if kept != size {
            self.files.remove(&file);
            self.order.remove(&(key, stamp, file));
            self.bytes_kept -= kept;
            self.push(STALE, file);
        }
        kept == size
    }

    fn hit(&mut self, file: u64) {
        let record = self.files.get_mut(&file).expect("the file is kept");
        self.order.remove(&(record.key, record.stamp, file));
        if self.settings.policy == 2 {
            record.frequency = (record.frequency + 1).min(MOST_FREQUENCY);
        }
        record.key = self.inflation + record.frequency * record.cost * SCALE / record.size;
        record.stamp = self.served;
        self.order.insert((record.key, record.stamp, file));
    }

    fn miss(&mut self, file: u64, size: u64, cost: u64) -> u64 {
        let early_key = self.inflation + worth(cost, size);
        if !self.take_lowest(size, early_key) {
            return LOW;
        }
        self.evict_taken();
        let key = match self.settings.policy {
            1 => self.inflation + worth(cost, size),
            _ => early_key,
        };
        let record = Record {
            size,
            cost,
            frequency: 1,
            key,
            stamp: self.served,
        };
        self.files.insert(file, record);
        self.order.insert((key, self.served, file));
        self.bytes_kept += size;
        ADMIT
    }

    /// Notes the lowest files until the newcomer fits; policy 2 stops where it would go itself.
    fn take_lowest(&mut self, size: u64, newcomer_key: u64) -> bool {
        let mut bytes = self.bytes_kept + size;
        let mut files = self.files.len() as u64 + 1;
        self.taken.clear();
        for &entry in &self.order {
            if bytes <= self.settings.capacity && files <= self.settings.places {
                break;
            }
            if self.settings.policy == 2 && entry.0 > newcomer_key {
                return false;
            }
            bytes -= self.files[&entry.2].size;
            files -= 1;
            self.taken.push(entry);
        }
        true
    }

    fn evict_taken(&mut self) {
        for index in 0..self.taken.len() {
            let entry = self.taken[index];
            self.order.remove(&entry);
            if let Some(gone) = self.files.remove(&entry.2) {
                self.bytes_kept -= gone.size;
            }
            self.inflation = entry.0;
            self.push(EVICT, entry.2);
        }
    }

    fn push(&mut self, kind: u64, file: u64) {
        self.events.push((kind * 32_768 + file) as u32);
    }
}
