//! The tally and the tables as a caller has them between calls.

use crate::model::tables::Tables;
use crate::model::tally::{Settings, Tally, TALLY_WORDS};
use crate::same::same_list;

/// The tally and the tables that a caller lends.
#[derive(Clone)]
pub struct Lent {
    pub tally: Vec<u64>,
    pub tables: Tables,
}

impl Lent {
    pub fn settings(&self) -> Settings {
        self.read_tally().settings
    }

    pub fn read_tally(&self) -> Tally {
        Tally::read(&self.tally).expect("the tally is long enough")
    }

    pub fn set_tally(&mut self, tally: &Tally) {
        self.tally[..TALLY_WORDS].copy_from_slice(&tally.words());
    }

    /// Every entry is the one due, also past the lengths that are needed.
    pub fn same_as(&self, due: &Lent) -> Result<(), String> {
        let (given, wanted) = (&self.tables, &due.tables);
        same_list("tally", &self.tally, &due.tally)?;
        same_list("place", &given.place, &wanted.place)?;
        same_list("file", &given.file, &wanted.file)?;
        same_list("size", &given.size, &wanted.size)?;
        same_list("cost", &given.cost, &wanted.cost)?;
        same_list("freq", &given.freq, &wanted.freq)?;
        same_list("key", &given.key, &wanted.key)?;
        same_list("stamp", &given.stamp, &wanted.stamp)?;
        same_list("queue", &given.queue, &wanted.queue)
    }
}
