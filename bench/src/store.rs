//! What a timed run needs: its tables, and the median of its times.

use crate::boundary::Library;
use crate::model::tables::Tables;
use crate::model::tally::{Settings, TALLY_WORDS};

/// The tables of one run, just long enough, and room for its events.
pub struct Store {
    settings: Settings,
    pub tally: [u64; TALLY_WORDS],
    pub tables: Tables,
    pub events: Vec<u32>,
}

impl Store {
    pub fn new(settings: Settings, requests: u64) -> Self {
        let places = settings.places as usize;
        Store {
            settings,
            tally: [0; TALLY_WORDS],
            tables: Tables {
                place: vec![0; settings.catalogue as usize],
                file: vec![0; places],
                size: vec![0; places],
                cost: vec![0; places],
                freq: vec![0; places],
                key: vec![0; places],
                stamp: vec![0; places],
                queue: vec![0; places],
            },
            events: vec![0; 2 * requests as usize + places],
        }
    }

    pub fn fresh(&mut self, library: &Library) {
        let answer = library.fresh(&self.settings, &mut self.tally, self.tables.lend());
        assert_eq!(answer.number, 0, "a fresh start is refused");
    }

    /// Carries on and gives the count of events.
    pub fn carry_on(&mut self, library: &Library, part: &[u8]) -> usize {
        let answer = library.carry_on(
            self.settings.unit,
            &mut self.tally,
            self.tables.lend(),
            part,
            &mut self.events,
        );
        assert_eq!(answer.number, 0, "carrying on is refused");
        answer.value as usize
    }
}

pub fn median(mut times: Vec<u128>) -> f64 {
    times.sort_unstable();
    times[times.len() / 2] as f64
}
