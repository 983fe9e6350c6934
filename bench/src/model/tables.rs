//! The lent tables, what they stand for, a fresh start and carrying on.

use super::limits::{MOST_REQUESTS, MOST_UNIT};
use super::red_card::{require, Refusal};
use super::run::{Kept, Run};
use super::soundness::sound;
use super::tally::{Settings, Tally, TALLY_WORDS};
use super::trace::read_requests;

/// The entry of a file number that has no place.
pub const NO_PLACE: u16 = 65_535;

/// The place by file number; by place the record; and the queue of occupied places.
#[derive(Clone, Debug, Default, PartialEq, Eq)]
pub struct Tables {
    pub place: Vec<u16>,
    pub file: Vec<u16>,
    pub size: Vec<u32>,
    pub cost: Vec<u16>,
    pub freq: Vec<u32>,
    pub key: Vec<u64>,
    pub stamp: Vec<u64>,
    pub queue: Vec<u16>,
}

impl Tables {
    /// The lengths in the boundary's order, the table by file number first.
    pub fn lengths(&self) -> [usize; 8] {
        [
            self.place.len(),
            self.file.len(),
            self.size.len(),
            self.cost.len(),
            self.freq.len(),
            self.key.len(),
            self.stamp.len(),
            self.queue.len(),
        ]
    }

    pub fn long_enough(&self, settings: &Settings) -> bool {
        let [by_file, by_place @ ..] = self.lengths();
        let places = settings.places as usize;
        by_file >= settings.catalogue as usize && by_place.iter().all(|&length| length >= places)
    }

    pub fn record(&self, place: usize) -> Kept {
        Kept {
            file: self.file[place].into(),
            size: self.size[place].into(),
            cost: self.cost[place].into(),
            frequency: self.freq[place].into(),
            key: self.key[place].into(),
            stamp: self.stamp[place],
        }
    }

    /// What sound tables keep: the records by file number with the keys that they have there, whatever their places.
    pub fn shelf(&self, catalogue: u64) -> Vec<Kept> {
        let occupied = self.place[..catalogue as usize]
            .iter()
            .filter(|&&place| place != NO_PLACE);
        occupied.map(|&place| self.record(place.into())).collect()
    }
}

/// Where carrying on leads: the run after the part, and the new events.
pub struct Carried {
    pub run: Run,
    pub events: Vec<u32>,
}

pub fn fresh(settings: &Settings, tally: &mut [u64], tables: &mut Tables) -> Result<(), Refusal> {
    require(settings.in_range(), Refusal::Setting)?;
    let lent = tally.len() >= TALLY_WORDS && tables.long_enough(settings);
    require(lent, Refusal::ShortTable)?;
    tally[..TALLY_WORDS].copy_from_slice(&Tally::fresh(*settings).words());
    tables.place[..settings.catalogue as usize].fill(NO_PLACE);
    let places = settings.places as usize;
    tables.file[..places].fill(0);
    tables.size[..places].fill(0);
    tables.cost[..places].fill(0);
    tables.freq[..places].fill(0);
    tables.key[..places].fill(0);
    tables.stamp[..places].fill(0);
    tables.queue[..places].fill(0);
    Ok(())
}

/// Decides every refusal, then serves the part; `room` is the length of the event list.
pub fn carry_on(
    unit: u64,
    tally: &[u64],
    tables: &Tables,
    part: &[u8],
    room: usize,
) -> Result<Carried, Refusal> {
    require(unit <= MOST_UNIT, Refusal::Setting)?;
    let tally = Tally::read(tally).ok_or(Refusal::ShortTable)?;
    require(tally.settings.in_range(), Refusal::Setting)?;
    require(tables.long_enough(&tally.settings), Refusal::ShortTable)?;
    require(tally.settings.unit == unit, Refusal::OtherUnit)?;
    require(sound(&tally, tables), Refusal::Unsound)?;
    let requests = read_requests(part, 0, tally.settings.catalogue)?;
    let count = requests.len() as u64;
    require(tally.requests + count <= MOST_REQUESTS, Refusal::RunLimit)?;
    require(room as u64 >= 2 * count + tally.files_kept, Refusal::Room)?;
    let kept = tables.shelf(tally.settings.catalogue);
    let mut run = Run::over(tally, kept);
    let events = run.serve_all(&requests);
    Ok(Carried { run, events })
}
