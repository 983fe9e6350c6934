//! Random settings, requests and lent tables, and tables that the library and the model have agreed on.

pub use bench::make::*;
use bench::model::tally::Settings;
use bench::random::Random;

use crate::agree::{self, Lent};

/// Tables after a fresh start.
pub fn fresh_lent(random: &mut Random, settings: &Settings) -> Result<Lent, String> {
    let mut lent = old_lent(random, settings);
    agree::fresh(settings, &mut lent)?;
    Ok(lent)
}

/// Tables in the midst of a run.
pub fn running_lent(random: &mut Random) -> Result<Lent, String> {
    let settings = settings(random);
    let mut lent = fresh_lent(random, &settings)?;
    let requests = requests(random, &settings, 60);
    let mut events = events_for(random, &lent, requests.len());
    agree::carry_on(settings.unit, &mut lent, &part_of(&requests), &mut events)?;
    Ok(lent)
}
