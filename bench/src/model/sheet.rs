//! The sheet's text, with the program's own limits.

use super::red_card::{require, Refusal};
use super::run::Run;
use super::tally::Tally;
use super::trace::{put_bytes, read_requests, read_settings};

pub const SHEET_PLACES: u64 = 512;
pub const SHEET_CATALOGUE: u64 = 4_096;
pub const SHEET_INPUT: usize = 16_384;

const KIND_NAMES: [&str; 7] = ["", "hit", "admit", "big", "low", "evict", "stale"];

/// What the program prints: the sheet, or the line of a refusal.
pub fn sheet(trace: &[u8]) -> String {
    match replay(trace) {
        Ok((run, events)) => text(&run.tally, &events),
        Err(refusal) => format!("refused {}\n", refusal.number()),
    }
}

/// Puts the sheet at the start of a lent buffer.
pub fn sheet_into(trace: &[u8], out: &mut [u8]) -> Result<usize, Refusal> {
    put_bytes(sheet(trace).as_bytes(), out)
}

fn replay(trace: &[u8]) -> Result<(Run, Vec<u32>), Refusal> {
    require(trace.len() <= SHEET_INPUT, Refusal::LongInput)?;
    let (settings, at) = read_settings(trace)?;
    let tables = settings.places <= SHEET_PLACES && settings.catalogue <= SHEET_CATALOGUE;
    require(tables, Refusal::ShortTable)?;
    let requests = read_requests(trace, at, settings.catalogue)?;
    let mut run = Run::fresh(settings);
    let events = run.serve_all(&requests);
    Ok((run, events))
}

pub(super) fn text(tally: &Tally, events: &[u32]) -> String {
    let mut text = format!("unit {}\n", tally.settings.unit);
    for event in events {
        let kind = KIND_NAMES[(event / 32_768) as usize];
        text += &format!("{kind} {}\n", event % 32_768);
    }
    text += &format!(
        "requests {} hits {} admitted {} passed {} evicted {} dropped {}\n",
        tally.requests, tally.hits, tally.admitted, tally.passed, tally.evicted, tally.dropped
    );
    text += &format!("bytes {} hitbytes {}\n", tally.bytes_asked, tally.hit_bytes);
    text += &format!("cost {} hitcost {}\n", tally.cost_asked, tally.hit_cost);
    text += &format!(
        "lifts {} L {} used {} files {}\n",
        tally.lifts,
        tally.inflation(),
        tally.bytes_kept,
        tally.files_kept
    );
    text
}
