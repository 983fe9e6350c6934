//! The independent model: documents 01 and 02 in plain vectors, written to be read against them.

pub mod lifts;
pub mod limits;
pub mod queue;
pub mod ratios;
pub mod red_card;
pub mod run;
pub mod sheet;
pub mod soundness;
pub mod squid;
pub mod tables;
pub mod tally;
pub mod trace;

#[cfg(test)]
mod pieces;
#[cfg(test)]
mod recuts;
#[cfg(test)]
mod season;
