//! One call of the archive before beside the library's: the answers and every lent entry must be the same.

use bench::boundary::{BEFORE, NOW};
use bench::lent::Lent;
use bench::make;
use bench::model::tally::{Settings, TALLY_WORDS};
use bench::random::Random;
use bench::same::{same, same_list};

use crate::reached::Reached;

/// Whether the archive before takes a tally that is a word short for this one. Then it has other limits too, and leaves
/// the last word as it is.
pub fn has_shorter_tally() -> bool {
    let mut random = Random::new(1);
    let settings = make::settings(&mut random);
    let mut lent = make::old_lent(&mut random, &settings);
    lent.tally.truncate(TALLY_WORDS - 1);
    let answer = BEFORE.fresh(&settings, &mut lent.tally, lent.tables.lend());
    answer.number == 0
}

pub fn fresh(settings: &Settings, lent: &mut Lent, reached: &mut Reached) -> Result<(), String> {
    let mut due = lent.clone();
    let answer_due = BEFORE.fresh(settings, &mut due.tally, due.tables.lend());
    let answer = NOW.fresh(settings, &mut lent.tally, lent.tables.lend());
    same("answer", &answer, &answer_due)?;
    lent.same_as(&due)?;
    reached.call(answer.number, lent, &[]);
    Ok(())
}

pub fn carry_on(
    unit: u64,
    lent: &mut Lent,
    part: &[u8],
    events: &mut [u32],
    reached: &mut Reached,
) -> Result<(), String> {
    let queue = lent.tables.queue.clone();
    let (mut due, mut events_due) = (lent.clone(), events.to_vec());
    let answer_due = BEFORE.carry_on(
        unit,
        &mut due.tally,
        due.tables.lend(),
        part,
        &mut events_due,
    );
    let answer = NOW.carry_on(unit, &mut lent.tally, lent.tables.lend(), part, events);
    same("answer", &answer, &answer_due)?;
    lent.same_as(&due)?;
    same_list("events", events, &events_due)?;
    reached.call(answer.number, lent, events);
    if answer.number == 0 {
        let has_moved = lent.tables.queue != queue;
        reached.events(&events[..answer.value as usize], has_moved);
    }
    Ok(())
}
