//! Tables that no run reached, tables arranged otherwise, and tables with one change.

use bench::model::soundness::sound;
use bench::model::tables::NO_PLACE;
use bench::model::tally::Tally;
use bench::random::Random;

use crate::agree::{self, Lent};
use crate::runs::carried;
use crate::{craft, make, Verdict};

/// Tables in the midst of a run, or any sound ones.
pub fn some_lent(random: &mut Random) -> Result<Lent, String> {
    if random.one_in(3) {
        make::running_lent(random)
    } else {
        Ok(craft::sound_lent(random))
    }
}

/// A run carries on from any sound tables, and leaves sound ones.
pub fn crafted(random: &mut Random) -> Verdict {
    let mut lent = craft::sound_lent(random);
    if !sound(&lent.read_tally(), &lent.tables) {
        return Err("the model finds crafted tables unsound".into());
    }
    let most = random.pick(&[0, 3, 30]);
    let requests = make::further(random, &lent, most);
    Ok(vec![carried(random, &mut lent, &requests)?])
}

/// Which place a file has, and the queue's order beyond soundness, change no outcome.
pub fn rearranged(random: &mut Random) -> Verdict {
    let mut lent = make::running_lent(random)?;
    let mut answers = Vec::new();
    for _ in 0..3 {
        craft::rearrange(random, &mut lent);
        let requests = make::further(random, &lent, 20);
        answers.push(carried(random, &mut lent, &requests)?);
    }
    Ok(answers)
}

/// The same tables eight times, each time with another change.
pub fn one_change(random: &mut Random) -> Verdict {
    let lent = some_lent(random)?;
    let settings = lent.settings();
    let requests = make::further(random, &lent, 3);
    let mut answers = Vec::new();
    for _ in 0..8 {
        let mut changed = lent.clone();
        change(random, &mut changed);
        let mut events = make::events_for(random, &lent, requests.len());
        let part = make::part_of(&requests);
        answers.push(agree::carry_on(
            settings.unit,
            &mut changed,
            &part,
            &mut events,
        )?);
    }
    Ok(answers)
}

/// Evicted and dropped set anew: sound exactly where they still add up to the files that went, no sum being cut off.
pub fn drops(random: &mut Random) -> Verdict {
    let lent = some_lent(random)?;
    let tally = lent.read_tally();
    let part = make::part_of(&make::further(random, &lent, 3));
    let mut answers = Vec::new();
    for (evicted, dropped) in gone_otherwise(random, &tally) {
        let mut changed = lent.clone();
        changed.set_tally(&Tally {
            evicted,
            dropped,
            ..tally
        });
        let mut events = make::events_for(random, &lent, part.len() / 3);
        let unit = tally.settings.unit;
        let given = agree::carry_on(unit, &mut changed, &part, &mut events)?;
        let gone = u128::from(tally.admitted - tally.files_kept);
        let is_sound = u128::from(evicted) + u128::from(dropped) == gone;
        agree::same("not 7", &(given.number != 7), &is_sound)?;
        answers.push(given);
    }
    Ok(answers)
}

/// Pairs of evicted and dropped: some with the old sum, some one off, some that have it only modulo 2 to the 64th.
fn gone_otherwise(random: &mut Random, tally: &Tally) -> [(u64, u64); 10] {
    let Tally {
        evicted, dropped, ..
    } = *tally;
    let gone = evicted + dropped;
    let part = random.between(0, gone);
    let [few, any] = [random.between(1, 9), random.word()];
    let half = 1 << 63;
    [
        (dropped, evicted),
        (gone - part, part),
        (gone, 0),
        (gone, dropped),
        (evicted, dropped + 1),
        (evicted, dropped.wrapping_sub(1)),
        (gone + few, few.wrapping_neg()),
        (few.wrapping_neg(), gone + few),
        (evicted + half, dropped + half),
        (any, gone.wrapping_sub(any)),
    ]
}

fn change(random: &mut Random, lent: &mut Lent) {
    let file = some_file(random, lent);
    let place = some_place(random, lent);
    let tables = &mut lent.tables;
    match random.below(13) {
        0 | 1 => {
            let word = random.index(lent.tally.len());
            change_entry(random, &mut lent.tally, word, u64::MAX);
        }
        2 => change_entry(random, &mut tables.place, file, u16::MAX),
        3 => change_entry(random, &mut tables.file, place, u16::MAX),
        4 => change_entry(random, &mut tables.size, place, u32::MAX),
        5 => change_entry(random, &mut tables.cost, place, u16::MAX),
        6 => change_entry(random, &mut tables.freq, place, u32::MAX),
        7 => change_entry(random, &mut tables.key, place, u64::MAX),
        8 => change_entry(random, &mut tables.stamp, place, u64::MAX),
        9 => {
            let entry = random.index(tables.queue.len());
            change_entry(random, &mut tables.queue, entry, u16::MAX);
        }
        10 => exchange(random, lent),
        _ => change_together(random, lent),
    }
}

/// A file number, as often as not a kept one.
fn some_file(random: &mut Random, lent: &Lent) -> usize {
    let any = random.index(lent.tables.place.len());
    let kept = lent.tables.shelf(lent.settings().catalogue);
    if kept.is_empty() || random.one_in(2) {
        return any;
    }
    kept[random.index(kept.len())].file as usize
}

/// A place, as often as not an occupied one.
fn some_place(random: &mut Random, lent: &Lent) -> usize {
    let any = random.index(lent.settings().places as usize);
    let files_kept = lent.read_tally().files_kept as usize;
    if files_kept == 0 || random.one_in(2) {
        return any;
    }
    lent.tables.queue[random.index(files_kept)].into()
}

/// Nudges an entry, or sets it to an end, to another entry or to anything.
pub fn change_entry<T>(random: &mut Random, list: &mut [T], index: usize, most: T)
where
    T: Copy + Into<u64> + TryFrom<u64>,
{
    let entry: u64 = list[index].into();
    let other: u64 = list[random.index(list.len())].into();
    let any = random.word();
    let values = [
        entry.wrapping_add(1),
        entry.wrapping_sub(1),
        entry.wrapping_add(any % 100),
        entry.wrapping_sub(any % 100),
        0,
        1,
        other,
        any,
    ];
    let value = random.pick(&values);
    list[index] = T::try_from(value).unwrap_or(most);
}

/// Exchanges two queue entries, two stamps or two places.
fn exchange(random: &mut Random, lent: &mut Lent) {
    let places = [some_place(random, lent), some_place(random, lent)];
    let files = [some_file(random, lent), some_file(random, lent)];
    let tables = &mut lent.tables;
    match random.below(3) {
        0 => tables.queue.swap(places[0], places[1]),
        1 => tables.stamp.swap(places[0], places[1]),
        _ => tables.place.swap(files[0], files[1]),
    }
}

/// Changes that belong together, so that all but one condition still hold.
fn change_together(random: &mut Random, lent: &mut Lent) {
    let mut tally = lent.read_tally();
    let place = some_place(random, lent);
    match random.below(4) {
        0 => add_ghost(lent, &mut tally),
        1 => {
            let size = &mut lent.tables.size[place];
            let changed = random.pick(&[0, 1, 1 << 24, *size / 2]);
            let others = tally.bytes_kept.wrapping_sub((*size).into());
            tally.bytes_kept = others.wrapping_add(changed.into());
            *size = changed;
        }
        2 => {
            tally.requests += 1;
            tally.hits += 1;
            tally.bytes_asked += 1;
            tally.hit_bytes += 1;
            tally.cost_asked += 1;
            tally.hit_cost += 1;
        }
        _ => {
            // Sums that would agree again if they were cut off at 64 bits.
            let half = 1 << 63;
            tally.admitted += half;
            tally.passed += half;
            tally.evicted += half;
        }
    }
    lent.set_tally(&tally);
}

/// File 0 at an unused place whose record is all 0, with the counts and the queue in agreement.
fn add_ghost(lent: &mut Lent, tally: &mut Tally) {
    let files_kept = tally.files_kept as usize;
    let occupied = &lent.tables.queue[..files_kept];
    let places = 0..tally.settings.places as u16;
    let unused = places.into_iter().find(|place| !occupied.contains(place));
    let (Some(place), NO_PLACE) = (unused, lent.tables.place[0]) else {
        return;
    };
    lent.tables.place[0] = place;
    lent.tables.queue[files_kept] = place;
    tally.files_kept += 1;
    if tally.dropped > 0 {
        tally.dropped -= 1;
    } else {
        tally.evicted = tally.evicted.wrapping_sub(1);
    }
}
