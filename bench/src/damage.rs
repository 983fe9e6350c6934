//! Damaged bytes: flipped, cut, extended, with needless groups and with too many.

use crate::make;
use crate::random::Random;

/// Damages the bytes once or twice.
pub fn damage(random: &mut Random, bytes: &mut Vec<u8>) {
    damage_once(random, bytes);
    if random.one_in(3) {
        damage_once(random, bytes);
    }
}

fn damage_once(random: &mut Random, bytes: &mut Vec<u8>) {
    let any = random.word() as u8;
    let at = random.index(bytes.len() + 1);
    if at == bytes.len() {
        bytes.push(any);
        return;
    }
    match random.below(8) {
        0 => bytes[at] ^= 1 << (any % 8),
        1 => bytes[at] = any,
        2 => bytes.truncate(at),
        3 => bytes.insert(at, any),
        4 => drop(bytes.remove(at)),
        5 => bytes.extend(make::exact_list(random, 4, |word| word as u8)),
        6 => add_needless_groups(random, bytes, at),
        _ => add_leading_groups(random, bytes, at),
    }
}

/// Lengthens the number that ends here by groups of 0, which leave its value as it was.
fn add_needless_groups(random: &mut Random, bytes: &mut Vec<u8>, at: usize) {
    bytes[at] |= 128;
    let groups = random.index(3);
    bytes.splice(at + 1..at + 1, [128].repeat(groups).into_iter().chain([0]));
}

/// Puts groups before this one, so that its number has up to a seventh and more.
fn add_leading_groups(random: &mut Random, bytes: &mut Vec<u8>, at: usize) {
    let groups = random.pick(&[4, 5, 6, 6, 7]);
    bytes.splice(at..at, vec![129; groups]);
}
