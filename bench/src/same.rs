//! What is given beside what is due: alike, or where they first differ.

use std::fmt::Debug;

/// At the first entry that differs, its index and both values.
pub fn same_list<T: PartialEq + Debug>(
    what: &str,
    given: &[T],
    expected: &[T],
) -> Result<(), String> {
    same(&format!("length of {what}"), &given.len(), &expected.len())?;
    let differs = |&index: &usize| given[index] != expected[index];
    (0..given.len()).find(differs).map_or(Ok(()), |index| {
        same(&format!("{what} {index}"), &given[index], &expected[index])
    })
}

/// Equal as numbers is not enough: a NaN is equal to nothing, and two zeros differ in their sign.
pub fn same_bits(what: &str, given: &[f64], expected: &[f64]) -> Result<(), String> {
    let [given, expected] = [given, expected].map(|list| {
        let bits = list.iter().map(|entry| entry.to_bits());
        bits.collect::<Vec<u64>>()
    });
    same_list(&format!("bits of {what}"), &given, &expected)
}

pub fn same<T: PartialEq + Debug>(what: &str, given: &T, expected: &T) -> Result<(), String> {
    if given == expected {
        return Ok(());
    }
    Err(format!("{what} is {given:?} where {expected:?} is due"))
}
