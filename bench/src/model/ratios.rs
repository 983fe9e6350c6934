//! Hit ratio and byte hit ratio of a tally, for the fitters.

use super::limits::MOST_EXACT;
use super::red_card::{require, Refusal};
use super::soundness::{bytes_in_range, requests_add_up};
use super::tally::Tally;

/// Hits by requests, and hit bytes by bytes asked.
#[derive(Clone, Copy, Debug, PartialEq)]
pub struct Ratios {
    pub hit: f64,
    pub byte_hit: f64,
}

/// Of soundness only the clauses on these counts are judged; the other words may be anything.
pub fn ratios(tally: &[u64]) -> Result<Ratios, Refusal> {
    let tally = Tally::read(tally).ok_or(Refusal::ShortTable)?;
    require(tally.requests > 0, Refusal::NoRequests)?;
    let is_sound = requests_add_up(&tally) && bytes_in_range(&tally);
    require(is_sound, Refusal::Unsound)?;
    require(tally.bytes_asked <= MOST_EXACT, Refusal::Inexact)?;
    Ok(Ratios {
        hit: ratio(tally.hits, tally.requests),
        byte_hit: ratio(tally.hit_bytes, tally.bytes_asked),
    })
}

/// Puts the two at the start of a lent list.
pub fn ratios_into(tally: &[u64], list: &mut [f64]) -> Result<usize, Refusal> {
    let Ratios { hit, byte_hit } = ratios(tally)?;
    let two = list.first_chunk_mut().ok_or(Refusal::Room)?;
    *two = [hit, byte_hit];
    Ok(0)
}

/// No count is above 2 to the 53rd, so neither conversion rounds and the division does so once.
fn ratio(part: u64, whole: u64) -> f64 {
    part as f64 / whole as f64
}

#[cfg(test)]
mod tests {
    use super::super::limits::{MOST_REQUESTS, MOST_SIZE};
    use super::super::tally::TALLY_WORDS;
    use super::*;

    const ONE: u64 = 0x3ff0_0000_0000_0000;
    const OLD: f64 = -7.5;

    /// A tally of these counts, every request that is no hit admitted, and words that are not judged all set.
    fn tally(requests: u64, hits: u64, bytes_asked: u64, hit_bytes: u64) -> Tally {
        Tally {
            requests,
            hits,
            admitted: requests - hits,
            passed: 0,
            bytes_asked,
            hit_bytes,
            ..Tally::from_words([u64::MAX; TALLY_WORDS])
        }
    }

    fn bits(tally: Tally) -> [u64; 2] {
        let Ratios { hit, byte_hit } = ratios(&tally.words()).expect("the tally has ratios");
        [hit, byte_hit].map(f64::to_bits)
    }

    /// The refusal for a tally, with the list as it was.
    fn refused(words: &[u64], length: usize) -> Refusal {
        let mut list = vec![OLD; length];
        let refusal = ratios_into(words, &mut list).expect_err("the tally has no ratios");
        assert_eq!(list, vec![OLD; length]);
        refusal
    }

    #[test]
    fn ratios_worked_by_hand() {
        let [third, two_thirds] = [0x3fd5_5555_5555_5555, 0x3fe5_5555_5555_5555];
        assert_eq!(bits(tally(3, 1, 3, 2)), [third, two_thirds]);
        assert_eq!(bits(tally(3, 2, 6, 2)), [two_thirds, third]);
        // A tenth is rounded up, the byte hit ratio of document 01's sheet down.
        let [tenth, sixth] = [0x3fb9_9999_9999_999a, 0x3fc5_5555_5555_5555];
        assert_eq!(bits(tally(10, 1, 10, 1)), [tenth, tenth]);
        assert_eq!(bits(tally(6, 1, 336, 64)), [sixth, 0x3fc8_6186_1861_8618]);
    }

    #[test]
    fn all_hit_is_1_and_nothing_hit_is_0() {
        for requests in [1, 2, 3, 49, MOST_REQUESTS - 1, MOST_REQUESTS] {
            for bytes in [requests, requests + 5, MOST_EXACT.min(requests * MOST_SIZE)] {
                assert_eq!(bits(tally(requests, requests, bytes, bytes)), [ONE, ONE]);
                assert_eq!(bits(tally(requests, 0, bytes, 0)), [0, 0]);
            }
        }
    }

    #[test]
    fn the_largest_counts() {
        let (requests, bytes) = (MOST_REQUESTS, MOST_EXACT);
        let one = [0x3df0_0000_0010_0000, 0x3ca0_0000_0000_0000];
        assert_eq!(bits(tally(requests, 1, bytes, 1)), one);
        let all_but_one = [0x3fef_ffff_ffe0_0000, 0x3fef_ffff_ffff_ffff];
        let counts = tally(requests, requests - 1, bytes, bytes - 1);
        assert_eq!(bits(counts), all_but_one);
    }

    #[test]
    fn a_product_with_the_reciprocal_is_another_number() {
        let reciprocal = 1.0 / 49.0;
        assert_ne!(49.0 * reciprocal, 1.0);
        assert_eq!(bits(tally(49, 49, 49, 49)), [ONE, ONE]);
    }

    #[test]
    fn two_entries_are_written_and_no_more() {
        let mut list = [OLD; 4];
        assert_eq!(ratios_into(&tally(4, 1, 8, 4).words(), &mut list), Ok(0));
        assert_eq!(list, [0.25, 0.5, OLD, OLD]);
    }

    #[test]
    fn refusals_in_their_order() {
        let good = tally(4, 1, 8, 4);
        let unsound = Tally { passed: 1, ..good };
        let none = Tally {
            requests: 0,
            ..unsound
        };
        assert_eq!(
            refused(&none.words()[..TALLY_WORDS - 1], 1),
            Refusal::ShortTable
        );
        assert_eq!(refused(&none.words(), 1), Refusal::NoRequests);
        assert_eq!(refused(&unsound.words(), 1), Refusal::Unsound);
        let many = tally(MOST_REQUESTS, 1, MOST_EXACT + 1, 1);
        let unsound_too = Tally { passed: 1, ..many };
        assert_eq!(refused(&unsound_too.words(), 1), Refusal::Unsound);
        assert_eq!(refused(&many.words(), 1), Refusal::Inexact);
        assert_eq!(refused(&good.words(), 1), Refusal::Room);
        assert_eq!(refused(&good.words(), 0), Refusal::Room);
    }

    #[test]
    fn each_clause_just_met_and_missed_by_one() {
        let most = 4 * MOST_SIZE;
        let over = MOST_REQUESTS + 1;
        let admitted = 4;
        let one_too_many = Tally {
            admitted,
            ..tally(4, 1, 8, 4)
        };
        let clauses = [
            (tally(4, 1, 8, 4), one_too_many),
            (tally(MOST_REQUESTS, 1, over, 1), tally(over, 1, over, 1)),
            (tally(4, 2, 8, 2), tally(4, 2, 8, 1)),
            (
                tally(4, 1, most, MOST_SIZE),
                tally(4, 1, most, MOST_SIZE + 1),
            ),
            (tally(4, 0, 8, 0), tally(4, 0, 8, 1)),
            (tally(4, 2, 9, 9), tally(4, 2, 8, 9)),
            (tally(4, 1, 4, 1), tally(4, 1, 3, 1)),
            (tally(4, 1, most, 1), tally(4, 1, most + 1, 1)),
        ];
        for (met, missed) in clauses {
            assert!(ratios(&met.words()).is_ok(), "{met:?}");
            assert_eq!(refused(&missed.words(), 2), Refusal::Unsound, "{missed:?}");
        }
    }

    #[test]
    fn the_sum_is_not_cut_off_at_64_bits() {
        let half = 1 << 63;
        let sum = Tally {
            admitted: half + 3,
            passed: half,
            ..tally(4, 1, 8, 4)
        };
        assert_eq!(refused(&sum.words(), 2), Refusal::Unsound);
    }
}
