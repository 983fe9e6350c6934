//! The ranges, the scale, and the two amounts computed from a size and a cost.

pub const MOST_UNIT: u64 = 4_294_967_295;
pub const MOST_POLICY: u64 = 2;
pub const MOST_CAPACITY: u64 = 1_099_511_627_775;
pub const MOST_PLACES: u64 = 4_096;
pub const MOST_CATALOGUE: u64 = 32_768;
pub const MOST_SIZE: u64 = 16_777_215;
pub const MOST_COST: u64 = 65_535;
pub const MOST_REQUESTS: u64 = 4_294_967_295;
pub const MOST_FREQUENCY: u64 = 1_048_575;
pub const MOST_WORTH: u64 = 1_099_494_850_560;
pub const SCALE: u64 = 16_777_216;

/// What one lift takes from L and from every key: 2 to the 60th.
pub const LIFT: u64 = 1_152_921_504_606_846_976;
/// L of sound tables stays below 2 to the 61st, so that one lift brings it below 2 to the 60th.
pub const INFLATION_BOUND: u64 = 2 * LIFT;
/// Every whole number up to 2 to the 53rd is a double.
pub const MOST_EXACT: u64 = 9_007_199_254_740_992;

/// Bytes that one packet of the estimate carries.
const PACKET: u64 = 536;

/// The cost in force: 0 stands for the packet estimate.
pub fn in_force(cost: u64, size: u64) -> u64 {
    if cost == 0 {
        2 + size / PACKET
    } else {
        cost
    }
}

pub fn worth(cost: u64, size: u64) -> u64 {
    cost * SCALE / size
}

/// What a key is above inflation, rounded down once; wide enough for any record in range.
pub fn product(frequency: u64, cost: u64, size: u64) -> u128 {
    u128::from(frequency) * u128::from(cost * SCALE) / u128::from(size)
}
