//! What is asked of the map of the ephemerals alone, "given as one number": bit
//! n - 1 is set exactly when R/n exists.

use crate::table::EPHEMERALS;

/// "The lowest absent number, 0 if none".
pub fn lowest_absent(map: u64) -> u32 {
    numbers().find(|&number| !exists(map, number)).unwrap_or(0)
}

/// "the count in use"
pub fn in_use(map: u64) -> u32 {
    numbers().filter(|&number| exists(map, number)).count() as u32
}

fn numbers() -> std::ops::RangeInclusive<u32> {
    1..=EPHEMERALS as u32
}

fn exists(map: u64, number: u32) -> bool {
    map >> (number - 1) & 1 == 1
}
