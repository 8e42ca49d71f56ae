//! Earth counts: x at 0 and 1.25 and one count beyond, at quarters, and anywhere.

use super::random::{to_u16, Random};
use crate::second::rounding::floor;
use crate::second::window::ChannelSums;

/// The counts around which a channel's scenes turn, as far as the window has both sides.
fn turning_counts(sums: &ChannelSums) -> Vec<i128> {
    if sums.cold.weight == 0 || sums.warm.weight == 0 {
        return vec![10_000];
    }
    // C at which x is a number of quarters: (quarters × D / (4 Ww) + Ac) / (12 Wc).
    let per_count = 4 * 12 * sums.cold.weight * sums.warm.weight;
    let at_zero = 4 * sums.cold.value * sums.warm.weight;
    (0..=5)
        .map(|quarters| floor(quarters * sums.difference() + at_zero, per_count))
        .collect()
}

/// The 96 earth counts of a channel whose window has these sums.
pub fn earth_counts(random: &mut Random, sums: &ChannelSums) -> [u16; 96] {
    let turning = turning_counts(sums);
    let (first, last) = (turning[0], turning[turning.len() - 1]);
    if random.once_in(8) && first < last {
        // None outside.
        let inside = |random: &mut Random| random.between(first as i64 + 1, last as i64);
        return std::array::from_fn(|_| to_u16(inside(random) as i128));
    }
    let mut places: Vec<i128> = Vec::new();
    for count in &turning {
        for beside in [-1, 0, 1, 2] {
            places.push(count + beside);
        }
    }
    places.extend([0, 65_535]);
    while places.len() < 90 {
        let between = if first < last {
            random.between(first as i64, last as i64)
        } else {
            random.between(0, 65_535)
        };
        places.push(between as i128);
    }
    while places.len() < 96 {
        places.push(random.between(0, 65_535) as i128);
    }
    random.shuffle(&mut places);
    std::array::from_fn(|place| to_u16(places[place]))
}
