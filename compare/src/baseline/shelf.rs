//! TNL from the temperature of a shelf.

use super::scene::r;
use super::table::CHANNELS;

/// A shelf temperature and TNL at it.
#[derive(Clone, Copy, Debug, Default)]
pub struct ShelfPair {
    pub shelf: i64,
    pub tnl: i64,
}

/// Pairs of a channel.
pub const PAIRS: usize = 5;

/// Where the shelf temperature of each channel begins in the value of field 0x06: KKA, V, W or G.
pub const SHELF_AT: [usize; CHANNELS] = [
    0, 0, 4, 4, 4, 4, 4, 4, 4, 4, 4, 4, 4, 4, 4, 8, 12, 12, 12, 12, 12, 12,
];

/// TNL at a shelf temperature. A TNL is below 2^14 and a difference between pairs below 2^19.
pub fn nonlinearity(pairs: &[ShelfPair; PAIRS], shelf: i64) -> i64 {
    let reached = pairs.iter().filter(|pair| pair.shelf <= shelf).count();
    if reached == 0 || reached == PAIRS {
        return pairs[reached.max(1) - 1].tnl;
    }
    let (before, behind) = (pairs[reached - 1], pairs[reached]);
    let parts = before.tnl * (behind.shelf - shelf) + behind.tnl * (shelf - before.shelf);
    r(parts, behind.shelf - before.shelf)
}

#[cfg(test)]
mod tests {
    use super::*;
    use crate::generator::random::Random;
    use crate::generator::shelves::{
        aimed_shelf, nonlinearity_at, random_nonlinearities, random_temperatures, shelf_pairs,
    };

    #[test]
    fn nonlinearities_agree_with_the_second_implementation() {
        let mut random = Random::new(1);
        for _ in 0..20_000 {
            let temperatures = random_temperatures(&mut random);
            let values = shelf_pairs(temperatures, random_nonlinearities(&mut random));
            let own = values.map(|pair| ShelfPair {
                shelf: pair.temperature as i64,
                tnl: pair.nonlinearity as i64,
            });
            let shelf = aimed_shelf(&mut random, &values);
            let tnl = nonlinearity(&own, shelf as i64);
            assert_eq!(
                tnl as i128,
                nonlinearity_at(&values, shelf),
                "{own:?} {shelf}"
            );
        }
    }
}
