//! Pairs of shelf temperature and TNL, and shelf temperatures that aim at them.

use super::random::Random;
use super::tables::{ChannelValues, ShelfPairValues};
use crate::second::shelf::nonlinearity;
use crate::second::table::ShelfPair;

/// The ends of a pair's shelf temperature.
pub const LOWEST: i32 = -245_760;
pub const HIGHEST: i32 = 245_760;

/// Five temperatures one unit apart.
fn one_apart(first: i32) -> [i32; 5] {
    std::array::from_fn(|index| first + index as i32)
}

/// Five temperatures of which those at this place and behind it are as far apart as can be.
fn far_apart_behind(place: usize) -> [i32; 5] {
    let (low, high) = (one_apart(LOWEST), one_apart(HIGHEST - 4));
    std::array::from_fn(|index| if index <= place { low } else { high }[index])
}

/// Five temperatures anywhere, each above the one before, in steps of at most this.
fn climbing(random: &mut Random, most: i64) -> [i32; 5] {
    let steps: [i64; 4] = std::array::from_fn(|_| random.between(1, most));
    let whole: i64 = steps.iter().sum();
    let mut at = random.between(LOWEST as i64, HIGHEST as i64 - whole);
    let mut temperatures = [at as i32; 5];
    for (index, step) in steps.into_iter().enumerate() {
        at += step;
        temperatures[index + 1] = at as i32;
    }
    temperatures
}

/// Five strictly rising shelf temperatures: one unit apart, as far apart as they can be, over the whole range,
/// with even steps, or anywhere.
pub fn random_temperatures(random: &mut Random) -> [i32; 5] {
    match random.below(8) {
        0 => {
            let any = random.between(LOWEST as i64, HIGHEST as i64 - 4) as i32;
            one_apart(random.pick(&[LOWEST, HIGHEST - 4, -2, any]))
        }
        1 => far_apart_behind(random.below(4)),
        2 => {
            let mut temperatures = climbing(random, 100_000);
            (temperatures[0], temperatures[4]) = (LOWEST, HIGHEST);
            temperatures
        }
        3 => {
            // Midway between neighbours stands a whole temperature.
            let step = 2 * random.between(1, 50_000) as i32;
            let first = random.between(LOWEST as i64, (HIGHEST - 4 * step) as i64) as i32;
            std::array::from_fn(|index| first + step * index as i32)
        }
        4 => climbing(random, 3),
        _ => climbing(random, 100_000),
    }
}

/// A TNL at an end, around 0, or anywhere.
fn any_nonlinearity(random: &mut Random) -> i16 {
    let any = random.between(-8_192, 8_192) as i16;
    let small = random.between(-3, 3) as i16;
    random.pick(&[-8_192, 8_192, small, any, any])
}

/// Five TNL: level, rising, falling, from end to end, small ones of both signs, or anything.
pub fn random_nonlinearities(random: &mut Random) -> [i16; 5] {
    let mut any: [i16; 5] = std::array::from_fn(|_| any_nonlinearity(random));
    match random.below(9) {
        0 => [any[0]; 5],
        1 | 2 => {
            // Twice an odd number: 3/4 and 5/4 of it, as x = 1/4 and 5/4 take, are halves.
            [2 * (2 * random.between(-2_000, 2_000) + 1) as i16; 5]
        }
        3 => {
            any.sort();
            any
        }
        4 => {
            any.sort();
            any.reverse();
            any
        }
        5 => {
            let first = random.pick(&[-8_192, 8_192]);
            std::array::from_fn(|index| if index % 2 == 0 { first } else { -first })
        }
        6 => std::array::from_fn(|_| random.between(-2, 2) as i16),
        _ => any,
    }
}

/// The five pairs of these temperatures and TNL.
pub fn shelf_pairs(temperatures: [i32; 5], nonlinearities: [i16; 5]) -> [ShelfPairValues; 5] {
    std::array::from_fn(|index| ShelfPairValues {
        temperature: temperatures[index],
        nonlinearity: nonlinearities[index],
    })
}

/// The whole TNL at a shelf temperature.
pub fn nonlinearity_at(pairs: &[ShelfPairValues; 5], shelf: i32) -> i128 {
    let pairs = pairs.map(|pair| ShelfPair {
        temperature: pair.temperature as i128,
        nonlinearity: pair.nonlinearity as i128,
    });
    nonlinearity(&pairs, shelf as i128)
}

/// Gives each channel its pairs. In most tables many channels have the same temperatures, so that a shelf
/// stands at the same edge of many.
pub fn set_shelf_pairs(random: &mut Random, channels: &mut [ChannelValues; 22]) {
    let shared = random_temperatures(random);
    let own_in = random.pick(&[1, 4, 1_000]);
    for channel in channels {
        let temperatures = if random.once_in(own_in) {
            random_temperatures(random)
        } else {
            shared
        };
        channel.shelf_pairs = shelf_pairs(temperatures, random_nonlinearities(random));
    }
}

/// A shelf temperature that aims at these pairs: at one or one beside it, midway between two or one beside
/// that, between two, beyond both ends, at the ends of its type, or anywhere.
pub fn aimed_shelf(random: &mut Random, pairs: &[ShelfPairValues; 5]) -> i32 {
    let at = |index: usize| pairs[index].temperature;
    let beside = random.between(-1, 1) as i32;
    let index = random.below(4);
    let (before, behind) = (at(index), at(index + 1));
    match random.below(10) {
        0..=2 => at(random.below(5)) + beside,
        3 | 4 => (before + behind).div_euclid(2) + random.pick(&[0, 0, beside]),
        5 | 6 => random.between(before as i64, behind as i64) as i32,
        7 => {
            let below = random.between(i32::MIN as i64, at(0) as i64 - 1) as i32;
            let above = random.between(at(4) as i64 + 1, i32::MAX as i64) as i32;
            random.pick(&[below, above, at(0) - 2, at(4) + 2])
        }
        8 => random.pick(&[i32::MIN, i32::MAX, LOWEST - 1, HIGHEST + 1]),
        _ => random.between(LOWEST as i64, HIGHEST as i64) as i32,
    }
}

/// The indices from 0 of the channels that use the shelf at this place of the record.
pub fn channels_of(place: usize) -> std::ops::Range<usize> {
    [0..2, 2..15, 15..16, 16..22][place].clone()
}

/// The four shelf temperatures of a record, each aimed at the pairs of one of its channels.
pub fn aimed_shelves(random: &mut Random, channels: &[ChannelValues; 22]) -> [i32; 4] {
    std::array::from_fn(|place| {
        let own = channels_of(place);
        let channel = own.start + random.below(own.len());
        aimed_shelf(random, &channels[channel].shelf_pairs)
    })
}

/// A shelf temperature anywhere in the range of pairs, or beyond it.
pub fn any_shelf(random: &mut Random) -> i32 {
    let any = random.between(LOWEST as i64, HIGHEST as i64) as i32;
    random.pick(&[any, any, any, any, i32::MIN, i32::MAX, LOWEST, HIGHEST])
}

/// Moves temperatures so that one of them is this, if there is room.
fn moved_to(random: &mut Random, temperatures: [i32; 5], shelf: i32) -> [i32; 5] {
    let own = temperatures[random.below(5)];
    let moved = temperatures.map(|one| one as i64 + shelf as i64 - own as i64);
    if moved[0] < LOWEST as i64 || moved[4] > HIGHEST as i64 {
        return temperatures;
    }
    moved.map(|one| one as i32)
}

/// TNL of two pairs whose line has about this TNL so many units behind the one and before the other: far from
/// it, as long as both have room, or the TNL itself twice.
fn around(random: &mut Random, tnl: i16, behind: i64, before: i64) -> [i16; 2] {
    let tnl = tnl as i64;
    let away = random.between(-8_192, 8_192);
    for reach in [1, 2, 8, 64, 1_024] {
        let first = tnl + away / reach;
        let second = tnl - away / reach * before / behind + random.between(-1, 1);
        if first.abs() <= 8_192 && second.abs() <= 8_192 {
            return [first as i16, second as i16];
        }
    }
    [tnl as i16; 2]
}

/// Pairs that give this TNL at this shelf temperature, which stands at one of them, between two or beyond the
/// ends.
pub fn pairs_through(random: &mut Random, shelf: i32, tnl: i16) -> [ShelfPairValues; 5] {
    let mut temperatures = random_temperatures(random);
    if random.once_in(3) {
        temperatures = moved_to(random, temperatures, shelf);
    }
    let mut nonlinearities = random_nonlinearities(random);
    let reached = temperatures.iter().filter(|one| **one <= shelf).count();
    match reached {
        0 => nonlinearities[0] = tnl,
        5 => nonlinearities[4] = tnl,
        _ if temperatures[reached - 1] == shelf => nonlinearities[reached - 1] = tnl,
        _ => {
            let behind = (shelf - temperatures[reached - 1]) as i64;
            let before = (temperatures[reached] - shelf) as i64;
            let two = around(random, tnl, behind, before);
            nonlinearities[reached - 1..=reached].copy_from_slice(&two);
        }
    }
    let pairs = shelf_pairs(temperatures, nonlinearities);
    if nonlinearity_at(&pairs, shelf) == tnl as i128 {
        pairs
    } else {
        shelf_pairs(temperatures, [tnl; 5])
    }
}

/// Five temperatures of which this one and the next are given, the others some steps below and above them; none
/// where they do not fit.
fn temperatures_around(random: &mut Random, place: usize, two: [i32; 2]) -> Option<[i32; 5]> {
    let step = random.pick(&[1, 7, 1_000, 20_000]);
    let temperatures: [i32; 5] = std::array::from_fn(|index| {
        let steps = index as i32 - place as i32;
        if index <= place {
            two[0] + step * steps
        } else {
            two[1] + step * (steps - 1)
        }
    });
    (temperatures[0] >= LOWEST && temperatures[4] <= HIGHEST).then_some(temperatures)
}

/// Pairs whose line at this shelf temperature is half a unit below or above this even TNL, which so is rounded to
/// it; none where the try does not fit.
///
/// From one pair to the next are an even number of units, TNL rises by an odd number of halves of it, and the shelf
/// is an odd number behind the first.
pub fn pairs_beside_half(
    random: &mut Random,
    shelf: i32,
    tnl: i16,
) -> Option<[ShelfPairValues; 5]> {
    let any = random.between(1, 2_000);
    let half = random.pick(&[1, 2, 3, any]);
    let behind = 2 * random.between(0, half - 1) + 1;
    let odd = 2 * random.between(-4, 3) + 1;
    let side = random.pick(&[-1, 1]);
    let from = (2 * tnl as i64 + side - odd * behind) / 2;
    let to = from + half * odd;
    if from.abs() > 8_192 || to.abs() > 8_192 {
        return None;
    }
    let (before, place) = (shelf as i64 - behind, random.below(4));
    let two = [before as i32, (before + 2 * half) as i32];
    let temperatures = temperatures_around(random, place, two)?;
    let mut nonlinearities = random_nonlinearities(random);
    nonlinearities[place..place + 2].copy_from_slice(&[from as i16, to as i16]);
    Some(shelf_pairs(temperatures, nonlinearities))
}

#[cfg(test)]
mod tests {
    use super::*;
    use crate::generator::tables::TableValues;
    use crate::second::shelf::unrounded_nonlinearity;
    use crate::second::table::{Shelf, CHANNELS, SHELVES};

    #[test]
    fn temperatures_rise_strictly_within_their_range() {
        let mut random = Random::new(1);
        let mut met = [0; 3];
        for _ in 0..2_000 {
            let five = random_temperatures(&mut random);
            assert!(five[0] >= LOWEST && five[4] <= HIGHEST, "{five:?}");
            let steps: Vec<i32> = five.windows(2).map(|two| two[1] - two[0]).collect();
            assert!(steps.iter().all(|step| *step > 0), "{five:?}");
            met[0] += usize::from(steps == [1; 4]);
            met[1] += usize::from(steps.contains(&491_517));
            met[2] += usize::from(five[0] == LOWEST && five[4] == HIGHEST);
        }
        assert!(met.iter().all(|count| *count > 100), "{met:?}");
    }

    #[test]
    fn nonlinearities_are_in_their_range() {
        let mut random = Random::new(2);
        for _ in 0..2_000 {
            let five = random_nonlinearities(&mut random);
            assert!(five.iter().all(|tnl| (-8_192..=8_192).contains(tnl)));
        }
    }

    #[test]
    fn shelves_meet_each_pair_and_both_sides_of_it() {
        let mut random = Random::new(3);
        let pairs = TableValues::bench().channels[0].shelf_pairs;
        let shelves: Vec<i32> = (0..2_000)
            .map(|_| aimed_shelf(&mut random, &pairs))
            .collect();
        for pair in pairs {
            for beside in [-1, 0, 1] {
                assert!(shelves.contains(&(pair.temperature + beside)));
            }
        }
        for edge in [i32::MIN, i32::MAX, -61_440, 61_440] {
            assert!(shelves.contains(&edge), "{edge}");
        }
    }

    #[test]
    fn pairs_through_a_point_are_seldom_level() {
        let mut random = Random::new(4);
        let mut level = 0;
        for _ in 0..2_000 {
            let (shelf, tnl) = (any_shelf(&mut random), any_nonlinearity(&mut random));
            let pairs = pairs_through(&mut random, shelf, tnl);
            let own = nonlinearity_at(&pairs, shelf);
            assert_eq!(own, tnl as i128, "{pairs:?} at {shelf}");
            level += usize::from(pairs.iter().all(|pair| pair.nonlinearity == tnl));
        }
        assert!(level < 500, "{level}");
    }

    #[test]
    fn pairs_beside_a_half_are_rounded_to_their_tnl() {
        let mut random = Random::new(5);
        let mut met = [0, 0];
        for _ in 0..2_000 {
            let shelf = random.between(LOWEST as i64, HIGHEST as i64) as i32;
            let tnl = 2 * random.between(-4_096, 4_096) as i16;
            let Some(pairs) = pairs_beside_half(&mut random, shelf, tnl) else {
                continue;
            };
            let own = pairs.map(|pair| ShelfPair {
                temperature: pair.temperature as i128,
                nonlinearity: pair.nonlinearity as i128,
            });
            let line = unrounded_nonlinearity(&own, shelf as i128);
            let twice_above = 2 * (line.numerator - tnl as i128 * line.denominator);
            assert_eq!(twice_above.abs(), line.denominator, "{pairs:?} at {shelf}");
            assert_eq!(nonlinearity_at(&pairs, shelf), tnl as i128);
            assert!(pairs[0].temperature >= LOWEST && pairs[4].temperature <= HIGHEST);
            let rises = |two: &[ShelfPairValues]| two[0].temperature < two[1].temperature;
            assert!(pairs.windows(2).all(rises));
            met[usize::from(twice_above > 0)] += 1;
        }
        assert!(met.iter().all(|count| *count > 500), "{met:?}");
    }

    #[test]
    fn every_channel_has_its_place() {
        for channel in 0..CHANNELS {
            for (place, shelf) in SHELVES.into_iter().enumerate() {
                let is_own = Shelf::of_channel(channel) == shelf;
                assert_eq!(channels_of(place).contains(&channel), is_own);
            }
        }
    }
}
