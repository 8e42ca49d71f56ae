//! Accepted tables at random, and bytes that may be a table.

use super::layouts::{head_positions, TABLE};
use super::neighbour::Neighbour;
use super::random::Random;
use super::shelves::set_shelf_pairs;
use super::table_neighbours::{some_table_neighbour, table_neighbours};
use super::tables::{TableValues, ThermometerValues};

/// Eight weights that sum to 1..255: single ones, zeros in the middle, spread, the greatest sum.
pub fn random_weights(random: &mut Random) -> [u8; 8] {
    let mut weights = [0; 8];
    match random.below(8) {
        0 => weights[0] = random.pick(&[1, 2, 100, 255]),
        6 => {
            // Two scans that weigh the same.
            weights[0] = 1;
            weights[random.between(1, 7) as usize] = 1;
        }
        1 => weights[random.below(8)] = random.pick(&[1, 3, 255]),
        2 => weights = [1; 8],
        3 => {
            for weight in &mut weights {
                *weight = random.between(0, 31) as u8;
            }
            weights[0] = weights[0].max(1);
        }
        4 => {
            // Zeros in the middle.
            weights[0] = random.between(1, 40) as u8;
            weights[1] = random.between(0, 40) as u8;
            weights[6] = random.between(0, 40) as u8;
            weights[7] = random.between(1, 40) as u8;
        }
        5 => {
            weights = [20, 20, 15, 15, 10, 10, 5, 5];
            random.shuffle(&mut weights);
        }
        _ => {
            // Sum 255.
            let mut left = 255;
            for weight in weights.iter_mut().take(7) {
                *weight = random.between(0, left as i64 / 3) as u8;
                left -= *weight as u32;
            }
            weights[7] = left as u8;
            random.shuffle(&mut weights);
        }
    }
    weights
}

/// A percentage that a part of all weights meets exactly or nearly, an end, or any.
fn random_percentage(random: &mut Random, part: i64, all: i64) -> u8 {
    let percentage = match random.below(8) {
        0 | 1 => 1,
        2 => 100,
        3 => random.between(1, 100),
        4 => random.between(1, 20),
        5 => 100 * part / all + 1,
        _ => 100 * part / all,
    };
    percentage.clamp(1, 100) as u8
}

/// The weights of the first ages, or of any ages.
fn random_part(random: &mut Random, weights: &[u8]) -> i64 {
    let mut part = 0;
    let first = random.below(weights.len());
    let mask = random.next();
    let by_mask = random.once_in(3);
    for (index, weight) in weights.iter().enumerate() {
        let counts = if by_mask {
            mask >> index & 1 == 1
        } else {
            index <= first
        };
        if counts {
            part += *weight as i64;
        }
    }
    part
}

fn sum(weights: &[u8]) -> i64 {
    weights.iter().map(|weight| *weight as i64).sum()
}

/// At an end of the range, or anywhere in it.
fn at_end_or_any(random: &mut Random, low: i64, high: i64) -> i64 {
    match random.below(4) {
        0 => low,
        1 => high,
        _ => random.between(low, high),
    }
}

/// R0 the same as R_PAM, near it, or any; the others at an end or any.
fn random_coefficients(random: &mut Random, pam_resistance: u32) -> ThermometerValues {
    let same = pam_resistance as i64;
    let near = same * random.between(60, 160) / 100;
    let any = random.between(1_000, 4_000_000);
    let resistance = random.pick(&[same, same, near, near, any]);
    ThermometerValues {
        weight: 1,
        resistance: resistance.clamp(1_000, 4_000_000) as u32,
        alpha: at_end_or_any(random, 3_000_000, 5_000_000) as u32,
        delta: at_end_or_any(random, 0, 2_000_000) as u32,
        beta: at_end_or_any(random, 0, 500_000) as u32,
    }
}

/// An accepted table. Limits of counts are as wide as can be; who makes counts narrows them.
pub fn random_table(random: &mut Random) -> TableValues {
    let mut table = TableValues::bench();
    table.count_weights = random_weights(random);
    table.thermometer_weights = random_weights(random);

    let resistance = at_end_or_any(random, 1_000, 4_000_000);
    table.pam_resistance = if random.once_in(2) {
        2_000_000
    } else {
        resistance as u32
    };
    let all_alike = random.once_in(2);
    let alike = random_coefficients(random, table.pam_resistance);
    for thermometer in &mut table.thermometers {
        *thermometer = if all_alike {
            alike
        } else {
            random_coefficients(random, table.pam_resistance)
        };
    }

    // p: all 1, some 0, single ones, or the greatest sum.
    for first in [0, 8] {
        let places = if first == 0 { 8 } else { 7 };
        let weights: Vec<u8> = match random.below(4) {
            0 => vec![1; places],
            1 => {
                let mut single = vec![0; places];
                single[random.below(places)] = random.pick(&[1, 255]);
                single
            }
            2 => {
                let mut some: Vec<u8> = (0..places).map(|_| random.between(0, 30) as u8).collect();
                some[random.below(places)] = 0;
                some[0] = some[0].max(1);
                some
            }
            _ => {
                let mut spread = vec![(255 / places) as u8; places];
                spread[1] += (255 % places) as u8;
                spread
            }
        };
        table.set_target_weights(first == 8, &weights);
    }

    let part = random_part(random, &table.count_weights);
    table.warm_percentage = random_percentage(random, part, sum(&table.count_weights));
    let part = random_part(random, &table.count_weights);
    table.cold_percentage = random_percentage(random, part, sum(&table.count_weights));
    let part = random_part(random, &table.thermometer_weights);
    table.thermometer_percentage = random_percentage(random, part, sum(&table.thermometer_weights));
    if random.once_in(3) {
        // A part of the p of KAV, at all ages.
        let kav: Vec<u8> = table.thermometers[..8]
            .iter()
            .map(|one| one.weight)
            .collect();
        let part = random_part(random, &kav);
        table.thermometer_percentage = random_percentage(random, part, sum(&kav));
    }
    table.least_good_kav = random.pick(&[1, 1, 2, 3, 4, 5, 5, 5, 6, 7, 8]);
    table.least_good_wg = random.pick(&[1, 1, 2, 3, 4, 4, 4, 5, 6, 7]);
    table.temperature_difference = random.pick(&[0, 100, 2_000, 491_520]);

    for channel in &mut table.channels {
        channel.warm_difference = random.pick(&[0, 1, 50, 50, 1_000, 65_535]);
        channel.cold_difference = random.pick(&[0, 1, 50, 50, 1_000, 65_535]);
        channel.warm_bias = at_end_or_any(random, -4_096, 4_096) as i16;
        channel.rayleigh_jeans = at_end_or_any(random, 0, 16_384) as u16;
        channel.side_lobe = at_end_or_any(random, 0, 16_384) as u16;
        if random.once_in(6) {
            // Tc is 32,768: at x = 0 every odd e gives a half.
            let rest = 32_768 - 11_166;
            channel.rayleigh_jeans = random.between(rest - 16_384, 16_384) as u16;
            channel.side_lobe = rest as u16 - channel.rayleigh_jeans;
        }
    }
    set_shelf_pairs(random, &mut table.channels);
    table
}

/// An accepted table for a seed.
pub fn accepted_table(seed: u64) -> TableValues {
    random_table(&mut Random::new(seed))
}

/// The bytes of some table: accepted, a neighbour, two neighbours' changes at once, or anything.
pub fn table_bytes(seed: u64) -> Vec<u8> {
    let mut random = Random::new(seed);
    let base = if random.once_in(3) {
        TableValues::bench()
    } else {
        random_table(&mut random)
    };
    match random.below(6) {
        0 => base.encode(),
        1 => {
            // Any byte changed.
            let mut bytes = base.encode();
            let position = random.below(bytes.len());
            bytes[position] = random.next() as u8;
            bytes
        }
        2 => {
            let length = random.pick(&[0, 741, 1_403, 1_404, 1_405]);
            random.bytes(length)
        }
        3 => {
            // Two changes, each taken from a neighbour of the same length.
            let own = base.encode();
            let mut bytes = own.clone();
            for _ in 0..2 {
                let other = some_table_neighbour(&mut random, &base).bytes;
                if other.len() == own.len() {
                    for position in 0..own.len() {
                        if other[position] != own[position] {
                            bytes[position] = other[position];
                        }
                    }
                }
            }
            bytes
        }
        _ => some_table_neighbour(&mut random, &base).bytes,
    }
}

/// An accepted table changed so that it is refused with this number, 1 to 3.
pub fn refused_table(random: &mut Random, number: u8) -> Vec<u8> {
    let mut bytes = random_table(random).encode();
    match number {
        1 => bytes.resize(random.pick(&[0, 741, 1_403, 1_405]), 0),
        2 => bytes[random.pick(&head_positions(&TABLE))] ^= 1,
        // A percentage of 0.
        _ => bytes[19] = 0,
    }
    bytes
}

/// Every neighbour of the bench table (seed 0) or of the accepted table of a seed.
pub fn seed_neighbours(seed: u64) -> Vec<Neighbour> {
    let base = if seed == 0 {
        TableValues::bench()
    } else {
        accepted_table(seed)
    };
    table_neighbours(&base)
}

#[cfg(test)]
mod tests {
    use super::*;

    #[test]
    fn random_tables_are_accepted() {
        for seed in 0..2_000 {
            let opened = crate::second::table::open(&accepted_table(seed).encode());
            assert!(opened.is_ok(), "seed {seed}");
        }
    }

    #[test]
    fn refused_tables_are_refused_with_their_number() {
        let mut random = Random::new(6);
        for number in [1, 2, 3].repeat(50) {
            let opened = crate::second::table::open(&refused_table(&mut random, number));
            assert_eq!(opened.err(), Some(number));
        }
    }

    #[test]
    fn neighbours_of_random_tables_have_their_planned_answers() {
        for seed in 0..3 {
            for neighbour in table_neighbours(&accepted_table(seed)) {
                let answer = crate::second::table::open(&neighbour.bytes)
                    .err()
                    .unwrap_or(0);
                assert_eq!(answer, neighbour.answer, "{}", neighbour.description);
            }
        }
    }
}
