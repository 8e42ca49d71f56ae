//! Accepted bias files at random, and bytes that may be a bias file.

use super::bias_neighbours::{bias_neighbours, C0_EDGES};
use super::biases::{BiasValues, PairValues};
use super::neighbour::Neighbour;
use super::random::Random;

fn any_pair(random: &mut Random) -> PairValues {
    PairValues {
        c0: random.between(-4_096, 4_096) as i16,
        e: random.next() as i16,
    }
}

/// Both at an end.
fn end_pair(random: &mut Random) -> PairValues {
    PairValues {
        c0: random.pick(&[-4_096, 4_096]),
        e: random.pick(&[-32_768, 32_767]),
    }
}

/// e with some factors 2: a T with as many as are missing from 15 gives a half.
fn half_pair(random: &mut Random) -> PairValues {
    let twos = random.below(15);
    let odd_numbers = 1 << (14 - twos);
    let odd = 2 * random.between(-odd_numbers, odd_numbers - 1) + 1;
    PairValues {
        c0: random.pick(&[-1, 0, 1]),
        e: (odd << twos) as i16,
    }
}

/// c0 and e at 0, an end or beside one of these, or anywhere.
fn mixed_pair(random: &mut Random) -> PairValues {
    let any = any_pair(random);
    let half = half_pair(random);
    PairValues {
        c0: random.pick(&[0, 1, -1, -4_096, -4_095, 4_095, 4_096, any.c0]),
        e: random.pick(&[0, 1, -1, -32_768, -32_767, 32_767, any.e, half.e]),
    }
}

fn every_pair(random: &mut Random, pair: fn(&mut Random) -> PairValues) -> BiasValues {
    let mut bias = BiasValues::zeros();
    for one in bias.pairs.iter_mut().flatten() {
        *one = pair(random);
    }
    bias
}

/// An accepted bias file with every c0 and e anywhere in its range.
pub fn any_bias(random: &mut Random) -> BiasValues {
    every_pair(random, any_pair)
}

/// Zeros but for one pair.
fn single_pair(random: &mut Random) -> BiasValues {
    let mut bias = BiasValues::zeros();
    let channel = random.pick(&[0, 21, 10]);
    let position = random.pick(&[0, 95, 40]);
    bias.pairs[channel][position] = any_pair(random);
    bias
}

/// An accepted bias file.
pub fn random_bias(random: &mut Random) -> BiasValues {
    match random.below(10) {
        0 => BiasValues::zeros(),
        1 => single_pair(random),
        2 => every_pair(random, end_pair),
        3 => any_bias(random),
        4 | 5 => every_pair(random, half_pair),
        6 => {
            // The same everywhere.
            let pair = mixed_pair(random);
            BiasValues {
                pairs: [[pair; 96]; 22],
            }
        }
        _ => every_pair(random, mixed_pair),
    }
}

/// An accepted bias file for a seed.
pub fn accepted_bias(seed: u64) -> BiasValues {
    random_bias(&mut Random::new(seed))
}

/// Puts a c0 into the first, the last or any pair.
fn put_c0(random: &mut Random, bytes: &mut [u8], c0: i16) {
    let any = random.below(2_112);
    let at = 3 + 4 * random.pick(&[0, 2_111, any]);
    bytes[at..at + 2].copy_from_slice(&c0.to_be_bytes());
}

/// Makes a byte of the head wrong by one.
fn put_wrong_head(random: &mut Random, bytes: &mut [u8]) {
    let position = random.below(3);
    bytes[position] = bytes[position].wrapping_add(random.pick(&[1, 255]));
}

/// The bytes of some bias file: accepted, with one, two or three changes, or anything.
pub fn bias_bytes(seed: u64) -> Vec<u8> {
    let mut random = Random::new(seed);
    let mut bytes = random_bias(&mut random).encode();
    match random.below(8) {
        0 => return bytes,
        1 => {
            // Any byte changed.
            let position = random.below(bytes.len());
            bytes[position] = random.next() as u8;
            return bytes;
        }
        2 => {
            let length = random.pick(&[0, 8_450, 8_451, 8_452]);
            return random.bytes(length);
        }
        _ => {}
    }
    if random.once_in(2) {
        let (c0, _) = random.pick(&C0_EDGES);
        put_c0(&mut random, &mut bytes, c0);
    }
    if random.once_in(3) {
        put_wrong_head(&mut random, &mut bytes);
    }
    if random.once_in(3) {
        let any = random.below(20_000);
        let length = random.pick(&[0, 1, 8_448, 8_450, 8_450, 8_452, 8_452, any]);
        bytes.resize(length, 0);
    }
    bytes
}

/// An accepted bias file changed so that it is refused with this number, 1 to 3.
pub fn refused_bias(random: &mut Random, number: u8) -> Vec<u8> {
    let mut bytes = random_bias(random).encode();
    match number {
        1 => bytes.resize(random.pick(&[0, 8_450, 8_452]), 0),
        2 => put_wrong_head(random, &mut bytes),
        _ => {
            let c0 = random.pick(&[-4_097, 4_097]);
            put_c0(random, &mut bytes, c0);
        }
    }
    bytes
}

/// The bias file of zeros for seed 0, else an accepted one.
pub fn base_bias(seed: u64) -> BiasValues {
    if seed == 0 {
        BiasValues::zeros()
    } else {
        accepted_bias(seed)
    }
}

/// Every neighbour of the bias file of a seed.
pub fn seed_bias_neighbours(seed: u64) -> Vec<Neighbour> {
    bias_neighbours(&base_bias(seed))
}

#[cfg(test)]
mod tests {
    use super::*;
    use crate::second::bias::open_bias;

    #[test]
    fn random_bias_files_are_accepted() {
        for seed in 0..500 {
            let opened = open_bias(&accepted_bias(seed).encode());
            assert!(opened.is_ok(), "seed {seed}");
        }
    }

    #[test]
    fn refused_bias_files_are_refused_with_their_number() {
        let mut random = Random::new(6);
        for number in [1, 2, 3].repeat(50) {
            let opened = open_bias(&refused_bias(&mut random, number));
            assert_eq!(opened.err(), Some(number));
        }
    }

    #[test]
    fn neighbours_of_random_bias_files_have_their_planned_answers() {
        for seed in 0..3 {
            for neighbour in seed_bias_neighbours(seed) {
                let answer = open_bias(&neighbour.bytes).err().unwrap_or(0);
                assert_eq!(answer, neighbour.answer, "{}", neighbour.description);
            }
        }
    }

    #[test]
    fn halves_are_met_at_both_signs_of_e() {
        let mut random = Random::new(5);
        let mut met = [0, 0];
        for _ in 0..20_000 {
            let pair = half_pair(&mut random);
            let temperature = random.between(11_166, 1_751_064);
            if (pair.e as i64 * temperature).rem_euclid(65_536) == 32_768 {
                met[usize::from(pair.e > 0)] += 1;
            }
        }
        assert!(met.iter().all(|count| *count > 200), "{met:?}");
    }
}
