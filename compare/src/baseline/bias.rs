//! The bias file, and the operation Opening a bias file.

use super::bytes::{heads_are_right, i16_at, Head};

/// The pairs of a channel.
pub const POSITIONS: usize = 96;

const LENGTH: usize = 8_451;
const HEADS: [Head; 1] = [(0, [0x13, 0x21, 0])];

/// The scan bias of a channel and position.
#[derive(Clone, Copy, Debug, Default)]
pub struct Pair {
    pub c0: i16,
    pub e: i16,
}

/// An accepted bias file: all pairs, channel by channel.
#[derive(Clone, Debug)]
pub struct Bias {
    pairs: Vec<Pair>,
}

impl Bias {
    /// The pairs of each channel in order.
    pub fn channels(&self) -> impl Iterator<Item = &[Pair]> {
        self.pairs.chunks_exact(POSITIONS)
    }
}

/// The pair of four bytes, if c0 is in its range.
fn read_pair(bytes: &[u8]) -> Option<Pair> {
    let (c0, e) = (i16_at(bytes, 0), i16_at(bytes, 2));
    (-4_096..=4_096).contains(&c0).then_some(Pair { c0, e })
}

/// The operation Opening a bias file: the bias file, or the number of the refusal.
pub fn open_bias(bytes: &[u8]) -> Result<Bias, u8> {
    if bytes.len() != LENGTH {
        return Err(1);
    }
    if !heads_are_right(bytes, &HEADS) {
        return Err(2);
    }
    let pairs: Option<Vec<Pair>> = bytes[3..].chunks_exact(4).map(read_pair).collect();
    pairs.map(|pairs| Bias { pairs }).ok_or(3)
}

#[cfg(test)]
mod tests {
    use super::*;
    use crate::against;
    use crate::check::counters::Counters;

    fn answer(bytes: &[u8]) -> u8 {
        open_bias(bytes).err().unwrap_or(0)
    }

    #[test]
    fn opening_agrees_with_the_second_implementation() {
        for seed in 0..500 {
            against::bias(seed, answer, &mut Counters::new()).unwrap();
        }
        // Seed 0 is the file of zeros.
        for seed in 0..3 {
            against::all_bias_neighbours(seed, answer, &mut Counters::new()).unwrap();
        }
    }
}
