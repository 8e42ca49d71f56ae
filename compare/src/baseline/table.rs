//! The table, and the operation Opening a table.

use std::ops::Range;

use super::bytes::{heads_are_right, i16_at, i32_at, u16_at, u32_at, Head};
use super::shelf::{ShelfPair, PAIRS};

pub const AGES: usize = 8;
pub const THERMOMETERS: usize = 15;
pub const CHANNELS: usize = 22;

/// The thermometers of KAV and of WG.
pub const TARGETS: [Range<usize>; 2] = [0..8, 8..15];

/// The first channel that WG serves.
pub const FIRST_OF_WG: usize = 15;

const LENGTH: usize = 1_404;
const HEADS: [Head; 4] = [
    (0, [0x10, 0, 37]),
    (40, [0x11, 0, 255]),
    (298, [0x12, 1, 184]),
    (741, [0x14, 2, 148]),
];

/// Limits, ends included, and the greatest difference that does not count.
#[derive(Clone, Copy, Debug, Default)]
pub struct Limits {
    pub low: i64,
    pub upp: i64,
    pub difference: i64,
}

#[derive(Clone, Copy, Debug, Default)]
pub struct Thermometer {
    pub p: i64,
    pub r0: u32,
    pub alpha: u32,
    pub delta: u32,
    pub beta: u32,
}

#[derive(Clone, Copy, Debug, Default)]
pub struct Channel {
    pub warm: Limits,
    pub cold: Limits,
    pub b: i64,
    /// Tc, which the table alone decides.
    pub tc: i64,
    pub pairs: [ShelfPair; PAIRS],
}

/// An accepted table.
#[derive(Clone, Debug)]
pub struct Table {
    pub w: [i64; AGES],
    pub v: [i64; AGES],
    /// What 100 × the sum of v_k p of KAV and of WG must reach.
    pub least_of_target: [i64; 2],
    /// What 100 × Ww and 100 × Wc must reach.
    pub least_warm: i64,
    pub least_cold: i64,
    /// Least good thermometers for KAV and WG.
    pub least_good: [usize; 2],
    pub r_pam: u32,
    /// T_low, T_upp and dT.
    pub temperature: Limits,
    pub thermometers: [Thermometer; THERMOMETERS],
    pub channels: [Channel; CHANNELS],
}

/// The value, if it is in its range.
fn inside<T: PartialOrd>(value: T, low: T, high: T) -> Option<T> {
    (low <= value && value <= high).then_some(value)
}

/// A temperature in units of °C, if it is in its range.
fn celsius(bytes: &[u8], at: usize) -> Option<i64> {
    inside(i32_at(bytes, at) as i64, -245_760, 245_760)
}

/// The limits, if low is not above upp.
fn limits(low: i64, upp: i64, difference: i64) -> Option<Limits> {
    (low <= upp).then_some(Limits {
        low,
        upp,
        difference,
    })
}

fn count_limits(row: &[u8]) -> Option<Limits> {
    let at = |at: usize| u16_at(row, at) as i64;
    limits(at(0), at(2), at(4))
}

/// The sum of weights, if it is in 1..255.
fn sum(weights: impl Iterator<Item = i64>) -> Option<i64> {
    inside(weights.sum(), 1, 255)
}

fn read_temperature(row: &[u8]) -> Option<Limits> {
    let difference = inside(u32_at(row, 8) as i64, 0, 491_520)?;
    limits(celsius(row, 0)?, celsius(row, 4)?, difference)
}

fn read_thermometer(row: &[u8]) -> Option<Thermometer> {
    Some(Thermometer {
        p: row[0] as i64,
        r0: inside(u32_at(row, 1), 1_000, 4_000_000)?,
        alpha: inside(u32_at(row, 5), 3_000_000, 5_000_000)?,
        delta: inside(u32_at(row, 9), 0, 2_000_000)?,
        beta: inside(u32_at(row, 13), 0, 500_000)?,
    })
}

/// The pairs of a row, if each is in its range and their shelf temperatures rise strictly.
fn read_pairs(row: &[u8]) -> Option<[ShelfPair; PAIRS]> {
    let mut pairs = [ShelfPair::default(); PAIRS];
    for (pair, bytes) in pairs.iter_mut().zip(row.chunks_exact(6)) {
        *pair = ShelfPair {
            shelf: celsius(bytes, 0)?,
            tnl: inside(i16_at(bytes, 4) as i64, -8_192, 8_192)?,
        };
    }
    let rise = pairs.windows(2).all(|two| two[0].shelf < two[1].shelf);
    rise.then_some(pairs)
}

/// The channel of its rows in 0x12, where TNL is 0, and in 0x14.
fn read_channel(row: &[u8], pairs: &[u8]) -> Option<Channel> {
    inside(i16_at(row, 18), 0, 0)?;
    let correction = |at: usize| inside(u16_at(row, at) as i64, 0, 16_384);
    Some(Channel {
        warm: count_limits(&row[..6])?,
        cold: count_limits(&row[6..12])?,
        b: inside(i16_at(row, 12) as i64, -4_096, 4_096)?,
        tc: 11_166 + correction(14)? + correction(16)?,
        pairs: read_pairs(pairs)?,
    })
}

/// The table of bytes whose heads are right, if every value and sum is in its range.
fn read(bytes: &[u8]) -> Option<Table> {
    let general = &bytes[3..40];
    let w = std::array::from_fn(|age| general[age] as i64);
    let v = std::array::from_fn(|age| general[8 + age] as i64);
    let percentage = |at: usize| inside(general[at] as i64, 1, 100);
    let least = |at: usize, most: usize| inside(general[at] as usize, 1, most);

    let mut thermometers = [Thermometer::default(); THERMOMETERS];
    for (thermometer, row) in thermometers.iter_mut().zip(bytes[43..298].chunks_exact(17)) {
        *thermometer = read_thermometer(row)?;
    }
    let mut channels = [Channel::default(); CHANNELS];
    let rows = bytes[301..741].chunks_exact(20);
    let rows = rows.zip(bytes[744..].chunks_exact(30));
    for (channel, (row, pairs)) in channels.iter_mut().zip(rows) {
        *channel = read_channel(row, pairs)?;
    }

    let sum_w = sum(w.into_iter())?;
    let of_all_v = percentage(16)? * sum(v.into_iter())?;
    let [kav, wg] = TARGETS.map(|target| sum(thermometers[target].iter().map(|one| one.p)));
    Some(Table {
        w,
        v,
        least_of_target: [of_all_v * kav?, of_all_v * wg?],
        least_warm: percentage(17)? * sum_w,
        least_cold: percentage(18)? * sum_w,
        least_good: [least(19, 8)?, least(20, 7)?],
        r_pam: inside(u32_at(general, 21), 1_000, 4_000_000)?,
        temperature: read_temperature(&general[25..])?,
        thermometers,
        channels,
    })
}

/// The operation Opening a table: the table, or the number of the refusal.
pub fn open(bytes: &[u8]) -> Result<Table, u8> {
    if bytes.len() != LENGTH {
        return Err(1);
    }
    if !heads_are_right(bytes, &HEADS) {
        return Err(2);
    }
    read(bytes).ok_or(3)
}

#[cfg(test)]
mod tests {
    use super::*;
    use crate::against;
    use crate::check::counters::Counters;

    fn answer(bytes: &[u8]) -> u8 {
        open(bytes).err().unwrap_or(0)
    }

    #[test]
    fn opening_agrees_with_the_second_implementation() {
        for seed in 0..500 {
            against::table(seed, answer, &mut Counters::new()).unwrap();
        }
    }

    #[test]
    fn opening_neighbours_agrees_with_the_second_implementation() {
        // Seed 0 is the bench table.
        for seed in 0..20 {
            against::all_table_neighbours(seed, answer, &mut Counters::new()).unwrap();
        }
    }
}
