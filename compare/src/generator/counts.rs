//! Warm and cold counts: sides with two, three and four good ones, at limits and differences,
//! sides that overlap, and windows in which warm is not above cold.

use super::random::{to_u16, Random};
use super::tables::TableValues;
use crate::second::table::Side;

/// How the counts of one channel run over a list.
#[derive(Clone, Copy, Debug)]
pub struct ChannelPlan {
    pub warm_level: u16,
    pub cold_level: u16,
    /// In each record one side is bad and the other at the same level give or take one, so that
    /// D is near 0.
    pub one_sided: bool,
}

/// Plans a channel and narrows the limits of its table to what the levels give.
pub fn plan_channel(
    random: &mut Random,
    table: &mut TableValues,
    channel: usize,
    one_sided: bool,
) -> ChannelPlan {
    let values = &mut table.channels[channel];
    let cold_level = random.pick(&[1, 2, 3_000, 10_000, 30_000]);
    // Multiples of 4: a quarter and five quarters of the span are whole counts.
    let span = random.pick(&[4, 8, 40, 1_000, 10_000, 22_000]);
    let warm_level = cold_level + span;
    if random.once_in(3) {
        values.warm_low = to_u16(warm_level as i128 - random.between(0, 60) as i128);
        values.warm_upp = to_u16(warm_level as i128 + random.between(0, 60) as i128);
    }
    if random.once_in(3) {
        values.cold_low = to_u16(cold_level as i128 - random.between(0, 60) as i128);
        values.cold_upp = to_u16(cold_level as i128 + random.between(0, 60) as i128);
    }
    if random.once_in(20) {
        // low = upp.
        values.warm_low = warm_level;
        values.warm_upp = warm_level;
    }
    ChannelPlan {
        warm_level,
        cold_level,
        one_sided,
    }
}

/// Four counts that are bad in the sense of fewer than three good.
fn bad_side(random: &mut Random, difference: u16) -> [u16; 4] {
    let level = random.pick(&[0u16, 5_000, 40_000]);
    let far = level.saturating_add(difference).saturating_add(1);
    [level, level, far, far]
}

/// Four counts of one side around a level.
fn side_counts(
    random: &mut Random,
    table: &TableValues,
    channel: usize,
    side: Side,
    level: u16,
) -> [u16; 4] {
    let values = &table.channels[channel];
    let (low, upp, difference) = match side {
        Side::Warm => (values.warm_low, values.warm_upp, values.warm_difference),
        Side::Cold => (values.cold_low, values.cold_upp, values.cold_difference),
    };
    let at_limit = level.saturating_add(difference);
    let beyond = at_limit.saturating_add(1);
    let mut four = match random.below(16) {
        0..=5 => [level; 4],
        6 => [level, level, level, at_limit],
        7 => [level, level, level, beyond],
        8 => [level, level, beyond, beyond],
        9 => [level, level, at_limit, beyond],
        10 => [level, level, level, low.wrapping_sub(1)],
        11 => [level, level, low, upp],
        12 => [level, level, low.wrapping_sub(1), upp.wrapping_add(1)],
        13 => [level, low, upp, upp.wrapping_add(1)],
        14 => {
            let nearest = difference.min(7) as i64;
            std::array::from_fn(|_| to_u16(level as i128 + random.between(0, nearest) as i128))
        }
        _ => std::array::from_fn(|_| random.next() as u16),
    };
    random.shuffle(&mut four);
    four
}

/// The warm and the cold counts of a channel in one record.
pub fn channel_counts(
    random: &mut Random,
    plan: &ChannelPlan,
    table: &TableValues,
    channel: usize,
) -> ([u16; 4], [u16; 4]) {
    let values = &table.channels[channel];
    if plan.one_sided {
        let level = plan.warm_level;
        let mut four: [u16; 4] =
            std::array::from_fn(|_| to_u16(level as i128 + random.between(0, 1) as i128));
        if random.once_in(2) {
            // Three good ones of four.
            four[random.below(4)] = random.pick(&[0, 65_535]);
        }
        if random.once_in(2) {
            return (four, bad_side(random, values.cold_difference));
        }
        return (bad_side(random, values.warm_difference), four);
    }
    let mut warm = side_counts(random, table, channel, Side::Warm, plan.warm_level);
    let mut cold = side_counts(random, table, channel, Side::Cold, plan.cold_level);
    if random.once_in(12) {
        // The sides one apart, equal, or overlapping by one.
        let level = random.pick(&[plan.warm_level, plan.cold_level]);
        warm = [level; 4];
        cold = [to_u16(level as i128 + random.between(-1, 1) as i128); 4];
        if random.once_in(2) {
            cold[random.below(4)] = level.saturating_sub(1);
        }
    }
    if random.once_in(10) {
        // The levels move between records.
        let drift = random.between(-5, 5) as i128;
        warm = warm.map(|count| to_u16(count as i128 + drift));
    }
    (warm, cold)
}
