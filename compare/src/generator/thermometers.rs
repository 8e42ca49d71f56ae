//! Thermometers: inputs of the operation One thermometer, and the thermometer counts of a record.

use super::random::{to_u16, Random};
use super::random_tables::random_table;
use super::ratios::{ratio, Mistake, MISTAKES};
use super::tables::{TableValues, ThermometerValues};
use crate::second::rounding::floor;
use crate::second::thermometer::{
    measured, resistance_ratio, rule, Coefficients, Reading, HIGHEST_T, LOWEST_T,
};

/// What the operation One thermometer takes.
#[derive(Clone, Copy, Debug)]
pub struct ThermometerInput {
    /// R_PAM.
    pub pam_resistance: u32,
    pub pam: u16,
    pub offset: u16,
    pub count: u16,
    /// R0.
    pub resistance: u32,
    pub alpha: u32,
    pub delta: u32,
    pub beta: u32,
}

impl ThermometerInput {
    pub fn reading(&self) -> Reading {
        Reading {
            pam_resistance: self.pam_resistance as i128,
            pam: self.pam as i128,
            offset: self.offset as i128,
            count: self.count as i128,
        }
    }

    pub fn coefficients(&self) -> Coefficients {
        Coefficients {
            resistance: self.resistance as i128,
            alpha: self.alpha as i128,
            delta: self.delta as i128,
            beta: self.beta as i128,
        }
    }
}

fn coefficients_of(values: &ThermometerValues) -> Coefficients {
    Coefficients {
        resistance: values.resistance as i128,
        alpha: values.alpha as i128,
        delta: values.delta as i128,
        beta: values.beta as i128,
    }
}

/// The least count that reaches a ratio M, not cut to 16 bits.
fn count_reaching(m: i128, pam_resistance: i128, resistance: i128, pam: u16, offset: u16) -> i128 {
    let span = pam as i128 - offset as i128;
    if span <= 0 {
        return offset as i128;
    }
    // The least c with R_PAM × c × 2^24 at least M × span × R0.
    offset as i128 - floor(-m * span * resistance, pam_resistance * (1 << 24))
}

/// The count at which the thermometer is about at t.
pub fn count_near(t: i128, table: &TableValues, index: usize, pam: u16, offset: u16) -> u16 {
    let thermometer = &table.thermometers[index];
    let m = resistance_ratio(t, &coefficients_of(thermometer));
    let (own, other) = (table.pam_resistance as i128, thermometer.resistance as i128);
    to_u16(count_reaching(m, own, other, pam, offset))
}

/// The t of a count, if the rule gives one.
pub fn t_of_count(
    table: &TableValues,
    index: usize,
    pam: u16,
    offset: u16,
    count: u16,
) -> Option<i128> {
    let reading = Reading {
        pam_resistance: table.pam_resistance as i128,
        pam: pam as i128,
        offset: offset as i128,
        count: count as i128,
    };
    rule(&reading, &coefficients_of(&table.thermometers[index])).ok()
}

/// A count at an edge: at the offset or beside it, at the last or first count of either end of
/// the range of t, at the first count from 0 °C on, or at an end of 16 bits.
fn edge_count(
    random: &mut Random,
    table: &TableValues,
    index: usize,
    pam: u16,
    offset: u16,
) -> u16 {
    let beside = random.between(-1, 1) as i128;
    let thermometer = &table.thermometers[index];
    let coefficients = coefficients_of(thermometer);
    let (own, other) = (table.pam_resistance as i128, thermometer.resistance as i128);
    let reaching = |m: i128| count_reaching(m, own, other, pam, offset);
    let count = match random.below(6) {
        0 => offset as i128 + beside,
        1 => pam as i128 + beside,
        2 => reaching(resistance_ratio(LOWEST_T, &coefficients)) + beside,
        3 => reaching(resistance_ratio(HIGHEST_T, &coefficients) + 1) - 1 + beside,
        4 => reaching(resistance_ratio(0, &coefficients)) + beside,
        _ => random.pick(&[0, 65_535]),
    };
    to_u16(count)
}

fn random_pam_and_offset(random: &mut Random) -> (u16, u16) {
    let offset = random.pick(&[0, 0, 1, 100, 5_000, 40_000]);
    let span = random.pick(&[1, 2, 100, 20_000, 25_000, 32_768, 65_535]);
    (to_u16(offset + span), offset as u16)
}

/// An input of the operation One thermometer.
pub fn thermometer_input(seed: u64) -> ThermometerInput {
    let mut random = Random::new(seed);
    let table = random_table(&mut random);
    let index = random.below(15);
    let (mut pam, offset) = random_pam_and_offset(&mut random);
    if random.once_in(10) {
        // PAM at the offset or beside it.
        pam = to_u16(offset as i128 + random.between(-1, 1) as i128);
    }
    let mut count = match random.below(4) {
        0 => random.next() as u16,
        1 => {
            let t = random.between(-245_760, 245_760) as i128;
            count_near(t, &table, index, pam, offset)
        }
        _ => edge_count(&mut random, &table, index, pam, offset),
    };
    if random.once_in(50) && offset > 0 {
        count = random.below(offset as usize) as u16;
    }
    let thermometer = table.thermometers[index];
    let mut input = ThermometerInput {
        pam_resistance: table.pam_resistance,
        pam,
        offset,
        count,
        resistance: thermometer.resistance,
        alpha: thermometer.alpha,
        delta: thermometer.delta,
        beta: thermometer.beta,
    };
    match random.below(30) {
        0..=4 => aim_at_an_end(&mut random, &mut input),
        5..=9 => {
            // M at F(t), or one below it.
            let t = random.between(-245_760, 245_760) as i128;
            let m = resistance_ratio(t, &input.coefficients()) - random.between(0, 1) as i128;
            aim_at_m(&mut random, &mut input, m);
        }
        10 | 11 => aim_at_a_mistake(&mut random, &mut input),
        12 => aim_beside_an_end(&mut random, &mut input),
        13 => aim_around_zero(&mut random, &mut input),
        _ => {}
    }
    if random.once_in(5) {
        // One or two parameters at an end of their ranges or beyond.
        for _ in 0..random.between(1, 2) {
            let (which, low, high) = random.pick(&[
                (0, 1_000, 4_000_000),
                (1, 1_000, 4_000_000),
                (2, 3_000_000, 5_000_000),
                (3, 0u32, 2_000_000u32),
                (4, 0, 500_000),
            ]);
            let value = random.pick(&[
                low,
                high,
                low.wrapping_sub(1),
                high + 1,
                0,
                2_147_483_648,
                u32::MAX,
            ]);
            match which {
                0 => input.pam_resistance = value,
                1 => input.resistance = value,
                2 => input.alpha = value,
                3 => input.delta = value,
                _ => input.beta = value,
            }
        }
    }
    input
}

/// Looks for an alpha at which M is F at an end of the range exactly, or one beside it.
///
/// With R_PAM = R0, PAM - offset = 32,768 and so M = 512 × (count - offset).
fn aim_at_an_end(random: &mut Random, input: &mut ThermometerInput) {
    let end = random.pick(&[LOWEST_T, HIGHEST_T]);
    let beside = random.between(-1, 1) as i128;
    input.resistance = input.pam_resistance;
    input.offset = random.pick(&[0, 3]);
    input.pam = input.offset + 32_768;
    for _ in 0..20_000 {
        input.alpha = random.between(3_000_000, 5_000_000) as u32;
        let m = resistance_ratio(end, &input.coefficients()) + beside;
        let count = m / 512 + input.offset as i128;
        if m % 512 == 0 && count <= 65_535 {
            input.count = count as u16;
            return;
        }
    }
}

/// Looks for PAM, offset, count, R_PAM and R0 at which M is this exactly.
fn aim_at_m(random: &mut Random, input: &mut ThermometerInput, m: i128) {
    for _ in 0..100 {
        let offset = random.pick(&[0, 7]);
        let span = random.between(1_000, 65_000) as i128;
        let resistance = random.between(1_000_000, 4_000_000) as i128;
        let above = floor(span * m * random.between(60, 140) as i128, 100 << 24);
        let above = above.clamp(1, 65_535 - offset);
        // The least R_PAM that reaches M.
        let pam_resistance = -floor(-m * span * resistance, above << 24);
        let made = ThermometerInput {
            pam_resistance: pam_resistance.clamp(1_000, 4_000_000) as u32,
            pam: to_u16(offset + span),
            offset: to_u16(offset),
            count: to_u16(offset + above),
            resistance: resistance as u32,
            ..*input
        };
        if measured(&made.reading(), resistance) == m {
            *input = made;
            return;
        }
    }
}

/// Aims M where F(t) is at most M and F(t) with a mistake is not, or the other way round, and says
/// whether there is such an M.
fn aim_between(
    random: &mut Random,
    input: &mut ThermometerInput,
    t: i128,
    mistake: Mistake,
) -> bool {
    let coefficients = input.coefficients();
    let own = ratio(t, &coefficients, None);
    let mistaken = ratio(t, &coefficients, Some(mistake));
    if own == mistaken {
        return false;
    }
    let (least, greatest) = (own.min(mistaken), own.max(mistaken) - 1);
    let any = random.between(least as i64, greatest as i64) as i128;
    let m = random.pick(&[least, greatest, any]);
    aim_at_m(random, input, m);
    true
}

/// Looks for an alpha and a t at which F with a mistake is not F, and aims M between the two.
fn aim_at_a_mistake(random: &mut Random, input: &mut ThermometerInput) {
    let mistake = random.pick(&MISTAKES);
    input.beta = 500_000;
    if input.delta == 0 {
        // s1 would be 0 for every t.
        input.delta = random.pick(&[1, 1_500_000, 2_000_000]);
    }
    let (low, high) = mistake.some_range(random);
    for _ in 0..5_000 {
        let t = random.between(low, high) as i128;
        if aim_between(random, input, t, mistake) {
            return;
        }
        input.alpha = random.between(3_000_000, 5_000_000) as u32;
    }
}

/// Aims M between F at an end of the range and F there with a mistake about the fourth-degree term:
/// above the upper end, which is refused, or at the lower, which is answered.
fn aim_beside_an_end(random: &mut Random, input: &mut ThermometerInput) {
    let upper = (HIGHEST_T, Mistake::TermAboveZero);
    let (t, mistake) = random.pick(&[upper, (LOWEST_T, Mistake::NoTerm)]);
    input.beta = random.pick(&[500_000, 500_000, 499_999, 311_111]);
    aim_between(random, input, t, mistake);
}

/// Aims M at F(-1), F(0) or F(1), at one below F(0) or F(1), or between two of them.
fn aim_around_zero(random: &mut Random, input: &mut ThermometerInput) {
    let any_beta = random.between(1, 499_999) as u32;
    input.beta = random.pick(&[0, 500_000, any_beta]);
    let coefficients = input.coefficients();
    let [low, zero, high] = [-1, 0, 1].map(|t| resistance_ratio(t, &coefficients));
    let below_zero = random.between(low as i64 + 1, zero as i64 - 1) as i128;
    let above_zero = random.between(zero as i64 + 1, high as i64 - 1) as i128;
    let places = [low, below_zero, zero - 1, zero, above_zero, high - 1, high];
    let m = random.pick(&places);
    aim_at_m(random, input, m);
}

/// How the thermometers of a list's records are read.
#[derive(Clone, Debug)]
pub struct ThermometerPlan {
    pub pam: u16,
    pub offset: u16,
    /// The counts of a quiet record.
    pub counts: [u16; 15],
    /// What is added to a quiet count to get a rival that differs by dT or dT + 1.
    pub rival_step: u16,
}

/// The t of KAV and of WG: the same, mostly at or above 0 °C, or each on a side of its own.
fn target_temperatures(random: &mut Random) -> [i128; 2] {
    match random.below(8) {
        0 | 1 => [random.between(-200_000, 200_000) as i128; 2],
        2 | 3 => [0, 1].map(|_| {
            let below = random.between(-200_000, -1) as i128;
            let above = random.between(0, 200_000) as i128;
            random.pick(&[below, above])
        }),
        _ => [random.between(0, 120_000) as i128; 2],
    }
}

/// Sets R_PAM and each R0 so that a count at PAM gives t = -1, 0 or 1.
fn read_around_zero(random: &mut Random, table: &mut TableValues) {
    table.pam_resistance = 2_000_000;
    for thermometer in &mut table.thermometers {
        let t = random.between(-1, 1) as i128;
        let f = resistance_ratio(t, &coefficients_of(thermometer));
        // M is R_PAM × 2^24 / R0. The greatest R0 that reaches F(t) does not reach F(t + 1): it moves
        // M by less than 9 a step, and F rises by 12 or more.
        thermometer.resistance = floor(2_000_000 << 24, f) as u32;
    }
}

/// The counts of a quiet record, and what they need of the table.
fn quiet_counts(
    random: &mut Random,
    table: &mut TableValues,
    (pam, offset): (u16, u16),
    calm: bool,
) -> [u16; 15] {
    if calm && random.once_in(10) {
        read_around_zero(random, table);
        return [pam; 15];
    }
    let [kav, wg] = target_temperatures(random);
    let t = |index: usize| if index < 8 { kav } else { wg };
    std::array::from_fn(|index| count_near(t(index), table, index, pam, offset))
}

/// Plans the thermometers of a list and narrows T_low, T_upp and dT of its table to what the
/// planned counts give, exactly or one unit off.
pub fn plan_thermometers(random: &mut Random, table: &mut TableValues) -> ThermometerPlan {
    let (mut pam, mut offset) = random_pam_and_offset(random);
    let calm = !random.once_in(3);
    if calm {
        (pam, offset) = random.pick(&[(20_000, 0), (20_100, 100), (40_000, 300)]);
        for thermometer in &mut table.thermometers {
            thermometer.resistance = table.pam_resistance;
        }
    }
    let counts = quiet_counts(random, table, (pam, offset), calm);
    let rival_step = random.between(1, 40) as u16;
    let plan = ThermometerPlan {
        pam,
        offset,
        counts,
        rival_step,
    };
    let index = random.below(15);
    let quiet = t_of_count(table, index, pam, offset, counts[index]);
    let step_count = counts[index].saturating_add(rival_step);
    let rival = t_of_count(table, index, pam, offset, step_count);
    if let (Some(quiet), Some(rival)) = (quiet, rival) {
        let difference = (rival - quiet) as u32;
        table.temperature_difference = match random.below(6) {
            0 => table.temperature_difference,
            1 => random.pick(&[0, 491_520]),
            2 | 3 => difference.saturating_sub(1),
            _ => difference,
        }
        .min(491_520);
        if random.once_in(if calm { 6 } else { 2 }) {
            table.lowest_t = (quiet - random.between(0, 1) as i128 + random.between(0, 1) as i128)
                .clamp(LOWEST_T, HIGHEST_T) as i32;
        }
        if random.once_in(if calm { 6 } else { 3 }) {
            table.highest_t = (rival - random.between(0, 1) as i128 + random.between(0, 1) as i128)
                .clamp(LOWEST_T, HIGHEST_T) as i32;
        }
        if table.lowest_t > table.highest_t {
            table.lowest_t = table.highest_t;
        }
    }
    plan
}

/// PAM, offset and thermometer counts of one record.
#[derive(Clone, Copy, Debug)]
pub struct ThermometerCounts {
    pub pam: u16,
    pub offset: u16,
    pub counts: [u16; 15],
}

/// A count that the rule refuses for sure: at the offset, or below it, M is 0 or less.
fn refused_count(random: &mut Random, offset: u16) -> u16 {
    random.pick(&[offset, offset.saturating_sub(1), 0])
}

/// The thermometers of one record: quiet, with rivals, at edges, at the least number, or wild.
pub fn thermometer_counts(
    random: &mut Random,
    plan: &ThermometerPlan,
    table: &TableValues,
) -> ThermometerCounts {
    let mut made = ThermometerCounts {
        pam: plan.pam,
        offset: plan.offset,
        counts: plan.counts,
    };
    let mood = random.below(20);
    match mood {
        0..=9 => {}
        10..=13 => {
            // Each quiet, a rival on either side, or refused.
            for count in &mut made.counts {
                *count = match random.below(5) {
                    0 | 1 => *count,
                    2 => count.saturating_add(plan.rival_step),
                    3 => count.saturating_sub(plan.rival_step),
                    _ => refused_count(random, plan.offset),
                };
            }
        }
        14 | 15 => {
            for index in 0..15 {
                if random.once_in(2) {
                    made.counts[index] = edge_count(random, table, index, plan.pam, plan.offset);
                }
            }
        }
        16 => {
            made.pam = random.pick(&[plan.offset, plan.offset.saturating_sub(1), 0]);
        }
        17 | 18 => {
            // As many quiet ones as the least number, or one fewer.
            for (first, places, least) in [
                (0, 8, table.least_good_kav as usize),
                (8, 7, table.least_good_wg as usize),
            ] {
                let kept = least - random.below(2);
                let mut order: Vec<usize> = (first..first + places).collect();
                random.shuffle(&mut order);
                for index in order.into_iter().skip(kept) {
                    made.counts[index] = refused_count(random, plan.offset);
                }
            }
        }
        _ => {
            for count in &mut made.counts {
                if random.once_in(3) {
                    *count = random.next() as u16;
                }
            }
        }
    }
    made
}
