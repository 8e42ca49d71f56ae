//! Records whose thermometers stand where equation 19 tells most: at the ends of the range of t, around 0 °C, and
//! where the measured ratio is as near as can be to the equation's at t or at t + 1. And where F is compared with it.

use super::biases::BiasValues;
use super::random::{to_u16, Random};
use super::records::RecordValues;
use super::states::{StateFeed, StateValues};
use super::tables::{TableValues, ThermometerValues};
use super::thermometers::ThermometerInput;
use crate::second::equation::{distance, equation_ratio, measured_ratio};
use crate::second::rounding::floor;
use crate::second::thermometer::{
    measured, resistance_ratio, Coefficients, Reading, HIGHEST_T, LOWEST_T,
};
use crate::second::wide::WideFraction;

/// A record and its table, in which every thermometer that the rule answers is accepted.
#[derive(Clone, Debug)]
pub struct EquationCase {
    pub table: TableValues,
    pub record: RecordValues,
}

impl EquationCase {
    /// What the operation One thermometer takes of the thermometer with this index from 0.
    pub fn input(&self, index: usize) -> ThermometerInput {
        let thermometer = &self.table.thermometers[index];
        ThermometerInput {
            pam_resistance: self.table.pam_resistance,
            pam: self.record.pam,
            offset: self.record.offset,
            count: self.record.thermometers[index],
            resistance: thermometer.resistance,
            alpha: thermometer.alpha,
            delta: thermometer.delta,
            beta: thermometer.beta,
        }
    }

    /// The record as the first feed to a fresh state.
    pub fn feed(&self) -> StateFeed {
        let bias = BiasValues::zeros().encode();
        StateFeed {
            state: StateValues::fresh(self.table.encode(), bias).encode(),
            record: self.record.encode(),
            buffer: vec![9; 8_706],
        }
    }
}

/// What all thermometers of a record share: R_PAM, PAM - offset and offset.
struct Shared {
    pam_resistance: i128,
    span: i128,
    offset: i128,
}

impl Shared {
    /// Values with which some count has an R0 of 1,000,000 or more, so that a step of R0 moves M by few.
    fn some(random: &mut Random) -> Shared {
        let (pam_resistance, span) = match random.below(4) {
            0 => (1_000, random.between(4, 16)),
            1 => (4_000_000, random.between(20_000, 60_000)),
            2 => (2_000_000, 20_000),
            _ => (
                random.between(1_000_000, 4_000_000),
                random.between(1_000, 50_000),
            ),
        };
        Shared {
            pam_resistance: pam_resistance as i128,
            span: span as i128,
            offset: random.pick(&[0, 7, 300]),
        }
    }

    fn reading(&self, above: i128) -> Reading {
        Reading {
            pam_resistance: self.pam_resistance,
            pam: self.offset + self.span,
            offset: self.offset,
            count: self.offset + above,
        }
    }

    /// count - offset at which this R0 has about this M.
    fn above_offset(&self, m: i128, resistance: i128) -> i128 {
        let above = floor(resistance * self.span * m, self.pam_resistance << 24);
        above.clamp(1, 65_535 - self.offset)
    }

    /// count - offset, and the greatest R0 with which M is this or more.
    fn reaching(&self, random: &mut Random, m: i128) -> Sought {
        let resistance = random.between(1_000_000, 4_000_000) as i128;
        let above = self.above_offset(m, resistance);
        let resistance = floor((self.pam_resistance * above) << 24, m * self.span);
        Sought { above, resistance }
    }

    /// The ratio 1, which is t = 0.
    fn at_one(&self) -> Sought {
        Sought {
            above: self.span,
            resistance: self.pam_resistance,
        }
    }
}

/// count - offset and R0.
#[derive(Clone, Copy)]
struct Sought {
    above: i128,
    resistance: i128,
}

impl Sought {
    fn is_in_range(&self) -> bool {
        (1_000..=4_000_000).contains(&self.resistance)
    }
}

/// A number from low to high, often an end.
fn some_value(random: &mut Random, low: i64, high: i64) -> i128 {
    let any = random.between(low, high);
    random.pick(&[low, high, any, any]) as i128
}

/// Coefficients with ends among them. R0 has no part in F and in the equation's ratio.
fn some_coefficients(random: &mut Random) -> Coefficients {
    Coefficients {
        resistance: 2_000_000,
        alpha: some_value(random, 3_000_000, 5_000_000),
        delta: some_value(random, 0, 2_000_000),
        beta: some_value(random, 0, 500_000),
    }
}

/// Coefficients with each of alpha, delta and beta at an end.
fn corner(random: &mut Random) -> Coefficients {
    Coefficients {
        resistance: 2_000_000,
        alpha: random.pick(&[3_000_000, 5_000_000]),
        delta: random.pick(&[0, 2_000_000]),
        beta: random.pick(&[0, 500_000]),
    }
}

/// Looks for a count and an R0 with which M is this exactly.
fn aim_at_m(random: &mut Random, shared: &Shared, m: i128) -> Option<Sought> {
    (0..200)
        .map(|_| shared.reaching(random, m))
        .filter(Sought::is_in_range)
        .find(|sought| measured(&shared.reading(sought.above), sought.resistance) == m)
}

/// An M from F(t) to below F(t + 1), for t from -245,760 to 245,759.
fn some_m(random: &mut Random, t: i128, coefficients: &Coefficients) -> i128 {
    let [low, next] = [t, t + 1].map(|t| resistance_ratio(t, coefficients) as i64);
    let any = random.between(low, next - 1);
    random.pick(&[low, any, next - 1]) as i128
}

/// Looks for coefficients and a t at which F(t) is above 2^24 times the equation's ratio by more than this.
fn aim_above_the_equation(random: &mut Random, far: WideFraction) -> Option<(i128, Coefficients)> {
    let (low, high) = random.pick(&[(-245_759, -1), (-245_759, -1), (1, 245_760)]);
    (0..400)
        .map(|_| {
            let t = random.between(low, high) as i128;
            (t, some_coefficients(random))
        })
        .find(|(t, own)| distance(resistance_ratio(*t, own), equation_ratio(*t, own)) > far)
}

/// Looks for a count and an R0 whose measured ratio reaches the equation's at t, where F(t) is above it, but not F(t):
/// the answer is t - 1.
fn aim_below_f(
    random: &mut Random,
    shared: &Shared,
    t: i128,
    coefficients: &Coefficients,
) -> Option<Sought> {
    let f = resistance_ratio(t, coefficients);
    let ratio = equation_ratio(t, coefficients);
    (0..400)
        .map(|_| {
            let reaching = shared.reaching(random, f);
            // The least R0 with which F(t) is not reached.
            Sought {
                resistance: reaching.resistance + 1,
                ..reaching
            }
        })
        .filter(Sought::is_in_range)
        .find(|sought| ratio <= measured_ratio(&shared.reading(sought.above), sought.resistance))
}

/// An R0 at an end of its range, with a count near some t.
fn at_an_end_of_r0(random: &mut Random, shared: &Shared, coefficients: &Coefficients) -> Sought {
    let t = random.between(-240_000, 240_000) as i128;
    let resistance = random.pick(&[1_000, 4_000_000]);
    let above = shared.above_offset(resistance_ratio(t, coefficients), resistance);
    Sought { above, resistance }
}

/// Coefficients, count and R0 of one thermometer.
fn aimed_thermometer(random: &mut Random, shared: &Shared) -> (Coefficients, Sought) {
    let mut own = some_coefficients(random);
    let sought = match random.below(11) {
        0 => {
            let m = some_m(random, LOWEST_T, &own);
            aim_at_m(random, shared, m)
        }
        1 => aim_at_m(random, shared, resistance_ratio(HIGHEST_T, &own)),
        2 => {
            let m = some_m(random, HIGHEST_T - 1, &own);
            aim_at_m(random, shared, m)
        }
        3 | 4 => {
            let t = random.between(-2, 1) as i128;
            let m = some_m(random, t, &own);
            aim_at_m(random, shared, m)
        }
        5 | 6 => {
            let t = random.between(-245_760, 245_760) as i128;
            aim_at_m(random, shared, resistance_ratio(t, &own))
        }
        7 | 8 => aim_above_the_equation(random, WideFraction::new(1, 32)).and_then(
            |(t, coefficients)| {
                own = coefficients;
                aim_below_f(random, shared, t, &own)
            },
        ),
        9 => Some(at_an_end_of_r0(random, shared, &own)),
        _ => None,
    };
    (own, sought.unwrap_or(shared.at_one()))
}

/// The record and the table of a seed.
pub fn equation_case(seed: u64) -> EquationCase {
    let mut random = Random::new(seed);
    let shared = Shared::some(&mut random);
    let mut table = TableValues::bench();
    let mut record = RecordValues::bench();
    // No thermometer differs from another by more than dT.
    table.temperature_difference = 491_520;
    table.least_good_kav = 1;
    table.least_good_wg = 1;
    table.pam_resistance = shared.pam_resistance as u32;
    record.pam = to_u16(shared.offset + shared.span);
    record.offset = to_u16(shared.offset);
    for index in 0..15 {
        let (own, sought) = aimed_thermometer(&mut random, &shared);
        record.thermometers[index] = to_u16(shared.offset + sought.above);
        table.thermometers[index] = ThermometerValues {
            weight: 1,
            resistance: sought.resistance as u32,
            alpha: own.alpha as u32,
            delta: own.delta as u32,
            beta: own.beta as u32,
        };
    }
    EquationCase { table, record }
}

/// Looks for coefficients with which F(t) is nearly 1 below 2^24 times the equation's ratio. Those with delta and beta
/// 0 are found most often, since floors of s1 and s2 raise F.
fn aim_far_below_the_equation(random: &mut Random, t: i128) -> Option<Coefficients> {
    let far = WideFraction::new(-995, 1_000);
    (0..400)
        .map(|_| {
            let own = some_coefficients(random);
            Coefficients {
                delta: random.pick(&[0, 0, own.delta]),
                beta: random.pick(&[0, own.beta]),
                ..own
            }
        })
        .find(|own| distance(resistance_ratio(t, own), equation_ratio(t, own)) < far)
}

/// Where F is compared with the equation: at corners of the coefficients with t at both ends and around 0; at both
/// ends, where a step of alpha moves the equation's ratio most, as far below it as can be; far above it; and anywhere.
pub fn places_of_f(seed: u64) -> Vec<(i128, Coefficients)> {
    let mut random = Random::new(seed);
    let mut places = Vec::new();
    for t in [LOWEST_T, -2, -1, 0, 1, 2, HIGHEST_T] {
        places.push((t, corner(&mut random)));
    }
    for t in [LOWEST_T, HIGHEST_T] {
        let found = aim_far_below_the_equation(&mut random, t);
        places.extend(found.map(|coefficients| (t, coefficients)));
    }
    places.extend(aim_above_the_equation(
        &mut random,
        WideFraction::new(1, 10),
    ));
    for _ in 0..8 {
        let t = random.between(-245_760, 245_760) as i128;
        places.push((t, some_coefficients(&mut random)));
    }
    places
}

#[cfg(test)]
mod tests {
    use super::*;
    use crate::second::table::open;
    use crate::second::thermometer::one_thermometer;

    #[test]
    fn the_tables_are_accepted_and_most_readings_answered() {
        let mut answered = 0;
        for seed in 0..40 {
            let case = equation_case(seed);
            assert!(open(&case.table.encode()).is_ok(), "seed {seed}");
            for index in 0..15 {
                let input = case.input(index);
                let answer = one_thermometer(&input.reading(), &input.coefficients());
                answered += usize::from(answer.is_ok());
            }
        }
        assert!(answered > 40 * 15 * 9 / 10, "{answered}");
    }
}
