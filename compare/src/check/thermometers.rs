//! Checks of the operation One thermometer: the refusals stated again, t by F(t) and F(t + 1), stated again too, and
//! its bracket by equation 19.

use super::counters::Counters;
use super::equations::{check_bracket, count_bracket};
use crate::generator::ratios::{ratio, Mistake};
use crate::generator::thermometers::{thermometer_input, ThermometerInput};
use crate::second::thermometer::{
    one_thermometer, Coefficients, Reading, BETA_RANGE, HIGHEST_T, LOWEST_T,
};

pub fn check_thermometer(seed: u64, counters: &mut Counters) -> Result<(), String> {
    checked_thermometer(&thermometer_input(seed), counters).map(drop)
}

/// M of a reading with PAM above offset, as a fraction: M is below F where
/// R_PAM × (count - offset) × 2^24 is below F × (PAM - offset) × R0.
pub(super) struct Measured {
    dividend: i128,
    divisor: i128,
}

impl Measured {
    pub(super) fn of(reading: &Reading, resistance: i128) -> Measured {
        Measured {
            dividend: reading.pam_resistance * (reading.count - reading.offset) * (1 << 24),
            divisor: (reading.pam - reading.offset) * resistance,
        }
    }

    fn is_below(&self, f: i128) -> bool {
        self.dividend < f * self.divisor
    }

    fn is_above(&self, f: i128) -> bool {
        self.dividend >= (f + 1) * self.divisor
    }

    fn is_at(&self, f: i128) -> bool {
        !self.is_below(f) && !self.is_above(f)
    }

    /// Whether M lies beyond an end of an F that rises.
    fn is_refused(&self, f: impl Fn(i128) -> i128) -> bool {
        self.is_below(f(LOWEST_T)) || self.is_above(f(HIGHEST_T))
    }

    /// Whether t is the greatest with F(t) at most M, for an F that rises.
    fn has_greatest(&self, t: i128, f: impl Fn(i128) -> i128) -> bool {
        let greatest = t == HIGHEST_T || self.is_below(f(t + 1));
        (LOWEST_T..=HIGHEST_T).contains(&t) && !self.is_below(f(t)) && greatest
    }

    /// Whether a rule with this mistake answers otherwise than t or, where there is none, 10.
    pub(super) fn shows(
        &self,
        mistake: Mistake,
        coefficients: &Coefficients,
        answer: Option<i128>,
    ) -> bool {
        let f = |t: i128| ratio(t, coefficients, Some(mistake));
        match answer {
            Some(t) => self.is_refused(f) || !self.has_greatest(t, f),
            None => !self.is_refused(f),
        }
    }
}

/// The answer to one input: t, or the number of the refusal.
pub fn checked_thermometer(
    input: &ThermometerInput,
    counters: &mut Counters,
) -> Result<Result<i128, u8>, String> {
    let coefficients = input.coefficients();
    let answer = one_thermometer(&input.reading(), &coefficients);
    let f = |t: i128| ratio(t, &coefficients, None);

    let refused_8 = !(1_000..=4_000_000).contains(&input.pam_resistance)
        || !(1_000..=4_000_000).contains(&input.resistance)
        || !(3_000_000..=5_000_000).contains(&input.alpha)
        || input.delta > 2_000_000
        || input.beta > 500_000;
    let refused_9 = input.pam <= input.offset;
    let below_offset = input.count < input.offset;
    let measured = Measured::of(&input.reading(), coefficients.resistance);

    let expected_refusal = if refused_8 {
        Some(8)
    } else if refused_9 {
        Some(9)
    } else if below_offset || measured.is_refused(f) {
        Some(10)
    } else {
        None
    };
    match (answer, expected_refusal) {
        (Err(number), Some(expected)) if number == expected => {
            counters.met("thermometer answer", &number.to_string());
        }
        (Ok(t), None) => {
            if !measured.has_greatest(t, f) {
                return Err(format!("{input:?}: {t} is not the greatest t"));
            }
            check_bracket(t, &input.reading(), &coefficients)?;
            let group = "thermometer against the equation";
            count_bracket(group, t, &input.reading(), &coefficients, counters);
            counters.met("thermometer answer", "t");
            if measured.is_at(f(t)) {
                counters.met("thermometer edge", "M at F(t)");
            }
            if measured.is_at(f(t + 1) - 1) {
                counters.met("thermometer edge", "M one below F(t + 1)");
            }
        }
        (answer, expected) => {
            let about = format!("{answer:?}, expected refusal {expected:?}");
            return Err(format!("{input:?}: {about}"));
        }
    }

    let mut met = |class: &str| counters.met("thermometer edge", class);
    if !refused_8 && !refused_9 {
        if input.count == input.offset {
            met("count at offset");
        }
        if below_offset {
            met("count below offset");
        }
    }
    if !refused_8 && refused_9 {
        let equal = input.pam == input.offset;
        met(if equal {
            "PAM at offset"
        } else {
            "PAM below offset"
        });
    }
    if refused_8 && refused_9 {
        met("8 and 9");
    }
    if !refused_8 && refused_9 && below_offset {
        met("9 and 10");
    }
    if !refused_8 && !refused_9 && !below_offset {
        count_ends(&measured, &coefficients, counters);
        count_around_zero(&measured, &coefficients, counters);
        count_mistakes(&measured, &coefficients, answer.ok(), counters);
    }
    Ok(answer)
}

/// Counts M at an end of F or one beyond it.
fn count_ends(measured: &Measured, coefficients: &Coefficients, counters: &mut Counters) {
    let f = |t: i128| ratio(t, coefficients, None);
    let mut met = |class: &str| counters.met("thermometer edge", class);
    let greatest_beta = coefficients.beta == BETA_RANGE.1;
    if measured.is_at(f(LOWEST_T)) {
        met("M at lower end");
        if greatest_beta {
            met("M at lower end, beta at its end");
        }
    }
    if measured.is_at(f(LOWEST_T) - 1) {
        met("M below lower end");
        if greatest_beta {
            met("M below lower end, beta at its end");
        }
    }
    if measured.is_at(f(HIGHEST_T)) {
        met("M at upper end");
        if greatest_beta {
            met("M at upper end, beta at its end");
        }
    }
    if measured.is_at(f(HIGHEST_T) + 1) {
        met("M above upper end");
        if greatest_beta {
            met("M above upper end, beta at its end");
        }
    }
}

/// Counts M from F(-1) to F(1), and t from -1 to 1 by beta.
fn count_around_zero(measured: &Measured, coefficients: &Coefficients, counters: &mut Counters) {
    let f = |t: i128| ratio(t, coefficients, None);
    for t in [-1, 0, 1] {
        if measured.is_at(f(t)) {
            counters.met("M near F(0)", &format!("at F({t})"));
        }
        if measured.has_greatest(t, f) {
            let beta = match coefficients.beta {
                0 => "beta 0",
                500_000 => "beta at its end",
                _ => "beta between",
            };
            counters.met("t near 0", &format!("{t}, {beta}"));
        }
    }
    for t in [0, 1] {
        if measured.is_at(f(t) - 1) {
            counters.met("M near F(0)", &format!("one below F({t})"));
        }
        if measured.is_above(f(t - 1)) && measured.is_below(f(t)) {
            counters.met("M near F(0)", &format!("between F({}) and F({t})", t - 1));
        }
    }
}

/// Counts the mistakes with which the answer to M would be another.
fn count_mistakes(
    measured: &Measured,
    coefficients: &Coefficients,
    answer: Option<i128>,
    counters: &mut Counters,
) {
    let shows = |mistake: Mistake| measured.shows(mistake, coefficients, answer);
    let mut met = |class: &str| counters.met("another answer by", class);
    if shows(Mistake::CutOfS1) {
        met("cut of s1");
    }
    if shows(Mistake::CutOfF) {
        met("cut of F");
    }
    if shows(Mistake::TermAboveZero) {
        met("fourth-degree term above 0");
        match answer {
            None => met("fourth-degree term above 0, t for 10"),
            // Below 100 w is 0.
            Some(100) => met("fourth-degree term above 0, at 100"),
            Some(t) if t < 4_096 => met("fourth-degree term above 0, below 1 °C"),
            _ => {}
        }
    }
    if shows(Mistake::NoTerm) {
        met("no fourth-degree term");
        match answer {
            // From -5,059 on s2 is 0 for every beta.
            Some(-5_060) => met("no fourth-degree term, at -5060"),
            Some(t) if t > -8_192 => met("no fourth-degree term, above -2 °C"),
            _ => {}
        }
        if measured.is_refused(|t| ratio(t, coefficients, Some(Mistake::NoTerm))) {
            met("no fourth-degree term, 10 for t");
        }
    }
}
