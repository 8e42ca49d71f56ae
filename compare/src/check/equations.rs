//! Checks of thermometers against equations 18 and 19 themselves (request W7). The equations are stated a second time,
//! multiplied out, as they are and with a mistake.

use std::cmp::Ordering;

use super::counters::Counters;
use super::samples::{accepted_of_kept, count_samples, kept};
use super::states::{checked_state_feed, StateOutcome};
use super::thermometers::checked_thermometer;
use crate::generator::equations::{equation_case, places_of_f, EquationCase};
use crate::generator::random::case_seed;
use crate::generator::states::StateFeed;
use crate::second::acceptance::{accepted_samples, thermometer_reading, AcceptedThermometer};
use crate::second::equation::{distance, equation_ratio, f_is_near, is_bracketed, is_near};
use crate::second::record::ScanRecord;
use crate::second::table::{open, Table};
use crate::second::thermometer::{resistance_ratio, Coefficients, Reading, KELVIN_OF_ZERO_CELSIUS};
use crate::second::wide::WideFraction;

/// One place in which an equation is wrong.
#[derive(Clone, Copy, Debug, PartialEq, Eq)]
pub enum EquationMistake {
    /// beta counts at and above 0 °C too.
    BetaAboveZero,
    /// beta does not count below 0 °C either.
    NoBeta,
    BetaSign,
    DeltaSign,
    /// T/100 + 1 for T/100 - 1.
    PlusOne,
    /// (T/100)² for (T/100)³.
    Square,
    /// alpha is this many 10^-9 more.
    Alpha(i128),
    PamAndCount,
    Resistances,
    /// The offset is not taken from PAM and count.
    NoOffset,
}

/// The mistakes that a bracket may tell, by the class that counts them.
///
/// A step of alpha moves 2^24 times the ratio by 1.05 or less, and a bracket has 11 to spare on each side: F(t) is at
/// most M and lies less than 1 below the equation, M is below F(t + 1), which lies less than 1 above it, and F rises by
/// 12 or more. So one step of alpha is not told here, but beside F.
pub const BRACKET_MISTAKES: [(&str, EquationMistake); 11] = [
    ("beta above 0 too", EquationMistake::BetaAboveZero),
    ("no beta below 0", EquationMistake::NoBeta),
    ("beta with the other sign", EquationMistake::BetaSign),
    ("delta with the other sign", EquationMistake::DeltaSign),
    ("T/100 + 1", EquationMistake::PlusOne),
    ("T/100 squared", EquationMistake::Square),
    ("alpha 20 more", EquationMistake::Alpha(20)),
    ("alpha 20 less", EquationMistake::Alpha(-20)),
    ("PAM and count exchanged", EquationMistake::PamAndCount),
    ("R_PAM and R0 exchanged", EquationMistake::Resistances),
    ("offset left in", EquationMistake::NoOffset),
];

/// The mistakes that F may tell: those of equation 19.
pub const MISTAKES_BESIDE_F: [(&str, EquationMistake); 8] = [
    ("beta above 0 too", EquationMistake::BetaAboveZero),
    ("no beta below 0", EquationMistake::NoBeta),
    ("beta with the other sign", EquationMistake::BetaSign),
    ("delta with the other sign", EquationMistake::DeltaSign),
    ("T/100 + 1", EquationMistake::PlusOne),
    ("T/100 squared", EquationMistake::Square),
    ("alpha 1 more", EquationMistake::Alpha(1)),
    ("alpha 1 less", EquationMistake::Alpha(-1)),
];

/// T / 100 is t over this.
const HUNDRED: i128 = 409_600;

/// What equation 19 has below it when it is multiplied out: that of alpha, of delta or beta, and of the fourth power of
/// T / 100. It is below 2^125.
const DENOMINATOR: i128 = 1_000_000_000 * 1_000_000 * HUNDRED * HUNDRED * HUNDRED * HUNDRED;

/// Equation 19's ratio at t times this denominator, as it is or with a mistake. T is 100 t / 409,600.
fn numerator(t: i128, coefficients: &Coefficients, mistake: Option<EquationMistake>) -> i128 {
    let Coefficients {
        mut alpha,
        mut delta,
        mut beta,
        ..
    } = *coefficients;
    let mut counts = t < 0;
    let mut less = t - HUNDRED;
    let mut cube = t * t * t;
    match mistake {
        Some(EquationMistake::BetaAboveZero) => counts = true,
        Some(EquationMistake::NoBeta) => counts = false,
        Some(EquationMistake::BetaSign) => beta = -beta,
        Some(EquationMistake::DeltaSign) => delta = -delta,
        Some(EquationMistake::PlusOne) => less = t + HUNDRED,
        Some(EquationMistake::Square) => cube = t * t * HUNDRED,
        Some(EquationMistake::Alpha(more)) => alpha += more,
        _ => {}
    }
    if !counts {
        beta = 0;
    }
    let first = 100 * 1_000_000 * t * HUNDRED * HUNDRED * HUNDRED;
    let second = delta * less * t * HUNDRED * HUNDRED;
    let fourth = beta * less * cube;
    DENOMINATOR + alpha * (first - second - fourth)
}

/// Equation 18 over R0, as it is or with a mistake: what stands above and below.
fn measured(reading: &Reading, resistance: i128, mistake: Option<EquationMistake>) -> (i128, i128) {
    let offset = match mistake {
        Some(EquationMistake::NoOffset) => 0,
        _ => reading.offset,
    };
    let (count, pam) = (reading.count - offset, reading.pam - offset);
    match mistake {
        Some(EquationMistake::PamAndCount) => (reading.pam_resistance * pam, count * resistance),
        Some(EquationMistake::Resistances) => (resistance * count, pam * reading.pam_resistance),
        _ => (reading.pam_resistance * count, pam * resistance),
    }
}

/// Compares a / b with c / d, b and d above 0, which may not be multiplied out in i128: first the whole numbers, then
/// what is left, upside down.
fn compared((a, b): (i128, i128), (c, d): (i128, i128)) -> Ordering {
    let wholes = a.div_euclid(b).cmp(&c.div_euclid(d));
    match (wholes, a.rem_euclid(b), c.rem_euclid(d)) {
        (Ordering::Equal, 0, 0) => Ordering::Equal,
        (Ordering::Equal, 0, _) => Ordering::Less,
        (Ordering::Equal, _, 0) => Ordering::Greater,
        (Ordering::Equal, left, other) => compared((d, other), (b, left)),
        (wholes, _, _) => wholes,
    }
}

/// How the equation's ratio at t compares with the measured one. A count above offset is needed with PAM and count
/// exchanged.
fn against_measured(
    t: i128,
    reading: &Reading,
    coefficients: &Coefficients,
    mistake: Option<EquationMistake>,
) -> Ordering {
    compared(
        (numerator(t, coefficients, mistake), DENOMINATOR),
        measured(reading, coefficients.resistance, mistake),
    )
}

/// Whether t is bracketed by the equations as they are or with a mistake.
pub fn brackets(
    t: i128,
    reading: &Reading,
    coefficients: &Coefficients,
    mistake: Option<EquationMistake>,
) -> bool {
    let at = |t: i128| against_measured(t, reading, coefficients, mistake);
    at(t - 1) == Ordering::Less && at(t + 2) == Ordering::Greater
}

/// The equation's ratio at t, multiplied out.
fn ratio(t: i128, coefficients: &Coefficients, mistake: Option<EquationMistake>) -> WideFraction {
    WideFraction::new(numerator(t, coefficients, mistake), DENOMINATOR)
}

/// The bracket of an answered t, by the equations as they stand and multiplied out.
pub fn check_bracket(
    t: i128,
    reading: &Reading,
    coefficients: &Coefficients,
) -> Result<(), String> {
    if reading.pam <= reading.offset {
        return Err(format!("{reading:?}: {t} without a measured ratio"));
    }
    let as_it_stands = is_bracketed(t, reading, coefficients);
    let multiplied_out = brackets(t, reading, coefficients, None);
    if as_it_stands && multiplied_out {
        return Ok(());
    }
    Err(format!(
        "{reading:?} {coefficients:?}: {t} is not bracketed by equation 19: {as_it_stands} {multiplied_out}"
    ))
}

/// The bracket of T of each of these accepted thermometers, by the record's own counts.
pub fn check_accepted_brackets(
    table: &Table,
    record: &ScanRecord,
    accepted: &[AcceptedThermometer],
) -> Result<(), String> {
    for thermometer in accepted {
        let index = thermometer.number - 1;
        let reading = thermometer_reading(table, record, index);
        let t = thermometer.temperature - KELVIN_OF_ZERO_CELSIUS;
        check_bracket(t, &reading, &table.thermometers[index].coefficients)
            .map_err(|what| format!("thermometer {}: {what}", thermometer.number))?;
    }
    Ok(())
}

/// Counts where a bracketed t and its measured ratio stand.
pub fn count_bracket(
    group: &str,
    t: i128,
    reading: &Reading,
    coefficients: &Coefficients,
    counters: &mut Counters,
) {
    let mut met = |class: &str| counters.met(group, class);
    if let -245_760 | -2..=1 | 245_759 | 245_760 = t {
        met(&format!("t {t}"));
    }
    let at = |t: i128| against_measured(t, reading, coefficients, None);
    match at(t) {
        Ordering::Less => {}
        Ordering::Equal => met("ratio at t equal to the measured ratio"),
        Ordering::Greater => met("ratio at t above the measured ratio"),
    }
    if at(t + 1) != Ordering::Greater {
        met("ratio at t + 1 not above the measured ratio");
    }
    let side = if t < 0 { "below 0" } else { "at or above 0" };
    if let 0 | 500_000 = coefficients.beta {
        met(&format!("{side}, beta {}", coefficients.beta));
        if t == -245_760 {
            met(&format!("t {t}, beta {}", coefficients.beta));
        }
    }
    if let 0 | 2_000_000 = coefficients.delta {
        met(&format!("delta {}", coefficients.delta));
    }
    if let 3_000_000 | 5_000_000 = coefficients.alpha {
        met(&format!("alpha {}", coefficients.alpha));
    }
    if let 1_000 | 4_000_000 = reading.pam_resistance {
        met(&format!("R_PAM {}", reading.pam_resistance));
    }
    if let 1_000 | 4_000_000 = coefficients.resistance {
        met(&format!("R0 {}", coefficients.resistance));
    }
    if reading.offset > 0 {
        met("offset above 0");
    }
}

/// Counts the mistakes that break the bracket of t.
fn count_broken(t: i128, reading: &Reading, coefficients: &Coefficients, counters: &mut Counters) {
    for (class, mistake) in BRACKET_MISTAKES {
        if !brackets(t, reading, coefficients, Some(mistake)) {
            counters.met("bracket broken by", class);
        }
    }
}

/// F(t) is within 2 of 2^24 times the equation's ratio, as it stands and multiplied out.
pub fn check_f(
    t: i128,
    coefficients: &Coefficients,
    counters: &mut Counters,
) -> Result<(), String> {
    let f = resistance_ratio(t, coefficients);
    let multiplied_out = ratio(t, coefficients, None);
    if multiplied_out != equation_ratio(t, coefficients) {
        return Err(format!("{coefficients:?}: two ratios at {t}"));
    }
    if !f_is_near(t, coefficients) || !is_near(f, multiplied_out) {
        return Err(format!("{coefficients:?}: F({t}) is not near the equation"));
    }
    count_f(t, coefficients, distance(f, multiplied_out), counters);
    for (class, mistake) in MISTAKES_BESIDE_F {
        if !is_near(f, ratio(t, coefficients, Some(mistake))) {
            counters.met("F beyond 2 by", class);
        }
    }
    Ok(())
}

/// Counts where F is compared, and how far it lies from the equation.
fn count_f(t: i128, coefficients: &Coefficients, far: WideFraction, counters: &mut Counters) {
    let mut met = |class: &str| counters.met("F against the equation", class);
    if let -245_760 | -2..=2 | 245_760 = t {
        met(&format!("t {t}"));
    }
    met(match far.cmp(&WideFraction::whole(0)) {
        Ordering::Less => "below it",
        Ordering::Equal => "at it",
        Ordering::Greater => "above it",
    });
    if far < WideFraction::new(-9, 10) {
        met("below it by more than 9/10");
    }
    if far > WideFraction::new(1, 10) {
        met("above it by more than 1/10");
    }
    let Coefficients {
        alpha, delta, beta, ..
    } = coefficients;
    if let (3_000_000 | 5_000_000, 0 | 2_000_000, 0 | 500_000) = (alpha, delta, beta) {
        let class = format!("alpha {alpha}, delta {delta}, beta {beta}");
        counters.met("F at a corner of the coefficients", &class);
    }
}

/// What was checked of the thermometers of a record.
pub struct CheckedEquation {
    pub case: EquationCase,
    /// t or the number of the refusal, of each thermometer in order.
    pub answers: Vec<Result<i128, u8>>,
    /// The record as the first feed to a fresh state, and what it left.
    pub feed: StateFeed,
    pub after: StateOutcome,
}

/// The thermometers of the record of a seed, each by itself and in a feed, and F.
pub fn checked_equation(seed: u64, counters: &mut Counters) -> Result<CheckedEquation, String> {
    let case = equation_case(seed);
    let mut answers = Vec::new();
    for index in 0..15 {
        let input = case.input(index);
        let answer = checked_thermometer(&input, counters)?;
        if let Ok(t) = answer {
            count_broken(t, &input.reading(), &input.coefficients(), counters);
        }
        answers.push(answer);
    }
    let feed = case.feed();
    let after = checked_state_feed(&feed, counters)?;
    let table = open(&case.table.encode()).expect("the table is accepted");
    let record = ScanRecord::read(&feed.record).expect("the record is accepted");
    let samples = accepted_samples(&table, &record);
    count_samples(&table, &record, &samples, counters);
    let answered = answers
        .iter()
        .map(|t| t.map_or(0, |t| t + KELVIN_OF_ZERO_CELSIUS));
    let kept = kept(&samples);
    let accepted = kept[44..].iter().map(|t| *t as i128);
    if !answered.eq(accepted) {
        return Err(format!(
            "{answers:?} answered, {:?} accepted",
            samples.thermometers
        ));
    }
    for (t, coefficients) in places_of_f(case_seed(seed, 1)) {
        check_f(t, &coefficients, counters)?;
    }
    Ok(CheckedEquation {
        case,
        answers,
        feed,
        after,
    })
}

pub fn check_equation(seed: u64, counters: &mut Counters) -> Result<(), String> {
    checked_equation(seed, counters).map(drop)
}

/// T of each accepted thermometer of the last scan in a state: field 0x35 at age 0.
pub fn accepted_of_state(state: &[u8]) -> Vec<AcceptedThermometer> {
    let four = |at: usize| u32::from_be_bytes(state[at..at + 4].try_into().expect("four bytes"));
    let values: Vec<u32> = (0..15).map(|index| four(2_843 + 4 * index)).collect();
    accepted_of_kept(&values)
}

#[cfg(test)]
mod tests {
    use super::*;
    use crate::generator::random::Random;
    use crate::second::thermometer::one_thermometer;

    const BENCH: Coefficients = Coefficients {
        resistance: 2_000_000,
        alpha: 3_850_000,
        delta: 1_500_000,
        beta: 500_000,
    };

    #[test]
    fn the_equation_multiplied_out_is_the_one_that_stands() {
        for seed in 0..20 {
            for (t, coefficients) in places_of_f(seed) {
                for t in [t - 1, t, t + 1, t + 2] {
                    let as_it_stands = equation_ratio(t, &coefficients);
                    assert_eq!(ratio(t, &coefficients, None), as_it_stands, "{t}");
                }
            }
        }
    }

    #[test]
    fn fractions_are_compared_as_by_multiplying_out() {
        let mut random = Random::new(3);
        let mut some = |low: i64| {
            let any = random.between(low, 1 << 61);
            random.pick(&[low, low + 1, 1, 2, 3, any]) as i128
        };
        for _ in 0..2_000 {
            let (a, b, c, d) = (some(-9), some(1), some(-9), some(1));
            assert_eq!(compared((a, b), (c, d)), (a * d).cmp(&(c * b)));
            assert_eq!(compared((a, b), (3 * a, 3 * b)), Ordering::Equal);
        }
    }

    #[test]
    fn every_class_against_the_equation_is_met_by_its_records() {
        let mut counters = Counters::new();
        for seed in 0..60 {
            check_equation(seed, &mut counters).unwrap();
        }
        let groups = [
            "thermometer against the equation: ",
            "accepted thermometer against the equation: ",
            "bracket broken by: ",
            "F against the equation: ",
            "F at a corner of the coefficients: ",
            "F beyond 2 by: ",
        ];
        let is_own = |class: &String| groups.iter().any(|group| class.starts_with(group));
        let missing: Vec<String> = counters.missing().into_iter().filter(is_own).collect();
        assert_eq!(missing, [""; 0]);
    }

    #[test]
    fn a_bracket_does_not_tell_one_step_of_alpha() {
        for seed in 0..20 {
            let case = equation_case(seed);
            for index in 0..15 {
                let input = case.input(index);
                let (reading, coefficients) = (input.reading(), input.coefficients());
                if let Ok(t) = one_thermometer(&reading, &coefficients) {
                    for mistake in [-1, 1].map(EquationMistake::Alpha) {
                        assert!(brackets(t, &reading, &coefficients, Some(mistake)));
                    }
                }
            }
        }
    }

    #[test]
    fn each_mistake_is_a_mistake_at_one_t_at_least() {
        for (class, mistake) in MISTAKES_BESIDE_F {
            let differs = |t: i128| ratio(t, &BENCH, Some(mistake)) != ratio(t, &BENCH, None);
            assert!(differs(-200_000) || differs(200_000), "{class}");
        }
        // At 0 °C only alpha's factor is left, and it is 0.
        for (class, mistake) in MISTAKES_BESIDE_F {
            assert_eq!(
                ratio(0, &BENCH, Some(mistake)),
                ratio(0, &BENCH, None),
                "{class}"
            );
        }
    }

    #[test]
    fn an_accepted_t_moved_by_3_is_not_bracketed() {
        let case = equation_case(1);
        let table = open(&case.table.encode()).unwrap();
        let record = ScanRecord::read(&case.record.encode()).unwrap();
        let right = accepted_samples(&table, &record).thermometers;
        assert!(check_accepted_brackets(&table, &record, &right).is_ok());
        for place in 0..right.len() {
            for moved in [-3, 3] {
                let mut wrong = right.clone();
                wrong[place].temperature += moved;
                let bracketed = check_accepted_brackets(&table, &record, &wrong);
                assert!(bracketed.is_err(), "{:?} by {moved}", right[place]);
            }
        }
    }

    #[test]
    fn thermometers_of_another_record_are_not_bracketed() {
        let cases = [equation_case(1), equation_case(2)];
        let [one, other] = cases.map(|case| {
            let record = ScanRecord::read(&case.record.encode()).unwrap();
            (open(&case.table.encode()).unwrap(), record)
        });
        let accepted = accepted_samples(&one.0, &one.1).thermometers;
        assert!(check_accepted_brackets(&one.0, &other.1, &accepted).is_err());
    }
}
