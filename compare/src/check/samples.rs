//! Counts at which edges the samples of accepted records stand.

use super::counters::Counters;
use super::equations::count_bracket;
use super::thermometers::Measured;
use crate::generator::ratios::Mistake;
use crate::second::acceptance::{
    good_counts, target_readings, thermometer_reading, AcceptedCount, AcceptedSamples,
    AcceptedThermometer,
};
use crate::second::record::ScanRecord;
use crate::second::table::{Limits, Side, Table, CHANNELS, SIDES, TARGETS};
use crate::second::thermometer::KELVIN_OF_ZERO_CELSIUS;

/// What a scan keeps of its accepted samples: of each warm side, then each cold, 0 where no count is
/// accepted, else one more than the scan value; of each thermometer T, 0 where it is not accepted.
pub fn kept(samples: &AcceptedSamples) -> Vec<u32> {
    let side = |counts: &Vec<AcceptedCount>| {
        let sum: u32 = counts.iter().map(|count| count.count as u32).sum();
        match counts.len() {
            0 => 0,
            n => 12 * sum / n as u32 + 1,
        }
    };
    let mut values: Vec<u32> = samples.warm.iter().map(side).collect();
    values.extend(samples.cold.iter().map(side));
    let mut kelvin = vec![0; 15];
    for thermometer in &samples.thermometers {
        kelvin[thermometer.number - 1] = thermometer.temperature as u32;
    }
    values.extend(kelvin);
    values
}

/// The accepted thermometers of what a scan keeps of them: of each T, 0 where it is not accepted.
pub fn accepted_of_kept(values: &[u32]) -> Vec<AcceptedThermometer> {
    let all = values
        .iter()
        .enumerate()
        .map(|(index, value)| AcceptedThermometer {
            number: index + 1,
            temperature: *value as i128,
        });
    all.filter(|one| one.temperature > 0).collect()
}

/// Counts which edges the samples of an accepted record stand at.
pub fn count_samples(
    table: &Table,
    record: &ScanRecord,
    samples: &AcceptedSamples,
    counters: &mut Counters,
) {
    for target in TARGETS {
        let readings = target_readings(table, record, target);
        let limits = &table.thermometer_limits;
        let passed: Vec<i128> = readings
            .iter()
            .flatten()
            .copied()
            .filter(|t| limits.low <= *t && *t <= limits.upp)
            .collect();
        let mut good = 0;
        for t in &passed {
            let differing = passed
                .iter()
                .filter(|other| (*other - t).abs() > limits.difference)
                .count();
            good += if differing < 2 { 1 } else { 0 };
            match differing {
                0 => {}
                1 => counters.met("target readings", "one rival differs"),
                2 => counters.met("target readings", "dropped by two rivals"),
                _ => counters.met("target readings", "dropped by more"),
            }
        }
        count_differences(&passed, limits, counters, "target readings");
        for reading in &readings {
            let mut met = |class: &str| counters.met("target readings", class);
            match reading {
                None => met("rule refuses"),
                Some(t) => {
                    if *t == limits.low {
                        met("at T_low");
                    }
                    if *t == limits.low - 1 {
                        met("below T_low by one");
                    }
                    if *t == limits.upp {
                        met("at T_upp");
                    }
                    if *t == limits.upp + 1 {
                        met("above T_upp by one");
                    }
                }
            }
        }
        if good == table.least_good(target) {
            counters.met("target readings", "least number met exactly");
        }
        if good == table.least_good(target) - 1 {
            counters.met("target readings", "least number missed by one");
        }
    }
    for thermometer in &samples.thermometers {
        if table.thermometers[thermometer.number - 1].weight == 0 {
            counters.met("target readings", "accepted without weight");
        }
        count_thermometer(table, record, thermometer, counters);
    }
    count_targets(&samples.thermometers, counters);
    for channel in 0..CHANNELS {
        let mut good = Vec::new();
        for side in SIDES {
            let limits = table.channels[channel].limits(side);
            let counts = record.side_counts(side, channel).map(|count| count as i128);
            let mut met = |class: &str| counters.met("counts", class);
            for count in counts {
                if count == limits.low {
                    met("at low");
                }
                if count == limits.low - 1 {
                    met("one below low");
                }
                if count == limits.upp {
                    met("at upp");
                }
                if count == limits.upp + 1 {
                    met("one above upp");
                }
            }
            let passed: Vec<i128> = counts
                .into_iter()
                .filter(|count| limits.low <= *count && *count <= limits.upp)
                .collect();
            count_differences(&passed, &limits, counters, "counts");
            let counts = good_counts(table, record, side, channel);
            let group = match side {
                Side::Warm => "good warm counts",
                Side::Cold => "good cold counts",
            };
            counters.met(group, &counts.len().to_string());
            good.push(counts);
        }
        if good[0].len() >= 3 && good[1].len() >= 3 {
            let lowest = good[0].iter().map(|one| one.count as i128).min().unwrap();
            let highest = good[1].iter().map(|one| one.count as i128).max().unwrap();
            let class = match lowest - highest {
                -1 => "overlap by 1",
                0 => "equal",
                1 => "1 apart",
                apart if apart < 0 => "overlap by more",
                _ => "farther apart",
            };
            counters.met("warm and cold", class);
        }
        let (warm, cold) = (&samples.warm[channel], &samples.cold[channel]);
        match (warm.is_empty(), cold.is_empty()) {
            (true, true) => counters.met("bad side", "both"),
            (true, false) => counters.met("bad side", "warm only"),
            (false, true) => counters.met("bad side", "cold only"),
            _ => {}
        }
        for side in [warm, cold] {
            if !side.is_empty() {
                let class = format!("{} counts", side.len());
                counters.met("scan value of", &class);
            }
        }
    }
}

/// On which side of 0 °C some thermometers lie, by T; none where there are none.
pub(super) fn side_of_zero(temperatures: &[i128]) -> Option<&'static str> {
    let is_below = |temperature: &i128| *temperature < KELVIN_OF_ZERO_CELSIUS;
    let below = temperatures.iter().filter(|one| is_below(one)).count();
    match below {
        _ if temperatures.is_empty() => None,
        0 => Some("at or above 0"),
        below if below == temperatures.len() => Some("below 0"),
        _ => Some("on both sides of 0"),
    }
}

/// Counts on which side of 0 °C the accepted thermometers of each target lie.
fn count_targets(accepted: &[AcceptedThermometer], counters: &mut Counters) {
    let sides = TARGETS.map(|target| {
        let of_target =
            |one: &&AcceptedThermometer| target.thermometers().contains(&(one.number - 1));
        let own = accepted.iter().filter(of_target);
        let temperatures: Vec<i128> = own.map(|one| one.temperature).collect();
        side_of_zero(&temperatures)
    });
    let mut met = |class: &str| counters.met("accepted thermometers", class);
    for side in sides.iter().flatten() {
        met(&format!("target {side}"));
    }
    match sides {
        [Some("below 0"), Some("below 0")] => met("KAV and WG below 0"),
        [Some("at or above 0"), Some("at or above 0")] => met("KAV and WG at or above 0"),
        [Some("below 0"), Some("at or above 0")] => met("KAV below 0, WG at or above"),
        [Some("at or above 0"), Some("below 0")] => met("WG below 0, KAV at or above"),
        _ => {}
    }
}

/// Counts t of an accepted thermometer around 0, its side of 0 °C at the ends of beta, the mistakes with
/// which its T would be another or it would be refused, and where its bracket by equation 19 stands.
fn count_thermometer(
    table: &Table,
    record: &ScanRecord,
    thermometer: &AcceptedThermometer,
    counters: &mut Counters,
) {
    let mut met = |class: &str| counters.met("accepted thermometers", class);
    let index = thermometer.number - 1;
    let coefficients = &table.thermometers[index].coefficients;
    let t = thermometer.temperature - KELVIN_OF_ZERO_CELSIUS;
    if (-1..=1).contains(&t) {
        met(&format!("t {t}"));
    }
    match (t < 0, coefficients.beta) {
        (true, 0) => met("below 0, beta 0"),
        (true, 500_000) => met("below 0, beta at its end"),
        (false, 0) => met("at or above 0, beta 0"),
        (false, 500_000) => met("at or above 0, beta at its end"),
        _ => {}
    }
    let reading = thermometer_reading(table, record, index);
    let measured = Measured::of(&reading, coefficients.resistance);
    if measured.shows(Mistake::TermAboveZero, coefficients, Some(t)) {
        met("another T by fourth-degree term above 0");
    }
    if measured.shows(Mistake::NoTerm, coefficients, Some(t)) {
        met("another T by no fourth-degree term");
    }
    let group = "accepted thermometer against the equation";
    count_bracket(group, t, &reading, coefficients, counters);
}

fn count_differences(passed: &[i128], limits: &Limits, counters: &mut Counters, group: &str) {
    let (at, beyond) = match group {
        "counts" => ("at difference", "one beyond difference"),
        _ => ("difference dT", "difference dT + 1"),
    };
    for (index, first) in passed.iter().enumerate() {
        for second in &passed[index + 1..] {
            let difference = (first - second).abs();
            if difference == limits.difference {
                counters.met(group, at);
            }
            if difference == limits.difference + 1 {
                counters.met(group, beyond);
            }
        }
    }
}
