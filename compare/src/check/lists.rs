//! Checks of lists of feeds: refusals in order, what stays unchanged, restart.

use std::collections::BTreeMap;

use super::counters::Counters;
use super::equations::check_accepted_brackets;
use super::outcomes::Outcome;
use super::products::check_product;
use super::rules::{scan_values, ScanValues};
use super::samples::{count_samples, side_of_zero};
use super::twins::checked_twin;
use crate::generator::lists::{feed_list, Feed, FeedList};
use crate::generator::random::case_seed;
use crate::generator::twins::alike_twin;
use crate::second::acceptance::accepted_samples;
use crate::second::calibrator::Calibrator;
use crate::second::product::{summary_of, LENGTH};
use crate::second::table::{Table, Target, CHANNELS, TARGETS};
use crate::second::window::window_records;

/// Which of 4 to 7 apply to a feed, each stated for itself where it can be.
pub(super) fn refusals(feed: &Feed, last: Option<u32>) -> Vec<u8> {
    let mut all = Vec::new();
    let record = &feed.record;
    if record.len() != 4_648 {
        all.push(4);
    } else {
        let heads = [
            (0, [1, 0, 4]),
            (7, [2, 0, 34]),
            (44, [3, 0, 176]),
            (223, [4, 0, 176]),
            (402, [5, 16, 128]),
            (4_629, [6, 0, 16]),
        ];
        if heads.iter().any(|(at, head)| record[*at..at + 3] != *head) {
            all.push(5);
        }
        let number = u32::from_be_bytes([record[3], record[4], record[5], record[6]]);
        if last.is_some_and(|last| number <= last) {
            all.push(6);
        }
    }
    if feed.buffer.len() < 8_706 {
        all.push(7);
    }
    all
}

fn count_feed(feed: &Feed, last: Option<u32>, all: &[u8], counters: &mut Counters) {
    let answer = match all.first() {
        None => "accepted".to_string(),
        Some(number) => number.to_string(),
    };
    counters.met("feed answer", &answer);
    if all.len() >= 2 {
        counters.met("two refusals", &format!("{} and {}", all[0], all[1]));
    }
    if let length @ (0 | 1 | 4_629 | 4_647 | 4_649) = feed.record.len() {
        counters.met("record length", &length.to_string());
    }
    match feed.buffer.len() {
        length @ (0 | 8_705 | 8_706 | 8_707) => counters.met("buffer", &length.to_string()),
        length if length > 8_707 => counters.met("buffer", "longer"),
        _ => {}
    }
    if all.contains(&4) || all.contains(&5) {
        return;
    }
    let record = &feed.record;
    let number = u32::from_be_bytes([record[3], record[4], record[5], record[6]]);
    match last {
        None if all.is_empty() => {
            let class = match number {
                0 => "0",
                u32::MAX => "4294967295",
                _ => "other",
            };
            counters.met("first number", class);
        }
        None => {}
        Some(last) if number > last => {
            let class = match number - last {
                ahead @ 1..=9 => ahead.to_string(),
                _ => "more".to_string(),
            };
            counters.met("number ahead", &class);
        }
        Some(last) => {
            let class = if number == last { "equal" } else { "lower" };
            counters.met("number behind", class);
        }
    }
}

/// T of each thermometer of a target that weighs in the window of a scan.
fn weighing_temperatures(
    table: &Table,
    accepted: &BTreeMap<u32, ScanValues>,
    current: u32,
    target: Target,
) -> Vec<i128> {
    let mut temperatures = Vec::new();
    for (number, scan) in accepted.range(current.saturating_sub(7)..=current) {
        let v = table.thermometer_weights[(current - number) as usize];
        for (thermometer, temperature) in &scan.thermometers {
            let index = thermometer - 1;
            if target.thermometers().contains(&index) && v * table.thermometers[index].weight > 0 {
                temperatures.push(*temperature);
            }
        }
    }
    temperatures
}

/// Counts on which side of 0 °C the thermometers lie that weigh in delivered scenes.
fn count_delivered_sides(
    table: &Table,
    accepted: &BTreeMap<u32, ScanValues>,
    current: u32,
    product: &[u8],
    counters: &mut Counters,
) {
    for target in TARGETS {
        let delivers = |channel: usize| {
            Target::of_channel(channel) == target && summary_of(product, channel).delivered > 0
        };
        if (0..CHANNELS).any(delivers) {
            let temperatures = weighing_temperatures(table, accepted, current, target);
            let side = side_of_zero(&temperatures).expect("a delivered scene has its thermometers");
            counters.met("thermometers behind delivered scenes", side);
        }
    }
}

/// Feeds a list and checks every feed.
pub fn checked_outcomes(list: &FeedList, counters: &mut Counters) -> Result<Vec<Outcome>, String> {
    let opened = Calibrator::of_files(&list.table, &list.bias);
    let mut calibrator = opened.expect("a list has an accepted table and bias file");
    let table = calibrator.table().clone();
    let mut accepted: BTreeMap<u32, ScanValues> = BTreeMap::new();
    let mut outcomes = Vec::new();
    for (index, feed) in list.feeds.iter().enumerate() {
        let about = |what: String| format!("feed {} of the list: {what}", index + 1);
        let last = accepted.keys().next_back().copied();
        let all = refusals(feed, last);
        count_feed(feed, last, &all, counters);
        let expected = all.first().copied().unwrap_or(0);

        let mut buffer = feed.buffer.clone();
        let records_before = calibrator.roll().len();
        let fed = calibrator.feed(&feed.record, &mut buffer);
        calibrator = fed.calibrator;
        let answer = fed.answer.err().unwrap_or(0);
        if answer != expected {
            return Err(about(format!("answer {answer}, expected {expected}")));
        }
        if answer != 0 {
            if buffer != feed.buffer {
                return Err(about(format!("refused with {answer}, buffer changed")));
            }
            let records_after = calibrator.roll().len();
            if records_after != records_before || records_after != accepted.len() {
                return Err(about(format!("refused with {answer}, roll changed")));
            }
        } else {
            if buffer.len() != feed.buffer.len() || buffer[LENGTH..] != feed.buffer[LENGTH..] {
                return Err(about("bytes after the product changed".to_string()));
            }
            let record = calibrator.roll().last().unwrap().clone();
            if record.bytes() != feed.record {
                return Err(about("another record joined the roll".to_string()));
            }
            let samples = accepted_samples(&table, &record);
            check_accepted_brackets(&table, &record, &samples.thermometers).map_err(about)?;
            count_samples(&table, &record, &samples, counters);
            accepted.insert(record.number(), scan_values(&samples));
            let product = &buffer[..LENGTH];
            check_product(&table, &list.bias, &record, product, &accepted, counters)
                .map_err(about)?;
            count_delivered_sides(&table, &accepted, record.number(), product, counters);
            // The restart feeds up to eight records again, so not after every feed.
            if index % 3 == 0 {
                if calibrator.product_after_restart() != product {
                    return Err(about("a restart gives another product".to_string()));
                }
                counters.met("restart", "products compared");
                if window_records(calibrator.roll()).len() < calibrator.roll().len() {
                    counters.met("restart", "fewer records than before");
                }
            }
        }
        outcomes.push(Outcome { answer, buffer });
    }
    Ok(outcomes)
}

/// Checks the list of a seed and its twin.
pub fn check_list(seed: u64, counters: &mut Counters) -> Result<(), String> {
    let list = feed_list(seed);
    let outcomes = checked_outcomes(&list, counters)?;
    let twin = alike_twin(&list, case_seed(seed, 1));
    checked_twin(&list, &outcomes, &twin, counters).map(drop)
}
