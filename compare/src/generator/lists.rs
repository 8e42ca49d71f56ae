//! Lists of feeds under one accepted table and one accepted bias file.

use super::biases::BiasValues;
use super::counts::{channel_counts, plan_channel, ChannelPlan};
use super::random::Random;
use super::random_biases::random_bias;
use super::random_tables::random_table;
use super::records::{record_neighbours, RecordValues};
use super::scenes::earth_counts;
use super::shelves::aimed_shelves;
use super::tables::TableValues;
use super::thermometers::{plan_thermometers, thermometer_counts, ThermometerPlan};
use crate::second::calibrator::judge;
use crate::second::product::LENGTH;
use crate::second::record::ScanRecord;
use crate::second::table::{open, Table};
use crate::second::window::{channel_sums, window_since, Start};

/// One feed: any bytes as its record, and a buffer as it is before.
#[derive(Clone, Debug)]
pub struct Feed {
    pub record: Vec<u8>,
    pub buffer: Vec<u8>,
}

/// A list of feeds to a fresh calibrator under an accepted table and an accepted bias file.
#[derive(Clone, Debug)]
pub struct FeedList {
    pub table: Vec<u8>,
    pub bias: Vec<u8>,
    pub feeds: Vec<Feed>,
}

impl FeedList {
    /// The same list under the bias file of zeros.
    pub fn under_zeros(&self) -> FeedList {
        FeedList {
            bias: BiasValues::zeros().encode(),
            ..self.clone()
        }
    }
}

/// What stays the same over a list.
pub(super) struct Plan {
    pub(super) table: TableValues,
    pub(super) bias: BiasValues,
    thermometers: ThermometerPlan,
    channels: Vec<ChannelPlan>,
    /// One feed in this many has a wrong record, a wrong number or a short buffer, each.
    pub(super) trouble: usize,
}

/// Makes sure that the weight of age 0 alone is 1 in a hundred.
fn current_scan_suffices(weights: &mut [u8; 8]) {
    let whole: u32 = weights.iter().map(|weight| *weight as u32).sum();
    if 100 * (weights[0] as u32) < whole {
        *weights = [1, 0, 0, 0, 0, 2, 0, 1];
    }
}

pub(super) fn plan(random: &mut Random) -> Plan {
    let mut table = random_table(random);
    let thermometers = plan_thermometers(random, &mut table);
    // Mostly the current scan is enough, so that what comes after the weights decides.
    if !random.once_in(3) {
        current_scan_suffices(&mut table.thermometer_weights);
        table.thermometer_percentage = 1;
    }
    if !random.once_in(3) {
        current_scan_suffices(&mut table.count_weights);
        let whole: u32 = table
            .count_weights
            .iter()
            .map(|weight| *weight as u32)
            .sum();
        let current = (100 * table.count_weights[0] as u32 / whole) as u8;
        table.warm_percentage = random.pick(&[1, current]);
        table.cold_percentage = random.pick(&[1, current]);
    }
    let often_one_sided = random.once_in(6);
    if often_one_sided {
        // One warm and one cold side are enough.
        table.warm_percentage = random.pick(&[1, 10, 50]);
        table.cold_percentage = random.pick(&[1, 10, 50]);
        if random.once_in(2) {
            // With weights of 1, D can be 1.
            table.count_weights = random.pick(&[[1; 8], [1, 1, 0, 0, 0, 0, 0, 0]]);
        }
    }
    let mut channels = Vec::new();
    for channel in 0..22 {
        let one_sided = random.once_in(if often_one_sided { 1 } else { 10 });
        channels.push(plan_channel(random, &mut table, channel, one_sided));
    }
    Plan {
        table,
        bias: random_bias(random),
        thermometers,
        channels,
        trouble: random.pick(&[1_000, 12, 4]),
    }
}

pub(super) fn first_number(random: &mut Random) -> u32 {
    let any = random.next() as u32;
    let last_of_all = u32::MAX - random.below(30) as u32;
    if random.once_in(20) {
        return u32::MAX;
    }
    random.pick(&[0, 0, 1, 7, any, last_of_all])
}

pub(super) fn next_number(random: &mut Random, last: u32, trouble: usize) -> u32 {
    if random.once_in(trouble) {
        let lower = last.saturating_sub(random.between(1, 9) as u32);
        let higher = random.between(last as i64, u32::MAX as i64) as u32;
        // After a number near the end few or none are accepted.
        let near_end = random.pick(&[higher, u32::MAX - 8, u32::MAX]);
        let far = if random.once_in(6) { near_end } else { 0 };
        return random.pick(&[last, last, lower, lower, far]);
    }
    let ahead = match random.below(12) {
        0..=7 => 1,
        8..=10 => random.between(2, 9) as u32,
        _ => random.pick(&[1, 2, 7, 8, 100_000]),
    };
    last.saturating_add(ahead)
}

/// A buffer that a product fits into.
pub fn long_buffer(random: &mut Random) -> Vec<u8> {
    let any = LENGTH + random.below(200);
    let length = random.pick(&[LENGTH, LENGTH, LENGTH + 1, any]);
    random.bytes(length)
}

/// A buffer that no product fits into.
pub fn short_buffer(random: &mut Random) -> Vec<u8> {
    let any = random.below(LENGTH);
    let length = random.pick(&[0, LENGTH - 1, LENGTH - 1, any]);
    random.bytes(length)
}

pub fn random_buffer(random: &mut Random, trouble: usize) -> Vec<u8> {
    if random.once_in(trouble) {
        short_buffer(random)
    } else {
        long_buffer(random)
    }
}

/// What a record is planned behind.
pub(super) struct Behind<'a> {
    pub(super) table: &'a Table,
    pub(super) start: Start,
    pub(super) roll: Vec<ScanRecord>,
}

impl Behind<'_> {
    /// A fresh calibrator.
    pub(super) fn nothing(table: &Table) -> Behind<'_> {
        Behind {
            table,
            start: Start::default(),
            roll: Vec::new(),
        }
    }
}

/// A well-formed record with its calibration samples by the plan, shelf temperatures that aim at the table's
/// pairs, and earth counts that aim at the edges of the window it would have behind this.
fn planned_record(random: &mut Random, plan: &Plan, behind: &Behind, number: u32) -> RecordValues {
    let mut record = RecordValues::bench();
    record.number = number;
    let thermometers = thermometer_counts(random, &plan.thermometers, &plan.table);
    record.pam = thermometers.pam;
    record.offset = thermometers.offset;
    record.thermometers = thermometers.counts;
    for channel in 0..22 {
        let counts = channel_counts(random, &plan.channels[channel], &plan.table, channel);
        (record.warm[channel], record.cold[channel]) = counts;
    }
    record.shelves = aimed_shelves(random, &plan.table.channels);
    let own = ScanRecord::read(&record.encode()).expect("the encoder's layout is right");
    let roll = [&behind.roll[..], &[own]].concat();
    let window = window_since(behind.table, &behind.start, &roll);
    for channel in 0..22 {
        let sums = channel_sums(behind.table, &window, channel);
        record.earth[channel] = earth_counts(random, &sums);
    }
    record
}

/// Mostly a record with a wrong length, or with a byte of a tag or length wrong by one.
fn wrong_record(random: &mut Random, record: &RecordValues) -> Vec<u8> {
    if random.once_in(4) {
        let mut bytes = record.encode();
        bytes.resize(random.pick(&[0, 1, 4_629, 4_647, 4_649]), 0);
        return bytes;
    }
    random.pick(&record_neighbours(record)).bytes
}

/// A record by the plan; one in `trouble` is wrong.
pub(super) fn planned_bytes(
    random: &mut Random,
    plan: &Plan,
    behind: &Behind,
    number: u32,
) -> Vec<u8> {
    let record = planned_record(random, plan, behind, number);
    if random.once_in(plan.trouble) {
        return wrong_record(random, &record);
    }
    record.encode()
}

/// Adds an accepted record to the roll, and says whether it is one. Only the last eight matter to what
/// is planned next.
pub(super) fn join(roll: &mut Vec<ScanRecord>, record: &[u8], buffer_length: usize) -> bool {
    let Ok(joined) = judge(roll, record, buffer_length) else {
        return false;
    };
    roll.push(joined);
    if roll.len() > 8 {
        roll.remove(0);
    }
    true
}

/// A list of some dozens of feeds.
pub fn feed_list(seed: u64) -> FeedList {
    let mut random = Random::new(seed);
    let plan = plan(&mut random);
    let table_bytes = plan.table.encode();
    let table = open(&table_bytes).expect("a planned table is accepted");
    let mut behind = Behind::nothing(&table);
    let mut feeds = Vec::new();
    for _ in 0..random.between(3, 30) {
        let number = match behind.roll.last() {
            None => first_number(&mut random),
            Some(last) => next_number(&mut random, last.number(), plan.trouble),
        };
        let record = planned_bytes(&mut random, &plan, &behind, number);
        let buffer = random_buffer(&mut random, plan.trouble);
        join(&mut behind.roll, &record, buffer.len());
        feeds.push(Feed { record, buffer });
    }
    FeedList {
        table: table_bytes,
        bias: plan.bias.encode(),
        feeds,
    }
}
