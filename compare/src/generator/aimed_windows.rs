//! Lists whose last feed has given six numbers in every channel, and else is at random.

use super::biases::BiasValues;
use super::lists::{long_buffer, short_buffer, Feed, FeedList};
use super::random::Random;
use super::random_tables::random_weights;
use super::records::RecordValues;
use super::shelves::{any_shelf, pairs_through};
use super::six_numbers::SixNumbers;
use super::tables::{TableValues, ThermometerValues};
use super::thermometers::count_near;
use super::weighted_sides::{ages_in, side_counts, weight_at, Ages};
use crate::second::record::ScanRecord;
use crate::second::rounding::r;
use crate::second::table::{open, Shelf, Table, Target, CHANNELS, TARGETS};
use crate::second::thermometer::{HIGHEST_T, KELVIN_OF_ZERO_CELSIUS, LOWEST_T};
use crate::second::window::{channel_sums, flag, window, WindowScan};

/// Ones, small weights, or weights of which every sum from 1 to 255 can be had.
pub(super) fn count_weights(random: &mut Random) -> [u8; 8] {
    let mut weights = match random.below(3) {
        0 => [1; 8],
        1 => std::array::from_fn(|_| random.between(0, 4) as u8),
        _ => [1, 2, 4, 8, 16, 32, 64, 128],
    };
    random.shuffle(&mut weights);
    weights
}

/// The ages whose numbers are there: the current scan, and all others or most of them.
pub(super) fn ages_there(random: &mut Random) -> Ages {
    let missing = random.next() & random.next() & 0xfe;
    random.pick(&[0xff, !(missing as u8)])
}

/// The ages at which the warm and the cold side of a channel are good.
#[derive(Clone, Copy, Debug, PartialEq, Eq)]
pub(super) struct GoodAges {
    pub(super) warm: Ages,
    pub(super) cold: Ages,
}

/// All good ages by which a channel can have these numbers and, of either side, at least a hundredth of
/// all weights.
fn good_ages(weights: &[u8; 8], there: Ages, six: &SixNumbers) -> Vec<GoodAges> {
    let sums: Vec<i128> = (0..=255).map(|ages| weight_at(weights, ages)).collect();
    let suffices = |w: i128| w > 0 && 100 * w >= sums[255];
    let is_there = |ages: &Ages| ages & !there == 0;
    // Sides that are near to each other would often overlap in one scan.
    let is_narrow = six.d < 2_000 * six.slope;
    let mut all = Vec::new();
    for warm in (1..=255).filter(is_there) {
        let ww = sums[warm as usize];
        if !suffices(ww) || six.slope % (12 * ww) != 0 || six.base % ww != 0 {
            continue;
        }
        let wc = six.slope / (12 * ww);
        if !suffices(wc) || (six.d + six.base) % wc != 0 {
            continue;
        }
        let fits = |cold: &Ages| {
            let apart = warm & cold == 0;
            sums[*cold as usize] == wc && (apart || !is_narrow)
        };
        let colds = (1..=255).filter(is_there).filter(fits);
        all.extend(colds.map(|cold| GoodAges { warm, cold }));
    }
    all
}

/// A list in the making.
pub(super) struct Draft {
    pub(super) table: TableValues,
    /// By age, those of missing numbers too.
    pub(super) records: [RecordValues; 8],
    pub(super) there: Ages,
}

impl Draft {
    pub(super) fn new(random: &mut Random, weights: [u8; 8], there: Ages) -> Draft {
        let mut table = TableValues::bench();
        table.count_weights = weights;
        let any = random.between(20, u32::MAX as i64) as u32;
        let current = random.pick(&[7, any, any, u32::MAX]);
        let record = |age: usize| RecordValues {
            number: current - age as u32,
            shelves: std::array::from_fn(|_| any_shelf(random)),
            ..RecordValues::bench()
        };
        Draft {
            table,
            records: std::array::from_fn(record),
            there,
        }
    }

    /// Makes the counts of a channel, and its rows of the table but for b: whether counts were found.
    pub(super) fn make_channel(
        &mut self,
        random: &mut Random,
        channel: usize,
        good: GoodAges,
        six: &SixNumbers,
    ) -> bool {
        let weights = &self.table.count_weights;
        let [ww, wc] = [good.warm, good.cold].map(|ages| weight_at(weights, ages));
        let differences = [0, 1].map(|_| random.between(1, 300) as u16);
        let [aw, ac] = [(six.d + six.base) / wc, six.base / ww];
        let warm = side_counts(random, weights, good.warm, aw, differences[0]);
        let cold = side_counts(random, weights, good.cold, ac, differences[1]);
        let (Some(warm), Some(cold)) = (warm, cold) else {
            return false;
        };
        for (age, record) in self.records.iter_mut().enumerate() {
            record.warm[channel] = warm.counts[age];
            record.cold[channel] = cold.counts[age];
        }
        let mut low = |lowest: u16| random.between(0, lowest as i64) as u16;
        let lows = [low(warm.lowest), low(cold.lowest)];
        let mut upp = |highest: u16| random.between(highest as i64, 65_535) as u16;
        let upps = [upp(warm.highest), upp(cold.highest)];
        let values = &mut self.table.channels[channel];
        [values.warm_low, values.cold_low] = lows;
        [values.warm_upp, values.cold_upp] = upps;
        [values.warm_difference, values.cold_difference] = differences;
        // rj and sl are each at most 16,384.
        let both = (six.tc - 11_166) as i64;
        let rj = random.between((both - 16_384).max(0), both.min(16_384));
        values.rayleigh_jeans = rj as u16;
        values.side_lobe = (both - rj) as u16;
        let shelf = self.records[0].shelves[Shelf::of_channel(channel) as usize];
        values.shelf_pairs = pairs_through(random, shelf, six.tnl as i16);
        true
    }

    /// Makes the thermometers: each target near Tw, as far as b reaches, and in some scans one of its
    /// thermometers rejected.
    pub(super) fn make_thermometers(&mut self, random: &mut Random, tw: i128) {
        let table = &mut self.table;
        table.thermometer_weights = loop {
            let weights = random_weights(random);
            if 10 * weight_at(&weights, self.there) >= weight_at(&weights, 0xff) {
                break weights;
            }
        };
        table.least_good_kav = random.between(1, 7) as u8;
        table.least_good_wg = random.between(1, 6) as u8;
        table.pam_resistance = random.between(1_900_000, 2_100_000) as u32;
        for thermometer in &mut table.thermometers {
            *thermometer = ThermometerValues {
                weight: random.between(1, 30) as u8,
                resistance: random.between(1_800_000, 2_200_000) as u32,
                alpha: random.between(3_700_000, 4_000_000) as u32,
                delta: random.between(0, 2_000_000) as u32,
                beta: random.between(0, 500_000) as u32,
            };
        }
        let t = tw - KELVIN_OF_ZERO_CELSIUS;
        let far = random.between(8_000, 40_000) as i128;
        table.lowest_t = (t - far).max(LOWEST_T) as i32;
        table.highest_t = (t + far).min(HIGHEST_T) as i32;
        table.temperature_difference = random.between(1_000, 3_000) as u32;
        let levels = TARGETS.map(|_| t + random.between(-3_500, 3_500) as i128);
        for record in &mut self.records {
            record.pam = random.between(18_000, 30_000) as u16;
            record.offset = random.between(0, 2_000) as u16;
            for (target, level) in TARGETS.into_iter().zip(levels) {
                let rejected = random.below(3 * target.thermometers().len());
                for (place, index) in target.thermometers().enumerate() {
                    let own = level + random.between(-100, 100) as i128;
                    let near = count_near(own, table, index, record.pam, record.offset);
                    // Too far from the others, or refused by the rule.
                    let astray = random.pick(&[near + 300, near - 300, record.offset]);
                    record.thermometers[index] = if place == rejected { astray } else { near };
                }
            }
        }
    }

    pub(super) fn open(&self) -> Table {
        open(&self.table.encode()).expect("every value is inside its range")
    }

    /// Those of the window, the oldest first.
    fn records_there(&self) -> Vec<RecordValues> {
        let records = ages_in(self.there).map(|age| self.records[age].clone());
        let mut records: Vec<RecordValues> = records.collect();
        records.reverse();
        records
    }

    /// The records of the window as they are read, the last one last.
    pub(super) fn roll(&self) -> Vec<ScanRecord> {
        let records = self.records_there();
        let read = |record: &RecordValues| ScanRecord::read(&record.encode());
        let roll: Result<Vec<ScanRecord>, u8> = records.iter().map(read).collect();
        roll.expect("the encoder's layout is right")
    }

    /// Sets b so that each channel has its Tw, and percentages that all meet: whether there are such.
    pub(super) fn settle(
        &mut self,
        random: &mut Random,
        scans: &[WindowScan],
        tw: &[i128; CHANNELS],
    ) -> bool {
        let table = self.open();
        // Of thermometers, warm and cold counts: the most that every channel meets.
        let mut most = [100; 3];
        for (channel, tw) in tw.iter().enumerate() {
            let sums = channel_sums(&table, scans, channel);
            let p = table.sum_of_target_weights(Target::of_channel(channel));
            let (v, w) = (
                table.sum_of_thermometer_weights(),
                table.sum_of_count_weights(),
            );
            let met = [
                100 * sums.thermometers.weight / (v * p),
                100 * sums.warm.weight / w,
                100 * sums.cold.weight / w,
            ];
            most = std::array::from_fn(|test| most[test].min(met[test]));
            if most.contains(&0) {
                return false;
            }
            let mean = r(sums.thermometers.temperature, sums.thermometers.weight);
            let b = tw - mean;
            if b.abs() > 4_096 {
                return false;
            }
            self.table.channels[channel].warm_bias = b as i16;
        }
        let percentages = most.map(|most| random.between(1, most as i64) as u8);
        [
            self.table.thermometer_percentage,
            self.table.warm_percentage,
            self.table.cold_percentage,
        ] = percentages;
        true
    }

    /// Whether every channel has flag 0 and its numbers in the feed of the current record.
    pub(super) fn has_numbers(
        &self,
        current: &ScanRecord,
        scans: &[WindowScan],
        six: &[SixNumbers; CHANNELS],
    ) -> bool {
        let table = self.open();
        (0..CHANNELS).all(|channel| {
            let sums = channel_sums(&table, scans, channel);
            let own = || SixNumbers::of(&table, current, channel, &sums);
            flag(&table, channel, &sums) == 0 && own() == six[channel]
        })
    }

    /// The window's records, often after an older one, and some refused feeds before them.
    pub(super) fn feeds(&self, random: &mut Random) -> Vec<Feed> {
        let current = self.records[0].number;
        let mut records = self.records_there();
        if current > 100 && random.once_in(2) {
            let older = RecordValues {
                number: current - random.between(8, 20) as u32,
                ..RecordValues::bench()
            };
            records.insert(0, older);
        }
        let mut feeds = Vec::new();
        for record in records {
            let record = record.encode();
            if random.once_in(8) {
                let cut = record[1..].to_vec();
                feeds.push(Feed {
                    record: random.pick(&[record.clone(), cut]),
                    buffer: short_buffer(random),
                });
            }
            let buffer = long_buffer(random);
            feeds.push(Feed { record, buffer });
        }
        feeds
    }
}

/// Count weights and ages that are there, with their good ages for these numbers; none where some tries
/// find none.
fn find_good_ages(random: &mut Random, six: &SixNumbers) -> Option<([u8; 8], Ages, Vec<GoodAges>)> {
    for _ in 0..20 {
        let (weights, there) = (count_weights(random), ages_there(random));
        let all = good_ages(&weights, there, six);
        if !all.is_empty() {
            return Some((weights, there, all));
        }
    }
    None
}

/// A list under the bias file of zeros in whose last feed every channel has flag 0 and these numbers; none
/// where some tries do not find it.
pub fn list_with(random: &mut Random, six: &SixNumbers) -> Option<FeedList> {
    let (weights, there, good_ages) = find_good_ages(random, six)?;
    let mut draft = Draft::new(random, weights, there);
    for channel in 0..CHANNELS {
        let is_made = (0..20).any(|_| {
            let good = random.pick(&good_ages);
            draft.make_channel(random, channel, good, six)
        });
        if !is_made {
            return None;
        }
    }
    let tw = six.tc + six.rise;
    draft.make_thermometers(random, tw);
    // Neither looks at b and percentages.
    let roll = draft.roll();
    let scans = window(&draft.open(), &roll);
    let current = roll.last()?;
    if !draft.settle(random, &scans, &[tw; CHANNELS])
        || !draft.has_numbers(current, &scans, &[*six; CHANNELS])
    {
        return None;
    }
    Some(FeedList {
        table: draft.table.encode(),
        bias: BiasValues::zeros().encode(),
        feeds: draft.feeds(random),
    })
}

#[cfg(test)]
mod tests {
    use super::*;

    /// Ww × Wc = 6, and means that any Ww and Wc can have.
    const SIX: SixNumbers = SixNumbers {
        tc: 12_000,
        rise: 1_100_000,
        tnl: -5,
        d: 6 * 12 * 10_000,
        slope: 6 * 12,
        base: 6 * 12 * 10_000,
    };

    /// The different Ww and Wc of some good ages.
    fn weights_of(weights: &[u8; 8], all: &[GoodAges]) -> Vec<(i128, i128)> {
        let pair = |good: &GoodAges| {
            let (ww, wc) = (weight_at(weights, good.warm), weight_at(weights, good.cold));
            (ww, wc)
        };
        let mut pairs: Vec<(i128, i128)> = all.iter().map(pair).collect();
        pairs.sort();
        pairs.dedup();
        pairs
    }

    #[test]
    fn weights_have_the_product_that_is_asked_for() {
        let pairs =
            |there: Ages, six: &SixNumbers| weights_of(&[1; 8], &good_ages(&[1; 8], there, six));
        assert_eq!(pairs(0xff, &SIX), [(1, 6), (2, 3), (3, 2), (6, 1)]);
        // Four scans.
        assert_eq!(pairs(0x0f, &SIX), [(2, 3), (3, 2)]);
        // Ac × Ww and Aw × Wc are multiples of Ww and Wc.
        let odd = SixNumbers {
            base: SIX.base + 3,
            d: SIX.d - 3,
            ..SIX
        };
        assert_eq!(pairs(0xff, &odd), [(1, 6), (3, 2)]);
        // A hundredth of all weights at least.
        let weights = [1, 2, 4, 8, 16, 32, 64, 128];
        let all = good_ages(&weights, 0xff, &SIX);
        assert_eq!(weights_of(&weights, &all), []);
    }

    #[test]
    fn near_sides_are_good_in_different_scans() {
        let narrow = SixNumbers { d: 6, ..SIX };
        for (six, overlap) in [(&narrow, false), (&SIX, true)] {
            let all = good_ages(&[1; 8], 0xff, six);
            let overlapping = |good: &GoodAges| good.warm & good.cold != 0;
            assert!(!all.is_empty());
            assert_eq!(all.iter().any(overlapping), overlap);
        }
    }
}
