//! Pairs of lists whose last feeds have the same six numbers in every channel and little else in common,
//! and pairs in which one of the six is another.

use super::aimed_windows::list_with;
use super::lists::FeedList;
use super::random::Random;
use crate::second::constants::Constants;
use crate::second::record::ScanRecord;
use crate::second::shelf::nonlinearity_for_scan;
use crate::second::table::Table;
use crate::second::window::{cold_temperature, warm_temperature, ChannelSums};

/// What the scenes of a channel with flag 0 take from it, by request W3.
#[derive(Clone, Copy, Debug, PartialEq, Eq)]
pub struct SixNumbers {
    /// Tc.
    pub tc: i128,
    /// Tw - Tc.
    pub rise: i128,
    /// TNL, the whole one of the scan.
    pub tnl: i128,
    /// D.
    pub d: i128,
    /// 12 × Wc × Ww, what one count adds to N.
    pub slope: i128,
    /// Ac × Ww.
    pub base: i128,
}

impl SixNumbers {
    /// Of a channel with flag 0 in the feed of this record.
    pub fn of(
        table: &Table,
        record: &ScanRecord,
        channel: usize,
        sums: &ChannelSums,
    ) -> SixNumbers {
        let tc = cold_temperature(table, channel);
        SixNumbers {
            tc,
            rise: warm_temperature(table, channel, sums) - tc,
            tnl: nonlinearity_for_scan(table, record, channel),
            d: sums.difference(),
            slope: 12 * sums.cold.weight * sums.warm.weight,
            base: sums.cold.value * sums.warm.weight,
        }
    }

    pub fn constants(&self) -> Constants {
        Constants {
            cold_temperature: self.tc,
            rise: self.rise,
            nonlinearity: self.tnl,
            difference: self.d,
            slope: self.slope,
            base: self.base,
        }
    }

    pub fn named(&self) -> [(&'static str, i128); 6] {
        [
            ("Tc", self.tc),
            ("Tw - Tc", self.rise),
            ("TNL", self.tnl),
            ("D", self.d),
            ("12 Wc Ww", self.slope),
            ("Ac Ww", self.base),
        ]
    }
}

/// Ww and Wc, and the scan values of the mean cold and the mean warm side: less than a count apart, some
/// counts apart, at the ends of 16 bits, or far apart with any weights, great ones or small ones.
fn weights_and_levels(random: &mut Random, kind: usize) -> ((i64, i64), (i64, i64)) {
    let any = (random.between(3, 255), random.between(3, 255));
    let great = (random.between(150, 255), random.between(150, 255));
    let small = (random.between(1, 6), random.between(1, 6));
    let any_or_small = random.pick(&[any, small]);
    let cold = random.between(12, 780_000);
    match kind {
        0 => (any_or_small, (cold, cold + random.between(1, 11))),
        1 => (any_or_small, (cold, cold + random.between(12, 480))),
        2 => (any_or_small, (0, 786_420)),
        3 => (any, far_levels(random)),
        4 => (great, far_levels(random)),
        _ => (small, far_levels(random)),
    }
}

/// At least 3,000 counts apart.
fn far_levels(random: &mut Random) -> (i64, i64) {
    let cold = 12 * random.between(2_000, 25_000);
    (cold, cold + 12 * random.between(3_000, 38_000))
}

/// The numbers of a channel with these Ww and Wc and about these scan values.
fn six_numbers(random: &mut Random, (ww, wc): (i64, i64), (cold, warm): (i64, i64)) -> SixNumbers {
    let (mut aw, mut ac) = ((ww * warm) as i128, (wc * cold) as i128);
    if random.once_in(3) && warm < 786_400 {
        // Means that need not be whole twelfths of a count.
        aw += random.between(0, 12) as i128;
        ac += random.between(0, 12) as i128;
    }
    let (ww, wc) = (ww as i128, wc as i128);
    let corrections = random.between(0, 32_768);
    let tc = 11_166 + random.pick(&[0, corrections, corrections, 32_768]) as i128;
    let tw = 1_118_822 + random.between(-235_000, 235_000) as i128;
    let tnl = random.between(-8_192, 8_192);
    SixNumbers {
        tc,
        rise: tw - tc,
        tnl: random.pick(&[0, -8_192, 8_192, tnl, tnl]) as i128,
        d: aw * wc - ac * ww,
        slope: 12 * wc * ww,
        base: ac * ww,
    }
}

fn lists_with(random: &mut Random, numbers: [&SixNumbers; 2]) -> Option<[FeedList; 2]> {
    let first = list_with(random, numbers[0])?;
    let second = list_with(random, numbers[1])?;
    Some([first, second])
}

/// Two lists under the bias file of zeros. All 44 channels of the two last feeds have flag 0 and the same
/// six numbers.
pub fn same_six_numbers(seed: u64) -> [FeedList; 2] {
    let mut random = Random::new(seed);
    let kind = random.below(6);
    loop {
        let (weights, levels) = weights_and_levels(&mut random, kind);
        let six = six_numbers(&mut random, weights, levels);
        if let Some(lists) = lists_with(&mut random, [&six, &six]) {
            return lists;
        }
    }
}

/// For each of the six numbers, in order, two such lists whose channels differ in it alone, by the least
/// that feeds can reach.
pub fn one_number_apart(seed: u64) -> [[FeedList; 2]; 6] {
    let mut random = Random::new(seed);
    let steps: [fn(&mut SixNumbers); 6] = [
        // One up, or one down from the upper end of its range.
        |six| six.tc += if six.tc < 43_934 { 1 } else { -1 },
        |six| six.rise += 1,
        |six| six.tnl += if six.tnl < 8_192 { 1 } else { -1 },
        |six| six.d += 1,
        |six| six.slope += 12,
        |six| six.base += 1,
    ];
    steps.map(|step| loop {
        // Small weights and thousands of counts from cold to warm, so that each step moves some T.
        let weights = (random.between(1, 3), random.between(1, 3));
        let levels = far_levels(&mut random);
        let six = six_numbers(&mut random, weights, levels);
        let mut other = six;
        step(&mut other);
        if let Some(lists) = lists_with(&mut random, [&six, &other]) {
            break lists;
        }
    })
}

/// Puts the same 96 earth counts into every channel of a record.
pub fn set_earth_counts(record: &mut [u8], counts: &[u16; 96]) {
    let bytes: Vec<u8> = counts.iter().flat_map(|one| one.to_be_bytes()).collect();
    for channel in record[405..4_629].chunks_mut(192) {
        channel.copy_from_slice(&bytes);
    }
}

#[cfg(test)]
mod tests {
    use super::*;
    use crate::generator::biases::BiasValues;
    use crate::generator::lists::Feed;
    use crate::generator::records::RecordValues;
    use crate::generator::tables::TableValues;
    use crate::second::calibrator::Calibrator;
    use crate::second::product::{flag_of, LENGTH};
    use crate::second::table::CHANNELS;
    use crate::second::window::channel_sums;

    /// The numbers of each channel after the last feed, whose flags are 0.
    fn numbers_of(list: &FeedList) -> Vec<SixNumbers> {
        let mut calibrator = Calibrator::of_files(&list.table, &list.bias).unwrap();
        let mut buffer = vec![0; LENGTH];
        for feed in &list.feeds {
            let room = feed.buffer.len().min(LENGTH);
            calibrator = calibrator
                .feed(&feed.record, &mut buffer[..room])
                .calibrator;
        }
        let (table, window) = (calibrator.table(), calibrator.window());
        let record = calibrator.roll().last().unwrap();
        let numbers = |channel: usize| {
            assert_eq!(flag_of(&buffer, channel), 0);
            let sums = channel_sums(table, &window, channel);
            SixNumbers::of(table, record, channel, &sums)
        };
        (0..CHANNELS).map(numbers).collect()
    }

    #[test]
    fn the_bench_scan_has_its_six_numbers() {
        let list = FeedList {
            table: TableValues::bench().encode(),
            bias: BiasValues::zeros().encode(),
            feeds: vec![Feed {
                record: RecordValues::bench().encode(),
                buffer: vec![0; LENGTH],
            }],
        };
        let bench = SixNumbers {
            tc: 11_166,
            rise: 1_118_822 - 11_166,
            tnl: 400,
            d: 120_000,
            slope: 12,
            base: 120_000,
        };
        assert_eq!(numbers_of(&list), vec![bench; CHANNELS]);
    }

    #[test]
    fn all_channels_of_both_lists_have_the_same_six_numbers() {
        let mut tables = Vec::new();
        for seed in 0..8 {
            let lists = same_six_numbers(seed);
            let first = numbers_of(&lists[0]);
            assert_eq!(first, vec![first[0]; CHANNELS], "seed {seed}");
            assert_eq!(first, numbers_of(&lists[1]), "seed {seed}");
            tables.extend(lists.map(|list| list.table));
        }
        tables.sort();
        tables.dedup();
        assert_eq!(tables.len(), 16);
    }

    #[test]
    fn one_number_is_apart_by_the_least_step() {
        for seed in 0..3 {
            for (index, lists) in one_number_apart(seed).iter().enumerate() {
                let numbers = lists.each_ref().map(numbers_of);
                let [one, other] = numbers.each_ref().map(|all| all[0].named());
                assert!(numbers.iter().all(|all| *all == vec![all[0]; CHANNELS]));
                for place in 0..6 {
                    let step = (one[place].1 - other[place].1).abs();
                    let least = if place == 4 { 12 } else { 1 };
                    let expected = if place == index { least } else { 0 };
                    assert_eq!(step, expected, "seed {seed}, {}", one[place].0);
                }
            }
        }
    }

    #[test]
    fn every_channel_carries_the_earth_counts() {
        let counts = std::array::from_fn(|place| 1_000 + place as u16);
        let mut record = RecordValues::bench().encode();
        set_earth_counts(&mut record, &counts);
        let values = RecordValues::decode(&record);
        assert_eq!(values.earth, [counts; 22]);
        let bench = RecordValues::bench();
        assert_eq!((values.warm, values.cold), (bench.warm, bench.cold));
        assert_eq!(values.encode().len(), record.len());
    }
}
