//! Checks of request W3: the scenes of a channel with flag 0 take six numbers from it and nothing else.
//! Channels that agree in them give every count the same word under the bias file of zeros, which delivers
//! T itself; and where one of the six is another, some count has another word.

use super::counters::Counters;
use super::outcomes::{outcomes, Outcome};
use super::shelves::ShelfAndPairs;
use super::states::StateFunctions;
use crate::generator::lists::FeedList;
use crate::generator::random::{case_seed, Random};
use crate::generator::scenes::earth_counts;
use crate::generator::six_numbers::{
    one_number_apart, same_six_numbers, set_earth_counts, SixNumbers,
};
use crate::second::acceptance::good_counts;
use crate::second::calibrator::judge;
use crate::second::product::{flag_of, scene_of, LENGTH};
use crate::second::record::{ScanRecord, SCENES};
use crate::second::scene::{scene_without_bias, temperature};
use crate::second::shelf::nonlinearity_for_scan;
use crate::second::state;
use crate::second::table::{open, Limits, Table, Target, CHANNELS, SIDES};
use crate::second::window::{channel_sums, flag, window, window_records, ChannelSums, WindowScan};

const GROUP: &str = "channels with the same six numbers";

/// The last feed of a list, which is accepted, by this implementation.
struct LastFeed {
    table: Table,
    roll: Vec<ScanRecord>,
    window: Vec<WindowScan>,
}

impl LastFeed {
    fn of(list: &FeedList) -> LastFeed {
        let table = open(&list.table).expect("a list has an accepted table");
        let mut roll: Vec<ScanRecord> = Vec::new();
        for feed in &list.feeds {
            roll.extend(judge(&roll, &feed.record, feed.buffer.len()));
        }
        let window = window(&table, &roll);
        LastFeed {
            table,
            roll,
            window,
        }
    }

    fn channel(&self, channel: usize) -> ChannelOfFeed<'_> {
        ChannelOfFeed {
            feed: self,
            channel,
            sums: channel_sums(&self.table, &self.window, channel),
        }
    }

    fn channels(&self) -> impl Iterator<Item = ChannelOfFeed<'_>> {
        (0..CHANNELS).map(|channel| self.channel(channel))
    }

    fn record(&self) -> &ScanRecord {
        self.roll.last().expect("the last feed is accepted")
    }

    fn ages(&self) -> Vec<usize> {
        self.window.iter().map(|scan| scan.age).collect()
    }

    fn percentages(&self) -> [i128; 3] {
        let table = &self.table;
        [
            table.thermometer_percentage,
            table.warm_percentage,
            table.cold_percentage,
        ]
    }
}

/// One channel of it.
struct ChannelOfFeed<'a> {
    feed: &'a LastFeed,
    channel: usize,
    sums: ChannelSums,
}

impl ChannelOfFeed<'_> {
    fn flag(&self) -> u8 {
        flag(&self.feed.table, self.channel, &self.sums)
    }

    fn target(&self) -> Target {
        Target::of_channel(self.channel)
    }

    /// The six numbers, if the flag is 0.
    fn numbers(&self) -> Result<SixNumbers, String> {
        let (table, record) = (&self.feed.table, self.feed.record());
        match self.flag() {
            0 => Ok(SixNumbers::of(table, record, self.channel, &self.sums)),
            flag => Err(format!("channel {} has flag {flag}", self.channel + 1)),
        }
    }

    /// The shelf and the pairs that give TNL.
    fn shelf_and_pairs(&self) -> ShelfAndPairs {
        let (table, record) = (&self.feed.table, self.feed.record());
        ShelfAndPairs::of(&table.bytes, record.bytes(), self.channel)
    }

    /// The bits of the scene of each count without scan bias.
    fn words(&self, counts: &[u16]) -> Vec<u32> {
        let (table, flag) = (&self.feed.table, self.flag());
        let tnl = nonlinearity_for_scan(table, self.feed.record(), self.channel);
        let word = |count: &u16| {
            let t = temperature(table, self.channel, &self.sums, tnl, flag, *count);
            scene_without_bias(t).value().to_bits()
        };
        counts.iter().map(word).collect()
    }

    /// Warm and cold, by age.
    fn scan_values(&self) -> Vec<(usize, Option<i128>, Option<i128>)> {
        let values = self.feed.window.iter().map(|scan| {
            let (warm, cold) = (&scan.kept.warm, &scan.kept.cold);
            (scan.age, warm[self.channel], cold[self.channel])
        });
        values.collect()
    }

    /// The warm and cold counts of the window that are not good.
    fn rejected_counts(&self) -> Vec<u16> {
        let mut rejected = Vec::new();
        for (_, record) in window_records(&self.feed.roll) {
            for side in SIDES {
                let good = good_counts(&self.feed.table, record, side, self.channel);
                let is_good = |place: usize| good.iter().any(|one| one.place == place);
                let counts = record.side_counts(side, self.channel).into_iter();
                let others = counts.enumerate().filter(|(place, _)| !is_good(*place));
                rejected.extend(others.map(|(_, count)| count));
            }
        }
        rejected
    }

    /// The thermometers of the target that are not accepted, by age.
    fn rejected_thermometers(&self) -> Vec<(usize, usize)> {
        let mut rejected = Vec::new();
        for scan in &self.feed.window {
            let indices = self.target().thermometers();
            let others = indices.filter(|index| scan.kept.thermometers[*index].is_none());
            rejected.extend(others.map(|index| (scan.age, index)));
        }
        rejected
    }

    fn limits(&self) -> [(i128, i128, i128); 2] {
        let channel = &self.feed.table.channels[self.channel];
        let values = |limits: Limits| (limits.low, limits.upp, limits.difference);
        SIDES.map(|side| values(channel.limits(side)))
    }
}

/// Counts what two channels with the same six numbers do not share.
fn count_differences(one: &ChannelOfFeed, other: &ChannelOfFeed, counters: &mut Counters) {
    let (feed, other_feed) = (one.feed, other.feed);
    let (table, other_table) = (&feed.table, &other_feed.table);
    let row = &table.channels[one.channel];
    let other_row = &other_table.channels[other.channel];
    let is_same_feed = std::ptr::eq(feed, other_feed);
    let is_same_target = one.target() == other.target();
    let (ages, other_ages) = (feed.ages(), other_feed.ages());
    let (shelf, other_shelf) = (one.shelf_and_pairs(), other.shelf_and_pairs());
    // Another Ww goes with another Wc, another rj with another sl, another b with another mean of the
    // thermometers.
    let classes = [
        ("one feed", is_same_feed),
        ("two lists", !is_same_feed),
        (
            "channels of one target",
            is_same_target && one.channel != other.channel,
        ),
        ("KAV and WG", !is_same_target),
        (
            "other Ww and Wc",
            one.sums.warm.weight != other.sums.warm.weight,
        ),
        (
            "other scan values",
            one.scan_values() != other.scan_values(),
        ),
        (
            "other rejected counts",
            one.rejected_counts() != other.rejected_counts(),
        ),
        (
            "other rejected thermometers",
            one.rejected_thermometers() != other.rejected_thermometers(),
        ),
        (
            "other rj and sl",
            row.rayleigh_jeans != other_row.rayleigh_jeans,
        ),
        (
            "other b and thermometers",
            row.warm_bias != other_row.warm_bias,
        ),
        (
            "other count weights",
            table.count_weights != other_table.count_weights,
        ),
        (
            "other thermometer weights",
            table.thermometer_weights != other_table.thermometer_weights,
        ),
        (
            "other percentages",
            feed.percentages() != other_feed.percentages(),
        ),
        ("other limits", one.limits() != other.limits()),
        (
            "other shelf temperature",
            shelf.temperature() != other_shelf.temperature(),
        ),
        ("other pairs", shelf.pairs() != other_shelf.pairs()),
        (
            "other unrounded TNL",
            !shelf.line().meets(&other_shelf.line()),
        ),
        (
            "other scan number",
            feed.record().number() != other_feed.record().number(),
        ),
        ("other missing numbers", ages != other_ages),
        ("other number of records", ages.len() != other_ages.len()),
    ];
    for (class, _) in classes.into_iter().filter(|(_, holds)| *holds) {
        counters.met(GROUP, class);
    }
}

fn count_numbers(six: &SixNumbers, counters: &mut Counters) {
    let mut met = |class: &str| counters.met("six numbers", class);
    met(match six.tnl {
        0 => "TNL 0",
        tnl if tnl < 0 => "TNL below 0",
        _ => "TNL above 0",
    });
    met(match six.d {
        d if d < six.slope => "D below one count",
        d if d > 1 << 32 => "D above 2^32",
        _ => "D of some counts",
    });
}

/// Counts at which edges counts stand under these numbers.
fn count_counts(six: &SixNumbers, counts: &[u16], counters: &mut Counters) {
    let is_below = |n: i128| n < 0;
    let is_above = |n: i128| 4 * n > 5 * six.d;
    let is_delivered = |n: i128| !is_below(n) && !is_above(n);
    let (before, after) = (|n: i128| n - six.slope, |n: i128| n + six.slope);
    let classes: [(&str, &dyn Fn(i128) -> bool); 7] = [
        ("outside below", &is_below),
        ("one below the first delivered", &|n| {
            is_below(n) && is_delivered(after(n))
        }),
        ("first delivered", &|n| {
            is_delivered(n) && is_below(before(n))
        }),
        ("delivered", &is_delivered),
        ("last delivered", &|n| is_delivered(n) && is_above(after(n))),
        ("one above the last delivered", &|n| {
            is_above(n) && is_delivered(before(n))
        }),
        ("outside above", &is_above),
    ];
    let mut met = |class: &str, times: usize| {
        let group = "counts under the same six numbers";
        counters.met_times(group, class, times as u64);
    };
    for (class, holds) in classes {
        let numerators = counts.iter().map(|c| six.slope * *c as i128 - six.base);
        met(class, numerators.filter(|n| holds(*n)).count());
    }
    for end in [0, u16::MAX] {
        let times = counts.iter().filter(|count| **count == end).count();
        met(&end.to_string(), times);
    }
}

/// Whether all channels of a last feed have flag 0 and these numbers.
fn all_have(feed: &LastFeed, six: &SixNumbers) -> Result<(), String> {
    for channel in feed.channels() {
        let own = channel.numbers()?;
        if own != *six {
            let about = format!("channel {}", channel.channel + 1);
            return Err(format!("{about} has {own:?}, not {six:?}"));
        }
    }
    Ok(())
}

/// A channel of the first of two last feeds. All 44 channels have flag 0 and its numbers; what each other one
/// does not share with it is counted.
fn checked_channel<'a>(
    feeds: &'a [LastFeed; 2],
    seed: u64,
    counters: &mut Counters,
) -> Result<ChannelOfFeed<'a>, String> {
    let own = (seed % CHANNELS as u64) as usize;
    let one = feeds[0].channel(own);
    let six = one.numbers()?;
    count_numbers(&six, counters);
    for feed in feeds {
        all_have(feed, &six)?;
        for other in feed.channels() {
            if !std::ptr::eq(feed, one.feed) || other.channel != own {
                count_differences(&one, &other, counters);
            }
        }
    }
    Ok(one)
}

/// Whether a product has flag 0 and these words, one a position, in every channel.
fn has_words(product: &[u8], counts: &[u16], words: &[u32]) -> Result<(), String> {
    for channel in 0..CHANNELS {
        let about = format!("channel {}", channel + 1);
        if flag_of(product, channel) != 0 {
            return Err(format!("{about} has a flag"));
        }
        for (position, (count, word)) in counts.iter().zip(words).enumerate() {
            let value = scene_of(product, channel, position);
            if value.to_bits() != *word {
                let expected = f32::from_bits(*word);
                return Err(format!("{about}, count {count}: {value}, not {expected}"));
            }
        }
    }
    Ok(())
}

/// Whether a list whose last record carries these counts leaves these words in every channel.
fn leaves_words(
    list: &FeedList,
    counts: &[u16; SCENES],
    words: &[u32],
    at_once: impl Fn(&FeedList) -> Vec<Outcome>,
) -> Result<(), String> {
    let mut list = list.clone();
    let last = list.feeds.last_mut().expect("a list has a last feed");
    set_earth_counts(&mut last.record, counts);
    match at_once(&list).last() {
        Some(outcome) if outcome.answer == 0 => has_words(&outcome.buffer, counts, words),
        _ => Err("the last feed is refused".to_string()),
    }
}

/// Two lists with the same six numbers, fed by an implementation: counts at the edges have the same words in
/// all their channels, and those that this implementation has for each of these channels.
pub fn same_scenes(
    seed: u64,
    at_once: impl Fn(&FeedList) -> Vec<Outcome>,
    counters: &mut Counters,
) -> Result<(), String> {
    let lists = same_six_numbers(seed);
    let feeds = lists.each_ref().map(LastFeed::of);
    let one = checked_channel(&feeds, seed, counters)?;
    let counts = earth_counts(&mut Random::new(case_seed(seed, 1)), &one.sums);
    count_counts(&one.numbers()?, &counts, counters);
    let words = one.words(&counts);
    for (list, feed) in lists.iter().zip(&feeds) {
        if feed.channels().any(|other| other.words(&counts) != words) {
            return Err("this implementation has other words".to_string());
        }
        leaves_words(list, &counts, &words, &at_once)?;
    }
    Ok(())
}

pub fn check_six_numbers(seed: u64, counters: &mut Counters) -> Result<(), String> {
    same_scenes(seed, outcomes, counters)
}

/// The words of every count by this implementation, under two lists with the same six numbers: a channel of
/// the one and a channel of the other have the same.
fn checked_words(
    lists: &[FeedList; 2],
    seed: u64,
    counters: &mut Counters,
) -> Result<Vec<u32>, String> {
    let feeds = lists.each_ref().map(LastFeed::of);
    let one = checked_channel(&feeds, seed, counters)?;
    let other = feeds[1].channel((case_seed(seed, 1) % CHANNELS as u64) as usize);
    let counts: Vec<u16> = (0..=u16::MAX).collect();
    count_counts(&one.numbers()?, &counts, counters);
    let words = one.words(&counts);
    if other.words(&counts) != words {
        return Err("this implementation has other words".to_string());
    }
    Ok(words)
}

pub fn check_every_count(seed: u64, counters: &mut Counters) -> Result<(), String> {
    checked_words(&same_six_numbers(seed), seed, counters)?;
    counters.met(GROUP, "every count compared");
    Ok(())
}

/// The state before the last feed of a list.
fn state_before_last<F, G>(list: &FeedList, functions: &StateFunctions<F, G>) -> Vec<u8>
where
    F: Fn(&[u8], &[u8], &mut [u8]) -> u8,
    G: Fn(&mut [u8], &[u8], &mut [u8]) -> u8,
{
    let mut memory = vec![0; state::LENGTH];
    let answer = (functions.fresh)(&list.table, &list.bias, &mut memory);
    assert_eq!(answer, 0, "a list has accepted files");
    for feed in &list.feeds[..list.feeds.len() - 1] {
        // A refused one leaves the state as it is.
        (functions.feed)(&mut memory, &feed.record, &mut feed.buffer.clone());
    }
    memory
}

/// Two lists with the same six numbers, of which an implementation feeds the last record from the same state
/// until every count was in every channel: the same words in all of them, those of this implementation.
pub fn same_scenes_of_every_count<F, G>(
    seed: u64,
    functions: &StateFunctions<F, G>,
    counters: &mut Counters,
) -> Result<(), String>
where
    F: Fn(&[u8], &[u8], &mut [u8]) -> u8,
    G: Fn(&mut [u8], &[u8], &mut [u8]) -> u8,
{
    let lists = same_six_numbers(seed);
    let words = checked_words(&lists, seed, counters)?;
    for list in &lists {
        let before = state_before_last(list, functions);
        let mut record = list.feeds[list.feeds.len() - 1].record.clone();
        let mut product = vec![0; LENGTH];
        for first in (0..words.len()).step_by(SCENES) {
            let counts = std::array::from_fn(|place| (first + place).min(65_535) as u16);
            set_earth_counts(&mut record, &counts);
            let answer = (functions.feed)(&mut before.clone(), &record, &mut product);
            if answer != 0 {
                return Err(format!("the last feed is refused with {answer}"));
            }
            let own = counts.map(|count| words[count as usize]);
            has_words(&product, &counts, &own)?;
        }
    }
    // The pairs of a channel with each other one.
    counters.met_times(GROUP, "every count compared", 2 * CHANNELS as u64 - 1);
    Ok(())
}

/// The one of the six in which numbers differ.
fn number_apart(one: &SixNumbers, other: &SixNumbers) -> Result<&'static str, String> {
    let pairs = one.named().into_iter().zip(other.named());
    let differing = pairs.filter(|(one, other)| one != other);
    let names: Vec<&str> = differing.map(|((name, _), _)| name).collect();
    match names[..] {
        [name] => Ok(name),
        _ => Err(format!("not one of the six is another: {names:?}")),
    }
}

/// For each of the six numbers two lists that differ in it alone, fed by an implementation: some count has
/// another word in the channels of the one than in those of the other.
pub fn other_scenes(
    seed: u64,
    at_once: impl Fn(&FeedList) -> Vec<Outcome>,
    counters: &mut Counters,
) -> Result<(), String> {
    for lists in one_number_apart(seed) {
        let feeds = lists.each_ref().map(LastFeed::of);
        let [one, other] = [feeds[0].channel(0), feeds[1].channel(0)];
        let (six, other_six) = (one.numbers()?, other.numbers()?);
        all_have(&feeds[0], &six)?;
        all_have(&feeds[1], &other_six)?;
        let name = number_apart(&six, &other_six)?;
        let counts = earth_counts(&mut Random::new(case_seed(seed, 1)), &one.sums);
        let words = [one.words(&counts), other.words(&counts)];
        if words[0] == words[1] {
            return Err(format!("{name} is another, and no word is"));
        }
        for (list, words) in lists.iter().zip(&words) {
            let about = |what: String| format!("{name}: {what}");
            leaves_words(list, &counts, words, &at_once).map_err(about)?;
        }
        counters.met("one number apart", name);
    }
    Ok(())
}

pub fn check_one_number(seed: u64, counters: &mut Counters) -> Result<(), String> {
    other_scenes(seed, outcomes, counters)
}

#[cfg(test)]
mod tests {
    use super::*;
    use crate::generator::biases::BiasValues;
    use crate::generator::lists::Feed;
    use crate::generator::records::RecordValues;
    use crate::generator::tables::TableValues;

    /// A list of one feed.
    fn list(table: &TableValues, record: &RecordValues) -> FeedList {
        FeedList {
            table: table.encode(),
            bias: BiasValues::zeros().encode(),
            feeds: vec![Feed {
                record: record.encode(),
                buffer: vec![0; LENGTH],
            }],
        }
    }

    fn bench() -> LastFeed {
        LastFeed::of(&list(&TableValues::bench(), &RecordValues::bench()))
    }

    /// The classes that are met by channel 1 of the bench scan and a channel of another list.
    fn differences(other: &LastFeed, channel: usize) -> Vec<&'static str> {
        let (bench, mut counters) = (bench(), Counters::new());
        count_differences(&bench.channel(0), &other.channel(channel), &mut counters);
        let all = super::super::counters::CLASSES.iter();
        let (_, classes) = all.clone().find(|(group, _)| *group == GROUP).unwrap();
        let is_met = |class: &&'static str| counters.count(GROUP, class) > 0;
        classes.iter().copied().filter(is_met).collect()
    }

    #[test]
    fn each_difference_is_counted_as_what_it_is() {
        assert_eq!(differences(&bench(), 0), ["two lists"]);
        assert_eq!(
            differences(&bench(), 14),
            ["two lists", "channels of one target"]
        );
        assert_eq!(differences(&bench(), 15), ["two lists", "KAV and WG"]);
        let feed = bench();
        let mut counters = Counters::new();
        count_differences(&feed.channel(0), &feed.channel(1), &mut counters);
        assert_eq!(counters.count(GROUP, "one feed"), 1);
        assert_eq!(counters.count(GROUP, "two lists"), 0);
        let of = |change: fn(&mut TableValues, &mut RecordValues)| {
            let (mut table, mut record) = (TableValues::bench(), RecordValues::bench());
            change(&mut table, &mut record);
            let feed = LastFeed::of(&list(&table, &record));
            assert_eq!(feed.channel(0).flag(), 0);
            differences(&feed, 0)[1..].to_vec()
        };
        assert_eq!(
            of(|table, _| table.count_weights[0] = 2),
            ["other Ww and Wc", "other count weights"]
        );
        assert_eq!(
            of(|_, record| record.warm[0][3] = 20_001),
            ["other scan values"]
        );
        assert_eq!(
            of(|_, record| record.warm[0][3] = 0),
            ["other rejected counts"]
        );
        assert_eq!(
            of(|table, record| {
                table.thermometer_percentage = 1;
                record.thermometers[0] = 0;
            }),
            ["other rejected thermometers", "other percentages"]
        );
        assert_eq!(
            of(|table, _| table.channels[0].rayleigh_jeans = 1),
            ["other rj and sl"]
        );
        assert_eq!(
            of(|table, _| table.channels[0].warm_bias = 1),
            ["other b and thermometers"]
        );
        assert_eq!(
            of(|table, _| table.thermometer_weights[0] = 2),
            ["other thermometer weights"]
        );
        assert_eq!(
            of(|table, _| table.channels[0].cold_upp = 20_000),
            ["other limits"]
        );
        assert_eq!(of(|_, record| record.number = 8), ["other scan number"]);
        assert_eq!(
            of(|_, record| record.shelves[0] = 5),
            ["other shelf temperature"]
        );
        assert_eq!(
            of(|table, _| table.channels[0].shelf_pairs[4].nonlinearity = 0),
            ["other pairs"]
        );
        // 400 - 1 / 122,880, which is rounded to 400.
        assert_eq!(
            of(|table, record| {
                table.channels[0].shelf_pairs[3].nonlinearity = 399;
                record.shelves[0] = 1;
            }),
            [
                "other shelf temperature",
                "other pairs",
                "other unrounded TNL"
            ]
        );
    }

    #[test]
    fn records_of_the_window_are_told_apart() {
        let (table, mut record) = (TableValues::bench(), RecordValues::bench());
        let mut longer = list(&table, &record);
        record.number = 4;
        let before = list(&table, &record).feeds.remove(0);
        longer.feeds.insert(0, before);
        let longer = LastFeed::of(&longer);
        let more = ["other missing numbers", "other number of records"];
        assert_eq!(
            differences(&longer, 0)[1..],
            [&["other scan values"], &more[..]].concat()
        );
        assert_eq!(longer.channel(0).numbers(), bench().channel(0).numbers());
    }

    #[test]
    fn counts_of_the_bench_scan_stand_at_their_edges() {
        let mut counters = Counters::new();
        let six = bench().channel(0).numbers().unwrap();
        let counts = [0, 9_998, 9_999, 10_000, 10_001, 22_500, 22_501, 65_535];
        count_counts(&six, &counts, &mut counters);
        let rows = [
            ("0", 1),
            ("65535", 1),
            ("outside below", 3),
            ("one below the first delivered", 1),
            ("first delivered", 1),
            ("delivered", 3),
            ("last delivered", 1),
            ("one above the last delivered", 1),
            ("outside above", 2),
        ];
        for (class, times) in rows {
            let met = counters.count("counts under the same six numbers", class);
            assert_eq!(met, times, "{class}");
        }
    }

    #[test]
    fn numbers_that_differ_and_flags_are_noticed() {
        let six = bench().channel(0).numbers().unwrap();
        assert_eq!(all_have(&bench(), &six), Ok(()));
        assert!(number_apart(&six, &six).is_err());
        for (index, (name, _)) in six.named().into_iter().enumerate() {
            let mut other = six;
            let numbers = [
                &mut other.tc,
                &mut other.rise,
                &mut other.tnl,
                &mut other.d,
                &mut other.slope,
                &mut other.base,
            ];
            *numbers[index] += 1;
            assert!(all_have(&bench(), &other).is_err());
            assert_eq!(number_apart(&six, &other), Ok(name));
        }
        let both = SixNumbers {
            tc: six.tc + 1,
            rise: six.rise - 1,
            ..six
        };
        assert!(number_apart(&six, &both).is_err());
        let mut record = RecordValues::bench();
        record.warm[21] = [0; 4];
        let flagged = LastFeed::of(&list(&TableValues::bench(), &record));
        assert_eq!(
            all_have(&flagged, &six),
            Err("channel 22 has flag 2".to_string())
        );
    }

    #[test]
    fn one_word_that_differs_is_noticed() {
        let counts = std::array::from_fn(|position| 9_950 + position as u16);
        let bench = list(&TableValues::bench(), &RecordValues::bench());
        let words = LastFeed::of(&bench).channel(7).words(&counts);
        assert_eq!(leaves_words(&bench, &counts, &words, outcomes), Ok(()));
        // Flags of the first and last channel, words of the first and last position.
        for at in [10, 31, 35, 38, 418, 419, 35 + 4 * 95, 8_479, 8_482] {
            let wrong = |list: &FeedList| {
                let mut wrong = outcomes(list);
                wrong[0].buffer[at] ^= 1;
                wrong
            };
            let left = leaves_words(&bench, &counts, &words, wrong);
            assert!(left.is_err(), "byte {at}");
        }
        let refused = |list: &FeedList| {
            let mut refused = outcomes(list);
            refused[0].answer = 6;
            refused
        };
        assert!(leaves_words(&bench, &counts, &words, refused).is_err());
    }
}
