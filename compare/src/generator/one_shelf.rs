//! Lists that differ in one shelf temperature of one accepted feed, and in nothing else.

use super::lists::{feed_list, long_buffer, Feed, FeedList};
use super::random::Random;
use super::random_biases::random_bias;
use super::records::RecordValues;
use super::shelves::{
    any_shelf, channels_of, nonlinearity_at, random_nonlinearities, random_temperatures,
    shelf_pairs, HIGHEST, LOWEST,
};
use super::tables::{ShelfPairValues, TableValues};
use crate::second::calibrator::judge;
use crate::second::record::ScanRecord;

/// Two lists, and where they differ.
#[derive(Clone, Debug)]
pub struct OneShelfApart {
    pub lists: [FeedList; 2],
    /// The index from 0 of the feed.
    pub feed: usize,
    /// The place from 0 of the shelf in field 0x06.
    pub place: usize,
}

/// The same list with another shelf temperature in a well-formed record.
fn with_shelf(list: &FeedList, feed: usize, place: usize, temperature: i32) -> FeedList {
    let mut other = list.clone();
    let mut record = RecordValues::decode(&list.feeds[feed].record);
    record.shelves[place] = temperature;
    other.feeds[feed].record = record.encode();
    other
}

/// The feeds of a list that are accepted, as indices from 0.
fn accepted_feeds(list: &FeedList) -> Vec<usize> {
    let mut roll: Vec<ScanRecord> = Vec::new();
    let mut accepted = Vec::new();
    for (index, feed) in list.feeds.iter().enumerate() {
        if let Ok(record) = judge(&roll, &feed.record, feed.buffer.len()) {
            roll.push(record);
            accepted.push(index);
        }
    }
    accepted
}

/// A list of some dozens of feeds and the same with another shelf temperature in an accepted one.
pub fn any_shelf_apart(seed: u64) -> OneShelfApart {
    let mut random = Random::new(seed);
    let (list, accepted) = loop {
        let list = feed_list(random.next());
        let accepted = accepted_feeds(&list);
        if !accepted.is_empty() {
            break (list, accepted);
        }
    };
    let (feed, place) = (random.pick(&accepted), random.below(4));
    let shelf = RecordValues::decode(&list.feeds[feed].record).shelves[place];
    let beside = shelf.saturating_add(random.pick(&[-1, 1]));
    let any = any_shelf(&mut random);
    let mut temperature = random.pick(&[beside, any]);
    while temperature == shelf {
        temperature = any_shelf(&mut random);
    }
    OneShelfApart {
        lists: [list.clone(), with_shelf(&list, feed, place, temperature)],
        feed,
        place,
    }
}

/// Two shelf temperatures between which the pairs' range has at least 1,000 units; some are far outside.
fn distant_shelves(random: &mut Random) -> [i32; 2] {
    let low = random.between(LOWEST as i64, HIGHEST as i64 - 1_000) as i32;
    let high = random.between(low as i64 + 1_000, HIGHEST as i64) as i32;
    let low = random.pick(&[low, low, i32::MIN]);
    let mut two = [low, random.pick(&[high, high, i32::MAX])];
    random.shuffle(&mut two);
    two
}

/// How far apart the whole TNL of two shelf temperatures are.
fn distance(pairs: &[ShelfPairValues; 5], shelves: [i32; 2]) -> i128 {
    let [one, other] = shelves.map(|shelf| nonlinearity_at(pairs, shelf));
    (one - other).abs()
}

/// Pairs with which TNL at two such shelf temperatures is at least 5 units apart. 4x(1 - x) is about 16/25 at the
/// least, so that T is at least 3 units apart, and B another. Two T of 2 units apart can have one B under the least
/// e, which halves them: 3/2 and 5/2 have the same even neighbour.
fn pairs_between(random: &mut Random, shelves: [i32; 2]) -> [ShelfPairValues; 5] {
    for _ in 0..20 {
        let temperatures = random_temperatures(random);
        let pairs = shelf_pairs(temperatures, random_nonlinearities(random));
        if distance(&pairs, shelves) >= 5 {
            return pairs;
        }
    }
    // From end to end TNL rises by 33 in 1,000 units.
    let temperatures = [LOWEST, -122_880, 0, 122_880, HIGHEST];
    shelf_pairs(temperatures, [-8_192, -4_096, 0, 4_096, 8_192])
}

/// A table in which the current scan suffices, so that every channel has flag 0.
fn table_between(random: &mut Random, shelves: &[[i32; 2]; 4]) -> TableValues {
    let mut table = TableValues::bench();
    let weights = [[1, 0, 0, 0, 0, 0, 0, 0], [1; 8], [2, 1, 0, 30, 0, 7, 1, 9]];
    table.count_weights = random.pick(&weights);
    table.thermometer_weights = random.pick(&weights);
    table.thermometer_percentage = 1;
    table.warm_percentage = 1;
    table.cold_percentage = 1;
    for (place, two) in shelves.iter().enumerate() {
        for channel in channels_of(place) {
            table.channels[channel].shelf_pairs = pairs_between(random, *two);
        }
    }
    table
}

/// Scans of one number after the other, with earth counts from a fifth to four fifths of the way from cold to
/// warm. The last but one has the first of each two shelf temperatures.
fn scans_between(random: &mut Random, shelves: &[[i32; 2]; 4]) -> Vec<Feed> {
    let count = random.between(2, 5) as usize;
    let mut feeds = Vec::new();
    for index in 0..count {
        let mut record = RecordValues::bench();
        record.number = 7 + index as u32;
        for counts in record.earth.iter_mut().flatten() {
            *counts = random.between(12_000, 18_000) as u16;
        }
        record.shelves = if index + 2 == count {
            shelves.map(|[first, _]| first)
        } else {
            std::array::from_fn(|_| any_shelf(random))
        };
        feeds.push(Feed {
            record: record.encode(),
            buffer: long_buffer(random),
        });
    }
    feeds
}

/// For each shelf two lists of which every channel has flag 0 and every scene is delivered, and which differ in
/// this shelf of the last feed but one so that TNL of each of its channels is at least 5 units apart.
pub fn each_shelf_apart(seed: u64) -> [OneShelfApart; 4] {
    let mut random = Random::new(seed);
    let shelves: [[i32; 2]; 4] = std::array::from_fn(|_| distant_shelves(&mut random));
    let list = FeedList {
        table: table_between(&mut random, &shelves).encode(),
        bias: random_bias(&mut random).encode(),
        feeds: scans_between(&mut random, &shelves),
    };
    let feed = list.feeds.len() - 2;
    std::array::from_fn(|place| OneShelfApart {
        lists: [
            list.clone(),
            with_shelf(&list, feed, place, shelves[place][1]),
        ],
        feed,
        place,
    })
}

#[cfg(test)]
mod tests {
    use super::*;

    #[test]
    fn lists_differ_in_four_bytes_at_most() {
        for seed in 0..20 {
            let mut all = each_shelf_apart(seed).to_vec();
            all.push(any_shelf_apart(seed));
            for OneShelfApart { lists, feed, place } in all {
                assert_eq!(lists[0].table, lists[1].table);
                for index in 0..lists[0].feeds.len() {
                    let records = lists.each_ref().map(|list| &list.feeds[index].record);
                    let own = 4_632 + 4 * place..4_636 + 4 * place;
                    let differing: Vec<usize> = (0..records[0].len())
                        .filter(|at| records[0][*at] != records[1][*at])
                        .collect();
                    assert_eq!(differing.is_empty(), index != feed);
                    assert!(differing.iter().all(|at| own.contains(at)));
                }
            }
        }
    }

    #[test]
    fn every_channel_has_a_distant_nonlinearity() {
        let mut random = Random::new(1);
        for _ in 0..500 {
            let shelves = distant_shelves(&mut random);
            let pairs = pairs_between(&mut random, shelves);
            assert!(distance(&pairs, shelves) >= 5, "{pairs:?} {shelves:?}");
        }
    }
}
