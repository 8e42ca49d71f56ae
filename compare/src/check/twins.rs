//! Checks of alike lists: the same products, and the same lookups.

use super::counters::Counters;
use super::lookups::{checked_alike_runs, LookupRun};
use super::outcomes::{outcomes, Outcome};
use crate::generator::lists::FeedList;
use crate::generator::lookups::asked_list;
use crate::generator::random::case_seed;
use crate::generator::twins::alike_twin;
use crate::second::acceptance::accepted_samples;
use crate::second::calibrator::judge;
use crate::second::product::LENGTH;
use crate::second::record::ScanRecord;
use crate::second::table::{open, CHANNELS, SHELVES};

/// Whether two lists under one table and one bias file are alike.
pub fn are_alike(first: &FeedList, second: &FeedList) -> bool {
    let same_files = first.table == second.table && first.bias == second.bias;
    if !same_files || first.feeds.len() != second.feeds.len() {
        return false;
    }
    let table = open(&first.table).expect("a list has an accepted table");
    let mut rolls: [Vec<ScanRecord>; 2] = [Vec::new(), Vec::new()];
    for pair in first.feeds.iter().zip(&second.feeds) {
        let judged = [
            judge(&rolls[0], &pair.0.record, pair.0.buffer.len()),
            judge(&rolls[1], &pair.1.record, pair.1.buffer.len()),
        ];
        match judged {
            [Err(one), Err(other)] if one == other => {}
            [Ok(one), Ok(other)] => {
                let earth = |record: &ScanRecord| {
                    let channels = 0..CHANNELS;
                    let counts = channels.map(|channel| record.earth_counts(channel));
                    counts.collect::<Vec<_>>()
                };
                let shelves =
                    |record: &ScanRecord| SHELVES.map(|shelf| record.shelf_temperature(shelf));
                let same = one.number() == other.number()
                    && earth(&one) == earth(&other)
                    && shelves(&one) == shelves(&other)
                    && accepted_samples(&table, &one) == accepted_samples(&table, &other);
                if !same {
                    return false;
                }
                rolls[0].push(one);
                rolls[1].push(other);
            }
            _ => return false,
        }
    }
    true
}

/// How many samples of two records with the same layout differ.
fn changed_samples(first: &[u8], second: &[u8]) -> u64 {
    // PAM, offset and thermometers; warm counts; cold counts.
    let parts = [10..44, 47..223, 226..402];
    let mut changed = 0;
    for part in parts {
        let pairs = first[part.clone()].chunks(2).zip(second[part].chunks(2));
        changed += pairs.filter(|(one, other)| one != other).count() as u64;
    }
    changed
}

/// Feeds the twin of a list, which left this.
pub fn checked_twin(
    list: &FeedList,
    first: &[Outcome],
    twin: &FeedList,
    counters: &mut Counters,
) -> Result<Vec<Outcome>, String> {
    if !are_alike(list, twin) {
        return Err("the twin is not alike".to_string());
    }
    counters.met("twins", "lists compared");
    let second = outcomes(twin);
    for (index, outcome) in second.iter().enumerate() {
        let about = format!("feed {} of the list and its twin", index + 1);
        if outcome.answer != first[index].answer {
            return Err(format!("{about}: answers differ"));
        }
        if outcome.answer != 0 {
            counters.met("twins", "refused feeds");
            continue;
        }
        if outcome.buffer[..LENGTH] != first[index].buffer[..LENGTH] {
            return Err(format!("{about}: products differ"));
        }
        counters.met("twins", "products compared");
        let changed = changed_samples(&list.feeds[index].record, &twin.feeds[index].record);
        counters.met_times("twins", "samples changed", changed);
    }
    Ok(second)
}

/// Asks a list and its twin after their last feed: lookups leave the same.
pub fn checked_twin_lookups(seed: u64, counters: &mut Counters) -> Result<[LookupRun; 2], String> {
    let mut list = asked_list(seed).list;
    // The last feed but one is asked.
    list.feeds.pop();
    let twin = alike_twin(&list, case_seed(seed, 1));
    if !are_alike(&list, &twin) {
        return Err("the twin is not alike".to_string());
    }
    let runs = checked_alike_runs([&list, &twin], case_seed(seed, 2), counters)?;
    for (index, step) in runs[0].steps[1..].iter().enumerate() {
        if step.answer == 0 {
            let changed = changed_samples(&list.feeds[index].record, &twin.feeds[index].record);
            counters.met_times("twins", "samples changed before a lookup", changed);
        }
    }
    Ok(runs)
}

pub fn check_twin_lookups(seed: u64, counters: &mut Counters) -> Result<(), String> {
    checked_twin_lookups(seed, counters).map(drop)
}

#[cfg(test)]
mod tests {
    use super::*;
    use crate::generator::biases::{BiasValues, PairValues};
    use crate::generator::lists::Feed;
    use crate::generator::records::RecordValues;
    use crate::generator::tables::TableValues;

    /// A list of one feed.
    fn feed(record: &RecordValues) -> FeedList {
        FeedList {
            table: TableValues::bench().encode(),
            bias: BiasValues::zeros().encode(),
            feeds: vec![Feed {
                record: record.encode(),
                buffer: vec![0; LENGTH],
            }],
        }
    }

    #[test]
    fn lists_under_other_bias_files_are_not_alike() {
        let first = feed(&RecordValues::bench());
        let mut second = first.clone();
        assert!(are_alike(&first, &second));
        let mut bias = BiasValues::zeros();
        bias.pairs[21][95] = PairValues { c0: 0, e: 1 };
        second.bias = bias.encode();
        assert!(!are_alike(&first, &second));
    }

    #[test]
    fn lists_with_another_shelf_temperature_are_not_alike() {
        let bench = RecordValues::bench();
        for place in 0..4 {
            let mut other = bench.clone();
            other.shelves[place] = 1;
            assert!(!are_alike(&feed(&bench), &feed(&other)));
            assert!(are_alike(&feed(&other), &feed(&other)));
        }
        // Those of a refused feed do not count.
        let mut short = [bench.clone(), bench].map(|record| feed(&record));
        for list in &mut short {
            list.feeds[0].buffer.pop();
        }
        short[1].feeds[0].record[4_632] = 1;
        assert!(are_alike(&short[0], &short[1]));
    }

    #[test]
    fn lists_with_other_accepted_samples_are_not_alike() {
        let bench = RecordValues::bench();
        let mut fourth = bench.clone();
        fourth.warm[0][3] = 20_100;
        let mut other_fourth = bench.clone();
        other_fourth.warm[0][3] = 20_200;
        let mut first = bench.clone();
        first.warm[0][0] = 20_100;
        assert!(are_alike(&feed(&fourth), &feed(&other_fourth)));
        assert!(!are_alike(&feed(&fourth), &feed(&bench)));
        // The same counts in another place.
        assert!(!are_alike(&feed(&fourth), &feed(&first)));
    }
}
