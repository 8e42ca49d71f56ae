//! Checks of lists that differ in one shelf temperature of one feed: only that feed's product may differ, and in
//! it only the channels of that shelf; and where TNL is far apart, every one of them does.

use super::counters::Counters;
use super::outcomes::{outcomes, Outcome};
use super::shelves::ShelfAndPairs;
use super::twins::are_alike;
use crate::generator::lists::FeedList;
use crate::generator::one_shelf::{any_shelf_apart, each_shelf_apart, OneShelfApart};
use crate::generator::random::case_seed;
use crate::generator::shelves::channels_of;
use crate::second::product::{flag_of, scene_of, LENGTH};
use crate::second::record::SCENES;
use crate::second::table::CHANNELS;

/// The lists of a case, each with what its feeds left.
pub type Compared = Vec<(FeedList, Vec<Outcome>)>;

/// The bytes of a channel: its flag, its scenes and its summary.
fn channel_bytes(product: &[u8], channel: usize) -> Vec<u8> {
    let scenes = &product[35 + 384 * channel..35 + 384 * (channel + 1)];
    let summary = &product[8_486 + 10 * channel..8_486 + 10 * (channel + 1)];
    [&product[10 + channel..11 + channel], scenes, summary].concat()
}

/// The whole TNL of a channel in the feed in which lists differ.
fn nonlinearities(apart: &OneShelfApart, channel: usize) -> [i128; 2] {
    apart.lists.each_ref().map(|list| {
        let record = &list.feeds[apart.feed].record;
        let line = ShelfAndPairs::of(&list.table, record, channel).line();
        let mut all = -8_192..=8_192;
        all.find(|tnl| line.is_rounded_to(*tnl))
            .expect("every line is rounded to a whole number")
    })
}

/// Checks a channel of the shelf that differs: the same flag and marks, and the same bytes where TNL is the
/// same.
fn check_own_channel(
    apart: &OneShelfApart,
    products: [&[u8]; 2],
    channel: usize,
    counters: &mut Counters,
) -> Result<(), String> {
    let [flag, other_flag] = products.map(|product| flag_of(product, channel));
    if flag != other_flag {
        return Err("another flag".to_string());
    }
    for position in 0..SCENES {
        let [one, other] = products.map(|product| scene_of(product, channel, position));
        if (one < 0.0 || other < 0.0) && one.to_bits() != other.to_bits() {
            return Err(format!("position {}: another mark", position + 1));
        }
    }
    let [tnl, other_tnl] = nonlinearities(apart, channel);
    if tnl != other_tnl {
        counters.met("one shelf apart", "own channels, other TNL");
        return Ok(());
    }
    counters.met("one shelf apart", "own channels, same TNL");
    let [one, other] = products.map(|product| channel_bytes(product, channel));
    if one != other {
        return Err("the same TNL, another scene".to_string());
    }
    Ok(())
}

/// Checks what two such lists left.
fn check_apart(
    apart: &OneShelfApart,
    left: [&[Outcome]; 2],
    counters: &mut Counters,
) -> Result<(), String> {
    if are_alike(&apart.lists[0], &apart.lists[1]) {
        return Err("lists with another shelf temperature are alike".to_string());
    }
    counters.met("one shelf apart", "lists compared");
    for (index, (one, other)) in left[0].iter().zip(left[1]).enumerate() {
        if index == apart.feed {
            continue;
        }
        if one != other {
            return Err(format!("feed {}: another outcome", index + 1));
        }
        if index > apart.feed && one.answer == 0 {
            counters.met("one shelf apart", "feeds after it");
        }
    }
    let [one, other] = left.map(|outcomes| &outcomes[apart.feed]);
    if (one.answer, other.answer) != (0, 0) {
        return Err("the feed is refused".to_string());
    }
    let products = [&one.buffer[..LENGTH], &other.buffer[..LENGTH]];
    let own = channels_of(apart.place);
    for channel in 0..CHANNELS {
        let about = |what: String| format!("channel {}: {what}", channel + 1);
        if own.contains(&channel) {
            check_own_channel(apart, products, channel, counters).map_err(about)?;
            continue;
        }
        let [one, other] = products.map(|product| channel_bytes(product, channel));
        if one != other {
            return Err(about("it has another shelf, and differs".to_string()));
        }
        counters.met("one shelf apart", "other channels");
    }
    Ok(())
}

/// Checks that every scene of every channel of the shelf is another.
fn check_moved(
    apart: &OneShelfApart,
    left: [&[Outcome]; 2],
    counters: &mut Counters,
) -> Result<(), String> {
    let products = left.map(|outcomes| &outcomes[apart.feed].buffer[..LENGTH]);
    for channel in channels_of(apart.place) {
        for position in 0..SCENES {
            let [one, other] = products.map(|product| scene_of(product, channel, position));
            if one < 0.0 || one == other {
                let place = format!("channel {}, position {}", channel + 1, position + 1);
                return Err(format!("{place}: {one} and {other}"));
            }
        }
        let number = (channel + 1).to_string();
        counters.met("channel moved by its shelf", &number);
    }
    let shelf = ["KKA", "V", "W", "G"][apart.place];
    counters.met("one shelf apart", &format!("{shelf} alone"));
    Ok(())
}

/// Feeds lists that differ in one shelf temperature.
pub fn checked_one_shelf(seed: u64, counters: &mut Counters) -> Result<Compared, String> {
    let any = any_shelf_apart(seed);
    let mut compared: Compared = Vec::new();
    let left = any.lists.each_ref().map(outcomes);
    check_apart(&any, [&left[0], &left[1]], counters)?;
    compared.extend(any.lists.into_iter().zip(left));

    let all = each_shelf_apart(case_seed(seed, 1));
    // The first list is the same in all four.
    let first = outcomes(&all[0].lists[0]);
    for apart in &all {
        let other = outcomes(&apart.lists[1]);
        check_apart(apart, [&first, &other], counters)?;
        check_moved(apart, [&first, &other], counters)?;
        compared.push((apart.lists[1].clone(), other));
    }
    compared.push((all[0].lists[0].clone(), first));
    Ok(compared)
}

pub fn check_one_shelf(seed: u64, counters: &mut Counters) -> Result<(), String> {
    checked_one_shelf(seed, counters).map(drop)
}

#[cfg(test)]
mod tests {
    use super::*;

    /// Two lists that differ in a shelf, and what both left.
    struct Left {
        apart: OneShelfApart,
        left: [Vec<Outcome>; 2],
    }

    impl Left {
        fn of(place: usize) -> Left {
            let apart = each_shelf_apart(1)[place].clone();
            let left = apart.lists.each_ref().map(outcomes);
            Left { apart, left }
        }

        /// What is said of them after a change of the second product, given the first.
        fn said(&self, change: impl Fn(&mut [u8], &[u8])) -> Result<(), String> {
            let [one, mut other] = self.left.clone();
            let feed = self.apart.feed;
            change(&mut other[feed].buffer, &one[feed].buffer);
            let mut counters = Counters::new();
            check_apart(&self.apart, [&one, &other], &mut counters)?;
            check_moved(&self.apart, [&one, &other], &mut counters)
        }
    }

    #[test]
    fn a_change_in_another_channel_is_noticed() {
        for place in 0..4 {
            let left = Left::of(place);
            assert_eq!(left.said(|_, _| {}), Ok(()));
            let own = channels_of(place);
            for channel in [0, 1, 2, 14, 15, 16, 21] {
                for at in [
                    10 + channel,
                    38 + 384 * channel,
                    35 + 384 * channel + 383,
                    8_487 + 10 * channel,
                ] {
                    let said = left.said(|product, _| product[at] ^= 1);
                    // Of its own channels flags and marks are compared; temperatures may be any other.
                    let is_noticed = !own.contains(&channel) || at < 35;
                    assert_eq!(said.is_err(), is_noticed, "byte {at}");
                }
            }
        }
    }

    #[test]
    fn a_channel_that_does_not_move_is_noticed() {
        for place in 0..4 {
            let left = Left::of(place);
            for channel in channels_of(place) {
                let own = 35 + 384 * channel..35 + 384 * (channel + 1);
                let unmoved = |product: &mut [u8], first: &[u8]| {
                    product[own.clone()].copy_from_slice(&first[own.clone()])
                };
                let said = left.said(unmoved).unwrap_err();
                assert!(said.starts_with(&format!("channel {}, ", channel + 1)));
            }
        }
    }
}
