//! Lookups of the count behind a temperature: questions that aim at the edges of what a channel delivers, and
//! lists and states that are asked.

use super::halves::halves_list;
use super::kept_channels::delivering_channel;
use super::layouts::{head_positions, RECORD};
use super::lists::{feed_list, short_buffer, Feed, FeedList};
use super::random::Random;
use super::random_biases::accepted_bias;
use super::random_tables::accepted_table;
use super::records::RecordValues;
use super::states::{changed, made_up, StateValues};
use crate::second::calibrator::Calibrator;
use crate::second::product::flag_of;
use crate::second::table::CHANNELS;

/// Which count is behind a wanted T in a channel, counted from 1.
#[derive(Clone, Copy, Debug, PartialEq, Eq)]
pub struct Question {
    pub channel: u32,
    pub wanted: u32,
    /// What stands in the place of the count before.
    pub before: u16,
}

impl Question {
    pub fn new(random: &mut Random, channel: u32, wanted: u32) -> Question {
        Question {
            channel,
            wanted,
            before: random.next() as u16 | 1,
        }
    }
}

/// Channels that the instrument does not have: beside 1 and 22, and such as are one of them in fewer bits.
pub const NO_CHANNELS: [u32; 7] = [0, 23, 24, 257, 65_537, 1 << 31 | 1, u32::MAX];

/// Wanted T in a channel that delivers these counts, each with its T, in order: at the ends of T and of u32, at
/// the first and the last T, at some between them, and one beside each, such as are a delivered T in fewer bits,
/// and any.
pub fn aimed_wanted(random: &mut Random, delivered: &[(u16, u32)]) -> Vec<u32> {
    let any = random.next() as u32;
    let near = random.between(10_000, 1_900_000) as u32;
    let mut all = vec![0, 1, 16_777_215, 16_777_216, u32::MAX, any, near];
    let [(_, first), .., (_, last)] = delivered else {
        all.extend(delivered.iter().flat_map(|(_, t)| [t - 1, *t, t + 1]));
        return all;
    };
    let mut some = vec![*first, *last];
    for _ in 0..3 {
        some.push(random.pick(delivered).1);
    }
    all.extend(some.iter().flat_map(|t| [t - 1, *t, t + 1]));
    all.extend([
        some[2] + (1 << 21),
        some[3] + (1 << 24),
        some[4] + (1 << 31),
    ]);
    all.push(random.between(*first as i64, *last as i64) as u32);
    all
}

/// A list up to the feed behind the one after which it is asked.
#[derive(Clone, Debug)]
pub struct AskedList {
    /// Its last two feeds are accepted, and behind the last but one some channel has flag 0.
    pub list: FeedList,
    /// Refused before a first scan.
    pub refused_first: Feed,
    /// Refused behind the last but one, with 4, 5, 6 and 7. They have the samples of the last.
    pub refused: [Feed; 4],
}

impl AskedList {
    /// The feed after which it is asked.
    pub fn asked(&self) -> usize {
        self.list.feeds.len() - 2
    }
}

/// The feeds of a list that are accepted, and whether some channel has flag 0 there.
fn accepted_feeds(list: &FeedList) -> Vec<Option<bool>> {
    let opened = Calibrator::of_files(&list.table, &list.bias);
    let mut calibrator = opened.expect("a list has an accepted table and bias file");
    let mut all = Vec::new();
    for feed in &list.feeds {
        let mut buffer = feed.buffer.clone();
        let fed = calibrator.feed(&feed.record, &mut buffer);
        calibrator = fed.calibrator;
        let is_usable = || (0..CHANNELS).any(|channel| flag_of(&buffer, channel) == 0);
        all.push(fed.answer.is_ok().then(is_usable));
    }
    all
}

/// A feed made of an accepted one, which is refused with this number, 4 to 7, behind this last number.
fn refused_feed(random: &mut Random, feed: &Feed, last: u32, number: u8) -> Feed {
    let mut refused = feed.clone();
    match number {
        4 => {
            let length = random.pick(&[4_629, 4_647, 4_649]);
            refused.record.resize(length, 0);
        }
        5 => refused.record[random.pick(&head_positions(&RECORD))] ^= 1,
        6 => {
            let mut record = RecordValues::decode(&feed.record);
            let lower = random.between(0, last as i64) as u32;
            record.number = random.pick(&[last, last.saturating_sub(1), lower]);
            refused.record = record.encode();
        }
        _ => refused.buffer = short_buffer(random),
    }
    refused
}

/// A list with halves in its last feed but one: the last has the same samples and the next number.
fn list_behind_halves(random: &mut Random) -> FeedList {
    loop {
        let mut list = halves_list(random.next());
        let mut next = list.feeds[list.feeds.len() - 1].clone();
        let mut record = RecordValues::decode(&next.record);
        if let Some(number) = record.number.checked_add(1) {
            record.number = number;
            next.record = record.encode();
            list.feeds.push(next);
            return list;
        }
    }
}

pub fn asked_list(seed: u64) -> AskedList {
    let mut random = Random::new(seed);
    let has_halves = random.once_in(3);
    loop {
        let mut list = if has_halves {
            list_behind_halves(&mut random)
        } else {
            feed_list(random.next())
        };
        let accepted = accepted_feeds(&list);
        let is_right =
            |index: &usize| accepted[*index] == Some(true) && accepted[index + 1].is_some();
        let first = if has_halves { accepted.len() - 2 } else { 0 };
        let places: Vec<usize> = (first..accepted.len() - 1).filter(is_right).collect();
        if places.is_empty() {
            continue;
        }
        let asked = random.pick(&places);
        list.feeds.truncate(asked + 2);
        let last = RecordValues::decode(&list.feeds[asked].record).number;
        let next = list.feeds[asked + 1].clone();
        let first = random.pick(&[4, 5, 7]);
        let refused_first = refused_feed(&mut random, &next, last, first);
        let refused = [4, 5, 6, 7].map(|number| refused_feed(&mut random, &next, last, number));
        return AskedList {
            list,
            refused_first,
            refused,
        };
    }
}

/// A state that no run needs to reach, under any accepted table and bias file.
fn made_up_state(random: &mut Random) -> StateValues {
    let table = accepted_table(random.next()).encode();
    let bias = accepted_bias(random.next()).encode();
    made_up(random, table, bias)
}

/// A made-up state in which every channel delivers some count.
pub fn delivering_state(seed: u64) -> Vec<u8> {
    let mut random = Random::new(seed);
    let mut values = made_up_state(&mut random);
    values.accepted = 1;
    values.kept = 1;
    values.channels = [(); 22].map(|_| delivering_channel(&mut random));
    values.encode()
}

/// A made-up state, mostly with channels at the ends of their ranges; some are changed, or have bytes behind.
pub fn asked_state(seed: u64) -> Vec<u8> {
    let mut random = Random::new(seed);
    let mut state = made_up_state(&mut random).encode();
    if random.once_in(6) {
        state = changed(&mut random, &state);
    }
    if random.once_in(4) {
        let more = random.pick(&[1, 12_576]);
        state.extend(random.bytes(more));
    }
    state
}

#[cfg(test)]
mod tests {
    use super::*;
    use crate::check::outcomes::outcomes;

    #[test]
    fn the_refused_feeds_of_a_list_are_refused() {
        for seed in 0..20 {
            let asked = asked_list(seed);
            let mut list = asked.list.clone();
            let last = list.feeds.pop().unwrap();
            list.feeds.extend(asked.refused);
            list.feeds.push(last);
            list.feeds.insert(0, asked.refused_first);
            let answers: Vec<u8> = outcomes(&list).iter().map(|one| one.answer).collect();
            let (before, behind) = answers.split_at(answers.len() - 6);
            assert_ne!(before[0], 0, "seed {seed}");
            assert_eq!(behind, [0, 4, 5, 6, 7, 0], "seed {seed}");
        }
    }

    #[test]
    fn wanted_temperatures_stand_at_and_beside_what_is_delivered() {
        let mut random = Random::new(1);
        let delivered: Vec<(u16, u32)> =
            (0..9).map(|k| (100 + k, 20_000 + 15 * k as u32)).collect();
        let all = aimed_wanted(&mut random, &delivered);
        for wanted in [0, 1, 19_999, 20_000, 20_001, 20_119, 20_120, 20_121] {
            assert!(all.contains(&wanted), "{wanted}");
        }
        let one = aimed_wanted(&mut random, &delivered[..1]);
        assert!([19_999, 20_000, 20_001].iter().all(|t| one.contains(t)));
        assert!(aimed_wanted(&mut random, &[]).contains(&u32::MAX));
    }
}
