//! Lists of feeds laid out one after the other, whole or with something missing.

use super::lists::{feed_list, FeedList};
use super::random::Random;
use super::random_biases::{bias_bytes, refused_bias};
use super::random_tables::{refused_table, table_bytes};
use crate::second::station::LaidOut;

/// A list laid out. The answers are filled with a number that no feed is answered with.
pub fn lay_out(list: &FeedList) -> LaidOut {
    let feeds = &list.feeds;
    LaidOut {
        table: list.table.clone(),
        bias: list.bias.clone(),
        records: feeds.iter().flat_map(|feed| feed.record.clone()).collect(),
        record_lengths: feeds.iter().map(|feed| feed.record.len() as u32).collect(),
        buffers: feeds.iter().flat_map(|feed| feed.buffer.clone()).collect(),
        buffer_lengths: feeds.iter().map(|feed| feed.buffer.len() as u32).collect(),
        answers: vec![77; feeds.len()],
    }
}

/// Takes some from the end.
fn cut<T>(random: &mut Random, values: &mut Vec<T>) {
    let any = random.below(values.len() + 1);
    let less = random.pick(&[1, 1, 2, any]).min(values.len());
    values.truncate(values.len() - less);
}

/// Makes one length the greatest there is, 0, or one off.
fn change_one(random: &mut Random, lengths: &mut [u32]) {
    if lengths.is_empty() {
        return;
    }
    let index = random.below(lengths.len());
    let length = lengths[index];
    let choices = [u32::MAX, 0, length.wrapping_sub(1), length.wrapping_add(1)];
    lengths[index] = random.pick(&choices);
}

pub fn laid_out(seed: u64) -> LaidOut {
    let mut random = Random::new(seed);
    let mut list = lay_out(&feed_list(random.next()));
    match random.below(16) {
        0 => list.table = table_bytes(random.next()),
        1 => cut(&mut random, &mut list.table),
        2 => cut(&mut random, &mut list.records),
        3 => cut(&mut random, &mut list.buffers),
        4 => cut(&mut random, &mut list.record_lengths),
        5 => cut(&mut random, &mut list.buffer_lengths),
        6 => cut(&mut random, &mut list.answers),
        7 => change_one(&mut random, &mut list.record_lengths),
        8 => change_one(&mut random, &mut list.buffer_lengths),
        9 => list.answers.extend(vec![77; random.below(4)]),
        10 => list.bias = bias_bytes(random.next()),
        11 => cut(&mut random, &mut list.bias),
        12 | 13 => {
            // Both refused.
            let numbers = [random.between(1, 3) as u8, random.between(1, 3) as u8];
            list.table = refused_table(&mut random, numbers[0]);
            list.bias = refused_bias(&mut random, numbers[1]);
        }
        14 => {
            list.records.extend(random.bytes(9));
            list.buffers.extend(random.bytes(9));
            list.record_lengths.push(9);
            list.buffer_lengths.push(10);
        }
        _ => {}
    }
    list
}
