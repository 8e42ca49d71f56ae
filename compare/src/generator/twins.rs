//! The alike twin of a list: what was rejected is changed, what was accepted stays.

use super::lists::{long_buffer, random_buffer, short_buffer, Feed, FeedList};
use super::random::Random;
use super::records::RecordValues;
use crate::second::acceptance::accepted_samples;
use crate::second::calibrator::judge;
use crate::second::record::ScanRecord;
use crate::second::table::{open, Table};

/// The same record with rejected samples changed to other rejected ones: each change is kept only
/// if the accepted samples stay.
fn change_rejected_samples(random: &mut Random, table: &Table, bytes: &[u8]) -> Vec<u8> {
    let read = |values: &RecordValues| ScanRecord::read(&values.encode()).unwrap();
    let mut values = RecordValues::decode(bytes);
    let accepted = accepted_samples(table, &read(&values));

    // All four counts of each side: the places that were not accepted get other counts.
    let mut tried = values.clone();
    for channel in 0..22 {
        for place in 0..4 {
            let warm_kept = accepted.warm[channel]
                .iter()
                .any(|kept| kept.place == place);
            let cold_kept = accepted.cold[channel]
                .iter()
                .any(|kept| kept.place == place);
            let beside = random.between(-2, 2) as i16;
            if !warm_kept {
                let near = values.warm[channel][place].wrapping_add_signed(beside);
                let any = random.next() as u16;
                tried.warm[channel][place] = random.pick(&[near, any, 0, 65_535]);
            }
            if !cold_kept {
                let near = values.cold[channel][place].wrapping_add_signed(beside);
                let any = random.next() as u16;
                tried.cold[channel][place] = random.pick(&[near, any, 0, 65_535]);
            }
        }
    }
    let with_tried = accepted_samples(table, &read(&tried));
    for channel in 0..22 {
        let same = with_tried.warm[channel] == accepted.warm[channel]
            && with_tried.cold[channel] == accepted.cold[channel];
        if same {
            values.warm[channel] = tried.warm[channel];
            values.cold[channel] = tried.cold[channel];
        }
    }

    // One thermometer after another; PAM and offset where no thermometer is accepted.
    for index in 0..15 {
        let kept = accepted
            .thermometers
            .iter()
            .any(|thermometer| thermometer.number == index + 1);
        if !kept {
            let any = random.next() as u16;
            let mut tried = values.clone();
            tried.thermometers[index] = random.pick(&[any, 0, 65_535, values.offset]);
            if accepted_samples(table, &read(&tried)).thermometers == accepted.thermometers {
                values = tried;
            }
        }
    }
    if accepted.thermometers.is_empty() {
        let mut tried = values.clone();
        tried.pam = random.next() as u16;
        tried.offset = random.next() as u16;
        if accepted_samples(table, &read(&tried))
            .thermometers
            .is_empty()
        {
            values = tried;
        }
    }
    values.encode()
}

/// A list alike to this one: refused feeds are other feeds refused with the same number, and
/// accepted ones have other rejected samples and other buffers.
pub fn alike_twin(list: &FeedList, seed: u64) -> FeedList {
    let mut random = Random::new(seed);
    let table = open(&list.table).expect("a list has an accepted table");
    let mut roll: Vec<ScanRecord> = Vec::new();
    let mut feeds = Vec::new();
    for feed in &list.feeds {
        let judged = judge(&roll, &feed.record, feed.buffer.len());
        let any_buffer = random_buffer(&mut random, 3);
        let twin = match &judged {
            Ok(_) => Feed {
                record: change_rejected_samples(&mut random, &table, &feed.record),
                buffer: long_buffer(&mut random),
            },
            Err(4) => {
                let length = random.pick(&[0, 1, 4_629, 4_647, 4_649, 9_296]);
                Feed {
                    record: random.bytes(length),
                    buffer: any_buffer,
                }
            }
            Err(5) => {
                let mut record = random.bytes(4_648);
                record[0] = random.pick(&[0, 2, 255]);
                Feed {
                    record,
                    buffer: any_buffer,
                }
            }
            Err(6) => {
                let last = roll.last().expect("6 is met only behind a record").number();
                let mut other = RecordValues::decode(&feed.record);
                other.number = random.between(0, last as i64) as u32;
                Feed {
                    record: other.encode(),
                    buffer: any_buffer,
                }
            }
            Err(_) => {
                let mut other = RecordValues::decode(&feed.record);
                other.pam = random.next() as u16;
                other.shelves = [0; 4].map(|_: i32| random.next() as i32);
                Feed {
                    record: other.encode(),
                    buffer: short_buffer(&mut random),
                }
            }
        };
        if let Ok(record) = judged {
            roll = vec![record];
        }
        feeds.push(twin);
    }
    FeedList {
        table: list.table.clone(),
        bias: list.bias.clone(),
        feeds,
    }
}
