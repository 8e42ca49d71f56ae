//! Streams of records for the programs, which give each record a buffer that is long enough.

use super::lists::{first_number, join, next_number, plan, planned_bytes, Behind, Plan};
use super::random::Random;
use crate::second::product::LENGTH;
use crate::second::table::open;

/// Records of 4,648 bytes each, the table they are planned for, and a bias file.
#[derive(Clone, Debug)]
pub struct RecordStream {
    pub table: Vec<u8>,
    pub bias: Vec<u8>,
    pub records: Vec<Vec<u8>>,
}

/// From this many accepted records on, seven numbers follow one another and fill the window; then
/// comes a gap that the full window passes.
fn number_behind(
    random: &mut Random,
    plan: &Plan,
    last: u32,
    accepted: usize,
    fills_from: usize,
) -> u32 {
    let number = next_number(random, last, plan.trouble);
    let gap = random.between(2, 7) as u32;
    if number <= last || accepted < fills_from {
        return number;
    }
    match accepted - fills_from {
        0..=6 => last.saturating_add(1),
        7 => last.saturating_add(gap),
        _ => number,
    }
}

/// A stream of 12 to 20 records.
pub fn record_stream(seed: u64) -> RecordStream {
    let mut random = Random::new(seed);
    let plan = plan(&mut random);
    let table_bytes = plan.table.encode();
    let table = open(&table_bytes).expect("a planned table is accepted");
    let fills_from = random.between(1, 4) as usize;
    let length = random.between(12, 20) as usize;
    let mut behind = Behind::nothing(&table);
    let mut accepted = 0;
    let mut records = Vec::new();
    while records.len() < length {
        let number = match behind.roll.last() {
            None => first_number(&mut random),
            Some(last) => number_behind(&mut random, &plan, last.number(), accepted, fills_from),
        };
        let record = planned_bytes(&mut random, &plan, &behind, number);
        // A record of another length would move all those behind it.
        if record.len() == 4_648 {
            accepted += usize::from(join(&mut behind.roll, &record, LENGTH));
            records.push(record);
        }
    }
    RecordStream {
        table: table_bytes,
        bias: plan.bias.encode(),
        records,
    }
}

#[cfg(test)]
mod tests {
    use super::*;

    /// The numbers of a stream's accepted records.
    fn accepted_numbers(stream: &RecordStream) -> Vec<u32> {
        let mut roll = Vec::new();
        let mut numbers = Vec::new();
        for record in &stream.records {
            if join(&mut roll, record, LENGTH) {
                numbers.push(roll[roll.len() - 1].number());
            }
        }
        numbers
    }

    #[test]
    fn a_full_window_passes_a_gap_in_most_streams() {
        let mut passed = 0;
        for seed in 0..20 {
            let stream = record_stream(seed);
            assert!(stream.records.len() >= 12);
            assert!(stream.records.iter().all(|record| record.len() == 4_648));
            let passes = |nine: &[u32]| nine[7] - nine[0] == 7 && nine[8] - nine[7] > 1;
            passed += usize::from(accepted_numbers(&stream).windows(9).any(passes));
        }
        assert!(passed > 10, "{passed} of 20");
    }
}
