//! Checks of the programs' inputs, and of the listing: each line against the feed it stands for,
//! delivered scenes counted in field 0x22.

use super::biases::checked_bias_answer;
use super::counters::Counters;
use super::lists::checked_outcomes;
use super::outcomes::Outcome;
use super::tables::checked_answer;
use crate::generator::listings::{listing_input, FileInput, ListingInput};
use crate::generator::lists::{Feed, FeedList};
use crate::second::listing::listing;
use crate::second::product::{number_of, LENGTH};

/// The line of an accepted feed, from the product's bytes by positions counted by hand.
fn line_of(product: &[u8]) -> String {
    let number = u32::from_be_bytes([product[3], product[4], product[5], product[6]]);
    let flags: String = product[10..32]
        .iter()
        .map(|flag| flag.to_string())
        .collect();
    // A mark is negative: its first bit is set.
    let delivered = product[35..8_483].chunks(4).filter(|scene| scene[0] < 128);
    format!(
        "scan {number} delivered {} flags {flags}",
        delivered.count()
    )
}

/// Counts what the numbers of a stream's accepted records show the programs.
fn count_numbers(numbers: &[u32], counters: &mut Counters) {
    let mut met = |class: &str| counters.met("program input", class);
    if numbers.windows(2).any(|pair| pair[1] - pair[0] > 1) {
        met("gap between numbers");
    }
    let full = |window: &[u32]| window[7] - window[0] == 7;
    if numbers.windows(8).any(full) {
        met("full window");
    }
    let gap_after = |nine: &[u32]| full(nine) && (2..=7).contains(&(nine[8] - nine[7]));
    if numbers.windows(9).any(gap_after) {
        met("gap after a full window");
    }
}

/// Counts what stands under the name of a file.
fn count_file(name: &str, file: &FileInput, counters: &mut Counters) {
    let class = match file {
        FileInput::Missing => format!("{name} missing"),
        FileInput::Folder => format!("{name} a folder"),
        FileInput::Bytes(_) => return,
    };
    counters.met("program input", &class);
}

/// Counts an input whose table is accepted, with the answer to its bias file.
fn count_bias(bias: &FileInput, answer: u8, counters: &mut Counters) {
    count_file("bias", bias, counters);
    if let Some(length @ (8_450 | 8_452)) = bias.bytes().map(<[u8]>::len) {
        counters.met("program input", &format!("bias of {length} bytes"));
    }
    if answer == 3 {
        counters.met("program input", "bias with a c0 outside");
    }
    if answer != 0 {
        counters.met("program input", "bias refused");
    }
}

/// The refusal of an input's table, or else that of its bias file, or 0.
fn checked_files(input: &ListingInput, counters: &mut Counters) -> Result<u8, String> {
    count_file("table", &input.table, counters);
    let bytes = |file: &FileInput| file.bytes().unwrap_or(&[]).to_vec();
    let table = checked_answer(&bytes(&input.table), counters)?;
    let bias = checked_bias_answer(&bytes(&input.bias), counters)?;
    if table == 0 {
        count_bias(&input.bias, bias, counters);
        return Ok(bias);
    }
    counters.met("program input", "table refused");
    if bias != 0 && bias != table {
        counters.met("program input", "bias refused with another number");
    }
    Ok(table)
}

/// What the records of an input leave, or the refusal of its table or bias file.
pub fn checked_stream(
    input: &ListingInput,
    counters: &mut Counters,
) -> Result<Result<Vec<Outcome>, u8>, String> {
    let number = checked_files(input, counters)?;
    let (FileInput::Bytes(table), FileInput::Bytes(bias), 0) = (&input.table, &input.bias, number)
    else {
        return Ok(Err(number));
    };
    let feed = |record: &[u8]| Feed {
        record: record.to_vec(),
        buffer: vec![0; LENGTH],
    };
    let feeds: Vec<Feed> = input.input.chunks(4_648).map(feed).collect();
    if feeds.is_empty() {
        counters.met("program input", "empty input");
    }
    if input.input.len() % 4_648 != 0 {
        counters.met("program input", "short last record");
    }
    if input.input.len() / 4_648 >= 12 {
        counters.met("program input", "12 or more records");
    }
    let list = FeedList {
        table: table.clone(),
        bias: bias.clone(),
        feeds,
    };
    let outcomes = checked_outcomes(&list, counters)?;
    let accepted = outcomes.iter().filter(|outcome| outcome.answer == 0);
    let numbers: Vec<u32> = accepted.map(|outcome| number_of(&outcome.buffer)).collect();
    count_numbers(&numbers, counters);
    Ok(Ok(outcomes))
}

pub fn check_listing(seed: u64, counters: &mut Counters) -> Result<(), String> {
    checked_listing(&listing_input(seed), counters).map(drop)
}

/// The printed text.
pub fn checked_listing(input: &ListingInput, counters: &mut Counters) -> Result<String, String> {
    let printed = listing(input.table.bytes(), input.bias.bytes(), &input.input);
    let mut expected = String::new();
    match checked_stream(input, counters)? {
        Err(number) => expected += &format!("refused {number}\n"),
        Ok(outcomes) => {
            for outcome in outcomes {
                if outcome.answer == 0 {
                    counters.met("listing", "scan line");
                    expected += &format!("{}\n", line_of(&outcome.buffer));
                } else {
                    counters.met("listing", "refused line");
                    expected += &format!("refused {}\n", outcome.answer);
                }
            }
        }
    }
    if printed != expected {
        return Err(format!("listing:\n{printed}expected:\n{expected}"));
    }
    Ok(printed)
}

#[cfg(test)]
mod tests {
    use super::*;

    fn met(numbers: &[u32]) -> [u64; 3] {
        let mut counters = Counters::new();
        count_numbers(numbers, &mut counters);
        [
            "gap between numbers",
            "full window",
            "gap after a full window",
        ]
        .map(|class| counters.count("program input", class))
    }

    #[test]
    fn eight_numbers_without_a_gap_are_a_full_window() {
        assert_eq!(met(&[1, 2, 3, 4, 5, 6, 7]), [0, 0, 0]);
        assert_eq!(met(&[1, 2, 3, 4, 5, 6, 7, 9]), [1, 0, 0]);
        assert_eq!(met(&[1, 2, 3, 4, 5, 6, 7, 8]), [0, 1, 0]);
        assert_eq!(met(&[1, 2, 3, 4, 5, 6, 7, 8, 15]), [1, 1, 1]);
        // Nothing of the full window is left.
        assert_eq!(met(&[1, 2, 3, 4, 5, 6, 7, 8, 16]), [1, 1, 0]);
    }
}
