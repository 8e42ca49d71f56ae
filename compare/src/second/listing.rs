//! Listing program: the text printed for a table file, a bias file and a standard input.

use super::bytes::layout_length;
use super::calibrator::Calibrator;
use super::product::{flag_of, number_of, summary_of, LENGTH};
use super::record::LAYOUT;
use super::table::CHANNELS;

/// The line of an accepted feed's product.
fn scan_line(product: &[u8]) -> String {
    let number = number_of(product);
    let delivered: u32 = (0..CHANNELS)
        .map(|channel| summary_of(product, channel).delivered as u32)
        .sum();
    let flags: String = (0..CHANNELS)
        .map(|channel| (b'0' + flag_of(product, channel)) as char)
        .collect();
    format!("scan {number} delivered {delivered} flags {flags}\n")
}

/// What the listing program prints. None is a file that is missing or cannot be read; it counts as
/// length 0.
pub fn listing(table_file: Option<&[u8]>, bias_file: Option<&[u8]>, input: &[u8]) -> String {
    let files = (table_file.unwrap_or(&[]), bias_file.unwrap_or(&[]));
    let mut calibrator = match Calibrator::of_files(files.0, files.1) {
        Ok(calibrator) => calibrator,
        Err(number) => return format!("refused {number}\n"),
    };
    let mut buffer = vec![0; LENGTH];
    let mut printed = String::new();
    // The last piece may be short; an empty input has no pieces.
    for record in input.chunks(layout_length(&LAYOUT)) {
        let fed = calibrator.feed(record, &mut buffer);
        calibrator = fed.calibrator;
        match fed.answer {
            Ok(()) => printed += &scan_line(&buffer),
            Err(number) => printed += &format!("refused {number}\n"),
        }
    }
    printed
}

#[cfg(test)]
mod tests {
    use super::*;
    use crate::generator::biases::BiasValues;
    use crate::generator::random::Random;
    use crate::generator::random_biases::any_bias;
    use crate::generator::records::RecordValues;
    use crate::generator::tables::TableValues;

    /// The listing under the bench bias file.
    fn bench_listing(table: Option<&[u8]>, input: &[u8]) -> String {
        listing(table, Some(&BiasValues::zeros().encode()), input)
    }

    const BENCH_LINE: &str = "scan 7 delivered 2112 flags 0000000000000000000000\n";

    #[test]
    fn the_bench_scan_prints_its_line() {
        let table = TableValues::bench().encode();
        let record = RecordValues::bench().encode();
        assert_eq!(bench_listing(Some(&table), &record), BENCH_LINE);
    }

    #[test]
    fn a_short_last_record_is_refused_with_4() {
        let table = TableValues::bench().encode();
        let record = RecordValues::bench().encode();
        for short in [1, 4_629, 4_647] {
            let input = [&record[..], &record[..short]].concat();
            let expected = format!("{BENCH_LINE}refused 4\n");
            assert_eq!(bench_listing(Some(&table), &input), expected);
        }
        let twice = [&record[..], &record[..]].concat();
        let expected = format!("{BENCH_LINE}refused 6\n");
        assert_eq!(bench_listing(Some(&table), &twice), expected);
    }

    #[test]
    fn an_empty_input_prints_nothing() {
        let table = TableValues::bench().encode();
        assert_eq!(bench_listing(Some(&table), &[]), "");
    }

    #[test]
    fn a_refused_table_prints_one_line_only() {
        let record = RecordValues::bench().encode();
        let table = TableValues::bench().encode();
        assert_eq!(bench_listing(None, &record), "refused 1\n");
        assert_eq!(bench_listing(Some(&[]), &record), "refused 1\n");
        let mut wrong = table.clone();
        wrong[0] = 0x11;
        assert_eq!(bench_listing(Some(&wrong), &record), "refused 2\n");
        let mut wrong = table.clone();
        wrong[3] = 0;
        assert_eq!(bench_listing(Some(&wrong), &[]), "refused 3\n");
        let longer = [&table[..], &[0]].concat();
        assert_eq!(bench_listing(Some(&longer), &record), "refused 1\n");
    }

    #[test]
    fn a_refused_bias_file_prints_one_line_only() {
        let record = RecordValues::bench().encode();
        let table = TableValues::bench().encode();
        let zeros = BiasValues::zeros().encode();
        let with = |bias: Option<&[u8]>| listing(Some(&table), bias, &record);
        assert_eq!(with(Some(&zeros)), BENCH_LINE);
        assert_eq!(with(None), "refused 1\n");
        assert_eq!(with(Some(&[])), "refused 1\n");
        assert_eq!(with(Some(&zeros[..8_450])), "refused 1\n");
        let longer = [&zeros[..], &[0]].concat();
        assert_eq!(with(Some(&longer)), "refused 1\n");
        let mut wrong = zeros.clone();
        wrong[2] = 1;
        assert_eq!(with(Some(&wrong)), "refused 2\n");
        let mut wrong = zeros.clone();
        wrong[3] = 0x11;
        assert_eq!(with(Some(&wrong)), "refused 3\n");
        // A refused table gives its line alone.
        assert_eq!(listing(None, Some(&wrong), &record), "refused 1\n");
        let mut other = table.clone();
        other[0] = 0x11;
        assert_eq!(listing(Some(&other), Some(&wrong), &record), "refused 2\n");
        assert_eq!(listing(Some(&other), None, &record), "refused 2\n");
    }

    #[test]
    fn the_bias_file_changes_no_line() {
        let table = TableValues::bench().encode();
        let bias = any_bias(&mut Random::new(4)).encode();
        let record = RecordValues::bench().encode();
        assert_eq!(listing(Some(&table), Some(&bias), &record), BENCH_LINE);
    }

    #[test]
    fn flags_are_printed_as_digits_and_outside_scenes_are_not_delivered() {
        let table = TableValues::bench().encode();
        let mut record = RecordValues::bench();
        record.number = 4_294_967_295;
        record.earth[0][0] = 0;
        record.earth[0][1] = 65_535;
        record.warm[1] = [0, 0, 100, 100];
        record.cold[21] = [0, 0, 100, 100];
        for index in 8..12 {
            record.thermometers[index] = 0;
        }
        let expected = format!(
            "scan 4294967295 delivered {} flags 0200000000000001111111\n",
            15 * 96 - 96 - 2
        );
        assert_eq!(bench_listing(Some(&table), &record.encode()), expected);
    }
}
