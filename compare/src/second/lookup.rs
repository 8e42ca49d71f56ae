//! The count behind a temperature: every count from 0 to 65,535 is tried.

use super::calibrator::Calibrator;
use super::scene::{temperature, Scene};
use super::shelf::nonlinearity_for_scan;
use super::table::CHANNELS;
use super::window::{channel_sums, flag};

/// T before scan bias, or the mark, of each count from 0 to 65,535 in a channel, by the means of the last
/// accepted scan; 11 where the channel isn't 1 to 22, then 12 where no scan has been accepted or the channel's
/// flag there isn't 0.
///
/// The means are those of the roll's last record. While the roll is empty they are the numbers that the state
/// has, if it has any.
pub fn all_temperatures(
    calibrator: &Calibrator,
    channel: u32,
) -> Result<Vec<Result<i128, Scene>>, u8> {
    if channel < 1 || channel > CHANNELS as u32 {
        return Err(11);
    }
    let index = channel as usize - 1;
    let counts = 0..=u16::MAX;
    let Some(record) = calibrator.roll().last() else {
        let channels = calibrator.start().channels.as_ref().ok_or(12)?;
        let constants = channels[index].map_err(|_| 12)?;
        let all = counts.map(|count| constants.temperature(count));
        return Ok(all.collect());
    };
    let table = calibrator.table();
    let sums = channel_sums(table, &calibrator.window(), index);
    let flag = flag(table, index, &sums);
    if flag != 0 {
        return Err(12);
    }
    let tnl = nonlinearity_for_scan(table, record, index);
    let all = counts.map(|count| temperature(table, index, &sums, tnl, flag, count));
    Ok(all.collect())
}

/// The count whose scene is delivered with just the wanted T, or none; or 11 or 12.
pub fn count_behind(calibrator: &Calibrator, channel: u32, wanted: u32) -> Result<Option<u16>, u8> {
    let temperatures = all_temperatures(calibrator, channel)?;
    let mut fitting = Vec::new();
    for count in 0..=u16::MAX {
        if temperatures[count as usize] == Ok(wanted as i128) {
            fitting.push(count);
        }
    }
    assert!(fitting.len() <= 1, "no second count fits: {fitting:?}");
    Ok(fitting.first().copied())
}

#[cfg(test)]
mod tests {
    use super::*;
    use crate::generator::biases::BiasValues;
    use crate::generator::random::Random;
    use crate::generator::random_biases::any_bias;
    use crate::generator::records::RecordValues;
    use crate::generator::tables::TableValues;
    use crate::second::bias::open_bias;
    use crate::second::constants::Constants;
    use crate::second::product::LENGTH;
    use crate::second::state;
    use crate::second::table::open;
    use crate::second::window::Start;

    fn fresh_under(table: &TableValues, bias: &BiasValues) -> Calibrator {
        Calibrator::of_files(&table.encode(), &bias.encode()).unwrap()
    }

    fn fresh() -> Calibrator {
        fresh_under(&TableValues::bench(), &BiasValues::zeros())
    }

    /// Feeds a record with a buffer of this length: the calibrator, and the answer.
    fn fed(calibrator: Calibrator, record: &[u8], length: usize) -> (Calibrator, Result<(), u8>) {
        let fed = calibrator.feed(record, &mut vec![0; length]);
        (fed.calibrator, fed.answer)
    }

    fn after(calibrator: Calibrator, record: &RecordValues) -> Calibrator {
        let (calibrator, answer) = fed(calibrator, &record.encode(), LENGTH);
        assert_eq!(answer, Ok(()));
        calibrator
    }

    fn bench() -> Calibrator {
        after(fresh(), &RecordValues::bench())
    }

    /// The same calibrator as a state has it.
    fn through_state(calibrator: &Calibrator) -> Calibrator {
        state::read(&state::write(calibrator)).unwrap()
    }

    #[test]
    fn the_rows_of_the_bench_scan_lead_back_to_their_counts() {
        let rows = [
            // H5, H9, H4, H7.
            (11_166, Some(10_000)),
            (11_277, Some(10_001)),
            (565_394, Some(15_000)),
            (1_395_236, Some(22_500)),
            // Below the first, skipped, above the last.
            (11_165, None),
            (11_167, None),
            (11_276, None),
            (565_393, None),
            (565_395, None),
            (1_395_237, None),
            (0, None),
            (1, None),
            (16_777_215, None),
            (16_777_216, None),
            (u32::MAX, None),
        ];
        let calibrator = bench();
        let from_state = through_state(&calibrator);
        for (index, (wanted, expected)) in rows.into_iter().enumerate() {
            let channel = 1 + index as u32;
            let count = count_behind(&calibrator, channel, wanted);
            assert_eq!(count, Ok(expected), "{wanted}");
            assert_eq!(count_behind(&from_state, channel, wanted), count);
        }
    }

    #[test]
    fn eleven_comes_before_twelve() {
        for channel in [0, 23, 24, 257, 65_537, u32::MAX] {
            assert_eq!(count_behind(&fresh(), channel, 565_394), Err(11));
            assert_eq!(count_behind(&bench(), channel, 565_394), Err(11));
        }
        for channel in [1, 22] {
            assert_eq!(count_behind(&fresh(), channel, 565_394), Err(12));
            let count = count_behind(&bench(), channel, 565_394);
            assert_eq!(count, Ok(Some(15_000)));
        }
    }

    #[test]
    fn twelve_where_the_flag_is_not_0() {
        let mut record = RecordValues::bench();
        record.cold[4] = [20_000; 4];
        let calibrator = after(fresh(), &record);
        for (channel, expected) in [(4, Ok(Some(15_000))), (5, Err(12)), (6, Ok(Some(15_000)))] {
            assert_eq!(count_behind(&calibrator, channel, 565_394), expected);
            let from_state = through_state(&calibrator);
            assert_eq!(count_behind(&from_state, channel, 565_394), expected);
        }
        // The flag is that of the last accepted scan alone.
        record.number = 8;
        record.cold[4] = [10_000; 4];
        let calibrator = after(calibrator, &record);
        assert_eq!(count_behind(&calibrator, 5, 565_394), Ok(Some(15_000)));
    }

    #[test]
    fn each_channel_has_its_own_means() {
        let mut record = RecordValues::bench();
        for channel in 0..22 {
            record.warm[channel] = [20_000 + 100 * channel as u16; 4];
            record.cold[channel] = [10_000 + 100 * channel as u16; 4];
        }
        let calibrator = after(fresh(), &record);
        for channel in 1..=22 {
            let count = 15_000 + 100 * (channel as u16 - 1);
            let behind = count_behind(&calibrator, channel, 565_394);
            assert_eq!(behind, Ok(Some(count)), "channel {channel}");
        }
    }

    #[test]
    fn a_refused_feed_leaves_the_answers() {
        let mut other = RecordValues::bench();
        other.number = 8;
        other.warm = [[30_000; 4]; 22];
        other.shelves = [245_760; 4];
        let record = other.encode();
        let mut wrong_tag = record.clone();
        wrong_tag[0] = 2;
        other.number = 7;
        let mut calibrator = bench();
        for (record, length, number) in [
            (&record[1..], LENGTH, 4),
            (&wrong_tag[..], LENGTH, 5),
            (&other.encode()[..], LENGTH, 6),
            (&record[..], LENGTH - 1, 7),
        ] {
            let answer;
            (calibrator, answer) = fed(calibrator, record, length);
            assert_eq!(answer, Err(number));
            let count = count_behind(&calibrator, 1, 565_394);
            assert_eq!(count, Ok(Some(15_000)), "after {number}");
        }
        let (calibrator, _) = fed(calibrator, &record, LENGTH);
        let count = count_behind(&calibrator, 1, 565_394);
        assert_eq!(count, Ok(Some(20_000)), "after an accepted one");
    }

    #[test]
    fn scan_bias_has_no_part_in_it() {
        let bias = any_bias(&mut Random::new(5));
        let biased = fresh_under(&TableValues::bench(), &bias);
        let biased = after(biased, &RecordValues::bench());
        assert_eq!(count_behind(&biased, 9, 565_394), Ok(Some(15_000)));
    }

    #[test]
    fn the_shelf_is_that_of_the_last_accepted_scan() {
        let mut table = TableValues::bench();
        for pair in &mut table.channels[15].shelf_pairs {
            pair.nonlinearity = (pair.temperature / 1_228) as i16;
        }
        let mut calibrator = fresh_under(&table, &BiasValues::zeros());
        let mut record = RecordValues::bench();
        for (number, shelf, tnl) in [(1, -245_760, -200), (2, 0, 0), (3, 245_760, 200)] {
            record.number = number;
            record.shelves = [7, 7, shelf, 7];
            calibrator = after(calibrator, &record);
            let wanted = (564_994 + tnl) as u32;
            for asked in [&calibrator, &through_state(&calibrator)] {
                assert_eq!(count_behind(asked, 16, wanted), Ok(Some(15_000)));
            }
        }
    }

    /// A calibrator as a state with these numbers in every channel has it.
    fn with_numbers(constants: Constants) -> Calibrator {
        let table = open(&TableValues::bench().encode()).unwrap();
        let bias = open_bias(&BiasValues::zeros().encode()).unwrap();
        let start = Start {
            last: Some(7),
            channels: Some(vec![Ok(constants); CHANNELS]),
            ..Start::default()
        };
        Calibrator::since(table, bias, start)
    }

    #[test]
    fn the_first_and_the_last_count_can_be_answers() {
        let all = with_numbers(Constants {
            cold_temperature: 43_934,
            rise: 825_032,
            nonlinearity: 8_192,
            difference: 65_535 * 780_300,
            slope: 780_300,
            base: 0,
        });
        let count = |wanted: u32| count_behind(&all, 22, wanted).unwrap();
        assert_eq!(count(43_933), None);
        assert_eq!(count(43_934), Some(0));
        assert_eq!(count(43_934 + 825_032), Some(65_535));
        assert_eq!(count(43_934 + 825_032 + 1), None);
    }

    #[test]
    fn no_delivered_scene_has_a_wanted_t_beyond_the_guard() {
        // No state has such numbers: T is Tc at count 0.
        for (cold_temperature, is_delivered) in [
            (0, false),
            (1, true),
            (16_777_215, true),
            (16_777_216, false),
        ] {
            let calibrator = with_numbers(Constants {
                cold_temperature,
                rise: 825_032,
                nonlinearity: 0,
                difference: 12,
                slope: 12,
                base: 0,
            });
            let count = count_behind(&calibrator, 1, cold_temperature as u32);
            assert_eq!(count, Ok(is_delivered.then_some(0)));
        }
    }

    #[test]
    #[should_panic(expected = "no second count fits")]
    fn two_counts_are_never_an_answer() {
        // No state has such numbers: all counts have the same T.
        let level = with_numbers(Constants {
            cold_temperature: 11_166,
            rise: 0,
            nonlinearity: 0,
            difference: 12,
            slope: 12,
            base: 0,
        });
        let _ = count_behind(&level, 1, 11_166);
    }
}
