//! The state, 12,576 bytes: a calibrator as bytes, and the C functions that take one.

use super::bias::open_bias;
use super::bytes::{i32_at, layout_is_right, u32_at, u64_at, value};
use super::calibrator::Calibrator;
use super::constants::{scan_channels, Constants, ScanChannel};
use super::lookup;
use super::table::{open, AGES, CHANNELS, THERMOMETERS};
use super::thermometer::{inside, HIGHEST_T, KELVIN_OF_ZERO_CELSIUS, LOWEST_T};
use super::window::{KeptScan, Start, WindowScan};

pub const LENGTH: usize = 12_576;

pub const LAYOUT: [(u8, usize); 8] = [
    (0x30, 8),
    (0x31, 1_404),
    (0x32, 5),
    (0x33, 704),
    (0x34, 704),
    (0x35, 480),
    (0x36, 8_451),
    (0x37, 796),
];

/// `SNDR` in ASCII.
pub const MAGIC: u32 = 0x534e_4452;

pub const VERSION: u32 = 6;

/// The answer where bytes are no state, or where a state has no room.
pub const NO_STATE: u8 = 254;

/// The answer where no count fits a wanted T.
pub const NO_COUNT: u8 = 253;

/// Scan values, ends included: 12 times a mean count.
const SCAN_VALUE_RANGE: (i128, i128) = (0, 786_420);

/// Ends included.
const KELVIN_RANGE: (i128, i128) = (
    LOWEST_T + KELVIN_OF_ZERO_CELSIUS,
    HIGHEST_T + KELVIN_OF_ZERO_CELSIUS,
);

/// The bytes of a channel in 0x37.
const CHANNEL_LENGTH: usize = 36;

// Of the six numbers of a channel in 0x37, ends included. That of D follows 12 × Wc × Ww.
const COLD_TEMPERATURE_RANGE: (i128, i128) = (11_166, 43_934);
const RISE_RANGE: (i128, i128) = (825_032, 1_357_512);
const NONLINEARITY_RANGE: (i128, i128) = (-8_192, 8_192);
const SLOPE_RANGE: (i128, i128) = (0, 780_300);
const BASE_RANGE: (i128, i128) = (0, 51_136_960_500);

/// A side as a state has it: 0 where it is bad, else one more than the scan value.
fn side_number(scan_value: &Option<i128>) -> u32 {
    match scan_value {
        Some(a) => (a + 1) as u32,
        None => 0,
    }
}

/// A thermometer as a state has it: T, or 0 where it was not accepted.
fn thermometer_number(temperature: &Option<i128>) -> u32 {
    temperature.unwrap_or(0) as u32
}

/// What a state keeps of the scan of each age, from 0 to 7.
fn scans_by_age(window: &[WindowScan]) -> Vec<KeptScan> {
    let mut scans = vec![KeptScan::nothing(); AGES];
    for scan in window {
        scans[scan.age] = scan.kept.clone();
    }
    scans
}

/// The channels of the last accepted scan, if they are kept: of the roll's last record by this window, or as the
/// state before the roll has them.
fn last_channels(calibrator: &Calibrator, window: &[WindowScan]) -> Option<Vec<ScanChannel>> {
    match calibrator.roll().last() {
        Some(record) => Some(scan_channels(calibrator.table(), record, window)),
        None => calibrator.start().channels.clone(),
    }
}

/// A channel as a state has it: with a flag that isn't 0 the flag alone.
fn channel_bytes(channel: &ScanChannel) -> Vec<u8> {
    let mut bytes = Vec::new();
    match channel {
        Err(flag) => bytes.extend((*flag as u32).to_be_bytes()),
        Ok(constants) => {
            bytes.extend([0; 4]);
            bytes.extend((constants.cold_temperature as u32).to_be_bytes());
            bytes.extend((constants.rise as u32).to_be_bytes());
            bytes.extend((constants.nonlinearity as i32).to_be_bytes());
            bytes.extend((constants.difference as u64).to_be_bytes());
            bytes.extend((constants.slope as u32).to_be_bytes());
            bytes.extend((constants.base as u64).to_be_bytes());
        }
    }
    bytes.resize(CHANNEL_LENGTH, 0);
    bytes
}

/// The value of 0x37: 1 and the channels, or all 0 where nothing is kept.
fn channels_value(channels: &Option<Vec<ScanChannel>>) -> Vec<u8> {
    let mut value = vec![0, 0, 0, u8::from(channels.is_some())];
    for channel in channels.iter().flatten() {
        value.extend(channel_bytes(channel));
    }
    value.resize(4 + CHANNELS * CHANNEL_LENGTH, 0);
    value
}

/// The state of a calibrator.
pub fn write(calibrator: &Calibrator) -> Vec<u8> {
    let mut front = MAGIC.to_be_bytes().to_vec();
    front.extend(VERSION.to_be_bytes());
    let mut last = vec![u8::from(calibrator.last().is_some())];
    last.extend(calibrator.last().unwrap_or(0).to_be_bytes());
    let (mut warm, mut cold, mut thermometers) = (Vec::new(), Vec::new(), Vec::new());
    let window = calibrator.window();
    for scan in scans_by_age(&window) {
        for scan_value in &scan.warm {
            warm.extend(side_number(scan_value).to_be_bytes());
        }
        for scan_value in &scan.cold {
            cold.extend(side_number(scan_value).to_be_bytes());
        }
        for temperature in &scan.thermometers {
            thermometers.extend(thermometer_number(temperature).to_be_bytes());
        }
    }
    let table = calibrator.table().bytes.clone();
    let bias = calibrator.bias().bytes.clone();
    let channels = channels_value(&last_channels(calibrator, &window));
    let values = [front, table, last, warm, cold, thermometers, bias, channels];
    let mut bytes = Vec::new();
    for (index, value) in values.into_iter().enumerate() {
        let (tag, length) = LAYOUT[index];
        assert_eq!(value.len(), length);
        bytes.push(tag);
        bytes.extend((length as u16).to_be_bytes());
        bytes.extend(value);
    }
    bytes
}

/// The sides of one age, or None where a value is out of its range.
fn read_sides(field: &[u8], age: usize) -> Option<Vec<Option<i128>>> {
    let mut sides = Vec::new();
    for channel in 0..CHANNELS {
        let number = u32_at(field, 4 * (CHANNELS * age + channel)) as i128;
        if number == 0 {
            sides.push(None);
        } else if inside(number - 1, SCAN_VALUE_RANGE) {
            sides.push(Some(number - 1));
        } else {
            return None;
        }
    }
    Some(sides)
}

/// The thermometers of one age, or None where a value is out of its range.
fn read_thermometers(field: &[u8], age: usize) -> Option<Vec<Option<i128>>> {
    let mut thermometers = Vec::new();
    for index in 0..THERMOMETERS {
        let number = u32_at(field, 4 * (THERMOMETERS * age + index)) as i128;
        if number == 0 {
            thermometers.push(None);
        } else if inside(number, KELVIN_RANGE) {
            thermometers.push(Some(number));
        } else {
            return None;
        }
    }
    Some(thermometers)
}

/// A channel of 0x37, or None where it is out of its range.
fn read_channel(bytes: &[u8]) -> Option<ScanChannel> {
    let flag = u32_at(bytes, 0);
    if flag != 0 {
        let is_alone = bytes[4..].iter().all(|byte| *byte == 0);
        return (flag <= 4 && is_alone).then_some(Err(flag as u8));
    }
    let constants = Constants {
        cold_temperature: u32_at(bytes, 4) as i128,
        rise: u32_at(bytes, 8) as i128,
        nonlinearity: i32_at(bytes, 12) as i128,
        difference: u64_at(bytes, 16) as i128,
        slope: u32_at(bytes, 24) as i128,
        base: u64_at(bytes, 28) as i128,
    };
    let difference_range = (1, 65_535 * constants.slope);
    let are_inside = inside(constants.cold_temperature, COLD_TEMPERATURE_RANGE)
        && inside(constants.rise, RISE_RANGE)
        && inside(constants.nonlinearity, NONLINEARITY_RANGE)
        && inside(constants.slope, SLOPE_RANGE)
        && inside(constants.difference, difference_range)
        && inside(constants.base, BASE_RANGE);
    are_inside.then_some(Ok(constants))
}

/// The channels of 0x37, which are kept or not; None where the value is none that a state with this last accepted
/// number can have.
fn read_channels(field: &[u8], last: Option<u32>) -> Option<Option<Vec<ScanChannel>>> {
    let (first, channels) = field.split_at(4);
    match u32_at(first, 0) {
        0 => channels.iter().all(|byte| *byte == 0).then_some(None),
        1 if last.is_some() => {
            let channels = channels.chunks(CHANNEL_LENGTH).map(read_channel);
            let channels: Option<Vec<ScanChannel>> = channels.collect();
            channels.map(Some)
        }
        _ => None,
    }
}

/// The calibrator of a state, or None where the bytes are no state. Bytes behind the state are not
/// looked at. The numbers are those of the tests in section 14, of which 10 to 12 are those of 0x37.
pub fn read(bytes: &[u8]) -> Option<Calibrator> {
    // 1.
    if bytes.len() < LENGTH {
        return None;
    }
    let bytes = &bytes[..LENGTH];
    // 2.
    if !layout_is_right(bytes, &LAYOUT) {
        return None;
    }
    // 3.
    let front = value(bytes, &LAYOUT, 0);
    if u32_at(front, 0) != MAGIC || u32_at(front, 4) != VERSION {
        return None;
    }
    // 4.
    let table = open(value(bytes, &LAYOUT, 1)).ok()?;
    let bias = open_bias(value(bytes, &LAYOUT, 6)).ok()?;
    // 5 and 6.
    let number = u32_at(value(bytes, &LAYOUT, 2), 1);
    let last = match (value(bytes, &LAYOUT, 2)[0], number) {
        (0, 0) => None,
        (1, number) => Some(number),
        _ => return None,
    };
    let mut scans = Vec::new();
    for age in 0..AGES {
        // 7 and 8.
        let kept = KeptScan {
            warm: read_sides(value(bytes, &LAYOUT, 3), age)?,
            cold: read_sides(value(bytes, &LAYOUT, 4), age)?,
            thermometers: read_thermometers(value(bytes, &LAYOUT, 5), age)?,
        };
        // 9. The scan of an age has the last accepted number less the age, if that is a number.
        match last.and_then(|last| last.checked_sub(age as u32)) {
            Some(number) => scans.push((number, kept)),
            None if kept == KeptScan::nothing() => {}
            None => return None,
        }
    }
    let channels = read_channels(value(bytes, &LAYOUT, 7), last)?;
    let start = Start {
        last,
        scans,
        channels,
    };
    Some(Calibrator::since(table, bias, start))
}

/// The C function sounder_state_size.
pub fn state_size() -> usize {
    LENGTH
}

/// The C function sounder_fresh: 1 to 3 of the table, then 1 to 3 of the bias file, then 254 without room,
/// else 0. Only 0 writes.
pub fn fresh(table: &[u8], bias: &[u8], state: &mut [u8]) -> u8 {
    let calibrator = match Calibrator::of_files(table, bias) {
        Ok(calibrator) => calibrator,
        Err(number) => return number,
    };
    if state.len() < LENGTH {
        return NO_STATE;
    }
    state[..LENGTH].copy_from_slice(&write(&calibrator));
    0
}

/// The C function sounder_feed: 254 where there is no state, then 4 to 7, else 0. Only 0 writes.
pub fn feed(state: &mut [u8], record: &[u8], buffer: &mut [u8]) -> u8 {
    let Some(calibrator) = read(state) else {
        return NO_STATE;
    };
    let fed = calibrator.feed(record, buffer);
    match fed.answer {
        Err(number) => number,
        Ok(()) => {
            state[..LENGTH].copy_from_slice(&write(&fed.calibrator));
            0
        }
    }
}

/// The C function sounder_count_behind: 254 where there is no state, then 11, then 12, then 253 where no count
/// fits, else 0. Only 0 writes the count.
pub fn count_behind(state: &[u8], channel: u32, wanted: u32, count: &mut u16) -> u8 {
    let Some(calibrator) = read(state) else {
        return NO_STATE;
    };
    match lookup::count_behind(&calibrator, channel, wanted) {
        Err(number) => number,
        Ok(None) => NO_COUNT,
        Ok(Some(behind)) => {
            *count = behind;
            0
        }
    }
}

#[cfg(test)]
mod tests {
    use super::*;
    use crate::generator::biases::BiasValues;
    use crate::generator::random::Random;
    use crate::generator::random_biases::any_bias;
    use crate::generator::records::RecordValues;
    use crate::generator::tables::TableValues;
    use crate::second::bytes::layout_length;
    use crate::second::product;

    fn fresh_under(bias: &BiasValues) -> Vec<u8> {
        let mut state = vec![9; LENGTH];
        let table = TableValues::bench().encode();
        assert_eq!(fresh(&table, &bias.encode(), &mut state), 0);
        state
    }

    fn fresh_bench() -> Vec<u8> {
        fresh_under(&BiasValues::zeros())
    }

    fn numbered(number: u32) -> Vec<u8> {
        let record = RecordValues {
            number,
            ..RecordValues::bench()
        };
        record.encode()
    }

    fn fed(state: &mut [u8], number: u32) -> u8 {
        feed(state, &numbered(number), &mut vec![0; product::LENGTH])
    }

    /// The u32 at each age of a field whose ages begin at `first` and are `step` bytes apart.
    fn by_age(state: &[u8], first: usize, step: usize) -> Vec<u32> {
        (0..8)
            .map(|age| u32_at(state, first + step * age))
            .collect()
    }

    #[test]
    fn a_state_has_12_576_bytes_in_eight_fields() {
        assert_eq!(layout_length(&LAYOUT), LENGTH);
        assert_eq!(state_size(), LENGTH);
        let state = fresh_bench();
        assert!(layout_is_right(&state, &LAYOUT));
        assert_eq!(state[..11], *b"\x30\0\x08SNDR\0\0\0\x06");
        assert_eq!(state[11..14], [0x31, 0x05, 0x7c]);
        assert_eq!(state[14..1_418], TableValues::bench().encode());
        assert_eq!(state[1_418..1_421], [0x32, 0, 5]);
        assert_eq!(state[1_421..1_426], [0; 5]);
        assert_eq!(state[1_426..1_429], [0x33, 0x02, 0xc0]);
        assert_eq!(state[1_429..2_133], [0; 704]);
        assert_eq!(state[2_133..2_136], [0x34, 0x02, 0xc0]);
        assert_eq!(state[2_136..2_840], [0; 704]);
        assert_eq!(state[2_840..2_843], [0x35, 0x01, 0xe0]);
        assert_eq!(state[2_843..3_323], [0; 480]);
        assert_eq!(state[3_323..3_326], [0x36, 0x21, 0x03]);
        assert_eq!(state[3_326..11_777], BiasValues::zeros().encode());
        assert_eq!(state[11_777..11_780], [0x37, 0x03, 0x1c]);
        assert_eq!(state[11_780..], [0; 796]);
    }

    #[test]
    fn the_state_after_the_bench_scan_is_that_of_the_worked_example() {
        let mut state = fresh_bench();
        assert_eq!(fed(&mut state, 7), 0);
        let mut expected = fresh_bench();
        expected[1_421..1_426].copy_from_slice(&[1, 0, 0, 0, 7]);
        expected[1_429..1_517].copy_from_slice(&[0, 3, 0xa9, 0x81].repeat(22));
        expected[2_136..2_224].copy_from_slice(&[0, 1, 0xd4, 0xc1].repeat(22));
        expected[2_843..2_903].copy_from_slice(&[0, 0x11, 0x12, 0x66].repeat(15));
        // Flag 0, Tc 11,166, Tw - Tc 1,107,656, TNL 400, D 120,000, 12 × Wc × Ww 12, Ac × Ww 120,000.
        let channel = b"\0\0\0\0\0\0\x2b\x9e\0\x10\xe6\xc8\0\0\x01\x90\
            \0\0\0\0\0\x01\xd4\xc0\0\0\0\x0c\0\0\0\0\0\x01\xd4\xc0";
        expected[11_783] = 1;
        expected[11_784..].copy_from_slice(&channel.repeat(22));
        assert_eq!(state, expected);
    }

    #[test]
    fn a_state_keeps_its_bias_file_and_feeds_with_it() {
        let bias = any_bias(&mut Random::new(3));
        let mut state = fresh_under(&bias);
        assert_eq!(state[3_326..11_777], bias.encode());
        let mut calibrator =
            Calibrator::of_files(&TableValues::bench().encode(), &bias.encode()).unwrap();
        for number in [7, 8, 10] {
            let mut buffers = [vec![0; product::LENGTH], vec![0; product::LENGTH]];
            assert_eq!(feed(&mut state, &numbered(number), &mut buffers[0]), 0);
            calibrator = calibrator
                .feed(&numbered(number), &mut buffers[1])
                .calibrator;
            assert_eq!(buffers[0], buffers[1]);
            assert_eq!(state, write(&calibrator));
            assert_eq!(state[3_326..11_777], bias.encode());
        }
    }

    /// The answer to an empty record, fed to the fresh bench state with a change: 4 where it still is a state.
    fn answer(change: &dyn Fn(&mut Vec<u8>)) -> u8 {
        let mut state = fresh_bench();
        change(&mut state);
        feed(&mut state, &[], &mut [])
    }

    #[test]
    fn a_bias_file_in_a_state_is_opened_again() {
        assert_eq!(answer(&|_| {}), 4);
        for at in 3_323..3_329 {
            assert_eq!(answer(&|state| state[at] ^= 1), 254, "byte {at}");
        }
        for at in [3_329, 11_773] {
            for (c0, expected) in [(-4_097, 254), (-4_096, 4), (4_096, 4), (4_097, 254)] {
                let put = |state: &mut Vec<u8>| {
                    state[at..at + 2].copy_from_slice(&i16::to_be_bytes(c0));
                    state[at + 2..at + 4].copy_from_slice(&[0x80, 0]);
                };
                assert_eq!(answer(&put), expected, "c0 {c0} at {at}");
            }
        }
        for version in [0, 1, 2, 3, 4, 5, 7] {
            assert_eq!(answer(&|state| state[10] = version), 254, "{version}");
        }
        assert_eq!(answer(&|state| state.truncate(12_575)), 254);
        assert_eq!(answer(&|state| state.push(0)), 4);
        assert_eq!(answer(&|state| state.truncate(3_323)), 254);
    }

    #[test]
    fn a_state_has_the_table_with_its_pairs() {
        // The last pair of the last channel, and the TNL of field 0x12 of channel 1.
        assert_eq!(answer(&|state| state[1_413] = 0x04), 254);
        assert_eq!(answer(&|state| state[1_417] ^= 1), 4);
        assert_eq!(answer(&|state| state[14 + 320] = 1), 254);
        // A table without pairs, as states of version 3 have it: 11,114 bytes, and with more behind.
        let without_pairs = |state: &mut Vec<u8>| {
            state[10] = 3;
            state[12..14].copy_from_slice(&[0x02, 0xe5]);
            state.drain(755..1_418);
            state.truncate(11_114);
        };
        assert_eq!(answer(&without_pairs), 254);
        let longer = |state: &mut Vec<u8>| {
            without_pairs(state);
            state.extend([0; 12_576 - 11_114]);
        };
        assert_eq!(answer(&longer), 254);
    }

    #[test]
    fn a_state_keeps_nothing_of_the_shelves_but_tnl() {
        let mut states = [fresh_bench(), fresh_bench()];
        let mut record = RecordValues::bench();
        // TNL of the bench table is 400 at every shelf temperature.
        for (state, shelves) in states.iter_mut().zip([[0; 4], [i32::MIN, 5, -5, i32::MAX]]) {
            record.shelves = shelves;
            let answer = feed(state, &record.encode(), &mut vec![0; product::LENGTH]);
            assert_eq!(answer, 0);
        }
        assert_eq!(states[0], states[1]);
    }

    /// A state after the bench scan in which channel 2 has flag 3.
    fn with_a_flag() -> Vec<u8> {
        let mut record = RecordValues::bench();
        record.cold[1] = [10_000, 10_000, 10_100, 10_100];
        let mut state = fresh_bench();
        let mut buffer = vec![0; product::LENGTH];
        assert_eq!(feed(&mut state, &record.encode(), &mut buffer), 0);
        state
    }

    /// Whether bytes still are a state with this u32 at a place.
    fn is_state_with(state: &[u8], at: usize, number: u32) -> bool {
        let mut bytes = state.to_vec();
        bytes[at..at + 4].copy_from_slice(&number.to_be_bytes());
        read(&bytes).is_some()
    }

    #[test]
    fn a_channel_with_a_flag_has_only_its_flag() {
        let state = with_a_flag();
        assert_eq!(state[11_820..11_824], [0, 0, 0, 3]);
        assert_eq!(state[11_824..11_856], [0; 32]);
        for flag in 0..7 {
            let is_flag = (1..=4).contains(&flag);
            assert_eq!(is_state_with(&state, 11_820, flag), is_flag, "{flag}");
        }
        for at in (11_824..11_856).step_by(4) {
            assert!(!is_state_with(&state, at, 1), "number at {at}");
        }
        // Channel 1 has its numbers.
        assert!(!is_state_with(&state, 11_784, 3));
    }

    #[test]
    fn the_numbers_of_a_channel_have_their_ranges() {
        let mut state = fresh_bench();
        assert_eq!(fed(&mut state, 7), 0);
        // Those of channels 1 and 22.
        for first in [11_784, 12_540] {
            for (at, low, high) in [(4, 11_166, 43_934), (8, 825_032, 1_357_512)] {
                for (number, expected) in [
                    (low - 1, false),
                    (low, true),
                    (high, true),
                    (high + 1, false),
                ] {
                    let is_state = is_state_with(&state, first + at, number);
                    assert_eq!(is_state, expected, "{number} at {at}");
                }
            }
            for (tnl, expected) in [
                (-8_193, false),
                (-8_192, true),
                (8_192, true),
                (8_193, false),
            ] {
                let is_state = is_state_with(&state, first + 12, tnl as u32);
                assert_eq!(is_state, expected, "TNL {tnl}");
            }
            // 12 × Wc × Ww is 12, so that D is at most 786,420; D is 120,000, so that 12 × Wc × Ww is at least 2.
            for (at, number, expected) in [
                (20, 0, false),
                (20, 1, true),
                (20, 786_420, true),
                (20, 786_421, false),
                (16, 1, false),
                (24, 0, false),
                (24, 1, false),
                (24, 2, true),
                (24, 780_300, true),
                (24, 780_301, false),
                (32, 0, true),
                (28, 11, true),
                (28, 12, false),
            ] {
                let is_state = is_state_with(&state, first + at, number);
                assert_eq!(is_state, expected, "{number} at {at}");
            }
            // 51,136,960,500 is 11 × 2^32 + 3,892,320,244.
            let mut bytes = state.clone();
            bytes[first + 28..first + 32].copy_from_slice(&[0, 0, 0, 11]);
            assert!(is_state_with(&bytes, first + 32, 3_892_320_244));
            assert!(!is_state_with(&bytes, first + 32, 3_892_320_245));
        }
    }

    #[test]
    fn nothing_or_all_is_kept() {
        let mut state = fresh_bench();
        for at in [11_784, 11_800, 12_572] {
            assert!(!is_state_with(&state, at, 1));
        }
        // Kept, but no scan was accepted.
        let mut kept = state.clone();
        kept[11_783] = 1;
        for channel in kept[11_784..].chunks_mut(36) {
            channel[3] = 1;
        }
        assert!(read(&kept).is_none());
        kept[1_421] = 1;
        assert!(read(&kept).is_some());
        assert_eq!(write(&read(&kept).unwrap()), kept);
        assert_eq!(fed(&mut state, 7), 0);
        for first in [0, 2, 256, u32::MAX] {
            assert!(!is_state_with(&state, 11_780, first), "{first}");
        }
        // Nothing kept behind an accepted scan.
        state[11_780..].fill(0);
        assert_eq!(write(&read(&state).unwrap()), state);
        let mut count = 5;
        assert_eq!(count_behind(&state, 1, 565_394, &mut count), 12);
        assert_eq!(count_behind(&state, 23, 565_394, &mut count), 11);
        assert_eq!(count, 5);
        // The next accepted scan is kept.
        assert_eq!(fed(&mut state, 8), 0);
        assert_eq!(count_behind(&state, 1, 565_394, &mut count), 0);
        assert_eq!(count, 15_000);
    }

    #[test]
    fn only_an_answer_of_0_writes_a_count() {
        let state = with_a_flag();
        let mut count = 40_961;
        for (bytes, channel, wanted, expected) in [
            (&state[1..], 0, 565_394, 254),
            (&state[..12_575], 1, 565_394, 254),
            (&state[..], 0, 565_394, 11),
            (&state[..], 2, 565_394, 12),
            (&state[..], 1, 565_393, 253),
            (&state[..], 1, 0, 253),
        ] {
            let answer = count_behind(bytes, channel, wanted, &mut count);
            assert_eq!((answer, count), (expected, 40_961));
        }
        let longer = [&state[..], &[7; 9]].concat();
        assert_eq!(count_behind(&longer, 3, 11_277, &mut count), 0);
        assert_eq!(count, 10_001);
    }

    #[test]
    fn a_lookup_goes_by_the_numbers_as_they_stand() {
        let mut state = fresh_bench();
        assert_eq!(fed(&mut state, 7), 0);
        // Tc of channel 5 one higher than the table gives it.
        let at = 11_784 + 36 * 4 + 7;
        state[at] += 1;
        let mut count = 0;
        for (channel, wanted, expected) in [(4, 11_166, 0), (5, 11_166, 253), (5, 11_167, 0)] {
            let answer = count_behind(&state, channel, wanted, &mut count);
            assert_eq!(answer, expected);
        }
        assert_eq!(count, 10_000);
    }

    #[test]
    fn ages_are_counted_from_the_last_accepted_number() {
        let mut state = fresh_bench();
        let (warm, cold, kelvin) = (240_001, 120_001, 1_118_822);
        for number in [5, 6, 9] {
            assert_eq!(fed(&mut state, number), 0);
        }
        let ages = |present: [u32; 8], one: u32| present.map(|present| present * one).to_vec();
        let present = [1, 0, 0, 1, 1, 0, 0, 0];
        assert_eq!(by_age(&state, 1_429 + 84, 88), ages(present, warm));
        assert_eq!(by_age(&state, 2_136, 88), ages(present, cold));
        assert_eq!(by_age(&state, 2_843 + 56, 60), ages(present, kelvin));
        assert_eq!(fed(&mut state, 13), 0);
        let present = [1, 0, 0, 0, 1, 0, 0, 1];
        assert_eq!(by_age(&state, 1_429 + 84, 88), ages(present, warm));
        assert_eq!(fed(&mut state, u32::MAX), 0);
        let present = [1, 0, 0, 0, 0, 0, 0, 0];
        assert_eq!(by_age(&state, 1_429, 88), ages(present, warm));
        assert_eq!(fed(&mut state, u32::MAX), 6);
    }

    #[test]
    fn a_calibrator_that_was_read_is_written_the_same() {
        let mut state = fresh_bench();
        assert_eq!(write(&read(&state).unwrap()), state);
        for number in [0, 1, 3, 12] {
            assert_eq!(fed(&mut state, number), 0);
            assert_eq!(write(&read(&state).unwrap()), state);
        }
    }

    #[test]
    fn only_an_answer_of_0_writes() {
        let table = TableValues::bench().encode();
        let bias = BiasValues::zeros().encode();
        let mut wrong = bias.clone();
        wrong[0] = 0x12;
        let mut short = vec![9; LENGTH - 1];
        assert_eq!(fresh(&table, &bias, &mut short), 254);
        assert_eq!(fresh(&table, &wrong, &mut short), 2);
        assert_eq!(fresh(&table[1..], &wrong, &mut short), 1);
        assert_eq!(short, vec![9; LENGTH - 1]);
        let mut longer = vec![9; LENGTH + 1];
        assert_eq!(fresh(&table, &bias[1..], &mut longer), 1);
        assert_eq!(longer, vec![9; LENGTH + 1]);
        assert_eq!(fresh(&table, &bias, &mut longer), 0);
        assert_eq!((&longer[..LENGTH], longer[LENGTH]), (&fresh_bench()[..], 9));

        // 254 comes before 4 and 7.
        let mut buffer = vec![8; product::LENGTH + 1];
        assert_eq!(feed(&mut short, &[], &mut []), 254);
        assert_eq!(feed(&mut longer, &[], &mut buffer), 4);
        let few = product::LENGTH - 1;
        assert_eq!(feed(&mut longer, &numbered(7), &mut buffer[..few]), 7);
        assert_eq!(buffer, vec![8; product::LENGTH + 1]);
        assert_eq!((&longer[..LENGTH], longer[LENGTH]), (&fresh_bench()[..], 9));
        assert_eq!(feed(&mut longer, &numbered(7), &mut buffer), 0);
        assert_eq!((buffer[product::LENGTH], longer[LENGTH]), (8, 9));
        assert_eq!(longer[1_421..1_426], [1, 0, 0, 0, 7]);
    }
}
