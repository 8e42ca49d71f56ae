//! The table, 1,404 bytes, and the operation Opening a table.

use super::bytes::{i16_at, i32_at, layout_is_right, layout_length, u16_at, u32_at, value};
use super::thermometer::{inside, Coefficients, HIGHEST_T, LOWEST_T, RESISTANCE_RANGE};

pub const AGES: usize = 8;
pub const THERMOMETERS: usize = 15;
pub const CHANNELS: usize = 22;

/// Pairs of shelf temperature and TNL of a channel.
pub const PAIRS: usize = 5;

pub const LAYOUT: [(u8, usize); 4] = [(0x10, 37), (0x11, 255), (0x12, 440), (0x14, 660)];

/// The side of a channel's calibration counts.
#[derive(Clone, Copy, Debug, PartialEq, Eq)]
pub enum Side {
    Warm,
    Cold,
}

pub const SIDES: [Side; 2] = [Side::Warm, Side::Cold];

/// A warm target: KAV or WG.
#[derive(Clone, Copy, Debug, PartialEq, Eq)]
pub enum Target {
    Kav,
    Wg,
}

pub const TARGETS: [Target; 2] = [Target::Kav, Target::Wg];

impl Target {
    /// The indices from 0 of the target's thermometers.
    pub fn thermometers(self) -> std::ops::Range<usize> {
        match self {
            Target::Kav => 0..8,
            Target::Wg => 8..15,
        }
    }

    /// The target that serves the channel with this index from 0.
    pub fn of_channel(channel: usize) -> Target {
        if channel < 15 {
            Target::Kav
        } else {
            Target::Wg
        }
    }
}

/// A receiver shelf.
#[derive(Clone, Copy, Debug, PartialEq, Eq)]
pub enum Shelf {
    Kka,
    V,
    W,
    G,
}

pub const SHELVES: [Shelf; 4] = [Shelf::Kka, Shelf::V, Shelf::W, Shelf::G];

impl Shelf {
    /// The shelf that the channel with this index from 0 uses.
    pub fn of_channel(channel: usize) -> Shelf {
        match channel + 1 {
            1..=2 => Shelf::Kka,
            3..=15 => Shelf::V,
            16 => Shelf::W,
            _ => Shelf::G,
        }
    }
}

/// A shelf temperature, in units of °C, and the TNL that a channel has at it.
#[derive(Clone, Copy, Debug, PartialEq, Eq)]
pub struct ShelfPair {
    pub temperature: i128,
    pub nonlinearity: i128,
}

/// Limits, ends included, and the greatest difference that does not count.
#[derive(Clone, Copy, Debug)]
pub struct Limits {
    pub low: i128,
    pub upp: i128,
    pub difference: i128,
}

#[derive(Clone, Copy, Debug)]
pub struct Thermometer {
    /// p.
    pub weight: i128,
    pub coefficients: Coefficients,
}

#[derive(Clone, Copy, Debug)]
pub struct Channel {
    pub warm: Limits,
    pub cold: Limits,
    /// b.
    pub warm_bias: i128,
    /// rj.
    pub rayleigh_jeans: i128,
    /// sl.
    pub side_lobe: i128,
    /// The TNL of field 0x12, which has to be 0.
    pub zero_nonlinearity: i128,
    pub shelf_pairs: [ShelfPair; PAIRS],
}

impl Channel {
    pub fn limits(&self, side: Side) -> Limits {
        match side {
            Side::Warm => self.warm,
            Side::Cold => self.cold,
        }
    }

    /// Whether the pairs are in their ranges and their shelf temperatures rise strictly.
    fn shelf_pairs_are_right(&self) -> bool {
        let in_range = self.shelf_pairs.iter().all(|pair| {
            inside(pair.temperature, (LOWEST_T, HIGHEST_T))
                && inside(pair.nonlinearity, (-8_192, 8_192))
        });
        let rises = |two: &[ShelfPair]| two[0].temperature < two[1].temperature;
        in_range && self.shelf_pairs.windows(2).all(rises)
    }
}

/// An accepted table.
#[derive(Clone, Debug)]
pub struct Table {
    /// As it was opened.
    pub bytes: Vec<u8>,
    /// w0..w7.
    pub count_weights: [i128; AGES],
    /// v0..v7.
    pub thermometer_weights: [i128; AGES],
    pub thermometer_percentage: i128,
    pub warm_percentage: i128,
    pub cold_percentage: i128,
    pub least_good_kav: i128,
    pub least_good_wg: i128,
    /// R_PAM.
    pub pam_resistance: i128,
    /// T_low, T_upp and dT.
    pub thermometer_limits: Limits,
    pub thermometers: Vec<Thermometer>,
    pub channels: Vec<Channel>,
}

impl Table {
    pub fn side_percentage(&self, side: Side) -> i128 {
        match side {
            Side::Warm => self.warm_percentage,
            Side::Cold => self.cold_percentage,
        }
    }

    pub fn least_good(&self, target: Target) -> i128 {
        match target {
            Target::Kav => self.least_good_kav,
            Target::Wg => self.least_good_wg,
        }
    }

    /// The sum of all w.
    pub fn sum_of_count_weights(&self) -> i128 {
        self.count_weights.iter().sum()
    }

    /// The sum of all v.
    pub fn sum_of_thermometer_weights(&self) -> i128 {
        self.thermometer_weights.iter().sum()
    }

    /// The sum of the p of a target.
    pub fn sum_of_target_weights(&self, target: Target) -> i128 {
        target
            .thermometers()
            .map(|index| self.thermometers[index].weight)
            .sum()
    }

    fn values_and_sums_are_in_range(&self) -> bool {
        let percentage = (1, 100);
        let sum = (1, 255);
        let celsius = (LOWEST_T, HIGHEST_T);
        let correction = (0, 16_384);
        let field_10 = inside(self.thermometer_percentage, percentage)
            && inside(self.warm_percentage, percentage)
            && inside(self.cold_percentage, percentage)
            && inside(self.least_good_kav, (1, 8))
            && inside(self.least_good_wg, (1, 7))
            && inside(self.pam_resistance, RESISTANCE_RANGE)
            && inside(self.thermometer_limits.low, celsius)
            && inside(self.thermometer_limits.upp, celsius)
            && self.thermometer_limits.low <= self.thermometer_limits.upp
            && inside(self.thermometer_limits.difference, (0, 491_520));
        let field_11 = self
            .thermometers
            .iter()
            .all(|thermometer| thermometer.coefficients.are_in_range());
        let field_12 = self.channels.iter().all(|channel| {
            channel.warm.low <= channel.warm.upp
                && channel.cold.low <= channel.cold.upp
                && inside(channel.warm_bias, (-4_096, 4_096))
                && inside(channel.rayleigh_jeans, correction)
                && inside(channel.side_lobe, correction)
                && channel.zero_nonlinearity == 0
        });
        let field_14 = self.channels.iter().all(Channel::shelf_pairs_are_right);
        let sums = inside(self.sum_of_count_weights(), sum)
            && inside(self.sum_of_thermometer_weights(), sum)
            && TARGETS
                .iter()
                .all(|target| inside(self.sum_of_target_weights(*target), sum));
        field_10 && field_11 && field_12 && field_14 && sums
    }
}

fn limits_at(row: &[u8], at: usize) -> Limits {
    Limits {
        low: u16_at(row, at) as i128,
        upp: u16_at(row, at + 2) as i128,
        difference: u16_at(row, at + 4) as i128,
    }
}

fn shelf_pairs_at(row: &[u8]) -> [ShelfPair; PAIRS] {
    std::array::from_fn(|index| ShelfPair {
        temperature: i32_at(row, 6 * index) as i128,
        nonlinearity: i16_at(row, 6 * index + 4) as i128,
    })
}

/// The values of bytes whose layout is right, in whatever range.
fn read(bytes: &[u8]) -> Table {
    let general = value(bytes, &LAYOUT, 0);
    let weights_at = |at: usize| std::array::from_fn(|age| general[at + age] as i128);
    let thermometers = value(bytes, &LAYOUT, 1)
        .chunks(17)
        .map(|row| Thermometer {
            weight: row[0] as i128,
            coefficients: Coefficients {
                resistance: u32_at(row, 1) as i128,
                alpha: u32_at(row, 5) as i128,
                delta: u32_at(row, 9) as i128,
                beta: u32_at(row, 13) as i128,
            },
        })
        .collect();
    let channels = value(bytes, &LAYOUT, 2)
        .chunks(20)
        .zip(value(bytes, &LAYOUT, 3).chunks(30))
        .map(|(row, pairs)| Channel {
            warm: limits_at(row, 0),
            cold: limits_at(row, 6),
            warm_bias: i16_at(row, 12) as i128,
            rayleigh_jeans: u16_at(row, 14) as i128,
            side_lobe: u16_at(row, 16) as i128,
            zero_nonlinearity: i16_at(row, 18) as i128,
            shelf_pairs: shelf_pairs_at(pairs),
        })
        .collect();
    Table {
        bytes: bytes.to_vec(),
        count_weights: weights_at(0),
        thermometer_weights: weights_at(8),
        thermometer_percentage: general[16] as i128,
        warm_percentage: general[17] as i128,
        cold_percentage: general[18] as i128,
        least_good_kav: general[19] as i128,
        least_good_wg: general[20] as i128,
        pam_resistance: u32_at(general, 21) as i128,
        thermometer_limits: Limits {
            low: i32_at(general, 25) as i128,
            upp: i32_at(general, 29) as i128,
            difference: u32_at(general, 33) as i128,
        },
        thermometers,
        channels,
    }
}

/// The operation Opening a table: the table, or the number of the refusal.
pub fn open(bytes: &[u8]) -> Result<Table, u8> {
    if bytes.len() != layout_length(&LAYOUT) {
        return Err(1);
    }
    if !layout_is_right(bytes, &LAYOUT) {
        return Err(2);
    }
    let table = read(bytes);
    if !table.values_and_sums_are_in_range() {
        return Err(3);
    }
    Ok(table)
}

#[cfg(test)]
mod tests {
    use super::*;
    use crate::generator::table_neighbours::table_neighbours;
    use crate::generator::tables::{ShelfPairValues, TableValues};

    #[test]
    fn a_table_has_1_404_bytes() {
        assert_eq!(layout_length(&LAYOUT), 1_404);
    }

    #[test]
    fn values_stand_where_document_01_puts_them() {
        let mut values = TableValues::bench();
        values.count_weights = [1, 2, 3, 4, 5, 6, 7, 8];
        values.thermometer_weights = [8, 7, 6, 5, 4, 3, 2, 1];
        values.thermometer_percentage = 11;
        values.warm_percentage = 12;
        values.cold_percentage = 13;
        values.lowest_t = -245_760;
        values.highest_t = -3;
        values.thermometers[14].beta = 499_999;
        values.channels[21].shelf_pairs[4].nonlinearity = -8_192;
        values.channels[21].cold_upp = 777;
        let table = open(&values.encode()).unwrap();
        assert_eq!(table.count_weights, [1, 2, 3, 4, 5, 6, 7, 8]);
        assert_eq!(table.thermometer_weights, [8, 7, 6, 5, 4, 3, 2, 1]);
        assert_eq!(table.thermometer_percentage, 11);
        assert_eq!(table.side_percentage(Side::Warm), 12);
        assert_eq!(table.side_percentage(Side::Cold), 13);
        assert_eq!(table.least_good(Target::Kav), 5);
        assert_eq!(table.least_good(Target::Wg), 4);
        assert_eq!(table.pam_resistance, 2_000_000);
        assert_eq!(table.thermometer_limits.low, -245_760);
        assert_eq!(table.thermometer_limits.upp, -3);
        assert_eq!(table.thermometer_limits.difference, 100);
        assert_eq!(table.thermometers.len(), 15);
        assert_eq!(table.thermometers[14].coefficients.beta, 499_999);
        assert_eq!(table.thermometers[14].weight, 1);
        assert_eq!(table.channels.len(), 22);
        let pair = |channel: usize, index: usize| {
            let pair = table.channels[channel].shelf_pairs[index];
            (pair.temperature, pair.nonlinearity)
        };
        assert_eq!(pair(21, 4), (245_760, -8_192));
        assert_eq!(pair(21, 3), (122_880, 400));
        assert_eq!(pair(0, 0), (-245_760, 400));
        assert_eq!(table.channels[21].limits(Side::Cold).upp, 777);
        assert_eq!(table.channels[0].limits(Side::Warm).upp, 65_535);
        assert_eq!(table.sum_of_target_weights(Target::Kav), 8);
        assert_eq!(table.sum_of_target_weights(Target::Wg), 7);
    }

    #[test]
    fn refusals_1_2_and_3_and_their_accepted_neighbours() {
        let neighbours = table_neighbours(&TableValues::bench());
        let mut seen = [0; 4];
        for neighbour in &neighbours {
            let answer = open(&neighbour.bytes).err().unwrap_or(0);
            assert_eq!(answer, neighbour.answer, "{}", neighbour.description);
            seen[answer as usize] += 1;
        }
        assert!(seen.iter().all(|count| *count > 5), "{seen:?}");
    }

    #[test]
    fn pairs_stand_channel_by_channel_with_the_shelf_temperature_first() {
        let mut bytes = TableValues::bench().encode();
        assert_eq!(bytes[741..744], [0x14, 0x02, 0x94]);
        // Pair 1 of channel 1, pair 2 of channel 3 and pair 5 of channel 22.
        bytes[744..750].copy_from_slice(&[0xff, 0xfc, 0x40, 0x01, 0x00, 0x01]);
        bytes[744 + 60 + 6..][..6].copy_from_slice(&[0xff, 0xff, 0xff, 0xff, 0xe0, 0x00]);
        bytes[1_398..].copy_from_slice(&[0x00, 0x03, 0xbf, 0xff, 0x20, 0x00]);
        let table = open(&bytes).unwrap();
        let pair = |channel: usize, index: usize| {
            let pair = table.channels[channel].shelf_pairs[index];
            (pair.temperature, pair.nonlinearity)
        };
        assert_eq!(pair(0, 0), (-245_759, 1));
        assert_eq!(pair(2, 1), (-1, -8_192));
        assert_eq!(pair(21, 4), (245_759, 8_192));
        let all = (0..CHANNELS).flat_map(|channel| (0..PAIRS).map(move |index| (channel, index)));
        let changed = all.filter(|(channel, index)| pair(*channel, *index).1 != 400);
        assert_eq!(changed.count(), 3);
    }

    /// The answer to the bench table with some pairs of a channel changed.
    fn answer_with(channel: usize, change: impl Fn(&mut [ShelfPairValues; 5])) -> u8 {
        let mut values = TableValues::bench();
        change(&mut values.channels[channel].shelf_pairs);
        open(&values.encode()).err().unwrap_or(0)
    }

    #[test]
    fn shelf_temperatures_rise_strictly() {
        for channel in [0, 14, 21] {
            for index in 0..PAIRS - 1 {
                for (rise, expected) in [(1, 0), (0, 3), (-1, 3)] {
                    let answer = answer_with(channel, |pairs| {
                        pairs[index + 1].temperature = pairs[index].temperature + rise;
                    });
                    assert_eq!(answer, expected, "{rise} behind pair {}", index + 1);
                }
            }
        }
    }

    #[test]
    fn pairs_have_their_ranges() {
        let temperature =
            |index: usize, value: i32| answer_with(16, |pairs| pairs[index].temperature = value);
        assert_eq!(temperature(0, -245_760), 0);
        assert_eq!(temperature(0, -245_761), 3);
        assert_eq!(temperature(4, 245_760), 0);
        assert_eq!(temperature(4, 245_761), 3);
        for index in 0..PAIRS {
            for (value, expected) in [(-8_193, 3), (-8_192, 0), (8_192, 0), (8_193, 3)] {
                let answer = answer_with(16, |pairs| pairs[index].nonlinearity = value);
                assert_eq!(answer, expected, "TNL {value} of pair {}", index + 1);
            }
        }
    }

    #[test]
    fn the_nonlinearity_of_field_12_is_0() {
        for channel in 0..CHANNELS {
            for (value, expected) in [(-8_192, 3), (-1, 3), (0, 0), (1, 3), (400, 3)] {
                let mut values = TableValues::bench();
                values.channels[channel].zero_nonlinearity = value;
                let answer = open(&values.encode()).err().unwrap_or(0);
                assert_eq!(answer, expected, "{value} in channel {}", channel + 1);
            }
        }
    }

    #[test]
    fn a_table_without_pairs_is_refused_with_1() {
        let bytes = TableValues::bench().encode();
        assert_eq!(open(&bytes[..741]).err(), Some(1));
        assert_eq!(open(&bytes[..1_403]).err(), Some(1));
        assert!(open(&bytes).is_ok());
    }

    #[test]
    fn each_channel_has_its_shelf() {
        let shelves: Vec<Shelf> = (0..CHANNELS).map(Shelf::of_channel).collect();
        assert_eq!(shelves[..2], [Shelf::Kka; 2]);
        assert_eq!(shelves[2..15], [Shelf::V; 13]);
        assert_eq!(shelves[15..16], [Shelf::W; 1]);
        assert_eq!(shelves[16..], [Shelf::G; 6]);
    }

    #[test]
    fn the_first_test_that_applies_decides() {
        let mut bytes = TableValues::bench().encode();
        assert!(open(&bytes).is_ok());
        // A percentage of 0 and a wrong last tag: 2 before 3.
        bytes[3 + 16] = 0;
        assert_eq!(open(&bytes).err(), Some(3));
        bytes[741] = 0x13;
        assert_eq!(open(&bytes).err(), Some(2));
        bytes.push(0);
        assert_eq!(open(&bytes).err(), Some(1));
        assert_eq!(open(&[]).err(), Some(1));
    }
}
