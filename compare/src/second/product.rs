//! The product, 8,706 bytes.

use super::bias::Bias;
use super::bytes::{u16_at, u32_at, value};
use super::record::{ScanRecord, SCENES};
use super::scene::{scene, scene_without_bias, temperature, Scene};
use super::shelf::nonlinearity_for_scan;
use super::table::{Table, CHANNELS};
use super::window::{channel_sums, flag, WindowScan};

pub const LENGTH: usize = 8_706;

pub const LAYOUT: [(u8, usize); 4] = [(0x20, 4), (0x21, 22), (0x22, 8_448), (0x23, 220)];

/// Per channel: the count of delivered scenes, the lowest and the highest delivered temperature.
#[derive(Clone, Copy, Debug, PartialEq)]
pub struct Summary {
    pub delivered: u16,
    pub lowest: f32,
    pub highest: f32,
}

/// The summary of the scenes of a channel; both temperatures are -1.0 where none is delivered.
pub fn summary(scenes: &[Scene]) -> Summary {
    let mut summary = Summary {
        delivered: 0,
        lowest: -1.0,
        highest: -1.0,
    };
    for scene in scenes {
        if let Scene::Kelvin(kelvin) = *scene {
            if summary.delivered == 0 || kelvin < summary.lowest {
                summary.lowest = kelvin;
            }
            if summary.delivered == 0 || kelvin > summary.highest {
                summary.highest = kelvin;
            }
            summary.delivered += 1;
        }
    }
    summary
}

/// The flag of a channel, and T or the mark of each of its scenes.
fn channel_temperatures(
    table: &Table,
    current: &ScanRecord,
    window: &[WindowScan],
    channel: usize,
) -> (u8, Vec<Result<i128, Scene>>) {
    let sums = channel_sums(table, window, channel);
    let flag = flag(table, channel, &sums);
    let tnl = nonlinearity_for_scan(table, current, channel);
    let counts = current.earth_counts(channel);
    let temperatures = counts
        .iter()
        .map(|count| temperature(table, channel, &sums, tnl, flag, *count));
    (flag, temperatures.collect())
}

/// The product of the current record, which is in the window. `scene_at` makes the scene of a T or mark,
/// given its channel and position.
fn product_of(
    table: &Table,
    current: &ScanRecord,
    window: &[WindowScan],
    scene_at: impl Fn(Result<i128, Scene>, usize, usize) -> Scene,
) -> Vec<u8> {
    let mut flags = Vec::new();
    let mut scene_bytes = Vec::new();
    let mut summary_bytes = Vec::new();
    for channel in 0..CHANNELS {
        let (flag, temperatures) = channel_temperatures(table, current, window, channel);
        let places = temperatures.into_iter().enumerate();
        let scenes: Vec<Scene> = places
            .map(|(position, temperature)| scene_at(temperature, channel, position))
            .collect();
        flags.push(flag);
        for scene in &scenes {
            scene_bytes.extend(scene.value().to_bits().to_be_bytes());
        }
        let summary = summary(&scenes);
        summary_bytes.extend(summary.delivered.to_be_bytes());
        summary_bytes.extend(summary.lowest.to_bits().to_be_bytes());
        summary_bytes.extend(summary.highest.to_bits().to_be_bytes());
    }
    let number = current.number().to_be_bytes();
    let mut bytes = Vec::new();
    for (index, value) in [&number[..], &flags, &scene_bytes, &summary_bytes]
        .into_iter()
        .enumerate()
    {
        let (tag, length) = LAYOUT[index];
        assert_eq!(value.len(), length);
        bytes.push(tag);
        bytes.extend((length as u16).to_be_bytes());
        bytes.extend(value);
    }
    bytes
}

/// The product of the current record, which is in the window.
pub fn product(table: &Table, bias: &Bias, current: &ScanRecord, window: &[WindowScan]) -> Vec<u8> {
    product_of(table, current, window, |temperature, channel, position| {
        scene(temperature, bias.pair(channel, position))
    })
}

/// The product by the rules without scan bias: each delivered scene is T / 4096 kelvin.
pub fn product_without_bias(table: &Table, current: &ScanRecord, window: &[WindowScan]) -> Vec<u8> {
    product_of(table, current, window, |temperature, _, _| {
        scene_without_bias(temperature)
    })
}

// Reading a product, for the listing and the checks.

pub fn number_of(product: &[u8]) -> u32 {
    u32_at(value(product, &LAYOUT, 0), 0)
}

pub fn flag_of(product: &[u8], channel: usize) -> u8 {
    value(product, &LAYOUT, 1)[channel]
}

/// The f32 of a scene.
pub fn scene_of(product: &[u8], channel: usize, place: usize) -> f32 {
    let at = 4 * (SCENES * channel + place);
    f32::from_bits(u32_at(value(product, &LAYOUT, 2), at))
}

pub fn summary_of(product: &[u8], channel: usize) -> Summary {
    let part = &value(product, &LAYOUT, 3)[10 * channel..10 * (channel + 1)];
    Summary {
        delivered: u16_at(part, 0),
        lowest: f32::from_bits(u32_at(part, 2)),
        highest: f32::from_bits(u32_at(part, 6)),
    }
}

#[cfg(test)]
mod tests {
    use super::*;
    use crate::generator::biases::{BiasValues, PairValues};
    use crate::generator::random::Random;
    use crate::generator::random_biases::any_bias;
    use crate::generator::records::RecordValues;
    use crate::generator::tables::TableValues;
    use crate::second::bias::open_bias;
    use crate::second::bytes::{layout_is_right, layout_length};
    use crate::second::table::open;
    use crate::second::window::window;

    fn product_with(bias: &BiasValues, record: &RecordValues) -> Vec<u8> {
        let table = open(&TableValues::bench().encode()).unwrap();
        let bias = open_bias(&bias.encode()).unwrap();
        let record = ScanRecord::read(&record.encode()).unwrap();
        product(&table, &bias, &record, &window(&table, &[record.clone()]))
    }

    fn bench_product(record: &RecordValues) -> Vec<u8> {
        product_with(&BiasValues::zeros(), record)
    }

    /// The bench scan with a channel outside, one with marks among its scenes and one with a flag.
    fn varied_record() -> RecordValues {
        let mut record = RecordValues::bench();
        record.earth[1] = [9_999; SCENES];
        record.earth[2][0] = 10_000;
        record.earth[2][95] = 22_500;
        record.earth[2][50] = 22_501;
        record.cold[3] = [20_000; 4];
        record
    }

    #[test]
    fn a_product_has_8_706_bytes_in_four_fields() {
        assert_eq!(layout_length(&LAYOUT), LENGTH);
        let product = bench_product(&RecordValues::bench());
        assert!(layout_is_right(&product, &LAYOUT));
        assert_eq!(product[..7], [0x20, 0, 4, 0, 0, 0, 7]);
        assert_eq!(product[7..10], [0x21, 0, 22]);
        assert_eq!(product[10..32], [0; 22]);
        assert_eq!(product[32..35], [0x22, 0x21, 0x00]);
        // 565,394 / 4096 as f32.
        let kelvin = (565_394.0f32 / 4096.0).to_bits().to_be_bytes();
        for scene in product[35..8_483].chunks(4) {
            assert_eq!(scene, kelvin);
        }
        assert_eq!(product[8_483..8_486], [0x23, 0, 220]);
        for summary in product[8_486..].chunks(10) {
            assert_eq!(summary[..2], [0, 96]);
            assert_eq!(summary[2..6], kelvin);
            assert_eq!(summary[6..], kelvin);
        }
    }

    #[test]
    fn every_scene_stands_in_its_place_and_the_summary_follows() {
        let product = bench_product(&varied_record());
        assert_eq!(flag_of(&product, 3), 2);
        assert_eq!(flag_of(&product, 2), 0);
        assert_eq!(number_of(&product), 7);
        for place in 0..SCENES {
            assert_eq!(scene_of(&product, 1, place), -2.0);
            assert_eq!(scene_of(&product, 3, place), -1.0);
        }
        assert_eq!(scene_of(&product, 2, 0), 11_166.0 / 4096.0);
        assert_eq!(scene_of(&product, 2, 95), 1_395_236.0 / 4096.0);
        assert_eq!(scene_of(&product, 2, 50), -2.0);
        let none = Summary {
            delivered: 0,
            lowest: -1.0,
            highest: -1.0,
        };
        assert_eq!(summary_of(&product, 1), none);
        assert_eq!(summary_of(&product, 3), none);
        let some = Summary {
            delivered: 95,
            lowest: 11_166.0 / 4096.0,
            highest: 1_395_236.0 / 4096.0,
        };
        assert_eq!(summary_of(&product, 2), some);
    }

    #[test]
    fn a_bias_file_of_zeros_gives_the_product_without_bias() {
        let table = open(&TableValues::bench().encode()).unwrap();
        for values in [RecordValues::bench(), varied_record()] {
            let record = ScanRecord::read(&values.encode()).unwrap();
            let window = window(&table, &[record.clone()]);
            let without = product_without_bias(&table, &record, &window);
            assert_eq!(bench_product(&values), without);
        }
    }

    #[test]
    fn flags_marks_and_counts_do_not_depend_on_the_bias_file() {
        let record = varied_record();
        let without = bench_product(&record);
        let with = product_with(&any_bias(&mut Random::new(1)), &record);
        assert_eq!(with[..35], without[..35]);
        for channel in 0..CHANNELS {
            let count = |product: &[u8]| summary_of(product, channel).delivered;
            assert_eq!(count(&with), count(&without));
            for place in 0..SCENES {
                let (one, other) = (
                    scene_of(&with, channel, place),
                    scene_of(&without, channel, place),
                );
                assert_eq!(one < 0.0, other < 0.0);
                assert!(other > 0.0 || one == other, "marks have no bias");
            }
        }
    }

    #[test]
    fn each_scene_takes_its_own_pair_and_the_summary_follows() {
        let mut bias = BiasValues::zeros();
        bias.pairs[2][1] = PairValues {
            c0: -4_096,
            e: -32_768,
        };
        bias.pairs[2][94] = PairValues { c0: 1, e: 32_767 };
        // The last scene is the warmest before scan bias, and no longer after it.
        bias.pairs[2][95] = PairValues { c0: 0, e: -32_768 };
        // A mark stays.
        bias.pairs[2][50] = PairValues { c0: 7, e: 7 };
        let product = product_with(&bias, &varied_record());
        let units = |place: usize| scene_of(&product, 2, place) * 4096.0;
        // T is 11,166 at 0, 565,394 between, 1,395,236 at 95.
        assert_eq!(units(0), 11_166.0);
        assert_eq!(units(1), 278_601.0);
        assert_eq!(units(94), 848_083.0);
        assert_eq!(units(95), 697_618.0);
        assert_eq!(scene_of(&product, 2, 50), -2.0);
        let summary = summary_of(&product, 2);
        assert_eq!(summary.delivered, 95);
        assert_eq!(summary.lowest * 4096.0, 11_166.0);
        assert_eq!(summary.highest * 4096.0, 848_083.0);
        // The other channels are as without it.
        let without = bench_product(&varied_record());
        assert_eq!(product[..35 + 2 * 384], without[..35 + 2 * 384]);
        assert_eq!(product[35 + 3 * 384..8_506], without[35 + 3 * 384..8_506]);
        assert_eq!(product[8_516..], without[8_516..]);
    }
}
