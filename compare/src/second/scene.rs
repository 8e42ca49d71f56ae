//! Scenes and scan bias: from an earth count to a brightness temperature or a mark.

use super::bias::Pair;
use super::rounding::{r, Fraction, Mixed};
use super::table::Table;
use super::window::{cold_temperature, unrounded_warm_temperature, warm_temperature, ChannelSums};

/// A scene: a temperature in kelvin or a mark.
#[derive(Clone, Copy, Debug, PartialEq)]
pub enum Scene {
    Kelvin(f32),
    FlaggedChannel,
    Outside,
    Guard,
}

impl Scene {
    /// The f32 that stands in the product.
    pub fn value(self) -> f32 {
        match self {
            Scene::Kelvin(kelvin) => kelvin,
            Scene::FlaggedChannel => -1.0,
            Scene::Outside => -2.0,
            Scene::Guard => -3.0,
        }
    }
}

/// N for count C; x is N / D. Below 2^36, negative where the count is below the mean cold count.
pub fn numerator(sums: &ChannelSums, count: u16) -> i128 {
    (12 * sums.cold.weight * count as i128 - sums.cold.value) * sums.warm.weight
}

/// Whether x is below 0 or above 1.25.
pub fn is_outside(n: i128, d: i128) -> bool {
    n < 0 || 4 * n > 5 * d
}

/// X, x in 65,536ths, for a scene not outside: from 0 to 81,920.
pub fn rounded_share(n: i128, d: i128) -> i128 {
    r(65_536 * n, d)
}

/// T in units, for a scene not outside in a channel with flag 0.
///
/// N × (Tw - Tc) is below 2^36 × 2^21. Tw is always above Tc (see `guard_fails`) and N not
/// negative, so only the nonlinear term can be negative: for TNL below 0, or x above 1. TNL is the whole one
/// of the scan, from -8,192 to 8,192 as its pairs are.
pub fn brightness_temperature(
    warm_temperature: i128,
    cold_temperature: i128,
    nonlinearity: i128,
    n: i128,
    d: i128,
) -> i128 {
    let x = rounded_share(n, d);
    cold_temperature
        + r(n * (warm_temperature - cold_temperature), d)
        + r(4 * x * (65_536 - x) * nonlinearity, 1 << 32)
}

/// Whether T is below 1 or above 16,777,215.
///
/// No accepted table reaches this. t is from -245,760 to 245,760 and b from -4,096 to 4,096, so
/// Tw is from 868,966 to 1,368,678; Tc is from 11,166 to 43,934. T is at least Tc: where X is 0, the
/// nonlinear term is 0; else x is at least 1 / 131,072, the linear term at least 825,032 x - 1/2 and
/// the nonlinear one at least -X / 2 - 1/2, with X at most 65,536 x + 1/2. T is at most
/// 43,934 + 1.25 × 1,357,512 + 10,240 = 1,751,064.
pub fn guard_fails(temperature: i128) -> bool {
    temperature < 1 || temperature > 16_777_215
}

/// The f32 exactly equal to B / 4096, for B from 1 to 16,777,215.
///
/// A whole number below 2^24 is an f32, and so is its product with a power of two. With T from 11,166
/// to 1,751,064 (see `guard_fails`) B is at least 11,166 / 2 - 4,096 = 1,487 and below 2,700,000.
pub fn kelvin(biased: i128) -> f32 {
    assert!(1 <= biased && biased <= 16_777_215);
    biased as f32 * (1.0 / 4096.0)
}

/// E for a scene not outside in a channel with flag 0, with both denominators above 0.
///
/// E = Tc + (N / D) × (S / V - Tc) + 4 × (N / D) × ((D - N) / D) × (L / U), S / V the unrounded Tw and L / U
/// the unrounded TNL. D² V U, below which both fractions are brought, is below 2^107: D is at most
/// 255² × 786,420, V at most 255² and U at most 491,517.
pub fn exact_temperature(
    unrounded_warm_temperature: Fraction,
    cold_temperature: i128,
    unrounded_nonlinearity: Fraction,
    n: i128,
    d: i128,
) -> Mixed {
    let s = unrounded_warm_temperature.numerator;
    let v = unrounded_warm_temperature.denominator;
    let l = unrounded_nonlinearity.numerator;
    let u = unrounded_nonlinearity.denominator;
    let linear = Mixed::new(cold_temperature, n * (s - cold_temperature * v), d * v);
    let curve = Mixed::new(0, 4 * n * (d - n) * l, d * d * u);
    Mixed::new(
        linear.whole + curve.whole,
        linear.numerator * d * u + curve.numerator * v,
        d * d * v * u,
    )
}

/// E of a count in a channel with this unrounded TNL.
pub fn exact_scene(
    table: &Table,
    channel: usize,
    sums: &ChannelSums,
    unrounded_nonlinearity: Fraction,
    count: u16,
) -> Mixed {
    exact_temperature(
        unrounded_warm_temperature(table, channel, sums),
        cold_temperature(table, channel),
        unrounded_nonlinearity,
        numerator(sums, count),
        sums.difference(),
    )
}

/// T of an earth count in a channel with this TNL and flag, before scan bias, or its mark.
///
/// With flag 0 no sum below a fraction bar is 0: percentages and full sums are at least 1.
pub fn temperature(
    table: &Table,
    channel: usize,
    sums: &ChannelSums,
    nonlinearity: i128,
    flag: u8,
    count: u16,
) -> Result<i128, Scene> {
    if flag != 0 {
        return Err(Scene::FlaggedChannel);
    }
    let n = numerator(sums, count);
    let d = sums.difference();
    if is_outside(n, d) {
        return Err(Scene::Outside);
    }
    let temperature = brightness_temperature(
        warm_temperature(table, channel, sums),
        cold_temperature(table, channel),
        nonlinearity,
        n,
        d,
    );
    if guard_fails(temperature) {
        return Err(Scene::Guard);
    }
    Ok(temperature)
}

/// The scene of a T or mark: T with its scan bias, a mark as it is.
pub fn scene(temperature: Result<i128, Scene>, pair: Pair) -> Scene {
    match temperature {
        Ok(temperature) => Scene::Kelvin(kelvin(pair.biased(temperature))),
        Err(mark) => mark,
    }
}

/// The scene by the rules without scan bias.
pub fn scene_without_bias(temperature: Result<i128, Scene>) -> Scene {
    match temperature {
        Ok(temperature) => Scene::Kelvin(kelvin(temperature)),
        Err(mark) => mark,
    }
}

#[cfg(test)]
mod tests {
    use super::*;
    use crate::generator::biases::BiasValues;
    use crate::generator::records::RecordValues;
    use crate::generator::tables::TableValues;
    use crate::second::bias::open_bias;
    use crate::second::record::ScanRecord;
    use crate::second::shelf::{nonlinearity_for_scan, unrounded_nonlinearity_for_scan};
    use crate::second::table::open;
    use crate::second::window::{channel_sums, window, SideSums, ThermometerSums};

    /// Channel 4 of one scan.
    struct Fourth {
        table: Table,
        record: ScanRecord,
        sums: ChannelSums,
    }

    impl Fourth {
        fn of(table: &TableValues, record: &RecordValues) -> Fourth {
            let table = open(&table.encode()).unwrap();
            let record = ScanRecord::read(&record.encode()).unwrap();
            let sums = channel_sums(&table, &window(&table, &[record.clone()]), 3);
            Fourth {
                table,
                record,
                sums,
            }
        }

        fn bench() -> Fourth {
            Fourth::of(&TableValues::bench(), &RecordValues::bench())
        }

        /// T or the mark of a count.
        fn temperature(&self, count: u16) -> Result<i128, Scene> {
            let tnl = nonlinearity_for_scan(&self.table, &self.record, 3);
            temperature(&self.table, 3, &self.sums, tnl, 0, count)
        }

        fn exact(&self, count: u16) -> Mixed {
            let tnl = unrounded_nonlinearity_for_scan(&self.table, &self.record, 3);
            exact_scene(&self.table, 3, &self.sums, tnl, count)
        }
    }

    /// T or the mark of a count of the bench scan.
    fn bench_temperature(count: u16) -> Result<i128, Scene> {
        Fourth::bench().temperature(count)
    }

    /// The scene of a count of the bench scan under the bench bias file.
    fn bench_scene(count: u16) -> Scene {
        let bias = open_bias(&BiasValues::zeros().encode()).unwrap();
        scene(bench_temperature(count), bias.pair(3, 0))
    }

    fn units(temperature: i128) -> Scene {
        Scene::Kelvin(temperature as f32 / 4096.0)
    }

    #[test]
    fn h4_half_way() {
        assert_eq!(bench_scene(15_000), units(565_394));
    }

    #[test]
    fn h5_at_cold() {
        assert_eq!(bench_scene(10_000), units(11_166));
    }

    #[test]
    fn h6_below_cold_is_outside() {
        assert_eq!(bench_scene(9_999), Scene::Outside);
    }

    #[test]
    fn h7_at_one_and_a_quarter() {
        assert_eq!(bench_scene(22_500), units(1_395_236));
    }

    #[test]
    fn h8_beyond_one_and_a_quarter_is_outside() {
        assert_eq!(bench_scene(22_501), Scene::Outside);
    }

    #[test]
    fn h9_one_count_above_cold() {
        assert_eq!(bench_scene(10_001), units(11_277));
    }

    #[test]
    fn a_bias_of_zeros_gives_the_scene_without_bias() {
        let bench = Fourth::bench();
        let none = Pair { c0: 0, e: 0 };
        for count in 9_000..23_000 {
            let temperature = bench.temperature(count);
            let without = scene_without_bias(temperature);
            assert_eq!(scene(temperature, none), without, "{count}");
        }
    }

    #[test]
    fn scan_bias_moves_temperatures_and_leaves_marks() {
        let pair = Pair {
            c0: 4_096,
            e: -32_768,
        };
        assert_eq!(scene(Ok(565_395), pair), units(286_794));
        assert_eq!(scene(Ok(565_393), pair), units(286_792));
        for mark in [Scene::FlaggedChannel, Scene::Outside, Scene::Guard] {
            assert_eq!(scene(Err(mark), pair), mark);
        }
        // The guard looks at T alone: B of the bench scan's coldest scene is far below T.
        let lowest = Pair {
            c0: -4_096,
            e: -32_768,
        };
        assert_eq!(scene(bench_temperature(10_000), lowest), units(1_487));
    }

    #[test]
    fn flagged_comes_before_outside() {
        let table = open(&TableValues::bench().encode()).unwrap();
        let sums = ChannelSums {
            warm: SideSums {
                weight: 0,
                value: 0,
            },
            cold: SideSums {
                weight: 0,
                value: 0,
            },
            thermometers: ThermometerSums {
                weight: 0,
                temperature: 0,
            },
        };
        for flag in 1..=4 {
            let mark = temperature(&table, 0, &sums, 400, flag, 0);
            assert_eq!(mark, Err(Scene::FlaggedChannel));
        }
    }

    #[test]
    fn marks_and_kelvin_have_their_values() {
        assert_eq!(Scene::FlaggedChannel.value().to_bits(), 0xbf80_0000);
        assert_eq!(Scene::Outside.value().to_bits(), 0xc000_0000);
        assert_eq!(Scene::Guard.value().to_bits(), 0xc040_0000);
        assert_eq!(Scene::Kelvin(1.5).value(), 1.5);
    }

    #[test]
    fn guard_includes_both_ends() {
        let rows = [
            (-1, true),
            (0, true),
            (1, false),
            (16_777_215, false),
            (16_777_216, true),
        ];
        for (temperature, fails) in rows {
            assert_eq!(guard_fails(temperature), fails, "{temperature}");
        }
    }

    #[test]
    fn the_f32_is_exactly_b_over_4096() {
        for biased in [1, 2, 1_487, 4_095, 4_096, 565_394, 8_388_609, 16_777_215] {
            // An f64 holds both exactly.
            assert_eq!(kelvin(biased) as f64 * 4096.0, biased as f64);
        }
    }

    #[test]
    fn halves_of_the_nonlinear_term_go_to_the_even_neighbour() {
        // At x = 1/4 the term is 3/4 TNL: 1.5 for 2, 4.5 for 6, 7.5 for 10.
        for (tnl, term) in [(2, 2), (6, 4), (10, 8), (-2, -2), (-6, -4), (-10, -8)] {
            let t = brightness_temperature(1_000_000, 0, tnl, 1, 4);
            assert_eq!(t, 250_000 + term, "TNL {tnl}");
        }
        // At x = 5/4 it is -5/4 TNL: -2.5 for 2, -7.5 for 6.
        for (tnl, term) in [(2, -2), (6, -8), (-2, 2), (-6, 8)] {
            let t = brightness_temperature(1_000_000, 0, tnl, 5, 4);
            assert_eq!(t, 1_250_000 + term, "TNL {tnl}");
        }
    }

    #[test]
    fn halves_of_x_go_to_the_even_neighbour() {
        // 65,536 N / D is N / 2.
        let d = 131_072;
        for (n, x) in [(1, 0), (2, 1), (3, 2), (5, 2), (7, 4), (131_071, 65_536)] {
            assert_eq!(rounded_share(n, d), x, "{n}");
        }
        // With TNL 8,192 the term is a little less than X / 2 near x = 0, and than (65,536 - X) / 2 above x = 1:
        // X - 1 would show in the first, X + 1 in the second. The linear part is 7 N.
        let at = |n: i128| brightness_temperature(7 * d, 0, 8_192, n, d);
        assert_eq!(at(3), 21 + 1);
        assert_eq!(at(d + 5), 7 * (d + 5) - 1);
    }

    #[test]
    fn halves_of_the_linear_part_go_to_the_even_neighbour_before_tc_is_added() {
        // N (Tw - Tc) / D is 250,000.5 and 250,001.5; Tc is odd, so that evenness of T would be another.
        for (rise, linear) in [(1_000_002, 250_000), (1_000_006, 250_002)] {
            for tc in [11_166, 11_167] {
                assert_eq!(brightness_temperature(tc + rise, tc, 0, 1, 4), tc + linear);
            }
        }
    }

    #[test]
    fn x_comes_from_the_counts_not_from_the_rounded_temperature() {
        // Suppliers computed x from the rounded temperature. The bench scan with TNL 8,192 and
        // earth count 10,028.
        let mut values = TableValues::bench();
        values.channels[3].shelf_pairs[2].nonlinearity = 8_192;
        let fourth = Fourth::of(&values, &RecordValues::bench());
        assert_eq!(fourth.temperature(10_028), Ok(14_359));

        let sums = &fourth.sums;
        let (n, d) = (numerator(sums, 10_028), sums.difference());
        let (warm, cold) = (1_118_822, 11_166);
        let linear = r(n * (warm - cold), d);
        let x = r(65_536 * linear, warm - cold);
        let wrong = cold + linear + r(4 * x * (65_536 - x) * 8_192, 1 << 32);
        assert_eq!(wrong, 14_358);
    }

    #[test]
    fn e_is_the_fraction_of_document_01() {
        // x = 1/4, Tw = 1,000,001 / 2, Tc = 20,000, TNL = 20 / 3: E = 20,000 + 120,000.125 + 5.
        let warm = Fraction {
            numerator: 1_000_001,
            denominator: 2,
        };
        let nonlinearity = Fraction {
            numerator: 20,
            denominator: 3,
        };
        let e = exact_temperature(warm, 20_000, nonlinearity, 1, 4);
        assert_eq!(e.whole, 140_005);
        assert_eq!(8 * e.numerator, e.denominator);
    }

    #[test]
    fn e_of_the_widest_window_stays_inside() {
        // x = 5/4, Tw a part of V below 1,368,678 and TNL a part of U above -8,192.
        let (d, v, u) = (255 * 255 * 786_420, 255 * 255, 491_517);
        let warm = Fraction {
            numerator: 1_368_678 * v - 1,
            denominator: v,
        };
        let nonlinearity = Fraction {
            numerator: -8_192 * u + 1,
            denominator: u,
        };
        let e = exact_temperature(warm, 11_166, nonlinearity, d / 4 * 5, d);
        // 11,166 + 5/4 × 1,357,512 + 5/4 × 8,192 less 5/4 of a part of each.
        assert_eq!(e.whole, 1_718_295);
        let missing = e.denominator - e.numerator;
        assert_eq!(4 * missing, 5 * d * d * (u + v));
    }

    #[test]
    fn e_takes_the_unrounded_nonlinearity() {
        // TNL is 3.5, rounded to 4. At x = 1/2 E is 11,166 + 553,828 + 3.5, and T half a unit above it.
        let mut values = TableValues::bench();
        values.channels[3].shelf_pairs[2].nonlinearity = 3;
        values.channels[3].shelf_pairs[3].nonlinearity = 4;
        let mut record = RecordValues::bench();
        record.shelves[1] = 61_440;
        let fourth = Fourth::of(&values, &record);
        let e = fourth.exact(15_000);
        assert_eq!(e.whole, 564_997);
        assert_eq!(2 * e.numerator, e.denominator);
        assert_eq!(fourth.temperature(15_000), Ok(564_998));
    }

    #[test]
    fn a_delivered_temperature_is_near_e_and_near_equation_30() {
        let eighths = Fraction {
            numerator: 21,
            denominator: 8,
        };
        let sixteenths = Fraction {
            numerator: 71,
            denominator: 16,
        };
        let mut values = TableValues::bench();
        let tnls = [-8_192, 8_192, -3, 2, 8_191];
        for (pair, tnl) in values.channels[3].shelf_pairs.iter_mut().zip(tnls) {
            pair.nonlinearity = tnl;
        }
        let mut record = RecordValues::bench();
        for shelf in [0, 61_440, -100_001, 200_003] {
            record.shelves[1] = shelf;
            let fourth = Fourth::of(&values, &record);
            for (c0, e) in [(0, 0), (-4_096, -32_768), (4_096, 32_767), (5, 16_384)] {
                let pair = Pair { c0, e };
                for count in (10_000..=22_500).step_by(13) {
                    let exact = fourth.exact(count);
                    let t = fourth.temperature(count).unwrap();
                    assert!(exact.is_within(eighths, t), "{count} {shelf}");
                    let (exact, b) = (pair.exact(exact), pair.biased(t));
                    assert!(exact.is_within(sixteenths, b), "{count} {shelf} {pair:?}");
                    assert!(!exact.is_within(sixteenths, b + 9));
                    assert!(!exact.is_within(sixteenths, b - 9));
                }
            }
        }
    }
}
