//! Scenes.

use super::bias::Pair;

/// What the scenes of a channel with flag 0 share.
#[derive(Clone, Copy, Debug, Default)]
pub struct Constants {
    /// Tc.
    pub tc: i64,
    /// Tw - Tc.
    pub rise: i64,
    /// TNL.
    pub tnl: i64,
    /// D.
    pub d: i64,
    /// 12 Wc Ww: what one count adds to N.
    pub slope: i64,
    /// Ac Ww.
    pub base: i64,
}

/// A scene of a channel with flag 0: a temperature in kelvin or a mark.
#[derive(Clone, Copy, Debug)]
pub enum Scene {
    Kelvin(f32),
    Outside,
    Guard,
}

/// r(a, b), b above 0: halves up, and one less where that leaves a half odd. A branch would be missed too often.
#[inline(always)]
pub fn r(a: i64, b: i64) -> i64 {
    let (a, b) = (2 * a + b, 2 * b);
    let (up, rest) = (a.div_euclid(b), a.rem_euclid(b));
    up - (i64::from(rest == 0) & up)
}

/// r(a, 2^bits): a half is carried where the floor is odd.
#[inline(always)]
fn r_of_power(a: i64, bits: u32) -> i64 {
    let odd = (a >> bits) & 1;
    (a + (1 << (bits - 1)) - 1 + odd) >> bits
}

/// The scene of a count at the position of a pair. N is below 2^36 and the rise below 2^21, so nothing
/// leaves i64.
#[inline(always)]
pub fn scene(k: &Constants, pair: Pair, count: u16) -> Scene {
    let n = k.slope * count as i64 - k.base;
    if n < 0 || 4 * n > 5 * k.d {
        return Scene::Outside;
    }
    let x = r(65_536 * n, k.d);
    let t = k.tc + r(n * k.rise, k.d) + r_of_power(4 * x * (65_536 - x) * k.tnl, 32);
    if !(1..=16_777_215).contains(&t) {
        return Scene::Guard;
    }
    let b = pair.c0 as i64 + r_of_power((65_536 + pair.e as i64) * t, 16);
    Scene::Kelvin(b as f32 * (1.0 / 4096.0))
}

impl Scene {
    #[inline(always)]
    pub fn bits(self) -> u32 {
        let value: f32 = match self {
            Scene::Kelvin(kelvin) => kelvin,
            Scene::Outside => -2.0,
            Scene::Guard => -3.0,
        };
        value.to_bits()
    }
}

#[cfg(test)]
mod tests {
    use super::*;
    use crate::generator::random::Random;
    use crate::second::rounding;

    const NO_BIAS: Pair = Pair { c0: 0, e: 0 };

    /// The four bytes of a scene of a channel with flag 0.
    fn scene_bits(k: &Constants, pair: Pair, count: u16) -> u32 {
        scene(k, pair, count).bits()
    }

    /// c0 and e at 0, at an end, or anywhere.
    fn random_pair(random: &mut Random) -> Pair {
        let any = (random.between(-4_096, 4_096) as i16, random.next() as i16);
        Pair {
            c0: random.pick(&[0, -4_096, 4_096, any.0]),
            e: random.pick(&[0, -32_768, 32_767, 16_384, -16_384, any.1]),
        }
    }

    /// Aw and Ac for Ww and Wc: any, or of equal counts, where x meets quarters exactly, or with D
    /// near 0.
    fn random_sums(random: &mut Random, ww: i64, wc: i64) -> (i64, i64) {
        let ac = random.between(0, 12 * 65_535 * wc);
        match random.below(3) {
            0 => (random.between(0, 12 * 65_535 * ww), ac),
            1 => {
                let (warm, cold) = (random.between(0, 65_535), random.between(0, 65_535));
                (12 * ww * warm, 12 * wc * cold)
            }
            _ => (ac * ww / wc + random.between(0, 300), ac),
        }
    }

    /// Constants inside the ranges that accepted tables and their windows give.
    fn random_constants(random: &mut Random) -> Constants {
        loop {
            let (ww, wc) = (random.between(1, 255), random.between(1, 255));
            let (aw, ac) = random_sums(random, ww, wc);
            let d = aw * wc - ac * ww;
            if d <= 0 || aw > 12 * 65_535 * ww {
                continue;
            }
            let tc = random.between(11_166, 43_934);
            return Constants {
                tc,
                rise: random.between(868_966, 1_368_678) - tc,
                tnl: random.between(-8_192, 8_192),
                d,
                slope: 12 * wc * ww,
                base: ac * ww,
            };
        }
    }

    /// Counts anywhere, and around x = 0, 1/4, 1/2, 3/4, 1 and 5/4.
    fn counts(random: &mut Random, k: &Constants) -> Vec<u16> {
        let mut counts = vec![0, 65_535];
        for quarters in 0..=5 {
            let turning = (quarters * k.d + 4 * k.base) / (4 * k.slope);
            counts.extend([-1, 0, 1, 2].map(|beside| (turning + beside).clamp(0, 65_535) as u16));
        }
        counts.extend((0..40).map(|_| random.next() as u16));
        counts
    }

    #[test]
    fn halves_go_to_the_even_neighbour() {
        let rows = [(1, 0), (3, 2), (5, 2), (-1, 0), (-3, -2), (-5, -2)];
        for (halves, even) in rows {
            assert_eq!(r(halves, 2), even, "{halves} halves");
            assert_eq!(r(7 * halves, 14), even, "{halves} halves");
            for bits in [1, 16, 32] {
                let a = halves << (bits - 1);
                assert_eq!(r_of_power(a, bits), even, "{halves} halves");
                // Beside a half the nearest is taken.
                if bits > 1 {
                    let below = halves.div_euclid(2);
                    assert_eq!(r_of_power(a - 1, bits), below);
                    assert_eq!(r_of_power(a + 1, bits), below + 1);
                }
            }
        }
    }

    #[test]
    fn roundings_agree_with_the_second_implementation() {
        for a in -200..=200 {
            for b in 1..=24 {
                let expected = rounding::r(a as i128, b as i128);
                assert_eq!(r(a, b) as i128, expected, "r({a}, {b})");
            }
            for bits in 1..=6 {
                let expected = rounding::r(a as i128, 1 << bits);
                assert_eq!(r_of_power(a, bits) as i128, expected, "{a}, {bits} bits");
            }
        }
    }

    /// The headings Scenes and scan bias in i128, word by word.
    fn formula(k: &Constants, pair: Pair, count: u16) -> f32 {
        // Of the numbers beside a / b the one that is nearest, and of two the even one.
        let r = |a: i128, b: i128| {
            let beside = [a.div_euclid(b), a.div_euclid(b) + 1];
            let by_distance = |whole: &i128| ((a - whole * b).abs(), whole.rem_euclid(2));
            beside.into_iter().min_by_key(by_distance).unwrap()
        };
        let n = k.slope as i128 * count as i128 - k.base as i128;
        let d = k.d as i128;
        if n < 0 || 4 * n > 5 * d {
            return -2.0;
        }
        let x = r(65_536 * n, d);
        let linear = r(n * k.rise as i128, d);
        let nonlinear = r(4 * x * (65_536 - x) * k.tnl as i128, 1 << 32);
        let t = k.tc as i128 + linear + nonlinear;
        if t < 1 || t > 16_777_215 {
            return -3.0;
        }
        let b = pair.c0 as i128 + r((65_536 + pair.e as i128) * t, 65_536);
        (b as f64 / 4096.0) as f32
    }

    #[test]
    fn scenes_agree_with_the_formula() {
        let mut random = Random::new(1);
        let (mut delivered, mut outside) = (0, 0);
        for _ in 0..20_000 {
            let k = random_constants(&mut random);
            for count in counts(&mut random, &k) {
                let pair = random_pair(&mut random);
                let expected = formula(&k, pair, count);
                let bits = scene_bits(&k, pair, count);
                assert_eq!(bits, expected.to_bits(), "{k:?} {pair:?} {count}");
                delivered += u32::from(expected > 0.0);
                outside += u32::from(expected == -2.0);
            }
        }
        assert!(delivered > 100_000 && outside > 100_000);
    }

    #[test]
    fn scenes_of_the_bench_scan() {
        let k = Constants {
            tc: 11_166,
            rise: 1_118_822 - 11_166,
            tnl: 400,
            d: 120_000,
            slope: 12,
            base: 120_000,
        };
        // H4 to H9.
        let units = [
            (15_000, 565_394.0),
            (10_000, 11_166.0),
            (22_500, 1_395_236.0),
            (10_001, 11_277.0),
        ];
        for (count, t) in units {
            assert_eq!(f32::from_bits(scene_bits(&k, NO_BIAS, count)), t / 4096.0);
        }
        for count in [9_999, 22_501] {
            assert_eq!(f32::from_bits(scene_bits(&k, NO_BIAS, count)), -2.0);
        }
    }

    #[test]
    fn the_guard_includes_its_ends() {
        // No accepted table reaches the guard, so the constants are made up: T is tc.
        let at = |tc: i64| {
            let k = Constants {
                tc,
                d: 1,
                ..Constants::default()
            };
            f32::from_bits(scene_bits(&k, NO_BIAS, 0))
        };
        assert_eq!(at(0), -3.0);
        assert_eq!(at(1), 1.0 / 4096.0);
        assert_eq!(at(16_777_215), 16_777_215.0 / 4096.0);
        assert_eq!(at(16_777_216), -3.0);
    }

    #[test]
    fn scan_bias_of_the_worked_example() {
        // T is tc.
        let units = |tc: i64, c0: i16, e: i16| {
            let k = Constants {
                tc,
                d: 1,
                ..Constants::default()
            };
            f32::from_bits(scene_bits(&k, Pair { c0, e }, 0)) * 4096.0
        };
        assert_eq!(units(565_394, 0, 0), 565_394.0);
        assert_eq!(units(565_395, 4_096, -32_768), 286_794.0);
        assert_eq!(units(565_394, -4_096, 32_767), 843_986.0);
        assert_eq!(units(565_393, 4_096, -32_768), 286_792.0);
        assert_eq!(units(32_768, -1, 1), 32_767.0);
        assert_eq!(units(32_768, 1, -1), 32_769.0);
    }
}
