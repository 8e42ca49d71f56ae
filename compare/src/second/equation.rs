//! Equations 18 and 19 as document 004 has them, without any rounding, and what is promised of a thermometer
//! by them (request W7).

use super::thermometer::{resistance_ratio, Coefficients, Reading};
use super::wide::WideFraction;

/// The measured ratio of resistances: equation 18 over R0, for PAM above offset.
pub fn measured_ratio(reading: &Reading, resistance: i128) -> WideFraction {
    WideFraction::new(
        reading.pam_resistance * (reading.count - reading.offset),
        (reading.pam - reading.offset) * resistance,
    )
}

/// The ratio of resistances of equation 19 at t, in units of °C, for every t.
///
/// Its denominator comes to 4,096 × 409,600^6 × 10^21, below 2^194. Compared with equation 18's, numbers come to
/// below 2^233.
pub fn equation_ratio(t: i128, coefficients: &Coefficients) -> WideFraction {
    let one = WideFraction::whole(1);
    let alpha = WideFraction::new(coefficients.alpha, 1_000_000_000);
    let delta = WideFraction::new(coefficients.delta, 1_000_000);
    // beta counts below 0 °C alone.
    let beta = if t < 0 { coefficients.beta } else { 0 };
    let beta = WideFraction::new(beta, 1_000_000);
    let celsius = WideFraction::new(t, 4_096);
    let hundredth = celsius * WideFraction::new(1, 100);
    let cube = hundredth * hundredth * hundredth;
    one + alpha
        * (celsius - delta * (hundredth - one) * hundredth - beta * (hundredth - one) * cube)
}

/// Whether the equation's ratio lies below the measured one at t - 1, and above it at t + 2; both may be outside the
/// range of t. For PAM above offset.
pub fn is_bracketed(t: i128, reading: &Reading, coefficients: &Coefficients) -> bool {
    let measured = measured_ratio(reading, coefficients.resistance);
    equation_ratio(t - 1, coefficients) < measured && measured < equation_ratio(t + 2, coefficients)
}

/// F(t) less 2^24 times a ratio.
pub fn distance(f: i128, ratio: WideFraction) -> WideFraction {
    WideFraction::whole(f) - WideFraction::whole(1 << 24) * ratio
}

/// Whether F(t) lies within 2 of 2^24 times a ratio, 2 included.
pub fn is_near(f: i128, ratio: WideFraction) -> bool {
    let (two, distance) = (WideFraction::whole(2), distance(f, ratio));
    -two <= distance && distance <= two
}

/// Whether F(t) lies within 2 of 2^24 times the equation's ratio at t.
pub fn f_is_near(t: i128, coefficients: &Coefficients) -> bool {
    let f = resistance_ratio(t, coefficients);
    is_near(f, equation_ratio(t, coefficients))
}

#[cfg(test)]
mod tests {
    use super::*;
    use crate::generator::random::Random;
    use crate::second::thermometer::{one_thermometer, HIGHEST_T, LOWEST_T};

    const BENCH: Coefficients = Coefficients {
        resistance: 2_000_000,
        alpha: 3_850_000,
        delta: 1_500_000,
        beta: 0,
    };

    /// Each of alpha, delta and beta at each end of its range.
    fn corners() -> Vec<Coefficients> {
        let mut all = Vec::new();
        for alpha in [3_000_000, 5_000_000] {
            for delta in [0, 2_000_000] {
                for beta in [0, 500_000] {
                    all.push(Coefficients {
                        alpha,
                        delta,
                        beta,
                        ..BENCH
                    });
                }
            }
        }
        all
    }

    #[test]
    fn the_ratio_at_0_and_at_100_degrees() {
        for coefficients in [corners(), vec![BENCH]].concat() {
            assert_eq!(equation_ratio(0, &coefficients), WideFraction::whole(1));
            // 1 + 100 alpha: delta and beta have no part there, and 100 °C is outside the range of t.
            let hundred =
                WideFraction::new(1_000_000_000 + 100 * coefficients.alpha, 1_000_000_000);
            assert_eq!(equation_ratio(409_600, &coefficients), hundred);
        }
    }

    #[test]
    fn ratios_worked_out_by_hand() {
        let coefficients = Coefficients {
            alpha: 4_000_000,
            delta: 1_500_000,
            beta: 100_000,
            ..BENCH
        };
        let rows = [
            // 50 °C: 50 - 1.5 × (-0.5) × 0.5 = 50.375, and 0.004 × 50.375 = 0.2015.
            (204_800, 12_015, 10_000),
            // -50 °C: -50 - 1.5 × (-1.5) × (-0.5) - 0.1 × (-1.5) × (-0.125) = -51.14375, × 0.004 = -0.204575.
            (-204_800, 795_425, 1_000_000),
            // 200 °C, far outside: 200 - 1.5 × 1 × 2 = 197, × 0.004 = 0.788.
            (819_200, 1_788, 1_000),
            // -100 °C: -100 - 1.5 × (-2) × (-1) - 0.1 × (-2) × (-1) = -103.2, × 0.004 = -0.4128.
            (-409_600, 5_872, 10_000),
        ];
        for (t, numerator, denominator) in rows {
            let expected = WideFraction::new(numerator, denominator);
            assert_eq!(equation_ratio(t, &coefficients), expected, "{t}");
        }
    }

    #[test]
    fn beta_counts_below_0_alone() {
        for coefficients in corners() {
            let without = Coefficients {
                beta: 0,
                ..coefficients
            };
            for t in [0, 1, 2, 100, 245_760, 245_762] {
                let ratio = equation_ratio(t, &coefficients);
                assert_eq!(ratio, equation_ratio(t, &without), "{t}");
            }
            for t in [-1, -2, -100, -245_760, -245_761] {
                let ratio = equation_ratio(t, &coefficients);
                let is_lower = ratio < equation_ratio(t, &without);
                assert_eq!(is_lower, coefficients.beta > 0, "{t}");
            }
        }
    }

    #[test]
    fn the_measured_ratio_is_a_plain_fraction() {
        let reading = Reading {
            pam_resistance: 3_000_000,
            pam: 20_100,
            offset: 100,
            count: 15_100,
        };
        // 3 × 15,000 / (20,000 × 2).
        let measured = measured_ratio(&reading, 2_000_000);
        assert_eq!(measured, WideFraction::new(9, 8));
    }

    /// A reading whose measured ratio is that of count and PAM alone.
    fn reading(count: i128, pam: i128) -> Reading {
        Reading {
            pam_resistance: 2_000_000,
            pam,
            offset: 0,
            count,
        }
    }

    /// t is answered and bracketed, and is not where it is moved by 3 or more.
    fn check_bracket(reading: &Reading, coefficients: &Coefficients, t: i128) {
        assert_eq!(one_thermometer(reading, coefficients), Ok(t));
        assert!(is_bracketed(t, reading, coefficients), "{t}");
        for moved in [-100_000, -3, 3, 100_000] {
            let is_moved = is_bracketed(t + moved, reading, coefficients);
            assert!(!is_moved, "{t} moved by {moved}");
        }
    }

    #[test]
    fn answers_are_bracketed_and_those_moved_by_3_are_not() {
        check_bracket(&reading(20_000, 20_000), &BENCH, 0);
        check_bracket(&reading(20_079, 20_000), &BENCH, 4_140);
        // Both ends of the range: t - 1 and t + 2 are outside it.
        check_bracket(&reading(15_276, 20_009), &BENCH, LOWEST_T);
        check_bracket(&reading(24_978, 20_268), &BENCH, HIGHEST_T);
    }

    #[test]
    fn t_does_not_do_for_t_minus_1() {
        // M is F(t), 12,868,963. 2^24 times the measured ratio is 0.5328 more, and times the equation's at t 0.872..
        let (own, t) = (reading(15_341, 20_000), -242_058);
        check_bracket(&own, &BENCH, t);
        assert_eq!(resistance_ratio(t, &BENCH), 12_868_963);
        let measured = measured_ratio(&own, BENCH.resistance);
        assert_eq!(
            distance(12_868_963, measured),
            WideFraction::new(-5_328, 10_000)
        );
        assert!(equation_ratio(t, &BENCH) > measured);
    }

    #[test]
    fn t_plus_1_does_not_do_for_t_plus_2() {
        // M is F(t + 1) - 1. 2^24 times the measured ratio is 0.9568 more and 0.9360 more, and times the equation's at
        // t + 1 0.912.. and 0.935..: F(t + 1) is above the equation.
        let steep = Coefficients {
            alpha: 5_000_000,
            delta: 2_000_000,
            beta: 500_000,
            ..BENCH
        };
        for (count, t, m, more) in [
            (14_246, -228_035, 11_950_410, 9_568),
            (20_295, 11_852, 17_024_679, 9_360),
        ] {
            let own = reading(count, 20_000);
            check_bracket(&own, &steep, t);
            assert_eq!(resistance_ratio(t + 1, &steep), m + 1);
            let measured = measured_ratio(&own, steep.resistance);
            assert_eq!(distance(m, measured), WideFraction::new(-more, 10_000));
            assert!(equation_ratio(t + 1, &steep) < measured);
        }
    }

    #[test]
    fn a_ratio_that_is_just_the_measured_one_is_no_bracket() {
        // The measured ratio is 1, that of t = 0. Below and above are strict.
        let one = reading(20_000, 20_000);
        for coefficients in corners() {
            let bracketed: Vec<i128> = (-6..=6)
                .filter(|t| is_bracketed(*t, &one, &coefficients))
                .collect();
            assert_eq!(bracketed, [-1, 0]);
        }
    }

    /// F(t) less 2^24 times the equation's ratio.
    fn distance_at(t: i128, coefficients: &Coefficients) -> WideFraction {
        let f = resistance_ratio(t, coefficients);
        distance(f, equation_ratio(t, coefficients))
    }

    #[test]
    fn f_is_near_the_equation_at_every_corner() {
        for coefficients in corners() {
            for t in [LOWEST_T, -2, -1, 0, 1, 2, HIGHEST_T] {
                assert!(f_is_near(t, &coefficients), "{t} {coefficients:?}");
            }
            assert_eq!(distance_at(0, &coefficients), WideFraction::whole(0));
        }
    }

    #[test]
    fn within_2_includes_2() {
        let one = WideFraction::whole(1);
        let near: Vec<i128> = (-5..=5)
            .filter(|far| is_near((1 << 24) + far, one))
            .collect();
        assert_eq!(near, [-2, -1, 0, 1, 2]);
        // A 10^12th more or less.
        let part = WideFraction::new(1, 1_000_000_000_000);
        assert!(!is_near((1 << 24) - 2, one + part) && is_near((1 << 24) - 2, one - part));
        assert!(is_near((1 << 24) + 2, one + part) && !is_near((1 << 24) + 2, one - part));
    }

    #[test]
    fn an_f_formed_with_another_alpha_is_told() {
        // A step of alpha moves 2^24 times the ratio at 60 °C by 2^24 × 60 / 10^9, a little more than 1. With
        // 5,000,000 it is 21,810,380.8, and F is 21,810,380.
        let with = |alpha: i128| Coefficients {
            alpha,
            delta: 0,
            beta: 0,
            ..BENCH
        };
        let f = resistance_ratio(HIGHEST_T, &with(5_000_000));
        let steps = -4..=4;
        let near: Vec<i128> = steps
            .filter(|step| is_near(f, equation_ratio(HIGHEST_T, &with(5_000_000 + step))))
            .collect();
        assert_eq!(near, [-2, -1, 0, 1]);
    }

    /// The least and the greatest distance of F at these t and coefficients.
    fn extremes(all: &[(i128, Coefficients)]) -> (WideFraction, WideFraction) {
        let distances: Vec<WideFraction> = all
            .iter()
            .map(|(t, coefficients)| distance_at(*t, coefficients))
            .collect();
        let least = distances.iter().min().expect("some distances");
        let greatest = distances.iter().max().expect("some distances");
        (*least, *greatest)
    }

    /// Coefficients and t at random, some at ends.
    fn some_places(seed: u64, count: usize) -> Vec<(i128, Coefficients)> {
        let mut random = Random::new(seed);
        let mut value = |low: i64, high: i64| {
            let any = random.between(low, high);
            random.pick(&[low, high, any, any]) as i128
        };
        (0..count)
            .map(|_| {
                let coefficients = Coefficients {
                    alpha: value(3_000_000, 5_000_000),
                    delta: value(0, 2_000_000),
                    beta: value(0, 500_000),
                    ..BENCH
                };
                (value(-245_760, 245_760), coefficients)
            })
            .collect()
    }

    /// What is seen, sharper than the promise of 2. The last floor of F takes less than 1 from it. The others add to
    /// it: those of s1 and s2 less than 1 each, those of y, w and h less than 0.073 by s2, all times
    /// alpha / 62,500,000, which is at most 0.08; together less than 1/6.
    #[test]
    fn f_is_seen_from_1_below_to_a_sixth_above() {
        let with = |alpha: i128, delta: i128, beta: i128| Coefficients {
            alpha,
            delta,
            beta,
            ..BENCH
        };
        // The farthest of some millions.
        let far = [
            (4_766, with(4_883_738, 1_022_971, 168_203)),
            (-213_952, with(4_991_754, 1_589_247, 493_314)),
        ];
        let (least, greatest) = extremes(&[some_places(7, 20_000), far.to_vec()].concat());
        assert!(WideFraction::whole(-1) < least && greatest < WideFraction::new(1, 6));
        assert!(least < WideFraction::new(-9_998, 10_000));
        assert!(greatest > WideFraction::new(161, 1_000));
    }
}
