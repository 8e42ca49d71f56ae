//! Thermometer rule, and the operation One thermometer.

use super::rounding::floor;

/// The ends of the range of t, in units of °C; T_low and T_upp have the same.
pub const LOWEST_T: i128 = -245_760;
pub const HIGHEST_T: i128 = 245_760;

/// What is added to t to give T in kelvin.
pub const KELVIN_OF_ZERO_CELSIUS: i128 = 1_118_822;

/// Ranges of R_PAM and R0, alpha, delta and beta, ends included.
pub const RESISTANCE_RANGE: (i128, i128) = (1_000, 4_000_000);
pub const ALPHA_RANGE: (i128, i128) = (3_000_000, 5_000_000);
pub const DELTA_RANGE: (i128, i128) = (0, 2_000_000);
pub const BETA_RANGE: (i128, i128) = (0, 500_000);

pub fn inside(value: i128, range: (i128, i128)) -> bool {
    range.0 <= value && value <= range.1
}

/// R0, alpha, delta and beta of one thermometer.
#[derive(Clone, Copy, Debug)]
pub struct Coefficients {
    /// R0.
    pub resistance: i128,
    pub alpha: i128,
    pub delta: i128,
    pub beta: i128,
}

impl Coefficients {
    pub fn are_in_range(&self) -> bool {
        inside(self.resistance, RESISTANCE_RANGE)
            && inside(self.alpha, ALPHA_RANGE)
            && inside(self.delta, DELTA_RANGE)
            && inside(self.beta, BETA_RANGE)
    }
}

/// What one reading is made of, besides the coefficients.
#[derive(Clone, Copy, Debug)]
pub struct Reading {
    /// R_PAM.
    pub pam_resistance: i128,
    pub pam: i128,
    pub offset: i128,
    pub count: i128,
}

/// M, for PAM above offset.
///
/// At most 4,000,000 × 65,535 × 2^24, below 2^63.
pub fn measured(reading: &Reading, resistance: i128) -> i128 {
    floor(
        reading.pam_resistance * (reading.count - reading.offset) * (1 << 24),
        (reading.pam - reading.offset) * resistance,
    )
}

/// q.
fn quadratic(t: i128) -> i128 {
    t * (t - 409_600)
}

/// s2, the fourth-degree term: 0 for t at or above 0.
///
/// Below 0 neither q nor t² is negative, so that none of y, w, h and s2 is.
fn fourth_degree_term(t: i128, beta: i128) -> i128 {
    if t >= 0 {
        return 0;
    }
    let y = floor(quadratic(t), 10_000);
    let w = floor(t * t, 10_000);
    let h = floor(y * w, 1 << 24);
    floor(beta * h, 16_000_000)
}

/// F(t).
///
/// q is below 2^38, delta × q below 2^59, y × w below 2^48, alpha × (...) below 2^50.
///
/// F rises strictly. From t to t + 1, 256t rises by 256. q falls up to t = 204,800, and with it
/// s1 falls or stays; from there on q rises by at most 81,919, delta × q by less than 1.03 times
/// what divides it, and s1 by at most 2. s2 never rises: below 0 q and t² fall, so y, w, h and s2
/// fall or stay; at -1 w is 0, so s2 is 0 on both sides of 0; and it stays 0 from there on. What
/// alpha multiplies so rises by at least 254, and F by at least 3,000,000 × 254 / 62,500,000,
/// floored: 12.
pub fn resistance_ratio(t: i128, coefficients: &Coefficients) -> i128 {
    let s1 = floor(coefficients.delta * quadratic(t), 160_000_000_000);
    let s2 = fourth_degree_term(t, coefficients.beta);
    (1 << 24) + floor(coefficients.alpha * (256 * t - s1 - s2), 62_500_000)
}

/// The greatest t of the range with F(t) at most M, for M from F at the lower end to F at the
/// upper end.
///
/// The linear part of F says how far t is from M. Going that far a few times comes near; then t
/// goes down while F(t) is above M and up while F(t + 1) is not. F rises strictly, so wherever
/// the first part ends, the second ends at the greatest t.
pub fn greatest_t(m: i128, coefficients: &Coefficients) -> i128 {
    let mut t = 0;
    for _ in 0..6 {
        let missing = m - resistance_ratio(t, coefficients);
        t += floor(missing * 62_500_000, coefficients.alpha * 256);
        t = t.clamp(LOWEST_T, HIGHEST_T);
    }
    while resistance_ratio(t, coefficients) > m {
        t -= 1;
    }
    while t < HIGHEST_T && resistance_ratio(t + 1, coefficients) <= m {
        t += 1;
    }
    t
}

/// The rule on one reading, R_PAM and the coefficients in their ranges: t, or 9 or 10.
pub fn rule(reading: &Reading, coefficients: &Coefficients) -> Result<i128, u8> {
    if reading.pam <= reading.offset {
        return Err(9);
    }
    if reading.count < reading.offset {
        return Err(10);
    }
    let m = measured(reading, coefficients.resistance);
    if m < resistance_ratio(LOWEST_T, coefficients) {
        return Err(10);
    }
    if m > resistance_ratio(HIGHEST_T, coefficients) {
        return Err(10);
    }
    Ok(greatest_t(m, coefficients))
}

/// The operation One thermometer: t in units of °C, or the number of the refusal.
pub fn one_thermometer(reading: &Reading, coefficients: &Coefficients) -> Result<i128, u8> {
    if !inside(reading.pam_resistance, RESISTANCE_RANGE) || !coefficients.are_in_range() {
        return Err(8);
    }
    rule(reading, coefficients)
}

#[cfg(test)]
mod tests {
    use super::*;

    const BENCH: Coefficients = Coefficients {
        resistance: 2_000_000,
        alpha: 3_850_000,
        delta: 1_500_000,
        beta: 0,
    };

    const BENCH_READING: Reading = Reading {
        pam_resistance: 2_000_000,
        pam: 20_000,
        offset: 0,
        count: 20_000,
    };

    #[test]
    fn h1_and_h2_values_of_f() {
        assert_eq!(resistance_ratio(0, &BENCH), 16_777_216);
        assert_eq!(resistance_ratio(4_096, &BENCH), 16_842_767);
    }

    #[test]
    fn h3_greatest_t_below_a_degree() {
        assert_eq!(greatest_t(16_842_766, &BENCH), 4_095);
        assert_eq!(greatest_t(16_842_767, &BENCH), 4_096);
    }

    #[test]
    fn bench_thermometer_is_at_zero_celsius() {
        assert_eq!(measured(&BENCH_READING, 2_000_000), 16_777_216);
        assert_eq!(one_thermometer(&BENCH_READING, &BENCH), Ok(0));
    }

    /// Each of alpha, delta and beta at each end of its range.
    fn at_their_ends() -> Vec<Coefficients> {
        let mut all = Vec::new();
        for alpha in [3_000_000, 5_000_000] {
            for delta in [0, 2_000_000] {
                for beta in [0, 500_000] {
                    all.push(Coefficients {
                        alpha,
                        delta,
                        beta,
                        ..BENCH
                    });
                }
            }
        }
        all
    }

    #[test]
    fn the_fourth_degree_term_is_0_from_minus_1_on() {
        for beta in [0, 1, 500_000] {
            // At -1 w is 0. From 100 on w is above 0 and y below it, and with a beta above 0 the floors
            // would give -1 or less.
            for t in -1..=HIGHEST_T {
                assert_eq!(fourth_degree_term(t, beta), 0, "{t}");
            }
        }
    }

    #[test]
    fn the_fourth_degree_term_counts_below_zero() {
        // -5,059: y = 209,775, w = 2,559, h = 536,814,225 / 2^24 floored = 31.
        // -5,060: y = 209,817, w = 2,560, h = 537,131,520 / 2^24 floored = 32.
        // -245,760: y = 16,106,127, w = 6,039,797, h = 5,798,204.
        let rows = [
            (-5_059, 500_000, 0),
            (-5_060, 499_999, 0),
            (-5_060, 500_000, 1),
            (-245_760, 0, 0),
            (-245_760, 2, 0),
            (-245_760, 3, 1),
            (-245_760, 500_000, 181_193),
        ];
        for (t, beta, term) in rows {
            assert_eq!(fourth_degree_term(t, beta), term, "{t} with {beta}");
        }
    }

    #[test]
    fn f_at_zero_is_the_unit() {
        for coefficients in at_their_ends() {
            assert_eq!(resistance_ratio(0, &coefficients), 16_777_216);
        }
    }

    #[test]
    fn beta_counts_nothing_at_and_above_zero() {
        for coefficients in at_their_ends() {
            let without = Coefficients {
                beta: 0,
                ..coefficients
            };
            for t in 0..=HIGHEST_T {
                let f = resistance_ratio(t, &coefficients);
                assert_eq!(f, resistance_ratio(t, &without), "{t}");
            }
        }
    }

    #[test]
    fn f_at_both_ends() {
        // Each coefficient at its ends, and one set between.
        let rows = [
            (3_000_000, 0, 0, 13_757_317, 19_797_114),
            (3_000_000, 0, 500_000, 13_748_619, 19_797_114),
            (3_000_000, 2_000_000, 0, 13_660_680, 19_821_274),
            (3_000_000, 2_000_000, 500_000, 13_651_983, 19_821_274),
            (5_000_000, 0, 0, 11_744_051, 21_810_380),
            (5_000_000, 0, 500_000, 11_729_555, 21_810_380),
            (5_000_000, 2_000_000, 0, 11_582_990, 21_850_646),
            (5_000_000, 2_000_000, 500_000, 11_568_494, 21_850_646),
            (3_850_000, 1_500_000, 110_000, 12_806_210, 20_676_006),
        ];
        for (alpha, delta, beta, lowest, highest) in rows {
            let coefficients = Coefficients {
                alpha,
                delta,
                beta,
                ..BENCH
            };
            assert_eq!(resistance_ratio(LOWEST_T, &coefficients), lowest);
            assert_eq!(resistance_ratio(HIGHEST_T, &coefficients), highest);
        }
    }

    #[test]
    fn greatest_t_agrees_with_a_linear_scan() {
        let between = Coefficients {
            beta: 110_000,
            ..BENCH
        };
        for coefficients in [at_their_ends(), vec![between]].concat() {
            let all: Vec<i128> = (LOWEST_T..=HIGHEST_T)
                .map(|t| resistance_ratio(t, &coefficients))
                .collect();
            let rises = all.windows(2).map(|pair| pair[1] - pair[0]);
            let least = rises.min().unwrap();
            if coefficients.alpha == 3_000_000 {
                assert_eq!(least, 12, "the least rise of F");
            }
            assert!(least >= 12, "F rises by at least 12");
            let (lowest, highest) = (all[0], all[all.len() - 1]);
            let step = (highest - lowest) / 50;
            let spread =
                (0..50).flat_map(|index| [-1, 0, 1].map(|near| lowest + index * step + near));
            // Every M from one below F(-1) to F(2).
            let around_zero = all[245_759] - 1..=all[245_762];
            for m in spread.chain(around_zero) {
                let m = m.clamp(lowest, highest);
                let at_most = all.iter().take_while(|f| **f <= m).count() as i128;
                assert_eq!(greatest_t(m, &coefficients), LOWEST_T + at_most - 1);
            }
            assert_eq!(greatest_t(highest, &coefficients), HIGHEST_T);
            assert_eq!(greatest_t(lowest, &coefficients), LOWEST_T);
        }
    }

    #[test]
    fn refusal_8_beyond_each_end_only() {
        let ranges = [RESISTANCE_RANGE, ALPHA_RANGE, DELTA_RANGE, BETA_RANGE];
        for (which, range) in ranges.into_iter().enumerate() {
            for (value, refused) in [
                (range.0, false),
                (range.1, false),
                (range.0 - 1, true),
                (range.1 + 1, true),
            ] {
                let mut coefficients = BENCH;
                match which {
                    0 => coefficients.resistance = value,
                    1 => coefficients.alpha = value,
                    2 => coefficients.delta = value,
                    _ => coefficients.beta = value,
                }
                let answer = one_thermometer(&BENCH_READING, &coefficients);
                assert_eq!(answer == Err(8), refused, "coefficient {which} at {value}");
            }
        }
        for (value, refused) in [
            (1_000, false),
            (4_000_000, false),
            (999, true),
            (4_000_001, true),
        ] {
            let reading = Reading {
                pam_resistance: value,
                ..BENCH_READING
            };
            let answer = one_thermometer(&reading, &BENCH);
            assert_eq!(answer == Err(8), refused, "R_PAM {value}");
        }
    }

    #[test]
    fn refusal_9_unless_pam_is_above_offset() {
        let at = |pam, offset, count| {
            let reading = Reading {
                pam,
                offset,
                count,
                ..BENCH_READING
            };
            one_thermometer(&reading, &BENCH)
        };
        assert_eq!(at(500, 500, 500), Err(9));
        assert_eq!(at(499, 500, 500), Err(9));
        // One count above the offset for both: the ratio is 1.
        assert_eq!(at(501, 500, 501), Ok(0));
        // 9 is tested before 10.
        assert_eq!(at(500, 500, 499), Err(9));
    }

    #[test]
    fn refusal_10_below_the_offset_and_beyond_both_ends_of_f() {
        let lowest = resistance_ratio(LOWEST_T, &BENCH);
        let highest = resistance_ratio(HIGHEST_T, &BENCH);
        let at = |pam: i128, offset: i128, count: i128| {
            let reading = Reading {
                pam,
                offset,
                count,
                ..BENCH_READING
            };
            (
                measured(&reading, 2_000_000),
                one_thermometer(&reading, &BENCH),
            )
        };
        // F is above 0 at the lower end, so a count at the offset is refused by M, one below it
        // by the count.
        assert_eq!(at(20_000, 100, 100), (0, Err(10)));
        assert_eq!(at(20_000, 100, 99).1, Err(10));
        // The first count from below and the last from above that are answered.
        let first = (0..)
            .find(|count| at(20_000, 0, *count).0 >= lowest)
            .unwrap();
        assert!(at(20_000, 0, first).1.is_ok());
        assert_eq!(at(20_000, 0, first - 1).1, Err(10));
        let last = (0..)
            .find(|count| at(20_000, 0, count + 1).0 > highest)
            .unwrap();
        assert!(at(20_000, 0, last).1.is_ok());
        assert_eq!(at(20_000, 0, last + 1).1, Err(10));
    }

    #[test]
    fn refusal_10_at_the_ends_of_f_with_and_without_beta() {
        // M = 512 × count.
        let at = |beta, count| {
            let reading = Reading {
                pam: 32_768,
                count,
                ..BENCH_READING
            };
            let coefficients = Coefficients {
                alpha: 3_000_000,
                delta: 0,
                beta,
                ..BENCH
            };
            one_thermometer(&reading, &coefficients)
        };
        // F(245,760) is 19,797,114 for every beta; with a fourth-degree term above 0 °C it would be
        // 19,799,289 for the greatest. M is 19,796,992, 19,797,504 and 19,799,040.
        for beta in [0, 500_000] {
            assert_eq!(at(beta, 38_666), Ok(245_750));
            assert_eq!(at(beta, 38_667), Err(10));
            assert_eq!(at(beta, 38_670), Err(10));
        }
        // F(-245,760) is 13,757,317 with beta 0 and 13,748,619 with the greatest. M is 13,752,320,
        // 13,748,736 and 13,748,224.
        assert_eq!(at(0, 26_860), Err(10));
        assert_eq!(at(500_000, 26_860), Ok(-245_462));
        assert_eq!(at(500_000, 26_853), Ok(-245_751));
        assert_eq!(at(500_000, 26_852), Err(10));
    }

    #[test]
    fn m_equal_to_f_at_an_end_is_answered() {
        // With PAM - offset and R0 dividing R_PAM × 2^24, M = (count - offset) × 2^24 / PAM.
        // Coefficients are sought at which an end of F is met exactly.
        let mut met = [false; 2];
        for alpha in 3_000_000..3_020_000 {
            let coefficients = Coefficients {
                alpha,
                delta: 0,
                ..BENCH
            };
            for (which, t) in [LOWEST_T, HIGHEST_T].into_iter().enumerate() {
                let end = resistance_ratio(t, &coefficients);
                // 2^24 × count / 32,768 = 512 × count.
                if end % 512 == 0 && end / 512 <= 65_535 {
                    let reading = Reading {
                        pam: 32_768,
                        count: end / 512,
                        ..BENCH_READING
                    };
                    assert_eq!(measured(&reading, 2_000_000), end);
                    assert_eq!(one_thermometer(&reading, &coefficients), Ok(t));
                    met[which] = true;
                }
            }
        }
        assert_eq!(met, [true, true]);
    }
}
