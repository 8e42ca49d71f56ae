//! F(t) stated a second time, as it is and with one mistake, and where each mistake shows.

use super::random::Random;
use crate::second::rounding::floor;
use crate::second::thermometer::Coefficients;

/// One place in which a thermometer rule is wrong.
///
/// Other divisions have no mistake of their kind: M and w are of numbers that are not negative, and
/// so are y, h and s2 below 0 °C, where alone they count, so that a cut towards zero is a floor.
#[derive(Clone, Copy, Debug, PartialEq, Eq)]
pub enum Mistake {
    /// s1 is cut towards zero.
    CutOfS1,
    /// The division by 62,500,000 is cut towards zero.
    CutOfF,
    /// The fourth-degree term counts at and above 0 °C too.
    TermAboveZero,
    /// The fourth-degree term does not count below 0 °C either.
    NoTerm,
}

pub const MISTAKES: [Mistake; 4] = [
    Mistake::CutOfS1,
    Mistake::CutOfF,
    Mistake::TermAboveZero,
    Mistake::NoTerm,
];

impl Mistake {
    /// The t nearest to 0 and farthest from it at which F may be another, for delta above 0 and beta
    /// at its end.
    fn shows(self) -> (i64, i64) {
        match self {
            // q is below 0.
            Mistake::CutOfS1 => (1, 245_760),
            // What alpha multiplies is below 0.
            Mistake::CutOfF => (-1, -245_760),
            // w is above 0.
            Mistake::TermAboveZero => (100, 245_760),
            // s2 is above 0.
            Mistake::NoTerm => (-5_060, -245_760),
        }
    }

    /// A least and a greatest t between which it may show: anywhere, near 0, or nearest to it.
    pub fn some_range(self, random: &mut Random) -> (i64, i64) {
        let (nearest, farthest) = self.shows();
        let near = nearest + 3_000 * farthest.signum();
        let end = random.pick(&[nearest, near, farthest]);
        (nearest.min(end), nearest.max(end))
    }
}

/// F(t), with a mistake or with none. It rises strictly with each.
pub fn ratio(t: i128, coefficients: &Coefficients, mistake: Option<Mistake>) -> i128 {
    let divide = |cut: Mistake, a: i128, b: i128| {
        if mistake == Some(cut) {
            a / b
        } else {
            floor(a, b)
        }
    };
    let q = t * (t - 409_600);
    let s1 = divide(Mistake::CutOfS1, coefficients.delta * q, 160_000_000_000);
    let s2 = if counts_at(t, mistake) {
        let h = floor(floor(q, 10_000) * floor(t * t, 10_000), 1 << 24);
        floor(coefficients.beta * h, 16_000_000)
    } else {
        0
    };
    let above_unit = coefficients.alpha * (256 * t - s1 - s2);
    (1 << 24) + divide(Mistake::CutOfF, above_unit, 62_500_000)
}

/// Whether the fourth-degree term counts at t.
fn counts_at(t: i128, mistake: Option<Mistake>) -> bool {
    match mistake {
        Some(Mistake::TermAboveZero) => true,
        Some(Mistake::NoTerm) => false,
        _ => t < 0,
    }
}

#[cfg(test)]
mod tests {
    use super::*;
    use crate::second::thermometer::{resistance_ratio, HIGHEST_T, LOWEST_T};

    const ENDS: Coefficients = Coefficients {
        resistance: 2_000_000,
        alpha: 5_000_000,
        delta: 2_000_000,
        beta: 500_000,
    };

    #[test]
    fn without_a_mistake_it_is_f() {
        for beta in [0, 110_000, 500_000] {
            let coefficients = Coefficients { beta, ..ENDS };
            for t in LOWEST_T..=HIGHEST_T {
                let f = resistance_ratio(t, &coefficients);
                assert_eq!(ratio(t, &coefficients, None), f, "{t}");
            }
        }
    }

    #[test]
    fn it_rises_with_each_mistake() {
        for mistake in MISTAKES {
            let all = (LOWEST_T..=HIGHEST_T).map(|t| ratio(t, &ENDS, Some(mistake)));
            let later = (LOWEST_T + 1..=HIGHEST_T).map(|t| ratio(t, &ENDS, Some(mistake)));
            assert!(all.zip(later).all(|(f, next)| f < next), "{mistake:?}");
        }
    }

    #[test]
    fn mistakes_show_where_they_say_and_nowhere_nearer() {
        for mistake in MISTAKES {
            let (nearest, farthest) = mistake.shows();
            let differs = |t: i128| {
                // With this alpha F(t) shows every change of what alpha multiplies.
                let fine = Coefficients {
                    alpha: 62_500_001,
                    ..ENDS
                };
                ratio(t, &fine, Some(mistake)) != ratio(t, &fine, None)
            };
            assert!(differs(nearest as i128), "{mistake:?}");
            assert!(differs(farthest as i128), "{mistake:?}");
            let all = (LOWEST_T..=HIGHEST_T).filter(|t| differs(*t));
            let toward = (nearest as i128).signum();
            for t in all {
                assert!(t * toward >= nearest as i128 * toward, "{mistake:?} at {t}");
            }
        }
    }
}
