//! Units and rounding: floor, r and unrounded fractions.

use std::cmp::Ordering;

/// The greatest whole number not above a / b, for b above 0.
pub fn floor(a: i128, b: i128) -> i128 {
    assert!(b > 0, "a division needs a divisor above 0");
    // With b above 0, div_euclid leaves a remainder from 0 to b - 1: that is the floor.
    a.div_euclid(b)
}

/// r(a, b): the whole number nearest to a / b, and of two equally near the even one, for b above 0.
///
/// The floor and the whole number above it lie around a / b, so that no other can be nearer. Their distances to it
/// are compared in bths, of which there are b from the one to the other.
pub fn r(a: i128, b: i128) -> i128 {
    let below = floor(a, b);
    let above = below + 1;
    let to_below = a - below * b;
    let to_above = b - to_below;
    match to_below.cmp(&to_above) {
        Ordering::Less => below,
        Ordering::Greater => above,
        Ordering::Equal if below % 2 == 0 => below,
        Ordering::Equal => above,
    }
}

/// An unrounded fraction: a pair of whole numbers.
#[derive(Clone, Copy, Debug)]
pub struct Fraction {
    pub numerator: i128,
    /// Above 0.
    pub denominator: i128,
}

/// An unrounded number as a whole number and a fraction from 0 to below 1. E is kept so: the pair of whole
/// numbers that equation 30 makes of it can leave i128.
#[derive(Clone, Copy, Debug)]
pub struct Mixed {
    pub whole: i128,
    /// From 0 to below the denominator.
    pub numerator: i128,
    /// Above 0.
    pub denominator: i128,
}

impl Mixed {
    /// whole + numerator / denominator, for a numerator of any size and sign.
    pub fn new(whole: i128, numerator: i128, denominator: i128) -> Mixed {
        let more = floor(numerator, denominator);
        Mixed {
            whole: whole + more,
            numerator: numerator - more * denominator,
            denominator,
        }
    }

    /// Whether this, multiplied by a whole number above 0, lies from `low` to `high`, ends included.
    ///
    /// The multiple of the fraction is from 0 to below `times`, so that ends farther off can be moved to there,
    /// and all is compared by multiplying out.
    pub fn multiple_is_between(&self, times: i128, low: i128, high: i128) -> bool {
        let wholes = times * self.whole;
        let numerator = times * self.numerator;
        let low = (low - wholes).clamp(0, times);
        let high = (high - wholes).clamp(-1, times);
        low * self.denominator <= numerator && numerator <= high * self.denominator
    }

    /// Whether `whole` differs from this by at most `distance`.
    pub fn is_within(&self, distance: Fraction, whole: i128) -> bool {
        let middle = distance.denominator * whole;
        let (low, high) = (middle - distance.numerator, middle + distance.numerator);
        self.multiple_is_between(distance.denominator, low, high)
    }
}

#[cfg(test)]
mod tests {
    use super::*;

    #[test]
    fn floor_goes_down_below_zero() {
        let rows = [(7, 2, 3), (-7, 2, -4), (-8, 2, -4), (0, 5, 0), (-1, 5, -1)];
        for (a, b, expected) in rows {
            assert_eq!(floor(a, b), expected, "floor of {a} / {b}");
        }
    }

    fn check_rows(rows: &[(i128, i128, i128)]) {
        for (a, b, expected) in rows {
            assert_eq!(r(*a, *b), *expected, "r({a}, {b})");
        }
    }

    #[test]
    fn halves_go_to_the_even_neighbour_at_both_signs() {
        check_rows(&[
            (1, 2, 0),
            (3, 2, 2),
            (5, 2, 2),
            (7, 2, 4),
            (-1, 2, 0),
            (-3, 2, -2),
            (-5, 2, -2),
            (-7, 2, -4),
            (5, 10, 0),
            (15, 10, 2),
            (-5, 10, 0),
            (-15, 10, -2),
            (-25, 10, -2),
        ]);
    }

    #[test]
    fn beside_a_half_the_nearest_is_taken() {
        check_rows(&[
            (4, 10, 0),
            (6, 10, 1),
            (14, 10, 1),
            (16, 10, 2),
            (24, 10, 2),
            (26, 10, 3),
            (-4, 10, 0),
            (-6, 10, -1),
            (-14, 10, -1),
            (-16, 10, -2),
            (-24, 10, -2),
            (-26, 10, -3),
        ]);
    }

    #[test]
    fn an_odd_divisor_has_no_halves() {
        check_rows(&[
            (7, 1, 7),
            (-7, 1, -7),
            (1, 3, 0),
            (2, 3, 1),
            (4, 3, 1),
            (5, 3, 2),
            (-1, 3, 0),
            (-2, 3, -1),
            (-4, 3, -1),
            (-7, 3, -2),
        ]);
    }

    #[test]
    fn ends_of_64_bits_do_not_overflow() {
        let lowest = i64::MIN as i128;
        let highest = i64::MAX as i128;
        assert_eq!(r(highest, 1), highest);
        assert_eq!(r(lowest, 1), lowest);
        assert_eq!(r(lowest, highest), -1);
        assert_eq!(r(highest, highest), 1);
        // -2^62 is even; 2^62 - 1/2 lies between an odd number and an even one.
        assert_eq!(r(lowest, 2), lowest / 2);
        assert_eq!(r(highest, 2), 1 << 62);
        assert_eq!(r(highest - 2, 2), (1 << 62) - 2);
        assert_eq!(r(lowest + 1, 2), -(1 << 62));
        assert_eq!(r(lowest + 3, 2), 2 - (1 << 62));
        // The greatest even divisor: one half of it, and one and a half.
        let even = highest - 1;
        assert_eq!(r(even / 2, even), 0);
        assert_eq!(r(-even / 2, even), 0);
        assert_eq!(r(even / 2 + 1, even), 1);
        assert_eq!(r(-even / 2 - 1, even), -1);
        assert_eq!(floor(lowest, highest), -2);
    }

    #[test]
    fn a_mixed_number_has_a_fraction_from_0_to_below_1() {
        let rows = [
            (0, 7, 3, (2, 1)),
            (5, -7, 3, (2, 2)),
            (-1, 6, 3, (1, 0)),
            (4, -6, 3, (2, 0)),
            (0, 2, 3, (0, 2)),
        ];
        for (whole, numerator, denominator, expected) in rows {
            let mixed = Mixed::new(whole, numerator, denominator);
            assert_eq!((mixed.whole, mixed.numerator), expected);
            assert_eq!(mixed.denominator, denominator);
        }
    }

    #[test]
    fn distances_include_their_ends() {
        let within = |numerator: i128, denominator: i128, (distance, parts): (i128, i128)| {
            let distance = Fraction {
                numerator: distance,
                denominator: parts,
            };
            let mixed = Mixed::new(0, numerator, denominator);
            let is_within = |whole: &i128| mixed.is_within(distance, *whole);
            let near: Vec<i128> = (-20..20).filter(is_within).collect();
            (near[0], near[near.len() - 1])
        };
        // 7/3 less and more 2, and 7/2.
        assert_eq!(within(7, 3, (4, 2)), (1, 4));
        assert_eq!(within(7, 3, (7, 2)), (-1, 5));
        // 19/8 less 21/8 is -2/8 and 19/8 more 21/8 is 5; one eighth more or less moves an end.
        assert_eq!(within(19, 8, (21, 8)), (0, 5));
        assert_eq!(within(19, 8, (20, 8)), (0, 4));
        assert_eq!(within(18, 8, (21, 8)), (0, 4));
        // -9/16 less 71/16 is -5.
        assert_eq!(within(-9, 16, (71, 16)), (-5, 3));
        assert_eq!(within(-9, 16, (70, 16)), (-4, 3));
        assert_eq!(within(-8, 16, (71, 16)), (-4, 3));
    }

    #[test]
    fn multiples_are_compared_with_both_ends() {
        // Three times 8/3 is 8, three times -8/3 is -8, twice 8/3 is 16/3.
        for (numerator, times, low, high, expected) in [
            (8, 3, 8, 8, true),
            (8, 3, 9, 9, false),
            (8, 3, 7, 7, false),
            (-8, 3, -8, -8, true),
            (8, 2, 5, 6, true),
            (8, 2, 6, 7, false),
            (8, 2, 4, 5, false),
            (-8, 2, -6, -5, true),
            (-8, 2, -5, 0, false),
            (-8, 2, -9, -6, false),
        ] {
            let mixed = Mixed::new(0, numerator, 3);
            let is_between = mixed.multiple_is_between(times, low, high);
            assert_eq!(is_between, expected, "{times} × {numerator}/3");
        }
    }
}
