//! Whole numbers of more than 128 bits, and fractions of them, so that an equation can be written as it stands and
//! compared without any rounding.

use std::cmp::Ordering;
use std::ops::{Add, Mul, Neg, Sub};

/// How many digits to the base 2^64 a whole number has.
const DIGITS: usize = 8;

/// The least first.
type Digits = [u64; DIGITS];

fn compared(a: &Digits, b: &Digits) -> Ordering {
    a.iter().rev().cmp(b.iter().rev())
}

/// How many digits there are without the zeros in front.
fn used(a: &Digits) -> usize {
    let last = a.iter().rposition(|digit| *digit != 0);
    last.map_or(0, |place| place + 1)
}

fn sum(a: &Digits, b: &Digits) -> Digits {
    let mut carry = 0;
    let sum = std::array::from_fn(|place| {
        let all = a[place] as u128 + b[place] as u128 + carry;
        carry = all >> 64;
        all as u64
    });
    assert_eq!(carry, 0, "a sum is below 2^512");
    sum
}

/// a - b, for a at least b.
fn difference(a: &Digits, b: &Digits) -> Digits {
    let mut borrowed = 0;
    let difference = std::array::from_fn(|place| {
        let all = (1 << 64) + a[place] as u128 - b[place] as u128 - borrowed;
        borrowed = 1 - (all >> 64);
        all as u64
    });
    assert_eq!(borrowed, 0, "a is at least b");
    difference
}

fn product(a: &Digits, b: &Digits) -> Digits {
    let mut all = [0; 2 * DIGITS];
    let (of_a, of_b) = (used(a), used(b));
    for i in 0..of_a {
        let mut carry = 0;
        for j in 0..of_b {
            // At most (2^64 - 1)² + 2(2^64 - 1), which is 2^128 - 1.
            let value = a[i] as u128 * b[j] as u128 + all[i + j] as u128 + carry;
            all[i + j] = value as u64;
            carry = value >> 64;
        }
        all[i + of_b] = carry as u64;
    }
    let (low, high) = all.split_at(DIGITS);
    assert!(high == [0; DIGITS], "a product is below 2^512");
    low.try_into().expect("half of the digits")
}

/// A whole number above -2^512 and below 2^512. What leaves these bounds is a panic.
#[derive(Clone, Copy, Debug, PartialEq, Eq)]
pub struct Wide {
    /// 0 is not below 0.
    is_below_zero: bool,
    digits: Digits,
}

impl Wide {
    fn new(is_below_zero: bool, digits: Digits) -> Wide {
        Wide {
            is_below_zero: is_below_zero && used(&digits) > 0,
            digits,
        }
    }
}

impl From<i128> for Wide {
    fn from(value: i128) -> Wide {
        let size = value.unsigned_abs();
        let mut digits = [0; DIGITS];
        digits[0] = size as u64;
        digits[1] = (size >> 64) as u64;
        Wide::new(value < 0, digits)
    }
}

impl Neg for Wide {
    type Output = Wide;

    fn neg(self) -> Wide {
        Wide::new(!self.is_below_zero, self.digits)
    }
}

impl Add for Wide {
    type Output = Wide;

    fn add(self, other: Wide) -> Wide {
        let (a, b) = (&self.digits, &other.digits);
        if self.is_below_zero == other.is_below_zero {
            return Wide::new(self.is_below_zero, sum(a, b));
        }
        match compared(a, b) {
            Ordering::Less => Wide::new(other.is_below_zero, difference(b, a)),
            _ => Wide::new(self.is_below_zero, difference(a, b)),
        }
    }
}

impl Sub for Wide {
    type Output = Wide;

    fn sub(self, other: Wide) -> Wide {
        self + -other
    }
}

impl Mul for Wide {
    type Output = Wide;

    fn mul(self, other: Wide) -> Wide {
        let differ = self.is_below_zero != other.is_below_zero;
        Wide::new(differ, product(&self.digits, &other.digits))
    }
}

impl Ord for Wide {
    fn cmp(&self, other: &Wide) -> Ordering {
        match (self.is_below_zero, other.is_below_zero) {
            (false, false) => compared(&self.digits, &other.digits),
            (true, true) => compared(&other.digits, &self.digits),
            (true, false) => Ordering::Less,
            (false, true) => Ordering::Greater,
        }
    }
}

impl PartialOrd for Wide {
    fn partial_cmp(&self, other: &Wide) -> Option<Ordering> {
        Some(self.cmp(other))
    }
}

/// A fraction, not in its lowest terms: each step multiplies denominators.
#[derive(Clone, Copy, Debug)]
pub struct WideFraction {
    numerator: Wide,
    /// Above 0.
    denominator: Wide,
}

impl WideFraction {
    pub fn new(numerator: i128, denominator: i128) -> WideFraction {
        assert!(denominator > 0, "a fraction needs a denominator above 0");
        WideFraction {
            numerator: numerator.into(),
            denominator: denominator.into(),
        }
    }

    pub fn whole(value: i128) -> WideFraction {
        WideFraction::new(value, 1)
    }
}

impl Neg for WideFraction {
    type Output = WideFraction;

    fn neg(self) -> WideFraction {
        WideFraction {
            numerator: -self.numerator,
            ..self
        }
    }
}

impl Add for WideFraction {
    type Output = WideFraction;

    fn add(self, other: WideFraction) -> WideFraction {
        WideFraction {
            numerator: self.numerator * other.denominator + other.numerator * self.denominator,
            denominator: self.denominator * other.denominator,
        }
    }
}

impl Sub for WideFraction {
    type Output = WideFraction;

    fn sub(self, other: WideFraction) -> WideFraction {
        self + -other
    }
}

impl Mul for WideFraction {
    type Output = WideFraction;

    fn mul(self, other: WideFraction) -> WideFraction {
        WideFraction {
            numerator: self.numerator * other.numerator,
            denominator: self.denominator * other.denominator,
        }
    }
}

impl Ord for WideFraction {
    fn cmp(&self, other: &WideFraction) -> Ordering {
        let (own, others) = (
            self.numerator * other.denominator,
            other.numerator * self.denominator,
        );
        own.cmp(&others)
    }
}

impl PartialOrd for WideFraction {
    fn partial_cmp(&self, other: &WideFraction) -> Option<Ordering> {
        Some(self.cmp(other))
    }
}

impl PartialEq for WideFraction {
    fn eq(&self, other: &WideFraction) -> bool {
        self.cmp(other) == Ordering::Equal
    }
}

impl Eq for WideFraction {}

#[cfg(test)]
mod tests {
    use super::*;
    use crate::generator::random::Random;

    fn wide(value: i128) -> Wide {
        Wide::from(value)
    }

    /// 2^n.
    fn power(n: usize) -> Wide {
        (0..n).fold(wide(1), |power, _| power * wide(2))
    }

    /// Whole numbers at digits' ends, small ones and any, all below 2^62.
    fn some_number(random: &mut Random) -> i128 {
        let size = random.pick(&[0, 1, 2, 1 << 32, (1 << 61) - 1, 1 << 61]);
        let any = random.between(-(1 << 61), 1 << 61) as i128;
        random.pick(&[size, -size, any])
    }

    #[test]
    fn below_128_bits_it_is_i128() {
        let mut random = Random::new(1);
        for _ in 0..2_000 {
            let (a, b) = (some_number(&mut random), some_number(&mut random));
            assert_eq!(wide(a) + wide(b), wide(a + b), "{a} + {b}");
            assert_eq!(wide(a) - wide(b), wide(a - b), "{a} - {b}");
            assert_eq!(wide(a) * wide(b), wide(a * b), "{a} × {b}");
            assert_eq!(wide(a).cmp(&wide(b)), a.cmp(&b), "{a} and {b}");
        }
        assert_eq!(-wide(i128::MIN), power(127));
        assert_eq!(wide(0), -wide(0));
    }

    #[test]
    fn sums_and_products_are_those_of_their_parts() {
        // The laws of whole numbers, on numbers of up to 500 bits.
        let mut random = Random::new(2);
        let mut any = |factors: usize| {
            let parts = (0..factors).map(|_| wide(some_number(&mut random)));
            parts.fold(wide(1), |all, part| all * part + part)
        };
        for _ in 0..500 {
            let (a, b, c) = (any(4), any(3), any(3));
            assert_eq!(a + b, b + a);
            assert_eq!((a + b) - b, a);
            assert_eq!(a - b, -(b - a));
            assert_eq!(b * c, c * b);
            assert_eq!(a * (b + c), a * b + a * c);
            assert_eq!((a - b) * (a + b), a * a - b * b);
            assert_eq!((a - b).cmp(&wide(0)), a.cmp(&b));
        }
    }

    #[test]
    fn carries_go_through_all_digits() {
        for n in [64, 127, 128, 192, 448, 511] {
            // 2^n - 1 has n ones.
            let ones = power(n) - wide(1);
            assert_eq!(used(&ones.digits), n.div_ceil(64));
            let all: u32 = ones.digits.iter().map(|digit| digit.count_ones()).sum();
            assert_eq!(all as usize, n);
            assert_eq!(ones + wide(1), power(n));
            assert_eq!(-ones - wide(1), -power(n));
            assert!(ones < power(n) && -power(n) < -ones && -power(n) < ones);
        }
        // (2^256 - 1)(2^255 + 1) = 2^511 + 2^256 - 2^255 - 1.
        let by_parts = power(511) + power(256) - power(255) - wide(1);
        assert_eq!((power(256) - wide(1)) * (power(255) + wide(1)), by_parts);
    }

    #[test]
    #[should_panic(expected = "a sum is below 2^512")]
    fn a_sum_of_513_bits_is_a_panic() {
        let _ = power(511) + power(511);
    }

    #[test]
    #[should_panic(expected = "a product is below 2^512")]
    fn a_product_of_513_bits_is_a_panic() {
        let _ = power(256) * power(256);
    }

    #[test]
    #[should_panic(expected = "a fraction needs a denominator above 0")]
    fn a_fraction_over_0_is_a_panic() {
        let _ = WideFraction::new(1, 0);
    }

    #[test]
    fn fractions_are_added_and_multiplied_exactly() {
        let part = WideFraction::new;
        assert_eq!(part(1, 2) + part(1, 3), part(5, 6));
        assert_eq!(part(1, 3) - part(1, 2), part(-1, 6));
        assert_eq!(part(-2, 3) * part(3, 4), part(-1, 2));
        assert_eq!(part(7, 7), WideFraction::whole(1));
        assert_eq!(-part(1, 3) + part(2, 6), WideFraction::whole(0));
        // A tenth ten times is 1: nothing is rounded.
        let tenths = (0..10).fold(WideFraction::whole(0), |all, _| all + part(1, 10));
        assert_eq!(tenths, WideFraction::whole(1));
    }

    #[test]
    fn fractions_are_ordered_at_both_signs() {
        let rising = [(-3, 2), (-1, 1), (-1, 3), (0, 5), (1, 3), (34, 100), (5, 4)];
        let rising = rising.map(|(a, b)| WideFraction::new(a, b));
        for pair in rising.windows(2) {
            assert_eq!(pair[0].cmp(&pair[1]), Ordering::Less);
            assert_eq!(pair[1].cmp(&pair[0]), Ordering::Greater);
        }
        // 10^30 / (10^30 + 1) is below (10^30 + 1) / (10^30 + 2) by about 10^-60.
        let many = 1_000_i128.pow(10);
        let lower = WideFraction::new(many, many + 1);
        let higher = WideFraction::new(many + 1, many + 2);
        assert!(lower < higher && -higher < -lower);
    }
}
