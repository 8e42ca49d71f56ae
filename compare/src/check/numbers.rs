//! Checks of floor and r by multiplying out, and r stated a second time.

use super::counters::Counters;
use crate::generator::numbers::division_pairs;
use crate::second::rounding::{floor, r};

/// Whether a whole number is the nearest to a / b: within a half of it, and even where just at a half.
pub fn is_nearest(a: i128, b: i128, whole: i128) -> bool {
    let twice_away = (2 * (a - b * whole)).abs();
    twice_away < b || twice_away == b && whole % 2 == 0
}

/// Whether a / b lies midway between two whole numbers.
pub fn is_half(a: i128, b: i128) -> bool {
    2 * a.rem_euclid(b) == b
}

/// r(a, b) in another way: halves up at first, and one less where this made a half odd.
pub fn rounded(a: i128, b: i128) -> i128 {
    let up = (2 * a + b).div_euclid(2 * b);
    let was_half = 2 * b * up == 2 * a + b;
    up - i128::from(was_half && up % 2 != 0)
}

/// The greatest a and b of 64 bits, the greatest even b, and the least odd a.
const LAST: i128 = i64::MAX as i128;
const LAST_EVEN: i128 = LAST - 1;
const FIRST_ODD: i128 = i64::MIN as i128 + 1;

/// Checks the divisions of a seed.
pub fn check_divisions(seed: u64, counters: &mut Counters) -> Result<(), String> {
    for (a, b) in division_pairs(seed, 200) {
        checked_division(a as i128, b as i128, counters)?;
    }
    Ok(())
}

/// The floor and r of one pair.
pub fn checked_division(a: i128, b: i128, counters: &mut Counters) -> Result<(i128, i128), String> {
    let down = floor(a, b);
    if !(down * b <= a && a < (down + 1) * b) {
        return Err(format!("floor({a}, {b}) is not {down}"));
    }
    let nearest = r(a, b);
    if !is_nearest(a, b, nearest) || rounded(a, b) != nearest {
        return Err(format!("r({a}, {b}) is not {nearest}"));
    }
    let exact = down * b == a;
    counters.met("division", if exact { "exact" } else { "not exact" });
    if a < 0 {
        counters.met("division", "negative");
    }
    count_divisor(b, counters);
    let parity = if b % 2 == 0 { "even" } else { "odd" };
    let beside = |side: &str| format!("{parity} b, {side}");
    match 2 * (a - down * b) - b {
        _ if exact => {}
        0 => count_half(a, b, down, counters),
        -2..=-1 => counters.met("beside a half of a division", &beside("below")),
        1..=2 => counters.met("beside a half of a division", &beside("above")),
        _ => {}
    }
    Ok((down, nearest))
}

/// Counts the divisor of a pair.
fn count_divisor(b: i128, counters: &mut Counters) {
    let mut met = |class: &str| counters.met("b of a division", class);
    met(if b % 2 == 0 { "even" } else { "odd" });
    match b {
        1 | 2 => met(&b.to_string()),
        LAST_EVEN => met("2^63 - 2"),
        LAST => met("2^63 - 1"),
        _ => {}
    }
}

/// Counts where a pair midway between two whole numbers, of which this is the lower, stands.
fn count_half(a: i128, b: i128, below: i128, counters: &mut Counters) {
    let mut met = |class: &str| counters.met("half of a division", class);
    let side = if a < 0 { "below 0" } else { "above 0" };
    let way = if below % 2 == 0 { "down" } else { "up" };
    met(&format!("{side}, {way}"));
    match below {
        0 => met("1/2"),
        -1 => met("-1/2"),
        _ => {}
    }
    match b {
        2 => met("b 2"),
        LAST_EVEN => met("b 2^63 - 2"),
        _ => {}
    }
    match a {
        LAST => met("a 2^63 - 1"),
        FIRST_ODD => met("a -2^63 + 1"),
        _ => {}
    }
}

#[cfg(test)]
mod tests {
    use super::*;

    #[test]
    fn one_whole_number_is_nearest_and_formed_in_both_ways() {
        for a in -60..=60 {
            for b in 1..=14 {
                let right: Vec<i128> = (-61..=61).filter(|n| is_nearest(a, b, *n)).collect();
                assert_eq!(right, [rounded(a, b)], "{a} / {b}");
            }
        }
        let rows = [(1, 0), (3, 2), (5, 2), (-1, 0), (-3, -2), (-5, -2)];
        for (halves, even) in rows {
            assert!(is_half(halves, 2) && is_half(3 * halves, 6));
            assert!(is_nearest(halves, 2, even));
            assert!(!is_nearest(halves, 2, halves - even));
        }
        assert!(!is_half(2, 2) && !is_half(1, 3) && !is_half(2, 6));
    }

    #[test]
    fn every_class_of_a_division_is_met_by_its_pairs() {
        let mut counters = Counters::new();
        for seed in 0..20 {
            check_divisions(seed, &mut counters).unwrap();
        }
        let is_own = |class: &String| class.contains("division");
        let missing: Vec<String> = counters.missing().into_iter().filter(is_own).collect();
        assert_eq!(missing, [""; 0]);
    }
}
