//! The warm or the cold counts of a channel over a window, made for given sums W and A.

use super::random::Random;

/// Some of the ages 0..7, age k as bit k.
pub type Ages = u8;

pub fn ages_in(set: Ages) -> impl Iterator<Item = usize> {
    (0..8).filter(move |age| (set >> age) & 1 == 1)
}

/// W of a side that is good at these ages.
pub fn weight_at(weights: &[u8; 8], ages: Ages) -> i128 {
    ages_in(ages).map(|age| weights[age] as i128).sum()
}

/// The four counts of a side at each age, and the lowest and highest of its good ones.
#[derive(Clone, Debug)]
pub struct SideCounts {
    pub counts: [[u16; 4]; 8],
    pub lowest: u16,
    pub highest: u16,
}

/// Whether three or four counts can give a: it is 4 or 3 times their sum.
fn is_scan_value(a: i128) -> bool {
    (0..=12 * 65_535).contains(&a) && (a % 3 == 0 || a % 4 == 0)
}

/// A scan value for each of some weights, so that A is their weighted sum: near the mean, but for the one of
/// the least weight above 0, which makes up the sum. None where no try makes it a scan value.
fn scan_values(random: &mut Random, weights: &[i128], sum: i128) -> Option<Vec<i128>> {
    let heavy = (0..weights.len()).filter(|place| weights[*place] > 0);
    let last = heavy.min_by_key(|place| weights[*place])?;
    let mean = sum / weights.iter().sum::<i128>();
    for attempt in 0..20 {
        // At the end the mean itself, which has room at the ends of 16 bits too.
        let spread = [36, 12, 4, 0][attempt / 5];
        let mut values = vec![0; weights.len()];
        for place in (0..weights.len()).filter(|place| *place != last) {
            let step = random.pick(&[3, 4]);
            let near = mean + random.between(-spread, spread) as i128;
            values[place] = step * near.div_euclid(step);
        }
        let others: i128 = weights.iter().zip(&values).map(|(w, a)| w * a).sum();
        if (sum - others) % weights[last] != 0 {
            continue;
        }
        values[last] = (sum - others) / weights[last];
        if values.iter().all(|a| is_scan_value(*a)) {
            return Some(values);
        }
    }
    None
}

/// Some counts with this sum, each within the difference, which is above 0, of each other.
fn counts_with_sum(random: &mut Random, sum: i128, n: i128, difference: i128) -> Vec<i128> {
    let mut counts: Vec<i128> = (0..n).map(|place| (sum + place) / n).collect();
    let (first, last) = (counts[0], counts[n as usize - 1]);
    let room = first.min(65_535 - last).min((difference - 1) / 2);
    let apart = random.between(0, room as i64) as i128;
    counts[0] -= apart;
    counts[n as usize - 1] += apart;
    counts
}

/// Three or four good counts with the scan value a; a fourth is too far from the three.
fn good_side(random: &mut Random, a: i128, difference: i128) -> (Vec<i128>, Option<i128>) {
    let four = a % 4 != 0 || (a % 3 == 0 && random.once_in(2));
    if four {
        return (counts_with_sum(random, a / 3, 4, difference), None);
    }
    let three = counts_with_sum(random, a / 4, 3, difference);
    let beyond = difference + random.between(1, 500) as i128;
    let above = three[2] + beyond;
    let below = three[0] - beyond;
    let far = if above > 65_535 || (below >= 0 && random.once_in(2)) {
        below
    } else {
        above
    };
    (three, Some(far))
}

/// Two counts and two others too far from them: none is good.
fn bad_side(random: &mut Random, difference: i128) -> [u16; 4] {
    let level = random.between(0, 60_000) as i128;
    let far = level + difference + random.between(1, 500) as i128;
    [level, far, far, level].map(|count| count as u16)
}

/// A side that is good at these ages, with A over them, and bad at all others. The difference is from 1 to
/// 1,000. None where no scan values are found.
pub fn side_counts(
    random: &mut Random,
    weights: &[u8; 8],
    good: Ages,
    sum: i128,
    difference: u16,
) -> Option<SideCounts> {
    let difference = difference as i128;
    let own: Vec<i128> = ages_in(good).map(|age| weights[age] as i128).collect();
    let values = scan_values(random, &own, sum)?;
    let mut side = SideCounts {
        counts: std::array::from_fn(|_| bad_side(random, difference)),
        lowest: u16::MAX,
        highest: 0,
    };
    for (age, a) in ages_in(good).zip(values) {
        let (counts, far) = good_side(random, a, difference);
        for count in &counts {
            side.lowest = side.lowest.min(*count as u16);
            side.highest = side.highest.max(*count as u16);
        }
        let mut four: Vec<i128> = counts.into_iter().chain(far).collect();
        random.shuffle(&mut four);
        side.counts[age] = std::array::from_fn(|place| four[place] as u16);
    }
    Some(side)
}

#[cfg(test)]
mod tests {
    use super::*;

    #[test]
    fn scan_values_have_their_sum() {
        let mut random = Random::new(1);
        for weights in [&[1][..], &[128], &[128, 1], &[3, 0, 5, 2], &[64, 16, 4]] {
            let all: i128 = weights.iter().sum();
            for mean in [0, 12, 120_000, 786_420] {
                let values = scan_values(&mut random, weights, mean * all).unwrap();
                let sum: i128 = weights.iter().zip(&values).map(|(w, a)| w * a).sum();
                assert_eq!(sum, mean * all, "{weights:?} {values:?}");
                assert!(values.iter().all(|a| is_scan_value(*a)));
            }
        }
        // A mean that no side has by itself: 3 and 4 make 7.
        assert_eq!(scan_values(&mut random, &[1], 7), None);
        let two = scan_values(&mut random, &[1, 1], 240_007).unwrap();
        assert_eq!(two[0] + two[1], 240_007);
    }

    #[test]
    fn good_sides_have_their_scan_value_and_bad_ones_none() {
        let mut random = Random::new(2);
        for a in [0, 3, 4, 12, 240_000, 240_003, 240_004, 786_420] {
            for difference in [1, 2, 50, 1_000] {
                let (counts, far) = good_side(&mut random, a, difference);
                let n = counts.len() as i128;
                assert_eq!(12 / n * counts.iter().sum::<i128>(), a);
                let (lowest, highest) = (counts[0], counts[counts.len() - 1]);
                assert!(lowest >= 0 && highest - lowest <= difference && highest <= 65_535);
                assert_eq!(far.is_some(), n == 3);
                let beyond = |far: i128| far < lowest - difference || far > highest + difference;
                assert!(far.is_none_or(|far| (0..=65_535).contains(&far) && beyond(far)));
            }
        }
    }
}
