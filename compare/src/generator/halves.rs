//! Lists in whose last feed r meets halves in each place where it serves: the warm mean, X, the linear part and the
//! bend of a scene, TNL and scan bias.

use super::aimed_windows::{ages_there, count_weights, Draft, GoodAges};
use super::biases::{BiasValues, PairValues};
use super::lists::FeedList;
use super::random::Random;
use super::scenes::earth_counts;
use super::shelves::{pairs_beside_half, HIGHEST, LOWEST};
use super::six_numbers::SixNumbers;
use super::thermometers::t_of_count;
use super::weighted_sides::{ages_in, weight_at, Ages};
use crate::second::rounding::{floor, r};
use crate::second::scene::{is_outside, rounded_share};
use crate::second::table::{Shelf, Target, CHANNELS, TARGETS};
use crate::second::thermometer::KELVIN_OF_ZERO_CELSIUS;
use crate::second::window::{channel_sums, thermometer_sums, window};

/// Whether a / b lies midway between two whole numbers.
fn is_half(a: i128, b: i128) -> bool {
    2 * a.rem_euclid(b) == b
}

/// How often 2 divides a number that is not 0.
fn twos(number: i128) -> u32 {
    number.trailing_zeros()
}

/// The greatest divisor that two numbers have in common.
fn divisor(one: i128, other: i128) -> i128 {
    let (mut one, mut other) = (one, other);
    while other != 0 {
        (one, other) = (other, one % other);
    }
    one
}

/// An odd number from 1 to the greatest that is at most this, which is above 0.
fn odd_up_to(random: &mut Random, most: i128) -> i128 {
    2 * random.between(0, (most as i64 - 1) / 2) as i128 + 1
}

/// Weights by age: for a single thermometer of a target some with a great even sum, else small ones.
fn thermometer_weights(random: &mut Random, is_single: bool) -> [u8; 8] {
    let mut weights = match random.below(4) {
        0 if is_single => [127, 127, 0, 0, 0, 0, 0, 0],
        1 if is_single => [60, 1, 30, 7, 0, 2, 99, 55],
        2 => [1; 8],
        _ => std::array::from_fn(|_| random.between(0, 2) as u8),
    };
    weights[0] = weights[0].max(1);
    weights
}

/// One thermometer of a target with all the weight, or all with small weights.
fn set_target_weights(random: &mut Random, draft: &mut Draft, target: Target, is_single: bool) {
    let own = target.thermometers();
    let single = own.start + random.below(own.len());
    let all = random.pick(&[1, 2, 100, 255]);
    for index in own {
        let weight = random.between(1, 3) as u8;
        let alone = if index == single { all } else { 0 };
        draft.table.thermometers[index].weight = if is_single { alone } else { weight };
    }
}

/// A thermometer of a scan that weighs in the mean of its target.
#[derive(Clone, Copy)]
struct Weighing {
    age: usize,
    index: usize,
    /// v p.
    weight: i128,
    t: i128,
}

/// Those of a target over the window.
fn weighing(draft: &Draft, target: Target) -> Vec<Weighing> {
    let table = draft.open();
    let mut all = Vec::new();
    for scan in window(&table, &draft.roll()) {
        for index in target.thermometers() {
            let weight = table.thermometer_weights[scan.age] * table.thermometers[index].weight;
            if let (Some(t), true) = (scan.kept.thermometers[index], weight > 0) {
                let age = scan.age;
                all.push(Weighing {
                    age,
                    index,
                    weight,
                    t,
                });
            }
        }
    }
    all
}

/// Moves counts of thermometers by a little until the mean of their target is a half: whether some tries come there.
fn halve_mean(random: &mut Random, draft: &mut Draft, target: Target) -> bool {
    let mut all = weighing(draft, target);
    let p: i128 = all.iter().map(|one| one.weight).sum();
    let common = all
        .iter()
        .fold(0, |common, one| divisor(common, one.weight));
    if all.is_empty() || p / common % 2 != 0 {
        return false;
    }
    let counts = draft.records.each_ref().map(|record| record.thermometers);
    let mut q: i128 = all.iter().map(|one| one.weight * one.t).sum();
    for _ in 0..600 {
        if is_half(q, p) {
            return true;
        }
        let one = random.below(all.len());
        let Weighing {
            age, index, weight, ..
        } = all[one];
        let record = &mut draft.records[age];
        let beside = counts[age][index].saturating_add_signed(random.between(-4, 4) as i16);
        let moved = t_of_count(&draft.table, index, record.pam, record.offset, beside);
        if let Some(t) = moved.map(|t| t + KELVIN_OF_ZERO_CELSIUS) {
            record.thermometers[index] = beside;
            q += weight * (t - all[one].t);
            all[one].t = t;
        }
    }
    false
}

/// Makes the thermometers of all scans, mostly so that both means are halves.
fn make_thermometers(random: &mut Random, draft: &mut Draft) {
    let tw = KELVIN_OF_ZERO_CELSIUS + random.between(-200_000, 200_000) as i128;
    draft.make_thermometers(random, tw);
    let records = draft.records.clone();
    for _ in 0..5 {
        draft.records = records.clone();
        let is_single = random.once_in(2);
        draft.table.thermometer_weights = thermometer_weights(random, is_single);
        let halved = TARGETS.map(|target| {
            set_target_weights(random, draft, target, is_single);
            halve_mean(random, draft, target)
        });
        if halved == [true; 2] {
            return;
        }
    }
}

/// Ages at which the sides of a channel are good, with Ww × Wc at most this.
fn good_ages(random: &mut Random, weights: &[u8; 8], there: Ages, most: i128) -> Option<GoodAges> {
    let all = weight_at(weights, 0xff);
    let suffices = |weight: i128| weight > 0 && 100 * weight >= all;
    for _ in 0..100 {
        let any = [random.next(), random.next()].map(|ages| ages as Ages & there);
        let fewer = any.map(|ages| ages & random.next() as Ages);
        let [warm, cold] = random.pick(&[any, fewer]);
        let [ww, wc] = [warm, cold].map(|ages| weight_at(weights, ages));
        if suffices(ww) && suffices(wc) && ww * wc <= most {
            return Some(GoodAges { warm, cold });
        }
    }
    None
}

/// Ww, Wc, D and Ac of a channel.
#[derive(Clone, Copy)]
struct Sides {
    ww: i128,
    wc: i128,
    d: i128,
    ac: i128,
}

impl Sides {
    /// 12 × Wc × Ww.
    fn slope(&self) -> i128 {
        12 * self.wc * self.ww
    }

    /// Ac × Ww.
    fn base(&self) -> i128 {
        self.ac * self.ww
    }

    /// Whether N of some count leaves this rest when it is divided by this.
    fn leave(&self, rest: i128, divided_by: i128) -> bool {
        (self.base() + rest) % divisor(self.slope(), divided_by) == 0
    }
}

/// Up to this Ww × Wc, halves that are met once in some N are met by some counts.
const SMALL: i128 = 64;

/// From cold to warm are at least and at most so many counts.
const LEAST_COUNTS: i128 = 2_000;
const MOST_COUNTS: i128 = 40_000;

/// A D that is a multiple of this with at least and at most so many counts from cold to warm; none where no multiple
/// has them.
fn multiple_of(random: &mut Random, part: i128, slope: i128, most: i128) -> Option<i128> {
    let least = floor(LEAST_COUNTS * slope, part) + 1;
    let most = floor(most * slope, part);
    (least <= most).then(|| part * random.between(least as i64, most as i64) as i128)
}

/// Sides with this D: Ac anywhere, so that Aw is whole.
fn sides_with(random: &mut Random, (ww, wc): (i128, i128), d: i128) -> Option<Sides> {
    let apart = floor(d, ww * wc) + 1;
    let level = random.between(12_000, 774_000 - apart as i64) as i128;
    let is_whole = |ac: &i128| (d + ac * ww) % wc == 0;
    let ac = (wc * level..wc * level + 12 * wc).find(is_whole)?;
    Some(Sides { ww, wc, d, ac })
}

/// Sides with which 65,536 N / D is a half for each count: from cold to warm are a whole part of 65,536 counts, and
/// the cold mean lies beside whole counts.
fn sides_for_every_x(random: &mut Random, (ww, wc): (i128, i128)) -> Sides {
    let times = random.pick(&[2, 3, 6]);
    let d = 6 * ww * wc * (1 << 17) / times;
    // N is an odd number of times D / 2^17, as Ac × Ww is.
    let part = 6 * wc / times;
    let most = (774_000 - 12 * 65_536 / times) * wc;
    let odd = odd_up_to(random, most / part);
    let ac = part * odd;
    Sides { ww, wc, d, ac }
}

/// Sides with D a multiple of 2^17: with less 65,536 N / D is no half.
fn sides_for_x(random: &mut Random, (ww, wc): (i128, i128)) -> Option<Sides> {
    if ww * wc > SMALL || random.once_in(3) {
        return Some(sides_for_every_x(random, (ww, wc)));
    }
    // The fewer counts, the more of them have a half.
    let most = random.pick(&[12_000, 12_000, MOST_COUNTS]);
    let d = multiple_of(random, 1 << 17, 12 * wc * ww, most)?;
    // N has to be an odd number of times this.
    let part = d >> 17;
    sides_with(random, (ww, wc), d).filter(|sides| sides.leave(part, 2 * part))
}

/// Sides with a power of two of counts from cold to warm, and the cold mean a whole count: X can be each multiple of
/// some power of two.
fn sides_for_bend(random: &mut Random, (ww, wc): (i128, i128)) -> Sides {
    let counts = 1 << random.between(11, 15);
    let cold = random.between(1_000, 64_000 - counts) as i128;
    let (d, ac) = (12 * wc * ww * counts as i128, 12 * wc * cold);
    Sides { ww, wc, d, ac }
}

/// TNL with which 4 X (65,536 - X) TNL is an odd multiple of 2^31 at each X with a certain number of factors 2.
fn nonlinearity_for_bend(random: &mut Random) -> i128 {
    // X has from 8 to 14 of them, 65,536 - X as many, and TNL those that are missing from 29.
    let factor = 1 << (29 - 2 * random.between(8, 14));
    let tnl = factor * odd_up_to(random, 8_192 / factor);
    random.pick(&[tnl, -tnl])
}

/// TNL by which X shows: great ones of both signs, mostly even.
fn nonlinearity_for_x(random: &mut Random) -> i128 {
    let great = random.between(5_000, 8_192) as i128;
    let even = great & !1;
    random.pick(&[8_192, -8_192, even, -even, great, -great])
}

/// Any TNL, or an even one near 0.
fn any_nonlinearity(random: &mut Random) -> i128 {
    let any = random.between(-8_192, 8_192) as i128;
    random.pick(&[0, 2, -2, any, any & !1])
}

/// Tc and Tw - Tc for a warm mean, so that b is in its range, and Tw - Tc a multiple of `part` by a number that has
/// no divisor in common with `other`; none where some tries find none.
fn temperatures(random: &mut Random, mean: i128, part: i128, other: i128) -> Option<(i128, i128)> {
    for _ in 0..40 {
        let tc = random.between(11_166, 43_934) as i128;
        let tw = mean + random.between(-4_000, 4_000) as i128;
        let times = floor(tw - tc, part);
        let rise = part * times;
        // Tc makes up for what is left.
        let tc = tw - rise;
        let is_inside = tc <= 43_934 && (825_032..=1_357_512).contains(&rise);
        if is_inside && divisor(times, other) == 1 {
            return Some((tc, rise));
        }
    }
    None
}

/// Of what a channel has halves.
#[derive(Clone, Copy)]
enum Aim {
    X,
    LinearPart,
    Bend,
}

/// Six numbers that aim at halves, with a warm mean.
fn six_numbers(
    random: &mut Random,
    aim: Aim,
    weights: (i128, i128),
    mean: i128,
) -> Option<SixNumbers> {
    let (ww, wc) = weights;
    let (sides, tnl, (tc, rise)) = match aim {
        Aim::X => {
            let sides = sides_for_x(random, weights)?;
            let tnl = nonlinearity_for_x(random);
            (sides, tnl, temperatures(random, mean, 1, 1)?)
        }
        Aim::LinearPart => {
            // D is so many parts of which Tw - Tc has others: a half is met once in so many N.
            let parts = 2 * random.between(2, 150) as i128;
            let d = multiple_of(random, parts, 12 * wc * ww, MOST_COUNTS)?;
            let part = d / parts;
            let sides = sides_with(random, weights, d)?;
            if part > 30_000 || !sides.leave(parts / 2, parts) {
                return None;
            }
            let tnl = any_nonlinearity(random);
            (sides, tnl, temperatures(random, mean, part, parts)?)
        }
        Aim::Bend => {
            let sides = sides_for_bend(random, weights);
            let tnl = nonlinearity_for_bend(random);
            let part = 1 << random.below(12);
            (sides, tnl, temperatures(random, mean, part, 2)?)
        }
    };
    Some(SixNumbers {
        tc,
        rise,
        tnl,
        d: sides.d,
        slope: sides.slope(),
        base: sides.base(),
    })
}

/// The first and the last count that is not outside.
fn delivered_counts(six: &SixNumbers) -> (i128, i128) {
    let first = floor(six.base + six.slope - 1, six.slope);
    let last = floor(4 * six.base + 5 * six.d, 4 * six.slope);
    (first, last.min(65_535))
}

/// Counts at which X has as many factors 2 as make the bend a half, as far as there are such.
fn bend_counts(random: &mut Random, six: &SixNumbers) -> Vec<i128> {
    if six.tnl == 0 || twos(six.tnl) % 2 == 0 {
        return Vec::new();
    }
    let factor = 1 << ((29 - twos(six.tnl)) / 2);
    let mut counts = Vec::new();
    for _ in 0..40 {
        let x = factor * odd_up_to(random, (81_920 / factor).max(1));
        let count = floor(x * six.d + 65_536 * six.base, 65_536 * six.slope);
        counts.extend([count, count + 1]);
    }
    counts
}

/// What the bend is at an X, times 2^32.
fn bend(six: &SixNumbers, x: i128) -> i128 {
    4 * x * (65_536 - x) * six.tnl
}

/// Which of X, the linear part and the bend of a count are halves: X by which the bend shows where it goes, X
/// by which it does not, the linear part and the bend itself.
fn halves_of(six: &SixNumbers, count: i128) -> [bool; 4] {
    let n = six.slope * count - six.base;
    if is_outside(n, six.d) || count > 65_535 {
        return [false; 4];
    }
    let below = floor(65_536 * n, six.d);
    let [lower, upper] = [below, below + 1].map(|x| r(bend(six, x), 1 << 32));
    let is_half_x = is_half(65_536 * n, six.d);
    [
        is_half_x && lower != upper,
        is_half_x && lower == upper,
        is_half(n * six.rise, six.d),
        is_half(bend(six, rounded_share(n, six.d)), 1 << 32),
    ]
}

/// Counts of which X, the linear part or the bend is a half, as `halves_of` tells them apart: up to so many of each.
fn half_counts(random: &mut Random, six: &SixNumbers, most: usize) -> [Vec<u16>; 4] {
    let (first, last) = delivered_counts(six);
    let start = random.between(first as i64, last as i64) as i128;
    let mut tried: Vec<i128> = (start..last.min(start + 700)).collect();
    tried.extend((0..300).map(|_| random.between(first as i64, last as i64) as i128));
    tried.extend(bend_counts(random, six));
    random.shuffle(&mut tried);
    let mut found: [Vec<u16>; 4] = Default::default();
    for count in tried {
        for (place, is_half) in halves_of(six, count).into_iter().enumerate() {
            if is_half && found[place].len() < most {
                found[place].push(count as u16);
            }
        }
    }
    found
}

/// A pair that makes a half of T, if one can, or any; c0 is odd as often as even.
fn pair_for(random: &mut Random, t: i128) -> PairValues {
    let c0 = random.between(-4_096, 4_096) as i16;
    let any = random.next() as i16;
    if twos(t) > 15 || random.once_in(3) {
        let e = random.pick(&[0, 0, any]);
        return PairValues { c0, e };
    }
    // e has the factors 2 that T has not. Of an odd T only the least e makes a half.
    let factor = 1 << (15 - twos(t));
    let times = odd_up_to(random, 32_768 / factor);
    let e = random.pick(&[factor * times, -factor * times]);
    let e = if e == 32_768 { -e } else { e };
    PairValues { c0, e: e as i16 }
}

/// The bias file that makes halves of the scenes of these earth counts.
fn bias_for(
    random: &mut Random,
    six: &[SixNumbers; CHANNELS],
    earth: &[[u16; 96]; 22],
) -> BiasValues {
    let mut bias = BiasValues::zeros();
    for channel in 0..CHANNELS {
        let constants = six[channel].constants();
        for (position, count) in earth[channel].iter().enumerate() {
            if let Ok(t) = constants.temperature(*count) {
                bias.pairs[channel][position] = pair_for(random, t);
            }
        }
    }
    bias
}

/// A draft with its counts, and what it is aimed at; none where some tries do not find counts.
fn make_channels(random: &mut Random, draft: &mut Draft) -> Option<[SixNumbers; CHANNELS]> {
    let table = draft.open();
    let scans = window(&table, &draft.roll());
    let mut all = Vec::new();
    for channel in 0..CHANNELS {
        let sums = thermometer_sums(&table, &scans, Target::of_channel(channel));
        if sums.weight == 0 {
            return None;
        }
        let mean = r(sums.temperature, sums.weight);
        // Halves of X are met by their aim alone.
        let aim = random.pick(&[Aim::X, Aim::X, Aim::LinearPart, Aim::Bend]);
        let made = (0..100).find_map(|_| make_channel(random, draft, channel, aim, mean));
        all.push(made?);
    }
    all.try_into().ok()
}

/// The counts of one channel, and its rows of the table but for b.
fn make_channel(
    random: &mut Random,
    draft: &mut Draft,
    channel: usize,
    aim: Aim,
    mean: i128,
) -> Option<SixNumbers> {
    let weights = draft.table.count_weights;
    let most = match aim {
        Aim::LinearPart => SMALL,
        Aim::X | Aim::Bend => random.pick(&[SMALL, 255 * 255, 255 * 255]),
    };
    let good = good_ages(random, &weights, draft.there, most)?;
    let [ww, wc] = [good.warm, good.cold].map(|ages| weight_at(&weights, ages));
    let six = six_numbers(random, aim, (ww, wc), mean)?;
    let found = half_counts(random, &six, 1);
    let aimed_at = match aim {
        Aim::X => &found[0],
        Aim::LinearPart => &found[2],
        Aim::Bend => &found[3],
    };
    if aimed_at.is_empty() {
        return None;
    }
    if !draft.make_channel(random, channel, good, &six) {
        return None;
    }
    let shelf = draft.records[0].shelves[Shelf::of_channel(channel) as usize];
    let is_even = six.tnl % 2 == 0;
    let beside = |_: usize| pairs_beside_half(random, shelf, six.tnl as i16);
    if let (true, Some(pairs)) = (is_even, (0..20).find_map(beside)) {
        draft.table.channels[channel].shelf_pairs = pairs;
    }
    Some(six)
}

/// The earth counts of the current record, most of them with halves, and of the others any.
fn make_earth_counts(random: &mut Random, draft: &mut Draft, six: &[SixNumbers; CHANNELS]) {
    let table = draft.open();
    let scans = window(&table, &draft.roll());
    for age in ages_in(draft.there) {
        for channel in 0..CHANNELS {
            let sums = channel_sums(&table, &scans, channel);
            draft.records[age].earth[channel] = earth_counts(random, &sums);
        }
    }
    for (channel, six) in six.iter().enumerate() {
        let earth = &mut draft.records[0].earth[channel];
        let found = half_counts(random, six, 20).concat();
        for (place, count) in found.into_iter().enumerate() {
            earth[place] = count;
        }
        random.shuffle(earth);
    }
}

/// A list in whose last feed every channel has flag 0 and scenes with halves; none where some tries do not find
/// it.
fn try_list(random: &mut Random) -> Option<FeedList> {
    let (small, there) = (count_weights(random), ages_there(random));
    // With great weights D can be above 2^32.
    let weights = random.pick(&[small, [128, 64, 32, 16, 8, 4, 2, 1]]);
    let mut draft = Draft::new(random, weights, there);
    draft.records[0].shelves =
        std::array::from_fn(|_| random.between(LOWEST as i64, HIGHEST as i64) as i32);
    make_thermometers(random, &mut draft);
    let six = make_channels(random, &mut draft)?;
    make_earth_counts(random, &mut draft, &six);
    let roll = draft.roll();
    let scans = window(&draft.open(), &roll);
    let current = roll.last()?;
    let tw = six.map(|own| own.tc + own.rise);
    if !draft.settle(random, &scans, &tw) || !draft.has_numbers(current, &scans, &six) {
        return None;
    }
    let bias = bias_for(random, &six, &draft.records[0].earth);
    Some(FeedList {
        table: draft.table.encode(),
        bias: bias.encode(),
        feeds: draft.feeds(random),
    })
}

/// The list of a seed.
pub fn halves_list(seed: u64) -> FeedList {
    let mut random = Random::new(seed);
    loop {
        if let Some(list) = try_list(&mut random) {
            return list;
        }
    }
}

#[cfg(test)]
mod tests {
    use super::*;
    use crate::second::bias::open_bias;
    use crate::second::calibrator::Calibrator;
    use crate::second::constants::{scan_channels, Constants};
    use crate::second::product::{scene_of, summary_of, LENGTH};
    use crate::second::shelf::unrounded_nonlinearity_for_scan;

    /// The calibrator after a list, and the product of its last feed.
    fn fed(list: &FeedList) -> (Calibrator, Vec<u8>) {
        let mut calibrator = Calibrator::of_files(&list.table, &list.bias).unwrap();
        let mut last = Vec::new();
        for feed in &list.feeds {
            let mut buffer = feed.buffer.clone();
            calibrator = calibrator.feed(&feed.record, &mut buffer).calibrator;
            last = buffer;
        }
        last.truncate(LENGTH);
        (calibrator, last)
    }

    #[test]
    fn every_channel_of_the_last_feed_has_halves() {
        let mut met = [0; 3];
        for seed in 0..10 {
            let (calibrator, product) = fed(&halves_list(seed));
            let record = calibrator.roll().last().unwrap();
            let window = calibrator.window();
            let channels = scan_channels(calibrator.table(), record, &window);
            for (channel, own) in channels.into_iter().enumerate() {
                let own: Constants = own.expect("flag 0");
                let delivered = summary_of(&product, channel).delivered;
                assert!(delivered > 50, "{delivered} delivered");
                let mut halves = [0; 3];
                for count in record.earth_counts(channel) {
                    let n = own.slope * count as i128 - own.base;
                    if is_outside(n, own.difference) {
                        continue;
                    }
                    let x = rounded_share(n, own.difference);
                    let bend = 4 * x * (65_536 - x) * own.nonlinearity;
                    halves[0] += usize::from(is_half(65_536 * n, own.difference));
                    halves[1] += usize::from(is_half(n * own.rise, own.difference));
                    halves[2] += usize::from(is_half(bend, 1 << 32));
                }
                assert_ne!(halves, [0; 3], "seed {seed}, channel {}", channel + 1);
                met = std::array::from_fn(|place| met[place] + halves[place]);
            }
        }
        assert!(met.iter().all(|count| *count > 500), "{met:?}");
    }

    #[test]
    fn most_lists_have_halves_of_their_warm_means_and_of_tnl() {
        let mut met = [0; 2];
        for seed in 0..20 {
            let (calibrator, _) = fed(&halves_list(seed));
            let (table, window) = (calibrator.table(), calibrator.window());
            for target in TARGETS {
                let sums = thermometer_sums(table, &window, target);
                met[0] += usize::from(is_half(sums.temperature, sums.weight));
            }
            let record = calibrator.roll().last().unwrap();
            for channel in 0..CHANNELS {
                let line = unrounded_nonlinearity_for_scan(table, record, channel);
                met[1] += usize::from(is_half(line.numerator, line.denominator));
            }
        }
        assert!(met[0] > 25 && met[1] > 250, "{met:?}");
    }

    #[test]
    fn most_scenes_have_a_half_of_scan_bias() {
        let list = halves_list(1);
        let (_, biased) = fed(&list);
        let (_, plain) = fed(&list.under_zeros());
        let bias = open_bias(&list.bias).unwrap();
        let (mut delivered, mut halves) = (0, 0);
        for channel in 0..CHANNELS {
            for position in 0..96 {
                let kelvin = scene_of(&plain, channel, position);
                if kelvin > 0.0 {
                    let t = (kelvin * 4096.0) as i128;
                    let pair = bias.pair(channel, position);
                    assert_eq!(
                        scene_of(&biased, channel, position) * 4096.0,
                        pair.biased(t) as f32
                    );
                    delivered += 1;
                    halves += usize::from(is_half((65_536 + pair.e) * t, 65_536));
                }
            }
        }
        assert!(2 * halves > delivered, "{halves} of {delivered}");
    }
}
