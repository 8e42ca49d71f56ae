//! Checks of one product by its bytes: flags, delivered exactly when, scan bias, distance to E, summaries.

use std::collections::BTreeMap;

use super::counters::Counters;
use super::halves::count_halves;
use super::numbers::is_half;
use super::roundings::{ChannelParts, ScenePart};
use super::rules::{self, Pair};
use super::shelves::{count_shelf, Line, ShelfAndPairs};
use crate::second::bytes::layout_is_right;
use crate::second::product::{flag_of, number_of, scene_of, summary_of, LAYOUT};
use crate::second::record::{ScanRecord, SCENES};
use crate::second::shelf::nonlinearity_for_scan;
use crate::second::table::{Table, CHANNELS};

/// A delivered scene: B in kelvin, and in units what it is made of.
#[derive(Clone, Copy, Debug)]
struct Delivered {
    kelvin: f32,
    part: ScenePart,
}

/// What is checked of the scenes of one channel.
struct ChannelCheck<'a> {
    table: &'a Table,
    bias: &'a [u8],
    channel: usize,
    sums: rules::Sums,
    line: Line,
    /// The whole TNL.
    tnl: i128,
    /// The channel's weight sums suffice and its mean warm count is above its mean cold.
    usable: bool,
}

impl ChannelCheck<'_> {
    /// Checks one scene and hands it back if it is delivered.
    fn scene(
        &self,
        position: usize,
        count: u16,
        value: f32,
        counters: &mut Counters,
    ) -> Result<Option<Delivered>, String> {
        let about = format!("channel {} count {count}", self.channel + 1);
        let d = rules::difference(&self.sums);
        let n = rules::numerator(&self.sums, count);
        if self.usable {
            self.count_edges(count, n, d, counters);
        }
        let inside = n >= 0 && 4 * n <= 5 * d;
        let expected_mark = match (self.usable, inside) {
            (false, _) => Some(-1.0),
            (true, false) => Some(-2.0),
            // No accepted table reaches the guard.
            (true, true) => None,
        };
        if let Some(mark) = expected_mark {
            if value.to_bits() != f32::to_bits(mark) {
                return Err(format!("{about}: {value}, expected the mark {mark}"));
            }
            return Ok(None);
        }
        let pair = rules::pair(self.bias, self.channel, position);
        let (t, b) = self
            .temperature(count, value, pair, counters)
            .map_err(|what| format!("{about}: {what}"))?;
        Ok(Some(Delivered {
            kelvin: value,
            part: ScenePart { n, pair, t, b },
        }))
    }

    /// Counts the halves behind delivered scenes.
    fn count_halves(&self, delivered: &[Delivered], counters: &mut Counters) -> Result<(), String> {
        let values = &self.table.channels[self.channel];
        let parts = ChannelParts {
            q: self.sums.thermometer,
            p: self.sums.thermometer_weight,
            b: values.warm_bias,
            tc: rules::cold_and_warm(self.table, self.channel, &self.sums).0,
            line: self.line,
            d: rules::difference(&self.sums),
        };
        let scenes: Vec<ScenePart> = delivered.iter().map(|one| one.part).collect();
        count_halves(self.channel, &parts, &scenes, counters)
            .map_err(|what| format!("channel {}: {what}", self.channel + 1))
    }

    /// Checks a temperature in kelvin, after scan bias, and gives T, before it, and B.
    fn temperature(
        &self,
        count: u16,
        kelvin: f32,
        pair: Pair,
        counters: &mut Counters,
    ) -> Result<(i128, i128), String> {
        let units = kelvin as f64 * 4096.0;
        if !(units >= 1.0 && units <= 16_777_215.0 && units.fract() == 0.0) {
            return Err(format!("{kelvin} is no temperature"));
        }
        let b = units as i128;
        let e = rules::exact(self.table, self.channel, &self.sums, &self.line, count);
        let near_equation_30 = |sixteenths| rules::is_near_equation_30(&e, b, pair, sixteenths);
        if !near_equation_30(71) {
            return Err(format!("{b} units are more than 71/16 from equation 30"));
        }
        let t = rules::temperature(self.table, self.channel, &self.sums, self.tnl, count);
        if !rules::is_near(&e, t, 21) {
            return Err(format!("T {t} is more than 21/8 from E"));
        }
        if !rules::is_biased(b, t, pair) {
            return Err(format!("{b} units are not T {t} with {pair:?}"));
        }
        let near = |near: bool, classes: [&'static str; 2]| classes[usize::from(!near)];
        let class = near(rules::is_near(&e, t, 8), ["within 1 of E", "beyond 1 of E"]);
        counters.met("rounding of a scene", class);
        let classes = ["within 2 of equation 30", "beyond 2 of equation 30"];
        counters.met("scan bias", near(near_equation_30(32), classes));
        count_bias(t, pair, counters);
        Ok((t, b))
    }

    fn count_edges(&self, count: u16, n: i128, d: i128, counters: &mut Counters) {
        let numerator = |count: u16| rules::numerator(&self.sums, count);
        if n < 0 && count < u16::MAX && numerator(count + 1) >= 0 {
            counters.met("x", "one count below 0");
        }
        if n == 0 {
            counters.met("x", "at 0");
        }
        if n == d {
            counters.met("x", "at 1");
        }
        if 4 * n == 5 * d {
            counters.met("x", "at 1.25");
        }
        if 4 * n > 5 * d && count > 0 && 4 * numerator(count - 1) <= 5 * d {
            counters.met("x", "one count beyond 1.25");
        }
    }
}

/// Counts at which ends a pair stands, and the halves that it makes of T.
fn count_bias(t: i128, pair: Pair, counters: &mut Counters) {
    let mut met = |class: &str| counters.met("scan bias", class);
    match pair.c0 {
        -4_096 => met("c0 at -4096"),
        4_096 => met("c0 at 4096"),
        _ => {}
    }
    match pair.e {
        -32_768 => met("e at -32768"),
        32_767 => met("e at 32767"),
        _ => {}
    }
    if pair.c0 == 0 && pair.e == 0 {
        met("none");
    }
    if is_half((65_536 + pair.e) * t, 65_536) {
        let above = pair.e > 0;
        met(if above {
            "half, e above 0"
        } else {
            "half, e below 0"
        });
        if pair.e % 2 != 0 {
            met(if above {
                "half, odd e above 0"
            } else {
                "half, odd e below 0"
            });
        }
    }
}

/// Counts whether scan bias makes another scene the lowest or the highest of a channel.
fn count_moved_ends(delivered: &[Delivered], counters: &mut Counters) {
    let by_kelvin = |one: &&Delivered, other: &&Delivered| one.kelvin.total_cmp(&other.kelvin);
    let lowest = delivered.iter().min_by(by_kelvin);
    let highest = delivered.iter().max_by(by_kelvin);
    let t = |one: &Delivered| one.part.t;
    if lowest.is_some_and(|lowest| delivered.iter().any(|one| t(one) < t(lowest))) {
        counters.met("scan bias", "another scene is lowest");
    }
    if highest.is_some_and(|highest| delivered.iter().any(|one| t(one) > t(highest))) {
        counters.met("scan bias", "another scene is highest");
    }
}

fn check_channel(
    table: &Table,
    bias: &[u8],
    record: &ScanRecord,
    product: &[u8],
    sums: rules::Sums,
    channel: usize,
    counters: &mut Counters,
) -> Result<(), String> {
    let shares = rules::shares(table, channel, &sums);
    let groups = [
        "thermometer percentage",
        "warm percentage",
        "cold percentage",
    ];
    for (share, group) in shares.iter().zip(groups) {
        if share.part == share.least {
            counters.met(group, "met exactly");
        }
        if share.part < share.least && share.part + 100 >= share.least {
            counters.met(group, "missed by one weight");
        }
    }
    let suffice = shares.iter().all(|share| share.suffices());
    let d = rules::difference(&sums);
    if suffice {
        let class = match d {
            0 => "0",
            1 => "1",
            d if d < 0 => "negative",
            _ => "above 1",
        };
        counters.met("D with weights", class);
    }
    let expected_flag = rules::flag(table, channel, &sums);
    let flag = flag_of(product, channel);
    if flag != expected_flag {
        let about = format!("flag {flag}, expected {expected_flag}");
        return Err(format!("channel {}: {about}", channel + 1));
    }
    counters.met("flag", &flag.to_string());

    let shelf = ShelfAndPairs::of(&table.bytes, record.bytes(), channel);
    let line = shelf.line();
    let tnl = nonlinearity_for_scan(table, record, channel);
    if !line.is_rounded_to(tnl) {
        let channel = channel + 1;
        return Err(format!("channel {channel}: TNL {tnl} of {shelf:?}"));
    }
    let check = ChannelCheck {
        table,
        bias,
        channel,
        sums,
        line,
        tnl,
        usable: suffice && d > 0,
    };
    let mut delivered = Vec::new();
    let mut marks = BTreeMap::new();
    for (position, count) in record.earth_counts(channel).into_iter().enumerate() {
        let value = scene_of(product, channel, position);
        match check.scene(position, count, value, counters)? {
            Some(one) => delivered.push(one),
            None => *marks.entry(format!("{value}")).or_insert(0) += 1,
        }
    }
    counters.met_times("scene", "delivered", delivered.len() as u64);
    for (mark, times) in marks {
        counters.met_times("scene", &mark, times);
    }
    count_moved_ends(&delivered, counters);
    if !delivered.is_empty() {
        count_shelf(&shelf, counters);
        check.count_halves(&delivered, counters)?;
    }
    let summary = summary_of(product, channel);
    let kelvin = || delivered.iter().map(|one| one.kelvin);
    let lowest = kelvin().reduce(f32::min).unwrap_or(-1.0);
    let highest = kelvin().reduce(f32::max).unwrap_or(-1.0);
    let right = summary.delivered as usize == delivered.len()
        && summary.lowest.to_bits() == lowest.to_bits()
        && summary.highest.to_bits() == highest.to_bits();
    if !right {
        let expected = (delivered.len(), lowest, highest);
        let channel = channel + 1;
        return Err(format!(
            "channel {channel}: {summary:?}, expected {expected:?}"
        ));
    }
    let class = match delivered.len() {
        0 => "0 delivered",
        SCENES => "96",
        _ => "1 to 95",
    };
    counters.met("summary", class);
    Ok(())
}

/// Checks one accepted feed under these bytes of a bias file by its product's bytes.
pub fn check_product(
    table: &Table,
    bias: &[u8],
    record: &ScanRecord,
    product: &[u8],
    accepted: &BTreeMap<u32, rules::ScanValues>,
    counters: &mut Counters,
) -> Result<(), String> {
    if !layout_is_right(product, &LAYOUT) {
        return Err("a tag or length of the product is wrong".to_string());
    }
    let number = record.number();
    if number_of(product) != number {
        return Err(format!("the product has scan {}", number_of(product)));
    }
    let mut in_window = 0;
    for age in 0..8u32 {
        let scan = number.checked_sub(age);
        if scan.is_some_and(|scan| accepted.contains_key(&scan)) {
            in_window += 1;
            if table.count_weights[age as usize] > 0 {
                counters.met("window age", &age.to_string());
            }
        }
    }
    counters.met("records in window", &in_window.to_string());
    for channel in 0..CHANNELS {
        let sums = rules::sums(table, accepted, number, channel);
        check_channel(table, bias, record, product, sums, channel, counters)?;
    }
    Ok(())
}

#[cfg(test)]
mod tests {
    use super::*;
    use crate::generator::biases::{BiasValues, PairValues};
    use crate::generator::records::RecordValues;
    use crate::generator::tables::TableValues;
    use crate::second::acceptance::accepted_samples;
    use crate::second::bias::open_bias;
    use crate::second::product::product;
    use crate::second::table::open;
    use crate::second::window::window;

    /// The product of a record that is fed first.
    fn product_of(table: &TableValues, bias: &BiasValues, record: &RecordValues) -> Vec<u8> {
        let table = open(&table.encode()).unwrap();
        let bias = open_bias(&bias.encode()).unwrap();
        let record = ScanRecord::read(&record.encode()).unwrap();
        let window = window(&table, &[record.clone()]);
        product(&table, &bias, &record, &window)
    }

    /// Checks bytes as the product of a record that is fed first.
    fn checked_as(
        product: &[u8],
        table: &TableValues,
        bias: &BiasValues,
        record: &RecordValues,
    ) -> Result<(), String> {
        let table = open(&table.encode()).unwrap();
        let record = ScanRecord::read(&record.encode()).unwrap();
        let values = rules::scan_values(&accepted_samples(&table, &record));
        let accepted = BTreeMap::from([(record.number(), values)]);
        let (bias, mut counters) = (bias.encode(), Counters::new());
        check_product(&table, &bias, &record, product, &accepted, &mut counters)
    }

    /// The bench product under a bias file, with some bytes changed, checked again.
    fn checked(bias: &BiasValues, change: impl Fn(&mut [u8])) -> Result<(), String> {
        let (table, record) = (TableValues::bench(), RecordValues::bench());
        let mut product = product_of(&table, bias, &record);
        change(&mut product);
        checked_as(&product, &table, bias, &record)
    }

    /// The same with other units in the first scene.
    fn with_units(bias: &BiasValues, units: i32) -> Result<(), String> {
        checked(bias, |product| put_scene(product, units as f32 / 4096.0))
    }

    fn put_scene(product: &mut [u8], value: f32) {
        product[35..39].copy_from_slice(&value.to_bits().to_be_bytes());
    }

    #[test]
    fn the_product_itself_passes() {
        assert_eq!(checked(&BiasValues::zeros(), |_| {}), Ok(()));
    }

    #[test]
    fn every_part_of_a_product_is_checked() {
        let zeros = BiasValues::zeros();
        let scene = |value: f32| checked(&zeros, |product| put_scene(product, value));
        // 565,394 units are right, and are E. 4 more are near enough to it, but not T.
        for units in [565_390, 565_393, 565_395, 565_398] {
            assert!(with_units(&zeros, units).unwrap_err().contains("not T"));
        }
        for units in [565_389, 565_399] {
            assert!(with_units(&zeros, units).unwrap_err().contains("71/16"));
        }
        assert!(scene(-1.0).unwrap_err().contains("no temperature"));
        assert!(scene(-3.0).unwrap_err().contains("no temperature"));
        assert!(scene(f32::NAN).unwrap_err().contains("no temperature"));
        let byte = |at: usize| checked(&zeros, |product| product[at] ^= 1).unwrap_err();
        assert!(byte(0).contains("tag"));
        assert!(byte(6).contains("scan"));
        assert!(byte(10).contains("flag"));
        assert!(byte(8_487).contains("Summary"));
        assert!(byte(8_490).contains("Summary"));
        assert!(byte(8_705).contains("Summary"));
    }

    #[test]
    fn the_shelf_of_each_channel_is_checked() {
        // TNL falls by 1 in 122,880 units, from 402 to 398.
        let mut table = TableValues::bench();
        for channel in &mut table.channels {
            for (pair, tnl) in channel
                .shelf_pairs
                .iter_mut()
                .zip([402, 401, 400, 399, 398])
            {
                pair.nonlinearity = tnl;
            }
        }
        let (zeros, bench) = (BiasValues::zeros(), RecordValues::bench());
        let with_shelf = |place: usize, temperature: i32| {
            let mut record = bench.clone();
            record.shelves[place] = temperature;
            let product = product_of(&table, &zeros, &record);
            checked_as(&product, &table, &zeros, &bench)
        };
        for (place, first_channel) in [(0, 1), (1, 3), (2, 16), (3, 17)] {
            // Up to half way, to both sides, TNL stays 400.
            for temperature in [-61_440, 0, 61_440] {
                assert_eq!(with_shelf(place, temperature), Ok(()));
            }
            for temperature in [-61_441, 61_441] {
                let said = with_shelf(place, temperature).unwrap_err();
                let channel = format!("channel {first_channel} count 15000: ");
                assert!(said.starts_with(&channel), "{said}");
                assert!(said.contains("not T"), "{said}");
            }
        }
    }

    #[test]
    fn the_bias_of_each_scene_is_checked() {
        let mut bias = BiasValues::zeros();
        bias.pairs[0][0] = PairValues { c0: -7, e: -16_384 };
        // 3/4 × 565,394 = 424,045.5, of which the even neighbour is 424,046; less 7.
        assert_eq!(with_units(&bias, 424_039), Ok(()));
        for units in [424_035, 424_038, 424_040, 424_042] {
            assert!(with_units(&bias, units).unwrap_err().contains("not T"));
        }
        for units in [424_034, 424_043, 565_394] {
            assert!(with_units(&bias, units).unwrap_err().contains("71/16"));
        }
        // The summary is that of the scenes after scan bias.
        let without = |product: &mut [u8]| {
            let kelvin = (565_394.0f32 / 4096.0).to_bits().to_be_bytes();
            product[8_488..8_492].copy_from_slice(&kelvin);
        };
        assert!(checked(&bias, without).unwrap_err().contains("Summary"));
    }
}
