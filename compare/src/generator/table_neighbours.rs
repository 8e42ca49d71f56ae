//! Every neighbour of a table.

use std::sync::OnceLock;

use super::layouts::{head_positions, TABLE};
use super::neighbour::Neighbour;
use super::random::Random;
use super::shelves::{HIGHEST, LOWEST};
use super::tables::TableValues;

/// A change that makes a neighbour of every accepted table, and the answer planned for it.
struct Change {
    description: String,
    neighbour: Box<dyn Fn(&TableValues) -> Vec<u8> + Send + Sync>,
    answer: u8,
}

impl Change {
    fn of_values(
        description: String,
        answer: u8,
        change: impl Fn(&mut TableValues) + Send + Sync + 'static,
    ) -> Change {
        let neighbour = move |base: &TableValues| {
            let mut values = base.clone();
            change(&mut values);
            values.encode()
        };
        Change {
            description,
            neighbour: Box::new(neighbour),
            answer,
        }
    }

    fn of_bytes(
        description: String,
        answer: u8,
        change: impl Fn(&mut Vec<u8>) + Send + Sync + 'static,
    ) -> Change {
        let neighbour = move |base: &TableValues| {
            let mut bytes = base.encode();
            change(&mut bytes);
            bytes
        };
        Change {
            description,
            neighbour: Box::new(neighbour),
            answer,
        }
    }

    fn of(&self, base: &TableValues) -> Neighbour {
        Neighbour {
            description: self.description.clone(),
            bytes: (self.neighbour)(base),
            answer: self.answer,
        }
    }
}

/// A value with a range of its own.
struct Ranged {
    name: String,
    set: fn(&mut TableValues, usize, i64),
    /// The index from 0 of its thermometer or channel, if it has one.
    index: usize,
    lowest: i64,
    highest: i64,
    /// The ends of its type.
    type_ends: (i64, i64),
}

const U8: (i64, i64) = (0, 255);
const U16: (i64, i64) = (0, 65_535);
const U32: (i64, i64) = (0, 4_294_967_295);
const I16: (i64, i64) = (-32_768, 32_767);

fn ranged(
    name: &str,
    range: (i64, i64),
    type_ends: (i64, i64),
    index: usize,
    set: fn(&mut TableValues, usize, i64),
) -> Ranged {
    Ranged {
        name: name.to_string(),
        set,
        index,
        lowest: range.0,
        highest: range.1,
        type_ends,
    }
}

/// Every value whose range does not depend on another one, but for those of the pairs.
fn ranged_values() -> Vec<Ranged> {
    let resistance = (1_000, 4_000_000);
    let mut all = vec![
        ranged(
            "thermometer percentage",
            (1, 100),
            U8,
            0,
            |table, _, value| table.thermometer_percentage = value as u8,
        ),
        ranged("warm percentage", (1, 100), U8, 0, |table, _, value| {
            table.warm_percentage = value as u8
        }),
        ranged("cold percentage", (1, 100), U8, 0, |table, _, value| {
            table.cold_percentage = value as u8
        }),
        ranged("least good KAV", (1, 8), U8, 0, |table, _, value| {
            table.least_good_kav = value as u8
        }),
        ranged("least good WG", (1, 7), U8, 0, |table, _, value| {
            table.least_good_wg = value as u8
        }),
        ranged("R_PAM", resistance, U32, 0, |table, _, value| {
            table.pam_resistance = value as u32
        }),
        ranged("dT", (0, 491_520), U32, 0, |table, _, value| {
            table.temperature_difference = value as u32
        }),
    ];
    for index in 0..15 {
        let name = |what: &str| format!("thermometer {} {what}", index + 1);
        all.push(ranged(
            &name("R0"),
            resistance,
            U32,
            index,
            |table, index, value| table.thermometers[index].resistance = value as u32,
        ));
        let alpha = (3_000_000, 5_000_000);
        all.push(ranged(
            &name("alpha"),
            alpha,
            U32,
            index,
            |table, index, value| table.thermometers[index].alpha = value as u32,
        ));
        let delta = (0, 2_000_000);
        all.push(ranged(
            &name("delta"),
            delta,
            U32,
            index,
            |table, index, value| table.thermometers[index].delta = value as u32,
        ));
        let beta = (0, 500_000);
        all.push(ranged(
            &name("beta"),
            beta,
            U32,
            index,
            |table, index, value| table.thermometers[index].beta = value as u32,
        ));
    }
    for index in 0..22 {
        let name = |what: &str| format!("channel {} {what}", index + 1);
        all.push(ranged(
            &name("warm difference"),
            U16,
            U16,
            index,
            |table, index, value| table.channels[index].warm_difference = value as u16,
        ));
        all.push(ranged(
            &name("cold difference"),
            U16,
            U16,
            index,
            |table, index, value| table.channels[index].cold_difference = value as u16,
        ));
        let bias = (-4_096, 4_096);
        all.push(ranged(
            &name("b"),
            bias,
            I16,
            index,
            |table, index, value| table.channels[index].warm_bias = value as i16,
        ));
        let correction = (0, 16_384);
        all.push(ranged(
            &name("rj"),
            correction,
            U16,
            index,
            |table, index, value| table.channels[index].rayleigh_jeans = value as u16,
        ));
        all.push(ranged(
            &name("sl"),
            correction,
            U16,
            index,
            |table, index, value| table.channels[index].side_lobe = value as u16,
        ));
        all.push(ranged(
            &name("TNL of 0x12"),
            (0, 0),
            I16,
            index,
            |table, index, value| table.channels[index].zero_nonlinearity = value as i16,
        ));
    }
    all
}

/// Each value at both ends of its range, one beyond, and at the ends of its type.
fn range_changes() -> Vec<Change> {
    let mut all = Vec::new();
    for value in ranged_values() {
        let (low, high) = value.type_ends;
        let mut numbers = vec![
            value.lowest,
            value.highest,
            value.lowest - 1,
            value.highest + 1,
            low,
            high,
        ];
        numbers.retain(|number| low <= *number && *number <= high);
        numbers.sort();
        numbers.dedup();
        for number in numbers {
            let inside = value.lowest <= number && number <= value.highest;
            let about = format!("{} at {number}", value.name);
            let (set, index) = (value.set, value.index);
            all.push(Change::of_values(
                about,
                if inside { 0 } else { 3 },
                move |table| set(table, index, number),
            ));
        }
    }
    all
}

/// Limits equal, as far apart as can be, and crossed by one.
fn limit_changes() -> Vec<Change> {
    let mut all = Vec::new();
    for (low, upp, answer) in [
        (-245_760, -245_760, 0),
        (245_760, 245_760, 0),
        (0, 0, 0),
        (-1, -1, 0),
        (-1, 0, 0),
        (-245_760, 245_760, 0),
        (0, -1, 3),
        (1, 0, 3),
        (245_760, 245_759, 3),
        (-245_759, -245_760, 3),
        (245_760, -245_760, 3),
        (-245_761, 245_760, 3),
        (-245_760, 245_761, 3),
        (-245_761, -245_761, 3),
        (245_761, 245_761, 3),
        (i32::MIN, 0, 3),
        (0, i32::MAX, 3),
    ] {
        let about = format!("T_low {low} and T_upp {upp}");
        all.push(Change::of_values(about, answer, move |table| {
            table.lowest_t = low;
            table.highest_t = upp;
        }));
    }
    for channel in 0..22 {
        for (low, upp, answer) in [
            (0, 0, 0),
            (0, 65_535, 0),
            (65_535, 65_535, 0),
            (32_768, 32_768, 0),
            (32_767, 32_768, 0),
            (1, 0, 3),
            (65_535, 65_534, 3),
            (32_768, 32_767, 3),
            (65_535, 0, 3),
        ] {
            let number = channel + 1;
            let about = format!("channel {number} warm low {low} and upp {upp}");
            all.push(Change::of_values(about, answer, move |table| {
                table.channels[channel].warm_low = low;
                table.channels[channel].warm_upp = upp;
            }));
            let about = format!("channel {number} cold low {low} and upp {upp}");
            all.push(Change::of_values(about, answer, move |table| {
                table.channels[channel].cold_low = low;
                table.channels[channel].cold_upp = upp;
            }));
        }
    }
    all
}

/// Weights with the sums 0, 1, 255, 256 and some whose sum looks small when cut to eight bits.
fn weight_sums(places: usize) -> Vec<(String, Vec<u8>, u8)> {
    let mut all = vec![
        ("sum 0".to_string(), vec![0; places], 3),
        (format!("sum {}", 255 * places), vec![255; places], 3),
    ];
    for place in 0..places {
        let other = (place + 1) % places;
        for (first, second, answer) in [
            (1, 0, 0),
            (255, 0, 0),
            (200, 55, 0),
            (255, 1, 3),
            (128, 128, 3),
            (255, 2, 3),
        ] {
            let mut weights = vec![0; places];
            weights[place] = first;
            weights[other] = second;
            let sum = first as u32 + second as u32;
            all.push((format!("sum {sum} from place {place}"), weights, answer));
        }
    }
    // Spread over all places: 255 and 256.
    let mut spread = vec![(255 / places) as u8; places];
    spread[0] += (255 % places) as u8;
    all.push(("sum 255 spread".to_string(), spread.clone(), 0));
    spread[places - 1] += 1;
    all.push(("sum 256 spread".to_string(), spread, 3));
    all
}

fn weight_changes() -> Vec<Change> {
    let mut all = Vec::new();
    for (about, weights, answer) in weight_sums(8) {
        let eight: [u8; 8] = weights.clone().try_into().unwrap();
        let mut push = |of: &str, change: Box<dyn Fn(&mut TableValues) + Send + Sync>| {
            all.push(Change::of_values(
                format!("{of} with {about}"),
                answer,
                change,
            ));
        };
        push("w", Box::new(move |table| table.count_weights = eight));
        push(
            "v",
            Box::new(move |table| table.thermometer_weights = eight),
        );
        let of_kav = move |table: &mut TableValues| table.set_target_weights(false, &weights);
        push("p of KAV", Box::new(of_kav));
    }
    for (about, weights, answer) in weight_sums(7) {
        let about = format!("p of WG with {about}");
        all.push(Change::of_values(about, answer, move |table| {
            table.set_target_weights(true, &weights)
        }));
    }
    all
}

/// Five shelf temperatures at the ends and one beyond, and each two neighbours one apart, equal and falling.
fn temperature_rows() -> Vec<([i32; 5], u8)> {
    let (low, high) = (LOWEST, HIGHEST);
    let mut all = vec![
        ([low, low + 1, low + 2, low + 3, low + 4], 0),
        ([high - 4, high - 3, high - 2, high - 1, high], 0),
        ([low, -1, 0, 1, high], 0),
        ([low - 1, -1, 0, 1, high], 3),
        ([low, -1, 0, 1, high + 1], 3),
        ([i32::MIN, -1, 0, 1, 2], 3),
        ([-2, -1, 0, 1, i32::MAX], 3),
        ([low - 5, low - 4, low - 3, low - 2, low - 1], 3),
        ([high + 1, high + 2, high + 3, high + 4, high + 5], 3),
        ([2, 1, 0, -1, -2], 3),
        ([low, -1, 0, high, 1], 3),
        ([0; 5], 3),
    ];
    for place in 0..4 {
        for (rise, answer) in [(1, 0), (0, 3), (-1, 3)] {
            let mut row = [-200_000, -100_000, 0, 100_000, 200_000];
            row[place + 1] = row[place] + rise;
            all.push((row, answer));
        }
    }
    all
}

/// The pairs of each channel: temperatures as above, each TNL at its ends, one beyond, and at the ends of its
/// type.
fn pair_changes() -> Vec<Change> {
    let mut all = Vec::new();
    for channel in 0..22 {
        for (row, answer) in temperature_rows() {
            let about = format!("channel {} shelf temperatures {row:?}", channel + 1);
            all.push(Change::of_values(about, answer, move |table| {
                for (pair, temperature) in table.channels[channel].shelf_pairs.iter_mut().zip(row) {
                    pair.temperature = temperature;
                }
            }));
        }
        for index in 0..5 {
            for (tnl, answer) in [
                (-32_768, 3),
                (-8_193, 3),
                (-8_192, 0),
                (8_192, 0),
                (8_193, 3),
                (32_767, 3),
            ] {
                let about = format!("channel {} pair {} TNL {tnl}", channel + 1, index + 1);
                all.push(Change::of_values(about, answer, move |table| {
                    table.channels[channel].shelf_pairs[index].nonlinearity = tnl
                }));
            }
        }
    }
    all
}

/// Each byte of a tag or length wrong by one, and other lengths.
fn layout_changes() -> Vec<Change> {
    let mut all = Vec::new();
    for position in head_positions(&TABLE) {
        for change in [1, 255] {
            let about = format!("byte {position} wrong by one");
            all.push(Change::of_bytes(about, 2, move |bytes| {
                bytes[position] = bytes[position].wrapping_add(change)
            }));
            // With a value out of range as well: 2 comes first.
            let about = format!("byte {position} wrong, percentage 0");
            all.push(Change::of_bytes(about, 2, move |bytes| {
                bytes[position] = bytes[position].wrapping_add(change);
                bytes[3 + 16] = 0;
            }));
        }
    }
    // 741 is the length of a table without pairs.
    for length in [0, 1, 2, 3, 40, 298, 370, 740, 741, 742, 744, 1_403] {
        let about = format!("length {length}");
        all.push(Change::of_bytes(about, 1, move |bytes| {
            bytes.truncate(length)
        }));
    }
    for length in [1_405, 1_406, 2 * 1_404, 1_404 + 4_648] {
        let about = format!("length {length}");
        all.push(Change::of_bytes(about, 1, move |bytes| {
            bytes.resize(length, 0)
        }));
        // With a wrong tag as well: 1 comes first.
        let about = format!("length {length}, tag wrong");
        all.push(Change::of_bytes(about, 1, move |bytes| {
            bytes.resize(length, 0);
            bytes[0] = 0x0f;
        }));
    }
    all
}

/// Every change, made once.
fn all_changes() -> &'static [Change] {
    static ALL: OnceLock<Vec<Change>> = OnceLock::new();
    ALL.get_or_init(|| {
        let itself = Change::of_values("the table itself".to_string(), 0, |_| {});
        let mut all = vec![itself];
        all.extend(range_changes());
        all.extend(limit_changes());
        all.extend(weight_changes());
        all.extend(pair_changes());
        all.extend(layout_changes());
        all
    })
}

/// Every neighbour of an accepted table: each value at both ends of its range and one beyond, each sum at 0,
/// 1, 255 and 256, each two limits equal and crossed by one, each two shelf temperatures one apart, equal and
/// falling, each byte of a tag or length wrong by one, and other lengths.
pub fn table_neighbours(base: &TableValues) -> Vec<Neighbour> {
    let changes = all_changes().iter();
    changes.map(|change| change.of(base)).collect()
}

/// One of them.
pub fn some_table_neighbour(random: &mut Random, base: &TableValues) -> Neighbour {
    let changes = all_changes();
    changes[random.below(changes.len())].of(base)
}
