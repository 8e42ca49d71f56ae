//! Where the shelf of a channel stands among its pairs, and TNL stated a second time: by positions counted by
//! hand in the bytes of table and record, and by multiplying out.

use super::counters::Counters;
use super::numbers::is_nearest;

/// The shelf of each channel in order, KKA as K.
const SHELF_OF: [u8; 22] = *b"KKVVVVVVVVVVVVVWGGGGGG";

/// Where the temperature of a channel's shelf stands in a record.
fn shelf_at(channel: usize) -> usize {
    match SHELF_OF[channel] {
        b'K' => 4_632,
        b'V' => 4_636,
        b'W' => 4_640,
        _ => 4_644,
    }
}

fn i32_at(bytes: &[u8], at: usize) -> i32 {
    i32::from_be_bytes(bytes[at..at + 4].try_into().unwrap())
}

/// The shelf temperature and the TNL of each of a channel's pairs, in the bytes of a table.
pub fn pairs_of(table: &[u8], channel: usize) -> [(i32, i16); 5] {
    std::array::from_fn(|index| {
        let at = 744 + 30 * channel + 6 * index;
        let tnl = i16::from_be_bytes([table[at + 4], table[at + 5]]);
        (i32_at(table, at), tnl)
    })
}

/// The shelf temperature of a channel in a scan, and its pairs.
#[derive(Clone, Copy, Debug, PartialEq, Eq)]
pub struct ShelfAndPairs {
    shelf: i32,
    pairs: [(i32, i16); 5],
}

/// The straight line on which TNL is: so many parts, of which this many are a unit.
#[derive(Clone, Copy, Debug)]
pub struct Line {
    /// TNL of the pairs between which it runs; beyond the ends of one pair twice.
    pub ends: [i128; 2],
    pub parts: i128,
    pub unit: i128,
}

impl Line {
    /// Whether a whole number is the nearest to TNL on the line, at a half the even one, and from the one end to the
    /// other.
    pub fn is_rounded_to(&self, tnl: i128) -> bool {
        let [one, other] = self.ends;
        is_nearest(self.parts, self.unit, tnl) && one.min(other) <= tnl && tnl <= one.max(other)
    }

    /// Whether TNL is the same on both, unrounded.
    pub fn meets(&self, other: &Line) -> bool {
        self.parts * other.unit == other.parts * self.unit
    }
}

impl ShelfAndPairs {
    /// Of the channel with this index from 0 in the bytes of a table and of a record.
    pub fn of(table: &[u8], record: &[u8], channel: usize) -> ShelfAndPairs {
        ShelfAndPairs {
            shelf: i32_at(record, shelf_at(channel)),
            pairs: pairs_of(table, channel),
        }
    }

    pub fn temperature(&self) -> i32 {
        self.shelf
    }

    pub fn pairs(&self) -> [(i32, i16); 5] {
        self.pairs
    }

    /// How many pairs are at the shelf temperature or below it.
    fn reached(&self) -> usize {
        let temperatures = self.pairs.iter().map(|(temperature, _)| temperature);
        temperatures.filter(|one| **one <= self.shelf).count()
    }

    /// From the last pair reached, or the first, to the next one, or the last.
    pub fn line(&self) -> Line {
        let reached = self.reached();
        let pair = |index: usize| {
            let (temperature, tnl) = self.pairs[index];
            (temperature as i128, tnl as i128)
        };
        let (start, from) = pair(reached.saturating_sub(1));
        let (end, to) = pair(reached.min(4));
        let unit = (end - start).max(1);
        Line {
            ends: [from, to],
            parts: from * unit + (to - from) * (self.shelf as i128 - start),
            unit,
        }
    }
}

/// What a channel has among its pairs: neighbours one unit apart or as far apart as can be, and values at ends.
pub fn pair_classes(pairs: &[(i32, i16); 5]) -> Vec<&'static str> {
    let steps: Vec<i32> = pairs.windows(2).map(|two| two[1].0 - two[0].0).collect();
    let has_tnl = |tnl: i16| pairs.iter().any(|(_, own)| *own == tnl);
    let classes = [
        ("one unit apart", steps.contains(&1)),
        ("four times one unit apart", steps == [1; 4]),
        ("491517 apart", steps.contains(&491_517)),
        ("first at -245760", pairs[0].0 == -245_760),
        ("last at 245760", pairs[4].0 == 245_760),
        ("TNL -8192", has_tnl(-8_192)),
        ("TNL 8192", has_tnl(8_192)),
    ];
    let held = classes.into_iter().filter(|(_, holds)| *holds);
    held.map(|(class, _)| class).collect()
}

/// Counts where a shelf stands that decides over delivered scenes.
pub fn count_shelf(own: &ShelfAndPairs, counters: &mut Counters) {
    let group = "shelf of delivered scenes";
    for (index, (temperature, _)) in own.pairs.into_iter().enumerate() {
        let side = match own.shelf as i64 - temperature as i64 {
            -1 => "one below",
            0 => "at",
            1 => "one above",
            _ => continue,
        };
        counters.met(group, &format!("{side} pair {}", index + 1));
    }
    match own.shelf {
        i32::MIN => counters.met(group, "at the lower end of i32"),
        i32::MAX => counters.met(group, "at the upper end of i32"),
        _ => {}
    }
    match own.reached() {
        0 => counters.met(group, "below all pairs"),
        5 if own.shelf > own.pairs[4].0 => counters.met(group, "above all pairs"),
        5 => {}
        reached if own.pairs[reached - 1].0 < own.shelf => {
            counters.met(group, "between two pairs");
            count_line(&own.line(), counters);
        }
        _ => {}
    }
    for class in pair_classes(&own.pairs) {
        counters.met("pairs of delivered scenes", class);
    }
}

/// Counts how a line between two pairs runs, and how it is rounded.
fn count_line(line: &Line, counters: &mut Counters) {
    let [from, to] = line.ends;
    let runs = match to - from {
        0 => "level",
        16_384 => "from -8192 to 8192",
        -16_384 => "from 8192 to -8192",
        rise if rise > 0 => "rising",
        _ => "falling",
    };
    counters.met("line between two pairs", runs);
    if from * to < 0 {
        counters.met("line between two pairs", "through 0");
    }
    if line.unit == 491_517 {
        counters.met("line between two pairs", "over 491517 units");
    }
    let above_whole = line.parts.rem_euclid(line.unit);
    let way = match (2 * above_whole).cmp(&line.unit) {
        _ if above_whole == 0 => "exact",
        std::cmp::Ordering::Less => "down",
        std::cmp::Ordering::Equal => "half",
        std::cmp::Ordering::Greater => "up",
    };
    let side = if line.parts < 0 {
        "below 0"
    } else {
        "at or above 0"
    };
    counters.met("rounding of TNL", &format!("{way}, {side}"));
    match 2 * line.parts {
        twice if twice == line.unit => counters.met("rounding of TNL", "1/2 to 0"),
        twice if twice == -line.unit => counters.met("rounding of TNL", "-1/2 to 0"),
        _ => {}
    }
}

#[cfg(test)]
mod tests {
    use super::*;
    use crate::generator::random::Random;
    use crate::generator::records::RecordValues;
    use crate::generator::shelves::{aimed_shelf, any_shelf, set_shelf_pairs};
    use crate::generator::tables::TableValues;

    const PAIRS: [(i32, i16); 5] = [(-10, 3), (-4, 0), (0, -1), (1, 8), (11, -2)];

    fn at(shelf: i32) -> ShelfAndPairs {
        ShelfAndPairs {
            shelf,
            pairs: PAIRS,
        }
    }

    #[test]
    fn one_whole_number_is_right_at_each_shelf_temperature() {
        let rows = [
            (i32::MIN, 3),
            (-11, 3),
            (-10, 3),
            // 2.5, 2, 1.5, 1 and 0.5.
            (-9, 2),
            (-8, 2),
            (-7, 2),
            (-6, 1),
            (-5, 0),
            (-4, 0),
            // -0.25, -0.5 and -0.75.
            (-3, 0),
            (-2, 0),
            (-1, -1),
            (0, -1),
            (1, 8),
            (2, 7),
            (10, -1),
            (11, -2),
            (12, -2),
            (i32::MAX, -2),
        ];
        for (shelf, right) in rows {
            for tnl in -9..=9 {
                let is_right = at(shelf).line().is_rounded_to(tnl);
                assert_eq!(is_right, tnl == right, "{tnl} at {shelf}");
            }
        }
    }

    #[test]
    fn shelf_and_pairs_are_those_of_the_bytes() {
        let mut random = Random::new(1);
        let (mut table, mut record) = (TableValues::bench(), RecordValues::bench());
        set_shelf_pairs(&mut random, &mut table.channels);
        record.shelves = std::array::from_fn(|_| any_shelf(&mut random));
        let (table_bytes, record_bytes) = (table.encode(), record.encode());
        for (channel, values) in table.channels.iter().enumerate() {
            let own = ShelfAndPairs::of(&table_bytes, &record_bytes, channel);
            let pairs = values
                .shelf_pairs
                .map(|one| (one.temperature, one.nonlinearity));
            let place = match channel + 1 {
                1 | 2 => 0,
                3..=15 => 1,
                16 => 2,
                _ => 3,
            };
            let shelf = record.shelves[place];
            assert_eq!(own, ShelfAndPairs { shelf, pairs });
        }
    }

    #[test]
    fn every_edge_is_counted_as_what_it_is() {
        let classes = |group: &'static str, shelf: i32| {
            let mut counters = Counters::new();
            count_shelf(&at(shelf), &mut counters);
            let all = super::super::counters::CLASSES.iter();
            let (_, classes) = all.clone().find(|(name, _)| *name == group).unwrap();
            let met = classes.iter().copied();
            met.filter(|class| counters.count(group, class) > 0)
                .collect::<Vec<_>>()
        };
        let stands = |shelf: i32| classes("shelf of delivered scenes", shelf);
        assert_eq!(stands(-11), ["one below pair 1", "below all pairs"]);
        assert_eq!(stands(-10), ["at pair 1"]);
        assert_eq!(stands(-9), ["one above pair 1", "between two pairs"]);
        assert_eq!(stands(0), ["at pair 3", "one below pair 4"]);
        assert_eq!(stands(12), ["one above pair 5", "above all pairs"]);
        let ends = ["above all pairs", "at the upper end of i32"];
        assert_eq!(stands(i32::MAX), ends);
        let rounded = |shelf: i32| classes("rounding of TNL", shelf);
        assert_eq!(rounded(-9), ["half, at or above 0"]);
        assert_eq!(rounded(-8), ["exact, at or above 0"]);
        assert_eq!(rounded(-3), ["up, below 0"]);
        assert_eq!(rounded(-2), ["half, below 0", "-1/2 to 0"]);
        assert_eq!(rounded(-5), ["half, at or above 0", "1/2 to 0"]);
        assert_eq!(rounded(-1), ["down, below 0"]);
        assert_eq!(rounded(0), [""; 0]);
        let runs = |shelf: i32| classes("line between two pairs", shelf);
        assert_eq!(runs(-9), ["falling"]);
        assert_eq!(runs(2), ["falling", "through 0"]);
        assert_eq!(runs(-10), [""; 0]);
    }

    #[test]
    fn the_line_holds_the_whole_tnl_of_random_pairs() {
        let mut random = Random::new(2);
        let mut table = TableValues::bench();
        for _ in 0..200 {
            set_shelf_pairs(&mut random, &mut table.channels);
            let pairs = table.channels[0].shelf_pairs;
            let own = ShelfAndPairs {
                shelf: aimed_shelf(&mut random, &pairs),
                pairs: pairs.map(|one| (one.temperature, one.nonlinearity)),
            };
            let line = own.line();
            let right: Vec<i128> = (-8_192..=8_192)
                .filter(|tnl| line.is_rounded_to(*tnl))
                .collect();
            assert_eq!(right.len(), 1, "{own:?}");
        }
    }
}
