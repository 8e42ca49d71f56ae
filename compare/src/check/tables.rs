//! Checks of opening tables: planned answers, and the answers stated again at random tables.

use std::collections::BTreeSet;

use super::counters::Counters;
use super::shelves::{pair_classes, pairs_of};
use crate::generator::random_tables::{seed_neighbours, table_bytes};
use crate::second::table::open;

/// The answer to some bytes, which is the one that a plain look at them gives.
pub fn checked_answer(bytes: &[u8], counters: &mut Counters) -> Result<u8, String> {
    let answer = open(bytes).err().unwrap_or(0);
    let expected = plain_answer(bytes);
    if answer != expected {
        return Err(format!("table: {answer}, expected {expected}"));
    }
    let class = match answer {
        0 => "accepted".to_string(),
        number => number.to_string(),
    };
    counters.met("table answer", &class);
    if let length @ (0 | 741 | 1_403 | 1_405) = bytes.len() {
        counters.met("table length", &length.to_string());
    }
    match answer {
        0 => count_pairs(bytes, counters),
        3 => count_wrong_nonlinearity(bytes, counters),
        _ => {}
    }
    Ok(answer)
}

/// Counts what the channels of an accepted table have among their pairs.
fn count_pairs(bytes: &[u8], counters: &mut Counters) {
    let channels = 0..22;
    let classes = channels.flat_map(|channel| pair_classes(&pairs_of(bytes, channel)));
    for class in classes.collect::<BTreeSet<_>>() {
        counters.met("pairs of an accepted table", class);
    }
}

/// What is wrong with the pairs of a channel and with its TNL of 0x12.
fn wrong_nonlinearity(bytes: &[u8], channel: usize) -> Vec<&'static str> {
    let pairs = pairs_of(bytes, channel);
    let at = 301 + 20 * channel + 18;
    let mut all = match i16::from_be_bytes([bytes[at], bytes[at + 1]]) {
        0 => vec![],
        -1 => vec!["TNL of 0x12 -1"],
        1 => vec!["TNL of 0x12 1"],
        _ => vec!["TNL of 0x12 other"],
    };
    for two in pairs.windows(2) {
        match two[1].0 as i64 - two[0].0 as i64 {
            0 => all.push("equal temperatures"),
            -1 => all.push("temperatures falling by 1"),
            rise if rise < 0 => all.push("temperatures falling"),
            _ => {}
        }
    }
    for (temperature, tnl) in pairs {
        match temperature {
            -245_761 => all.push("temperature -245761"),
            245_761 => all.push("temperature 245761"),
            -245_760..=245_760 => {}
            _ => all.push("temperature farther outside"),
        }
        match tnl {
            -8_193 => all.push("TNL -8193"),
            8_193 => all.push("TNL 8193"),
            -8_192..=8_192 => {}
            _ => all.push("TNL farther outside"),
        }
    }
    all
}

/// Counts what alone is wrong with a table, where it is one of these, and in which channel.
fn count_wrong_nonlinearity(bytes: &[u8], counters: &mut Counters) {
    let channels = 0..22;
    let mut wrong = channels.flat_map(|channel| {
        let all = wrong_nonlinearity(bytes, channel);
        all.into_iter().map(move |class| (channel, class))
    });
    if let (Some((channel, class)), None) = (wrong.next(), wrong.next()) {
        if other_values_are_right(bytes) {
            counters.met("one wrong value of TNL", class);
            let channel = (channel + 1).to_string();
            counters.met("channel of a wrong value of TNL", &channel);
        }
    }
}

/// Every neighbour of the bench table (seed 0) or of the accepted table of a seed has its
/// planned answer.
pub fn check_neighbours(seed: u64, counters: &mut Counters) -> Result<(), String> {
    for neighbour in seed_neighbours(seed) {
        let answer = checked_answer(&neighbour.bytes, counters)?;
        if answer != neighbour.answer {
            let (about, planned) = (neighbour.description, neighbour.answer);
            return Err(format!("table, {about}: {answer}, planned {planned}"));
        }
    }
    Ok(())
}

pub fn check_table(seed: u64, counters: &mut Counters) -> Result<(), String> {
    checked_answer(&table_bytes(seed), counters).map(drop)
}

/// 1, 2 and 3 once more, by positions counted by hand from the start of the table.
pub(super) fn plain_answer(bytes: &[u8]) -> u8 {
    if bytes.len() != 1_404 {
        return 1;
    }
    let heads = [
        (0, [0x10, 0, 37]),
        (40, [0x11, 0, 255]),
        (298, [0x12, 1, 184]),
        (741, [0x14, 2, 148]),
    ];
    for (at, head) in heads {
        if bytes[at..at + 3] != head {
            return 2;
        }
    }
    let has_right_tnl = |channel: usize| wrong_nonlinearity(bytes, channel).is_empty();
    if other_values_are_right(bytes) && (0..22).all(has_right_tnl) {
        0
    } else {
        3
    }
}

/// Whether all values and sums are right but for the pairs and the TNL of 0x12.
fn other_values_are_right(bytes: &[u8]) -> bool {
    let u16_at = |at: usize| u16::from_be_bytes([bytes[at], bytes[at + 1]]);
    let i16_at = |at: usize| u16_at(at) as i16;
    let u32_at = |at: usize| (u16_at(at) as u32) << 16 | u16_at(at + 2) as u32;
    let i32_at = |at: usize| u32_at(at) as i32;
    let sum = |positions: &mut dyn Iterator<Item = usize>| {
        positions.map(|at| bytes[at] as u32).sum::<u32>()
    };
    let mut right = (1..=255).contains(&sum(&mut (3..11)));
    right &= (1..=255).contains(&sum(&mut (11..19)));
    right &= bytes[19..22].iter().all(|one| (1..=100).contains(one));
    right &= (1..=8).contains(&bytes[22]) && (1..=7).contains(&bytes[23]);
    right &= (1_000..=4_000_000).contains(&u32_at(24));
    right &= -245_760 <= i32_at(28) && i32_at(28) <= i32_at(32) && i32_at(32) <= 245_760;
    right &= u32_at(36) <= 491_520;
    let rows: Vec<usize> = (0..15).map(|index| 43 + 17 * index).collect();
    for at in &rows {
        right &= (1_000..=4_000_000).contains(&u32_at(at + 1));
        right &= (3_000_000..=5_000_000).contains(&u32_at(at + 5));
        right &= u32_at(at + 9) <= 2_000_000 && u32_at(at + 13) <= 500_000;
    }
    right &= (1..=255).contains(&sum(&mut rows[..8].iter().copied()));
    right &= (1..=255).contains(&sum(&mut rows[8..].iter().copied()));
    for at in (0..22).map(|index| 301 + 20 * index) {
        right &= u16_at(at) <= u16_at(at + 2) && u16_at(at + 6) <= u16_at(at + 8);
        right &= (-4_096..=4_096).contains(&i16_at(at + 12));
        right &= u16_at(at + 14) <= 16_384 && u16_at(at + 16) <= 16_384;
    }
    right
}
