//! Checks of opening bias files: planned answers, and the answers stated again at random files.

use super::counters::Counters;
use crate::generator::random_biases::{bias_bytes, seed_bias_neighbours};
use crate::second::bias::open_bias;

/// c0 and e of each whole pair of what may be a bias file.
fn pairs(bytes: &[u8]) -> impl Iterator<Item = (i16, i16)> + '_ {
    let pairs = bytes.get(3..).unwrap_or(&[]).chunks_exact(4);
    let i16_of = |high: u8, low: u8| i16::from_be_bytes([high, low]);
    pairs.map(move |pair| (i16_of(pair[0], pair[1]), i16_of(pair[2], pair[3])))
}

fn is_outside(c0: i16) -> bool {
    !(-4_096..=4_096).contains(&c0)
}

/// Which of 1, 2 and 3 apply, each stated for itself where it can be.
fn refusals(bytes: &[u8]) -> Vec<u8> {
    let mut all = Vec::new();
    if bytes.len() != 8_451 {
        all.push(1);
    }
    if bytes.len() >= 3 && bytes[..3] != [19, 33, 0] {
        all.push(2);
    }
    if pairs(bytes).any(|(c0, _)| is_outside(c0)) {
        all.push(3);
    }
    all
}

/// The number of the refusal, or 0.
pub(super) fn plain_bias_answer(bytes: &[u8]) -> u8 {
    refusals(bytes).first().copied().unwrap_or(0)
}

/// c0 and e at which bias files are counted.
const C0_EDGES: [i16; 4] = [-4_097, -4_096, 4_096, 4_097];
const E_EDGES: [i16; 2] = [-32_768, 32_767];

/// Counts which of these edges a bias file has, or that of a state.
pub(super) fn count_edges(bytes: &[u8], [c0_group, e_group]: [&str; 2], counters: &mut Counters) {
    let mut c0_met = C0_EDGES.map(|_| false);
    let mut e_met = E_EDGES.map(|_| false);
    for (c0, e) in pairs(bytes) {
        for (met, edge) in c0_met.iter_mut().zip(C0_EDGES) {
            *met |= c0 == edge;
        }
        for (met, edge) in e_met.iter_mut().zip(E_EDGES) {
            *met |= e == edge;
        }
    }
    for (edge, _) in C0_EDGES.iter().zip(c0_met).filter(|(_, met)| *met) {
        counters.met(c0_group, &edge.to_string());
    }
    for (edge, _) in E_EDGES.iter().zip(e_met).filter(|(_, met)| *met) {
        counters.met(e_group, &edge.to_string());
    }
}

/// Where the one c0 stands that is outside.
fn count_single(bytes: &[u8], counters: &mut Counters) {
    let places: Vec<usize> = pairs(bytes)
        .enumerate()
        .filter(|(_, (c0, _))| is_outside(*c0))
        .map(|(place, _)| place)
        .collect();
    if let [place] = places[..] {
        let class = match place {
            0 => "first pair",
            2_111 => "last pair",
            _ => "another pair",
        };
        counters.met("one c0 outside", class);
    }
}

/// The answer to some bytes, which is the one that a plain look at them gives.
pub fn checked_bias_answer(bytes: &[u8], counters: &mut Counters) -> Result<u8, String> {
    let all = refusals(bytes);
    let expected = all.first().copied().unwrap_or(0);
    let answer = open_bias(bytes).err().unwrap_or(0);
    if answer != expected {
        return Err(format!("bias file: {answer}, expected {expected}"));
    }
    let class = match answer {
        0 => "accepted".to_string(),
        number => number.to_string(),
    };
    counters.met("bias answer", &class);
    if let [first, second, ..] = all[..] {
        let class = format!("{first} and {second}");
        counters.met("two refusals of a bias file", &class);
    }
    if let length @ (0 | 8_450 | 8_452) = bytes.len() {
        counters.met("bias file length", &length.to_string());
    }
    if let [] | [3] = all[..] {
        count_edges(bytes, ["c0 of a bias file", "e of a bias file"], counters);
        count_single(bytes, counters);
    }
    Ok(answer)
}

/// Every neighbour of the bias file of zeros (seed 0) or of the accepted one of a seed has its planned
/// answer.
pub fn check_bias_neighbours(seed: u64, counters: &mut Counters) -> Result<(), String> {
    for neighbour in seed_bias_neighbours(seed) {
        let answer = checked_bias_answer(&neighbour.bytes, counters)?;
        if answer != neighbour.answer {
            let (about, planned) = (neighbour.description, neighbour.answer);
            return Err(format!("bias file, {about}: {answer}, planned {planned}"));
        }
    }
    Ok(())
}

pub fn check_bias(seed: u64, counters: &mut Counters) -> Result<(), String> {
    checked_bias_answer(&bias_bytes(seed), counters).map(drop)
}
