//! Checks of lists that are fed in one call.

use super::biases::plain_bias_answer;
use super::counters::Counters;
use super::tables::plain_answer;
use crate::generator::laid_out::laid_out;
use crate::second::station::{feed_all, LaidOut};

/// Feeds a list in one call: the number answered, and the list after it.
pub fn checked_call(list: &LaidOut, counters: &mut Counters) -> Result<(u8, LaidOut), String> {
    let files = [plain_answer(&list.table), plain_bias_answer(&list.bias)];
    let (class, expected) = match files {
        [0, 0] => ("fed", 0),
        [0, number] => ("bias refused", number),
        [number, 0] => ("table refused", number),
        [number, _] => ("both refused", number),
    };
    counters.met("one call", class);
    let mut after = list.clone();
    let answer = feed_all(&mut after);
    if answer != expected {
        return Err(format!("one call: {answer}, expected {expected}"));
    }
    if answer != 0 && after != *list {
        return Err(format!("one call refused with {answer}, something changed"));
    }
    if answer == 0
        && after
            .answers
            .iter()
            .any(|one| !matches!(one, 0 | 4..=7 | 255))
    {
        return Err(format!("one call: {:?}", after.answers));
    }
    if after.answers.contains(&255) {
        counters.met("one call", "not fed to its end");
    }
    Ok((answer, after))
}

pub fn check_call(seed: u64, counters: &mut Counters) -> Result<(), String> {
    checked_call(&laid_out(seed), counters).map(drop)
}
