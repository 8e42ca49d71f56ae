//! Another implementation against this one, byte for byte.
//!
//! Each function compares one case of a seed and takes the other implementation as a closure, so
//! that a kind of `check::run::KINDS` can be made of each part as soon as the other has it. What this
//! implementation answers comes from its checks, which count the classes of the inputs compared.

use std::fmt::Debug;

use crate::check::biases::checked_bias_answer;
use crate::check::calls::checked_call;
use crate::check::counters::Counters;
use crate::check::equations::{
    accepted_of_state, check_accepted_brackets, check_bracket, checked_equation,
};
use crate::check::halves::checked_halves;
use crate::check::listings::{checked_listing, checked_stream};
use crate::check::lists::checked_outcomes;
use crate::check::lookups::{
    checked_channels, checked_lookup_run, checked_lookups, checked_probe, looked_up, Answered,
    LookupRun,
};
use crate::check::numbers::checked_division;
use crate::check::one_shelf::checked_one_shelf;
use crate::check::outcomes::{outcomes, Outcome};
use crate::check::samples::{accepted_of_kept, count_samples, kept};
use crate::check::states::{
    checked_fresh, checked_state_feed, checked_state_run, outcome_of, probe, run_through_states,
    same_run, StateFunctions, StateOutcome,
};
use crate::check::tables::checked_answer;
use crate::check::thermometers::checked_thermometer;
use crate::check::twins::{checked_twin, checked_twin_lookups};
use crate::check::zeros::checked_zeros;
use crate::generator::laid_out::laid_out;
use crate::generator::listings::{listing_input, ListingInput};
use crate::generator::lists::{feed_list, FeedList};
use crate::generator::numbers::{
    division_pairs, field_case, layout_case, number_bytes, rounding_pairs,
};
use crate::generator::random::case_seed;
use crate::generator::random_biases::{bias_bytes, seed_bias_neighbours};
use crate::generator::random_tables::{seed_neighbours, table_bytes};
use crate::generator::states::{
    changed_bytes, fresh_input, state_feed, state_neighbours, FreshInput, StateFeed,
};
use crate::generator::thermometers::{thermometer_input, ThermometerInput};
use crate::generator::twins::alike_twin;
use crate::second::acceptance::{accepted_samples, AcceptedSamples};
use crate::second::bytes::{field, i16_at, i32_at, layout_is_right, u16_at, u32_at};
use crate::second::calibrator::judge;
use crate::second::record::ScanRecord;
use crate::second::station::{calibrated, LaidOut};
use crate::second::table::open;

/// The checks of the six numbers take the implementation that feeds the lists as they are.
pub use crate::check::six_numbers::{
    other_scenes as one_number, same_scenes as six_numbers,
    same_scenes_of_every_count as every_count,
};

fn same<T: PartialEq + Debug>(about: impl Debug, other: T, this: T) -> Result<(), String> {
    if other == this {
        Ok(())
    } else {
        Err(format!("{about:?}: {other:?}, expected {this:?}"))
    }
}

/// The floor of a / b, b above 0.
pub fn divisions(
    seed: u64,
    other: impl Fn(i64, i64) -> i64,
    counters: &mut Counters,
) -> Result<(), String> {
    for (a, b) in division_pairs(seed, 200) {
        let (this, _) = checked_division(a as i128, b as i128, counters)?;
        same(("floor", a, b), other(a, b) as i128, this)?;
    }
    Ok(())
}

/// r(a, b), b above 0, for every a and b.
pub fn roundings(
    seed: u64,
    other: impl Fn(i64, i64) -> i64,
    counters: &mut Counters,
) -> Result<(), String> {
    let pairs = rounding_pairs(seed, 200);
    for (a, b) in pairs.into_iter().chain(division_pairs(seed, 200)) {
        let (_, this) = checked_division(a as i128, b as i128, counters)?;
        same(("r", a, b), other(a, b) as i128, this)?;
    }
    Ok(())
}

/// The u16, i16, u32 and i32 at a position of some bytes.
pub fn numbers(
    seed: u64,
    other: impl Fn(&[u8], usize) -> (u16, i16, u32, i32),
) -> Result<(), String> {
    let bytes = number_bytes(seed);
    for at in 0..5 {
        let this = (
            u16_at(&bytes, at),
            i16_at(&bytes, at),
            u32_at(&bytes, at),
            i32_at(&bytes, at),
        );
        same((bytes, at), other(&bytes, at), this)?;
    }
    Ok(())
}

/// The field with a tag and length at a position: the value, or none.
pub fn fields(
    seed: u64,
    other: impl for<'a> Fn(&'a [u8], usize, u8, usize) -> Option<&'a [u8]>,
) -> Result<(), String> {
    let case = field_case(seed);
    let (bytes, at, tag, length) = (&case.bytes, case.at, case.tag, case.length);
    let this = field(bytes, at, tag, length);
    same(&case, other(bytes, at, tag, length), this)
}

/// Whether all tags and lengths of a layout are right.
pub fn layouts(seed: u64, other: impl Fn(&[u8], &[(u8, usize)]) -> bool) -> Result<(), String> {
    let (bytes, layout) = layout_case(seed);
    let this = layout_is_right(&bytes, &layout);
    same((&layout, bytes.len()), other(&bytes, &layout), this)
}

/// Opening a table: 0, or the number of the refusal.
pub fn table(
    seed: u64,
    other: impl Fn(&[u8]) -> u8,
    counters: &mut Counters,
) -> Result<(), String> {
    let bytes = table_bytes(seed);
    let this = checked_answer(&bytes, counters)?;
    same("table", other(&bytes), this)
}

/// Opening every neighbour of the bench table (seed 0) or of the accepted table of a seed.
pub fn all_table_neighbours(
    seed: u64,
    other: impl Fn(&[u8]) -> u8,
    counters: &mut Counters,
) -> Result<(), String> {
    for neighbour in seed_neighbours(seed) {
        let this = checked_answer(&neighbour.bytes, counters)?;
        same(&neighbour.description, other(&neighbour.bytes), this)?;
    }
    Ok(())
}

/// Opening a bias file: 0, or the number of the refusal.
pub fn bias(seed: u64, other: impl Fn(&[u8]) -> u8, counters: &mut Counters) -> Result<(), String> {
    let bytes = bias_bytes(seed);
    let this = checked_bias_answer(&bytes, counters)?;
    same("bias file", other(&bytes), this)
}

/// Opening every neighbour of the bias file of zeros (seed 0) or of the accepted one of a seed.
pub fn all_bias_neighbours(
    seed: u64,
    other: impl Fn(&[u8]) -> u8,
    counters: &mut Counters,
) -> Result<(), String> {
    for neighbour in seed_bias_neighbours(seed) {
        let this = checked_bias_answer(&neighbour.bytes, counters)?;
        same(&neighbour.description, other(&neighbour.bytes), this)?;
    }
    Ok(())
}

/// The operation One thermometer.
pub fn thermometer(
    seed: u64,
    other: impl Fn(&ThermometerInput) -> Result<i32, u8>,
    counters: &mut Counters,
) -> Result<(), String> {
    let input = thermometer_input(seed);
    let this = checked_thermometer(&input, counters)?;
    same_thermometer(&input, other(&input), this)
}

/// The answer to one reading; a t of the other is bracketed by equation 19.
fn same_thermometer(
    input: &ThermometerInput,
    other: Result<i32, u8>,
    this: Result<i128, u8>,
) -> Result<(), String> {
    let other = other.map(|t| t as i128);
    same(input, other, this)?;
    match other {
        Ok(t) => check_bracket(t, &input.reading(), &input.coefficients()),
        Err(_) => Ok(()),
    }
}

/// The thermometers of a record, aimed at where equation 19 tells most: each by itself, and T of those that a feed to a
/// fresh state accepts. All of the other's are bracketed by the equation.
pub fn equation(
    seed: u64,
    other: impl Fn(&ThermometerInput) -> Result<i32, u8>,
    feed: impl Fn(&mut [u8], &[u8], &mut [u8]) -> u8,
    counters: &mut Counters,
) -> Result<(), String> {
    let checked = checked_equation(seed, counters)?;
    for (index, this) in checked.answers.iter().enumerate() {
        let input = checked.case.input(index);
        same_thermometer(&input, other(&input), *this)?;
    }
    let after = outcome_of(&checked.feed, feed);
    same_state_outcome("the feed", &after, &checked.after)?;
    let table = open(&checked.case.table.encode()).expect("the table is accepted");
    let record = ScanRecord::read(&checked.feed.record).expect("the record is accepted");
    check_accepted_brackets(&table, &record, &accepted_of_state(&after.state))
}

/// What the scan of each accepted record of a list keeps, given the bytes of table and record.
pub fn kept_values(
    seed: u64,
    other: impl Fn(&[u8], &[u8]) -> Vec<u32>,
    counters: &mut Counters,
) -> Result<(), String> {
    let list = feed_list(seed);
    let table = open(&list.table).expect("a list has an accepted table");
    let mut roll: Vec<ScanRecord> = Vec::new();
    for (index, feed) in list.feeds.iter().enumerate() {
        if let Ok(record) = judge(&roll, &feed.record, feed.buffer.len()) {
            let samples = accepted_samples(&table, &record);
            count_samples(&table, &record, &samples, counters);
            let about = format!("feed {} of the list", index + 1);
            let by_other = other(&list.table, &feed.record);
            same(about, &by_other, &kept(&samples))?;
            check_accepted_brackets(&table, &record, &accepted_of_kept(&by_other[44..]))?;
            roll.push(record);
        }
    }
    Ok(())
}

/// The accepted samples of each accepted record of a list, given the bytes of table and record.
pub fn samples(seed: u64, other: impl Fn(&[u8], &[u8]) -> AcceptedSamples) -> Result<(), String> {
    let list = feed_list(seed);
    let table = open(&list.table).expect("a list has an accepted table");
    let mut roll: Vec<ScanRecord> = Vec::new();
    for (index, feed) in list.feeds.iter().enumerate() {
        if let Ok(record) = judge(&roll, &feed.record, feed.buffer.len()) {
            let this = accepted_samples(&table, &record);
            let about = format!("feed {} of the list", index + 1);
            same(about, other(&list.table, &feed.record), this)?;
            roll.push(record);
        }
    }
    Ok(())
}

fn same_outcomes(about: &str, other: &[Outcome], this: &[Outcome]) -> Result<(), String> {
    same(format!("{about}, feeds"), other.len(), this.len())?;
    for (index, (other, this)) in other.iter().zip(this).enumerate() {
        let about = format!("{about}, feed {}", index + 1);
        same(&about, other.answer, this.answer)?;
        same_bytes(&about, &other.buffer, &this.buffer)?;
    }
    Ok(())
}

/// The answers and buffers of a list of feeds, and of its alike twin.
pub fn feeds(
    seed: u64,
    other: impl Fn(&FeedList) -> Vec<Outcome>,
    counters: &mut Counters,
) -> Result<(), String> {
    let list = feed_list(seed);
    let this = checked_outcomes(&list, counters)?;
    same_outcomes("the list", &other(&list), &this)?;
    let twin = alike_twin(&list, case_seed(seed, 1));
    let this = checked_twin(&list, &this, &twin, counters)?;
    same_outcomes("its twin", &other(&twin), &this)
}

/// The answers and buffers of a list of feeds under its own bias file, and under the file of zeros.
pub fn feeds_under_zeros(
    seed: u64,
    other: impl Fn(&FeedList) -> Vec<Outcome>,
    counters: &mut Counters,
) -> Result<(), String> {
    let list = feed_list(seed);
    let this = outcomes(&list);
    same_outcomes("the list", &other(&list), &this)?;
    let this = checked_zeros(&list, &this, counters)?;
    same_outcomes("the list under zeros", &other(&list.under_zeros()), &this)
}

/// The answers and buffers of lists that differ in one shelf temperature.
pub fn one_shelf(
    seed: u64,
    other: impl Fn(&FeedList) -> Vec<Outcome>,
    counters: &mut Counters,
) -> Result<(), String> {
    for (index, (list, this)) in checked_one_shelf(seed, counters)?.iter().enumerate() {
        same_outcomes(&format!("list {}", index + 1), &other(list), this)?;
    }
    Ok(())
}

/// The answers and buffers of a list in whose last feed r meets halves, and this feed to the state before it.
pub fn halves(
    seed: u64,
    other: impl Fn(&FeedList) -> Vec<Outcome>,
    feed: impl Fn(&mut [u8], &[u8], &mut [u8]) -> u8,
    counters: &mut Counters,
) -> Result<(), String> {
    let case = checked_halves(seed, counters)?;
    same_outcomes("the list", &other(&case.list), &case.outcomes)?;
    same_state_feed("its last feed", &case.last, feed, counters)
}

/// The printed text of the listing program.
pub fn listings(
    seed: u64,
    other: impl Fn(&ListingInput) -> String,
    counters: &mut Counters,
) -> Result<(), String> {
    let input = listing_input(seed);
    let this = checked_listing(&input, counters)?;
    same("listing", other(&input), this)
}

/// The first place at which two lists of bytes differ, and how long both are.
fn same_bytes(about: &str, other: &[u8], this: &[u8]) -> Result<(), String> {
    same(format!("{about}, bytes"), other.len(), this.len())?;
    match (0..this.len()).find(|at| other[*at] != this[*at]) {
        Some(at) => same(format!("{about}, byte {at}"), other[at], this[at]),
        None => Ok(()),
    }
}

/// A list that is fed in one call: the number answered, and every buffer and answer after it.
pub fn lists_in_one_call(
    seed: u64,
    other: impl Fn(&mut LaidOut) -> u8,
    counters: &mut Counters,
) -> Result<(), String> {
    let mut by_other = laid_out(seed);
    let (answer, this) = checked_call(&by_other, counters)?;
    same("the call", other(&mut by_other), answer)?;
    same_bytes("answers", &by_other.answers, &this.answers)?;
    same_bytes("buffers", &by_other.buffers, &this.buffers)
}

/// What the program `calibrate` writes to standard output and to standard error.
pub fn calibrations(
    seed: u64,
    other: impl Fn(&ListingInput) -> (Vec<u8>, String),
    counters: &mut Counters,
) -> Result<(), String> {
    let input = listing_input(seed);
    let _ = checked_stream(&input, counters)?;
    let (products, refusals) = other(&input);
    let (this_products, this_refusals) =
        calibrated(input.table.bytes(), input.bias.bytes(), &input.input);
    same("refusals", refusals, this_refusals)?;
    same_bytes("products", &products, &this_products)
}

/// Making a fresh state: the number answered, and the whole memory after it.
pub fn fresh_states(
    seed: u64,
    other: impl Fn(&[u8], &[u8], &mut [u8]) -> u8,
    counters: &mut Counters,
) -> Result<(), String> {
    let input = fresh_input(seed);
    let (answer, this) = checked_fresh(&input, counters)?;
    let FreshInput {
        table,
        bias,
        memory: mut by_other,
    } = input;
    same("fresh", other(&table, &bias, &mut by_other), answer)?;
    same_bytes("fresh", &by_other, &this)
}

fn same_state_outcome(
    about: &str,
    other: &StateOutcome,
    this: &StateOutcome,
) -> Result<(), String> {
    same(about, other.answer, this.answer)?;
    same_bytes(&format!("{about}, state"), &other.state, &this.state)?;
    same_bytes(&format!("{about}, buffer"), &other.buffer, &this.buffer)
}

fn same_state_feed(
    about: &str,
    feed: &StateFeed,
    other: impl Fn(&mut [u8], &[u8], &mut [u8]) -> u8,
    counters: &mut Counters,
) -> Result<(), String> {
    let this = checked_state_feed(feed, counters).map_err(|what| format!("{about}: {what}"))?;
    same_state_outcome(about, &outcome_of(feed, other), &this)
}

/// One feed to a state: the number answered, and the whole memory of state and buffer after it.
pub fn state_feeds(
    seed: u64,
    other: impl Fn(&mut [u8], &[u8], &mut [u8]) -> u8,
    counters: &mut Counters,
) -> Result<(), String> {
    same_state_feed("the feed", &state_feed(seed), other, counters)
}

/// The same for every neighbour of a state under the bench table and bias file (seed 0) or under accepted
/// ones.
pub fn all_state_neighbours(
    seed: u64,
    other: impl Fn(&mut [u8], &[u8], &mut [u8]) -> u8,
    counters: &mut Counters,
) -> Result<(), String> {
    for (index, neighbour) in state_neighbours(seed).iter().enumerate() {
        let feed = probe(&neighbour.bytes, index);
        same_state_feed(&neighbour.description, &feed, &other, counters)?;
    }
    Ok(())
}

/// The same for each byte of a state changed, one at a time.
pub fn all_state_bytes(
    seed: u64,
    other: impl Fn(&mut [u8], &[u8], &mut [u8]) -> u8,
    counters: &mut Counters,
) -> Result<(), String> {
    for (index, state) in changed_bytes(seed).enumerate() {
        let about = format!("change {index}");
        same_state_feed(&about, &probe(&state, index), &other, counters)?;
    }
    Ok(())
}

/// A list that is fed scan by scan through states: each answer and the whole memory after each feed, and
/// what the other leaves of the list in one call.
pub fn state_runs<F, G>(
    seed: u64,
    functions: &StateFunctions<F, G>,
    at_once: impl Fn(&FeedList) -> Vec<Outcome>,
    counters: &mut Counters,
) -> Result<(), String>
where
    F: Fn(&[u8], &[u8], &mut [u8]) -> u8,
    G: Fn(&mut [u8], &[u8], &mut [u8]) -> u8,
{
    let list = feed_list(seed);
    let seed = case_seed(seed, 1);
    let this = checked_state_run(&list, seed, counters)?;
    let other = run_through_states(&list, seed, functions, &mut Counters::new())?;
    same("feeds through states", other.len(), this.len())?;
    for (index, (other, this)) in other.iter().zip(&this).enumerate() {
        same_state_outcome(&format!("feed {}", index + 1), other, this)?;
    }
    same_run(&other, &at_once(&list))
}

/// What lookups leave at a state.
fn same_answers(
    about: &str,
    state: &[u8],
    answered: &Answered,
    other: impl Fn(&[u8], u32, u32, &mut u16) -> u8,
) -> Result<(), String> {
    for (question, this) in answered {
        let left = looked_up(state, question, &other);
        same(format!("{about}, {question:?}"), left, *this)?;
    }
    Ok(())
}

/// A run with lookups between its feeds: each answer, the whole state after each feed, and what each lookup leaves.
fn same_lookup_run<F, G>(
    about: &str,
    run: &LookupRun,
    functions: &StateFunctions<F, G>,
    other: impl Fn(&[u8], u32, u32, &mut u16) -> u8,
) -> Result<(), String>
where
    F: Fn(&[u8], &[u8], &mut [u8]) -> u8,
    G: Fn(&mut [u8], &[u8], &mut [u8]) -> u8,
{
    let mut memory = vec![7; 12_576];
    same(
        about,
        (functions.fresh)(&run.table, &run.bias, &mut memory),
        0,
    )?;
    for (index, step) in run.steps.iter().enumerate() {
        let about = format!("{about}, step {index}");
        if let Some(feed) = &step.feed {
            let mut buffer = feed.buffer.clone();
            let answer = (functions.feed)(&mut memory, &feed.record, &mut buffer);
            same(&about, answer, step.answer)?;
        }
        same_bytes(&format!("{about}, state"), &memory, &step.state)?;
        same_answers(&about, &memory, &step.answered, &other)?;
    }
    Ok(())
}

/// A list through a state with lookups between its feeds, and after refused ones.
pub fn lookup_runs<F, G>(
    seed: u64,
    functions: &StateFunctions<F, G>,
    other: impl Fn(&[u8], u32, u32, &mut u16) -> u8,
    counters: &mut Counters,
) -> Result<(), String>
where
    F: Fn(&[u8], &[u8], &mut [u8]) -> u8,
    G: Fn(&mut [u8], &[u8], &mut [u8]) -> u8,
{
    let run = checked_lookup_run(seed, counters)?;
    same_lookup_run("the list", &run, functions, other)
}

/// Two alike lists through states, and the same lookups after both.
pub fn lookup_twins<F, G>(
    seed: u64,
    functions: &StateFunctions<F, G>,
    other: impl Fn(&[u8], u32, u32, &mut u16) -> u8,
    counters: &mut Counters,
) -> Result<(), String>
where
    F: Fn(&[u8], &[u8], &mut [u8]) -> u8,
    G: Fn(&mut [u8], &[u8], &mut [u8]) -> u8,
{
    let [list, twin] = checked_twin_lookups(seed, counters)?;
    same_lookup_run("the list", &list, functions, &other)?;
    same_lookup_run("its twin", &twin, functions, &other)
}

/// Lookups at a made-up state, or at bytes that are none.
pub fn lookups(
    seed: u64,
    other: impl Fn(&[u8], u32, u32, &mut u16) -> u8,
    counters: &mut Counters,
) -> Result<(), String> {
    let (state, answered) = checked_lookups(seed, counters)?;
    same_answers("the state", &state, &answered, other)
}

/// Lookups in all channels of a made-up state.
pub fn lookup_channels(
    seed: u64,
    other: impl Fn(&[u8], u32, u32, &mut u16) -> u8,
    counters: &mut Counters,
) -> Result<(), String> {
    let (state, answered) = checked_channels(seed, counters)?;
    same_answers("the state", &state, &answered, other)
}

/// A lookup at every neighbour of a state under the bench table and bias file (seed 0) or under accepted ones.
pub fn all_lookup_neighbours(
    seed: u64,
    other: impl Fn(&[u8], u32, u32, &mut u16) -> u8,
    counters: &mut Counters,
) -> Result<(), String> {
    for (index, neighbour) in state_neighbours(seed).iter().enumerate() {
        let answered = checked_probe(&neighbour.bytes, index, counters)?;
        same_answers(&neighbour.description, &neighbour.bytes, &answered, &other)?;
    }
    Ok(())
}

/// The same for each byte of a state changed, one at a time.
pub fn all_lookup_bytes(
    seed: u64,
    other: impl Fn(&[u8], u32, u32, &mut u16) -> u8,
    counters: &mut Counters,
) -> Result<(), String> {
    for (index, state) in changed_bytes(seed).enumerate() {
        let answered = checked_probe(&state, index, counters)?;
        same_answers(&format!("change {index}"), &state, &answered, &other)?;
    }
    Ok(())
}

#[cfg(test)]
mod tests {
    use super::*;
    use crate::check::halves::HalvesCase;
    use crate::check::roundings::{
        nearest, ChannelParts, Half, Place, RoundingMistake, RoundingMistake::In, ScenePart,
        ROUNDING_MISTAKES, WRONG_HALVES,
    };
    use crate::check::rules;
    use crate::check::shelves::ShelfAndPairs;
    use crate::generator::kept_channels::ChannelValues;
    use crate::generator::ratios::{ratio, Mistake, MISTAKES};
    use crate::generator::states::StateValues;
    use crate::second::acceptance::thermometer_reading;
    use crate::second::bias::open_bias;
    use crate::second::constants::Constants;
    use crate::second::listing::listing;
    use crate::second::product::scene_of;
    use crate::second::rounding::{floor, r, Fraction};
    use crate::second::scene::{numerator, rounded_share};
    use crate::second::shelf::{nonlinearity, unrounded_nonlinearity};
    use crate::second::state;
    use crate::second::station::feed_all;
    use crate::second::table::{Shelf, ShelfPair, Table};
    use crate::second::thermometer::{
        measured, one_thermometer, Coefficients, Reading, HIGHEST_T, KELVIN_OF_ZERO_CELSIUS,
        LOWEST_T,
    };
    use crate::second::window::{
        channel_sums, cold_temperature, unrounded_warm_temperature, warm_temperature, window,
        ChannelSums,
    };

    /// Whether a comparison fails at one of the first seeds.
    fn finds(comparison: impl Fn(u64, &mut Counters) -> Result<(), String>, seeds: u64) -> bool {
        let mut counters = Counters::new();
        (0..seeds).any(|seed| comparison(seed, &mut counters).is_err())
    }

    #[test]
    fn divisions_differ_from_cutting_towards_zero() {
        let right = |a: i64, b: i64| a.div_euclid(b);
        assert!(!finds(
            |seed, counters| divisions(seed, right, counters),
            20
        ));
        assert!(finds(
            |seed, counters| divisions(seed, |a, b| a / b, counters),
            20
        ));
    }

    #[test]
    fn roundings_differ_where_halves_go_another_way() {
        let finds_half = |half: Half| {
            let other = |a: i64, b: i64| nearest(a as i128, b as i128, half) as i64;
            finds(|seed, counters| roundings(seed, other, counters), 20)
        };
        assert!(!finds_half(Half::Even));
        for half in WRONG_HALVES {
            assert!(finds_half(half), "{half:?}");
        }
    }

    #[test]
    fn number_readers_differ_in_order_and_sign() {
        let right = |bytes: &[u8], at: usize| {
            let two: [u8; 2] = bytes[at..at + 2].try_into().unwrap();
            let four: [u8; 4] = bytes[at..at + 4].try_into().unwrap();
            (
                u16::from_be_bytes(two),
                i16::from_be_bytes(two),
                u32::from_be_bytes(four),
                i32::from_be_bytes(four),
            )
        };
        assert!(!finds(|seed, _| numbers(seed, right), 50));
        let wrong = |bytes: &[u8], at: usize| {
            let (first, second, third, fourth) = right(bytes, at);
            (first.swap_bytes(), second, third, fourth)
        };
        assert!(finds(|seed, _| numbers(seed, wrong), 50));
    }

    #[test]
    fn fields_and_layouts_differ_where_a_test_is_left_out() {
        let no_tag = |bytes: &[u8], layout: &[(u8, usize)]| {
            let mut other = bytes.to_vec();
            if let (Some(first), Some((tag, _))) = (other.first_mut(), layout.first()) {
                *first = *tag;
            }
            layout_is_right(&other, layout)
        };
        assert!(!finds(|seed, _| layouts(seed, layout_is_right), 200));
        assert!(finds(|seed, _| layouts(seed, no_tag), 200));
        fn longer(bytes: &[u8], at: usize, tag: u8, length: usize) -> Option<&[u8]> {
            field(bytes, at, tag, length).map(|_| &bytes[at..at + length])
        }
        assert!(!finds(|seed, _| fields(seed, field), 200));
        assert!(finds(|seed, _| fields(seed, longer), 200));
    }

    #[test]
    fn tables_differ_where_every_table_is_accepted() {
        let right = |bytes: &[u8]| open(bytes).err().unwrap_or(0);
        assert!(!finds(|seed, counters| table(seed, right, counters), 50));
        assert!(finds(|seed, counters| table(seed, |_| 0, counters), 50));
        assert!(!finds(
            |seed, counters| all_table_neighbours(seed, right, counters),
            1
        ));
        // A sum cut to eight bits.
        let cut = |bytes: &[u8]| match right(bytes) {
            3 if bytes[3..11].iter().fold(0u8, |sum, w| sum.wrapping_add(*w)) == 1 => 0,
            answer => answer,
        };
        assert!(finds(
            |seed, counters| all_table_neighbours(seed, cut, counters),
            1
        ));
    }

    #[test]
    fn tables_differ_where_a_test_of_nonlinearity_is_left_out() {
        let right = |bytes: &[u8]| open(bytes).err().unwrap_or(0);
        // Bytes that are taken as a table after a repair that no rule has.
        type Repair = fn(&mut [u8]);
        let repairs: [Repair; 6] = [
            // The head of 0x14, the TNL of 0x12 of the last channel, the first shelf temperature, the last
            // one, and the last TNL.
            |bytes| bytes[741..744].copy_from_slice(&[0x14, 2, 148]),
            |bytes| bytes[739..741].fill(0),
            |bytes| {
                if i32_at(bytes, 744) == -245_761 {
                    bytes[744..748].copy_from_slice(&i32::to_be_bytes(-245_760));
                }
            },
            |bytes| {
                if i32_at(bytes, 1_398) == 245_761 {
                    bytes[1_398..1_402].copy_from_slice(&i32::to_be_bytes(245_760));
                }
            },
            |bytes| {
                let inside = i16_at(bytes, 1_402).clamp(-8_192, 8_192);
                bytes[1_402..].copy_from_slice(&inside.to_be_bytes());
            },
            // The last two shelf temperatures may be equal.
            |bytes| {
                if bytes[1_392..1_396] == bytes[1_398..1_402] {
                    bytes[1_398..1_402].copy_from_slice(&i32::to_be_bytes(245_760));
                }
            },
        ];
        for (index, repair) in repairs.into_iter().enumerate() {
            let wrong = |bytes: &[u8]| {
                let mut repaired = bytes.to_vec();
                if bytes.len() == 1_404 {
                    repair(&mut repaired);
                }
                right(&repaired)
            };
            let found = finds(
                |seed, counters| all_table_neighbours(seed, wrong, counters),
                1,
            );
            assert!(found, "repair {index}");
        }
    }

    #[test]
    fn bias_files_differ_where_a_test_is_left_out() {
        let right = |bytes: &[u8]| open_bias(bytes).err().unwrap_or(0);
        assert!(!finds(|seed, counters| bias(seed, right, counters), 50));
        assert!(!finds(
            |seed, counters| all_bias_neighbours(seed, right, counters),
            1
        ));
        // The last pair is not looked at.
        let no_last = |bytes: &[u8]| match bytes.len() {
            8_451 => right(&[&bytes[..8_447], &[0; 4]].concat()),
            _ => right(bytes),
        };
        // e has the range of c0.
        let ranged_e = |bytes: &[u8]| {
            let moved = [&bytes[..3.min(bytes.len())], bytes.get(5..).unwrap_or(&[])].concat();
            match right(bytes) {
                0 => right(&[&moved[..], &[0; 2]].concat()),
                answer => answer,
            }
        };
        // c0 is tested before the head.
        let head_last = |bytes: &[u8]| match right(bytes) {
            2 => right(&[&[0x13, 0x21, 0x00], &bytes[3..]].concat()).max(2),
            answer => answer,
        };
        let wrongs: [&dyn Fn(&[u8]) -> u8; 3] = [&no_last, &ranged_e, &head_last];
        for wrong in wrongs {
            assert!(finds(
                |seed, counters| all_bias_neighbours(seed, wrong, counters),
                1
            ));
            assert!(finds(|seed, counters| bias(seed, wrong, counters), 400));
        }
    }

    #[test]
    fn thermometers_differ_by_one_unit() {
        let right = |input: &ThermometerInput| {
            one_thermometer(&input.reading(), &input.coefficients()).map(|t| t as i32)
        };
        assert!(!finds(
            |seed, counters| thermometer(seed, right, counters),
            200
        ));
        let wrong = |input: &ThermometerInput| right(input).map(|t| (t + 1).min(245_760));
        assert!(finds(
            |seed, counters| thermometer(seed, wrong, counters),
            200
        ));
    }

    /// The rule with a mistake.
    fn mistaken_rule(
        reading: &Reading,
        coefficients: &Coefficients,
        mistake: Mistake,
    ) -> Result<i128, u8> {
        let f = |t: i128| ratio(t, coefficients, Some(mistake));
        if reading.pam <= reading.offset {
            return Err(9);
        }
        let m = measured(reading, coefficients.resistance);
        if reading.count < reading.offset || m < f(LOWEST_T) || m > f(HIGHEST_T) {
            return Err(10);
        }
        let (mut reached, mut past) = (LOWEST_T, HIGHEST_T + 1);
        while past - reached > 1 {
            let middle = (reached + past).div_euclid(2);
            if f(middle) <= m {
                reached = middle;
            } else {
                past = middle;
            }
        }
        Ok(reached)
    }

    fn mistaken_thermometer(input: &ThermometerInput, mistake: Mistake) -> Result<i32, u8> {
        let (reading, coefficients) = (input.reading(), input.coefficients());
        match one_thermometer(&reading, &coefficients) {
            Err(8) => Err(8),
            _ => mistaken_rule(&reading, &coefficients, mistake).map(|t| t as i32),
        }
    }

    #[test]
    fn thermometers_differ_by_each_mistake() {
        for mistake in MISTAKES {
            let wrong = |input: &ThermometerInput| mistaken_thermometer(input, mistake);
            let finds_it = finds(|seed, counters| thermometer(seed, wrong, counters), 400);
            assert!(finds_it, "{mistake:?}");
        }
        // The fourth-degree term moves the upper end alone.
        let wrong = |input: &ThermometerInput| {
            let (reading, coefficients) = (input.reading(), input.coefficients());
            match one_thermometer(&reading, &coefficients) {
                Err(10) => mistaken_thermometer(input, Mistake::TermAboveZero).map(|_| 245_760),
                answer => answer.map(|t| t as i32),
            }
        };
        assert!(finds(
            |seed, counters| thermometer(seed, wrong, counters),
            400
        ));
    }

    #[test]
    fn a_t_beside_the_equation_is_told_where_both_answer_it() {
        let mut counters = Counters::new();
        for seed in 0..10 {
            let checked = checked_equation(seed, &mut counters).unwrap();
            for (index, answer) in checked.answers.iter().enumerate() {
                let input = checked.case.input(index);
                if let Ok(t) = answer {
                    let bracketed = |t: i128| same_thermometer(&input, Ok(t as i32), Ok(t)).is_ok();
                    assert!(
                        bracketed(*t) && !bracketed(t - 3) && !bracketed(t + 3),
                        "{input:?}"
                    );
                }
            }
        }
    }

    #[test]
    fn thermometers_against_the_equation_differ_by_each_mistake_and_in_feeds() {
        let right = |input: &ThermometerInput| {
            one_thermometer(&input.reading(), &input.coefficients()).map(|t| t as i32)
        };
        type FeedState = fn(&mut [u8], &[u8], &mut [u8]) -> u8;
        let finds_feed =
            |feed: FeedState| finds(|seed, counters| equation(seed, right, feed, counters), 4);
        assert!(!finds_feed(state::feed));
        // T of the last thermometer one unit more.
        assert!(finds_feed(|memory, record, buffer| {
            let answer = state::feed(memory, record, buffer);
            let mut values = StateValues::decode(memory);
            values.thermometers[0][14] += 1;
            memory[..12_576].copy_from_slice(&values.encode());
            answer
        }));
        for mistake in MISTAKES {
            let wrong = |input: &ThermometerInput| mistaken_thermometer(input, mistake);
            let found = finds(
                |seed, counters| equation(seed, wrong, state::feed, counters),
                40,
            );
            assert!(found, "{mistake:?}");
        }
    }

    #[test]
    fn samples_differ_by_the_fourth_degree_term() {
        for mistake in [Mistake::TermAboveZero, Mistake::NoTerm] {
            let wrong = |table: &[u8], record: &[u8]| {
                let (table, record) = (open(table).unwrap(), ScanRecord::read(record).unwrap());
                let mut samples = accepted_samples(&table, &record);
                for one in &mut samples.thermometers {
                    let index = one.number - 1;
                    let reading = thermometer_reading(&table, &record, index);
                    let coefficients = &table.thermometers[index].coefficients;
                    let t = mistaken_rule(&reading, coefficients, mistake).unwrap_or(0);
                    one.temperature = t + KELVIN_OF_ZERO_CELSIUS;
                }
                samples
            };
            assert!(finds(|seed, _| samples(seed, wrong), 20), "{mistake:?}");
        }
    }

    #[test]
    fn samples_differ_where_a_place_is_wrong() {
        let right = |table: &[u8], record: &[u8]| {
            accepted_samples(&open(table).unwrap(), &ScanRecord::read(record).unwrap())
        };
        assert!(!finds(|seed, _| samples(seed, right), 2));
        let wrong = |table: &[u8], record: &[u8]| {
            let mut samples = right(table, record);
            for accepted in samples.cold.iter_mut().flatten() {
                accepted.place = 0;
            }
            samples
        };
        assert!(finds(|seed, _| samples(seed, wrong), 2));
    }

    #[test]
    fn feeds_differ_by_one_byte() {
        assert!(!finds(|seed, counters| feeds(seed, outcomes, counters), 2));
        let wrong = |list: &FeedList| {
            let mut wrong = outcomes(list);
            let last = wrong.iter_mut().rfind(|outcome| outcome.answer == 0);
            if let Some(outcome) = last {
                outcome.buffer[8_000] ^= 1;
            }
            wrong
        };
        assert!(finds(|seed, counters| feeds(seed, wrong, counters), 2));
    }

    /// What a list leaves where each delivered scene is made anew of its pair and of T.
    fn with_scenes(list: &FeedList, scene: impl Fn(i128, i128, i128) -> i128) -> Vec<Outcome> {
        let mut all = outcomes(list);
        let without = outcomes(&list.under_zeros());
        for (own, without) in all.iter_mut().zip(&without) {
            if own.answer != 0 {
                continue;
            }
            for place in 0..2_112 {
                let at = 35 + 4 * place;
                let four: [u8; 4] = without.buffer[at..at + 4].try_into().unwrap();
                let t = (f32::from_be_bytes(four) * 4096.0) as i128;
                if t > 0 {
                    let pair = 3 + 4 * place;
                    let c0 = i16_at(&list.bias, pair) as i128;
                    let e = i16_at(&list.bias, pair + 2) as i128;
                    let kelvin = scene(t, c0, e) as f32 / 4096.0;
                    own.buffer[at..at + 4].copy_from_slice(&kelvin.to_be_bytes());
                }
            }
        }
        all
    }

    #[test]
    fn feeds_differ_where_scan_bias_is_rounded_or_formed_in_another_way() {
        let right = |t: i128, c0: i128, e: i128| c0 + r((65_536 + e) * t, 65_536);
        assert!(!finds(
            |seed, counters| feeds(seed, |list| with_scenes(list, right), counters),
            2
        ));
        let wrongs: [fn(i128, i128, i128) -> i128; 5] = [
            // Halves down, cut towards 0, c0 before e, no e, no c0.
            |t, c0, e| c0 + nearest((65_536 + e) * t, 65_536, Half::Down),
            |t, c0, e| c0 + t + e * t / 65_536,
            |t, c0, e| r((65_536 + e) * (t + c0), 65_536),
            |t, c0, _| c0 + t,
            |t, _, e| r((65_536 + e) * t, 65_536),
        ];
        for (index, wrong) in wrongs.into_iter().enumerate() {
            let finds_it = finds(
                |seed, counters| feeds(seed, |list| with_scenes(list, wrong), counters),
                8,
            );
            assert!(finds_it, "way {index}");
        }
    }

    #[test]
    fn feeds_under_zeros_differ_where_the_bias_file_is_not_looked_at() {
        assert!(!finds(
            |seed, counters| feeds_under_zeros(seed, outcomes, counters),
            3
        ));
        let wrong = |list: &FeedList| outcomes(&list.under_zeros());
        assert!(finds(
            |seed, counters| feeds_under_zeros(seed, wrong, counters),
            3
        ));
    }

    #[test]
    fn listings_differ_by_a_line_feed() {
        let right =
            |input: &ListingInput| listing(input.table.bytes(), input.bias.bytes(), &input.input);
        assert!(!finds(|seed, counters| listings(seed, right, counters), 10));
        let wrong = |input: &ListingInput| right(input).trim_end().to_string();
        assert!(finds(|seed, counters| listings(seed, wrong, counters), 10));
    }

    #[test]
    fn listings_differ_where_the_bias_file_is_opened_first() {
        let wrong = |input: &ListingInput| match open_bias(input.bias.bytes().unwrap_or(&[])) {
            Err(number) => format!("refused {number}\n"),
            Ok(_) => listing(input.table.bytes(), input.bias.bytes(), &input.input),
        };
        assert!(finds(|seed, counters| listings(seed, wrong, counters), 60));
    }

    #[test]
    fn lists_in_one_call_differ_where_the_rest_is_not_answered() {
        assert!(!finds(
            |seed, counters| lists_in_one_call(seed, feed_all, counters),
            5
        ));
        let wrong = |list: &mut LaidOut| {
            let number = feed_all(list);
            if let Some(answer) = list.answers.iter_mut().find(|answer| **answer == 255) {
                *answer = 4;
            }
            number
        };
        assert!(finds(
            |seed, counters| lists_in_one_call(seed, wrong, counters),
            40
        ));
    }

    #[test]
    fn calibrations_differ_where_a_refusal_leaves_a_product() {
        let right = |input: &ListingInput| {
            calibrated(input.table.bytes(), input.bias.bytes(), &input.input)
        };
        assert!(!finds(
            |seed, counters| calibrations(seed, right, counters),
            5
        ));
        let wrong = |input: &ListingInput| {
            let (mut products, refusals) = right(input);
            products.extend(refusals.bytes());
            (products, refusals)
        };
        assert!(finds(
            |seed, counters| calibrations(seed, wrong, counters),
            40
        ));
    }

    #[test]
    fn fresh_states_differ_where_the_number_is_left() {
        assert!(!finds(
            |seed, counters| fresh_states(seed, state::fresh, counters),
            50
        ));
        let wrong = |table: &[u8], bias: &[u8], memory: &mut [u8]| {
            let before = memory.to_vec();
            let answer = state::fresh(table, bias, memory);
            if answer == 0 {
                memory[1_422..1_426].copy_from_slice(&before[1_422..1_426]);
            }
            answer
        };
        assert!(finds(
            |seed, counters| fresh_states(seed, wrong, counters),
            50
        ));
        // The room is tested after table and bias file, and the bias file after the table.
        let wrong = |table: &[u8], bias: &[u8], memory: &mut [u8]| match memory.len() {
            0..=12_575 if open(table).is_ok() => 254,
            _ => state::fresh(table, bias, memory),
        };
        assert!(finds(
            |seed, counters| fresh_states(seed, wrong, counters),
            50
        ));
        let wrong = |table: &[u8], bias: &[u8], memory: &mut [u8]| match open_bias(bias) {
            Err(number) => number,
            Ok(_) => state::fresh(table, bias, memory),
        };
        assert!(finds(
            |seed, counters| fresh_states(seed, wrong, counters),
            50
        ));
    }

    #[test]
    fn state_feeds_differ_by_one_byte_of_state_or_buffer() {
        assert!(!finds(
            |seed, counters| state_feeds(seed, state::feed, counters),
            30
        ));
        let wrong = |memory: &mut [u8], record: &[u8], buffer: &mut [u8]| {
            let answer = state::feed(memory, record, buffer);
            if answer == 0 {
                memory[12_575] ^= 1;
            }
            answer
        };
        assert!(finds(
            |seed, counters| state_feeds(seed, wrong, counters),
            30
        ));
        let wrong = |memory: &mut [u8], record: &[u8], buffer: &mut [u8]| {
            let answer = state::feed(memory, record, buffer);
            if let (7, [first, ..]) = (answer, buffer) {
                *first ^= 1;
            }
            answer
        };
        assert!(finds(
            |seed, counters| state_feeds(seed, wrong, counters),
            200
        ));
    }

    #[test]
    fn state_neighbours_and_bytes_differ_where_a_test_is_left_out() {
        assert!(!finds(
            |seed, counters| all_state_neighbours(seed, state::feed, counters),
            1
        ));
        assert!(!finds(
            |seed, counters| all_state_bytes(seed, state::feed, counters),
            1
        ));
        // Bytes that are taken as a state after a repair that no rule has.
        type Repair = fn(&mut StateValues);
        let repairs: [Repair; 8] = [
            |values| values.accepted = values.accepted.min(1),
            |values| values.number *= u32::from(values.accepted),
            |values| values.warm[7][21] = values.warm[7][21].min(786_421),
            |values| {
                if values.number == 6 {
                    values.thermometers[7] = [0; 15];
                }
            },
            |values| values.bias[0] = 0x13,
            |values| {
                if values.bias[8_447..8_449] == [0xef, 0xff] {
                    values.bias[8_447..8_449].fill(0);
                }
            },
            |values| values.kept = values.kept.min(1),
            |values| {
                let last = &mut values.channels[21];
                last.d = last.d.min(65_535 * last.slope as u64);
            },
        ];
        for repair in repairs {
            let wrong = |memory: &mut [u8], record: &[u8], buffer: &mut [u8]| {
                let answer = state::feed(memory, record, buffer);
                if answer != 254 || memory.len() < 12_576 {
                    return answer;
                }
                let mut values = StateValues::decode(memory);
                repair(&mut values);
                state::feed(&mut values.encode(), record, &mut buffer.to_vec())
            };
            assert!(finds(
                |seed, counters| all_state_neighbours(seed, wrong, counters),
                1
            ));
        }
        let no_version = |memory: &mut [u8], record: &[u8], buffer: &mut [u8]| {
            let mut repaired = memory.to_vec();
            repaired[7..11].copy_from_slice(&[0, 0, 0, 6]);
            state::feed(&mut repaired, record, buffer)
        };
        assert!(finds(
            |seed, counters| all_state_bytes(seed, no_version, counters),
            1
        ));
    }

    #[test]
    fn state_runs_differ_where_ages_count_records() {
        let right = StateFunctions {
            fresh: state::fresh,
            feed: state::feed,
        };
        assert!(!finds(
            |seed, counters| state_runs(seed, &right, outcomes, counters),
            4
        ));
        let wrong = StateFunctions {
            fresh: state::fresh,
            feed: |memory: &mut [u8], record: &[u8], buffer: &mut [u8]| {
                let answer = state::feed(memory, record, buffer);
                let age_1 = 1_429 + 88..1_429 + 176;
                if answer == 0 && memory[age_1.clone()].iter().all(|byte| *byte == 0) {
                    memory.copy_within(age_1.end..2_133, age_1.start);
                }
                answer
            },
        };
        assert!(finds(
            |seed, counters| state_runs(seed, &wrong, outcomes, counters),
            8
        ));
        let no_product = |list: &FeedList| {
            let mut all = outcomes(list);
            all[0].buffer.fill(0);
            all
        };
        assert!(finds(
            |seed, counters| state_runs(seed, &right, no_product, counters),
            2
        ));
    }

    /// A channel of the feed whose record is the last of the roll.
    struct ChannelOfFeed<'a> {
        table: &'a Table,
        roll: &'a [ScanRecord],
        channel: usize,
        sums: ChannelSums,
    }

    impl ChannelOfFeed<'_> {
        /// N and D of a count.
        fn place(&self, count: u16) -> (i128, i128) {
            (numerator(&self.sums, count), self.sums.difference())
        }

        fn tw(&self) -> Fraction {
            Fraction {
                numerator: warm_temperature(self.table, self.channel, &self.sums),
                denominator: 1,
            }
        }

        fn pairs(&self) -> &[ShelfPair; 5] {
            &self.table.channels[self.channel].shelf_pairs
        }

        /// The temperature of a shelf so many records before the last, or of the first record.
        fn shelf(&self, shelf: Shelf, before: usize) -> i128 {
            let index = (self.roll.len() - 1).saturating_sub(before);
            self.roll[index].shelf_temperature(shelf) as i128
        }

        fn own_shelf(&self) -> i128 {
            self.shelf(Shelf::of_channel(self.channel), 0)
        }

        fn unrounded_tnl(&self) -> Fraction {
            unrounded_nonlinearity(self.pairs(), self.own_shelf())
        }

        fn tnl(&self) -> Fraction {
            Fraction {
                numerator: nonlinearity(self.pairs(), self.own_shelf()),
                denominator: 1,
            }
        }

        /// TNL where one channel, with this index from 0, takes another shelf.
        fn tnl_of_channel(&self, channel: usize, shelf: Shelf) -> i128 {
            if self.channel == channel {
                nonlinearity(self.pairs(), self.shelf(shelf, 0))
            } else {
                self.tnl().numerator
            }
        }

        /// T at N and D with fractions for Tw and TNL.
        fn temperature(&self, (n, d): (i128, i128), tw: Fraction, tnl: Fraction) -> i128 {
            let tc = cold_temperature(self.table, self.channel);
            let x = rounded_share(n, d);
            let rise = tw.numerator - tc * tw.denominator;
            let curve = 4 * x * (65_536 - x) * tnl.numerator;
            tc + r(n * rise, d * tw.denominator) + r(curve, tnl.denominator << 32)
        }
    }

    type SceneOf = fn(&ChannelOfFeed, u16) -> i128;

    /// What a list leaves where T of each delivered scene is made anew, in the feeds from this index on.
    fn with_temperatures(
        list: &FeedList,
        first: usize,
        scene: impl Fn(&ChannelOfFeed, u16) -> i128,
    ) -> Vec<Outcome> {
        let bias = open_bias(&list.bias).unwrap();
        with_scenes_of(list, first, |own, count, position| {
            bias.pair(own.channel, position).biased(scene(own, count))
        })
    }

    /// What a list leaves where B of each delivered scene is made anew of its count and position, in the feeds from
    /// this index on.
    fn with_scenes_of(
        list: &FeedList,
        first: usize,
        scene: impl Fn(&ChannelOfFeed, u16, usize) -> i128,
    ) -> Vec<Outcome> {
        let mut all = outcomes(list);
        let table = open(&list.table).unwrap();
        let mut roll: Vec<ScanRecord> = Vec::new();
        for (index, (feed, outcome)) in list.feeds.iter().zip(&mut all).enumerate() {
            let Ok(record) = judge(&roll, &feed.record, feed.buffer.len()) else {
                continue;
            };
            roll.push(record.clone());
            if index < first {
                continue;
            }
            let window = window(&table, &roll);
            let product = &mut outcome.buffer;
            for channel in 0..22 {
                let own = ChannelOfFeed {
                    table: &table,
                    roll: &roll,
                    channel,
                    sums: channel_sums(&table, &window, channel),
                };
                for (position, count) in record.earth_counts(channel).into_iter().enumerate() {
                    if scene_of(product, channel, position) > 0.0 {
                        let at = 35 + 4 * (96 * channel + position);
                        let kelvin = scene(&own, count, position) as f32 / 4096.0;
                        product[at..at + 4].copy_from_slice(&kelvin.to_be_bytes());
                    }
                }
            }
        }
        all
    }

    /// The parts of a channel of which a mistake makes other scenes.
    fn parts_of(own: &ChannelOfFeed) -> ChannelParts {
        let record = &own.roll[own.roll.len() - 1];
        let shelf = ShelfAndPairs::of(&own.table.bytes, record.bytes(), own.channel);
        ChannelParts {
            q: own.sums.thermometers.temperature,
            p: own.sums.thermometers.weight,
            b: own.table.channels[own.channel].warm_bias,
            tc: cold_temperature(own.table, own.channel),
            line: shelf.line(),
            d: own.sums.difference(),
        }
    }

    /// What a list leaves where each delivered scene of its last feed is made anew, with a mistake in a rounding or
    /// without one.
    fn with_mistake(list: &FeedList, mistake: Option<RoundingMistake>) -> Vec<Outcome> {
        let last = list.feeds.len() - 1;
        with_scenes_of(list, last, |own, count, position| {
            let scene = ScenePart {
                n: own.place(count).0,
                pair: rules::pair(&list.bias, own.channel, position),
                t: 0,
                b: 0,
            };
            parts_of(own).biased(&scene, mistake)
        })
    }

    /// Lists in whose last feeds r meets halves, with what they leave.
    fn halves_cases(count: u64) -> Vec<HalvesCase> {
        let mut counters = Counters::new();
        let all = (0..count).map(|seed| checked_halves(seed, &mut counters));
        all.map(|case| case.unwrap()).collect()
    }

    #[test]
    fn halves_differ_by_each_mistake() {
        let cases = halves_cases(8);
        let differs = |mistake: Option<RoundingMistake>| {
            cases.iter().any(|case| {
                let other = with_mistake(&case.list, mistake);
                same_outcomes("", &other, &case.outcomes).is_err()
            })
        };
        assert!(!differs(None));
        for (class, mistake) in ROUNDING_MISTAKES {
            assert!(differs(Some(mistake)), "{class}");
        }
    }

    #[test]
    fn halves_differ_by_a_byte_of_the_list_or_of_the_state() {
        let finds_it = |other: fn(&FeedList) -> Vec<Outcome>, feed: FeedOfState| {
            finds(|seed, counters| halves(seed, other, feed, counters), 1)
        };
        assert!(!finds_it(outcomes, state::feed));
        let halves_up =
            |list: &FeedList| with_mistake(list, Some(RoundingMistake::Everywhere(Half::Up)));
        assert!(finds_it(halves_up, state::feed));
        // The last number of Tw - Tc of the last channel, which is kept.
        assert!(finds_it(outcomes, |memory, record, buffer| {
            let answer = state::feed(memory, record, buffer);
            memory[12_540 + 11] ^= 1;
            answer
        }));
    }

    type FeedOfState = fn(&mut [u8], &[u8], &mut [u8]) -> u8;

    #[test]
    fn states_behind_halves_differ_by_the_mistakes_that_they_keep() {
        let cases = halves_cases(8);
        let differs = |mistake: RoundingMistake| {
            cases.iter().any(|case| {
                let feed = |memory: &mut [u8], record: &[u8], buffer: &mut [u8]| {
                    let answer = state::feed(memory, record, buffer);
                    keep_with_mistake(&case.list, memory, mistake);
                    answer
                };
                same_state_feed("", &case.last, feed, &mut Counters::new()).is_err()
            })
        };
        for half in [Half::Odd, Half::Up, Half::Down] {
            assert!(
                differs(RoundingMistake::In(Place::WarmMean, half)),
                "{half:?}"
            );
        }
        for half in WRONG_HALVES {
            assert!(differs(RoundingMistake::In(Place::Tnl, half)), "{half:?}");
        }
        for mistake in [
            RoundingMistake::BInWarmMean,
            RoundingMistake::IncrementFromBefore,
            RoundingMistake::IncrementFromBehind,
        ] {
            assert!(differs(mistake), "{mistake:?}");
        }
        // What is rounded for a scene alone is not kept.
        for place in [Place::X, Place::LinearPart, Place::Bend, Place::ScanBias] {
            assert!(!differs(RoundingMistake::In(place, Half::Odd)), "{place:?}");
        }
    }

    /// Puts Tw - Tc and TNL of the last feed of a list into a state, with a mistake in a rounding.
    fn keep_with_mistake(list: &FeedList, memory: &mut [u8], mistake: RoundingMistake) {
        let mut values = StateValues::decode(memory);
        let table = open(&list.table).unwrap();
        let roll = roll_of(list);
        let window = window(&table, &roll);
        for (channel, kept) in values.channels.iter_mut().enumerate() {
            let own = ChannelOfFeed {
                table: &table,
                roll: &roll,
                channel,
                sums: channel_sums(&table, &window, channel),
            };
            let parts = parts_of(&own);
            kept.rise = (parts.tw(Some(mistake)) - parts.tc) as u32;
            kept.tnl = parts.tnl(Some(mistake)) as i32;
        }
        memory[..12_576].copy_from_slice(&values.encode());
    }

    /// The roll after a list.
    fn roll_of(list: &FeedList) -> Vec<ScanRecord> {
        let mut roll: Vec<ScanRecord> = Vec::new();
        for feed in &list.feeds {
            if let Ok(record) = judge(&roll, &feed.record, feed.buffer.len()) {
                roll.push(record);
            }
        }
        roll
    }

    /// Whether feeds of the first lists differ where TNL is taken in another way.
    fn feeds_find(tnl: fn(&ChannelOfFeed) -> i128, seeds: u64) -> bool {
        let scene = |own: &ChannelOfFeed, count: u16| {
            let tnl = Fraction {
                numerator: tnl(own),
                denominator: 1,
            };
            own.temperature(own.place(count), own.tw(), tnl)
        };
        let other = |list: &FeedList| with_temperatures(list, 0, scene);
        finds(|seed, counters| feeds(seed, other, counters), seeds)
    }

    #[test]
    fn feeds_differ_where_the_line_is_rounded_in_another_way() {
        assert!(!feeds_find(|own| own.tnl().numerator, 2));
        let wrongs: [fn(&ChannelOfFeed) -> i128; 4] = [
            // Down, halves down, halves away from 0, cut towards 0.
            |own| {
                let line = own.unrounded_tnl();
                floor(line.numerator, line.denominator)
            },
            |own| {
                let line = own.unrounded_tnl();
                nearest(line.numerator, line.denominator, Half::Down)
            },
            |own| {
                let line = own.unrounded_tnl();
                nearest(line.numerator, line.denominator, Half::AwayFromZero)
            },
            |own| {
                let line = own.unrounded_tnl();
                line.numerator / line.denominator
            },
        ];
        for (index, wrong) in wrongs.into_iter().enumerate() {
            assert!(feeds_find(wrong, 12), "way {index}");
        }
    }

    #[test]
    fn feeds_differ_where_the_line_is_another() {
        let wrongs: [fn(&ChannelOfFeed) -> i128; 4] = [
            // The last pair that is reached, the middle pair, 0x12.
            |own| {
                let reached = |pair: &&ShelfPair| pair.temperature <= own.own_shelf();
                let last = own.pairs().iter().rfind(reached);
                last.unwrap_or(&own.pairs()[0]).nonlinearity
            },
            |own| own.pairs()[2].nonlinearity,
            |own| own.table.channels[own.channel].zero_nonlinearity,
            // The line goes on beyond the first pair, as far as TNL may be.
            |own| {
                let (pairs, shelf) = (own.pairs(), own.own_shelf());
                if shelf >= pairs[0].temperature {
                    return own.tnl().numerator;
                }
                let rise = pairs[1].nonlinearity - pairs[0].nonlinearity;
                let units = pairs[1].temperature - pairs[0].temperature;
                let beyond = r(rise * (shelf - pairs[0].temperature), units);
                (pairs[0].nonlinearity + beyond).clamp(-8_192, 8_192)
            },
        ];
        for (index, wrong) in wrongs.into_iter().enumerate() {
            assert!(feeds_find(wrong, 12), "way {index}");
        }
    }

    #[test]
    fn feeds_differ_where_another_shelf_is_taken() {
        let wrongs: [fn(&ChannelOfFeed) -> i128; 2] = [
            // That of the record before, and that of the first.
            |own| nonlinearity(own.pairs(), own.shelf(Shelf::of_channel(own.channel), 1)),
            |own| {
                let first = own.shelf(Shelf::of_channel(own.channel), own.roll.len());
                nonlinearity(own.pairs(), first)
            },
        ];
        for (index, wrong) in wrongs.into_iter().enumerate() {
            assert!(feeds_find(wrong, 12), "way {index}");
        }
        // A channel at the end of its band takes the shelf of the next band.
        let bands: [fn(&ChannelOfFeed) -> i128; 6] = [
            |own| own.tnl_of_channel(1, Shelf::V),
            |own| own.tnl_of_channel(2, Shelf::Kka),
            |own| own.tnl_of_channel(14, Shelf::W),
            |own| own.tnl_of_channel(15, Shelf::V),
            |own| own.tnl_of_channel(15, Shelf::G),
            |own| own.tnl_of_channel(16, Shelf::W),
        ];
        for (index, wrong) in bands.into_iter().enumerate() {
            assert!(feeds_find(wrong, 12), "band {index}");
        }
    }

    #[test]
    fn one_shelf_differs_where_the_shelf_is_not_the_scans_own() {
        assert!(!finds(
            |seed, counters| one_shelf(seed, outcomes, counters),
            1
        ));
        let before: SceneOf = |own, count| {
            let shelf = own.shelf(Shelf::of_channel(own.channel), 1);
            let tnl = unrounded_nonlinearity(own.pairs(), shelf);
            own.temperature(own.place(count), own.tw(), tnl)
        };
        let wrong = |list: &FeedList| with_temperatures(list, 0, before);
        assert!(finds(|seed, counters| one_shelf(seed, wrong, counters), 1));
    }

    #[test]
    fn six_numbers_differ_where_a_scene_takes_more_from_its_channel() {
        let right: SceneOf = |own, count| own.temperature(own.place(count), own.tw(), own.tnl());
        // Tw is not rounded, though the six numbers have it rounded; and likewise TNL.
        let unrounded_tw: SceneOf = |own, count| {
            let tw = unrounded_warm_temperature(own.table, own.channel, &own.sums);
            own.temperature(own.place(count), tw, own.tnl())
        };
        let unrounded_tnl: SceneOf =
            |own, count| own.temperature(own.place(count), own.tw(), own.unrounded_tnl());
        // WG has a unit more.
        let of_target: SceneOf = |own, count| {
            i128::from(own.channel >= 15) + own.temperature(own.place(count), own.tw(), own.tnl())
        };
        for (scene, is_wrong) in [
            (right, false),
            (unrounded_tw, true),
            (unrounded_tnl, true),
            (of_target, true),
        ] {
            let other = |list: &FeedList| with_temperatures(list, list.feeds.len() - 1, scene);
            let found = finds(|seed, counters| six_numbers(seed, other, counters), 6);
            assert_eq!(found, is_wrong);
        }
    }

    #[test]
    fn every_count_differs_where_one_channel_has_another_word_of_one_count() {
        let wrong = StateFunctions {
            fresh: state::fresh,
            feed: |memory: &mut [u8], record: &[u8], buffer: &mut [u8]| {
                let answer = state::feed(memory, record, buffer);
                // Count 300 is at position 13 behind 288.
                if answer == 0 && record[405..407] == 288_u16.to_be_bytes() {
                    buffer[35 + 4 * (96 * 21 + 12) + 3] ^= 1;
                }
                answer
            },
        };
        let compared = every_count(3, &wrong, &mut Counters::new());
        assert!(compared.unwrap_err().starts_with("channel 22, count 300: "));
    }

    /// A lookup with a part of it wrong. It halves the counts that are delivered.
    #[derive(Clone, Copy)]
    struct Lookup {
        /// The answer before any count is looked at, given the state, the channel, and the right one.
        refusal: fn(&[u8], u32, u8) -> u8,
        /// The index from 0 of a channel.
        index: fn(u32) -> usize,
        /// The lowest and the highest count that is delivered.
        ends: fn(&Constants) -> (i128, i128),
        temperature: fn(&Constants, &[u8], usize, u16) -> i128,
        /// The answer where this is the lowest count that reaches the wanted T, with this T.
        found: fn(u16, i128, u32) -> Option<u16>,
        wanted: fn(u32) -> u32,
    }

    const RIGHT: Lookup = Lookup {
        refusal: |_, _, answer| answer,
        index: |channel| channel as usize - 1,
        ends: |own| {
            let first = floor(own.base + own.slope - 1, own.slope);
            let last = floor(4 * own.base + 5 * own.difference, 4 * own.slope);
            (first, last.min(65_535))
        },
        temperature: |own, _, _, count| own.temperature(count).unwrap(),
        found: |count, t, wanted| (t == wanted as i128).then_some(count),
        wanted: |wanted| wanted,
    };

    impl Lookup {
        fn of(&self, bytes: &[u8], channel: u32, wanted: u32, count: &mut u16) -> u8 {
            let read = state::read(bytes);
            let kept = read.as_ref().map(|read| read.start().channels.clone());
            let right = match &kept {
                None => 254,
                Some(_) if !(1..=22).contains(&channel) => 11,
                Some(None) => 12,
                Some(Some(channels)) if channels[channel as usize - 1].is_err() => 12,
                Some(_) => 0,
            };
            match (self.refusal)(bytes, channel, right) {
                0 => {}
                answer => return answer,
            }
            let index = (self.index)(channel).min(21);
            let Some(Some(channels)) = kept else {
                return 12;
            };
            let Ok(own) = channels[index] else {
                return 12;
            };
            let wanted = (self.wanted)(wanted);
            match self.reaching(&own, bytes, index, wanted) {
                Some(found) => {
                    *count = found;
                    0
                }
                None => 253,
            }
        }

        /// The answer of the lowest delivered count that reaches the wanted T.
        fn reaching(
            &self,
            own: &Constants,
            bytes: &[u8],
            index: usize,
            wanted: u32,
        ) -> Option<u16> {
            let (first, last) = (self.ends)(own);
            let t = |count: i128| (self.temperature)(own, bytes, index, count as u16);
            let (mut low, mut high) = (first, last + 1);
            while low < high {
                let middle = floor(low + high, 2);
                if t(middle) < wanted as i128 {
                    low = middle + 1;
                } else {
                    high = middle;
                }
            }
            if low > last {
                return None;
            }
            (self.found)(low as u16, t(low), wanted)
        }
    }

    /// States with what lookups leave at them: made-up ones, and those of a run.
    fn asked_states() -> Vec<(Vec<u8>, Answered)> {
        let mut counters = Counters::new();
        let made_up = (0..8).map(|seed| checked_lookups(seed, &mut counters).unwrap());
        let mut all: Vec<(Vec<u8>, Answered)> = made_up.collect();
        let run = checked_lookup_run(1, &mut counters).unwrap();
        all.extend(
            run.steps
                .into_iter()
                .map(|step| (step.state, step.answered)),
        );
        all
    }

    /// Whether a lookup leaves something else at one of these states.
    fn lookup_differs(
        asked: &[(Vec<u8>, Answered)],
        lookup: impl Fn(&[u8], u32, u32, &mut u16) -> u8,
    ) -> bool {
        let mut all = asked.iter();
        all.any(|(state, answered)| same_answers("", state, answered, &lookup).is_err())
    }

    /// Whether each of these lookups does, and the right one does not.
    fn check_wrong_lookups(lookups: Vec<Lookup>) {
        let asked = asked_states();
        let differs = |lookup: Lookup| {
            lookup_differs(&asked, |state, channel, wanted, count| {
                lookup.of(state, channel, wanted, count)
            })
        };
        assert!(!differs(RIGHT));
        for (index, lookup) in lookups.into_iter().enumerate() {
            assert!(differs(lookup), "way {index}");
        }
    }

    #[test]
    fn lookups_differ_where_another_answer_comes_first() {
        let refusals: [fn(&[u8], u32, u8) -> u8; 6] = [
            // 11 before 254, 12 before 11, 12 for 11, bytes behind a state refused, a scan with nothing kept refused,
            // no flag looked at.
            |_, channel, answer| match (1..=22).contains(&channel) {
                true => answer,
                false => 11,
            },
            |bytes, _, answer| match answer {
                11 if bytes[11_783] == 0 => 12,
                answer => answer,
            },
            |_, _, answer| answer + u8::from(answer == 11),
            |bytes, _, answer| match bytes.len() {
                12_576 => answer,
                _ => 254,
            },
            |bytes, _, answer| match answer {
                12 if bytes[1_421] == 1 && bytes[11_783] == 0 => 254,
                answer => answer,
            },
            |bytes, _, answer| match answer {
                12 if bytes[11_783] == 1 => 253,
                answer => answer,
            },
        ];
        let lookups = refusals.map(|refusal| Lookup { refusal, ..RIGHT });
        check_wrong_lookups(lookups.to_vec());
    }

    #[test]
    fn lookups_differ_where_a_count_is_left_out_or_another_is_taken() {
        let ends: [fn(&Constants) -> (i128, i128); 4] = [
            // Not the first, not the last, not 0, not 65,535.
            |own| ((RIGHT.ends)(own).0 + 1, (RIGHT.ends)(own).1),
            |own| ((RIGHT.ends)(own).0, (RIGHT.ends)(own).1 - 1),
            |own| ((RIGHT.ends)(own).0.max(1), (RIGHT.ends)(own).1),
            |own| ((RIGHT.ends)(own).0, (RIGHT.ends)(own).1.min(65_534)),
        ];
        let founds: [fn(u16, i128, u32) -> Option<u16>; 3] = [
            // The lowest count that reaches the wanted T, one that is at most a unit above it, and the count before.
            |count, _, _| Some(count),
            |count, t, wanted| (t - wanted as i128 <= 1).then_some(count),
            |count, t, wanted| (t == wanted as i128).then(|| count.saturating_sub(1)),
        ];
        let mut lookups = ends.map(|ends| Lookup { ends, ..RIGHT }).to_vec();
        lookups.extend(founds.map(|found| Lookup { found, ..RIGHT }));
        check_wrong_lookups(lookups);
    }

    #[test]
    fn lookups_differ_where_t_or_the_channel_is_another() {
        let temperatures: [fn(&Constants, &[u8], usize, u16) -> i128; 3] = [
            // With scan bias, without TNL, and with one term rounded down.
            |own, bytes, channel, count| {
                let t = (RIGHT.temperature)(own, bytes, channel, count);
                let bias = open_bias(&bytes[3_326..11_777]).unwrap();
                bias.pair(channel, 0).biased(t)
            },
            |own, bytes, channel, count| {
                let level = Constants {
                    nonlinearity: 0,
                    ..*own
                };
                (RIGHT.temperature)(&level, bytes, channel, count)
            },
            |own, bytes, channel, count| {
                let n = own.slope * count as i128 - own.base;
                let parts = n * own.rise;
                let up = r(parts, own.difference) - floor(parts, own.difference);
                (RIGHT.temperature)(own, bytes, channel, count) - up
            },
        ];
        let cuts: [fn(u32) -> u32; 3] = [
            |wanted| wanted % (1 << 21),
            |wanted| wanted % (1 << 24),
            |wanted| wanted % (1 << 31),
        ];
        let of_temperature = |temperature| Lookup {
            temperature,
            ..RIGHT
        };
        let mut lookups = temperatures.map(of_temperature).to_vec();
        lookups.extend(cuts.map(|wanted| Lookup { wanted, ..RIGHT }));
        // Channels counted from 0.
        lookups.push(Lookup {
            index: |channel| channel as usize,
            ..RIGHT
        });
        check_wrong_lookups(lookups);
    }

    /// T of a count by the numbers of a channel, with a mistake in a rounding.
    fn mistaken_temperature(own: &Constants, count: u16, mistake: RoundingMistake) -> i128 {
        let (tc, tnl) = (own.cold_temperature, own.nonlinearity);
        let parts = ChannelParts::of_numbers(tc, own.rise, tnl, own.difference);
        let n = own.slope * count as i128 - own.base;
        parts.temperature(n, Some(mistake))
    }

    #[test]
    fn lookups_behind_halves_differ_by_each_mistake_in_t() {
        let mut counters = Counters::new();
        let mut asked = Vec::new();
        for seed in 0..24 {
            let run = checked_lookup_run(seed, &mut counters).unwrap();
            let steps = run.steps.into_iter();
            asked.extend(steps.map(|step| (step.state, step.answered)));
        }
        let wrongs: [fn(&Constants, &[u8], usize, u16) -> i128; 6] = [
            |own, _, _, count| mistaken_temperature(own, count, In(Place::X, Half::Up)),
            |own, _, _, count| mistaken_temperature(own, count, In(Place::X, Half::Down)),
            |own, _, _, count| mistaken_temperature(own, count, In(Place::LinearPart, Half::Up)),
            |own, _, _, count| mistaken_temperature(own, count, In(Place::LinearPart, Half::Down)),
            |own, _, _, count| mistaken_temperature(own, count, In(Place::Bend, Half::Up)),
            |own, _, _, count| mistaken_temperature(own, count, In(Place::Bend, Half::Down)),
        ];
        for (index, temperature) in wrongs.into_iter().enumerate() {
            let lookup = Lookup {
                temperature,
                ..RIGHT
            };
            let differs = lookup_differs(&asked, |state, channel, wanted, count| {
                lookup.of(state, channel, wanted, count)
            });
            assert!(differs, "way {index}");
        }
    }

    #[test]
    fn lookups_differ_where_a_refusal_writes_a_count() {
        let asked = asked_states();
        for number in [11, 12, 253, 254] {
            let differs = lookup_differs(&asked, |state, channel, wanted, count| {
                let answer = RIGHT.of(state, channel, wanted, count);
                if answer == number {
                    *count = 0;
                }
                answer
            });
            assert!(differs, "{number}");
        }
    }

    #[test]
    fn lookup_neighbours_differ_where_a_test_is_left_out() {
        let mut counters = Counters::new();
        // Those that differ in 0x37.
        let is_kept = |about: &str| about.contains("kept") || about.contains("0x37");
        let neighbours = state_neighbours(0).into_iter().enumerate();
        let probes: Vec<(Vec<u8>, Answered)> = neighbours
            .filter(|(_, neighbour)| is_kept(&neighbour.description))
            .map(|(index, neighbour)| {
                let answered = checked_probe(&neighbour.bytes, index, &mut counters).unwrap();
                (neighbour.bytes, answered)
            })
            .collect();
        let differs = |repair: fn(&mut StateValues)| {
            lookup_differs(&probes, |bytes, channel, wanted, count| {
                let answer = RIGHT.of(bytes, channel, wanted, count);
                if answer != 254 {
                    return answer;
                }
                let mut values = StateValues::decode(bytes);
                repair(&mut values);
                RIGHT.of(&values.encode(), channel, wanted, count)
            })
        };
        assert!(!differs(|_| {}));
        // Bytes that are taken as a state after a repair that no rule has.
        type Repair = fn(&mut StateValues);
        let repairs: [Repair; 12] = [
            |values| values.kept = values.kept.min(1),
            |values| {
                if values.kept == 0 {
                    values.channels = [ChannelValues::default(); 22];
                }
            },
            |values| {
                if values.accepted == 0 {
                    values.kept = 0;
                    values.channels = [ChannelValues::default(); 22];
                }
            },
            |values| values.channels[0].flag = values.channels[0].flag.min(4),
            |values| {
                let last = &mut values.channels[21];
                if last.flag > 0 {
                    *last = ChannelValues::flagged(last.flag);
                }
            },
            |values| {
                let own = &mut values.channels[21];
                own.tc = own.tc.clamp(11_166, 43_934);
            },
            |values| {
                let own = &mut values.channels[0];
                own.rise = own.rise.clamp(825_032, 1_357_512);
            },
            |values| {
                let own = &mut values.channels[21];
                own.tnl = own.tnl.clamp(-8_192, 8_192);
            },
            |values| {
                let own = &mut values.channels[0];
                own.d = own.d.max(1);
            },
            |values| {
                let own = &mut values.channels[21];
                own.d = own.d.min(65_535 * own.slope as u64);
            },
            |values| {
                let own = &mut values.channels[0];
                own.slope = own.slope.min(780_300);
                own.d = own.d.min(65_535 * own.slope as u64);
            },
            |values| {
                let own = &mut values.channels[21];
                own.base = own.base.min(51_136_960_500);
            },
        ];
        for (index, repair) in repairs.into_iter().enumerate() {
            assert!(differs(repair), "repair {index}");
        }
    }

    #[test]
    fn lookup_runs_differ_where_another_scan_is_kept() {
        let mut counters = Counters::new();
        let run = checked_lookup_run(2, &mut counters).unwrap();
        let ask = |state: &[u8], channel: u32, wanted: u32, count: &mut u16| {
            RIGHT.of(state, channel, wanted, count)
        };
        type FeedState = fn(&mut [u8], &[u8], &mut [u8]) -> u8;
        let finds = |feed: FeedState| {
            let fresh = state::fresh;
            let functions = StateFunctions { fresh, feed };
            same_lookup_run("", &run, &functions, ask).is_err()
        };
        assert!(!finds(state::feed));
        let wrongs: [FeedState; 4] = [
            // The channels of the scan before, the flags of the scan before, those of a scan that is refused with 7,
            // and TNL of the first pair.
            |memory, record, buffer| {
                let before = memory.to_vec();
                let answer = state::feed(memory, record, buffer);
                if answer == 0 && before[11_783] == 1 {
                    memory[11_780..12_576].copy_from_slice(&before[11_780..12_576]);
                }
                answer
            },
            |memory, record, buffer| {
                let before = StateValues::decode(memory);
                let answer = state::feed(memory, record, buffer);
                let mut values = StateValues::decode(memory);
                for (own, before) in values.channels.iter_mut().zip(before.channels) {
                    if answer == 0 && before.flag != 0 {
                        *own = before;
                    }
                }
                memory[..12_576].copy_from_slice(&values.encode());
                answer
            },
            |memory, record, buffer| {
                let answer = state::feed(memory, record, buffer);
                let mut after = memory.to_vec();
                if answer == 7 && state::feed(&mut after, record, &mut vec![0; 8_706]) == 0 {
                    memory[11_780..12_576].copy_from_slice(&after[11_780..12_576]);
                }
                answer
            },
            |memory, record, buffer| {
                let answer = state::feed(memory, record, buffer);
                let mut values = StateValues::decode(memory);
                let table = open(&values.table).unwrap();
                for (channel, own) in values.channels.iter_mut().enumerate() {
                    if answer == 0 && own.flag == 0 {
                        own.tnl = table.channels[channel].shelf_pairs[0].nonlinearity as i32;
                    }
                }
                memory[..12_576].copy_from_slice(&values.encode());
                answer
            },
        ];
        for (index, wrong) in wrongs.into_iter().enumerate() {
            assert!(finds(wrong), "feed {index}");
        }
    }

    #[test]
    fn one_number_differs_where_a_bit_of_it_is_not_looked_at() {
        assert!(!finds(
            |seed, counters| one_number(seed, outcomes, counters),
            1
        ));
        // The last bit of rj, of b and of the TNL of a pair, each in all channels.
        for (rows, step, place) in [(301..741, 20, 15), (301..741, 20, 13), (744..1_404, 6, 5)] {
            let wrong = |list: &FeedList| {
                let mut other = list.clone();
                for row in other.table[rows.clone()].chunks_mut(step) {
                    row[place] &= 0xfe;
                }
                outcomes(&other)
            };
            let found = finds(|seed, counters| one_number(seed, wrong, counters), 1);
            assert!(found, "byte {place} of {rows:?}");
        }
        // The last bit of D, of Wc × Ww and of Ac × Ww.
        for place in 0..3 {
            let scene = |own: &ChannelOfFeed, count: u16| {
                let (warm, cold) = (&own.sums.warm, &own.sums.cold);
                let (weights, base) = (cold.weight * warm.weight, cold.value * warm.weight);
                let mut numbers = [own.sums.difference(), weights, base];
                numbers[place] &= !1;
                let [d, weights, base] = numbers;
                let n = 12 * weights * count as i128 - base;
                own.temperature((n, d), own.tw(), own.tnl())
            };
            let wrong = |list: &FeedList| with_temperatures(list, list.feeds.len() - 1, scene);
            let found = finds(|seed, counters| one_number(seed, wrong, counters), 1);
            assert!(found, "number {place}");
        }
    }
}
