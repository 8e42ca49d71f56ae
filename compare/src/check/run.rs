//! Runs all checks under one seed, or one case again.

use std::panic::{catch_unwind, AssertUnwindSafe};

use super::biases::{check_bias, check_bias_neighbours};
use super::calls::check_call;
use super::counters::Counters;
use super::equations::check_equation;
use super::halves::check_halves;
use super::listings::check_listing;
use super::lists::check_list;
use super::lookups::{
    check_channels, check_lookup_bytes, check_lookup_neighbours, check_lookup_run, check_lookups,
};
use super::numbers::check_divisions;
use super::one_shelf::check_one_shelf;
use super::six_numbers::{check_every_count, check_one_number, check_six_numbers};
use super::states::{
    check_fresh, check_state_bytes, check_state_feed, check_state_neighbours, check_state_run,
};
use super::tables::{check_neighbours, check_table};
use super::thermometers::check_thermometer;
use super::twins::check_twin_lookups;
use super::zeros::check_zeros;
use crate::generator::random::case_seed;

/// Runs the case of a seed and counts what it met.
pub type Check = fn(u64, &mut Counters) -> Result<(), String>;

/// The kinds of cases, by the name that `--case` takes.
pub const KINDS: [(&str, Check); 27] = [
    ("division", check_divisions),
    ("neighbours", check_neighbours),
    ("table", check_table),
    ("bias_neighbours", check_bias_neighbours),
    ("bias", check_bias),
    ("thermometer", check_thermometer),
    ("list", check_list),
    ("zeros", check_zeros),
    ("one_shelf", check_one_shelf),
    ("halves", check_halves),
    ("one_call", check_call),
    ("listing", check_listing),
    ("fresh", check_fresh),
    ("state", check_state_feed),
    ("state_neighbours", check_state_neighbours),
    ("state_bytes", check_state_bytes),
    ("state_run", check_state_run),
    ("six_numbers", check_six_numbers),
    ("every_count", check_every_count),
    ("one_number", check_one_number),
    ("lookup_run", check_lookup_run),
    ("lookup_twins", check_twin_lookups),
    ("lookup", check_lookups),
    ("lookup_channels", check_channels),
    ("lookup_neighbours", check_lookup_neighbours),
    ("lookup_bytes", check_lookup_bytes),
    ("equation", check_equation),
];

pub const DEFAULT_SEED: u64 = 20_260_101;
pub const DEFAULT_FEEDS: u64 = 4_000;

/// One case that failed.
#[derive(Clone, Debug)]
pub struct Failure {
    pub kind: &'static str,
    pub seed: u64,
    pub what: String,
}

impl Failure {
    /// The command that repeats the failing case.
    pub fn command(&self) -> String {
        let (kind, seed) = (self.kind, self.seed);
        format!("cargo run --release --offline -- check --case {kind}:{seed}")
    }
}

/// Runs one case. A panic, of an overflow for instance, is a failure like any other.
pub fn run_case(
    kind: &'static str,
    check: Check,
    seed: u64,
    counters: &mut Counters,
) -> Result<(), Failure> {
    let result = catch_unwind(AssertUnwindSafe(|| check(seed, counters)));
    match result {
        Ok(Ok(())) => Ok(()),
        Ok(Err(what)) => Err(Failure { kind, seed, what }),
        Err(_) => Err(Failure {
            kind,
            seed,
            what: "a panic, printed above".to_string(),
        }),
    }
}

fn fed(counters: &Counters) -> u64 {
    let answers = ["accepted", "4", "5", "6", "7"];
    let counts = answers.map(|answer| counters.count("feed answer", answer));
    counts.iter().sum()
}

/// The seed of a case. The first neighbours are those of the bench table and bias file, and of a state
/// under them.
pub fn seed_of_case(kind: &str, master: u64, index: u64) -> u64 {
    if kind.ends_with("neighbours") && index == 0 {
        0
    } else {
        case_seed(master, index)
    }
}

/// Runs all kinds of cases under one seed until lists have at least this many feeds.
pub fn run_all(seed: u64, feeds: u64, counters: &mut Counters) -> Result<(), Failure> {
    for (number, (kind, check)) in KINDS.into_iter().enumerate() {
        let master = case_seed(seed, number as u64);
        let cases = match kind {
            "division" => feeds / 30 + 1,
            "neighbours" => feeds / 1_000 + 1,
            "bias_neighbours" => feeds / 2_000 + 1,
            "table" | "bias" => feeds / 3 + 1,
            "thermometer" => 5 * feeds,
            "zeros" => feeds / 100 + 1,
            "one_shelf" => feeds / 200 + 1,
            "halves" => feeds / 200 + 1,
            "one_call" => feeds / 80 + 1,
            "listing" => feeds / 25 + 1,
            "fresh" => feeds / 10 + 1,
            "state" => feeds / 8 + 1,
            "state_neighbours" => feeds / 4_000 + 1,
            "state_bytes" => feeds / 8_000 + 1,
            "state_run" => feeds / 100 + 1,
            "six_numbers" => feeds / 100 + 1,
            "every_count" => feeds / 2_000 + 1,
            "one_number" => feeds / 1_000 + 1,
            "lookup_run" => feeds / 100 + 1,
            "lookup_twins" => feeds / 400 + 1,
            "lookup" => feeds / 50 + 1,
            "lookup_channels" => feeds / 2_000 + 1,
            "lookup_neighbours" => feeds / 4_000 + 1,
            "lookup_bytes" => feeds / 8_000 + 1,
            "equation" => feeds / 20 + 1,
            _ => u64::MAX,
        };
        for index in 0..cases {
            if kind == "list" && fed(counters) >= feeds {
                break;
            }
            run_case(kind, check, seed_of_case(kind, master, index), counters)?;
        }
    }
    Ok(())
}

#[cfg(test)]
mod tests {
    use super::*;

    #[test]
    fn a_failure_says_what_differed_and_how_to_repeat_it() {
        let mut counters = Counters::new();
        let differing: Check = |seed, _| Err(format!("{seed} differs"));
        let failure = run_case("list", differing, 12, &mut counters).unwrap_err();
        assert_eq!(failure.what, "12 differs");
        let command = "cargo run --release --offline -- check --case list:12";
        assert_eq!(failure.command(), command);
        let overflowing: Check = |_, _| panic!("an overflow");
        let failure = run_case("table", overflowing, 3, &mut counters).unwrap_err();
        assert_eq!((failure.kind, failure.seed), ("table", 3));
        let passing: Check = |_, _| Ok(());
        assert!(run_case("table", passing, 3, &mut counters).is_ok());
    }

    #[test]
    fn a_small_run_passes_and_repeats_itself() {
        let mut first = Counters::new();
        run_all(5, 60, &mut first).unwrap();
        let mut second = Counters::new();
        run_all(5, 60, &mut second).unwrap();
        assert_eq!(first.lines(), second.lines());
    }
}
