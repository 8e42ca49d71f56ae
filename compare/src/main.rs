//! The program: `compare check [--seed S] [--feeds N] [--case KIND:SEED]`, and with the feature
//! `proved` also `compare proved [--seed S] [--thousands N] [--case KIND:SEED]`.

use std::process::ExitCode;

use compare::check::counters::Counters;
use compare::check::run::{run_all, run_case, Failure, DEFAULT_FEEDS, DEFAULT_SEED, KINDS};

const USAGE: &str = "usage: compare check [--seed S] [--feeds N] [--case KIND:SEED]
       compare proved [--seed S] [--thousands N] [--case KIND:SEED]   (feature proved)";

struct Options {
    seed: u64,
    feeds: u64,
    /// How many thousand cases the proved functions are compared on.
    thousands: u64,
    /// One case to run again: its kind and seed.
    case: Option<(String, u64)>,
}

fn options(arguments: &[String]) -> Option<Options> {
    let mut options = Options {
        seed: DEFAULT_SEED,
        feeds: DEFAULT_FEEDS,
        thousands: 10,
        case: None,
    };
    for pair in arguments.chunks(2) {
        let [name, value] = pair else {
            return None;
        };
        match name.as_str() {
            "--seed" => options.seed = value.parse().ok()?,
            "--feeds" => options.feeds = value.parse().ok()?,
            "--thousands" => options.thousands = value.parse().ok()?,
            "--case" => {
                let (kind, seed) = value.split_once(':')?;
                options.case = Some((kind.to_string(), seed.parse().ok()?));
            }
            _ => return None,
        }
    }
    Some(options)
}

fn report(failure: &Failure) -> ExitCode {
    println!(
        "failed: {} {}: {}",
        failure.kind, failure.seed, failure.what
    );
    println!("repeat with: {}", failure.command());
    ExitCode::from(1)
}

/// Prints how often each class was met. A class that was never met is a failure.
fn verdict(counters: &Counters, command: &str) -> ExitCode {
    for line in counters.lines() {
        println!("{line}");
    }
    let missing = counters.missing();
    if !missing.is_empty() {
        println!("failed: never met: {}", missing.join("; "));
        println!("repeat with: {command}");
        return ExitCode::from(1);
    }
    println!("passed");
    ExitCode::SUCCESS
}

fn check(options: &Options) -> ExitCode {
    let mut counters = Counters::new();
    if let Some((kind, seed)) = &options.case {
        println!("case {kind}:{seed}");
        let Some((kind, check)) = KINDS.into_iter().find(|(name, _)| name == kind) else {
            println!("{USAGE}");
            return ExitCode::from(2);
        };
        return match run_case(kind, check, *seed, &mut counters) {
            Ok(()) => {
                println!("passed");
                ExitCode::SUCCESS
            }
            Err(failure) => report(&failure),
        };
    }
    println!("seed {} feeds {}", options.seed, options.feeds);
    if let Err(failure) = run_all(options.seed, options.feeds, &mut counters) {
        return report(&failure);
    }
    let (seed, feeds) = (options.seed, options.feeds);
    let command = format!("cargo run --release --offline -- check --seed {seed} --feeds {feeds}");
    verdict(&counters, &command)
}

#[cfg(feature = "proved")]
fn proved(options: &Options) -> ExitCode {
    use compare::proved;
    let mut counters = Counters::new();
    let (seed, thousands) = (options.seed, options.thousands);
    let result = match &options.case {
        Some((kind, seed)) => {
            println!("case {kind}:{seed}");
            match proved::KINDS.into_iter().find(|(name, _, _)| name == kind) {
                Some((kind, case, _)) => proved::run_case(kind, case, *seed, &mut counters),
                None => Err(USAGE.to_string()),
            }
        }
        None => {
            println!("seed {seed} thousands {thousands}");
            proved::run(seed, thousands, &mut counters)
        }
    };
    match result {
        Ok(()) if options.case.is_some() => {
            println!("passed");
            ExitCode::SUCCESS
        }
        Ok(()) => {
            let command = format!("tools/compare --seed {seed} --thousands {thousands}");
            verdict(&counters, &command)
        }
        Err(what) => {
            println!("{what}");
            ExitCode::from(1)
        }
    }
}

#[cfg(not(feature = "proved"))]
fn proved(_: &Options) -> ExitCode {
    println!("built without the feature `proved`");
    ExitCode::from(2)
}

fn main() -> ExitCode {
    let arguments: Vec<String> = std::env::args().skip(1).collect();
    let (command, rest) = match arguments.split_first() {
        Some((command, rest)) => (command.as_str(), rest),
        None => ("", &[][..]),
    };
    match (command, options(rest)) {
        ("check", Some(options)) => check(&options),
        ("proved", Some(options)) => proved(&options),
        _ => {
            println!("{USAGE}");
            ExitCode::from(2)
        }
    }
}
