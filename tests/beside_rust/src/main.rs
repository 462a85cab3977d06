//! Holds the proved code against the published Rust, in one process. See README.md.
mod bases;
mod battery;
mod calls;
mod forms;
mod input;
mod kinds;
mod make;
mod model;
mod ours;
mod padded;
mod points;
mod random;
mod raw;
mod report;
mod rng;
mod run;
mod short;
mod slip;
mod told;

use std::{env, panic, process::ExitCode};

use points::Point;
use run::Run;
use slip::{Slip, What};

const ROUNDS: u64 = 200_000;
/// Rounds of the calls that tell of long counts, alone.
const COUNT_ROUNDS: u64 = 200_000;
const SEED: u64 = 1;
/// Enough for every slip to find its answer.
const ROUNDS_OF_A_SLIP: u64 = 2_000;
const USAGE: &str =
    "usage: beside_rust [ROUNDS] [--counts ROUNDS] [--seed N] [--slip POINT:WHAT | --slip all]
  POINT is an entry point's name, WHAT is value, long, number or place";

enum Task {
    Compare,
    Slip(Slip),
    AllSlips,
}

fn main() -> ExitCode {
    quiet_about_expected_panics();
    let Some(Asked { task, rounds, counts, seed }) = arguments() else {
        eprintln!("{USAGE}");
        return ExitCode::from(2);
    };
    let good = match task {
        Task::Compare => compared(rounds.unwrap_or(ROUNDS), counts, seed),
        Task::Slip(slip) => slipped(rounds.unwrap_or(ROUNDS_OF_A_SLIP), seed, slip, false),
        Task::AllSlips => all_slips_seen(rounds.unwrap_or(ROUNDS_OF_A_SLIP), seed),
    };
    if good { ExitCode::SUCCESS } else { ExitCode::FAILURE }
}

struct Asked {
    task: Task,
    rounds: Option<u64>,
    counts: u64,
    seed: u64,
}

/// The published `assert!` on 30 bits is a listed difference; any other panic is told.
fn quiet_about_expected_panics() {
    let tell = panic::take_hook();
    panic::set_hook(Box::new(move |info| {
        if !info.to_string().contains("doesn't fit in 30 bits") {
            tell(info);
        }
    }));
}

fn arguments() -> Option<Asked> {
    let mut asked = Asked { task: Task::Compare, rounds: None, counts: COUNT_ROUNDS, seed: SEED };
    let mut words = env::args().skip(1);
    while let Some(word) = words.next() {
        match word.as_str() {
            "--counts" => asked.counts = words.next()?.parse().ok()?,
            "--seed" => asked.seed = words.next()?.parse().ok()?,
            "--slip" => asked.task = slip_named(&words.next()?)?,
            _ => asked.rounds = Some(word.parse().ok()?),
        }
    }
    Some(asked)
}

fn slip_named(name: &str) -> Option<Task> {
    if name == "all" {
        return Some(Task::AllSlips);
    }
    let (point, what) = name.split_once(':')?;
    let point = *Point::ALL.iter().find(|p| p.label() == point)?;
    let what = *What::ALL.iter().find(|w| w.label() == what)?;
    Some(Task::Slip(Slip::new(point, what)))
}

/// The whole comparison; true if nothing is unlisted and all was met that must be.
fn compared(rounds: u64, counts: u64, seed: u64) -> bool {
    let mut run = Run::new(seed, None, false);
    run.all_short();
    run.all_forms();
    run.made_up(rounds);
    run.padded(counts);
    report::whole(&run)
}

/// The made-up part with one spoilt answer; the run fails, as it must.
fn slipped(rounds: u64, seed: u64, slip: Slip, quiet: bool) -> bool {
    let run = slip_run(rounds, seed, slip, quiet);
    println!("{} unlisted differences", run.unlisted);
    run.unlisted == 0
}

fn slip_run(rounds: u64, seed: u64, slip: Slip, quiet: bool) -> Run {
    let mut run = Run::new(seed, Some(slip), quiet);
    run.known_differences();
    run.made_up(rounds);
    run
}

/// Every slip in turn; true if each is seen, and seen once.
fn all_slips_seen(rounds: u64, seed: u64) -> bool {
    let mut good = true;
    for &point in Point::ALL {
        for what in What::ALL {
            let run = slip_run(rounds, seed, Slip::new(point, what), true);
            let spoilt = run.slip.is_some_and(|s| s.done());
            let outcome = match (spoilt, run.unlisted) {
                (false, 0) => "no such answer".to_string(),
                (true, 1) => "seen".to_string(),
                (_, differences) => format!("WRONG, {differences} unlisted differences"),
            };
            good &= !outcome.starts_with("WRONG");
            println!("{}:{}: {outcome}", point.label(), what.label());
        }
    }
    good
}

#[cfg(test)]
mod tests {
    use super::*;

    #[test]
    fn every_slip_is_seen() {
        assert!(all_slips_seen(ROUNDS_OF_A_SLIP, SEED));
    }

    #[test]
    fn one_slip_fails_a_run() {
        let slip = Slip::new(Point::Slots, What::Value);
        assert!(!slipped(ROUNDS_OF_A_SLIP, SEED, slip, true));
    }

    /// It meets no listed difference.
    #[test]
    fn a_run_without_comparisons_fails() {
        assert!(!report::whole(&Run::new(SEED, None, true)));
    }
}
