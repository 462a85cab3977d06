//! What a run prints at its end.
use crate::{
    kinds::KINDS,
    points::Point,
    run::{Run, Tally},
    told::NAMES,
};

/// Prints the tables; true if nothing is unlisted, and every answer, form of a count and listed kind was
/// met.
pub fn whole(run: &Run) -> bool {
    by_entry_point(run);
    let all_given = answers(run);
    let all_forms = run.forms.all_met();
    let all_met = differences(run);
    println!();
    println!("differences on no list: {}", run.unlisted);
    run.unlisted == 0 && all_given && all_forms && all_met
}

fn tallies(run: &Run) -> impl Iterator<Item = (&Point, &Tally)> {
    Point::ALL.iter().zip(&run.tally)
}

fn by_entry_point(run: &Run) {
    println!(
        "                           with the published Rust                 with the model of document 01"
    );
    println!(
        "entry point:              comparisons,    agreed, listed differences   comparisons,    agreed"
    );
    let mut total = Tally::default();
    for (point, tally) in tallies(run) {
        line(point.label(), tally);
        total.rust += tally.rust;
        total.rust_agreed += tally.rust_agreed;
        total.rust_listed += tally.rust_listed;
        total.model += tally.model;
        total.model_agreed += tally.model_agreed;
    }
    line("total", &total);
}

fn line(label: &str, t: &Tally) {
    println!(
        "{:24} {:>12} {:>10} {:>19} {:>14} {:>9}",
        format!("{label}:"),
        t.rust,
        t.rust_agreed,
        t.rust_listed,
        t.model,
        t.model_agreed
    );
}

/// Prints the answers given; true if each of document 01's was.
fn answers(run: &Run) -> bool {
    println!();
    println!("answers of the proved code:");
    let mut all_given = true;
    for (point, tally) in tallies(run) {
        let given = tally.answers.iter().zip(NAMES).filter(|(times, _)| **times > 0);
        let given: String = given.map(|(times, name)| format!(" {name} {times}")).collect();
        println!("{:24}{given}", format!("{}:", point.label()));
        let met = |number: u8| tally.answers[number as usize] > 0;
        for &number in point.refusals().iter().chain(&[0]).filter(|&&n| !met(n)) {
            println!("   AN ANSWER OF DOCUMENT 01 WAS NEVER GIVEN: {}", NAMES[number as usize]);
            all_given = false;
        }
    }
    all_given
}

fn differences(run: &Run) -> bool {
    println!();
    println!("listed differences, the proved code as document 01 has it:");
    let mut all_met = true;
    for (kind, seen) in KINDS.iter().zip(&run.seen) {
        println!("{}: {} times", kind.name, seen.times);
        println!("   {}", kind.reason);
        match &seen.smallest {
            Some((_, text)) => println!("   smallest: {text}"),
            None => {
                println!("   A LISTED DIFFERENCE WAS NEVER SEEN");
                all_met = false;
            }
        }
    }
    all_met
}
