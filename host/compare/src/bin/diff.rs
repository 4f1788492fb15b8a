//! Differential runs: `diff [TIMES [SEED]]`. TIMES makes the random parts so many times as long (1), SEED begins them (1):
//! the same two numbers repeat the same run. Exits with 1 where a comparison failed.

use compare::judge::CLASSES;
use compare::run::{Run, grouped};
use compare::{proved, reference, sections};

fn main() {
    let numbers: Vec<String> = std::env::args().skip(1).collect();
    if numbers == ["--abort"] {
        return abort();
    }
    let number = |place: usize| match numbers.get(place) {
        None => 1,
        Some(word) => word.parse().unwrap_or_else(|_| {
            eprintln!("usage: diff [TIMES [SEED]]");
            std::process::exit(2);
        }),
    };
    let (times, seed) = (number(0), number(1));

    reference::hush_panics();
    let sides = if proved::HERE {
        "reference (release and debug), model, proved code"
    } else {
        "reference (release and debug), model; built without the proved code"
    };
    println!("sides: {sides}");
    let mut run = Run::default();
    sections::all(&mut run, times, seed);

    println!("differences from the reference, by their class in docs/DIFFERENCES.md:");
    for class in CLASSES {
        let count = run.classes.get(class).copied().unwrap_or(0);
        println!("  {class}: {}", grouped(count));
    }
    println!(
        "diff: {} comparisons, {} failed, times {times}, seed {seed}, {:.1} s",
        grouped(run.compared),
        grouped(run.failed),
        run.seconds()
    );
    if run.failed > 0 {
        std::process::exit(1);
    }
}

/// Lets the reference read a record that announces 2^45 ids, for which it asks 2^47 bytes: no machine has them, and the
/// process aborts. A test runs this to see it.
fn abort() {
    let mut bits = Vec::new();
    model::bits::delta(1 << 45, &mut bits);
    let payload = model::bits::bytes_of(&bits);
    let record = [&[payload.len() as u8][..], &payload].concat();
    let read = oracle::drive::read_record_unguarded(8, &record);
    println!("the reference came back: {read:?}");
}
