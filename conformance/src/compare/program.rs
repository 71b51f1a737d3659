//! A comparison as a program of its own.

use super::{Effort, Results};

/// How much to compare, or nothing where the words do not say.
fn effort() -> Option<Effort> {
    let words: Vec<String> = std::env::args().skip(1).collect();
    match words.iter().map(String::as_str).collect::<Vec<_>>()[..] {
        [] => Some(Effort::Bounded),
        ["--brief"] => Some(Effort::Brief),
        ["--full"] => Some(Effort::Full),
        _ => None,
    }
}

/// Compares; `--full` compares far more and says what came up, `--brief` far less.
/// The last line is `N passed, M failed`.
pub fn run(name: &str, compare: fn(&mut Results, Effort)) {
    let Some(effort) = effort() else {
        eprintln!("{name} [--brief | --full]");
        std::process::exit(2);
    };
    let mut results = Results::default();
    compare(&mut results, effort);
    if effort == Effort::Full {
        print!("covered:\n{}", results.tally);
    }
    println!("{} passed, {} failed", results.passed, results.failed);
    std::process::exit(i32::from(results.failed > 0));
}
