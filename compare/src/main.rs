//! Compares the library with the Rust that it is a rewrite of.
//!
//!     compare SEED COUNT [OPERATION]    every short case and COUNT random ones of each operation, or of one
//!     replay FILE                       the cases of a file, a line each: those that a difference printed, or a stored
//!                                       sample's
//!
//! The last line says how many cases were compared and how many differ. The exit status is 1 where one differs or none
//! was compared.

mod cells;
mod check;
#[cfg(far)]
mod far;
mod ours;
/// The library's wrappers, as its users have them.
#[path = "../../face/taylor.rs"]
#[allow(dead_code)]
mod taylor;

use check::Tally;
use expected::case::Case;
use expected::operations::{known, OPERATIONS};
use std::process::ExitCode;

fn main() -> ExitCode {
    // A panic of the source is told as a difference.
    std::panic::set_hook(Box::new(|_| ()));
    let arguments: Vec<String> = std::env::args().skip(1).collect();
    let words: Vec<&str> = arguments.iter().map(String::as_str).collect();
    match act(&words) {
        Ok(all_equal) => ExitCode::from(u8::from(!all_equal)),
        Err(cause) => {
            eprintln!("{cause}");
            ExitCode::from(2)
        }
    }
}

/// Whether all is equal.
fn act(words: &[&str]) -> Result<bool, String> {
    match words[..] {
        ["compare", seed, count] => compare(seed, count, None),
        ["compare", seed, count, name] => compare(seed, count, Some(name)),
        ["replay", file] => replay(file),
        _ => Err("compare SEED COUNT [OPERATION], or replay FILE".to_string()),
    }
}

fn number(text: &str) -> Result<u64, String> {
    text.parse().map_err(|_| format!("{text} is no number"))
}

fn compare(seed: &str, count: &str, name: Option<&str>) -> Result<bool, String> {
    let (seed, count) = (number(seed)?, number(count)?);
    known(name.as_slice())?;
    let mut tallies = vec![];
    for op in OPERATIONS.iter().filter(|op| name.is_none_or(|name| name == op.name)) {
        if ours::has(op.name) {
            tallies.push(check::operation(op, seed, count));
        } else {
            println!("{}: not in the archive, not compared", op.name);
        }
    }
    let least = tallies.iter().map(|t| t.cases).min().unwrap_or(0);
    let all: usize = tallies.iter().map(|t| t.cases).sum();
    let differences: usize = tallies.iter().map(|t| t.differences).sum();
    println!("{} operations, at least {least} cases each, {all} in all: {differences} differences", tallies.len());
    Ok(differences == 0 && least > 0)
}

fn replay(file: &str) -> Result<bool, String> {
    let text = std::fs::read_to_string(file).map_err(|cause| format!("{file}: {cause}"))?;
    let (mut tally, mut left) = (Tally::default(), 0);
    for line in text.lines().filter(|line| !line.starts_with("difference:")) {
        let case = Case::read(line).ok_or_else(|| format!("no case: {line}"))?;
        if ours::has(case.op.name) {
            tally.compare(&case);
        } else {
            left += 1;
        }
    }
    println!("{left} cases of operations that the archive lacks, {} compared: {} differences", tally.cases, tally.differences);
    Ok(tally.differences == 0 && tally.cases > 0)
}
