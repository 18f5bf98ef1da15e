//! Stored cases at the edges, and what has to come out, from document 01 and the source alone. Without the library.
//!
//!     stored recipes SEED COUNT CASES ANSWERS    recipes in lent buffers, COUNT of them random, a line each
//!     stored sheets SEED COUNT CASES ANSWERS     sheets, COUNT of them random, each behind a line of its length

use expected::lending::Lending;
use expected::rng::Rng;
use expected::{recipe_edges, sheet_edges, sheets};
use std::process::ExitCode;

fn main() -> ExitCode {
    let arguments: Vec<String> = std::env::args().skip(1).collect();
    let words: Vec<&str> = arguments.iter().map(String::as_str).collect();
    match write(&words) {
        Ok(()) => ExitCode::SUCCESS,
        Err(cause) => {
            eprintln!("{cause}");
            ExitCode::from(2)
        }
    }
}

fn write(words: &[&str]) -> Result<(), String> {
    let [what, seed, count, cases, answers] = words[..] else {
        return Err("stored recipes|sheets SEED COUNT CASES ANSWERS".to_string());
    };
    let number = |text: &str| text.parse::<u64>().map_err(|_| format!("{text} is no number"));
    let (seed, count) = (number(seed)?, number(count)?);
    let (questions, replies) = match what {
        "recipes" => recipes(seed, count),
        "sheets" => sheets(seed, count),
        _ => return Err(format!("no stored {what}")),
    };
    let put = |name: &str, text: Vec<u8>| std::fs::write(name, text).map_err(|cause| format!("{name}: {cause}"));
    put(cases, questions)?;
    put(answers, replies)
}

/// Cases and replies, a line each: those that fit the memory of `replay_recipes`.
fn recipes(seed: u64, count: u64) -> (Vec<u8>, Vec<u8>) {
    let mut all = recipe_edges::all();
    all.retain(|lending| lending.recipe.coefficients.len() <= 1024);
    all.extend((0..count).map(|case| small(&mut Rng::new(seed, b'r', case))));
    let lines = |of: fn(&Lending) -> String| all.iter().map(|lending| of(lending) + "\n").collect::<String>().into_bytes();
    (lines(Lending::text), lines(Lending::reply))
}

/// A random recipe that fits the program's memory, in buffers that are now and then one short.
fn small(rng: &mut Rng) -> Lending {
    loop {
        let recipe = sheets::recipe(rng);
        if recipe.coefficients.len() > 64 {
            continue;
        }
        let mut lending = Lending::exact(recipe);
        for lent in [&mut lending.pool, &mut lending.words, &mut lending.scratch] {
            *lent = (*lent + rng.pick(&[0, 1, 1, 1, 1, 1, 1, 2, 3, 4])).saturating_sub(1);
        }
        if lending.pool <= 128 {
            return lending;
        }
    }
}

/// Sheets, and what is printed for each: those that fit the memory of `replay_sheets`.
fn sheets(seed: u64, count: u64) -> (Vec<u8>, Vec<u8>) {
    let mut all = sheet_edges::all();
    all.retain(|sheet| sheet.len() <= 65536);
    all.extend((0..count).map(|case| sheets::random(&mut Rng::new(seed, b's', case))));
    let questions = all.iter().flat_map(|sheet| [format!("{:016x}\n", sheet.len()).into_bytes(), sheet.clone()].concat());
    (questions.collect(), all.iter().flat_map(|sheet| sheets::printed(sheet).into_bytes()).collect())
}
