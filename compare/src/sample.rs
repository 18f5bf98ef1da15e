//! A stored sample: small cases and what has to come out, from the refusals and the source alone. Without the library.
//!
//!     sample SEED COUNT CASES ANSWERS [OPERATION ..]    COUNT cases an operation and their answers, a line each, to
//!                                                       two files

use expected::case::{Case, SENTINEL};
use expected::generate::{self, Size};
use expected::operations::{known, Gives, OPERATIONS};
use expected::outcome::{expected, told, Answer, Outcome};
use expected::rng::Rng;
use expected::words::bits;
use std::process::ExitCode;

fn main() -> ExitCode {
    std::panic::set_hook(Box::new(|_| ()));
    let arguments: Vec<String> = std::env::args().skip(1).collect();
    let written = match &arguments[..] {
        [seed, count, cases, answers, names @ ..] => match (seed.parse(), count.parse()) {
            (Ok(seed), Ok(count)) => write(seed, count, cases, answers, names),
            _ => Err("a seed and a count are numbers".to_string()),
        },
        _ => Err("sample SEED COUNT CASES ANSWERS [OPERATION ..]".to_string()),
    };
    match written {
        Ok(()) => ExitCode::SUCCESS,
        Err(cause) => {
            eprintln!("{cause}");
            ExitCode::from(2)
        }
    }
}

fn write(seed: u64, count: u64, cases: &str, answers: &str, names: &[String]) -> Result<(), String> {
    known(names)?;
    let (mut questions, mut replies) = (String::new(), String::new());
    let asked = |name: &str| names.is_empty() || names.iter().any(|n| n == name);
    for op in OPERATIONS.iter().filter(|op| asked(op.name)) {
        for number in 0..count {
            let mut rng = Rng::new(seed, op.code, number);
            // Two places more may be lent: 64 at most, and 8 times as many of scratch.
            let announced = rng.pick(&[8, 16, 16, 62]);
            let case = generate::random(op, &mut rng, Size { operand: 16, announced, more: 2 });
            questions += &(case.packed() + "\n");
            replies += &(reply(&case, &expected(&case))? + "\n");
        }
    }
    let put = |name: &str, text: String| std::fs::write(name, text).map_err(|cause| format!("{name}: {cause}"));
    put(cases, questions)?;
    put(answers, replies)
}

/// The line that a program which replays the case has to print.
fn reply(case: &Case, outcome: &Outcome) -> Result<String, String> {
    let hex = |x: &f64| format!(" {:016x}", bits(*x));
    let places: String = outcome.out.iter().map(hex).collect();
    let done = match (&outcome.answer, case.op.gives) {
        (Answer::Failed(cause), _) => return Err(format!("{cause}\n{}", case.text())),
        (Answer::Refused { .. }, Gives::Polynomial) => format!("{}{places}", told(&outcome.answer)),
        (Answer::Refused { .. }, _) => told(&outcome.answer),
        (Answer::Done(word), Gives::Polynomial) => format!("done {word:016x}{places}"),
        (Answer::Done(_), Gives::Float) => format!("done{places}"),
        (Answer::Done(word), Gives::Line) => format!("done {}{places} {}", word.min(&1), word.saturating_sub(1)),
    };
    if case.op.gives != Gives::Polynomial {
        return Ok(done);
    }
    let zeros = outcome.scratch.iter().take_while(|x| x.to_bits() == 0).count();
    let untouched = outcome.scratch.iter().rev().take_while(|x| x.to_bits() == SENTINEL).count();
    Ok(format!("{done} {zeros} {untouched}"))
}
