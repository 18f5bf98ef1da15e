//! Cases of one operation, compared one by one.

use crate::ours;
use expected::case::Case;
use expected::generate;
use expected::operations::Operation;
use expected::outcome::{difference, expected, Answer};
use expected::rng::Rng;
use std::time::Instant;

/// So many differences of an operation are printed; all are counted.
const PRINTED: usize = 5;

#[derive(Default)]
pub struct Tally {
    pub cases: usize,
    pub differences: usize,
    /// accepted calls, then those refused by 1, 2, ..
    answers: [usize; 12],
}

impl Tally {
    /// Compares a case and counts it; a difference is printed with the line that makes it again.
    pub fn compare(&mut self, case: &Case) {
        let expected = expected(case);
        let got = ours::answer(case);
        self.cases += 1;
        if let Answer::Refused { number, .. } = expected.answer {
            self.answers[number as usize] += 1;
        } else {
            self.answers[0] += 1;
        }
        if let Some(what) = difference(&expected, &got) {
            self.differences += 1;
            if self.differences <= PRINTED {
                println!("difference: {what}\n{}", case.text());
            }
        }
    }

    fn line(&self, name: &str, seconds: f64) -> String {
        let refused: String =
            (1..12).filter(|n| self.answers[*n] > 0).map(|n| format!(", {} refused by {n}", self.answers[n])).collect();
        let (cases, accepted, differences) = (self.cases, self.answers[0], self.differences);
        format!("{name}: {cases} cases, {accepted} accepted{refused}: {differences} differences, {seconds:.1} s")
    }
}

/// Every short case of an operation and `count` random ones.
pub fn operation(op: &'static Operation, seed: u64, count: u64) -> Tally {
    let start = Instant::now();
    let mut tally = Tally::default();
    generate::short(op, seed, |case| tally.compare(&case));
    for number in 0..count {
        let mut rng = Rng::new(seed, op.code, number);
        let size = generate::size(op, &mut rng);
        tally.compare(&generate::random(op, &mut rng, size));
    }
    println!("{}", tally.line(op.name, start.elapsed().as_secs_f64()));
    tally
}
