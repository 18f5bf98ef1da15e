//! A recipe with the lengths of the buffers lent to its run: its text, and what has to come out, by the check and the
//! source alone.

use crate::case::SENTINEL;
use crate::recipes::{check, values, Recipe, Refused};
use crate::refusals::PLACE;
use crate::words::{bits, Header};

#[derive(Clone)]
pub struct Lending {
    pub recipe: Recipe,
    pub pool: usize,
    pub words: usize,
    pub scratch: usize,
}

/// What the check answers: what every step announces, and how many coefficients the inputs have.
struct Told {
    steps: Vec<Header>,
    inputs: usize,
}

impl Told {
    fn of(recipe: &Recipe) -> Result<Told, Refused> {
        let mut known = check(&recipe.headers, &recipe.steps, recipe.edition)?;
        let steps = known.split_off(recipe.headers.len());
        Ok(Told { steps, inputs: known.iter().map(Header::count).sum() })
    }

    fn pool(&self) -> usize {
        self.steps.iter().map(Header::count).sum()
    }

    fn largest(&self) -> usize {
        self.steps.iter().map(Header::count).max().unwrap_or(0)
    }
}

/// Equal neighbours once, with their count.
fn places(words: &[u64]) -> String {
    let show = |run: &[u64]| match run.len() {
        1 => format!(" {:016x}", run[0]),
        n => format!(" {:016x}*{n}", run[0]),
    };
    words.chunk_by(|a, b| a == b).map(show).collect()
}

/// Words, then the sentinel up to so many places.
fn filled(mut words: Vec<u64>, lent: usize) -> Vec<u64> {
    words.resize(lent, SENTINEL);
    words
}

impl Lending {
    /// Exactly what a run takes; of a recipe that the check refuses, a few places.
    pub fn exact(recipe: Recipe) -> Lending {
        let words = recipe.steps.len();
        match Told::of(&recipe) {
            Ok(told) => Lending { pool: told.pool(), words, scratch: 8 * told.largest(), recipe },
            Err(_) => Lending { pool: 3, words: 2, scratch: 9, recipe },
        }
    }

    /// Two places more of each buffer.
    pub fn ample(recipe: Recipe) -> Lending {
        let exact = Lending::exact(recipe);
        Lending { pool: exact.pool + 2, words: exact.words + 2, scratch: exact.scratch + 2, ..exact }
    }

    /// The line of a stored case: sizes, and an edition below 2^32, packed into two words, then headers, coefficients,
    /// steps.
    pub fn text(&self) -> String {
        let r = &self.recipe;
        let [headers, coefficients, steps] = [r.headers.len(), r.coefficients.len(), r.steps.len()].map(|n| n as u64);
        let sizes = headers | coefficients << 8 | steps << 24 | (self.words as u64) << 32;
        let lent = self.pool as u64 | (self.scratch as u64) << 16 | r.edition << 32;
        let floats = r.coefficients.iter().map(|x| x.to_bits());
        let all = [sizes, lent].into_iter().chain(r.headers.iter().copied()).chain(floats).chain(r.steps.iter().copied());
        all.map(|word| format!("{word:016x}")).collect::<Vec<_>>().join(" ")
    }

    /// The run's own tests, after the check.
    fn admitted(&self) -> Result<Told, Refused> {
        let told = Told::of(&self.recipe)?;
        if self.recipe.coefficients.len() < told.inputs {
            return Err(Refused::at(2, PLACE));
        }
        if self.pool < told.pool() || self.words < told.steps.len() {
            return Err(Refused::at(5, PLACE));
        }
        if self.scratch < 8 * told.largest() {
            return Err(Refused::at(6, PLACE));
        }
        Ok(told)
    }

    /// The run's answer, then what it leaves in pool, words and scratch, from the front.
    fn ran(&self) -> (String, [Vec<u64>; 3]) {
        let told = match self.admitted() {
            Ok(told) => told,
            Err(why) => return (why.to_string(), [vec![], vec![], vec![]]),
        };
        let scratch = vec![0; 8 * told.largest()];
        let values = match values(&self.recipe) {
            Ok(values) => values,
            // A stop comes after writing: +0.0 in all that is announced, and no header of any step.
            Err(why) => return (why.to_string(), [vec![0; told.pool()], vec![0; told.steps.len()], scratch]),
        };
        let (mut pool, mut words) = (vec![], vec![]);
        for (announced, (header, coefficients)) in told.steps.iter().zip(&values[self.recipe.headers.len()..]) {
            let end = pool.len() + announced.count();
            pool.extend(coefficients.iter().map(|x| bits(*x)));
            assert!(pool.len() <= end, "more than announced");
            pool.resize(end, 0);
            words.push(header.word());
        }
        ("done".to_string(), [pool, words, scratch])
    }

    /// The line that a program which replays the case has to print.
    pub fn reply(&self) -> String {
        let check = match Told::of(&self.recipe) {
            Ok(told) => format!("accepted {} {} {}", told.pool(), told.largest(), told.inputs),
            Err(why) => why.to_string(),
        };
        let (run, [pool, words, scratch]) = self.ran();
        let lent = |used: Vec<u64>, lent: usize| places(&filled(used, lent));
        let (pool, words, scratch) = (lent(pool, self.pool), lent(words, self.words), lent(scratch, self.scratch));
        format!("check {check} run {run} pool{pool} words{words} scratch{scratch}")
    }
}
