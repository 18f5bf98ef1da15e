//! What a call leaves: its answer and every lent place. `expected` works it out from the refusals and the source.

use crate::case::{sentinels, Case};
use crate::oracle::{taken, Given, Poly};
use crate::refusals::{Refusal, PLACE};
use crate::words::{bits, Fault, Header};
use std::panic::{catch_unwind, AssertUnwindSafe};

#[derive(Clone, Debug, PartialEq, Eq)]
pub enum Answer {
    /// a header word; 0 of a float read; 0 or 1 + variable of `extract_linear`
    Done(u64),
    Refused {
        number: u64,
        place: u64,
        fault: Fault,
    },
    /// the source panicked, or broke what document 01 announces
    Failed(String),
}

pub struct Outcome {
    pub answer: Answer,
    /// the result's buffer; of a reading, the floats that it writes
    pub out: Vec<f64>,
    pub scratch: Vec<f64>,
}

pub fn expected(case: &Case) -> Outcome {
    let (mut out, mut scratch) = (sentinels(case.out), sentinels(case.scratch));
    let answer = match (case.op.gate)(case) {
        Err(Refusal { number, fault }) => Answer::Refused { number, place: PLACE, fault },
        Ok(announced) => match catch_unwind(AssertUnwindSafe(|| (case.op.source)(case))) {
            Err(cause) => Answer::Failed(format!("the source panicked: {}", message(&*cause))),
            Ok(Given::Read(word, values)) => {
                out.copy_from_slice(&values);
                Answer::Done(word)
            }
            Ok(Given::Poly(p)) => {
                if case.op.scratch {
                    scratch[..8 * announced.count()].fill(0.0);
                }
                write(&p, &announced, &mut out)
            }
        },
    };
    Outcome { answer, out, scratch }
}

/// The announced places hold the answer, then +0.0.
fn write(p: &Poly, announced: &Header, out: &mut [f64]) -> Answer {
    let (header, coefficients) = taken(p);
    let same = header.vars == announced.vars && header.limits == announced.limits;
    if !same || (0..header.vars).any(|v| header.lengths[v] > announced.lengths[v]) {
        return Answer::Failed(format!("the source gives {header:?} where {announced:?} is announced"));
    }
    out[..announced.count()].fill(0.0);
    out[..coefficients.len()].copy_from_slice(&coefficients);
    Answer::Done(header.word())
}

fn message(cause: &(dyn std::any::Any + Send)) -> String {
    let text = cause.downcast_ref::<&str>().map(|s| s.to_string());
    text.or(cause.downcast_ref::<String>().cloned()).unwrap_or_default()
}

/// The first thing in which two outcomes differ.
pub fn difference(expected: &Outcome, got: &Outcome) -> Option<String> {
    if expected.answer != got.answer {
        return Some(format!("answer {} for {}", told(&got.answer), told(&expected.answer)));
    }
    let buffers = [("out", &expected.out, &got.out), ("scratch", &expected.scratch, &got.scratch)];
    buffers.into_iter().find_map(|(name, expected, got)| {
        let at = (0..expected.len()).find(|i| bits(expected[*i]) != bits(got[*i]))?;
        Some(format!("{name}[{at}] {:016x} for {:016x}", bits(got[at]), bits(expected[at])))
    })
}

pub fn told(answer: &Answer) -> String {
    match answer {
        Answer::Done(word) => format!("done {word:016x}"),
        Answer::Refused { number, place, fault } => format!("refused {number} {place} {} {}", fault.variable, fault.cause),
        Answer::Failed(cause) => cause.clone(),
    }
}
