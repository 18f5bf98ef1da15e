//! The library's answer to a case, and what it leaves in the buffers lent. `run` says by `--cfg face="NAME"` which
//! functions the archive has; the others are left out.

use crate::cells;
use crate::taylor::{self, Refusal};
use expected::case::{sentinels, Case, SENTINEL};
use expected::operations::Gives;
use expected::outcome::{difference, Answer, Outcome};
use expected::words::Fault;

type Told = Result<u64, Refusal>;

/// A call's operands and lent buffers.
struct Lent<'a> {
    case: &'a Case,
    a: &'a [f64],
    b: &'a [f64],
    out: &'a mut [f64],
    scratch: &'a mut [f64],
}

impl Lent<'_> {
    fn number(&self, i: usize) -> u64 {
        self.case.numbers[i]
    }

    fn four(&self, from: usize) -> [u64; 4] {
        std::array::from_fn(|i| self.case.numbers[from + i])
    }

    fn float(&self, i: usize) -> f64 {
        f64::from_bits(self.case.numbers[i])
    }

    /// A reading's word and cells from its answer.
    fn put(&mut self, read: Result<f64, Refusal>) -> Told {
        self.out[0] = read?;
        Ok(0)
    }

    fn put_line(&mut self, read: Result<Option<(f64, f64, usize)>, Refusal>) -> Told {
        let line = read?;
        let (c, m, _) = line.unwrap_or((0.0, 0.0, 0));
        self.out.copy_from_slice(&[c, m]);
        Ok(line.map_or(0, |(_, _, v)| 1 + v as u64))
    }
}

type Call = fn(Lent) -> Told;

macro_rules! calls {
    ($($name:tt => |$l:ident| $call:expr;)*) => {
        /// The function of that name, where the archive has it.
        fn call_of(name: &str) -> Option<Call> {
            match name {
                $(#[cfg(face = $name)]
                $name => Some(|#[allow(unused_mut)] mut $l: Lent| $call),)*
                _ => None,
            }
        }
    };
}

calls! {
    "zero" => |l| taylor::zero(l.out);
    "one" => |l| taylor::one(l.out);
    "from_u32" => |l| taylor::from_u32(l.number(0) as u32, l.out);
    "zero_with" => |l| taylor::zero_with(l.number(0), l.four(1), l.out);
    "from_u32_with" => |l| taylor::from_u32_with(l.number(0) as u32, l.number(1), l.four(2), l.out);
    "var_with_degrees_p1" => |l| taylor::var_with_degrees_p1(l.number(0), l.float(1), l.number(2), l.four(3), l.out);
    "var" => |l| taylor::var(l.number(0), l.float(1), l.number(2), l.out);
    "var_at_zero" => |l| taylor::var_at_zero(l.number(0), l.number(1), l.out);
    "coefficient" => |l| l.put(taylor::coefficient(l.case.ah, l.a, l.four(0)));
    "constant_term" => |l| l.put(taylor::constant_term(l.case.ah, l.a));
    "evaluate_all_one" => |l| l.put(taylor::evaluate_all_one(l.case.ah, l.a));
    "extract_linear" => |l| l.put_line(taylor::extract_linear(l.case.ah, l.a));
    "tail" => |l| l.put(taylor::tail(l.case.ah, l.a, l.number(0), l.float(1)));
    "least" => |l| l.put(taylor::least(l.case.ah, l.a, l.float(0)).map(f64::from_bits));
    "taylor_polynomial" => |l| taylor::taylor_polynomial(l.case.ah, l.a, l.number(0), l.number(1), l.out);
    "coefficients_of_term" => |l| taylor::coefficients_of_term(l.case.ah, l.a, l.number(0), l.number(1), l.out);
    "negate" => |l| taylor::negate(l.case.ah, l.a, l.out);
    "add" => |l| taylor::add(l.case.ah, l.a, l.case.bh, l.b, l.out, l.scratch);
    "subtract" => |l| taylor::subtract(l.case.ah, l.a, l.case.bh, l.b, l.out, l.scratch);
    "multiply" => |l| taylor::multiply(l.case.ah, l.a, l.case.bh, l.b, l.out, l.scratch);
    "divide" => |l| taylor::divide(l.case.ah, l.a, l.case.bh, l.b, l.out, l.scratch);
    "exp" => |l| taylor::exp(l.case.ah, l.a, l.float(0), l.out, l.scratch);
    "log" => |l| taylor::log(l.case.ah, l.a, l.float(0), l.out, l.scratch);
    "pow" => |l| taylor::pow(l.case.ah, l.a, l.number(0) as u32, l.out, l.scratch);
    "derivative" => |l| taylor::derivative(l.case.ah, l.a, l.number(0), l.number(1), l.out);
    "taylor_expansion_of_coeff" => |l| taylor::taylor_expansion_of_coeff(l.case.ah, l.a, l.number(0), l.number(1), l.out);
    "shift_down" => |l| taylor::shift_down(l.case.ah, l.a, l.number(0), l.number(1), l.out);
    "subst_var" => |l| taylor::subst_var(l.case.ah, l.a, l.case.bh, l.b, l.number(0), l.out, l.scratch);
}

pub fn has(name: &str) -> bool {
    call_of(name).is_some()
}

/// Places on either side of every lent part; nobody may write to them.
const GUARD: usize = 4;

/// A buffer with guards, the lent part between them.
struct Guarded(Vec<f64>);

impl Guarded {
    fn holding(values: &[f64]) -> Self {
        Guarded([&sentinels(GUARD), values, &sentinels(GUARD)].concat())
    }

    fn lent(&mut self) -> &mut [f64] {
        let end = self.0.len() - GUARD;
        &mut self.0[GUARD..end]
    }

    fn is_guarded(&self) -> bool {
        let end = self.0.len() - GUARD;
        self.0[..GUARD].iter().chain(&self.0[end..]).all(|x| x.to_bits() == SENTINEL)
    }

    fn still_holds(&self, values: &[f64]) -> bool {
        let inside = &self.0[GUARD..self.0.len() - GUARD];
        self.is_guarded() && inside.iter().zip(values).all(|(x, y)| x.to_bits() == y.to_bits())
    }
}

/// Calls the library on buffers full of sentinels.
pub fn answer(case: &Case) -> Outcome {
    let call = call_of(case.op.name).expect("a function of the archive");
    let [mut a, mut b] = [Guarded::holding(&case.a), Guarded::holding(&case.b)];
    let [mut out, mut scratch] = [case.out, case.scratch].map(|n| Guarded::holding(&sentinels(n)));
    let lent = Lent { case, a: a.lent(), b: b.lent(), out: out.lent(), scratch: scratch.lent() };
    let mut answer = match call(lent) {
        Ok(word) => Answer::Done(word),
        Err(refusal) => Answer::Refused {
            number: refusal.number.into(),
            place: refusal.place.into(),
            fault: Fault { variable: refusal.variable.into(), cause: refusal.cause.into() },
        },
    };
    if !out.is_guarded() || !scratch.is_guarded() {
        answer = Answer::Failed("a place past a lent buffer was written".into());
    }
    if !a.still_holds(&case.a) || !b.still_holds(&case.b) {
        answer = Answer::Failed("an operand was written".into());
    }
    let outcome = Outcome { answer, out: out.lent().to_vec(), scratch: scratch.lent().to_vec() };
    agreeing(case, outcome)
}

/// Of a reading, the outcome if the function called by its pointers has the same.
fn agreeing(case: &Case, outcome: Outcome) -> Outcome {
    let mut out = sentinels(case.out);
    let Some(word) = cells::word(case, &case.a, &mut out) else { return outcome };
    let answer = told(case.op.gives, word);
    let other = Outcome { answer, out, scratch: vec![] };
    match difference(&outcome, &other) {
        None => outcome,
        Some(what) => Outcome { answer: Answer::Failed(format!("by pointers and by the wrapper: {what}")), ..outcome },
    }
}

/// A float's reading answers 0 or number + 2^8 place + 2^16 variable + 2^24 cause; `extract_linear` adds 2^32 to a
/// refusal.
fn told(gives: Gives, word: u64) -> Answer {
    let refused = |word: u64| {
        let [number, place, variable, cause] = [0, 8, 16, 24].map(|from| word >> from & 255);
        Answer::Refused { number, place, fault: Fault { variable, cause } }
    };
    match gives {
        Gives::Line if word >> 32 == 1 => refused(word - (1 << 32)),
        Gives::Line => Answer::Done(word),
        _ if word == 0 => Answer::Done(0),
        _ => refused(word),
    }
}
