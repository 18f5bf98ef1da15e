//! Declarations of libtaylor.a, and safe functions over them. A polynomial is a header word and a slice of
//! coefficients; results are written to slices that the caller lends. taylor.h says what each function does and by
//! which numbers it refuses.

/// Why a call was refused: the number, and the place it is about, 64 for none in particular; with number 1 the variable
/// that is wrong, 4 for none, and the cause (taylor.h), else 0 and 0. No buffer was changed.
#[derive(Clone, Copy, Debug, PartialEq, Eq)]
pub struct Refusal {
    pub number: u8,
    pub place: u8,
    pub variable: u8,
    pub cause: u8,
}

mod face {
    unsafe extern "C" {
        pub fn taylor_zero(out: *mut f64, out_len: usize) -> u64;
        pub fn taylor_one(out: *mut f64, out_len: usize) -> u64;
        pub fn taylor_from_u32(c: u32, out: *mut f64, out_len: usize) -> u64;
        pub fn taylor_zero_with(vars: u64, l0: u64, l1: u64, l2: u64, l3: u64, out: *mut f64, out_len: usize) -> u64;
        pub fn taylor_from_u32_with(c: u32, vars: u64, l0: u64, l1: u64, l2: u64, l3: u64, out: *mut f64, out_len: usize) -> u64;
        pub fn taylor_var_with_degrees_p1(v: u64, x: f64, vars: u64, l0: u64, l1: u64, l2: u64, l3: u64, out: *mut f64, out_len: usize) -> u64;
        pub fn taylor_var(v: u64, x: f64, limit: u64, out: *mut f64, out_len: usize) -> u64;
        pub fn taylor_var_at_zero(v: u64, limit: u64, out: *mut f64, out_len: usize) -> u64;
        pub fn taylor_coefficient(head: u64, a: *const f64, a_len: usize, i0: u64, i1: u64, i2: u64, i3: u64, value: *mut f64) -> u64;
        pub fn taylor_constant_term(head: u64, a: *const f64, a_len: usize, value: *mut f64) -> u64;
        pub fn taylor_evaluate_all_one(head: u64, a: *const f64, a_len: usize, value: *mut f64) -> u64;
        pub fn taylor_extract_linear(head: u64, a: *const f64, a_len: usize, c: *mut f64, m: *mut f64) -> u64;
        pub fn taylor_tail(head: u64, a: *const f64, a_len: usize, k: u64, total: f64, value: *mut f64) -> u64;
        pub fn taylor_least(head: u64, a: *const f64, a_len: usize, q: f64, k: *mut u64) -> u64;
        pub fn taylor_taylor_polynomial(head: u64, a: *const f64, a_len: usize, v: u64, order: u64, out: *mut f64, out_len: usize) -> u64;
        pub fn taylor_coefficients_of_term(head: u64, a: *const f64, a_len: usize, v: u64, order: u64, out: *mut f64, out_len: usize) -> u64;
        pub fn taylor_negate(head: u64, a: *const f64, a_len: usize, out: *mut f64, out_len: usize) -> u64;
        pub fn taylor_add(
            ah: u64, a: *const f64, a_len: usize, bh: u64, b: *const f64, b_len: usize,
            out: *mut f64, out_len: usize, scratch: *mut f64, scratch_len: usize,
        ) -> u64;
        pub fn taylor_subtract(
            ah: u64, a: *const f64, a_len: usize, bh: u64, b: *const f64, b_len: usize,
            out: *mut f64, out_len: usize, scratch: *mut f64, scratch_len: usize,
        ) -> u64;
        pub fn taylor_multiply(
            ah: u64, a: *const f64, a_len: usize, bh: u64, b: *const f64, b_len: usize,
            out: *mut f64, out_len: usize, scratch: *mut f64, scratch_len: usize,
        ) -> u64;
        pub fn taylor_divide(
            ah: u64, a: *const f64, a_len: usize, bh: u64, b: *const f64, b_len: usize,
            out: *mut f64, out_len: usize, scratch: *mut f64, scratch_len: usize,
        ) -> u64;
        pub fn taylor_exp(
            head: u64, a: *const f64, a_len: usize, value: f64,
            out: *mut f64, out_len: usize, scratch: *mut f64, scratch_len: usize,
        ) -> u64;
        pub fn taylor_log(
            head: u64, a: *const f64, a_len: usize, value: f64,
            out: *mut f64, out_len: usize, scratch: *mut f64, scratch_len: usize,
        ) -> u64;
        pub fn taylor_pow(
            head: u64, a: *const f64, a_len: usize, e: u32,
            out: *mut f64, out_len: usize, scratch: *mut f64, scratch_len: usize,
        ) -> u64;
        pub fn taylor_derivative(head: u64, a: *const f64, a_len: usize, v: u64, n: u64, out: *mut f64, out_len: usize) -> u64;
        pub fn taylor_taylor_expansion_of_coeff(head: u64, a: *const f64, a_len: usize, v: u64, n: u64, out: *mut f64, out_len: usize) -> u64;
        pub fn taylor_shift_down(head: u64, a: *const f64, a_len: usize, v: u64, n: u64, out: *mut f64, out_len: usize) -> u64;
        pub fn taylor_subst_var(
            ah: u64, a: *const f64, a_len: usize, bh: u64, b: *const f64, b_len: usize, v: u64,
            out: *mut f64, out_len: usize, scratch: *mut f64, scratch_len: usize,
        ) -> u64;
        pub fn taylor_check(
            headers: *const u64, headers_len: usize, steps: *const u64, steps_len: usize, edition: u64,
            pool: *mut u64, largest: *mut u64, inputs: *mut u64,
        ) -> u64;
        pub fn taylor_run(
            headers: *const u64, headers_len: usize, coefficients: *const f64, coefficients_len: usize, steps: *const u64, steps_len: usize,
            edition: u64, pool: *mut f64, pool_len: usize, words: *mut u64, words_len: usize, scratch: *mut f64, scratch_len: usize,
        ) -> u64;
        pub fn settings_fresh(words: *mut u64, len: usize) -> u64;
        pub fn settings_read(
            words: *const u64, len: usize, department: u64, version: *mut u64, chance: *mut f64, horizon: *mut u64, recipe: *mut u64,
        ) -> u64;
        pub fn settings_read_version(
            words: *const u64, len: usize, department: u64, version: u64, chance: *mut f64, horizon: *mut u64, recipe: *mut u64,
        ) -> u64;
        pub fn settings_save(
            words: *mut u64, len: usize, department: u64, from: u64, chance: f64, horizon: u64, recipe: u64, version: *mut u64,
        ) -> u64;
        pub fn settings_bring_back(words: *mut u64, len: usize, department: u64, from: u64, kept: u64, version: *mut u64) -> u64;
        pub fn taylor_npy_read(file: *const u8, file_len: usize, out: *mut f64, out_len: usize) -> u64;
        pub fn taylor_npy_write(head: u64, a: *const f64, a_len: usize, file: *mut u8, file_len: usize, written: *mut u64) -> u64;
        pub fn taylor_npy_write_2(head: u64, a: *const f64, a_len: usize, file: *mut u8, file_len: usize, written: *mut u64) -> u64;
        pub fn taylor_exp_constant(x: f64, value: *mut f64) -> u64;
    }
}

fn refusal(word: u64) -> Refusal {
    let byte = |from: u32| (word >> from & 255) as u8;
    Refusal { number: byte(0), place: byte(8), variable: byte(16), cause: byte(24) }
}

/// A header word's low five bits are zero, a refusal's are not.
fn answer(word: u64) -> Result<u64, Refusal> {
    if word & 31 == 0 { Ok(word) } else { Err(refusal(word)) }
}

/// A float that was read: the call writes it only when done.
fn reading(call: impl FnOnce(*mut f64) -> u64) -> Result<f64, Refusal> {
    let mut value = 0.0;
    answer(call(&mut value)).map(|_| value)
}

type Pair = unsafe extern "C" fn(u64, *const f64, usize, u64, *const f64, usize, *mut f64, usize, *mut f64, usize) -> u64;
type Shift = unsafe extern "C" fn(u64, *const f64, usize, u64, u64, *mut f64, usize) -> u64;
type Series = unsafe extern "C" fn(u64, *const f64, usize, f64, *mut f64, usize, *mut f64, usize) -> u64;

// In each call below the pointers and counts are those of slices that are borrowed for the call, and the `&mut` ones
// overlap nothing; the library is proved to stay within the counts for all words and numbers.

/// A function of two polynomials.
fn pair(call: Pair, (ah, a): (u64, &[f64]), (bh, b): (u64, &[f64]), out: &mut [f64], scratch: &mut [f64]) -> Result<u64, Refusal> {
    answer(unsafe {
        call(
            ah, a.as_ptr(), a.len(), bh, b.as_ptr(), b.len(),
            out.as_mut_ptr(), out.len(), scratch.as_mut_ptr(), scratch.len(),
        )
    })
}

/// A function of a polynomial, one of its variables and a number.
fn shift(call: Shift, head: u64, a: &[f64], v: u64, n: u64, out: &mut [f64]) -> Result<u64, Refusal> {
    answer(unsafe { call(head, a.as_ptr(), a.len(), v, n, out.as_mut_ptr(), out.len()) })
}

/// A function of a polynomial and its value at the constant term.
fn series(call: Series, head: u64, a: &[f64], value: f64, out: &mut [f64], scratch: &mut [f64]) -> Result<u64, Refusal> {
    answer(unsafe { call(head, a.as_ptr(), a.len(), value, out.as_mut_ptr(), out.len(), scratch.as_mut_ptr(), scratch.len()) })
}

/// +0.0, with no variables.
pub fn zero(out: &mut [f64]) -> Result<u64, Refusal> {
    answer(unsafe { face::taylor_zero(out.as_mut_ptr(), out.len()) })
}

/// 1.0, with no variables.
pub fn one(out: &mut [f64]) -> Result<u64, Refusal> {
    answer(unsafe { face::taylor_one(out.as_mut_ptr(), out.len()) })
}

/// c, with no variables.
pub fn from_u32(c: u32, out: &mut [f64]) -> Result<u64, Refusal> {
    answer(unsafe { face::taylor_from_u32(c, out.as_mut_ptr(), out.len()) })
}

/// +0.0 under the first `vars` of the limits.
pub fn zero_with(vars: u64, limits: [u64; 4], out: &mut [f64]) -> Result<u64, Refusal> {
    let [l0, l1, l2, l3] = limits;
    answer(unsafe { face::taylor_zero_with(vars, l0, l1, l2, l3, out.as_mut_ptr(), out.len()) })
}

/// c under the first `vars` of the limits.
pub fn from_u32_with(c: u32, vars: u64, limits: [u64; 4], out: &mut [f64]) -> Result<u64, Refusal> {
    let [l0, l1, l2, l3] = limits;
    answer(unsafe { face::taylor_from_u32_with(c, vars, l0, l1, l2, l3, out.as_mut_ptr(), out.len()) })
}

/// x + v under the first `vars` of the limits.
pub fn var_with_degrees_p1(v: u64, x: f64, vars: u64, limits: [u64; 4], out: &mut [f64]) -> Result<u64, Refusal> {
    let [l0, l1, l2, l3] = limits;
    answer(unsafe { face::taylor_var_with_degrees_p1(v, x, vars, l0, l1, l2, l3, out.as_mut_ptr(), out.len()) })
}

/// x + v, every variable up to v under one limit.
pub fn var(v: u64, x: f64, limit: u64, out: &mut [f64]) -> Result<u64, Refusal> {
    answer(unsafe { face::taylor_var(v, x, limit, out.as_mut_ptr(), out.len()) })
}

/// v itself, every variable up to it under one limit.
pub fn var_at_zero(v: u64, limit: u64, out: &mut [f64]) -> Result<u64, Refusal> {
    answer(unsafe { face::taylor_var_at_zero(v, limit, out.as_mut_ptr(), out.len()) })
}

/// The coefficient at an index, +0.0 past a stored length.
pub fn coefficient(head: u64, a: &[f64], index: [u64; 4]) -> Result<f64, Refusal> {
    let [i0, i1, i2, i3] = index;
    reading(|value| unsafe { face::taylor_coefficient(head, a.as_ptr(), a.len(), i0, i1, i2, i3, value) })
}

/// The coefficient at 0, 0, 0, 0.
pub fn constant_term(head: u64, a: &[f64]) -> Result<f64, Refusal> {
    reading(|value| unsafe { face::taylor_constant_term(head, a.as_ptr(), a.len(), value) })
}

/// The value where every variable is 1.
pub fn evaluate_all_one(head: u64, a: &[f64]) -> Result<f64, Refusal> {
    reading(|value| unsafe { face::taylor_evaluate_all_one(head, a.as_ptr(), a.len(), value) })
}

/// c, m and v, where the polynomial is c + m * v.
pub fn extract_linear(head: u64, a: &[f64]) -> Result<Option<(f64, f64, usize)>, Refusal> {
    let (mut c, mut m) = (0.0, 0.0);
    match unsafe { face::taylor_extract_linear(head, a.as_ptr(), a.len(), &mut c, &mut m) } {
        0 => Ok(None),
        word if word >> 32 == 0 => Ok(Some((c, m, word as usize - 1))),
        word => Err(refusal(word)),
    }
}

/// One variable: a total less the sum of the stored coefficients 0 to k, over the total.
pub fn tail(head: u64, a: &[f64], k: u64, total: f64) -> Result<f64, Refusal> {
    reading(|value| unsafe { face::taylor_tail(head, a.as_ptr(), a.len(), k, total, value) })
}

/// One variable: the least k whose running sum, of the stored coefficients 0 to k, is at least q.
pub fn least(head: u64, a: &[f64], q: f64) -> Result<u64, Refusal> {
    let mut k = 0;
    match unsafe { face::taylor_least(head, a.as_ptr(), a.len(), q, &mut k) } {
        0 => Ok(k),
        word => Err(refusal(word)),
    }
}

/// The powers of v up to `order`.
pub fn taylor_polynomial(head: u64, a: &[f64], v: u64, order: u64, out: &mut [f64]) -> Result<u64, Refusal> {
    shift(face::taylor_taylor_polynomial, head, a, v, order, out)
}

/// The row `order` of v, a zero past the stored length.
pub fn coefficients_of_term(head: u64, a: &[f64], v: u64, order: u64, out: &mut [f64]) -> Result<u64, Refusal> {
    shift(face::taylor_coefficients_of_term, head, a, v, order, out)
}

/// -a.
pub fn negate(head: u64, a: &[f64], out: &mut [f64]) -> Result<u64, Refusal> {
    answer(unsafe { face::taylor_negate(head, a.as_ptr(), a.len(), out.as_mut_ptr(), out.len()) })
}

/// a + b, cut to the smaller limits.
pub fn add(ah: u64, a: &[f64], bh: u64, b: &[f64], out: &mut [f64], scratch: &mut [f64]) -> Result<u64, Refusal> {
    pair(face::taylor_add, (ah, a), (bh, b), out, scratch)
}

/// a - b, cut to the smaller limits.
pub fn subtract(ah: u64, a: &[f64], bh: u64, b: &[f64], out: &mut [f64], scratch: &mut [f64]) -> Result<u64, Refusal> {
    pair(face::taylor_subtract, (ah, a), (bh, b), out, scratch)
}

/// a * b, cut to the smaller limits.
pub fn multiply(ah: u64, a: &[f64], bh: u64, b: &[f64], out: &mut [f64], scratch: &mut [f64]) -> Result<u64, Refusal> {
    pair(face::taylor_multiply, (ah, a), (bh, b), out, scratch)
}

/// a / b, cut to the smaller limits.
pub fn divide(ah: u64, a: &[f64], bh: u64, b: &[f64], out: &mut [f64], scratch: &mut [f64]) -> Result<u64, Refusal> {
    pair(face::taylor_divide, (ah, a), (bh, b), out, scratch)
}

/// exp; `value` is its value at the constant term.
pub fn exp(head: u64, a: &[f64], value: f64, out: &mut [f64], scratch: &mut [f64]) -> Result<u64, Refusal> {
    series(face::taylor_exp, head, a, value, out, scratch)
}

/// log; `value` is its value at the constant term.
pub fn log(head: u64, a: &[f64], value: f64, out: &mut [f64], scratch: &mut [f64]) -> Result<u64, Refusal> {
    series(face::taylor_log, head, a, value, out, scratch)
}

/// a to the power e.
pub fn pow(head: u64, a: &[f64], e: u32, out: &mut [f64], scratch: &mut [f64]) -> Result<u64, Refusal> {
    answer(unsafe {
        face::taylor_pow(head, a.as_ptr(), a.len(), e, out.as_mut_ptr(), out.len(), scratch.as_mut_ptr(), scratch.len())
    })
}

/// The n-th derivative in v.
pub fn derivative(head: u64, a: &[f64], v: u64, n: u64, out: &mut [f64]) -> Result<u64, Refusal> {
    shift(face::taylor_derivative, head, a, v, n, out)
}

/// The derivative without its factor n!.
pub fn taylor_expansion_of_coeff(head: u64, a: &[f64], v: u64, n: u64, out: &mut [f64]) -> Result<u64, Refusal> {
    shift(face::taylor_taylor_expansion_of_coeff, head, a, v, n, out)
}

/// The coefficients of v moved down by n, the sum of those that would leave added at 0.
pub fn shift_down(head: u64, a: &[f64], v: u64, n: u64, out: &mut [f64]) -> Result<u64, Refusal> {
    shift(face::taylor_shift_down, head, a, v, n, out)
}

/// a with b for its variable v, cut to the smaller limits; a itself where it has no such variable.
pub fn subst_var(ah: u64, a: &[f64], bh: u64, b: &[f64], v: u64, out: &mut [f64], scratch: &mut [f64]) -> Result<u64, Refusal> {
    answer(unsafe {
        face::taylor_subst_var(
            ah, a.as_ptr(), a.len(), bh, b.as_ptr(), b.len(), v,
            out.as_mut_ptr(), out.len(), scratch.as_mut_ptr(), scratch.len(),
        )
    })
}

/// What a recipe takes: the pool total, the largest announced step count, the input coefficient total.
#[derive(Clone, Copy, Debug, PartialEq, Eq)]
pub struct Totals {
    pub pool: u64,
    pub largest: u64,
    pub inputs: u64,
}

/// Whether a recipe of an edition can be run, from words alone.
pub fn check(headers: &[u64], steps: &[u64], edition: u64) -> Result<Totals, Refusal> {
    let mut totals = Totals { pool: 0, largest: 0, inputs: 0 };
    let word = unsafe {
        face::taylor_check(
            headers.as_ptr(), headers.len(), steps.as_ptr(), steps.len(), edition, &mut totals.pool, &mut totals.largest, &mut totals.inputs,
        )
    };
    if word == 0 { Ok(totals) } else { Err(refusal(word)) }
}

/// The steps of a recipe of an edition: their values end to end in the pool, their header words in `words`. Refused,
/// no buffer changes; but by 12, at a step of kind 11 whose operand's constant is not from -8 to 8, the announced
/// places of the pool and the used scratch are left at +0.0 and the words of the steps at 0.
pub fn run(
    headers: &[u64], coefficients: &[f64], steps: &[u64], edition: u64, pool: &mut [f64], words: &mut [u64], scratch: &mut [f64],
) -> Result<(), Refusal> {
    let word = unsafe {
        face::taylor_run(
            headers.as_ptr(), headers.len(), coefficients.as_ptr(), coefficients.len(), steps.as_ptr(), steps.len(),
            edition, pool.as_mut_ptr(), pool.len(), words.as_mut_ptr(), words.len(), scratch.as_mut_ptr(), scratch.len(),
        )
    };
    if word == 0 { Ok(()) } else { Err(refusal(word)) }
}

/// How many words a settings store takes.
pub const SETTINGS_WORDS: usize = 544;

/// What a planner sets for a department.
#[derive(Clone, Copy, Debug, PartialEq)]
pub struct Settings {
    pub chance: f64,
    pub horizon: u64,
    pub recipe: u64,
}

/// A fresh settings store: every department at version 0, 0.0, 1, 0.
pub fn settings_fresh(words: &mut [u64]) -> Result<(), Refusal> {
    let word = unsafe { face::settings_fresh(words.as_mut_ptr(), words.len()) };
    if word == 0 { Ok(()) } else { Err(refusal(word)) }
}

/// A department's current version and what it holds.
pub fn settings_read(words: &[u64], department: u64) -> Result<(u64, Settings), Refusal> {
    let (mut version, mut held) = (0, Settings { chance: 0.0, horizon: 0, recipe: 0 });
    let word = unsafe {
        face::settings_read(
            words.as_ptr(), words.len(), department, &mut version, &mut held.chance, &mut held.horizon, &mut held.recipe,
        )
    };
    if word == 0 { Ok((version, held)) } else { Err(refusal(word)) }
}

/// What a kept version holds.
pub fn settings_read_version(words: &[u64], department: u64, version: u64) -> Result<Settings, Refusal> {
    let mut held = Settings { chance: 0.0, horizon: 0, recipe: 0 };
    let word = unsafe {
        face::settings_read_version(
            words.as_ptr(), words.len(), department, version, &mut held.chance, &mut held.horizon, &mut held.recipe,
        )
    };
    if word == 0 { Ok(held) } else { Err(refusal(word)) }
}

/// The next version, made from version `from`; answers its number.
pub fn settings_save(words: &mut [u64], department: u64, from: u64, content: Settings) -> Result<u64, Refusal> {
    let mut version = 0;
    let word = unsafe {
        face::settings_save(
            words.as_mut_ptr(), words.len(), department, from, content.chance, content.horizon, content.recipe, &mut version,
        )
    };
    if word == 0 { Ok(version) } else { Err(refusal(word)) }
}

/// What the version `kept` holds as the next version; answers its number.
pub fn settings_bring_back(words: &mut [u64], department: u64, from: u64, kept: u64) -> Result<u64, Refusal> {
    let mut version = 0;
    let word = unsafe { face::settings_bring_back(words.as_mut_ptr(), words.len(), department, from, kept, &mut version) };
    if word == 0 { Ok(version) } else { Err(refusal(word)) }
}

/// A NumPy array file's values, in row order whatever the file's is, at the front of `out`: its header word.
pub fn npy_read(file: &[u8], out: &mut [f64]) -> Result<u64, Refusal> {
    answer(unsafe { face::taylor_npy_read(file.as_ptr(), file.len(), out.as_mut_ptr(), out.len()) })
}

/// The NumPy array file of a polynomial, version 1.0, at the front of `file`: how many bytes it has.
pub fn npy_write(head: u64, a: &[f64], file: &mut [u8]) -> Result<usize, Refusal> {
    let mut written = 0;
    let word = unsafe { face::taylor_npy_write(head, a.as_ptr(), a.len(), file.as_mut_ptr(), file.len(), &mut written) };
    if word == 0 { Ok(written as usize) } else { Err(refusal(word)) }
}

/// The same, version 2.0.
pub fn npy_write_2(head: u64, a: &[f64], file: &mut [u8]) -> Result<usize, Refusal> {
    let mut written = 0;
    let word = unsafe { face::taylor_npy_write_2(head, a.as_ptr(), a.len(), file.as_mut_ptr(), file.len(), &mut written) };
    if word == 0 { Ok(written as usize) } else { Err(refusal(word)) }
}

/// e to the x, within 2^-40, relative, of the sum of the series' first 120 terms; x from -8 to 8.
pub fn exp_constant(x: f64) -> Result<f64, Refusal> {
    reading(|value| unsafe { face::taylor_exp_constant(x, value) })
}
