//! Plain Rust held to the promise that the library keeps: header words and lent buffers, refused by the same numbers,
//! the answer followed by +0.0, 8 times the announced count of the scratch at +0.0. No unsafe code, no proof; the
//! arithmetic is plain.rs's. What is inlined was tried, and the faster way kept.
use crate::plain::{count, extract_linear, general, Block, Linear};

/// Number of variables, limits and stored lengths.
struct Header {
    vars: usize,
    limits: [usize; 4],
    lengths: [usize; 4],
}

/// One field of a word, and one more.
fn field(word: u64, low: usize) -> usize {
    (word >> low & 63) as usize + 1
}

impl Header {
    /// What a word says, if it keeps document 01's rules.
    #[inline(always)]
    fn of(word: u64) -> Option<Header> {
        let h = Header {
            vars: (word >> 61) as usize,
            limits: std::array::from_fn(|v| field(word, 55 - 12 * v)),
            lengths: std::array::from_fn(|v| field(word, 49 - 12 * v)),
        };
        let good = |v: usize| h.lengths[v] <= h.limits[v] && (v < h.vars || h.limits[v] == 1);
        (h.vars <= 4 && (0..4).all(good) && word & 8191 == 0 && count(&h.lengths) <= 4096).then_some(h)
    }

    fn word(&self) -> u64 {
        let fields =
            (0..4).fold(self.vars as u64, |w, v| (w << 12) | ((self.limits[v] as u64 - 1) << 6) | (self.lengths[v] as u64 - 1));
        fields << 13
    }
}

/// c times each place.
#[inline(always)]
fn scale(c: f64, x: Block, out: &mut [f64]) -> [usize; 4] {
    out.iter_mut().zip(x.coeffs).for_each(|(z, x)| *z = c * x);
    x.lengths
}

#[inline(always)]
fn copy(x: Block, out: &mut [f64]) -> [usize; 4] {
    out[..x.coeffs.len()].copy_from_slice(x.coeffs);
    x.lengths
}

fn is_zero(x: &[f64]) -> bool {
    x.len() == 1 && x[0] == 0.0
}

/// m times x shifted up by one in the variable, and, unless c is zero, c times x added.
#[inline(never)]
fn by_line(x: Block, f: Linear, limits: &[usize; 4], out: &mut [f64]) -> [usize; 4] {
    let step = count(&x.lengths[f.v + 1..]);
    let width = x.lengths[f.v] * step;
    let mut lengths = x.lengths;
    lengths[f.v] = limits[f.v].min(x.lengths[f.v] + 1);
    let room = lengths[f.v] * step;
    for (to, from) in out[..count(&lengths)].chunks_exact_mut(room).zip(x.coeffs.chunks_exact(width)) {
        to[..step].fill(0.0);
        for (z, x) in to[step..].iter_mut().zip(from) {
            *z = x * f.m;
        }
        if f.c != 0.0 {
            for (z, x) in to.iter_mut().zip(from) {
                *z = (0.0 + *z) + f.c * x;
            }
            to.iter_mut().skip(width).for_each(|z| *z += 0.0);
        }
    }
    lengths
}

/// The places under the limits; `room` holds them where some are cut off.
#[inline(always)]
fn cut<'a>(x: Block<'a>, limits: &[usize; 4], room: &'a mut Vec<f64>) -> Block<'a> {
    let n = x.lengths;
    let r: [usize; 4] = std::array::from_fn(|v| limits[v].min(n[v]));
    if r == n {
        return x;
    }
    for (i, row) in x.coeffs.chunks_exact(n[3]).enumerate() {
        if i / (n[1] * n[2]) < r[0] && i / n[2] % n[1] < r[1] && i % n[2] < r[2] {
            room.extend_from_slice(&row[..r[3]]);
        }
    }
    Block { lengths: r, coeffs: room }
}

/// The smaller limit of a variable; the other's where one lacks it.
#[inline(always)]
fn smaller(a: &Header, b: &Header, v: usize) -> usize {
    match (v < a.vars, v < b.vars) {
        (true, true) => a.limits[v].min(b.limits[v]),
        (true, false) => a.limits[v],
        _ => b.limits[v],
    }
}

/// The product to the front of `out`; its lengths. The choice of the way repeats plain.rs's: sharing it was tried, and
/// made plain slower by half.
#[inline(always)]
fn product(x: Block, y: Block, limits: &[usize; 4], out: &mut [f64]) -> [usize; 4] {
    match (x.coeffs, y.coeffs) {
        ([c], _) if *c == 1.0 => return copy(y, out),
        (_, [c]) if *c == 1.0 => return copy(x, out),
        ([c], _) => return scale(*c, y, out),
        (_, [c]) => return scale(*c, x, out),
        _ => {}
    }
    if let Some(f) = extract_linear(x) {
        return by_line(y, f, limits, out);
    }
    if let Some(f) = extract_linear(y) {
        return by_line(x, f, limits, out);
    }
    let r = std::array::from_fn(|v| limits[v].min(x.lengths[v] + y.lengths[v] - 1));
    let out = &mut out[..count(&r)];
    out.fill(0.0);
    general(x.coeffs, &x.lengths, y.coeffs, &y.lengths, out, &r);
    r
}

/// a * b by header words over lent buffers: the answer's word, or the number of the refusal.
pub fn multiply(ah: u64, a: &[f64], bh: u64, b: &[f64], out: &mut [f64], scratch: &mut [f64]) -> Result<u64, u64> {
    let (Some(x), Some(y)) = (Header::of(ah), Header::of(bh)) else { return Err(1) };
    let (na, nb) = (count(&x.lengths), count(&y.lengths));
    if a.len() < na || b.len() < nb {
        return Err(2);
    }
    let (vars, limits) = (x.vars.max(y.vars), std::array::from_fn(|v| smaller(&x, &y, v)));
    let n = (0..4).map(|v| limits[v].min(limits[v].min(x.lengths[v]) + limits[v].min(y.lengths[v]) - 1)).product();
    if n > 4096 || out.len() < n {
        return Err(5);
    }
    if scratch.len() < 8 * n {
        return Err(6);
    }
    let (a, b, out) = (&a[..na], &b[..nb], &mut out[..n]);
    let lengths = if is_zero(a) || is_zero(b) {
        out[0] = 0.0;
        [1; 4]
    } else {
        let (mut room_a, mut room_b) = (Vec::new(), Vec::new());
        let x = cut(Block { lengths: x.lengths, coeffs: a }, &limits, &mut room_a);
        let y = cut(Block { lengths: y.lengths, coeffs: b }, &limits, &mut room_b);
        product(x, y, &limits, out)
    };
    out[count(&lengths)..].fill(0.0);
    scratch[..8 * n].fill(0.0);
    Ok(Header { vars, limits, lengths }.word())
}
