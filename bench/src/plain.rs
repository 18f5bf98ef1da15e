//! The same operations in plain Rust on flat vectors: slices, no unsafe, the result in a vector that is used again.
//! The order of every sum and every shortcut are the source's, so the bits are the same.

/// Number of variables, limits, stored lengths (1 and 1 for a missing variable) and coefficients, last variable
/// fastest.
#[derive(Clone, Default)]
pub struct Poly {
    pub vars: usize,
    pub limits: [usize; 4],
    pub lengths: [usize; 4],
    pub coeffs: Vec<f64>,
}

/// A block: its lengths and coefficients.
#[derive(Clone, Copy)]
pub struct Block<'a> {
    pub lengths: [usize; 4],
    pub coeffs: &'a [f64],
}

/// c + m * v.
pub struct Linear {
    pub c: f64,
    pub m: f64,
    pub v: usize,
}

pub fn count(lengths: &[usize]) -> usize {
    lengths.iter().product()
}

/// Whether only the first place, and the second in the variable v, are not zero.
fn linear_in(x: Block, v: usize) -> bool {
    let step = count(&x.lengths[v + 1..]);
    x.lengths[v] > 1 && x.coeffs.iter().enumerate().all(|(i, &c)| c == 0.0 || i == 0 || i == step)
}

pub fn extract_linear(x: Block) -> Option<Linear> {
    let v = (0..4).find(|&v| linear_in(x, v))?;
    let step = count(&x.lengths[v + 1..]);
    Some(Linear { c: x.coeffs[0], m: x.coeffs[step], v })
}

/// The places under the limits; `room` holds them where some are cut off.
fn cut<'a>(x: &'a Poly, limits: &[usize; 4], room: &'a mut Vec<f64>) -> Block<'a> {
    if x.lengths.iter().zip(limits).all(|(n, l)| n <= l) {
        return Block { lengths: x.lengths, coeffs: &x.coeffs };
    }
    let n = x.lengths;
    let mut r = n;
    for (r, &l) in r.iter_mut().zip(limits) {
        *r = l.min(*r);
    }
    room.clear();
    for i in 0..r[0] {
        for j in 0..r[1] {
            for k in 0..r[2] {
                let at = ((i * n[1] + j) * n[2] + k) * n[3];
                room.extend_from_slice(&x.coeffs[at..at + r[3]]);
            }
        }
    }
    Block { lengths: r, coeffs: room }
}

/// One long variable: each place sums from +0.0, j ascending, and is then added.
fn line(xs: &[f64], ys: &[f64], res: &mut [f64]) {
    if res.len() < 8 {
        line_by_places(xs, ys, res);
    } else {
        line_by_terms(xs, ys, res);
    }
}

/// Place by place: the better one for short lines.
fn line_by_places(xs: &[f64], ys: &[f64], res: &mut [f64]) {
    for (k, z) in res.iter_mut().enumerate() {
        let lo = (k + 1).saturating_sub(ys.len());
        let hi = (k + 1).min(xs.len());
        let mut sum = 0.0;
        for j in lo..hi {
            sum += xs[j] * ys[k - j];
        }
        *z += sum;
    }
}

/// All places for one j, then for the next: each place still sums upwards. The compiler makes vectors of it.
fn line_by_terms(xs: &[f64], ys: &[f64], res: &mut [f64]) {
    let mut room = [0.0; 64];
    let sums = &mut room[..res.len()];
    for (j, x) in xs.iter().enumerate().take(sums.len()) {
        for (z, y) in sums[j..].iter_mut().zip(ys) {
            *z += x * y;
        }
    }
    for (z, sum) in res.iter_mut().zip(sums) {
        *z += *sum;
    }
}

/// One variable of a general product: lengths and places in a row, of the left, the right and the result.
struct Axis {
    nx: usize,
    sx: usize,
    ny: usize,
    sy: usize,
    n: usize,
    s: usize,
}

fn axes(lx: &[usize; 4], ly: &[usize; 4], r: &[usize; 4]) -> [Axis; 4] {
    std::array::from_fn(|v| Axis {
        nx: lx[v],
        sx: count(&lx[v + 1..]),
        ny: ly[v],
        sy: count(&ly[v + 1..]),
        n: r[v],
        s: count(&r[v + 1..]),
    })
}

/// Recursion on the first variable, j ascending.
fn rows(xs: &[f64], ys: &[f64], res: &mut [f64], axes: &[Axis]) {
    let Some((a, rest)) = axes.split_first() else {
        res[0] += xs[0] * ys[0];
        return;
    };
    if a.n != 1 && a.s == 1 {
        return line(xs, ys, res);
    }
    for (k, row) in res.chunks_exact_mut(a.s).enumerate() {
        for j in (k + 1).saturating_sub(a.ny)..(k + 1).min(a.nx) {
            let (x, y) = (j * a.sx, (k - j) * a.sy);
            rows(&xs[x..x + a.sx], &ys[y..y + a.sy], row, rest);
        }
    }
}

pub fn general(xs: &[f64], lx: &[usize; 4], ys: &[f64], ly: &[usize; 4], res: &mut [f64], r: &[usize; 4]) {
    rows(xs, ys, res, &axes(lx, ly, r));
}

/// m times x shifted up by one in the variable, and, unless c is zero, c times x added.
fn times_linear(x: Block, f: Linear, limits: &[usize; 4], out: &mut Poly) {
    let step = count(&x.lengths[f.v + 1..]);
    let width = x.lengths[f.v] * step;
    out.lengths = x.lengths;
    out.lengths[f.v] = limits[f.v].min(x.lengths[f.v] + 1);
    let room = out.lengths[f.v] * step;
    out.coeffs.resize(count(&out.lengths), 0.0);
    for (to, from) in out.coeffs.chunks_exact_mut(room).zip(x.coeffs.chunks_exact(width)) {
        for (z, x) in to[step..].iter_mut().zip(from) {
            *z = x * f.m;
        }
        if f.c != 0.0 {
            for (z, x) in to.iter_mut().zip(from) {
                *z = (0.0 + *z) + f.c * x;
            }
            to.iter_mut().skip(width).for_each(|z| *z += 0.0);
        }
    }
}

fn scale(c: f64, x: Block, out: &mut Poly) {
    out.lengths = x.lengths;
    out.coeffs.extend(x.coeffs.iter().map(|x| c * x));
}

fn copy(x: Block, out: &mut Poly) {
    out.lengths = x.lengths;
    out.coeffs.extend_from_slice(x.coeffs);
}

/// The smaller limits; a variable that one lacks takes the other's.
fn smaller(a: &Poly, b: &Poly) -> (usize, [usize; 4]) {
    let vars = a.vars.max(b.vars);
    let mut limits = [1; 4];
    for (v, l) in limits.iter_mut().enumerate().take(vars) {
        *l = match (v < a.vars, v < b.vars) {
            (true, true) => a.limits[v].min(b.limits[v]),
            (true, false) => a.limits[v],
            _ => b.limits[v],
        };
    }
    (vars, limits)
}

/// a * b, cut to the smaller limits. `out`'s vector is used again.
pub fn multiply(a: &Poly, b: &Poly, out: &mut Poly) {
    let (vars, limits) = smaller(a, b);
    out.vars = vars;
    out.limits = limits;
    out.lengths = [1; 4];
    out.coeffs.clear();
    if (a.coeffs.len() == 1 && a.coeffs[0] == 0.0) || (b.coeffs.len() == 1 && b.coeffs[0] == 0.0) {
        out.coeffs.push(0.0);
        return;
    }
    let (mut room_a, mut room_b) = (Vec::new(), Vec::new());
    let x = cut(a, &limits, &mut room_a);
    let y = cut(b, &limits, &mut room_b);
    match (x.coeffs, y.coeffs) {
        ([c], _) if *c == 1.0 => return copy(y, out),
        (_, [c]) if *c == 1.0 => return copy(x, out),
        ([c], _) => return scale(*c, y, out),
        (_, [c]) => return scale(*c, x, out),
        _ => {}
    }
    if let Some(f) = extract_linear(x) {
        return times_linear(y, f, &limits, out);
    }
    if let Some(f) = extract_linear(y) {
        return times_linear(x, f, &limits, out);
    }
    for v in 0..4 {
        out.lengths[v] = limits[v].min(x.lengths[v] + y.lengths[v] - 1);
    }
    out.coeffs.resize(count(&out.lengths), 0.0);
    general(x.coeffs, &x.lengths, y.coeffs, &y.lengths, &mut out.coeffs, &out.lengths);
}

/// Each place of `to` that x has, plus x's.
fn add_places(x: Block, to: &mut Poly) {
    let (n, r) = (x.lengths, to.lengths);
    for (at, xs) in x.coeffs.chunks_exact(n[3]).enumerate() {
        let (i, j, k) = (at / (n[1] * n[2]), at / n[2] % n[1], at % n[2]);
        let to = &mut to.coeffs[((i * r[1] + j) * r[2] + k) * r[3]..];
        to.iter_mut().zip(xs).for_each(|(z, x)| *z += x);
    }
}

/// a + b, cut to the smaller limits. `out`'s vector is used again.
pub fn add(a: &Poly, b: &Poly, out: &mut Poly) {
    let (vars, limits) = smaller(a, b);
    (out.vars, out.limits) = (vars, limits);
    out.coeffs.clear();
    let (mut room_a, mut room_b) = (Vec::new(), Vec::new());
    let x = cut(a, &limits, &mut room_a);
    let y = cut(b, &limits, &mut room_b);
    if y.coeffs.len() == 1 {
        copy(x, out);
        out.coeffs[0] += y.coeffs[0];
    } else if x.coeffs.len() == 1 {
        copy(y, out);
        out.coeffs[0] += x.coeffs[0];
    } else {
        out.lengths = std::array::from_fn(|v| x.lengths[v].max(y.lengths[v]));
        out.coeffs.resize(count(&out.lengths), 0.0);
        add_places(x, out);
        add_places(y, out);
    }
}

/// a to the power e by squaring, without the last squaring.
pub fn pow(a: &Poly, mut e: u32, out: &mut Poly) {
    *out = Poly { vars: 0, limits: [1; 4], lengths: [1; 4], coeffs: vec![1.0] };
    let (mut base, mut next) = (a.clone(), Poly::default());
    while e > 0 {
        if e & 1 == 1 {
            multiply(out, &base, &mut next);
            std::mem::swap(out, &mut next);
        }
        e >>= 1;
        if e > 0 {
            multiply(&base, &base, &mut next);
            std::mem::swap(&mut base, &mut next);
        }
    }
}

/// b for the variable v of a, by Horner's rule from the highest power. Neither of the source's shortcuts fits the cases
/// measured.
pub fn subst_var(a: &Poly, v: usize, b: &Poly, out: &mut Poly) {
    let (vars, limits) = smaller(a, b);
    *out = Poly { vars, limits, lengths: [1; 4], coeffs: vec![0.0] };
    let mut row = Poly { vars, limits, lengths: a.lengths, coeffs: Vec::new() };
    row.lengths[v] = 1;
    let width = count(&a.lengths[v + 1..]);
    let mut next = Poly::default();
    for i in (0..a.lengths[v]).rev() {
        row.coeffs.clear();
        a.coeffs.chunks_exact(a.lengths[v] * width).for_each(|c| row.coeffs.extend_from_slice(&c[i * width..][..width]));
        multiply(out, b, &mut next);
        add(&next, &row, out);
    }
}
