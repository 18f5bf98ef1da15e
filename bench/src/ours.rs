//! The proved functions of the archive, called over lent buffers that are allocated once, on 64-byte bounds.
use crate::plain::Poly;

#[path = "../../face/taylor.rs"]
#[allow(dead_code)]
mod taylor;

/// A buffer that starts on a 64-byte bound. It is never freed, so that a call reads it with no arithmetic of the
/// benchmark's own.
pub struct Aligned(&'static mut [f64]);

impl Aligned {
    pub fn new(len: usize) -> Aligned {
        let all = vec![0.0; len + 8].leak();
        let from = all.as_ptr().align_offset(64);
        Aligned(&mut all[from..from + len])
    }

    pub fn of(xs: &[f64]) -> Aligned {
        let a = Aligned::new(xs.len());
        a.0.copy_from_slice(xs);
        a
    }

    pub fn get(&self) -> &[f64] {
        self.0
    }

    pub fn get_mut(&mut self) -> &mut [f64] {
        self.0
    }
}

/// Document 01's header word.
fn word(p: &Poly) -> u64 {
    let fields = (0..4).fold(p.vars as u64, |w, v| (w << 12) | ((p.limits[v] as u64 - 1) << 6) | (p.lengths[v] as u64 - 1));
    fields << 13
}

/// The header word that a call answered.
fn told(answer: Result<u64, taylor::Refusal>) -> u64 {
    answer.unwrap_or_else(|refusal| panic!("{refusal:?}"))
}

/// Operands, result and scratch of one case; `head` is the last answer.
pub struct Ours {
    ah: u64,
    a: Aligned,
    bh: u64,
    b: Aligned,
    out: Aligned,
    scratch: Aligned,
    head: u64,
}

impl Ours {
    /// n is the announced count of the result.
    pub fn new(a: &Poly, b: &Poly, n: usize) -> Ours {
        Ours {
            ah: word(a),
            a: Aligned::of(&a.coeffs),
            bh: word(b),
            b: Aligned::of(&b.coeffs),
            out: Aligned::new(n),
            scratch: Aligned::new(8 * n),
            head: 0,
        }
    }

    pub fn multiply(&mut self) {
        let (a, b, out, scratch) = (self.a.get(), self.b.get(), self.out.get_mut(), self.scratch.get_mut());
        self.head = told(taylor::multiply(self.ah, a, self.bh, b, out, scratch));
    }

    /// The same by plain Rust that keeps the promise.
    pub fn multiply_kept(&mut self) {
        let (a, b, out, scratch) = (self.a.get(), self.b.get(), self.out.get_mut(), self.scratch.get_mut());
        self.head = crate::kept::multiply(self.ah, a, self.bh, b, out, scratch).unwrap_or_else(|number| panic!("refused: {number}"));
    }

    pub fn pow(&mut self) {
        let (a, out, scratch) = (self.a.get(), self.out.get_mut(), self.scratch.get_mut());
        self.head = told(taylor::pow(self.ah, a, 10, out, scratch));
    }

    pub fn subst_var(&mut self) {
        let (a, b, out, scratch) = (self.a.get(), self.b.get(), self.out.get_mut(), self.scratch.get_mut());
        self.head = told(taylor::subst_var(self.ah, a, self.bh, b, 0, out, scratch));
    }

    /// The header word and the stored coefficients.
    pub fn answer(&self) -> (u64, Vec<u64>) {
        let h = self.head;
        let stored: usize = (0..4).map(|v| (h >> (13 + 12 * (3 - v)) & 63) as usize + 1).product();
        (h, self.out.get()[..stored].iter().map(|x| x.to_bits()).collect())
    }
}

/// What a plain polynomial would be as an answer.
pub fn answer_of(p: &Poly) -> (u64, Vec<u64>) {
    (word(p), p.coeffs.iter().map(|x| x.to_bits()).collect())
}
