//! The Rust module, unchanged, over its stand-ins. Its operators take their operands by value, so a call clones them
//! first.
use crate::plain::Poly;
use genfer::multivariate_taylor::TaylorPoly;
use genfer::number::F64;
use genfer::ppl::Var;
use ndarray::ArrayD;

/// Operands and last result of one case.
pub struct Module {
    a: TaylorPoly<F64>,
    b: TaylorPoly<F64>,
    out: Option<TaylorPoly<F64>>,
}

fn of(p: &Poly) -> TaylorPoly<F64> {
    let coeffs = p.coeffs.iter().map(|&x| F64::from(x)).collect();
    let array = ArrayD::from_shape_vec(p.lengths[..p.vars].to_vec(), coeffs).expect("as many as the lengths say");
    TaylorPoly::new(array, p.limits[..p.vars].to_vec())
}

fn padded(n: &[usize]) -> [usize; 4] {
    std::array::from_fn(|v| n.get(v).copied().unwrap_or(1))
}

impl Module {
    pub fn new(a: &Poly, b: &Poly) -> Module {
        Module { a: of(a), b: of(b), out: None }
    }

    pub fn multiply(&mut self) {
        self.out = Some(self.a.clone() * self.b.clone());
    }

    pub fn pow(&mut self) {
        self.out = Some(self.a.pow(10));
    }

    pub fn subst_var(&mut self) {
        self.out = Some(self.a.subst_var(Var(0), &self.b));
    }

    pub fn answer(&self) -> Poly {
        let p = self.out.as_ref().expect("a result");
        Poly {
            vars: p.shape().len(),
            limits: padded(p.shape()),
            lengths: padded(p.array().shape()),
            coeffs: p.array().iter().map(|x| x.to_f64()).collect(),
        }
    }
}
