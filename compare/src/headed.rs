//! Step kind 11 (document 02, W13): the source's own `exp` over floats whose exponential is the one of
//! docs/REFERENCE.md, 4.15, which is written here a second time. All else of these floats is the source's `F64`.

use crate::recipes::Value;
use genfer::multivariate_taylor::TaylorPoly;
use genfer::number::{Number, F64};
use ndarray::ArrayD;
use num_traits::{One, Zero};
use std::fmt::{Display, Formatter, Result};
use std::ops::{Add, AddAssign, Div, DivAssign, Mul, MulAssign, Neg, Sub, SubAssign};

/// From -8 to 8, both among them; a NaN is not.
pub fn has_head(x: f64) -> bool {
    (-8.0..=8.0).contains(&x)
}

/// e^x as e^(x + 9) over e^9, by the first 72 terms of the series.
pub fn head(x: f64) -> f64 {
    let t = x + 9.0;
    (1..=71).rev().fold(1.0, |h, k| 1.0 + t / f64::from(k) * h) / 8103.083927575384
}

/// The exponential of a value whose constant has one.
pub fn exponential((header, coefficients): &Value) -> Value {
    let stored = coefficients.iter().map(|x| Headed(F64::from(*x))).collect();
    let array = ArrayD::from_shape_vec(header.lengths[..header.vars].to_vec(), stored).expect("as many as the lengths say");
    let result = TaylorPoly::new(array, header.limits[..header.vars].to_vec()).exp();
    let lengths = result.array().shape();
    let header = crate::words::Header::new(result.shape(), lengths);
    (header, result.array().iter().map(|x| x.0.to_f64()).collect())
}

#[derive(Copy, Clone, Debug, PartialEq, PartialOrd)]
struct Headed(F64);

impl Number for Headed {
    fn exp(&self) -> Self {
        Headed(head(self.0.to_f64()).into())
    }

    fn log(&self) -> Self {
        Headed(self.0.log())
    }

    fn pow(&self, exp: u32) -> Self {
        Headed(Number::pow(&self.0, exp))
    }

    fn max(&self, other: &Self) -> Self {
        Headed(Number::max(&self.0, &other.0))
    }
}

impl From<u32> for Headed {
    fn from(n: u32) -> Self {
        Headed(n.into())
    }
}

impl Display for Headed {
    fn fmt(&self, f: &mut Formatter<'_>) -> Result {
        self.0.fmt(f)
    }
}

impl Zero for Headed {
    fn zero() -> Self {
        Headed(F64::zero())
    }

    fn is_zero(&self) -> bool {
        self.0.is_zero()
    }
}

impl One for Headed {
    fn one() -> Self {
        Headed(F64::one())
    }
}

impl Neg for Headed {
    type Output = Self;

    fn neg(self) -> Self {
        Headed(-self.0)
    }
}

/// An operator and the one that assigns, each the source's.
macro_rules! operators {
    ($($plain:ident $name:ident $assigning:ident $assign:ident;)*) => {$(
        impl $plain for Headed {
            type Output = Self;

            fn $name(self, other: Self) -> Self {
                Headed(self.0.$name(other.0))
            }
        }

        impl $assigning for Headed {
            fn $assign(&mut self, other: Self) {
                self.0.$assign(other.0);
            }
        }
    )*};
}

operators! {
    Add add AddAssign add_assign;
    Sub sub SubAssign sub_assign;
    Mul mul MulAssign mul_assign;
    Div div DivAssign div_assign;
}
