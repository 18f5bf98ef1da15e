//! A stand-in for the parts of crate ndarray that the source uses, written from its public description. It moves data:
//! what it computes on elements is what the source's text asks for at that place (a closure, `+=`, `-=`, `-`), one
//! element after the other, and `sum_axis`, whose order the text leaves open: here upwards from zero, as document 01
//! decides.

mod elementwise;
mod layout;
mod read;
mod slice;
mod store;
mod write;

use layout::Layout;
use std::marker::PhantomData;
use store::{Lent, Owned, Shared};

pub use slice::{indices, Axis, AxisDescription, IxDyn, Slice};

pub struct ArrayBase<S> {
    store: S,
    layout: Layout,
}

pub type ArrayD<T> = ArrayBase<Owned<T>>;
pub type ArrayViewD<'a, T> = ArrayBase<Shared<'a, T>>;
pub type ArrayViewMutD<'a, T> = ArrayBase<Lent<'a, T>>;

pub mod prelude {
    pub use crate::{arr0, array, ArrayD, ArrayViewD, ArrayViewMutD, Axis};
}

#[derive(Debug)]
pub struct ShapeError;

/// An array without axes.
pub fn arr0<T>(x: T) -> ArrayD<T> {
    ArrayD::block(&[], vec![x])
}

#[macro_export]
macro_rules! array {
    ($($x:expr),* $(,)?) => { $crate::ArrayD::from(vec![$($x),*]) };
}

impl<T> From<Vec<T>> for ArrayD<T> {
    fn from(row: Vec<T>) -> Self {
        ArrayD::block(&[row.len()], row)
    }
}

impl<T, const N: usize> From<Vec<[T; N]>> for ArrayD<T> {
    fn from(rows: Vec<[T; N]>) -> Self {
        ArrayD::block(&[rows.len(), N], rows.into_iter().flatten().collect())
    }
}

impl<T> ArrayD<T> {
    fn block(shape: &[usize], data: Vec<T>) -> Self {
        let layout = Layout::block(shape);
        assert!(layout.count() == data.len(), "elements unlike the shape");
        ArrayBase { store: Owned(data), layout }
    }

    pub fn from_shape_vec(shape: Vec<usize>, data: Vec<T>) -> Result<Self, ShapeError> {
        if shape.iter().product::<usize>() != data.len() {
            return Err(ShapeError);
        }
        Ok(Self::block(&shape, data))
    }

    pub fn into_dyn(self) -> Self {
        self
    }

    /// The same elements in another shape of as many.
    pub fn into_shape(self, shape: Vec<usize>) -> Result<Self, ShapeError>
    where
        T: Clone,
    {
        Self::from_shape_vec(shape, self.iter().cloned().collect())
    }
}

/// A shared view of memory that outlives it.
fn shared<'a, T>(start: *const T, layout: Layout) -> ArrayViewD<'a, T> {
    ArrayBase { store: Shared(start, PhantomData), layout }
}

/// A view that may be written, of memory that outlives it.
fn lent<'a, T>(start: *mut T, layout: Layout) -> ArrayViewMutD<'a, T> {
    ArrayBase { store: Lent(start, PhantomData), layout }
}
