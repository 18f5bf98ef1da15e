//! Operators on whole arrays, one element after the other; equality and text.

use crate::store::{Data, DataMut, Owned};
use crate::{ArrayBase, ArrayD, IxDyn};
use std::fmt::{Display, Formatter, Result};
use std::ops::{AddAssign, Index, Neg, SubAssign};

impl<S: DataMut, R: Data<Elem = S::Elem>> AddAssign<&ArrayBase<R>> for ArrayBase<S>
where
    S::Elem: Clone + AddAssign,
{
    fn add_assign(&mut self, other: &ArrayBase<R>) {
        self.each_with(other, |x, y| *x += y.clone());
    }
}

impl<S: DataMut, R: Data<Elem = S::Elem>> SubAssign<&ArrayBase<R>> for ArrayBase<S>
where
    S::Elem: Clone + SubAssign,
{
    fn sub_assign(&mut self, other: &ArrayBase<R>) {
        self.each_with(other, |x, y| *x -= y.clone());
    }
}

impl<T: Clone + Neg<Output = T>> Neg for ArrayD<T> {
    type Output = Self;

    fn neg(mut self) -> Self {
        self.map_inplace(|x| *x = -x.clone());
        self
    }
}

impl<T: Clone> Clone for ArrayD<T> {
    fn clone(&self) -> Self {
        ArrayBase { store: Owned(self.store.0.clone()), layout: self.layout }
    }
}

impl<T: PartialEq> PartialEq for ArrayD<T> {
    fn eq(&self, other: &Self) -> bool {
        self.shape() == other.shape() && self.iter().eq(other.iter())
    }
}

impl<T: Eq> Eq for ArrayD<T> {}

impl<S: Data> Index<&IxDyn> for ArrayBase<S> {
    type Output = S::Elem;

    fn index(&self, index: &IxDyn) -> &S::Elem {
        let numbers = index.as_array_view();
        assert!(numbers.len() == self.ndim(), "an index unlike the shape");
        let place = numbers.iter().zip(self.shape()).fold(0, |place, (i, len)| {
            assert!(i < len, "an index outside the axis");
            place * len + i
        });
        self.iter().nth(place).expect("an element at every index")
    }
}

impl<T: Display> Display for ArrayD<T> {
    fn fmt(&self, f: &mut Formatter<'_>) -> Result {
        let elements: Vec<String> = self.iter().map(T::to_string).collect();
        write!(f, "{:?}: [{}]", self.shape(), elements.join(", "))
    }
}
