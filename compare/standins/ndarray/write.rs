//! What can be done with an array that may be written.

use crate::layout::Layout;
use crate::read::{sliced, sliced_each};
use crate::store::{Data, DataMut};
use crate::{lent, ArrayBase, ArrayD, ArrayViewMutD, Axis, AxisDescription, Slice};
use num_traits::Zero;

impl<T: Clone + Zero> ArrayD<T> {
    pub fn zeros(shape: impl AsRef<[usize]>) -> Self {
        let shape = shape.as_ref();
        ArrayD::block(shape, vec![T::zero(); shape.iter().product()])
    }
}

impl<S: DataMut> ArrayBase<S> {
    pub fn view_mut(&mut self) -> ArrayViewMutD<'_, S::Elem> {
        self.lend(self.layout)
    }

    fn lend(&mut self, layout: Layout) -> ArrayViewMutD<'_, S::Elem> {
        lent(self.store.start_mut(), layout)
    }

    pub fn iter_mut(&mut self) -> impl ExactSizeIterator<Item = &mut S::Elem> {
        let start = self.store.start_mut();
        // Every place of the layout lies in the memory and comes once (store.rs); `self` keeps it borrowed.
        self.layout.places().map(move |place| unsafe { &mut *start.add(place) })
    }

    pub fn first_mut(&mut self) -> Option<&mut S::Elem> {
        self.iter_mut().next()
    }

    pub fn index_axis_mut(&mut self, axis: Axis, index: usize) -> ArrayViewMutD<'_, S::Elem> {
        self.lend(self.layout.row(axis.0, index))
    }

    pub fn slice_axis_mut(&mut self, axis: Axis, range: Slice) -> ArrayViewMutD<'_, S::Elem> {
        self.lend(sliced(self.layout, axis.0, range))
    }

    pub fn slice_each_axis_mut(&mut self, range: impl FnMut(AxisDescription) -> Slice) -> ArrayViewMutD<'_, S::Elem> {
        self.lend(sliced_each(self.layout, range))
    }

    pub fn axis_iter_mut(&mut self, axis: Axis) -> impl Iterator<Item = ArrayViewMutD<'_, S::Elem>> {
        let (start, layout) = (self.store.start_mut(), self.layout);
        (0..layout.shape()[axis.0]).map(move |i| lent(start, layout.row(axis.0, i)))
    }

    pub fn fill(&mut self, x: S::Elem)
    where
        S::Elem: Clone,
    {
        self.iter_mut().for_each(|y| *y = x.clone());
    }

    pub fn map_inplace<'a>(&'a mut self, f: impl FnMut(&'a mut S::Elem))
    where
        S: 'a,
    {
        self.iter_mut().for_each(f);
    }

    pub fn map_mut<'a, B>(&'a mut self, f: impl FnMut(&'a mut S::Elem) -> B) -> ArrayD<B>
    where
        S: 'a,
    {
        let shape = self.layout;
        ArrayD::block(shape.shape(), self.iter_mut().map(f).collect())
    }

    pub fn assign<R: Data<Elem = S::Elem>>(&mut self, from: &ArrayBase<R>)
    where
        S::Elem: Clone,
    {
        self.each_with(from, |x, y| *x = y.clone());
    }

    /// Every element with the one at its place in another array, which is broadcast to this one's shape.
    pub(crate) fn each_with<R: Data>(&mut self, other: &ArrayBase<R>, mut f: impl FnMut(&mut S::Elem, &R::Elem)) {
        let layout = other.layout.broadcast(self.shape());
        let start = other.store.start();
        for (x, place) in self.iter_mut().zip(layout.places()) {
            // A broadcast layout has the places of the layout that it is made from.
            f(x, unsafe { &*start.add(place) });
        }
    }
}

impl<'a, T> ArrayViewMutD<'a, T> {
    /// Two views without a place in common: the rows before `index`, and the rest.
    pub fn split_at(mut self, axis: Axis, index: usize) -> (Self, Self) {
        let (start, layout) = (self.store.start_mut(), self.layout);
        let low = layout.part(axis.0, 0, index);
        let high = layout.part(axis.0, index, layout.shape()[axis.0]);
        (lent(start, low), lent(start, high))
    }
}
