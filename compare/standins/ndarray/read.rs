//! What can be done with any array: ask for its shape, look at elements and parts, drop or add axes in place, copy.

use crate::layout::Layout;
use crate::store::Data;
use crate::{shared, ArrayBase, ArrayD, ArrayViewD, Axis, AxisDescription, Slice};
use num_traits::Zero;
use std::ops::Add;

pub(crate) fn sliced(layout: Layout, axis: usize, range: Slice) -> Layout {
    layout.part(axis, range.start, range.end.unwrap_or(layout.shape()[axis]))
}

pub(crate) fn sliced_each(layout: Layout, mut range: impl FnMut(AxisDescription) -> Slice) -> Layout {
    (0..layout.shape().len()).fold(layout, |part, axis| {
        let (len, stride) = (layout.shape()[axis], layout.step(axis) as isize);
        sliced(part, axis, range(AxisDescription { axis: Axis(axis), len, stride }))
    })
}

impl<S: Data> ArrayBase<S> {
    pub fn ndim(&self) -> usize {
        self.layout.shape().len()
    }

    pub fn shape(&self) -> &[usize] {
        self.layout.shape()
    }

    pub fn len(&self) -> usize {
        self.layout.count()
    }

    pub fn is_empty(&self) -> bool {
        self.len() == 0
    }

    pub fn len_of(&self, axis: Axis) -> usize {
        self.shape()[axis.0]
    }

    pub fn view(&self) -> ArrayViewD<'_, S::Elem> {
        self.seen(self.layout)
    }

    fn seen(&self, layout: Layout) -> ArrayViewD<'_, S::Elem> {
        shared(self.store.start(), layout)
    }

    pub fn iter(&self) -> impl ExactSizeIterator<Item = &S::Elem> {
        let start = self.store.start();
        // Every place of the layout lies in the memory (store.rs), which `self` keeps borrowed.
        self.layout.places().map(move |place| unsafe { &*start.add(place) })
    }

    pub fn first(&self) -> Option<&S::Elem> {
        self.iter().next()
    }

    pub fn index_axis(&self, axis: Axis, index: usize) -> ArrayViewD<'_, S::Elem> {
        self.seen(self.layout.row(axis.0, index))
    }

    pub fn slice_axis(&self, axis: Axis, range: Slice) -> ArrayViewD<'_, S::Elem> {
        self.seen(sliced(self.layout, axis.0, range))
    }

    pub fn slice_each_axis(&self, range: impl FnMut(AxisDescription) -> Slice) -> ArrayViewD<'_, S::Elem> {
        self.seen(sliced_each(self.layout, range))
    }

    pub fn axis_iter(&self, axis: Axis) -> impl DoubleEndedIterator<Item = ArrayViewD<'_, S::Elem>> {
        (0..self.len_of(axis)).map(move |i| self.index_axis(axis, i))
    }

    pub fn axis_chunks_iter(&self, axis: Axis, size: usize) -> impl DoubleEndedIterator<Item = ArrayViewD<'_, S::Elem>> {
        let len = self.len_of(axis);
        (0..len.div_ceil(size)).map(move |i| self.slice_axis(axis, Slice::from(i * size..len.min((i + 1) * size))))
    }

    pub fn index_axis_inplace(&mut self, axis: Axis, index: usize) {
        self.layout = self.layout.row(axis.0, index);
    }

    pub fn slice_axis_inplace(&mut self, axis: Axis, range: Slice) {
        self.layout = sliced(self.layout, axis.0, range);
    }

    pub fn insert_axis_inplace(&mut self, axis: Axis) {
        self.layout = self.layout.with_axis(axis.0);
    }

    pub fn insert_axis(mut self, axis: Axis) -> Self {
        self.insert_axis_inplace(axis);
        self
    }

    pub fn map<'a, B>(&'a self, f: impl FnMut(&'a S::Elem) -> B) -> ArrayD<B> {
        ArrayD::block(self.shape(), self.iter().map(f).collect())
    }

    pub fn to_owned(&self) -> ArrayD<S::Elem>
    where
        S::Elem: Clone,
    {
        self.map(Clone::clone)
    }

    /// Rows added up along an axis, upwards from zero.
    pub fn sum_axis(&self, axis: Axis) -> ArrayD<S::Elem>
    where
        S::Elem: Clone + Zero + Add<Output = S::Elem>,
    {
        let mut shape = self.shape().to_vec();
        shape.remove(axis.0);
        self.axis_iter(axis).fold(ArrayD::zeros(shape), |sum, row| {
            let added = sum.iter().zip(row.iter()).map(|(s, x)| s.clone() + x.clone()).collect();
            ArrayD::block(sum.shape(), added)
        })
    }
}
