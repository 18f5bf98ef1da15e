//! Axes, ranges of an axis and indices, as types.

use std::ops::{Range, RangeFrom, RangeInclusive, RangeTo};

#[derive(Copy, Clone, Debug, PartialEq, Eq)]
pub struct Axis(pub usize);

impl Axis {
    pub fn index(self) -> usize {
        self.0
    }
}

pub struct AxisDescription {
    pub axis: Axis,
    pub len: usize,
    pub stride: isize,
}

/// A range of an axis; without an end it goes to the axis's.
#[derive(Copy, Clone)]
pub struct Slice {
    pub start: usize,
    pub end: Option<usize>,
}

impl From<Range<usize>> for Slice {
    fn from(r: Range<usize>) -> Self {
        Slice { start: r.start, end: Some(r.end) }
    }
}

impl From<RangeInclusive<usize>> for Slice {
    fn from(r: RangeInclusive<usize>) -> Self {
        Slice { start: *r.start(), end: Some(*r.end() + 1) }
    }
}

impl From<RangeFrom<usize>> for Slice {
    fn from(r: RangeFrom<usize>) -> Self {
        Slice { start: r.start, end: None }
    }
}

impl From<RangeTo<usize>> for Slice {
    fn from(r: RangeTo<usize>) -> Self {
        Slice { start: 0, end: Some(r.end) }
    }
}

/// An index, a number an axis.
pub struct IxDyn(Vec<usize>);

impl IxDyn {
    pub fn as_array_view(&self) -> &[usize] {
        &self.0
    }
}

/// Every index of a shape, the last axis fastest.
pub fn indices(shape: &[usize]) -> impl Iterator<Item = IxDyn> {
    let shape = shape.to_vec();
    (0..shape.iter().product()).map(move |place| {
        let mut index = vec![0; shape.len()];
        let mut rest: usize = place;
        for axis in (0..shape.len()).rev() {
            index[axis] = rest % shape[axis];
            rest /= shape[axis];
        }
        IxDyn(index)
    })
}
