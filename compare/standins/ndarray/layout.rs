//! Where the elements of an array lie in its memory: a first place, and a length and a step an axis.

/// The most axes that an array has here. (ndarray has no such bound; the source is called with four at most.)
const MOST: usize = 6;

#[derive(Copy, Clone)]
pub struct Layout {
    first: usize,
    axes: usize,
    lengths: [usize; MOST],
    steps: [usize; MOST],
}

impl Layout {
    /// A block with the last axis fastest.
    pub fn block(shape: &[usize]) -> Self {
        let mut layout = Layout { first: 0, axes: shape.len(), lengths: [1; MOST], steps: [0; MOST] };
        let mut step = 1;
        for axis in (0..shape.len()).rev() {
            layout.lengths[axis] = shape[axis];
            layout.steps[axis] = step;
            step *= shape[axis];
        }
        layout
    }

    pub fn shape(&self) -> &[usize] {
        &self.lengths[..self.axes]
    }

    pub fn step(&self, axis: usize) -> usize {
        self.steps[..self.axes][axis]
    }

    pub fn count(&self) -> usize {
        self.shape().iter().product()
    }

    /// The places `start` to `end`, exclusive, of an axis.
    pub fn part(mut self, axis: usize, start: usize, end: usize) -> Self {
        assert!(start <= end && end <= self.shape()[axis], "a part outside the axis");
        self.first += start * self.steps[axis];
        self.lengths[axis] = end - start;
        self
    }

    /// One place of an axis, which is then no axis any more.
    pub fn row(mut self, axis: usize, index: usize) -> Self {
        assert!(index < self.shape()[axis], "an index outside the axis");
        self.first += index * self.steps[axis];
        self.lengths.copy_within(axis + 1.., axis);
        self.steps.copy_within(axis + 1.., axis);
        self.axes -= 1;
        self
    }

    /// A new axis of length 1 before the axis of that number.
    pub fn with_axis(mut self, axis: usize) -> Self {
        assert!(axis <= self.axes && self.axes < MOST, "no room for the axis");
        self.lengths.copy_within(axis..MOST - 1, axis + 1);
        self.steps.copy_within(axis..MOST - 1, axis + 1);
        (self.lengths[axis], self.steps[axis]) = (1, 0);
        self.axes += 1;
        self
    }

    /// The same elements seen in a larger shape: axes are joined from the last on, one of length 1 or a missing one is
    /// repeated.
    pub fn broadcast(&self, shape: &[usize]) -> Self {
        assert!(self.axes <= shape.len(), "more axes than the shape has");
        let mut wide = Layout { first: self.first, ..Layout::block(shape) };
        let missing = shape.len() - self.axes;
        for axis in 0..shape.len() {
            let own = if axis < missing { 1 } else { self.lengths[axis - missing] };
            assert!(own == shape[axis] || own == 1, "lengths that cannot be joined");
            wide.steps[axis] = if own == 1 { 0 } else { self.steps[axis - missing] };
        }
        wide
    }

    /// The place in memory of every element, the last axis fastest.
    pub fn places(self) -> Places {
        Places { layout: self, index: [0; MOST], next: self.first, left: self.count() }
    }
}

pub struct Places {
    layout: Layout,
    index: [usize; MOST],
    next: usize,
    left: usize,
}

impl Iterator for Places {
    type Item = usize;

    fn next(&mut self) -> Option<usize> {
        if self.left == 0 {
            return None;
        }
        self.left -= 1;
        let place = self.next;
        for axis in (0..self.layout.axes).rev() {
            self.index[axis] += 1;
            self.next += self.layout.steps[axis];
            if self.index[axis] < self.layout.lengths[axis] {
                break;
            }
            self.next -= self.index[axis] * self.layout.steps[axis];
            self.index[axis] = 0;
        }
        Some(place)
    }

    fn size_hint(&self) -> (usize, Option<usize>) {
        (self.left, Some(self.left))
    }
}

impl ExactSizeIterator for Places {}
