/// `extract_linear` is private to this module; the comparison asks for its answer.
pub fn linear_of<T: Number>(p: &TaylorPoly<T>) -> Option<(T, T, usize)> {
    p.extract_linear().map(|(c, m, v)| (c, m, v.id()))
}
