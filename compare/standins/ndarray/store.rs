//! The three ways of holding an array: its own memory, a shared view and a view that may be written.

use std::marker::PhantomData;

/// Memory that a layout's places count from. A store's layout is made by the constructors and reshapings of this crate
/// alone, so that every place of it lies in the memory, and no two views that may be written have a place in common.
pub trait Data {
    type Elem;
    fn start(&self) -> *const Self::Elem;
}

pub trait DataMut: Data {
    fn start_mut(&mut self) -> *mut Self::Elem;
}

#[derive(Clone)]
pub struct Owned<T>(pub(crate) Vec<T>);

pub struct Shared<'a, T>(pub(crate) *const T, pub(crate) PhantomData<&'a T>);

pub struct Lent<'a, T>(pub(crate) *mut T, pub(crate) PhantomData<&'a mut T>);

impl<T> Data for Owned<T> {
    type Elem = T;
    fn start(&self) -> *const T {
        self.0.as_ptr()
    }
}

impl<T> DataMut for Owned<T> {
    fn start_mut(&mut self) -> *mut T {
        self.0.as_mut_ptr()
    }
}

impl<T> Data for Shared<'_, T> {
    type Elem = T;
    fn start(&self) -> *const T {
        self.0
    }
}

impl<T> Data for Lent<'_, T> {
    type Elem = T;
    fn start(&self) -> *const T {
        self.0
    }
}

impl<T> DataMut for Lent<'_, T> {
    fn start_mut(&mut self) -> *mut T {
        self.0
    }
}
