//! Stand-in for the crate `ulib`: a vector that in GEM may also live on a GPU. Here it never does.

use std::ops::Deref;

pub struct UVec<T>(Vec<T>);

impl<T> From<Vec<T>> for UVec<T> {
    fn from(items: Vec<T>) -> Self {
        UVec(items)
    }
}

impl<T> Deref for UVec<T> {
    type Target = [T];

    fn deref(&self) -> &[T] {
        &self.0
    }
}
