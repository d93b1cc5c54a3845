//! Types that the published files name and that the set views do not use.

use std::marker::PhantomData;

/// A view with its values changed.
#[allow(dead_code)]
pub struct MapView<'a, V, F, U> {
    pub(crate) view: V,
    pub(crate) f: F,
    pub(crate) _marker: PhantomData<&'a U>,
}

/// A view with its values cloned.
#[allow(dead_code)]
pub struct ClonedView<'a, V, T> {
    pub(crate) view: V,
    pub(crate) _marker: PhantomData<&'a T>,
}

/// A view with its values copied.
#[allow(dead_code)]
pub struct CopiedView<'a, V, T> {
    pub(crate) view: V,
    pub(crate) _marker: PhantomData<&'a T>,
}

/// A view that can change values.
pub struct TrieRefMut;
