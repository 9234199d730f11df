//! Stands in for the module of the Rust crate that is not at hand: types that only compile. Nothing that is compared calls it.
use super::{Field, Polynomial};

/// A stub.
pub struct LfsrIter<F>(core::marker::PhantomData<F>);

impl<F: Field> LfsrIter<F> {
    /// A stub.
    pub fn berlekamp_massey(_: &[F]) -> Self {
        unimplemented!()
    }

    pub(crate) fn coefficient_polynomial(&self) -> Polynomial<F> {
        unimplemented!()
    }
}
