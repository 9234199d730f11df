//! Stands in for the module of the Rust crate that is not at hand, and opens the private polynomials beside it to fields/main.rs. What it
//! calls is the crate's own, unchanged.
use super::{Field, Polynomial};
use crate::Fe1024;

/// A stub.
pub struct LfsrIter<F>(core::marker::PhantomData<F>);

impl<F: Field> LfsrIter<F> {
    /// A stub.
    pub fn berlekamp_massey(_: &[F]) -> Self { unimplemented!() }

    pub(crate) fn coefficient_polynomial(&self) -> Polynomial<F> { unimplemented!() }
}

fn of(cs: &[Fe1024]) -> Polynomial<Fe1024> { cs.iter().copied().collect() }

#[allow(missing_docs)]
impl LfsrIter<Fe1024> {
    pub fn degree(cs: &[Fe1024]) -> usize { of(cs).degree() }

    pub fn leading_term(cs: &[Fe1024]) -> Fe1024 { of(cs).leading_term() }

    pub fn evaluate(cs: &[Fe1024], x: Fe1024) -> Fe1024 { of(cs).evaluate(&x) }

    pub fn formal_derivative(cs: &[Fe1024]) -> Vec<Fe1024> { of(cs).formal_derivative().as_inner()[..].to_vec() }

    pub fn mul_mod_x_d(a: &[Fe1024], b: &[Fe1024], d: usize) -> Vec<Fe1024> {
        of(a).mul_mod_x_d(&of(b), d).as_inner()[..].to_vec()
    }

    pub fn convolution(a: &[Fe1024], s: &[Fe1024]) -> Vec<Fe1024> { of(a).convolution(&of(s)).as_inner()[..].to_vec() }

    pub fn roots(cs: &[Fe1024], base: Fe1024) -> Vec<usize> { of(cs).find_nonzero_distinct_roots(base).collect() }

    pub fn from_residue(residue: u32) -> Vec<crate::Fe32> {
        Polynomial::from_residue(residue).as_inner()[..].to_vec()
    }
}
