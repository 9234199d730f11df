//! Stands in for the module of the Rust crate that is not at hand, and opens the private lists and polynomials beside it to differences/main.rs.
//! What it calls is the crate's own, unchanged.
use super::{Field, FieldVec, Polynomial};
use crate::Fe1024;

/// A stub.
pub struct LfsrIter<F>(core::marker::PhantomData<F>);

impl<F: Field> LfsrIter<F> {
    /// A stub.
    pub fn berlekamp_massey(_: &[F]) -> Self { unimplemented!() }

    pub(crate) fn coefficient_polynomial(&self) -> Polynomial<F> { unimplemented!() }
}

fn of(cs: &[Fe1024]) -> Polynomial<Fe1024> { cs.iter().cloned().collect() }

fn list(n: usize) -> FieldVec<Fe1024> {
    let mut ones = FieldVec::new();
    for _ in 0..n {
        ones.push(Fe1024::ONE);
    }
    ones
}

#[allow(missing_docs)]
impl LfsrIter<Fe1024> {
    pub fn inverse_of_zero() -> Fe1024 { Fe1024::ZERO.multiplicative_inverse() }

    pub fn pushes(n: usize) -> usize { list(n).len() }

    pub fn pop_from_empty() -> Option<Fe1024> { list(0).pop() }

    pub fn pop_front_from_empty() -> Option<Fe1024> { list(0).pop_front() }

    pub fn place_outside() -> Fe1024 { list(0)[0].clone() }

    pub fn pointwise_unlike() -> usize {
        let mut one = list(1);
        one.mul_assign_pointwise(&list(0));
        one.len()
    }

    pub fn powers(n: usize) -> usize { FieldVec::from_powers(Fe1024::ONE, n).len() }

    pub fn degree(cs: &[Fe1024]) -> usize { of(cs).degree() }

    pub fn zero_is_root(cs: &[Fe1024]) -> bool { of(cs).zero_is_root() }

    pub fn derivative_length(cs: &[Fe1024]) -> usize { of(cs).formal_derivative().as_inner().len() }

    pub fn value_is_zero(cs: &[Fe1024]) -> bool { of(cs).evaluate(&Fe1024::ONE) == Fe1024::ZERO }

    pub fn convolution_length(a: &[Fe1024], s: &[Fe1024]) -> usize { of(a).convolution(&of(s)).as_inner().len() }

    pub fn product_length(a: &[Fe1024], b: &[Fe1024], d: usize) -> usize { of(a).mul_mod_x_d(&of(b), d).as_inner().len() }

    pub fn product_ends_in_zero(a: &[Fe1024], b: &[Fe1024], d: usize) -> bool {
        let product = of(a).mul_mod_x_d(&of(b), d);
        let inner = product.as_inner();
        inner[inner.len() - 1] == Fe1024::ZERO
    }

    /// The first three exponents, 9999 where there is none.
    pub fn roots(cs: &[Fe1024], base: Fe1024) -> [usize; 3] {
        let mut found = [9999; 3];
        for (place, root) in found.iter_mut().zip(of(cs).find_nonzero_distinct_roots(base)) {
            *place = root;
        }
        found
    }
}
