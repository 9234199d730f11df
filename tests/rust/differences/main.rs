// Prints what the Rust does where docs/DIFFERENCES.md says that it does otherwise, a line each. Built without an allocator, with debug checks and
// without them.
use std::fmt::Debug;
use std::panic::{catch_unwind, set_hook, UnwindSafe};

use bech32::primitives::checksum::PackedFe32;
use bech32::primitives::decode::{CheckedHrpstring, UncheckedHrpstring};
use bech32::primitives::iter::{ByteIterExt, Fe32IterExt};
use bech32::primitives::{Field, LfsrIter};
use bech32::{Bech32, Bech32m, Fe1024, Fe32, Hrp};

type Inside = LfsrIter<Fe1024>;

fn show<T: Debug>(what: &str, f: impl FnOnce() -> T + UnwindSafe) {
    match catch_unwind(f) {
        Ok(given) => println!("{what}: {given:?}"),
        Err(_) => println!("{what}: panics"),
    }
}

fn polynomial(numbers: &[u8]) -> Vec<Fe1024> {
    numbers.iter().map(|n| Fe1024::new([Fe32::try_from(*n).unwrap(), Fe32::Q])).collect()
}

fn segwit_length(version: u8, bytes: usize) -> usize {
    bech32::segwit::encoded_length(Hrp::parse("bc").unwrap(), Fe32::try_from(version).unwrap(), &[0; 21][..bytes]).unwrap()
}

fn main() {
    set_hook(Box::new(|_| {}));
    show("0 / 0 in GF(32)", || (Fe32::Q / Fe32::Q).to_u8());
    show("1 / 0 in GF(32)", || Fe32::P / Fe32::Q);
    show("inverse of 0 in GF(1024) is 0", || Inside::inverse_of_zero() == Fe1024::ZERO);
    show("1 / 0 in GF(1024) is 0", || Fe1024::ONE / Fe1024::ZERO == Fe1024::ZERO);
    show("a symbol over 31 is refused", || Fe32::try_from(32u8).is_err());
    show("the largest element of GF(1024)", || Fe1024::new([Fe32::L, Fe32::L]).to_string());
    show("eight pushes", || Inside::pushes(8));
    show("pop from the empty list", || Inside::pop_from_empty().is_none());
    show("pop_front from the empty list", || Inside::pop_front_from_empty().is_none());
    show("a place outside", || Inside::place_outside());
    show("pointwise product of unlike lengths", || Inside::pointwise_unlike());
    show("from_powers(b, 1)", || Inside::powers(1));
    show("degree of the empty list", || Inside::degree(&[]));
    show("zero_is_root of x", || Inside::zero_is_root(&polynomial(&[0, 1])));
    show("derivative of x^2, its length", || Inside::derivative_length(&polynomial(&[0, 0, 1])));
    show("value of the empty list is zero", || Inside::value_is_zero(&[]));
    show("derivative of the empty list, its length", || Inside::derivative_length(&[]));
    show("convolution of the empty list and [1], its length", || Inside::convolution_length(&[], &polynomial(&[1])));
    show("[1, 2] times [3, 4], its length", || Inside::product_length(&polynomial(&[1, 2]), &polynomial(&[3, 4]), 99));
    show("[1, 2] times [3, 4] ends in zero", || Inside::product_ends_in_zero(&polynomial(&[1, 2]), &polynomial(&[3, 4]), 99));
    show("[1, 0, 1] times [1] modulo x^2, its length", || Inside::product_length(&polynomial(&[1, 0, 1]), &polynomial(&[1]), 2));
    show("[1, 0, 1] times [1] modulo x^2 ends in zero", || Inside::product_ends_in_zero(&polynomial(&[1, 0, 1]), &polynomial(&[1]), 2));
    show("[0] times [5], its length", || Inside::product_length(&polynomial(&[0]), &polynomial(&[5]), 99));
    show("x^3 times x^3, its length", || Inside::product_length(&polynomial(&[0, 0, 0, 1]), &polynomial(&[0, 0, 0, 1]), 99));
    show("x^3 times x^3 ends in zero", || Inside::product_ends_in_zero(&polynomial(&[0, 0, 0, 1]), &polynomial(&[0, 0, 0, 1]), 99));
    show("[1] times the empty list, its length", || Inside::product_length(&polynomial(&[1]), &[], 99));
    show("the empty list times [1], its length", || Inside::product_length(&[], &polynomial(&[1]), 99));
    show("roots of the empty list", || Inside::roots(&[], Fe1024::ONE));
    show("roots of x with base 0", || Inside::roots(&polynomial(&[0, 1]), Fe1024::ZERO));
    show("roots of [1, 1] with base 1", || Inside::roots(&polynomial(&[1, 1]), Fe1024::ONE));
    show("len of a walk over one byte after its first symbol", || {
        let mut walk = [0u8].iter().copied().bytes_to_fes();
        walk.next();
        (walk.len(), walk.count())
    });
    show("witness_version of a1, unchecked", || UncheckedHrpstring::new("a1").unwrap().witness_version().is_none());
    show("witness_version of a12uel5l, checked", || CheckedHrpstring::new::<Bech32>("a12uel5l").unwrap().witness_version().is_none());
    show("remove_checksum of a1", || UncheckedHrpstring::new("a1").unwrap().remove_checksum::<Bech32>().data_part_ascii_no_checksum().len());
    show("encoded_length, version 17 and 2 bytes", || segwit_length(17, 2));
    show("encoded_length, version 1 and no bytes", || segwit_length(1, 0));
    show("encoded_length, version 0 and 21 bytes", || segwit_length(0, 21));
    show("with_witness_version of 17", || {
        let (bc, program) = (Hrp::parse("bc").unwrap(), [0u8; 2]);
        program.iter().copied().bytes_to_fes().with_checksum::<Bech32m>(&bc).with_witness_version(Fe32::_3).chars().collect::<String>()
    });
    show("unpack of 2^32 - 1 at 6", || u32::MAX.unpack(6));
    show("unpack of 2^32 - 1 at 7", || u32::MAX.unpack(7));
    show("the empty prefix is refused", || Hrp::parse("").is_err());
    show("from_char_unchecked of b", || Fe32::from_char_unchecked(b'b').to_u8());
    show("from_char_unchecked of 200", || Fe32::from_char_unchecked(200).to_u8());
}
