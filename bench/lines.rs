// The command-line checker over the Rust crate: one address a line from standard input, document 01's number a line to standard output.
use std::io::{Read, Write};

use bech32::primitives::decode::{
    CharError, ChecksumError, PaddingError, SegwitHrpstring, SegwitHrpstringError as Error, UncheckedHrpstringError as Unchecked,
};
use bech32::primitives::hrp::Error as Prefix;
use bech32::primitives::segwit::WitnessLengthError as Length;

fn number(line: &[u8]) -> u8 {
    let Ok(text) = core::str::from_utf8(line) else { return 1 };
    match SegwitHrpstring::new(text) {
        Ok(_) => 0,
        Err(Error::TooLong(_)) => 10,
        Err(Error::Unchecked(Unchecked::Char(CharError::InvalidChar(_)))) => 1,
        Err(Error::Unchecked(Unchecked::Char(CharError::MixedCase))) => 2,
        Err(Error::Unchecked(Unchecked::Char(_))) => 3,
        Err(Error::Unchecked(Unchecked::Hrp(Prefix::Empty))) => 4,
        Err(Error::Unchecked(Unchecked::Hrp(Prefix::TooLong(_)))) => 5,
        Err(Error::Unchecked(_)) => 6,
        Err(Error::NoData) => 11,
        Err(Error::InvalidWitnessVersion(_)) => 12,
        Err(Error::Checksum(ChecksumError::InvalidLength)) => 8,
        Err(Error::Checksum(_)) => 9,
        Err(Error::Padding(PaddingError::TooMuch)) => 13,
        Err(Error::Padding(_)) => 14,
        Err(Error::WitnessLength(Length::InvalidSegwitV0)) => 16,
        Err(_) => 15,
    }
}

fn main() {
    let mut text = Vec::new();
    std::io::stdin().read_to_end(&mut text).unwrap();
    let mut out = Vec::with_capacity(text.len() / 16);
    let mut rest = &text[..];
    while !rest.is_empty() {
        let end = rest.iter().position(|byte| *byte == 10).unwrap_or(rest.len());
        let n = number(&rest[..end]);
        if n > 9 {
            out.push(b'0' + n / 10);
        }
        out.extend_from_slice(&[b'0' + n % 10, 10]);
        rest = &rest[(end + 1).min(rest.len())..];
    }
    std::io::stdout().write_all(&out).unwrap();
}
