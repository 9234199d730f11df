// The Rust crate's readers and writers for callers that know C: each gives document 01's number, 0 for accepted, and its other results
// through pointers. A slice is a pointer and a length; a text that is no UTF-8 gives 255, since the Rust takes none.
use core::slice::{from_raw_parts, from_raw_parts_mut};

use bech32::primitives::decode::{
    CharError, CheckedHrpstring, CheckedHrpstringError, ChecksumError, PaddingError, SegwitHrpstring, SegwitHrpstringError,
    UncheckedHrpstringError,
};
use bech32::primitives::hrp::{Error as HrpError, Hrp};
use bech32::primitives::segwit::WitnessLengthError;
use bech32::{Bech32, Bech32m, Fe32};

const NO_TEXT: u8 = 255;

unsafe fn bytes<'a>(at: *const u8, len: usize) -> &'a [u8] {
    if len == 0 { &[] } else { from_raw_parts(at, len) }
}

fn of_prefix(e: &HrpError) -> u8 {
    match e {
        HrpError::Empty => 4,
        HrpError::TooLong(_) => 5,
        HrpError::NonAsciiChar(_) | HrpError::InvalidAsciiByte(_) => 6,
        HrpError::MixedCase => 2,
        #[allow(unreachable_patterns)]
        _ => 254,
    }
}

fn of_string(e: &UncheckedHrpstringError) -> u8 {
    match e {
        UncheckedHrpstringError::Char(CharError::InvalidChar(_)) => 1,
        UncheckedHrpstringError::Char(CharError::MixedCase) => 2,
        UncheckedHrpstringError::Char(CharError::MissingSeparator) => 3,
        UncheckedHrpstringError::Hrp(e) => of_prefix(e),
        _ => 254,
    }
}

fn of_checksum(e: &ChecksumError) -> u8 {
    match e {
        ChecksumError::CodeLength(_) => 7,
        ChecksumError::InvalidLength => 8,
        ChecksumError::InvalidResidue(_) => 9,
        #[allow(unreachable_patterns)]
        _ => 254,
    }
}

fn of_length(e: &WitnessLengthError) -> u8 {
    match e {
        WitnessLengthError::TooShort | WitnessLengthError::TooLong => 15,
        WitnessLengthError::InvalidSegwitV0 => 16,
        #[allow(unreachable_patterns)]
        _ => 254,
    }
}

fn of_address(e: &SegwitHrpstringError) -> u8 {
    match e {
        SegwitHrpstringError::Unchecked(e) => of_string(e),
        SegwitHrpstringError::TooLong(_) => 10,
        SegwitHrpstringError::NoData => 11,
        SegwitHrpstringError::InvalidWitnessVersion(_) => 12,
        SegwitHrpstringError::Padding(PaddingError::TooMuch) => 13,
        SegwitHrpstringError::Padding(PaddingError::NonZero) => 14,
        SegwitHrpstringError::WitnessLength(e) => of_length(e),
        SegwitHrpstringError::Checksum(e) => of_checksum(e),
        _ => 254,
    }
}

fn checked<'s>(code: u8, s: &'s str) -> Result<CheckedHrpstring<'s>, u8> {
    let read = if code == 1 { CheckedHrpstring::new::<Bech32>(s) } else { CheckedHrpstring::new::<Bech32m>(s) };
    read.map_err(|e| match e {
        CheckedHrpstringError::Parse(e) => of_string(&e),
        CheckedHrpstringError::Checksum(e) => of_checksum(&e),
        #[allow(unreachable_patterns)]
        _ => 254,
    })
}

/// Generic reading: the prefix in lower case, the data part as it stands with the checksum taken off, and its bytes.
#[no_mangle]
pub unsafe extern "C" fn rust_read(
    code: u8, s: *const u8, s_len: usize, prefix: *mut u8, prefix_len: *mut usize, part: *mut u8, part_len: *mut usize, out: *mut u8,
    out_len: *mut usize,
) -> u8 {
    let Ok(s) = core::str::from_utf8(bytes(s, s_len)) else { return NO_TEXT };
    match checked(code, s) {
        Err(n) => n,
        Ok(read) => {
            let lower: Vec<u8> = read.hrp().lowercase_byte_iter().collect();
            put(&lower, prefix, prefix_len);
            put(read.data_part_ascii_no_checksum(), part, part_len);
            let content: Vec<u8> = read.byte_iter().collect();
            put(&content, out, out_len);
            0
        }
    }
}

unsafe fn put(content: &[u8], at: *mut u8, len: *mut usize) {
    from_raw_parts_mut(at, content.len().max(1))[..content.len()].copy_from_slice(content);
    *len = content.len();
}

#[no_mangle]
pub unsafe extern "C" fn rust_read_address(s: *const u8, s_len: usize, version: *mut u8, out: *mut u8, out_len: *mut usize) -> u8 {
    let Ok(s) = core::str::from_utf8(bytes(s, s_len)) else { return NO_TEXT };
    match SegwitHrpstring::new(s) {
        Err(e) => of_address(&e),
        Ok(read) => {
            *version = read.witness_version().to_u8();
            let program: Vec<u8> = read.byte_iter().collect();
            put(&program, out, out_len);
            0
        }
    }
}

/// Verdicts alone, for a benchmark: addresses one after the other, each ended by byte 10, `rounds` times over; the sum of the numbers.
#[no_mangle]
pub unsafe extern "C" fn rust_check_many(text: *const u8, text_len: usize, rounds: usize) -> u64 {
    let text = bytes(text, text_len);
    let mut sum = 0u64;
    for _ in 0..rounds {
        for line in text.split(|b| *b == 10) {
            let s = core::str::from_utf8(line).unwrap_or("");
            sum += match SegwitHrpstring::new(core::hint::black_box(s)) {
                Ok(read) => u64::from(read.witness_version().to_u8()),
                Err(e) => u64::from(of_address(&e)),
            };
        }
    }
    sum
}

/// Generic writing of bytes.
#[no_mangle]
pub unsafe extern "C" fn rust_write_bytes(
    code: u8, prefix: *const u8, prefix_len: usize, content: *const u8, content_len: usize, out: *mut u8, out_len: *mut usize,
) -> u8 {
    let Ok(prefix) = core::str::from_utf8(bytes(prefix, prefix_len)) else { return NO_TEXT };
    let hrp = match Hrp::parse(prefix) {
        Err(e) => return of_prefix(&e),
        Ok(hrp) => hrp,
    };
    let content = bytes(content, content_len);
    let written = if code == 1 { bech32::encode::<Bech32>(hrp, content) } else { bech32::encode::<Bech32m>(hrp, content) };
    match written {
        Err(bech32::EncodeError::TooLong(_)) => 7,
        Err(_) => 254,
        Ok(s) => {
            put(s.as_bytes(), out, out_len);
            0
        }
    }
}

/// Generic writing of symbols: the Rust refuses neither a list that is too long nor, by its types, a symbol over 31.
#[no_mangle]
pub unsafe extern "C" fn rust_write_symbols(
    code: u8, prefix: *const u8, prefix_len: usize, symbols: *const u8, symbols_len: usize, out: *mut u8, out_len: *mut usize,
) -> u8 {
    use bech32::primitives::iter::Fe32IterExt;
    let Ok(prefix) = core::str::from_utf8(bytes(prefix, prefix_len)) else { return NO_TEXT };
    let hrp = match Hrp::parse(prefix) {
        Err(e) => return of_prefix(&e),
        Ok(hrp) => hrp,
    };
    let symbols: Result<Vec<Fe32>, _> = bytes(symbols, symbols_len).iter().map(|v| Fe32::try_from(*v)).collect();
    let Ok(symbols) = symbols else { return 18 };
    let fes = symbols.iter().copied();
    let s: String = if code == 1 {
        fes.with_checksum::<Bech32>(&hrp).chars().collect()
    } else {
        fes.with_checksum::<Bech32m>(&hrp).chars().collect()
    };
    put(s.to_ascii_lowercase().as_bytes(), out, out_len);
    0
}

#[no_mangle]
pub unsafe extern "C" fn rust_write_address(
    prefix: *const u8, prefix_len: usize, version: u8, program: *const u8, program_len: usize, out: *mut u8, out_len: *mut usize,
) -> u8 {
    let Ok(prefix) = core::str::from_utf8(bytes(prefix, prefix_len)) else { return NO_TEXT };
    let hrp = match Hrp::parse(prefix) {
        Err(e) => return of_prefix(&e),
        Ok(hrp) => hrp,
    };
    let Ok(version) = Fe32::try_from(version) else { return 12 };
    match bech32::segwit::encode(hrp, version, bytes(program, program_len)) {
        Err(bech32::segwit::EncodeError::WitnessVersion(_)) => 12,
        Err(bech32::segwit::EncodeError::WitnessLength(e)) => of_length(&e),
        Err(bech32::segwit::EncodeError::TooLong(_)) => 10,
        Err(_) => 254,
        Ok(s) => {
            put(s.as_bytes(), out, out_len);
            0
        }
    }
}
