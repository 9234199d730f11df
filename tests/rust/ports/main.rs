// Prints what the Rust answers for the cases of crates/port_replay, given on standard input, in the same lines: the crate's file stdout.
use std::io::Read;

use bech32::primitives::decode::{CharError, CheckedHrpstring, CheckedHrpstringError, ChecksumError, PaddingError, UncheckedHrpstringError};
use bech32::primitives::hrp::Error as HrpError;
use bech32::primitives::iter::{ByteIterExt, Fe32IterExt};
use bech32::primitives::segwit::{validate_witness_program_length, validate_witness_version, WitnessLengthError};
use bech32::{segwit, Bech32, Bech32m, Checksum, Fe32, Hrp};

// The room that is lent, and what it holds before.
const ROOM: usize = 64;
const MARK: u8 = 170;

/// Document 01's number where something is refused.
type Answer<T> = Result<T, u8>;

fn main() {
    let mut given = Vec::new();
    std::io::stdin().read_to_end(&mut given).unwrap();
    let mut rest = &given[..];
    while !rest.is_empty() {
        let (head, tail) = rest.split_at(6);
        let length = |low: u8, high: u8| usize::from(low) + 256 * usize::from(high);
        let (a, tail) = tail.split_at(length(head[2], head[3]));
        let (b, tail) = tail.split_at(length(head[4], head[5]));
        rest = tail;
        print!("{} {} {} {}", head[0] as char, head[1], hex(a), hex(b));
        match head[0] {
            b'r' => read(a),
            b'w' => write(head[1], a, b),
            b'p' => compare(a, b),
            _ => regroup(a, b),
        }
        println!();
    }
}

// ---- decode

fn read(s: &[u8]) {
    let s = std::str::from_utf8(s).unwrap();
    read_under::<Bech32>(s);
    read_under::<Bech32m>(s);
}

fn read_under<Ck: Checksum>(s: &str) {
    let read = CheckedHrpstring::new::<Ck>(s).map_err(|e| match e {
        CheckedHrpstringError::Parse(UncheckedHrpstringError::Char(CharError::InvalidChar(_))) => 1,
        CheckedHrpstringError::Parse(UncheckedHrpstringError::Char(CharError::MixedCase)) => 2,
        CheckedHrpstringError::Parse(UncheckedHrpstringError::Char(CharError::MissingSeparator)) => 3,
        CheckedHrpstringError::Parse(UncheckedHrpstringError::Hrp(e)) => of_prefix(e),
        CheckedHrpstringError::Checksum(ChecksumError::CodeLength(_)) => 7,
        CheckedHrpstringError::Checksum(ChecksumError::InvalidLength) => 8,
        CheckedHrpstringError::Checksum(ChecksumError::InvalidResidue(_)) => 9,
        e => panic!("{e:?}"),
    });
    let (prefix, data) = match &read {
        Ok(read) => (read.hrp().as_bytes().to_vec(), read.data_part_ascii_no_checksum()),
        Err(_) => (Vec::new(), &[][..]),
    };
    print!(" {} {}", hex(&prefix), hex(data));
    into_room(read.map(|read| read.fe32_iter().map(Fe32::to_u8).collect()));
}

// ---- encode

fn write(version: u8, prefix: &[u8], bytes: &[u8]) {
    let prefix = Hrp::parse(std::str::from_utf8(prefix).unwrap()).map_err(of_prefix);
    length(prefix.and_then(|hrp| bech32::encoded_length::<Bech32>(hrp, bytes).map_err(|_| 7)));
    length(prefix.and_then(|hrp| address_length(hrp, version, bytes)));
    into_room(prefix.and_then(|hrp| segwit::encode_v0(hrp, bytes).map(String::into_bytes).map_err(of_address)));
    into_room(prefix.and_then(|hrp| segwit::encode_v1(hrp, bytes).map(String::into_bytes).map_err(of_address)));
}

// The Rust's own length asks neither the version nor the program (docs/DIFFERENCES.md): the first three lines of its segwit::encode do.
fn address_length(hrp: Hrp, version: u8, program: &[u8]) -> Answer<usize> {
    let version = Fe32::try_from(version).unwrap();
    validate_witness_version(version).map_err(|_| 12)?;
    validate_witness_program_length(program.len(), version).map_err(of_length)?;
    segwit::encoded_length(hrp, version, program).map_err(|_| 10)
}

// ---- hrp

fn compare(a: &[u8], b: &[u8]) {
    let [a, b] = [a, b].map(|prefix| Hrp::parse(std::str::from_utf8(prefix).unwrap()).unwrap());
    let networks = [a.is_valid_on_mainnet(), a.is_valid_on_testnet(), a.is_valid_on_regtest()];
    assert_eq!(a.is_valid_on_testnet(), a.is_valid_on_signet());
    let network = networks.iter().position(|is| *is).unwrap_or(3);
    print!(" {} {} {} {}", a.cmp(&b) as i8 + 1, u8::from(a == b), network, u8::from(a.is_valid_segwit()));
}

// ---- iter

fn regroup(symbols: &[u8], bytes: &[u8]) {
    let symbols: Vec<Fe32> = symbols.iter().map(|v| Fe32::try_from(*v).unwrap()).collect();
    print!(" {}", padding(&symbols));
    into_room(Ok(symbols.iter().copied().fes_to_bytes().collect()));
    let mut walk = symbols.iter().copied().fes_to_bytes();
    while let Some(byte) = walk.next() {
        print!(" {byte}");
    }
    let mut walk = bytes.iter().copied().bytes_to_fes();
    while let Some(symbol) = walk.next() {
        print!(" {}", symbol.to_u8());
    }
}

// The Rust asks the padding of a string's data part, so a string is made of the symbols.
fn padding(symbols: &[Fe32]) -> u8 {
    let hrp = Hrp::parse("a").unwrap();
    let text: String = symbols.iter().copied().with_checksum::<Bech32m>(&hrp).chars().collect();
    match CheckedHrpstring::new::<Bech32m>(&text).unwrap().validate_segwit_padding() {
        Ok(()) => 0,
        Err(PaddingError::TooMuch) => 13,
        Err(PaddingError::NonZero) => 14,
        Err(e) => panic!("{e:?}"),
    }
}

// ---- numbers

fn of_prefix(e: HrpError) -> u8 {
    match e {
        HrpError::Empty => 4,
        HrpError::TooLong(_) => 5,
        HrpError::NonAsciiChar(_) | HrpError::InvalidAsciiByte(_) => 6,
        HrpError::MixedCase => 2,
        e => panic!("{e:?}"),
    }
}

fn of_length(e: WitnessLengthError) -> u8 {
    match e {
        WitnessLengthError::TooShort | WitnessLengthError::TooLong => 15,
        WitnessLengthError::InvalidSegwitV0 => 16,
        e => panic!("{e:?}"),
    }
}

fn of_address(e: segwit::EncodeError) -> u8 {
    match e {
        segwit::EncodeError::WitnessVersion(_) => 12,
        segwit::EncodeError::WitnessLength(e) => of_length(e),
        segwit::EncodeError::TooLong(_) => 10,
        e => panic!("{e:?}"),
    }
}

// ---- what is printed

fn length(answer: Answer<usize>) {
    print!(" {} {}", answer.err().unwrap_or(0), answer.unwrap_or(0));
}

/// The Rust gives a list of its own. In lent room it stands at the start, and is refused with 17 where there is too little.
fn into_room(answer: Answer<Vec<u8>>) {
    let answer = answer.and_then(|list| if ROOM < list.len() { Err(17) } else { Ok(list) });
    length(answer.as_ref().map(Vec::len).map_err(|number| *number));
    let mut room = answer.unwrap_or_default();
    room.resize(ROOM, MARK);
    print!(" {}", hex(&room));
}

fn hex(bytes: &[u8]) -> String { bytes.iter().map(|byte| format!("{byte:02x}")).collect() }
