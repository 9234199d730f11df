// Times the segwit reader of ours beside the Rust's on the same addresses in memory, in turns, and prints the ratio of the medians.
use bech32::primitives::decode::SegwitHrpstring;
use bech32::{Fe32, Hrp};

extern "C" {
    fn pennywax_apart_check_address(s: *const u8, s_len: usize, version: *mut u8, length: *mut usize) -> u8;
    fn clock() -> i64;
}

fn ours(addresses: &[String]) -> u64 {
    let (mut version, mut length, mut sum) = (0u8, 0usize, 0u64);
    for s in addresses {
        let number = unsafe { pennywax_apart_check_address(s.as_ptr(), s.len(), &mut version, &mut length) };
        sum += u64::from(number) + length as u64;
    }
    sum
}

fn theirs(addresses: &[String]) -> u64 {
    let mut sum = 0u64;
    for s in addresses {
        sum += match SegwitHrpstring::new(core::hint::black_box(s)) {
            Ok(read) => read.byte_iter().len() as u64,
            Err(_) => 1,
        };
    }
    sum
}

fn timed(f: fn(&[String]) -> u64, addresses: &[String]) -> (i64, u64) {
    let began = unsafe { clock() };
    let sum = f(addresses);
    (unsafe { clock() } - began, sum)
}

fn main() {
    let count: usize = std::env::args().nth(1).map_or(1_000_000, |n| n.parse().unwrap());
    let rounds: usize = std::env::args().nth(2).map_or(7, |n| n.parse().unwrap());
    let mut state = 0x9e37_79b9_7f4a_7c15u64;
    let mut next = || {
        state ^= state << 13;
        state ^= state >> 7;
        state ^= state << 17;
        state
    };
    let hrp = Hrp::parse("bc").unwrap();
    let addresses: Vec<String> = (0..count)
        .map(|i| {
            let (version, length) = [(0, 20), (0, 32), (1, 32)][i % 3];
            let program: Vec<u8> = (0..length).map(|_| next() as u8).collect();
            bech32::segwit::encode(hrp, Fe32::try_from(version as u8).unwrap(), &program).unwrap()
        })
        .collect();
    let (mut a, mut b) = (Vec::new(), Vec::new());
    for _ in 0..rounds {
        let (x, sum) = timed(ours, &addresses);
        let (y, other) = timed(theirs, &addresses);
        assert_eq!(sum, other);
        a.push(x);
        b.push(y);
    }
    a.sort();
    b.sort();
    let (x, y) = (a[rounds / 2], b[rounds / 2]);
    println!("{count} addresses, median of {rounds}: ours {:.1} ns, the Rust {:.1} ns an address, ratio {:.2}",
        x as f64 * 1000.0 / count as f64, y as f64 * 1000.0 / count as f64, x as f64 / y as f64);
}
