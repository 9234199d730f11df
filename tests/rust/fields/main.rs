// Prints what the Rust answers for the inputs of crates/field_replay, in the same lines: the crate's file stdout.
use bech32::primitives::{Field, LfsrIter};
use bech32::{Fe1024, Fe32};

const CHARSET: &str = "qpzry9x8gf2tvdw0s3jn54khce6mua7l";

fn element(n: u32) -> Fe1024 {
    let part = |v: u32| Fe32::try_from((v % 32) as u8).unwrap();
    Fe1024::new([part(n), part(n / 32)])
}

fn number(e: Fe1024) -> u32 {
    let mut parts = e.to_string().chars().map(|c| CHARSET.find(c).unwrap() as u32).collect::<Vec<_>>().into_iter();
    parts.next().unwrap() + 32 * parts.next().unwrap()
}

fn coefficient(t: u32, i: u32) -> u32 {
    if (t + 2 * i) % 5 == 0 {
        return 0;
    }
    (t * 389 + i * 617 + (t + i) % 13 * 211 + 1) % 1024
}

fn polynomial(t: u32, n: u32) -> Vec<Fe1024> { (0..n).map(|i| element(coefficient(t, i))).collect() }

fn show(list: &[Fe1024]) {
    print!(" {}", list.len());
    for e in list {
        print!(" {}", number(*e));
    }
}

// The Rust leaves zeros at the end of some results; document 01 compares what the lists mean.
fn trimmed(mut list: Vec<Fe1024>) -> Vec<Fe1024> {
    while list.last() == Some(&Fe1024::ZERO) {
        list.pop();
    }
    list
}

fn main() {
    for k in 0..1023 {
        let (x, y) = (k * 61 % 1024, k + 1);
        println!(" m {} {} {} i {}", x, y, number(element(x) * element(y)), number(element(y).multiplicative_inverse()));
    }
    for t in 0..140 {
        let (p, q) = (polynomial(t, t % 7 + 1), polynomial(t + 300, t / 7 % 7 + 1));
        let x = element((t * 53 + 9) % 1024);
        print!(" p");
        show(&p);
        show(&q);
        print!(" d {}", LfsrIter::degree(&p));
        print!(" l {}", number(LfsrIter::leading_term(&p)));
        print!(" v {}", number(LfsrIter::evaluate(&p, x)));
        print!(" f");
        show(&trimmed(LfsrIter::formal_derivative(&p)));
        let product = trimmed(LfsrIter::mul_mod_x_d(&p, &q, (t % 11) as usize));
        print!(" m");
        if product.len() > 7 {
            print!(" x 25");
        } else {
            show(&product);
        }
        print!(" c");
        show(&LfsrIter::convolution(&p, &q));
        let residue = LfsrIter::from_residue(t * 26843545 % 1073741824);
        print!(" s {}", residue.len());
        for v in residue {
            print!(" {}", v.to_u8());
        }
        print!(" r");
        for e in LfsrIter::roots(&p, element(193)) {
            print!(" {}", e);
        }
        println!();
    }
}
