//! Processor time of a product in a list: the proved call with its checks, and the same steps in Rust with a fixed modulus and no checks,
//! without and with a branch on whether to add the modulus.
use crate::{calls, times, MODULUS};

/// Products in a call. The same choices come back in each call: with 4096 products the branch took 12 ns, with 16384 and more 47 to 48,
/// as if the processor learned the few and not the many.
const COUNT: usize = 65536;

/// The double of a symbol of 16 bits; m is the modulus without its bit 16.
fn twice<const BRANCH: bool>(m: u16, x: u16) -> u16 {
    if !BRANCH {
        return x << 1 ^ (x >> 15) * m;
    }
    if x < 32768 {
        return x << 1;
    }
    // nothing, but the compiler keeps it, and so the branch: without it arithmetic is made of this `if`
    unsafe { std::arch::asm!("", options(nomem, nostack, preserves_flags)) };
    x << 1 ^ m
}

fn product<const BRANCH: bool>(m: u16, x: u16, y: u16) -> u16 {
    (0..16).rev().fold(0, |acc, i| twice::<BRANCH>(m, acc) ^ (y >> i & 1) * x)
}

/// Adds the products of the factors and the second half of the values to the first half.
fn products<const BRANCH: bool>(factors: &[u16], values: &mut [u16]) {
    let (sums, others) = values.split_at_mut(factors.len());
    for ((s, x), y) in sums.iter_mut().zip(factors).zip(others) {
        *s ^= product::<BRANCH>(MODULUS as u16, *x, *y);
    }
}

fn row(name: &str, symbols: &[u16]) {
    let (factors, values) = symbols.split_at(COUNT);
    let [mut a, mut b, mut c] = [(); 3].map(|_| values.to_vec());
    assert_eq!(calls::products(MODULUS, factors, &mut a), 0);
    products::<false>(factors, &mut b);
    products::<true>(factors, &mut c);
    assert!(a == b && a == c);
    let ns = times([
        &mut |_| assert_eq!(calls::products(MODULUS, factors, &mut a), 0),
        &mut |_| products::<false>(factors, &mut b),
        &mut |_| products::<true>(factors, &mut c),
    ]);
    let [proved, same, branch] = ns.map(|x| x / COUNT as f64);
    println!("{name:14} {proved:11.2} {same:15.2} {branch:15.2}");
}

pub fn all() {
    println!("\na product in a list of {COUNT} (nanoseconds)\n                    proved    same in Rust   with a branch");
    let mut x = 0x9e3779b97f4a7c15u64;
    let random = (0..3 * COUNT).map(|_| {
        // xorshift
        x ^= x << 13;
        x ^= x >> 7;
        x ^= x << 17;
        (x >> 24) as u16
    });
    row("random symbols", &random.collect::<Vec<_>>());
    row("zeros", &vec![0; 3 * COUNT]);
    println!();
}
