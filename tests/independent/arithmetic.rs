//! Arithmetic in GF(2^l), bit by bit.

/// Product of polynomials over GF(2), then the remainder by the modulus.
pub fn mul(m: u32, a: u16, b: u16) -> u16 {
    let mut v: u64 = 0;
    for i in 0..16 {
        if b >> i & 1 == 1 {
            v ^= (a as u64) << i;
        }
    }
    remainder(v, m as u64) as u16
}

fn length(v: u64) -> u32 {
    64 - v.leading_zeros()
}

fn remainder(mut v: u64, m: u64) -> u64 {
    while length(v) >= length(m) {
        v ^= m << (length(v) - length(m));
    }
    v
}

pub fn degree(m: u32) -> u32 {
    31 - m.leading_zeros()
}

pub fn irreducible(m: u32) -> bool {
    (2..m as u64).take_while(|f| length(*f) * 2 <= length(m as u64) + 1).all(|f| remainder(m as u64, f) != 0)
}

pub fn inverse(m: u32, a: u16) -> u16 {
    // a^(2^l - 2)
    let mut r = 1;
    let mut s = a;
    for _ in 1..degree(m) {
        s = mul(m, s, s);
        r = mul(m, r, s);
    }
    r
}
