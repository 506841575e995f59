//! The degree behind a reject, from request T-08: that of the polynomial through a short word, by Lagrange's formula in powers of x; and
//! the checker's answers as exports and the host kit code them.
use crate::model::{eval, inverse, mul, points, roots};

/// The coefficients of the polynomial of degree below the number of symbols: it is the sum of each symbol times the product of
/// (x - a) / (own - a) over all other elements a.
fn through(m: u32, basis: &[u16], w: &[u16]) -> Vec<u16> {
    let xs = points(basis, 0, w.len());
    let all = roots(m, &xs);
    let mut p = vec![0; w.len()];
    for (own, y) in xs.iter().zip(w) {
        // all / (x - own), from the highest coefficient down
        let mut others = all[1..].to_vec();
        for i in (0..others.len() - 1).rev() {
            others[i] ^= mul(m, *own, others[i + 1]);
        }
        let scale = mul(m, *y, inverse(m, eval(m, &others, *own)));
        p.iter_mut().zip(&others).for_each(|(c, x)| *c ^= mul(m, scale, *x));
    }
    p
}

/// The least degree of a polynomial through the symbols of a word over a space without a shift: 0 also for the word of zeros.
pub fn least_degree(m: u32, basis: &[u16], w: &[u16]) -> usize {
    through(m, basis, w).iter().rposition(|c| *c != 0).unwrap_or(0)
}

/// A reject as exports codes it.
pub fn rejected(reads: usize, degree: usize, dimension: usize) -> u64 {
    65536 + reads as u64 + ((degree as u64) << 32) + ((dimension as u64) << 48)
}

/// A code of exports as the host kit's answer with reads, degree and dimension: 0, with no degree and no dimension, or 100; or the number of
/// a refusal, which leaves all three as they came.
pub fn host_answer(v: u64, before: [u32; 3]) -> (u32, [u32; 3]) {
    match v >> 16 & 65535 {
        0 => (0, [v as u32, 0, 0]),
        1 => (100, [v as u32 & 65535, (v >> 32) as u32 & 65535, (v >> 48) as u32]),
        _ => (v as u32 & 65535, before),
    }
}

/// Whether a checker can give such a code: of a short word of m dimensions it reads 2^m symbols, and the degree of a reject is between 2^(m-3)
/// and 2^m - 1.
pub fn possible(v: u64) -> bool {
    let (answer, [reads, degree, dimension]) = host_answer(v, [0; 3]);
    match answer {
        0 => [8, 16, 32, 64].contains(&v),
        100 => (3..=6).contains(&dimension) && reads == 1 << dimension && (reads / 8..reads).contains(&degree),
        _ => v >> 16 == 2,
    }
}
