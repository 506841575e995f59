//! Gao's decoder with tables of logarithms, as it is written down, to compare speed with: the polynomial through the word, then
//! Euclid's algorithm by whole quotients. It checks no input.
use crate::plain::{encode, inverse, to_powers, vanishing, Field, Space};

/// Divides a by b, whose last coefficient is not 0: the remainder stays in a, without zeros at its end, and the quotient is given.
fn divide(f: &Field, a: &mut Vec<u16>, b: &[u16]) -> Vec<u16> {
    let mut q = vec![0; (a.len() + 1).saturating_sub(b.len())];
    for i in (0..q.len()).rev() {
        q[i] = f.div(a[i + b.len() - 1], b[b.len() - 1]);
        f.add_scaled(q[i], b, &mut a[i..]);
    }
    trim(a);
    q
}

fn trim(p: &mut Vec<u16>) {
    while p.last() == Some(&0) {
        p.pop();
    }
}

/// The first remainder of degree below m, and the factor of the second polynomial in it.
fn remainder(f: &Field, first: Vec<u16>, second: Vec<u16>, m: usize) -> (Vec<u16>, Vec<u16>) {
    let (mut r, mut s) = (first, second);
    let (mut u, mut v) = (vec![], vec![1]);
    trim(&mut s);
    while s.len() > m {
        let q = divide(f, &mut r, &s);
        u.resize(q.len() + v.len() - 1, 0);
        q.iter().enumerate().for_each(|(i, c)| f.add_scaled(*c, &v, &mut u[i..]));
        std::mem::swap(&mut r, &mut s);
        std::mem::swap(&mut u, &mut v);
    }
    (s, v)
}

/// The near codeword and the number of differences.
pub fn correct(f: &Field, s: &Space, word: &[u16]) -> Option<(Vec<u16>, usize)> {
    let (n, t) = (word.len(), 7 * word.len() / 16);
    let w = vanishing(f, s, s.k);
    let mut zero = vec![0; n + 1];
    w[s.k].iter().enumerate().for_each(|(i, c)| zero[1 << i] = *c);
    let mut through = word.to_vec();
    inverse(f, s, [0; 16], &mut through);
    to_powers(f, s, &w, &mut through);
    let (mut rest, factor) = remainder(f, zero, through, n - t);
    let mut p = divide(f, &mut rest, &factor);
    if !rest.is_empty() || p.len() > n / 8 {
        return None;
    }
    p.resize(n / 8, 0);
    let near = encode(f, s, &p);
    let count = near.iter().zip(word).filter(|(x, y)| x != y).count();
    (count <= t).then_some((near, count))
}
