//! Field, word, proof and verdict, written from documents 000, 01 and 02: slow and direct, without tables.

pub use crate::arithmetic::{degree, inverse, irreducible, mul};
use crate::degree::{least_degree, rejected};

pub const LARGEST: usize = 14;
/// The least scratch in words of 2^k symbols: of encoder, decoder and prover, and of correction.
pub const SCRATCH: usize = 4;
pub const CORRECTION_SCRATCH: usize = 16;

pub fn elem(basis: &[u16], i: usize) -> u16 {
    basis.iter().enumerate().filter(|(j, _)| i >> j & 1 == 1).fold(0, |s, (_, b)| s ^ b)
}

/// The first n elements, each plus the shift.
pub fn points(basis: &[u16], shift: u16, n: usize) -> Vec<u16> {
    (0..n).map(|i| shift ^ elem(basis, i)).collect()
}

pub fn independent(basis: &[u16]) -> bool {
    // no sum of some of them is 0: by elimination
    let mut rows: Vec<u16> = vec![];
    for &b in basis {
        let mut x = b;
        for &r in &rows {
            x = x.min(x ^ r);
        }
        if x == 0 {
            return false;
        }
        rows.push(x);
        rows.sort_by(|a, b| b.cmp(a));
    }
    true
}

/// Checks 1 to 5, the shift's as the last of check 4.
pub fn setting(m: u32, basis: &[u16], shift: u16) -> u32 {
    if m < 8 || m > 131071 {
        1
    } else if !irreducible(m) {
        2
    } else if basis.len() < 3 || basis.len() > LARGEST {
        3
    } else if basis.iter().any(|b| (*b as u32) >> degree(m) != 0) {
        4
    } else if (shift as u32) >> degree(m) != 0 {
        4
    } else if !independent(basis) {
        5
    } else {
        0
    }
}

pub fn eval(m: u32, p: &[u16], x: u16) -> u16 {
    p.iter().rev().fold(0, |s, c| mul(m, s, x) ^ c)
}

/// P at the shift plus element i in position i.
pub fn word_of(m: u32, basis: &[u16], shift: u16, p: &[u16]) -> Vec<u16> {
    points(basis, shift, 1 << basis.len()).into_iter().map(|x| eval(m, p, x)).collect()
}

/// The polynomial through n points, by Newton's divided differences.
pub fn interpolate(m: u32, xs: &[u16], ys: &[u16]) -> Vec<u16> {
    let n = xs.len();
    let mut d = ys.to_vec();
    for j in 1..n {
        for i in (j..n).rev() {
            d[i] = mul(m, d[i] ^ d[i - 1], inverse(m, xs[i] ^ xs[i - j]));
        }
    }
    let mut p: Vec<u16> = vec![];
    for i in (0..n).rev() {
        // p := p * (x + xs[i]) + d[i]
        let mut q = vec![0u16; p.len() + 1];
        for (j, c) in p.iter().enumerate() {
            q[j + 1] ^= c;
            q[j] ^= mul(m, *c, xs[i]);
        }
        q[0] ^= d[i];
        p = q;
    }
    p.resize(n, 0);
    p
}

/// The polynomial of degree below n/8 through the first n/8 symbols.
pub fn through_first(m: u32, basis: &[u16], shift: u16, w: &[u16]) -> Vec<u16> {
    let n = w.len() / 8;
    interpolate(m, &points(basis, shift, n), &w[..n])
}

pub fn is_codeword(m: u32, basis: &[u16], shift: u16, w: &[u16]) -> bool {
    word_of(m, basis, shift, &through_first(m, basis, shift, w)) == w
}

pub fn proof_length(k: usize) -> usize {
    if k <= 6 {
        return 0;
    }
    let (h, c) = (k / 2, k - k / 2);
    (7 << k) + (proof_length(h + 3) << c) + (proof_length(c) << (h + 2))
}

pub fn coin_bits(k: usize) -> u32 {
    if k <= 6 {
        return 0;
    }
    let (h, c) = (k / 2, k - k / 2);
    1 + (c as u32 + coin_bits(h + 3)).max(h as u32 + 2 + coin_bits(c))
}

/// The product of x - a over a list.
pub fn roots(m: u32, xs: &[u16]) -> Vec<u16> {
    let mut q = vec![1u16];
    for x in xs {
        let mut r = vec![0u16; q.len() + 1];
        for (j, c) in q.iter().enumerate() {
            r[j + 1] ^= c;
            r[j] ^= mul(m, *c, *x);
        }
        q = r;
    }
    q
}

/// Quotient and remainder by a monic q.
fn divide(m: u32, p: &[u16], q: &[u16]) -> (Vec<u16>, Vec<u16>) {
    let d = q.len() - 1;
    let mut r = p.to_vec();
    let mut t = vec![0u16; p.len().saturating_sub(d)];
    for i in (0..t.len()).rev() {
        let c = r[i + d];
        t[i] = c;
        for j in 0..=d {
            r[i + j] ^= mul(m, c, q[j]);
        }
    }
    r.resize(d, 0);
    (t, r)
}

pub fn row_basis(basis: &[u16], r: usize) -> Vec<u16> {
    let h = basis.len() / 2;
    let mut b = basis[..h + 2].to_vec();
    b.push(if r < 4 { basis[h + 2] } else { elem(&basis[h..], r) });
    b
}

pub fn column_basis(m: u32, basis: &[u16]) -> Vec<u16> {
    let h = basis.len() / 2;
    basis[h..].iter().map(|b| vanish(m, &basis[..h], *b)).collect()
}

/// q(x), the product of x - a over the span.
pub fn vanish(m: u32, basis: &[u16], x: u16) -> u16 {
    (0..1usize << basis.len()).fold(1, |s, i| mul(m, s, x ^ elem(basis, i)))
}

/// Q by the base-q digits of p: digit j is the coefficient of y^j, a polynomial in x.
pub fn digits_of(m: u32, p: &[u16], q: &[u16], count: usize) -> Vec<Vec<u16>> {
    let mut digits = vec![];
    let mut rest = p.to_vec();
    for _ in 0..count {
        rest.resize(rest.len().max(q.len() - 1), 0);
        let (t, r) = divide(m, &rest, q);
        digits.push(r);
        rest = t;
    }
    digits
}

/// The proof of the polynomial p of 2^(k-3) coefficients, over the space.
pub fn proof_of(m: u32, basis: &[u16], p: &[u16]) -> Vec<u16> {
    let k = basis.len();
    if k <= 6 {
        return vec![];
    }
    let (h, c) = (k / 2, k - k / 2);
    let q = roots(m, &points(&basis[..h], 0, 1 << h));
    let digits = digits_of(m, p, &q, 1 << (c - 3));
    let size = 1usize << h;
    let mut rows = vec![];
    for r in 0..1usize << c {
        let y = eval(m, &q, elem(&basis[h..], r));
        rows.push((0..size).map(|i| eval(m, &digits.iter().map(|d| d[i]).collect::<Vec<_>>(), y)).collect::<Vec<u16>>());
    }
    let mut proof = vec![];
    for (r, poly) in rows.iter().enumerate() {
        let w = word_of(m, &row_basis(basis, r), 0, poly);
        for b in (0..8).filter(|b| *b != r.min(4)) {
            proof.extend_from_slice(&w[b * size..b * size + size]);
        }
    }
    for (r, poly) in rows.iter().enumerate() {
        proof.extend(proof_of(m, &row_basis(basis, r), poly));
    }
    let columns = column_basis(m, basis);
    for a in 0..1usize << (h + 2) {
        let x = elem(basis, a);
        let poly: Vec<u16> = digits.iter().map(|d| eval(m, d, x)).collect();
        proof.extend(proof_of(m, &columns, &poly));
    }
    proof
}

#[derive(Clone, Copy, PartialEq, Debug)]
pub enum Place {
    Word(usize),
    Proof(usize),
}

/// Where position i of row r is kept.
fn cell(k: usize, r: usize, i: usize) -> Place {
    let size = 1usize << (k / 2);
    let (b, o) = (i / size, i % size);
    let slot = r.min(4);
    if b == slot {
        Place::Word(r * size + o)
    } else {
        Place::Proof((7 * r + if b < slot { b } else { b - 1 }) * size + o)
    }
}

/// The positions of a coin, by document 01's rule.
pub fn positions(k: usize, coin: u64) -> Vec<Place> {
    if k <= 6 {
        return (0..1usize << k).map(Place::Word).collect();
    }
    let (h, c) = (k / 2, k - k / 2);
    let rest = coin / 2;
    let (inner, rows_at) = (proof_length(h + 3), 7usize << k);
    if coin % 2 == 0 {
        let r = (rest % (1 << c)) as usize;
        positions(h + 3, rest >> c).into_iter().map(|p| match p {
            Place::Word(i) => cell(k, r, i),
            Place::Proof(i) => Place::Proof(rows_at + r * inner + i),
        }).collect()
    } else {
        let a = (rest % (4 << h)) as usize;
        let at = rows_at + (inner << c) + a * proof_length(c);
        positions(c, rest >> (h + 2)).into_iter().map(|p| match p {
            Place::Word(i) => cell(k, i, a),
            Place::Proof(i) => Place::Proof(at + i),
        }).collect()
    }
}

/// The space at which a coin ends.
pub fn leaf_basis(m: u32, basis: &[u16], coin: u64) -> Vec<u16> {
    let k = basis.len();
    if k <= 6 {
        return basis.to_vec();
    }
    let (h, c) = (k / 2, k - k / 2);
    if coin % 2 == 0 {
        leaf_basis(m, &row_basis(basis, (coin / 2 % (1 << c)) as usize), coin / 2 >> c)
    } else {
        leaf_basis(m, &column_basis(m, basis), coin / 2 >> (h + 2))
    }
}

/// The space at which a coin ends and the symbols that it reads, or the number of a refusal: rows and columns have no shift.
pub fn short_word(m: u32, basis: &[u16], shift: u16, word: &[u16], proof: &[u16], coin: u64) -> Result<(Vec<u16>, Vec<u16>), u32> {
    let n = setting(m, basis, shift);
    if n != 0 {
        return Err(n);
    }
    let k = basis.len();
    if word.len() != 1 << k || proof.len() != proof_length(k) {
        return Err(6);
    }
    if coin >> coin_bits(k) != 0 {
        return Err(8);
    }
    let read: Vec<u16> = positions(k, coin).into_iter().map(|p| match p {
        Place::Word(i) => word[i],
        Place::Proof(i) => proof[i],
    }).collect();
    if read.iter().any(|x| (*x as u32) >> degree(m) != 0) {
        return Err(9);
    }
    Ok((leaf_basis(m, basis, coin), read))
}

/// The answer of the checker as exports codes it.
pub fn check(m: u32, basis: &[u16], shift: u16, word: &[u16], proof: &[u16], coin: u64) -> u64 {
    match short_word(m, basis, shift, word, proof, coin) {
        Err(n) => 131072 + n as u64,
        Ok((leaf, read)) if is_codeword(m, &leaf, 0, &read) => read.len() as u64,
        Ok((leaf, read)) => rejected(read.len(), least_degree(m, &leaf, &read), leaf.len()),
    }
}
