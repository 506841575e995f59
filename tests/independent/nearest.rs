//! The codeword near a word, by the linear system of Berlekamp and Welch, and by trying all polynomials.
use crate::model;

/// At most so many positions may differ.
pub fn radius(n: usize) -> usize {
    7 * n / 16
}

pub fn differences(a: &[u16], b: &[u16]) -> usize {
    a.iter().zip(b).filter(|(x, y)| x != y).count()
}

/// GF(2^l) by the powers of a generator, made with the model's product.
struct Logs {
    log: Vec<usize>,
    exp: Vec<u16>,
}

impl Logs {
    fn new(m: u32) -> Logs {
        let order = (1usize << model::degree(m)) - 1;
        let exp = (2..=order as u16).map(|g| powers(m, g)).find(|p| p.len() == order).expect("a field has a generator");
        let mut log = vec![0; order + 1];
        exp.iter().enumerate().for_each(|(i, x)| log[*x as usize] = i);
        Logs { log, exp: exp.repeat(2) }
    }

    fn mul(&self, a: u16, b: u16) -> u16 {
        if a == 0 || b == 0 { 0 } else { self.exp[self.log[a as usize] + self.log[b as usize]] }
    }

    fn inverse(&self, a: u16) -> u16 {
        self.exp[self.exp.len() / 2 - self.log[a as usize]]
    }
}

/// The powers of g, from 1 until 1 comes again.
fn powers(m: u32, g: u16) -> Vec<u16> {
    let mut all = vec![1];
    let mut x = g;
    while x != 1 {
        all.push(x);
        x = model::mul(m, x, g);
    }
    all
}

/// The first columns of a matrix that are dependent: the factors with which they add up to zero, the last of them 1.
fn dependency(f: &Logs, rows: &mut [Vec<u16>]) -> Option<Vec<u16>> {
    for c in 0..rows[0].len() {
        let Some(r) = (c..rows.len()).find(|r| rows[*r][c] != 0) else {
            return Some(solve(f, rows, c));
        };
        rows.swap(c, r);
        let (done, rest) = rows.split_at_mut(c + 1);
        let v = f.inverse(done[c][c]);
        for row in rest.iter_mut().filter(|row| row[c] != 0) {
            let a = f.mul(row[c], v);
            (c..row.len()).for_each(|j| row[j] ^= f.mul(a, done[c][j]));
        }
    }
    None
}

/// The factors of the columns before c, which have pivots, by substitution from below; column c has the factor 1.
fn solve(f: &Logs, rows: &[Vec<u16>], c: usize) -> Vec<u16> {
    let mut x = vec![0; rows[0].len()];
    x[c] = 1;
    for r in (0..c).rev() {
        let sum = (r + 1..=c).fold(0, |s, j| s ^ f.mul(rows[r][j], x[j]));
        x[r] = f.mul(sum, f.inverse(rows[r][r]));
    }
    x
}

/// A polynomial E of degree at most t that is no zero, for which a polynomial N of degree below t + n/8 has N(x) = w(x) E(x) at all
/// elements. Where some codeword p differs from w at t positions or fewer there is one, and each has N = p E: so w is p where E is not 0.
fn locator(m: u32, xs: &[u16], w: &[u16]) -> Option<Vec<u16>> {
    let (f, t) = (Logs::new(m), radius(w.len()));
    let size = t + w.len() / 8;
    let mut rows: Vec<Vec<u16>> = vec![];
    for (x, y) in xs.iter().zip(w) {
        let mut row = vec![1];
        (1..size).for_each(|j| row.push(f.mul(row[j - 1], *x)));
        (0..=t).for_each(|j| row.push(f.mul(row[j], *y)));
        rows.push(row);
    }
    dependency(&f, &mut rows).map(|x| x[size..].to_vec())
}

/// The codeword at the shift that differs from the word at no more positions than the radius.
pub fn nearest(m: u32, basis: &[u16], shift: u16, w: &[u16]) -> Option<Vec<u16>> {
    let xs = model::points(basis, shift, w.len());
    let e = locator(m, &xs, w)?;
    let good: Vec<usize> = (0..w.len()).filter(|i| model::eval(m, &e, xs[*i]) != 0).take(w.len() / 8).collect();
    let at = |list: &[u16]| -> Vec<u16> { good.iter().map(|i| list[*i]).collect() };
    let c = model::word_of(m, basis, shift, &model::interpolate(m, &at(&xs), &at(w)));
    (differences(&c, w) <= radius(w.len())).then_some(c)
}

/// All codewords that near, by trying every polynomial.
pub fn by_trial(m: u32, basis: &[u16], shift: u16, w: &[u16]) -> Vec<Vec<u16>> {
    let (l, count) = (model::degree(m) as usize, w.len() / 8);
    let mut found = vec![];
    for number in 0..1usize << (l * count) {
        let p: Vec<u16> = (0..count).map(|i| (number >> (l * i) & ((1 << l) - 1)) as u16).collect();
        let c = model::word_of(m, basis, shift, &p);
        if differences(&c, w) <= radius(w.len()) {
            found.push(c);
        }
    }
    found
}
