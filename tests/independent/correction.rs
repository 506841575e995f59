//! The correction of damaged words. Words are made of codewords, so that the answer is known, or the model finds it; outputs and
//! scratch start as noise and are compared whole.
use crate::codec::{left, Case};
use crate::nearest::{by_trial, differences, nearest, radius};
use crate::{calls, model, outside, setting_of, Draw, Met, Setting, Shifts, Tally};

/// Whether the call answers this number, with 0 this codeword, and leaves output and scratch as it must.
pub fn same(s: &Setting, w: &[u16], number: u32, near: Vec<u16>, old: &[u16], scratch: &[u16]) -> bool {
    let answer = if number == 0 { differences(w, &near) as u64 } else { 65536 + number as u64 };
    let (mut out, mut work) = (old.to_vec(), scratch.to_vec());
    let got = calls::correct(s.m, &s.b, s.shift, w, &mut out, &mut work);
    got == answer && (out, work) == left(number, near, old, scratch)
}

/// The same for a word in range with right lengths, and scratch that is at times longer than it must be.
fn finds(d: &mut Draw, s: &Setting, w: &[u16], near: Option<Vec<u16>>, met: &mut Met) -> bool {
    let more = d.below(2) * d.below(3 * w.len() as u64);
    let (old, scratch) = (d.list(w.len(), 65536), d.list(model::CORRECTION_SCRATCH * w.len() + more as usize, 65536));
    let number = if near.is_some() { 0 } else { 13 };
    met.add(number);
    same(s, w, number, near.unwrap_or_default(), &old, &scratch)
}

fn codeword(d: &mut Draw, s: &Setting) -> Vec<u16> {
    let p = d.list(1 << (s.b.len() - 3), 1 << s.l);
    model::word_of(s.m, &s.b, s.shift, &p)
}

/// Some of the numbers below n, in some order.
pub fn places(d: &mut Draw, n: usize, count: usize) -> Vec<usize> {
    let mut all: Vec<usize> = (0..n).collect();
    (0..count).for_each(|i| all.swap(i, i + d.below((n - i) as u64) as usize));
    all.truncate(count);
    all
}

/// The symbols, changed at these positions.
pub fn changed(d: &mut Draw, s: &Setting, c: &[u16], at: &[usize]) -> Vec<u16> {
    let mut w = c.to_vec();
    at.iter().for_each(|i| w[*i] ^= 1 + d.below((1 << s.l) - 1) as u16);
    w
}

/// A word that differs at so many positions.
pub fn damaged(d: &mut Draw, s: &Setting, c: &[u16], count: usize) -> Vec<u16> {
    let at = places(d, c.len(), count);
    changed(d, s, c, &at)
}

/// Damage of none, one, some, as many as the radius, one more, and any more.
pub fn amount(d: &mut Draw, n: usize, turn: usize) -> usize {
    let t = radius(n);
    [0, 1, d.below(t as u64) as usize, t, t + 1, t + 2 + d.below((n - t - 1) as u64) as usize][turn % 6]
}

/// Damaged codewords and words at random. Up to the radius the model must find the codeword too; beyond it the model decides.
fn words(t: &mut Tally, shifts: Shifts) {
    let mut d = Draw(0x510e527fade682d1);
    for k in 3..=8 {
        let (mut wrong, mut met) = (0, Met::default());
        for turn in 0..[0, 0, 0, 840, 840, 420, 210, 126, 84][k] {
            let s = shifts.setting(&mut d, k);
            let c = codeword(&mut d, &s);
            let count = amount(&mut d, 1 << k, turn);
            let w = if turn % 7 == 6 { d.list(1 << k, 1 << s.l) } else { damaged(&mut d, &s, &c, count) };
            let near = nearest(s.m, &s.b, s.shift, &w);
            wrong += u64::from(turn % 7 != 6 && count <= radius(1 << k) && near != Some(c));
            wrong += u64::from(!finds(&mut d, &s, &w, near, &mut met));
        }
        t.answers(&shifts.name(&format!("correction at k = {k}")), wrong, &met, &[0, 13]);
    }
}

/// A word between two codewords that differ as little as two can, and the one of them that it is near.
pub fn between(d: &mut Draw, s: &Setting) -> (Vec<u16>, Option<Vec<u16>>) {
    let n = 1 << s.b.len();
    let roots: Vec<u16> = places(d, n, n / 8 - 1).into_iter().map(|i| s.shift ^ model::elem(&s.b, i)).collect();
    let step = model::word_of(s.m, &s.b, s.shift, &model::roots(s.m, &roots));
    let one = codeword(d, s);
    let other: Vec<u16> = one.iter().zip(&step).map(|(x, y)| x ^ y).collect();
    let apart: Vec<usize> = (0..n).filter(|i| step[*i] != 0).collect();
    let moved = radius(n) - 1 + d.below(4) as usize;
    let mut w = one.clone();
    places(d, apart.len(), moved).into_iter().for_each(|i| w[apart[i]] = other[apart[i]]);
    let near = [one, other].into_iter().find(|c| differences(c, &w) <= radius(n));
    (w, near)
}

/// A word of a degree too high for a near codeword: it differs from each at more positions than the radius.
pub fn too_high(d: &mut Draw, s: &Setting) -> Vec<u16> {
    let n = 1usize << s.b.len();
    let least = n / 8;
    let most = n - radius(n) - 1;
    let degree = if d.below(2) == 0 { most } else { least + d.below((most - least + 1) as u64) as usize };
    let mut p = d.list(degree, 1 << s.l);
    p.push(1 + d.below((1 << s.l) - 1) as u16);
    model::word_of(s.m, &s.b, s.shift, &p)
}

fn power(m: u32, x: u16, e: usize) -> u16 {
    (0..usize::BITS).rev().fold(1, |r, i| model::mul(m, model::mul(m, r, r), if e >> i & 1 == 1 { x } else { 1 }))
}

/// The codeword and a multiple of one power of x, of a degree that is too high likewise.
fn lifted(d: &mut Draw, s: &Setting, c: &[u16]) -> Vec<u16> {
    let n = c.len();
    let degree = n / 8 + d.below((n - radius(n) - n / 8) as u64) as usize;
    let factor = 1 + d.below((1 << s.l) - 1) as u16;
    let added = |x: u16| model::mul(s.m, factor, power(s.m, x, degree));
    c.iter().zip(model::points(&s.b, s.shift, n)).map(|(y, x)| y ^ added(x)).collect()
}

/// Words at the border, whose answers are known without a search.
fn border(t: &mut Tally, shifts: Shifts) {
    let mut d = Draw(0x9b05688c2b3e6c1f);
    let (mut wrong, mut met) = (0, Met::default());
    for turn in 0..600 {
        let s = shifts.setting(&mut d, 3 + turn / 2 % 6);
        let (w, near) = if turn % 2 == 0 { between(&mut d, &s) } else { (too_high(&mut d, &s), None) };
        wrong += u64::from(!finds(&mut d, &s, &w, near, &mut met));
    }
    t.answers(&shifts.name("correction at the border"), wrong, &met, &[0, 13]);
}

/// A polynomial of so many coefficients, of which at most two are not 0.
fn sparse(d: &mut Draw, s: &Setting, degrees: usize) -> Vec<u16> {
    let mut p = vec![0; degrees];
    (0..d.below(3)).for_each(|_| p[d.below(degrees as u64) as usize] = d.below(1 << s.l) as u16);
    p
}

/// A codeword to which a polynomial is added on one stretch of at most so many positions, often a coset, and that codeword.
fn stretch(d: &mut Draw, s: &Setting) -> (Vec<u16>, Option<Vec<u16>>) {
    let n = 1usize << s.b.len();
    let (p, q) = (sparse(d, s, n / 8), sparse(d, s, n / 8));
    let (c, added) = (model::word_of(s.m, &s.b, s.shift, &p), model::word_of(s.m, &s.b, s.shift, &q));
    let size = if d.below(2) == 0 { 1 << d.below(s.b.len() as u64 - 1) } else { radius(n) };
    let from = size * d.below((n / size) as u64) as usize;
    let mut w = c.clone();
    (from..from + size).for_each(|i| w[i] ^= added[i]);
    (w, Some(c))
}

/// A word of few powers of x, the highest too high for a near codeword.
fn few_powers(d: &mut Draw, s: &Setting) -> Vec<u16> {
    let n = 1usize << s.b.len();
    let mut p = sparse(d, s, n - radius(n));
    p[n / 8 + d.below((n - radius(n) - n / 8) as u64) as usize] = 1;
    model::word_of(s.m, &s.b, s.shift, &p)
}

/// Words with a pattern, for which many coefficients on the way are 0.
fn patterns(t: &mut Tally, shifts: Shifts) {
    let mut d = Draw(0x428a2f98d728ae22);
    let (mut wrong, mut met) = (0, Met::default());
    for turn in 0..1200 {
        let s = shifts.setting(&mut d, 3 + turn / 3 % 7);
        let (w, near) = if turn % 3 < 2 { stretch(&mut d, &s) } else { (few_powers(&mut d, &s), None) };
        wrong += u64::from(!finds(&mut d, &s, &w, near, &mut met));
    }
    t.answers(&shifts.name("correction of patterns"), wrong, &met, &[0, 13]);
}

/// Small fields: every polynomial is tried.
fn trial(t: &mut Tally, shifts: Shifts) {
    let mut d = Draw(0x1f83d9abfb41bd6b);
    let (mut wrong, mut met) = (0, Met::default());
    for turn in 0..400 {
        let k = 3 + turn % 2;
        let l = k as u32 + d.below(if k == 3 { 6 } else { 3 }) as u32;
        let s = setting_of(&mut d, l, k);
        let s = shifts.put(&mut d, s);
        let c = codeword(&mut d, &s);
        let count = d.below(1 + (1 << k)) as usize;
        let w = damaged(&mut d, &s, &c, count);
        let found = by_trial(s.m, &s.b, s.shift, &w);
        let near = nearest(s.m, &s.b, s.shift, &w);
        wrong += u64::from(found != near.iter().cloned().collect::<Vec<_>>());
        wrong += u64::from(!finds(&mut d, &s, &w, near, &mut met));
    }
    t.answers(&shifts.name("correction beside all polynomials"), wrong, &met, &[0, 13]);
}

/// A word of the case, or one at random in range or out of it.
fn any_word(d: &mut Draw, x: &Case) -> Vec<u16> {
    let w = x.word(d);
    match d.below(8) {
        0 => d.list(w.len(), 1 << x.s.l),
        1 => d.list(w.len(), 65536),
        _ => w,
    }
}

/// Right and wrong settings, lengths, symbols and words, often two of them wrong at once.
fn refusals(t: &mut Tally, shifts: Shifts) {
    let mut d = Draw(0x5be0cd19137e2179);
    let (mut wrong, mut met) = (0, Met::default());
    for _ in 0..3000 {
        let k = 3 + d.below(6) as usize;
        let x = Case::draw(&mut d, shifts, k, 1 << k, model::CORRECTION_SCRATCH << k);
        let w = any_word(&mut d, &x);
        let first = if x.first() == 0 && outside(x.s.m, &w) { 9 } else { x.first() };
        let near = if first == 0 { nearest(x.s.m, &x.s.b, x.s.shift, &w) } else { None };
        let number = if first == 0 && near.is_none() { 13 } else { first };
        let old = d.list(x.others, 65536);
        wrong += u64::from(!same(&x.s, &w, number, near.unwrap_or_default(), &old, &x.scratch));
        met.add(number);
    }
    t.answers(&shifts.name("correction"), wrong, &met, &[0, 1, 2, 3, 4, 5, 6, 7, 9, 13]);
}

/// Lists that are empty, or twice or half as long as they must be.
fn lengths(t: &mut Tally) {
    let mut d = Draw(0x3c2d1f0e9a8b7c65);
    let s = Setting { l: 3, m: 11, b: vec![1, 2, 4], shift: 0 };
    let words = [(0, 8, 128, 6), (0, 0, 0, 6), (16, 8, 256, 6), (4, 8, 128, 6), (4, 4, 64, 6)];
    let others = [(8, 0, 128, 6), (8, 16, 256, 6), (8, 4, 128, 6), (8, 8, 0, 7), (8, 8, 32, 7)];
    let cases = [words, others].concat();
    let mut right = |(w, out, scratch, number)| {
        let (w, old, scratch) = (d.list(w, 65536), d.list(out, 65536), d.list(scratch, 65536));
        same(&s, &w, number, vec![], &old, &scratch)
    };
    let wrong = cases.iter().filter(|c| !right(**c)).count();
    t.group("correction of other lengths", wrong as u64, cases.len() as u64);
}

/// Corrects the word, and then asks for the corrected one again: it has 0 differences, and decoder and prover take it.
fn again(t: &mut Tally, shifts: Shifts) {
    let mut d = Draw(0xcbbb9d5dc1059ed8);
    let (mut wrong, mut met) = (0, Met::default());
    for turn in 0..240 {
        let k = 3 + turn % 6;
        let s = shifts.setting(&mut d, k);
        let p = d.list(1 << (k - 3), 1 << s.l);
        let c = model::word_of(s.m, &s.b, s.shift, &p);
        let count = d.below(radius(1 << k) as u64 + 1) as usize;
        let w = damaged(&mut d, &s, &c, count);
        let (mut out, mut scratch) = (d.list(1 << k, 65536), vec![0; model::CORRECTION_SCRATCH << k]);
        let first = calls::correct(s.m, &s.b, s.shift, &w, &mut out, &mut scratch) == count as u64 && out == c;
        let (mut q, mut proof) = (vec![0; 1 << (k - 3)], vec![0; model::proof_length(k)]);
        let decoded = calls::decode(s.m, &s.b, s.shift, &out, &mut q, &mut scratch);
        let proved = calls::prove(s.m, &s.b, s.shift, &out, &mut proof, &mut scratch);
        let second = finds(&mut d, &s, &out, Some(c), &mut met);
        wrong += u64::from(!(first && (decoded, proved) == (0, 0) && q == p && second));
    }
    t.answers(&shifts.name("corrected words again"), wrong, &met, &[0]);
}

/// The larger dimensions: the least and the largest field, no damage, a little, the radius, and words without a near codeword. At 14 one of
/// the two fields is enough for the time.
fn largest(t: &mut Tally, shifts: Shifts) {
    let mut d = Draw(0x629a292a367cd507);
    for k in 9..=14 {
        let (mut wrong, mut met) = (0, Met::default());
        for l in [k as u32, 16] {
            if k == 14 && (l == 16) == (shifts == Shifts::Zero) {
                continue;
            }
            let s = setting_of(&mut d, l, k);
            let s = shifts.put(&mut d, s);
            let c = codeword(&mut d, &s);
            for count in [0, 5, radius(1 << k)] {
                let w = damaged(&mut d, &s, &c, count);
                wrong += u64::from(!finds(&mut d, &s, &w, Some(c.clone()), &mut met));
            }
            let w = if k < 13 { too_high(&mut d, &s) } else { lifted(&mut d, &s, &c) };
            wrong += u64::from(!finds(&mut d, &s, &w, None, &mut met));
        }
        t.answers(&shifts.name(&format!("correction at k = {k}")), wrong, &met, &[0, 13]);
    }
}

pub fn all(t: &mut Tally, shifts: Shifts) {
    words(t, shifts);
    border(t, shifts);
    patterns(t, shifts);
    trial(t, shifts);
    refusals(t, shifts);
    if shifts == Shifts::Zero {
        lengths(t);
    }
    again(t, shifts);
    largest(t, shifts);
}
