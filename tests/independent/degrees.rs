//! The degree behind a reject: words of a known degree, whole and at the positions of a coin, on symbols and in stored files.
use crate::file::{self, Form};
use crate::files::{answers, bytes, delivery, shifts_of};
use crate::forms::FORMS;
use crate::symbols::Pair;
use crate::{calls, degree, model, Draw, Met, Shifts, Tally};
use std::collections::BTreeSet;

/// A polynomial of so many coefficients, the last of which is not 0; at times all others are.
fn polynomial(d: &mut Draw, l: u32, count: usize) -> Vec<u16> {
    let mut p = if d.below(4) == 0 { vec![0; count] } else { d.list(count, 1 << l) };
    if let Some(last) = p.last_mut() {
        *last = 1 + d.below((1 << l) - 1) as u16;
    }
    p
}

/// The answer on a short word of dimension m through which such a polynomial goes; accept up to an eighth of 2^m coefficients.
fn answer(m: usize, count: usize) -> u64 {
    if 8 * count <= 1 << m { 1 << m } else { degree::rejected(1 << m, count - 1, m) }
}

/// Degree and dimension of an answer, two zeros for accept.
fn told(code: u64) -> [u32; 2] {
    let (_, [_, degree, dimension]) = degree::host_answer(code, [0; 3]);
    [degree, dimension]
}

/// Whether the checker gives this answer, and the same at another shift.
fn gives(d: &mut Draw, x: &Pair, coin: u64, right: u64) -> [bool; 2] {
    let shift = d.below(1 << x.s.l) as u16;
    let other = calls::check(x.s.m, &x.s.b, shift, &x.w, &x.proof, coin);
    [x.same(coin, &mut Met::default()) && x.check(coin) == right, other == right]
}

/// Words of dimensions 3 to 6 that have each degree, and the word of zeros. The table has the degrees that are told, and 0 for accept.
fn whole(t: &mut Tally, shifts: Shifts) {
    let mut d = Draw(0x3956c25bf348b538);
    let (mut moved, mut cases) = (0, 0);
    for k in 3..=6 {
        let (mut wrong, mut met) = (0, Met::default());
        for _ in 0..8 {
            let s = shifts.setting(&mut d, k);
            for count in 0..=1 << k {
                let w = model::word_of(s.m, &s.b, s.shift, &polynomial(&mut d, s.l, count));
                let x = Pair { s: s.clone(), w, proof: vec![] };
                let [here, there] = gives(&mut d, &x, 0, answer(k, count));
                wrong += u64::from(!here);
                moved += u64::from(!there);
                met.add(told(x.check(0))[0]);
                cases += 1;
            }
        }
        let degrees: Vec<u32> = [0].into_iter().chain(1 << (k - 3)..1 << k).collect();
        t.answers(&shifts.name(&format!("words of each degree at k = {k}")), wrong, &met, &degrees);
    }
    t.group(&shifts.name("words of each degree at two shifts"), moved, cases);
}

/// All polynomials of degree below 5 over GF(8).
fn small_field(t: &mut Tally) {
    let (mut wrong, mut met) = (0, Met::default());
    for (m, b, shift) in [(11, [1, 2, 4], 0), (13, [5, 1, 3], 6)] {
        for number in 0..1u32 << 15 {
            let p: Vec<u16> = (0..5).map(|i| (number >> (3 * i) & 7) as u16).collect();
            let count = p.iter().rposition(|c| *c != 0).map_or(0, |i| i + 1);
            let code = calls::check(m, &b, shift, &model::word_of(m, &b, shift, &p), &[], 0);
            wrong += u64::from(code != answer(3, count));
            met.add(told(code)[0]);
        }
    }
    t.answers("all polynomials of degree below 5 over GF(8)", wrong, &met, &[0, 1, 2, 3, 4]);
}

/// The dimensions of the short words at which coins of dimension k end.
fn ends(k: usize) -> BTreeSet<usize> {
    if k <= 6 {
        return [k].into();
    }
    ends(k / 2 + 3).union(&ends(k - k / 2)).copied().collect()
}

/// Each dimension at which coins of dimension k end, and each number of coefficients of a polynomial over it.
fn each(k: usize) -> Vec<(usize, usize)> {
    ends(k).into_iter().flat_map(|m| (0..=1 << m).map(move |count| (m, count))).collect()
}

/// A coin that ends at a short word of dimension m, its positions, and the word of such a polynomial over its space.
fn ending(d: &mut Draw, x: &Pair, m: usize, count: usize) -> (u64, Vec<model::Place>, Vec<u16>) {
    let k = x.s.b.len();
    loop {
        let coin = d.below(1 << model::coin_bits(k));
        let at = model::positions(k, coin);
        if at.len() == 1 << m {
            let leaf = model::leaf_basis(x.s.m, &x.s.b, coin);
            let short = model::word_of(x.s.m, &leaf, 0, &polynomial(d, x.s.l, count));
            return (coin, at, short);
        }
    }
}

/// Puts symbols at places, and gives those that stood there.
fn put(x: &mut Pair, at: &[model::Place], symbols: &[u16]) -> Vec<u16> {
    at.iter().zip(symbols).map(|(place, y)| x.swap(*place, *y)).collect()
}

/// A delivery of noise that is in range.
fn noise(d: &mut Draw, shifts: Shifts, k: usize) -> Pair {
    let s = shifts.setting(d, k);
    Pair { w: d.list(1 << k, 1 << s.l), proof: d.list(model::proof_length(k), 1 << s.l), s }
}

/// A delivery that differs everywhere, and is out of range where there are such numbers.
fn elsewhere(x: &Pair) -> Pair {
    let other = |xs: &[u16]| xs.iter().map(|y| y ^ 32768).collect();
    Pair { s: x.s.clone(), w: other(&x.w), proof: other(&x.proof) }
}

/// Coins that end at words of each degree, and all else is noise. The table has the dimensions that are told, and 0 for accept. Then the same
/// at another shift, and with other symbols at all positions that the coin does not read.
fn at_coins(t: &mut Tally, d: &mut Draw, shifts: Shifts, k: usize) {
    let mut x = noise(d, shifts, k);
    let mut bare = elsewhere(&x);
    let (mut wrong, mut met, cases) = ([0; 3], Met::default(), each(k).repeat(if k <= 12 { 3 } else { 1 }));
    for &(m, count) in &cases {
        let (coin, at, short) = ending(d, &x, m, count);
        let kept = [&mut x, &mut bare].map(|y| put(y, &at, &short));
        let [here, there] = gives(d, &x, coin, answer(m, count));
        let found = [here, there, bare.check(coin) == answer(m, count)];
        wrong = std::array::from_fn(|i| wrong[i] + u64::from(!found[i]));
        met.add(told(x.check(coin))[1]);
        put(&mut x, &at, &kept[0]);
        put(&mut bare, &at, &kept[1]);
    }
    let (name, dimensions) = (shifts.name(&format!("at k = {k}")), [0].into_iter().chain(ends(k).into_iter().map(|m| m as u32)));
    t.answers(&format!("coins that end at words of each degree {name}"), wrong[0], &met, &dimensions.collect::<Vec<_>>());
    t.group(&format!("degrees at two shifts {name}"), wrong[1], cases.len() as u64);
    t.group(&format!("degrees with other symbols elsewhere {name}"), wrong[2], cases.len() as u64);
}

/// Short words of noise. From each element of a space the differences to all others have the same product, so the coefficient of x^(2^m - 1)
/// is the sum of the symbols but for a factor: the degree is 2^m - 1, 1 in the table, exactly where that sum is not 0.
fn sums(t: &mut Tally, shifts: Shifts) {
    let mut d = Draw(0x59f111f1b605d019);
    let (mut wrong, mut met) = (0, Met::default());
    for k in 3..=12 {
        let mut x = noise(&mut d, shifts, k);
        for turn in 0..60 {
            let coin = d.below(1 << model::coin_bits(k));
            let at = model::positions(k, coin);
            let some = at[d.below(at.len() as u64) as usize];
            let symbol = if turn % 2 == 0 { d.below(1 << x.s.l) as u16 } else { at.iter().fold(x.at(some), |s, place| s ^ x.at(*place)) };
            let kept = x.swap(some, symbol);
            let sum = at.iter().fold(0, |s, place| s ^ x.at(*place));
            let highest = told(x.check(coin))[0] as usize == at.len() - 1;
            wrong += u64::from(!x.same(coin, &mut Met::default()) || highest != (sum != 0));
            met.add(u32::from(highest));
            x.swap(some, kept);
        }
    }
    t.answers(&shifts.name("degrees of noise"), wrong, &met, &[0, 1]);
}

/// What reads, degree and dimension may hold before a call.
fn before(d: &mut Draw) -> [u32; 3] {
    match d.below(4) {
        0 => [0; 3],
        1 => [u32::MAX; 3],
        _ => [(); 3].map(|_| d.next() as u32),
    }
}

/// Words of each degree at the positions of a coin, in stored files of noise: from C as on symbols, whatever the three numbers held before.
fn stored(t: &mut Tally, form: Form) {
    let mut d = Draw(0x923f82a4af194f9b);
    for k in 3..=9 {
        let mut x = noise(&mut d, shifts_of(form), k);
        let (mut wrong, mut met) = (0, Met::default());
        for (m, count) in each(k) {
            let (coin, at, short) = ending(&mut d, &x, m, count);
            let kept = put(&mut x, &at, &short);
            let f = file::bytes_of(form, x.s.m, &x.s.b, x.s.shift, &x.w, &x.proof);
            let (code, old) = (x.check(coin), before(&mut d));
            let found = calls::check_degree(&f, coin, old);
            wrong += u64::from(code != answer(m, count) || !answers(&f, coin, code) || found != degree::host_answer(code, old));
            met.add(found.0);
            put(&mut x, &at, &kept);
        }
        t.answers(&form.name(&format!("degrees in files at k = {k}")), wrong, &met, &[0, 100]);
    }
}

/// A copy with other bytes from a place on.
fn with(f: &[u8], at: usize, bytes: &[u8]) -> Vec<u8> {
    let mut g = f.to_vec();
    g[at..at + bytes.len()].copy_from_slice(bytes);
    g
}

/// Files with one fault, or a coin past the last, and the number that is known.
fn faulty(f: &[u8], form: Form, m: u32, k: usize) -> Vec<(Vec<u8>, u64, u32)> {
    let ([_, word, proof], l, width) = (form.heads(m, k), model::degree(m), form.width(m));
    let mut all = vec![
        (with(f, 2, &[7, 0, 0, 0]), 0, 1),
        (with(f, 2, &[15, 0, 0, 0]), 0, 2),
        (with(f, 6, &[15]), 0, 3),
        (with(f, 7, &[0, 0]), 0, 5),
        (f.to_vec(), 1 << model::coin_bits(k), 8),
        (f.to_vec(), u64::MAX, 8),
        (f[..f.len() - 1].to_vec(), 0, 11),
        (with(f, proof, b"XX"), 0, 11),
        (with(f, word + 2, &[9]), 0, 12),
        ([f, &[0]].concat(), 0, 12),
    ];
    if l < 16 {
        all.push((with(f, 7, &(1u16 << l).to_le_bytes()), 0, 4));
    }
    if l < 8 * width as u32 {
        all.push((with(f, proof - width, &(1u16 << l).to_le_bytes()[..width]), 0, 9));
    }
    all
}

/// A refused call leaves all three numbers as they came.
fn refusals(t: &mut Tally, form: Form) {
    let mut d = Draw(0xab1c5ed5da6d8118);
    let (mut wrong, mut met) = (0, Met::default());
    for turn in 0..200 {
        let x = delivery(&mut d, form, 3 + turn % 5);
        for (f, coin, number) in faulty(&bytes(&x), form, x.s.m, x.s.b.len()) {
            let old = before(&mut d);
            wrong += u64::from(calls::check_degree(&f, coin, old) != (number, old) || !answers(&f, coin, 131072 + number as u64));
            met.add(number);
        }
    }
    t.answers(&form.name("degrees of refused files"), wrong, &met, &[1, 2, 3, 4, 5, 8, 9, 11, 12]);
}

pub fn all(t: &mut Tally) {
    small_field(t);
    for shifts in [Shifts::Zero, Shifts::Any] {
        whole(t, shifts);
        let mut d = Draw(0xd807aa98a3030242);
        (7..=model::LARGEST).for_each(|k| at_coins(t, &mut d, shifts, k));
        sums(t, shifts);
    }
    for form in FORMS {
        stored(t, form);
        refusals(t, form);
    }
}
