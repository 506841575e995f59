//! Encoder, decoder, prover and one coin against k.
use crate::plain::{Field, Space, MAX};
use crate::{calls, coefficients, coin_at, model, plain, plain_proof, plot, table, time, times, Row, LARGE, MODULUS};
use std::hint::black_box;

/// The rows of encode, decode, prove and one coin at one dimension. The model's prover and checker are shown where they are quick enough.
fn dimension(f: &Field, basis: &[u16]) -> [Row; 4] {
    let k = basis.len();
    let (space, p) = (Space::new(f, basis), coefficients(k));
    let (mut w, mut q, mut s) = (vec![0u16; 1 << k], vec![0u16; 1 << (k - 3)], vec![0u16; 4 << k]);
    let (mut pi, mut plain_pi) = (vec![0u16; model::proof_length(k)], vec![0u16; model::proof_length(k)]);
    let row = |proved, plain, model: Option<f64>| Row::new(k, proved, plain, model);

    let [proved, fast] = times([
        &mut |_| assert_eq!(calls::encode(MODULUS, basis, 0, &p, &mut w, &mut s), 0),
        &mut |_| drop(black_box(plain::encode(f, &space, &p))),
    ]);
    assert_eq!(plain::encode(f, &space, &p), w);
    let encode = row(proved, fast, (k <= 10).then(|| time(|_| assert_eq!(model::word_of(MODULUS, basis, 0, &p), w))));

    let [proved, fast] = times([
        &mut |_| assert_eq!(calls::decode(MODULUS, basis, 0, &w, &mut q, &mut s), 0),
        &mut |_| assert_eq!(plain::decode(f, &space, &w).as_ref(), Some(&p)),
    ]);
    assert_eq!(q, p);
    let decode = row(proved, fast, (k <= 8).then(|| time(|_| assert_eq!(model::through_first(MODULUS, basis, 0, &w), p))));

    let [proved, fast] = times([
        &mut |_| assert_eq!(calls::prove(MODULUS, basis, 0, &w, &mut pi, &mut s), 0),
        &mut |_| plain_proof::prove(f, &space, &w, &mut plain_pi),
    ]);
    assert!(pi == plain_pi);
    let prove = row(proved, fast, (k <= 9).then(|| time(|_| assert_eq!(model::proof_of(MODULUS, basis, &p), pi))));

    let [with_checks, checks, fast] = times([
        &mut |i| assert!(calls::check(MODULUS, basis, 0, &w, &pi, coin_at(k, i)) <= 64),
        &mut |_| assert_eq!(calls::setting(MODULUS, basis, 0), 0),
        &mut |i| assert!(plain_proof::check(f, &space, &w, &pi, coin_at(k, i))),
    ]);
    let slow = time(|i| assert!(model::check(MODULUS, basis, 0, &w, &pi, coin_at(k, i)) <= 64));
    println!("k {k:2}: a coin with checks 1 to 5 {with_checks:8.1} ns, checks 1 to 5 {checks:8.1} ns");
    [encode, decode, prove, row(with_checks - checks, fast, Some(slow))]
}

/// The prover at one dimension, proved or with log tables.
fn prover<'a>(f: &'a Field, basis: &'a [u16], proved: bool) -> Box<dyn FnMut(u64) + 'a> {
    let (k, space) = (basis.len(), Space::new(f, basis));
    let word = plain::encode(f, &space, &coefficients(k));
    let (mut pi, mut s) = (vec![0u16; model::proof_length(k)], vec![0u16; 4 << k]);
    if proved {
        return Box::new(move |_| assert_eq!(calls::prove(MODULUS, basis, 0, &word, &mut pi, &mut s), 0));
    }
    Box::new(move |_| plain_proof::prove(f, &space, &word, &mut pi))
}

/// What proving a symbol takes at each large dimension, beside the first of them: the provers take turns.
fn symbols(f: &Field, basis: &[u16]) {
    const N: usize = LARGE.len();
    let mut provers: [_; 2 * N] = std::array::from_fn(|i| prover(f, &basis[..LARGE[i % N]], i < N));
    let ns = times(provers.each_mut().map(|p| &mut **p as &mut dyn FnMut(u64)));
    let each: [f64; 2 * N] = std::array::from_fn(|i| ns[i] / model::proof_length(LARGE[i % N]) as f64);
    println!("\nproving a symbol (nanoseconds), and the ratio to that at k = {}", LARGE[0]);
    println!("   k     symbols      proved       ratio  log tables       ratio");
    for (i, k) in LARGE.into_iter().enumerate() {
        let (a, b) = (each[i], each[N + i]);
        println!("{k:4} {:11} {a:11.2} {:11.2} {b:11.2} {:11.2}", model::proof_length(k), a / each[0], b / each[N]);
    }
}

/// Encode and decode with a shift beside the same calls with the shift 0, in microseconds.
fn shifted(basis: &[u16]) {
    let (k, shift) = (basis.len(), 40503);
    let p = coefficients(k);
    let [mut w, mut v] = [0, shift].map(|at| model::word_of(MODULUS, basis, at, &p));
    let (words, mut q, mut r, mut s) = ([w.clone(), v.clone()], p.clone(), p.clone(), vec![vec![0u16; 4 << k]; 4]);
    let [s0, s1, s2, s3] = &mut s[..] else { unreachable!() };
    let [encode, encode_at, decode, decode_at] = times([
        &mut |_| assert_eq!(calls::encode(MODULUS, basis, 0, &p, &mut w, s0), 0),
        &mut |_| assert_eq!(calls::encode(MODULUS, basis, shift, &p, &mut v, s1), 0),
        &mut |_| assert_eq!(calls::decode(MODULUS, basis, 0, &words[0], &mut q, s2), 0),
        &mut |_| assert_eq!(calls::decode(MODULUS, basis, shift, &words[1], &mut r, s3), 0),
    ]);
    assert_eq!((&[w, v], &q, &r), (&words, &p, &p));
    let [a, b, c, d] = [encode, encode_at, decode, decode_at].map(|ns| ns / 1000.0);
    println!("{k:4} {a:9.2} {b:9.2} {:7.2} {c:11.2} {d:9.2} {:7.2}", b / a, d / c);
}

/// Encoder, decoder and prover against k.
fn chart(rows: &[[Row; 4]]) -> plot::Chart {
    let line = |(i, (name, shift))| plot::Line { name, rows: rows.iter().map(|r: &[Row; 4]| r[i]).collect(), shift };
    plot::Chart {
        title: "Processor time of one call against k at l = 16: solid proved, dashed with log tables".to_string(),
        axis: "k = ",
        lines: [("encode", -8.0), ("decode", 8.0), ("prove", 0.0)].into_iter().enumerate().map(line).collect(),
    }
}

/// The tables of these calls, and their chart.
pub fn all(f: &Field, basis: &[u16]) -> plot::Chart {
    let rows: Vec<[Row; 4]> = (7..=MAX).map(|k| dimension(f, &basis[..k])).collect();
    let names = ["encode", "decode", "prove", "one coin on a checked setting: the difference of the two times above"];
    for (i, name) in names.iter().enumerate() {
        table(name, "k", &rows.iter().map(|r| r[i]).collect::<Vec<_>>());
    }
    symbols(f, basis);
    println!("\nencode and decode without and with a shift (microseconds)\n   k    encode with shift   ratio      decode with shift   ratio");
    (7..=MAX).for_each(|k| shifted(&basis[..k]));
    chart(&rows)
}
