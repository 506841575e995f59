//! Processor time of the calls on stored files, and the time of the delivery report beside that of the counter.
use crate::plain::{Field, Space};
use crate::{calls, coefficients, coin_at, correction, file, forms, gao, model, nearest, plain, plain_proof, table, time, times};
use crate::{Row, LARGE, MODULUS};
use std::fs::File;
use std::hint::black_box;
use std::process::Command;
use std::time::Instant;

/// The word and the proof of a stored file, decoded, and the verdict for one coin.
fn plain_file(f: &Field, basis: &[u16], bytes: &[u8], coin: u64) -> bool {
    let symbols = |from: usize, n: usize| -> Vec<u16> { bytes[from..from + 2 * n].chunks(2).map(|c| c[0] as u16 | (c[1] as u16) << 8).collect() };
    let (k, at) = (basis.len(), 13 + 2 * basis.len());
    let (word, proof) = (symbols(at, 1 << k), symbols(at + 6 + (2 << k), model::proof_length(k)));
    plain_proof::check(f, &Space::new(f, basis), &word, &proof, coin)
}

/// The stored file of a polynomial.
fn stored_file(f: &Field, basis: &[u16]) -> Vec<u8> {
    let (k, space) = (basis.len(), Space::new(f, basis));
    let w = plain::encode(f, &space, &coefficients(k));
    let mut pi = vec![0u16; model::proof_length(k)];
    plain_proof::prove(f, &space, &w, &mut pi);
    file::bytes_of(file::Form::One, MODULUS, basis, 0, &w, &pi)
}

/// The counter's call on a stored file at k = 8 with so many symbols of the word changed: all coins, and the correction of the word.
fn counted(f: &Field, basis: &[u16], count: usize) {
    let (x, space) = (file::read(&stored_file(f, basis)).ok().expect("the file is accepted"), Space::new(f, basis));
    let word = correction::damaged(&x.word, count);
    let bytes = file::bytes_of(file::Form::One, MODULUS, basis, 0, &word, &x.proof);
    let right = file::count(&bytes).expect("the file is accepted");
    assert_eq!(right.off, (count <= nearest::radius(word.len())).then_some(count));
    let (rejects, off) = (right.numbers[2], right.off.map_or(65536, |n| n as u64));
    assert_eq!([3, 5].map(|i| calls::total(&bytes, i)), [rejects, off]);
    let [proved, fast] = times([
        &mut |_| assert_eq!(calls::total(&bytes, 5), off),
        &mut |_| {
            assert_eq!((0..2048).filter(|c| !plain_proof::check(f, &space, &word, &x.proof, *c)).count() as u64, rejects);
            assert_eq!(gao::correct(f, &space, &word).map(|y| y.1), right.off);
        },
    ]);
    let slow = time(|_| assert_eq!(file::count(&bytes), Ok(right)));
    println!("  {count:3} symbols changed: proved {:.3} ms, log tables {:.3} ms, model {:.0} ms", proved / 1e6, fast / 1e6, slow / 1e6);
}

/// One coin from C on a stored file; the model is shown where it is quick enough.
fn coin(f: &Field, basis: &[u16]) -> Row {
    let (k, bytes) = (basis.len(), stored_file(f, basis));
    let [proved, fast] = times([
        &mut |i| assert_eq!(calls::check_file(&bytes, coin_at(k, i)).0, 0),
        &mut |i| assert!(plain_file(f, basis, &bytes, coin_at(k, i))),
    ]);
    let slow = (k <= 12).then(|| {
        time(|i| {
            let x = file::read(&bytes).ok().expect("the file is accepted");
            assert!(model::check(x.modulus, &x.basis, 0, &x.word, &x.proof, coin_at(k, i)) <= 64);
        })
    });
    Row::new(k, proved, fast, slow)
}

/// Milliseconds on the clock, which sees the processes that a call starts.
fn elapsed(f: &mut dyn FnMut()) -> f64 {
    let start = Instant::now();
    f();
    start.elapsed().as_secs_f64() * 1000.0
}

/// What the delivery report prints of a stream in a file.
fn report(path: &str) -> Vec<u8> {
    let stream = File::open(path).expect("the stream can be read");
    Command::new("target/bin/delivery_report").stdin(stream).output().expect("target/bin/delivery_report can be run").stdout
}

/// The report of a stream of 200 files at k = 8 beside the counter's call on each of them: the least of ten turns.
fn streams(f: &Field, basis: &[u16]) {
    let path = "target/bench.stream";
    let one = stored_file(f, basis);
    let stream = one.repeat(200);
    std::fs::write(path, &stream).expect("the stream can be written");
    assert!(report(path).ends_with(b"\n200 8 2048 0 64\ntotal 200 409600 0\n"));
    let mut least = [f64::MAX; 2];
    for _ in 0..10 {
        let whole = elapsed(&mut || drop(black_box(report(path))));
        let single = elapsed(&mut || assert!(stream.chunks(one.len()).all(|file| calls::total(file, 3) == 0)));
        least = [least[0].min(whole), least[1].min(single)];
    }
    let [whole, single] = least;
    println!("\n200 stored files at k = 8: report of the stream {whole:.1} ms, counted one by one {single:.1} ms, ratio {:.2}", whole / single);
}

/// The counter, a coin from C, the two forms and the report.
pub fn all(f: &Field, basis: &[u16]) {
    println!("\na stored file at k = 8 counted: its 2048 coins, and the correction of its word");
    [0, 1, 112, 128].into_iter().for_each(|count| counted(f, &basis[..8], count));
    let rows = LARGE.map(|k| coin(f, &basis[..k]));
    table("one coin from C on a stored file, all of it checked; with log tables decoded and not checked", "k", &rows);
    forms::all(&stored_file(f, &basis[..12]));
    streams(f, &basis[..8]);
}
