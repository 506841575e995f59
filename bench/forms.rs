//! Processor time of the two stored forms: a coin from C in each, and the converter beside a plain copy of the bytes that it writes.
use crate::file::{self, Form};
use crate::{calls, coin_at, model, times};
use std::hint::black_box;

/// A coin on one delivery in both forms, all of the file checked; in form 2 with a shift.
fn coins(x: &file::File, one: &[u8]) {
    let (k, two) = (x.basis.len(), file::bytes_of(Form::Two, x.modulus, &x.basis, 40503, &x.word, &x.proof));
    let [first, second] = times([
        &mut |i| assert_eq!(calls::check_file(one, coin_at(k, i)).0, 0),
        &mut |i| assert_eq!(calls::check_file(&two, coin_at(k, i)).0, 0),
    ]);
    println!("the same at k = {k} in form 1 {:.3} ms, in form 2 {:.3} ms, ratio {:.2}", first / 1e6, second / 1e6, second / first);
}

/// Converting a file, the checks of all of it alone, and a plain way of making the same symbols without a check.
fn converted(name: &str, from: &[u8], to: &[u8], plain: &mut dyn FnMut(&mut [u8])) {
    let (mut out, mut copy) = (vec![0; to.len()], vec![0; to.len()]);
    let [proved, checks, fast] = times([
        &mut |_| assert_eq!(calls::convert(from, &mut out), 0),
        &mut |_| assert_eq!(calls::file_refusal(from), 0),
        &mut |_| plain(black_box(&mut copy)),
    ]);
    assert_eq!(out, to);
    let [a, b, c] = [proved, checks, fast].map(|ns| ns / 1000.0);
    println!("  {name}: {:7} to {:7} bytes {a:9.1}, checks alone {b:9.1}, plain {c:9.1}, ratio {:.2}", from.len(), to.len(), proved / fast);
}

/// Both ways where symbols have two bytes in both forms: beside a copy of the bytes.
fn wide(one: &[u8], two: &[u8]) {
    converted("form 1 to 2, a copy     ", one, two, &mut |out| out.copy_from_slice(two));
    converted("form 2 to 1, a copy     ", two, one, &mut |out| out.copy_from_slice(one));
}

/// Both ways at l = 8, where form 2 has one byte a symbol: beside a loop over the symbols.
fn narrow() {
    let (m, basis) = (283, [1, 2, 4, 8, 16, 32, 64, 128]);
    let symbols = |n: usize| (0..n).map(|i| (i * 40503 / 7 % 256) as u16).collect::<Vec<u16>>();
    let (word, proof) = (symbols(256), symbols(model::proof_length(8)));
    let [one, two] = [Form::One, Form::Two].map(|form| file::bytes_of(form, m, &basis, 0, &word, &proof));
    converted("form 1 to 2, l = 8, loop", &one, &two, &mut |out| out.iter_mut().zip(one.chunks_exact(2)).for_each(|(x, pair)| *x = pair[0]));
    converted("form 2 to 1, l = 8, loop", &two, &one, &mut |out| {
        out.chunks_exact_mut(2).zip(&two).for_each(|(pair, x)| pair.copy_from_slice(&[*x, 0]));
    });
}

/// The file of form 1 at k = 12.
pub fn all(one: &[u8]) {
    let x = file::read(one).ok().expect("the file is accepted");
    let two = file::bytes_of(Form::Two, x.modulus, &x.basis, 0, &x.word, &x.proof);
    coins(&x, one);
    println!("\na file in the other form (microseconds), at k = 12 and at k = 8");
    wide(one, &two);
    narrow();
}
