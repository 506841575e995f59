//! Memory of the proved calls: the stack that each of them touches, and the largest resident size.
use crate::file::{file_length, Form};
use crate::{calls, coefficients, coin_at, correction, degree, model, nearest, reject, LARGE, MODULUS};
use std::mem::MaybeUninit;

/// What the stack is painted with, and how many such words.
const PAINT: u64 = 0x5ca1_ab1e_0ddb_a11d;
const PAINTED: usize = 1 << 17;

/// So many coins go each way through rows and columns at least once, at these dimensions.
const COINS: u64 = 64;

/// Paints the stack below the frame of the caller: where the painted part begins.
#[inline(never)]
fn paint() -> usize {
    let mut area = [MaybeUninit::<u64>::uninit(); PAINTED];
    area.iter_mut().for_each(|x| unsafe { x.as_mut_ptr().write_volatile(PAINT) });
    area.as_ptr() as usize
}

/// The bytes from the lowest word that is not paint any more up to the end of the painted part.
#[inline(never)]
fn touched(start: usize) -> usize {
    let still = |i: &usize| unsafe { (start as *const u64).add(*i).read_volatile() } == PAINT;
    8 * (PAINTED - (0..PAINTED).take_while(still).count())
}

/// The bytes of stack that a call touches.
#[inline(never)]
fn stack(call: &mut dyn FnMut()) -> usize {
    let start = paint();
    call();
    let bytes = touched(start);
    assert!(bytes < 8 * PAINTED, "the call touches more stack than was painted");
    bytes
}

/// The largest resident size of this process so far, in kB.
fn largest_resident() -> usize {
    let status = std::fs::read_to_string("/proc/self/status").expect("the status of this process can be read");
    let line = status.lines().find(|line| line.starts_with("VmHWM:")).expect("the status has the largest resident size");
    line.split_whitespace().nth(1).and_then(|kb| kb.parse().ok()).expect("the size is a number")
}

/// Numbers and their names at one dimension: bytes of stack, then two sizes.
fn dimension(basis: &[u16]) -> Vec<(&'static str, usize)> {
    let (k, n, p) = (basis.len(), 1 << basis.len(), coefficients(basis.len()));
    let (mut w, mut q, mut near, mut s) = (vec![0; n], vec![0; n / 8], vec![0; n], vec![0; 16 * n]);
    let mut pi = vec![0; model::proof_length(k)];
    let mut all = vec![];
    let mut add = |name, call: &mut dyn FnMut()| all.push((name, stack(call)));
    add("nothing", &mut || ());
    add("encode", &mut || assert_eq!(calls::encode(MODULUS, basis, 0, &p, &mut w, &mut s), 0));
    add("decode", &mut || assert_eq!(calls::decode(MODULUS, basis, 0, &w, &mut q, &mut s), 0));
    add("prove", &mut || assert_eq!(calls::prove(MODULUS, basis, 0, &w, &mut pi, &mut s), 0));
    add("check, any coin", &mut || (0..COINS).for_each(|i| assert!(calls::check(MODULUS, basis, 0, &w, &pi, coin_at(k, i)) <= 64)));
    add("check, coins that reject", &mut || {
        for coin in (0..COINS).map(|i| coin_at(k, i)) {
            let at = model::positions(k, coin);
            reject::add(&mut w, &mut pi, &at[..1], &[1]);
            assert_eq!(calls::check(MODULUS, basis, 0, &w, &pi, coin), degree::rejected(at.len(), at.len() - 1, at.len().ilog2() as usize));
            reject::add(&mut w, &mut pi, &at[..1], &[1]);
        }
    });
    let (radius, word) = (nearest::radius(n), correction::damaged(&w, nearest::radius(n)));
    add("correct, at the radius", &mut || assert_eq!(calls::correct(MODULUS, basis, 0, &word, &mut near, &mut s), radius as u64));
    assert_eq!((&q, &near), (&p, &w));

    let [mut one, mut two] = [Form::One, Form::Two].map(|form| vec![0; file_length(form, MODULUS, k)]);
    add("write a file", &mut || assert_eq!(calls::write_form_two(MODULUS, basis, 0, &w, &pi, &mut two), 0));
    drop(pi);
    add("convert it", &mut || assert_eq!(calls::convert(&two, &mut one), 0));
    assert!(one.ends_with(&two[two.len() - 2 * model::proof_length(k)..]));
    add("check it from C, any coin", &mut || (0..COINS).for_each(|i| assert_eq!(calls::check_file(&one, coin_at(k, i)).0, 0)));
    all.push(("kB of the two files", (one.len() + two.len()) / 1024));
    all.push(("kB resident at most so far", largest_resident()));
    all
}

/// The table of memory. It comes first in a run, so that the resident size is that of these calls and of what they are lent.
pub fn all(basis: &[u16]) {
    let columns = LARGE.map(|k| dimension(&basis[..k]));
    let line = |name: &str, numbers: [usize; LARGE.len()]| println!("{name:30}{}", numbers.map(|x| format!("{x:>10}")).concat());
    println!("bytes of stack that a call touches, and memory");
    line("k", LARGE);
    (0..columns[0].len()).for_each(|i| line(columns[0][i].0, columns.each_ref().map(|c| c[i].1)));
    println!();
}
