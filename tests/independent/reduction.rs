//! Products of which some steps reduce and others do not: all of the small fields, and those of 2 and of x^(l-1) in fields of each size.
use crate::{calls, model, modulus, Draw, Tally};

/// All symbols of a field, the first three once more, so that their number is no multiple of eight.
fn symbols(l: u32) -> Vec<u16> {
    (0..(1u32 << l) + 3).map(|i| (i % (1 << l)) as u16).collect()
}

/// How many products of a and these symbols, made as a list, differ from the model's.
fn differing(m: u32, a: u16, symbols: &[u16]) -> u64 {
    let n = symbols.len();
    let mut values = vec![0; n];
    values.extend(symbols);
    let number = calls::products(m, &vec![a; n], &mut values);
    (0..n).filter(|i| number != 0 || values[*i] != model::mul(m, a, symbols[*i])).count() as u64
}

fn small_fields(t: &mut Tally) {
    let (mut wrong, mut cases) = (0, 0);
    for l in 3..=8 {
        let xs = symbols(l);
        for m in (1 << l..2 << l).filter(|m| model::irreducible(*m)) {
            wrong += (0..1 << l).map(|a| differing(m, a, &xs)).sum::<u64>();
            cases += (xs.len() as u64) << l;
        }
    }
    t.group("all products at l = 3 to 8", wrong, cases);
}

/// The product by 2 reduces in its last step alone, where the top bit of the symbol is set; that by x^(l-1) in up to l - 1 steps.
fn shifts(t: &mut Tally) {
    let mut d = Draw(0x510e527fade682d1);
    let (mut wrong, mut cases) = (0, 0);
    for l in 3..=16 {
        let xs = symbols(l);
        for _ in 0..8 {
            let m = modulus(&mut d, l);
            wrong += [2, 1 << (l - 1)].iter().map(|a| differing(m, *a, &xs)).sum::<u64>();
            cases += 2 * xs.len() as u64;
        }
    }
    t.group("products of 2 and of x^(l-1) with each symbol, in lists, at l = 3 to 16", wrong, cases);
}

fn doubles(t: &mut Tally) {
    let mut d = Draw(0x9b05688c2b3e6c1f);
    let (mut wrong, mut cases) = (0, 0);
    for l in 3..=16 {
        let m = modulus(&mut d, l);
        for x in 0..=((1u32 << l) - 1) as u16 {
            wrong += u64::from(calls::product(m, 2, x) != model::mul(m, 2, x) as u32);
            cases += 1;
        }
    }
    t.group("doubles of each symbol at l = 3 to 16", wrong, cases);
}

pub fn all(t: &mut Tally) {
    small_fields(t);
    shifts(t);
    doubles(t);
}
