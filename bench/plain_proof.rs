//! Prover and checker of the plain implementation. They check no input.
use crate::plain::{block_coefficients, inverse, transform, Field, Space, MAX};

/// The length of a proof by its dimension.
const LENGTHS: [usize; MAX + 1] = lengths();

const fn lengths() -> [usize; MAX + 1] {
    let (mut all, mut k) = ([0; MAX + 1], 7);
    while k <= MAX {
        let (h, c) = (k / 2, k - k / 2);
        all[k] = (7 << k) + (all[h + 3] << c) + (all[c] << (h + 2));
        k += 1;
    }
    all
}

/// Where a symbol of a row lies.
enum Place {
    Word(usize),
    Proof(usize),
}

/// The place of position i of row r, whose blocks have 2^h symbols.
fn place(h: usize, r: usize, i: usize) -> Place {
    let (j, o, slot) = (i >> h, i & ((1 << h) - 1), r.min(4));
    if j == slot {
        return Place::Word((r << h) + o);
    }
    Place::Proof(((7 * r + j - (j > slot) as usize) << h) + o)
}

/// The proof of a codeword.
pub fn prove(f: &Field, s: &Space, word: &[u16], proof: &mut [u16]) {
    let (k, h) = (s.k, s.k / 2);
    if k <= 6 {
        return;
    }
    let (rows, size, deep) = (1usize << (k - h), 1usize << h, LENGTHS[h + 3]);
    let (stored, inner) = proof.split_at_mut(7 << k);
    let (of_rows, of_columns) = inner.split_at_mut(rows * deep);
    let mut whole = vec![0; 8 * size];
    for r in 0..rows {
        let space = s.row(r);
        let own = &word[r * size..(r + 1) * size];
        let mut d = own.to_vec();
        inverse(f, s, s.element(h, r), &mut d);
        for (j, block) in whole.chunks_mut(size).enumerate() {
            if let Place::Proof(at) = place(h, r, j * size) {
                block.copy_from_slice(&d);
                transform(f, s, space.element(h, j), block);
                stored[at..at + size].copy_from_slice(block);
            } else {
                block.copy_from_slice(own);
            }
        }
        prove(f, &space, &whole, &mut of_rows[r * deep..(r + 1) * deep]);
    }
    prove_columns(f, s, word, stored, of_columns);
}

/// The proofs of the columns: there are none where columns are short.
fn prove_columns(f: &Field, s: &Space, word: &[u16], stored: &[u16], proofs: &mut [u16]) {
    let (space, h) = (s.column(), s.k / 2);
    let symbol = |at| match at {
        Place::Word(i) => word[i],
        Place::Proof(i) => stored[i],
    };
    for (a, proof) in proofs.chunks_mut(LENGTHS[space.k].max(1)).enumerate() {
        let column: Vec<u16> = (0..1 << space.k).map(|r| symbol(place(h, r, a))).collect();
        prove(f, &space, &column, proof);
    }
}

/// A coin's step to a row or a column by its index; the proof of the word that it leaves begins at `at`.
struct Step {
    h: usize,
    row: bool,
    index: usize,
    at: usize,
}

/// Position i of the word that the steps lead to.
fn symbol(steps: &[Step], word: &[u16], proof: &[u16], mut i: usize) -> u16 {
    for s in steps.iter().rev() {
        let (r, inside) = if s.row { (s.index, i) } else { (i, s.index) };
        match place(s.h, r, inside) {
            Place::Word(at) => i = at,
            Place::Proof(at) => return proof[s.at + at],
        }
    }
    word[i]
}

/// The verdict for one coin.
pub fn check(f: &Field, s: &Space, word: &[u16], proof: &[u16], mut coin: u64) -> bool {
    let (mut space, mut steps, mut at) = (s.clone(), Vec::with_capacity(MAX), 0);
    while space.k > 6 {
        let (k, h) = (space.k, space.k / 2);
        let (c, row) = (k - h, coin & 1 == 0);
        let bits = if row { c } else { h + 2 };
        let index = (coin >> 1) as usize & ((1 << bits) - 1);
        steps.push(Step { h, row, index, at });
        at += (7 << k) + if row { index * LENGTHS[h + 3] } else { (LENGTHS[h + 3] << c) + index * LENGTHS[c] };
        space = if row { space.row(index) } else { space.column() };
        coin >>= 1 + bits;
    }
    let short: Vec<u16> = (0..1 << space.k).map(|i| symbol(&steps, word, proof, i)).collect();
    block_coefficients(f, &space, &short).is_some()
}
