//! Single symbols of word and proof, straight from the polynomial by the layout of document 01: the whole proof is never made.
use crate::model::{self, Place};
use crate::{setting, Draw, Tally};
use std::collections::HashMap;

/// A polynomial over a space without a shift. Rows and columns are made when they are asked for, and kept.
pub struct Lazy {
    m: u32,
    basis: Vec<u16>,
    p: Vec<u16>,
    /// q, and the digits of the polynomial to the base q
    q: Vec<u16>,
    digits: Vec<Vec<u16>>,
    rows: HashMap<usize, Lazy>,
    columns: HashMap<usize, Lazy>,
}

impl Lazy {
    pub fn new(m: u32, basis: &[u16], p: &[u16]) -> Lazy {
        let (k, h) = (basis.len(), basis.len() / 2);
        let (mut q, mut digits) = (vec![], vec![]);
        if k > 6 {
            q = model::roots(m, &model::points(&basis[..h], 0, 1 << h));
            digits = model::digits_of(m, p, &q, 1 << (k - h - 3));
        }
        Lazy { m, basis: basis.to_vec(), p: p.to_vec(), q, digits, rows: HashMap::new(), columns: HashMap::new() }
    }

    /// Row r: Q(x, q(beta)) over its own space.
    fn row(&mut self, r: usize) -> &mut Lazy {
        let Lazy { m, basis, q, digits, .. } = self;
        self.rows.entry(r).or_insert_with(|| {
            let h = basis.len() / 2;
            let y = model::eval(*m, q, model::elem(&basis[h..], r));
            let coefficient = |i: usize| model::eval(*m, &digits.iter().map(|d| d[i]).collect::<Vec<_>>(), y);
            Lazy::new(*m, &model::row_basis(basis, r), &(0..1 << h).map(coefficient).collect::<Vec<_>>())
        })
    }

    /// Column a: Q(element a, y) over its own space.
    fn column(&mut self, a: usize) -> &mut Lazy {
        let Lazy { m, basis, digits, .. } = self;
        self.columns.entry(a).or_insert_with(|| {
            let x = model::elem(basis, a);
            let p: Vec<u16> = digits.iter().map(|d| model::eval(*m, d, x)).collect();
            Lazy::new(*m, &model::column_basis(*m, basis), &p)
        })
    }

    /// The symbol at a place: of the seven stored blocks of a row, of the proof of a row, or of the proof of a column.
    pub fn symbol(&mut self, at: Place) -> u16 {
        let k = self.basis.len();
        let (h, c) = (k / 2, k - k / 2);
        let (row, column) = (model::proof_length(h + 3), model::proof_length(c));
        match at {
            Place::Word(i) => model::eval(self.m, &self.p, model::elem(&self.basis, i)),
            Place::Proof(i) if i < 7 << k => {
                let (r, b, o) = (i / (7 << h), i / (1 << h) % 7, i % (1 << h));
                let b = if b < r.min(4) { b } else { b + 1 };
                self.row(r).symbol(Place::Word((b << h) + o))
            }
            Place::Proof(i) if i < (7 << k) + (row << c) => {
                let i = i - (7 << k);
                self.row(i / row).symbol(Place::Proof(i % row))
            }
            Place::Proof(i) => {
                let i = i - (7 << k) - (row << c);
                self.column(i / column).symbol(Place::Proof(i % column))
            }
        }
    }
}

/// Both ends of every stretch of a proof: of each stored block, of the proof of each row and of each column; and in those proofs too, so
/// many levels down.
pub fn ends(k: usize, levels: usize) -> Vec<usize> {
    let (h, c) = (k / 2, k - k / 2);
    let (row, column) = (model::proof_length(h + 3), model::proof_length(c));
    let mut all: Vec<usize> = (0..7 << c).flat_map(|b| [b << h, (b << h) + (1 << h) - 1]).collect();
    let mut inner = |from: usize, count: usize, length: usize, dimension: usize| {
        let found = match length {
            0 => vec![],
            _ if levels == 0 => vec![0, length - 1],
            _ => ends(dimension, levels - 1),
        };
        (0..count).for_each(|i| all.extend(found.iter().map(|at| from + i * length + at)));
    };
    inner(7 << k, 1 << c, row, h + 3);
    inner((7 << k) + (row << c), 4 << h, column, c);
    all
}

/// Single symbols beside the model's whole word and proof: all of them up to dimension 8, then some.
pub fn all(t: &mut Tally) {
    let mut d = Draw(0xca273eceea26619c);
    for k in 7..=11 {
        let s = setting(&mut d, k);
        let p = d.list(1 << (k - 3), 1 << s.l);
        let (w, proof) = (model::word_of(s.m, &s.b, 0, &p), model::proof_of(s.m, &s.b, &p));
        let mut lazy = Lazy::new(s.m, &s.b, &p);
        let mut some = |n: usize| -> Vec<usize> {
            if k <= 8 { (0..n).collect() } else { (0..20000).map(|_| d.below(n as u64) as usize).collect() }
        };
        let (in_word, mut in_proof) = (some(w.len()), some(proof.len()));
        in_proof.extend(ends(k, 2));
        let wrong = in_word.iter().filter(|i| lazy.symbol(Place::Word(**i)) != w[**i]).count()
            + in_proof.iter().filter(|i| lazy.symbol(Place::Proof(**i)) != proof[**i]).count();
        t.group(&format!("single symbols at k = {k}"), wrong as u64, (in_word.len() + in_proof.len()) as u64);
    }
}
