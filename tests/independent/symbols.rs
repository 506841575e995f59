//! The calls on symbols without scratch: field, setting and checker.
use crate::shifts::proof_at;
use crate::{calls, damage, degree, model, modulus, outside, Draw, Met, Setting, Shifts, Tally};

fn moduli(t: &mut Tally) {
    let (mut wrong, mut met) = (0, Met::default());
    for m in 0..131100 {
        let n = model::setting(m, &[1, 2, 4], 0);
        wrong += u64::from(calls::setting(m, &[1, 2, 4], 0) != n);
        met.add(n);
    }
    t.answers("moduli 0 to 131099", wrong, &met, &[0, 1, 2]);
}

/// A modulus: of eight, one is any number up to 140000.
fn any_modulus(d: &mut Draw) -> u32 {
    let l = 3 + d.below(14) as u32;
    if d.below(8) == 0 { d.below(140000) as u32 } else { modulus(d, l) }
}

fn field(t: &mut Tally) {
    let mut d = Draw(0x9e3779b97f4a7c15);
    let (mut wrong, mut met) = (0, Met::default());
    for i in 0..20000 {
        let m = any_modulus(&mut d);
        let top = if i % 3 == 0 { 65536 } else { 1 << model::degree(m.max(8)).min(16) };
        let (a, b) = (d.below(top) as u16, d.below(top) as u16);
        let n = match model::setting(m, &[1, 2, 4], 0) {
            0 if outside(m, &[a, b]) => 9,
            n => n,
        };
        let (s, p) = if n == 0 { ((a ^ b) as u32, model::mul(m, a, b) as u32) } else { (65536 + n, 65536 + n) };
        wrong += u64::from(calls::sum(m, a, b) != s || calls::product(m, a, b) != p);
        met.add(n);
    }
    t.answers("sums and products", wrong, &met, &[0, 1, 2, 9]);
}

/// To the first values are added the products of the factors and the values that follow these; a last value of an odd number is left.
fn products(t: &mut Tally) {
    let mut d = Draw(0x3c6ef372fe94f82b);
    let (mut wrong, mut met) = (0, Met::default());
    for _ in 0..4000 {
        let m = any_modulus(&mut d);
        let top = if d.below(6) == 0 { 65536 } else { 1 << model::degree(m.max(8)).min(16) };
        let n = d.below(70) as usize;
        let (values, factors) = (d.near(2 * n), d.list(n, top));
        let old = d.list(values, top);
        let number = match model::setting(m, &[1, 2, 4], 0) {
            0 if values / 2 != n => 6,
            0 if outside(m, &factors) || outside(m, &old) => 9,
            number => number,
        };
        let (mut right, mut left) = (old.clone(), old.clone());
        for i in 0..if number == 0 { n } else { 0 } {
            right[i] = old[i] ^ model::mul(m, factors[i], old[n + i]);
        }
        wrong += u64::from(calls::products(m, &factors, &mut left) != number || left != right);
        met.add(number);
    }
    t.answers("products of lists", wrong, &met, &[0, 1, 2, 6, 9]);
}

fn settings(t: &mut Tally) {
    let mut d = Draw(0xd1b54a32d192ed03);
    let (mut wrong, mut met) = (0, Met::default());
    let mut compare = |m: u32, b: &[u16]| {
        let n = model::setting(m, b, 0);
        wrong += u64::from(calls::setting(m, b, 0) != n);
        met.add(n);
    };
    for _ in 0..6000 {
        let m = any_modulus(&mut d);
        let (k, range) = (d.below(16) as usize, if d.below(4) == 0 { 65536 } else { 1 << model::degree(m.max(8)).min(16) });
        compare(m, &d.list(k, range));
    }
    compare(11, &vec![1; 10000]);
    t.answers("settings", wrong, &met, &[0, 1, 2, 3, 4, 5]);
}

/// A setting with a word and a proof for it.
pub struct Pair {
    pub s: Setting,
    pub w: Vec<u16>,
    pub proof: Vec<u16>,
}

impl Pair {
    pub fn at(&self, at: model::Place) -> u16 {
        match at {
            model::Place::Word(i) => self.w[i],
            model::Place::Proof(i) => self.proof[i],
        }
    }
    /// Puts a symbol at a place, and gives the one that stood there.
    pub fn swap(&mut self, at: model::Place, x: u16) -> u16 {
        match at {
            model::Place::Word(i) => std::mem::replace(&mut self.w[i], x),
            model::Place::Proof(i) => std::mem::replace(&mut self.proof[i], x),
        }
    }
    /// The checker's answer.
    pub fn check(&self, coin: u64) -> u64 {
        calls::check(self.s.m, &self.s.b, self.s.shift, &self.w, &self.proof, coin)
    }
    /// Whether the checker answers as the model, and as a checker can; the answer goes into the table.
    pub fn same(&self, coin: u64, met: &mut Met) -> bool {
        let v = model::check(self.s.m, &self.s.b, self.s.shift, &self.w, &self.proof, coin);
        met.add(degree::host_answer(v, calls::UNREAD).0);
        self.check(coin) == v && degree::possible(v)
    }
}

/// A pair that is right, or damaged in a few places below 2^l or below 2^16.
fn pair(d: &mut Draw, shifts: Shifts, k: usize, turn: u64) -> Pair {
    let s = shifts.setting(d, k);
    let p = d.list(1 << (k - 3), 1 << s.l);
    let (mut w, mut proof) = (model::word_of(s.m, &s.b, s.shift, &p), proof_at(&s, &p));
    if turn % 2 == 1 {
        damage(d, &mut w, if turn % 4 == 1 { 1 << s.l } else { 65536 });
    }
    if turn % 4 > 1 {
        damage(d, &mut proof, if turn % 4 == 2 { 1 << s.l } else { 65536 });
    }
    Pair { s, w, proof }
}

/// Any coin, most often one in range.
fn coin(d: &mut Draw, k: usize) -> u64 {
    match d.below(12) {
        0 => d.next(),
        1 => 1 << model::coin_bits(k),
        _ => d.below(1 << model::coin_bits(k)),
    }
}

fn verdicts(t: &mut Tally, shifts: Shifts) {
    let mut d = Draw(0x2545f4914f6cdd1d);
    for k in 3..=9usize {
        let (mut wrong, mut met) = (0, Met::default());
        for round in 0..if k <= 7 { 120 } else { 12 } {
            let mut x = pair(&mut d, shifts, k, round);
            for turn in 0..if k <= 6 { 2 } else { 40 } {
                let coin = coin(&mut d, k);
                // in some turns a symbol that the coin reads is changed for the time of the call
                let read = model::positions(k, coin % (1 << model::coin_bits(k)));
                let at = read[d.below(read.len() as u64) as usize];
                let kept = x.swap(at, d.below(if turn % 8 == 0 { 65536 } else { 1 << x.s.l }) as u16);
                if turn % 4 != 0 {
                    x.swap(at, kept);
                }
                wrong += u64::from(!x.same(coin, &mut met));
                x.swap(at, kept);
            }
        }
        t.answers(&shifts.name(&format!("verdicts at k = {k}")), wrong, &met, &[0, 8, 9, 100]);
    }
}

/// The checker with settings, lengths, coins and symbols that are right or not.
fn refusals(t: &mut Tally, shifts: Shifts) {
    let mut d = Draw(0xb5c0fbcfec4d3b2f);
    let (mut wrong, mut met) = (0, Met::default());
    for round in 0..3000 {
        let k = 3 + d.below(5) as usize;
        let mut x = pair(&mut d, shifts, k, round);
        if d.below(3) == 0 {
            shifts.spoil(&mut d, &mut x.s);
        }
        let (w, p) = (d.near(x.w.len()), d.near(x.proof.len()));
        x.w.resize(w, 0);
        x.proof.resize(p, 0);
        wrong += u64::from(!x.same(coin(&mut d, k), &mut met));
    }
    t.answers(&shifts.name("refusals of the checker"), wrong, &met, &[0, 1, 2, 3, 4, 5, 6, 8, 9, 100]);
}

/// The bench cases of document 01 that are not proved, at k = 7, and the degree of one symbol among zeros.
fn bench_cases(t: &mut Tally) {
    let b: Vec<u16> = (0..7).map(|i| 1 << i).collect();
    let rejects = |w: &[u16], p: &[u16]| (0..64).filter(|c| calls::check(283, &b, 0, w, p, *c) >> 16 & 65535 == 1).count();
    let (w, p) = (vec![0u16; 128], vec![0u16; 896]);
    let (mut v, mut q) = (w.clone(), p.clone());
    (q[0], v[32]) = (1, 1);
    let right = [
        rejects(&w, &p) == 0,
        rejects(&w, &q) == 3,
        rejects(&v, &p) == 2,
        calls::check(283, &b, 0, &w, &q, 32) == degree::rejected(64, 63, 6),
        calls::check(283, &b, 0, &w, &q, 17) == degree::rejected(16, 15, 4),
        calls::check(283, &b, 0, &v, &p, 8) == degree::rejected(64, 63, 6),
        calls::check(283, &b, 0, &w, &p, 63) == 16,
        calls::check(283, &b, 0, &w, &p, 64) == 131072 + 8,
        calls::check(283, &b[..6], 0, &w[..64], &[], 0) == 64,
        calls::check(283, &b[..6], 0, &w[..64], &[], 1) == 131072 + 8,
    ];
    t.group("bench cases at k = 6 and 7", right.iter().filter(|x| !**x).count() as u64, 10);
}

pub fn all(t: &mut Tally) {
    moduli(t);
    field(t);
    products(t);
    settings(t);
    bench_cases(t);
}

/// The checker.
pub fn checker(t: &mut Tally, shifts: Shifts) {
    verdicts(t, shifts);
    refusals(t, shifts);
}
