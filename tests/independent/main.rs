//! Compares the proved library with an independent model on fixed pseudo-random and damaged inputs.
mod arithmetic;
mod calls;
mod codec;
mod columns;
mod convert;
mod correction;
mod counter;
mod degree;
mod degrees;
mod entries;
mod file;
mod files;
mod forms;
mod largest;
mod lazy;
mod limits;
mod model;
mod nearest;
mod reduction;
mod report;
mod scratch;
mod shifts;
mod stream;
mod symbols;
mod writers;

use file::Form;
use shifts::Shifts;
use std::collections::BTreeMap;

/// xorshift, with a fixed seed.
pub struct Draw(pub u64);

impl Draw {
    pub fn next(&mut self) -> u64 {
        self.0 ^= self.0 << 13;
        self.0 ^= self.0 >> 7;
        self.0 ^= self.0 << 17;
        self.0
    }
    pub fn below(&mut self, n: u64) -> u64 {
        self.next() % n
    }
    pub fn list(&mut self, n: usize, range: u64) -> Vec<u16> {
        (0..n).map(|_| self.below(range) as u16).collect()
    }
    /// A length, or at times one near it.
    pub fn near(&mut self, right: usize) -> usize {
        if self.below(8) == 0 { (right + self.below(5) as usize).saturating_sub(2) } else { right }
    }
}

/// How often each answer was met: 0 for done or accepted, 100 for rejected, else the number of the refusal.
#[derive(Default)]
pub struct Met(BTreeMap<u32, u64>);

impl Met {
    pub fn add(&mut self, answer: u32) {
        *self.0.entry(answer).or_default() += 1;
    }
}

#[derive(Default)]
pub struct Tally {
    passed: u32,
    failed: u32,
}

impl Tally {
    fn verdict(&mut self, good: bool) {
        *(if good { &mut self.passed } else { &mut self.failed }) += 1;
    }
    /// One comparison group counts as one test.
    pub fn group(&mut self, name: &str, wrong: u64, cases: u64) {
        println!("{name}: {cases} cases, {wrong} differ");
        self.verdict(wrong == 0 && cases > 0);
    }
    /// A group and its table of answers, which counts as a test too: each answer that is expected is there, and no other.
    pub fn answers(&mut self, name: &str, wrong: u64, met: &Met, expected: &[u32]) {
        self.group(name, wrong, met.0.values().sum());
        println!("  by number: {:?}", met.0);
        let good = met.0.keys().eq(expected);
        if !good {
            println!("  expected: {expected:?}");
        }
        self.verdict(good);
    }
}

/// A modulus that passes, of degree l.
pub fn modulus(d: &mut Draw, l: u32) -> u32 {
    loop {
        let m = (1 << l) + d.below(1 << l) as u32;
        if model::irreducible(m) {
            return m;
        }
    }
}

pub fn basis(d: &mut Draw, l: u32, k: usize) -> Vec<u16> {
    loop {
        let b = d.list(k, 1 << l);
        if model::independent(&b) {
            return b;
        }
    }
}

/// A modulus of degree l, a basis and a shift.
#[derive(Clone)]
pub struct Setting {
    pub l: u32,
    pub m: u32,
    pub b: Vec<u16>,
    pub shift: u16,
}

/// A setting of degree l, dimension k and shift 0 that passes.
pub fn setting_of(d: &mut Draw, l: u32, k: usize) -> Setting {
    Setting { l, m: modulus(d, l), b: basis(d, l, k), shift: 0 }
}

/// A setting of dimension k and shift 0 that passes.
pub fn setting(d: &mut Draw, k: usize) -> Setting {
    let l = (k as u64).max(3 + d.below(14)) as u32;
    setting_of(d, l, k)
}

/// Spoils a setting: check 1, 2, 3, 4 or 5 refuses it, but for a few. The shift is left.
pub fn spoil_setting(d: &mut Draw, s: &mut Setting) {
    let k = s.b.len() as u64;
    let (i, j) = (d.below(k) as usize, d.below(k) as usize);
    match d.below(8) {
        0 => s.m = d.below(8) as u32,
        1 => s.m = 131072 + d.below(9000) as u32,
        2 => s.m = d.below(140000) as u32,
        3 => s.b.truncate(d.below(3) as usize),
        4 => s.b = d.list(model::LARGEST + 1 + j % 3, 1 << s.l),
        5 => s.b[i] = (d.below(65536) as u32 | 1 << s.l) as u16,
        6 => s.b[i] = s.b[j] ^ s.b[(j + 1) % k as usize],
        _ => s.b[i] = [0, s.b[(i + 1) % k as usize]][d.below(2) as usize],
    }
}

/// Some symbols changed to others below the range.
pub fn damage(d: &mut Draw, xs: &mut [u16], range: u64) {
    for _ in 0..1 + d.below(3) {
        if !xs.is_empty() {
            let i = d.below(xs.len() as u64) as usize;
            xs[i] = d.below(range) as u16;
        }
    }
}

/// Whether a symbol is not below 2^l.
pub fn outside(m: u32, xs: &[u16]) -> bool {
    xs.iter().any(|x| (*x as u32) >> model::degree(m) != 0)
}

fn main() {
    let mut t = Tally::default();
    symbols::all(&mut t);
    reduction::all(&mut t);
    for shifts in [Shifts::Zero, Shifts::Any] {
        symbols::checker(&mut t, shifts);
        codec::all(&mut t, shifts);
        correction::all(&mut t, shifts);
        largest::all(&mut t, shifts);
        scratch::all(&mut t, shifts);
    }
    lazy::all(&mut t);
    columns::all(&mut t);
    limits::all(&mut t);
    shifts::all(&mut t);
    degrees::all(&mut t);
    for form in [Form::One, Form::Two] {
        files::all(&mut t, form);
    }
    forms::all(&mut t);
    convert::all(&mut t);
    writers::all(&mut t);
    counter::all(&mut t);
    entries::all(&mut t);
    report::all(&mut t);
    println!("{} passed, {} failed", t.passed, t.failed);
    std::process::exit(i32::from(t.failed != 0));
}
