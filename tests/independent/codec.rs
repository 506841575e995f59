//! The calls with scratch: encoder, decoder and prover, with right and wrong settings, lengths, symbols and words. Outputs and scratch
//! start as noise and are compared whole.
use crate::shifts::proof_at;
use crate::{calls, damage, model, outside, Draw, Met, Setting, Shifts, Tally};

/// A setting, the lengths of the word and of the other list, and the scratch.
pub struct Case {
    pub s: Setting,
    k: usize,
    words: usize,
    pub others: usize,
    /// whether both lengths are right
    fits: bool,
    /// the least scratch that is enough
    least: usize,
    pub scratch: Vec<u16>,
}

impl Case {
    /// A case of dimension k, whose other list has `right` symbols by law, and whose scratch has `least` or more.
    pub fn draw(d: &mut Draw, shifts: Shifts, k: usize, right: usize, least: usize) -> Case {
        let mut s = shifts.setting(d, k);
        if d.below(6) == 0 {
            shifts.spoil(d, &mut s);
        }
        let (words, others) = (d.near(1 << k), d.near(right));
        let room = match d.below(8) {
            0 => least - 1 - d.below(3) as usize,
            1 => least + d.below(9) as usize,
            _ => least,
        };
        Case { s, k, words, others, fits: (words, others) == (1 << k, right), least, scratch: d.list(room, 65536) }
    }

    /// Checks 1 to 7.
    pub fn first(&self) -> u32 {
        match model::setting(self.s.m, &self.s.b, self.s.shift) {
            0 if !self.fits => 6,
            0 if self.scratch.len() < self.least => 7,
            n => n,
        }
    }

    /// A codeword, whole or damaged; noise where a check refuses.
    pub fn word(&self, d: &mut Draw) -> Vec<u16> {
        let p = d.list(1 << (self.k - 3), 1 << self.s.l);
        let mut w = if self.first() == 0 { model::word_of(self.s.m, &self.s.b, self.s.shift, &p) } else { d.list(self.words, 65536) };
        match d.below(6) {
            0 => damage(d, &mut w, 65536),
            1 => damage(d, &mut w, 1 << self.s.l),
            _ => {}
        }
        w
    }
}

/// What a call with an output and scratch must leave, by its number; `right` is the output of an accepted call.
pub fn left(number: u32, right: Vec<u16>, output: &[u16], scratch: &[u16]) -> (Vec<u16>, Vec<u16>) {
    let output = if number == 0 { right } else { output.to_vec() };
    let scratch = if number == 0 || number > 7 { vec![0; scratch.len()] } else { scratch.to_vec() };
    (output, scratch)
}

fn encoder(t: &mut Tally, shifts: Shifts) {
    let mut d = Draw(0x8cb92ba72f3d8dd7);
    let (mut wrong, mut met) = (0, Met::default());
    for _ in 0..4000 {
        let k = 3 + d.below(6) as usize;
        let x = Case::draw(&mut d, shifts, k, 1 << (k - 3), model::SCRATCH << k);
        let range = if d.below(6) == 0 { 65536 } else { 1 << x.s.l };
        let p = d.list(x.others, range);
        let number = match x.first() {
            0 if outside(x.s.m, &p) => 9,
            n => n,
        };
        let right = if number == 0 { model::word_of(x.s.m, &x.s.b, x.s.shift, &p) } else { vec![] };
        let old = d.list(x.words, 65536);
        let (mut w, mut s) = (old.clone(), x.scratch.clone());
        let got = calls::encode(x.s.m, &x.s.b, x.s.shift, &p, &mut w, &mut s);
        wrong += u64::from(got != number || (w, s) != left(number, right, &old, &x.scratch));
        met.add(number);
    }
    t.answers(&shifts.name("encoder"), wrong, &met, &[0, 1, 2, 3, 4, 5, 6, 7, 9]);
}

/// A call on a word: its name, its rounds, its dimensions above 3, the length of its output, the output, and the call.
struct OnWords {
    name: &'static str,
    rounds: u32,
    dims: u64,
    length: fn(usize) -> usize,
    right: fn(&Setting, &[u16]) -> Vec<u16>,
    call: fn(u32, &[u16], u16, &[u16], &mut [u16], &mut [u16]) -> u32,
}

fn on_words(t: &mut Tally, shifts: Shifts, c: &OnWords) {
    let mut d = Draw(0x6a09e667f3bcc909);
    let (mut wrong, mut met) = (0, Met::default());
    for _ in 0..c.rounds {
        let k = 3 + d.below(c.dims) as usize;
        let x = Case::draw(&mut d, shifts, k, (c.length)(k), model::SCRATCH << k);
        let w = x.word(&mut d);
        let number = match x.first() {
            0 if outside(x.s.m, &w) => 9,
            0 if !model::is_codeword(x.s.m, &x.s.b, x.s.shift, &w) => 10,
            n => n,
        };
        let right = if number == 0 { (c.right)(&x.s, &w) } else { vec![] };
        let old = d.list(x.others, 65536);
        let (mut out, mut s) = (old.clone(), x.scratch.clone());
        let got = (c.call)(x.s.m, &x.s.b, x.s.shift, &w, &mut out, &mut s);
        wrong += u64::from(got != number || (out, s) != left(number, right, &old, &x.scratch));
        met.add(number);
    }
    t.answers(&shifts.name(c.name), wrong, &met, &[0, 1, 2, 3, 4, 5, 6, 7, 9, 10]);
}

const DECODER: OnWords = OnWords {
    name: "decoder",
    rounds: 4000,
    dims: 6,
    length: |k| 1 << (k - 3),
    right: |s, w| model::through_first(s.m, &s.b, s.shift, w),
    call: calls::decode,
};

const PROVER: OnWords = OnWords {
    name: "prover",
    rounds: 1000,
    dims: 7,
    length: model::proof_length,
    right: |s, w| proof_at(s, &model::through_first(s.m, &s.b, s.shift, w)),
    call: calls::prove,
};

pub fn all(t: &mut Tally, shifts: Shifts) {
    encoder(t, shifts);
    on_words(t, shifts, &DECODER);
    on_words(t, shifts, &PROVER);
}
