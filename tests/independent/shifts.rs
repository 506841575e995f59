//! Settings with a shift: which ones the groups of tests have, and what a shift does and does not change.
use crate::correction::damaged;
use crate::nearest::radius;
use crate::{calls, model, setting, spoil_setting, Draw, Met, Setting, Tally};

/// The shift 0, with the draws and so the cases of the time before there was a shift; or any shift.
#[derive(Clone, Copy, PartialEq)]
pub enum Shifts {
    Zero,
    Any,
}

impl Shifts {
    /// The name of a group.
    pub fn name(self, name: &str) -> String {
        if self == Shifts::Zero { name.to_string() } else { format!("{name}, any shift") }
    }

    /// A setting that passes, with a shift that passes.
    pub fn put(self, d: &mut Draw, s: Setting) -> Setting {
        let shift = if self == Shifts::Zero { 0 } else { d.below(1 << s.l) as u16 };
        Setting { shift, ..s }
    }

    pub fn setting(self, d: &mut Draw, k: usize) -> Setting {
        let s = setting(d, k);
        self.put(d, s)
    }

    /// Spoils a setting, or its shift, or both.
    pub fn spoil(self, d: &mut Draw, s: &mut Setting) {
        let which = if self == Shifts::Zero { 2 } else { d.below(4) };
        if which < 2 {
            s.shift = (d.below(65536) as u32 | 1 << s.l) as u16;
        }
        if which > 0 {
            spoil_setting(d, s);
        }
    }
}

/// P(x + shift), by Horner's rule on polynomials.
pub fn moved(m: u32, shift: u16, p: &[u16]) -> Vec<u16> {
    let mut q = vec![0; p.len()];
    for c in p.iter().rev() {
        for i in (0..q.len()).rev() {
            q[i] = model::mul(m, q[i], shift) ^ if i == 0 { *c } else { q[i - 1] };
        }
    }
    q
}

/// The proof of the word that holds P at the shifted elements: that of P(x + shift) over the space.
pub fn proof_at(s: &Setting, p: &[u16]) -> Vec<u16> {
    model::proof_of(s.m, &s.b, &moved(s.m, s.shift, p))
}

/// All shifts of some settings, right and wrong: 1 to 3 come before the shift's 4, which is given from 2^l on, and 5 after it.
fn range(t: &mut Tally) {
    let bases: [&[u16]; 5] = [&[1, 2, 4], &[1, 1, 4], &[1, 2], &[1, 2, 9000], &[7, 3, 1, 64]];
    let (mut wrong, mut met) = (0, Met::default());
    for m in [7, 11, 15, 283, 32771, 65579] {
        for b in bases {
            for shift in 0..=65535 {
                let n = model::setting(m, b, shift);
                wrong += u64::from(calls::setting(m, b, shift) != n);
                met.add(n);
            }
        }
    }
    t.answers("all shifts of some settings", wrong, &met, &[0, 1, 2, 3, 4, 5]);
}

/// Coefficients to the word at a shift, or a word to its coefficients, by a call that must be done.
fn done(call: fn(u32, &[u16], u16, &[u16], &mut [u16], &mut [u16]) -> u32, s: &Setting, shift: u16, given: &[u16], length: usize) -> Vec<u16> {
    let (mut out, mut scratch) = (vec![9; length], vec![9; model::SCRATCH << s.b.len()]);
    assert_eq!(call(s.m, &s.b, shift, given, &mut out, &mut scratch), 0);
    out
}

/// Small fields: as many polynomials as there are symbols, each at each shift, and what each other shift reads in its word.
fn small_fields(t: &mut Tally) {
    let (mut wrong, mut cases) = (0, 0);
    for (m, b) in [(11, vec![1, 2, 4]), (13, vec![5, 1, 3]), (19, vec![1, 2, 4, 8]), (31, vec![9, 3, 6, 1])] {
        let s = Setting { l: b.len() as u32, m, b, shift: 0 };
        let n = 1u16 << s.l;
        for (shift, other, x) in (0..n).flat_map(|i| (0..n).flat_map(move |j| (0..n).map(move |x| (i, j, x)))) {
            let p = if s.l == 3 { vec![x] } else { vec![x, (x * 7 + 5) % 16] };
            let w = done(calls::encode, &s, shift, &p, n as usize);
            let q = done(calls::decode, &s, other, &w, p.len());
            wrong += u64::from(w != model::word_of(m, &s.b, shift, &p) || q != moved(m, shift ^ other, &p));
            cases += 1;
        }
    }
    t.group("words at one shift decoded at another, small fields", wrong, cases);
}

/// A word at one shift decoded at another: the coefficients of P(x + shift + other), which at the same shift are those of P.
fn others(t: &mut Tally) {
    let mut d = Draw(0x983e5152ee66dfab);
    let (mut wrong, mut same) = (0, 0);
    for turn in 0..600 {
        let s = Shifts::Any.setting(&mut d, 3 + turn % 7);
        let p = d.list(1 << (s.b.len() - 3), 1 << s.l);
        let other = if turn % 5 == 0 { s.shift } else { d.below(1 << s.l) as u16 };
        let w = done(calls::encode, &s, s.shift, &p, 1 << s.b.len());
        let q = done(calls::decode, &s, other, &w, p.len());
        wrong += u64::from(q != moved(s.m, s.shift ^ other, &p) || (other == s.shift && q != p));
        same += u64::from(q == p);
    }
    println!("the same coefficients among them: {same}");
    t.group("words at one shift decoded at another", wrong, 600);
}

/// A shift in the span: the word is the unshifted one in another order.
fn inside(t: &mut Tally) {
    let mut d = Draw(0xa831c66d2db43210);
    let mut wrong = 0;
    for turn in 0..300 {
        let s = setting(&mut d, 3 + turn % 8);
        let n = 1usize << s.b.len();
        let p = d.list(n / 8, 1 << s.l);
        let j = d.below(n as u64) as usize;
        let (w, v) = (done(calls::encode, &s, 0, &p, n), done(calls::encode, &s, model::elem(&s.b, j), &p, n));
        wrong += u64::from((0..n).any(|i| v[i] != w[i ^ j]));
    }
    t.group("shifts in the span", wrong, 300);
}

/// Checker, prover and correction on one word, whole, damaged or any, and one proof: they give the same at each shift.
fn alike(t: &mut Tally) {
    let mut d = Draw(0xb00327c898fb213f);
    let (mut wrong, mut met) = (0, Met::default());
    for turn in 0..400 {
        let s = Shifts::Any.setting(&mut d, 3 + turn % 6);
        let n = 1usize << s.b.len();
        let p = d.list(n / 8, 1 << s.l);
        let c = model::word_of(s.m, &s.b, s.shift, &p);
        let count = [0, 1, radius(n), n][turn % 4];
        let w = damaged(&mut d, &s, &c, count);
        let coin = d.below(1 << model::coin_bits(s.b.len()));
        let at = |shift: u16| {
            let (mut proof, mut near, mut scratch) = (vec![9; model::proof_length(s.b.len())], vec![9; n], vec![9; model::CORRECTION_SCRATCH * n]);
            let proved = calls::prove(s.m, &s.b, shift, &w, &mut proof, &mut scratch);
            let corrected = calls::correct(s.m, &s.b, shift, &w, &mut near, &mut scratch);
            let verdict = calls::check(s.m, &s.b, shift, &w, &proof, coin);
            (proved, corrected, verdict, proof, near, scratch)
        };
        let (one, zero) = (at(s.shift), at(0));
        met.add(one.0);
        wrong += u64::from(one != zero);
    }
    t.answers("prover, correction and checker at two shifts", wrong, &met, &[0, 10]);
}

pub fn all(t: &mut Tally) {
    range(t);
    small_fields(t);
    others(t);
    inside(t);
    alike(t);
}
