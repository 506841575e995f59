//! The coin counter: the proved totals of stored files beside the independent model, and beside what is known of their words.
use crate::correction::{amount, between, changed, damaged, places, too_high};
use crate::file::{Counts, Form};
use crate::files::{bytes, delivery, samples, shifts_of, spoil, Delivery};
use crate::nearest::{differences, radius};
use crate::{calls, damage, file, model, Draw, Met, Tally};

/// What a table has beside the numbers of refusals, and 0 for a codeword: fewer differences than the radius, as many, and no near codeword.
const NEAR: u32 = 101;
const RADIUS: u32 = 102;
const FAR: u32 = 103;

/// How the proved call did with the files of one group.
#[derive(Default)]
struct Group {
    wrong: u64,
    met: Met,
}

impl Group {
    /// Compares the six totals with the model's counts, and hands these back. The answer goes into the table.
    fn compare(&mut self, f: &[u8]) -> Result<Counts, u32> {
        let right = file::count(f);
        let (answer, totals) = match right {
            Err(n) => (n, [n as u64, 0, 0, 0, 0, 0]),
            Ok(Counts { numbers: [k, coins, rejects, most], off }) => {
                let answer = match off {
                    None => FAR,
                    Some(0) => 0,
                    Some(n) => if n < radius(1 << k) { NEAR } else { RADIUS },
                };
                (answer, [0, k, coins, rejects, most, off.map_or(65536, |n| n as u64)])
            }
        };
        self.met.add(answer);
        self.wrong += u64::from([0, 1, 2, 3, 4, 5].map(|i| calls::total(f, i)) != totals);
        right
    }

    /// The same for a file that must be accepted.
    fn accepted(&mut self, x: &Delivery) -> Counts {
        self.compare(&bytes(x)).expect("the file is accepted")
    }

    fn end(&self, t: &mut Tally, name: &str, expected: &[u32]) {
        t.answers(name, self.wrong, &self.met, expected);
    }
}

/// Changes so many symbols of the word, most often with one of the first eighth among them.
fn damage_word(d: &mut Draw, x: &mut Delivery, count: usize) {
    let n = x.w.len();
    let mut at = places(d, n, count);
    if d.below(4) != 0 && count != 0 && at.iter().all(|i| *i >= n / 8) {
        at[0] = d.below(n as u64 / 8) as usize;
    }
    x.w = changed(d, &x.s, &x.w, &at);
}

/// Honest, damaged and overlong files.
fn any_files(t: &mut Tally, form: Form) {
    let mut d = Draw(0x1f83d9abfb41bd6b);
    let (mut g, mut rejects) = (Group::default(), 0);
    for round in 0..800u64 {
        let k = if round < 12 { 8 } else { 3 + (round % 5) as usize };
        let mut x = delivery(&mut d, form, k);
        match round % 8 {
            1 | 5 => damage(&mut d, &mut x.w, 1 << x.s.l),
            2 | 6 => damage(&mut d, &mut x.proof, 1 << x.s.l),
            3 => shifts_of(form).spoil(&mut d, &mut x.s),
            7 => {
                let count = amount(&mut d, 1 << k, round as usize / 8);
                damage_word(&mut d, &mut x, count);
            }
            _ => {}
        }
        let mut f = bytes(&x);
        match round % 16 {
            5 => spoil(&mut d, &mut f, form.heads(x.s.m, k)),
            6 => f.resize(39999 + d.below(3) as usize, 0),
            8 => f.truncate(d.below(f.len() as u64) as usize),
            _ => {}
        }
        rejects += g.compare(&f).map_or(0, |r| r.numbers[2]);
    }
    g.end(t, &form.name("coin counter"), &[0, 1, 2, 3, 4, 5, 6, 9, 11, 12, NEAR, RADIUS, FAR]);
    t.group(&form.name("rejecting coins counted"), 0, rejects);
}

/// At how many positions the word differs from the polynomial through its first eighth.
fn off_first(x: &Delivery) -> usize {
    differences(&x.w, &model::word_of(x.s.m, &x.s.b, x.s.shift, &model::through_first(x.s.m, &x.s.b, x.s.shift, &x.w)))
}

/// Damages the word, or draws one at random; hands back the number of differences where it is known.
fn draw_word(d: &mut Draw, x: &mut Delivery, turn: usize) -> Option<usize> {
    let n = x.w.len();
    if turn % 7 == 6 {
        x.w = d.list(n, 1 << x.s.l);
        return None;
    }
    let count = amount(d, n, turn);
    damage_word(d, x, count);
    (count <= radius(n)).then_some(count)
}

/// Damaged words and words at random. Where the first eighth is damaged, that eighth alone would tell another number.
fn words(t: &mut Tally, form: Form) {
    let mut d = Draw(0xab1c5ed5da6d8118);
    let (mut alike, mut fronts) = (0, Met::default());
    for k in 3..=8 {
        let mut g = Group::default();
        for turn in 0..[0, 0, 0, 420, 420, 210, 126, 84, 28][k] {
            let mut x = delivery(&mut d, form, k);
            let front = x.w[..1 << (k - 3)].to_vec();
            let known = draw_word(&mut d, &mut x, turn);
            let off = g.accepted(&x).off;
            g.wrong += u64::from(known.is_some() && off != known);
            if known.is_some() && !x.w.starts_with(&front) {
                alike += u64::from(known == Some(off_first(&x)));
                fronts.add(k as u32);
            }
        }
        g.end(t, &form.name(&format!("counts of words at k = {k}")), &[0, NEAR, RADIUS, FAR]);
    }
    t.answers(&form.name("near words damaged in the first eighth, by k"), alike, &fronts, &[3, 4, 5, 6, 7, 8]);
}

/// Words at the border, whose differences are known without a search.
fn border(t: &mut Tally, form: Form) {
    let mut d = Draw(0xd807aa98a3030242);
    let mut g = Group::default();
    for turn in 0..300 {
        let mut x = delivery(&mut d, form, 3 + turn / 2 % if turn < 24 { 6 } else { 5 });
        let (w, near) = if turn % 2 == 0 { between(&mut d, &x.s) } else { (too_high(&mut d, &x.s), None) };
        let known = near.map(|c| differences(&c, &w));
        x.w = w;
        let off = g.accepted(&x).off;
        g.wrong += u64::from(off != known);
    }
    g.end(t, &form.name("counts at the border"), &[NEAR, RADIUS, FAR]);
}

/// Damaged proofs and those of other words, beside words with no damage or some: coins reject, and only the word's damage is told.
fn proofs(t: &mut Tally, form: Form) {
    let mut d = Draw(0x12835b0145706fbe);
    let mut g = Group::default();
    for turn in 0..120 {
        let k = if turn < 12 { 8 } else { 7 };
        let (mut x, other) = (delivery(&mut d, form, k), d.list(1 << (k - 3), 8));
        let n = x.proof.len() as u64;
        x.proof = match turn % 4 {
            0 => damaged(&mut d, &x.s, &x.proof, 1),
            1 => damaged(&mut d, &x.s, &x.proof, 4),
            2 => {
                let count = 1 + d.below(n) as usize;
                damaged(&mut d, &x.s, &x.proof, count)
            }
            _ => model::proof_of(x.s.m, &x.s.b, &other),
        };
        let count = if turn % 3 == 0 { amount(&mut d, 1 << k, turn / 4 % 4) } else { 0 };
        damage_word(&mut d, &mut x, count);
        let right = g.accepted(&x);
        g.wrong += u64::from(right.off != Some(count) || right.numbers[2] == 0);
    }
    g.end(t, &form.name("counts of damaged proofs"), &[0, NEAR, RADIUS]);
}

/// A sample and one that is made from it: the positions at which the words differ, and the number that is then known.
type Made = (&'static str, &'static str, fn(usize) -> bool, Option<usize>);

const MADE: [Made; 8] = [
    ("k3", "k3-word", |i| i == 0, Some(1)),
    ("k6", "k6-word", |i| i == 32, Some(1)),
    ("k7", "k7-word", |i| i == 32, Some(1)),
    ("k7-shift", "k7-shift-word", |i| i == 32, Some(1)),
    ("k8", "k8-word", |i| i == 32, Some(1)),
    ("k8", "k8-first", |i| i == 0, Some(1)),
    ("k8", "k8-radius", |i| i % 16 < 7, Some(112)),
    ("k8", "k8-far", |i| i % 16 < 7 || i == 255, None),
];

/// The samples with a damaged word have the setting and the proof of the sample that they are made from.
fn made(t: &mut Tally) {
    let mut g = Group::default();
    for (from, name, at, off) in MADE {
        let [first, second] = [from, name].map(|x| std::fs::read(format!("samples/{x}.stored")).expect("a sample can be read"));
        let [a, b] = [&first, &second].map(|f| file::read(f).ok().expect("a sample is accepted"));
        let places = (0..a.word.len()).all(|i| at(i) == (a.word[i] != b.word[i]));
        let rest = file::bytes_of(a.form, a.modulus, &a.basis, a.shift, &b.word, &a.proof) == second;
        let told = g.compare(&second).is_ok_and(|r| r.off == off);
        g.wrong += u64::from(!(places && rest && told));
    }
    g.end(t, "samples with a damaged word", &[NEAR, RADIUS, FAR]);
}

/// What the coin counter prints of a file.
fn text(f: &[u8]) -> String {
    match file::count(f) {
        Err(n) => format!("refused {n}\n"),
        Ok(Counts { numbers: [k, coins, rejects, most], off }) => {
            let off = off.map_or("far".to_string(), |n| n.to_string());
            format!("k {k}\ncoins {coins}\nrejects {rejects}\nreads-most {most}\noff {off}\n")
        }
    }
}

pub fn all(t: &mut Tally) {
    for form in [Form::One, Form::Two] {
        any_files(t, form);
        words(t, form);
        border(t, form);
        proofs(t, form);
    }
    made(t);
    samples(t, "stored", "counts", text);
}
