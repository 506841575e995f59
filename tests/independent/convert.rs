//! The converter: a file in the other form, and the length that it has there, beside the independent model.
use crate::file::{self, Form};
use crate::files::{bytes, cuts, damaged_file, Delivery};
use crate::forms::{delivery_at, sizes, FORMS};
use crate::model::LARGEST;
use crate::{calls, Draw, Met, Setting, Tally};

/// Whether both calls answer as the model, with an output of so many bytes, which starts as noise and is compared whole. The converter's
/// number goes into the table.
fn same(d: &mut Draw, f: &[u8], room: usize, met: &mut Met) -> bool {
    let old: Vec<u8> = (0..room).map(|_| d.next() as u8).collect();
    let mut out = old.clone();
    let got = calls::convert(f, &mut out);
    let right = file::converted(f);
    let length = right.as_ref().map_or_else(|n| (*n, calls::UNTOLD), |g| (0, g.len()));
    let (number, whole) = match right {
        Ok(g) if g.len() == room => (0, g),
        Ok(_) => (6, old),
        Err(n) => (n, old),
    };
    met.add(number);
    got == number && out == whole && calls::converted_length(f) == length
}

/// How many bytes the output must have; of a refused file any number.
fn right_room(f: &[u8]) -> usize {
    file::converted(f).map_or(50, |g| g.len())
}

/// The same delivery in both forms, at the shift 0.
fn pair(x: Delivery) -> [Vec<u8>; 2] {
    let mut x = Delivery { s: Setting { shift: 0, ..x.s }, ..x };
    FORMS.map(|form| {
        x.form = form;
        bytes(&x)
    })
}

/// By the calls: the file in the other form, and that one in the first form again.
fn there_and_back(f: &[u8]) -> Option<[Vec<u8>; 2]> {
    let moved = |f: &[u8]| {
        let (number, length) = calls::converted_length(f);
        let mut out = vec![9; if number == 0 { length } else { 0 }];
        (number == 0 && calls::convert(f, &mut out) == 0).then_some(out)
    };
    let there = moved(f)?;
    let back = moved(&there)?;
    Some([there, back])
}

/// Each degree and dimension from both ends: there is the same delivery in the other form, and back are the first bytes.
fn both_ways(t: &mut Tally) {
    let mut d = Draw(0x5b9cca4f7763e373);
    let (mut wrong, mut met) = (0, Met::default());
    for (form, l, k) in sizes() {
        let [one, two] = pair(delivery_at(&mut d, form, l, k));
        let (from, to) = if form == Form::One { (one, two) } else { (two, one) };
        wrong += u64::from(!same(&mut d, &from, to.len(), &mut met));
        wrong += u64::from(there_and_back(&from) != Some([to, from]));
    }
    t.answers("files converted there and back", wrong, &met, &[0]);
}

/// The paper's file in both forms.
fn known(t: &mut Tally) {
    let one = [b"SE\x0b\0\0\0\x03\x01\0\x02\0\x04\0WO\x08\0\0\0".as_slice(), &[5, 0].repeat(8), b"PF\0\0\0\0"].concat();
    let two = [b"S2\x0b\0\0\0\x03\x01\0\x02\0\x04\0\0\0W2\x08\0\0\0".as_slice(), &[5; 8], b"P2\0\0\0\0"].concat();
    let right = [
        there_and_back(&one) == Some([two.clone(), one.clone()]),
        there_and_back(&two) == Some([one.clone(), two.clone()]),
        file::converted(&one).as_ref() == Ok(&two),
        file::converted(&two).as_ref() == Ok(&one),
        calls::converted_length(&one) == (0, 35),
        calls::converted_length(&two) == (0, 41),
    ];
    t.group("the paper's file converted", right.iter().filter(|x| !**x).count() as u64, 6);
}

/// A copy with one byte changed.
fn with(f: &[u8], at: usize, to: u8) -> Vec<u8> {
    let mut g = f.to_vec();
    g[at] = to;
    g
}

/// Files whose number is known, the converter's among them: 14 comes after the file's own. The last ones have the shift 1 too.
fn faulty(f: &[u8], form: Form, l: u32, k: usize) -> Vec<(Vec<u8>, u32)> {
    let (longer, cut) = (|f: &[u8]| [f, &[0]].concat(), |f: &[u8]| f[..f.len() - 1].to_vec());
    let mut all = vec![(f.to_vec(), 0), (longer(f), 12), (cut(f), 11)];
    if form == Form::Two {
        let moved = with(f, 7 + 2 * k, 1);
        if l < 16 {
            all.push((with(f, 8 + 2 * k, 128), 4));
        }
        all.extend([(with(&moved, 4, 2), 1), (with(&moved, 6, LARGEST as u8 + 1), 3), (longer(&moved), 12), (cut(&moved), 11), (moved, 14)]);
    }
    all
}

/// Outputs of the right length and of others: 6 comes last.
fn rooms(t: &mut Tally) {
    let mut d = Draw(0x682e6ff3d6b2b8a3);
    let (mut wrong, mut met) = (0, Met::default());
    for (form, l, k) in sizes() {
        let [one, two] = pair(delivery_at(&mut d, form, l, k));
        let (f, n) = if form == Form::One { (&one, two.len()) } else { (&two, one.len()) };
        for (g, number) in faulty(f, form, l, k) {
            wrong += u64::from(file::converted(&g).err().unwrap_or(0) != number);
            for room in [n, n - 1, n + 1, f.len(), 2 * n, 1, 0] {
                wrong += u64::from(!same(&mut d, &g, room, &mut met));
            }
        }
    }
    t.answers("converter with outputs of other lengths", wrong, &met, &[0, 1, 3, 4, 6, 11, 12, 14]);
}

/// Puts the shift 0 into a file of form 2 that is long enough.
fn unshift(f: &mut [u8]) {
    if f.starts_with(&Form::Two.marks()[0]) && f.len() > 6 {
        let at = 7 + 2 * f[6] as usize;
        if f.len() >= at + 2 {
            f[at..at + 2].fill(0);
        }
    }
}

/// Files of the shift 0, cut at every length.
fn cut(t: &mut Tally) {
    let mut d = Draw(0x8cc702081a6439ec);
    for form in FORMS {
        cuts(t, form, "files cut at every length and converted", |f, met| {
            let mut g = f.to_vec();
            unshift(&mut g);
            same(&mut d, &g, right_room(&g), met)
        });
    }
}

/// Damaged files of both forms, those of form 2 often with the shift 0.
fn damaged(t: &mut Tally) {
    let mut d = Draw(0x748f82ee5defb2fc);
    for form in FORMS {
        let (mut wrong, mut met) = (0, Met::default());
        for _ in 0..4000 {
            let k = 3 + d.below(5) as usize;
            let mut f = damaged_file(&mut d, form, k);
            if d.below(3) != 0 {
                unshift(&mut f);
            }
            let room = d.near(right_room(&f));
            wrong += u64::from(!same(&mut d, &f, room, &mut met));
        }
        let all = [0, 1, 2, 3, 4, 5, 6, 9, 11, 12, 14];
        t.answers(&form.name("damaged files converted"), wrong, &met, if form == Form::One { &all[..10] } else { &all });
    }
}

/// All shifts of some files, in an output of the right length and in another: 14 for those in range that are not 0.
fn shifts(t: &mut Tally) {
    let (mut wrong, mut met) = (0, Met::default());
    for (m, degree) in [(11, 3), (283, 8), (515, 9), (65581, 16)] {
        let mut f = file::bytes_of(Form::Two, m, &[1, 2, 4], 0, &[5; 8], &[]);
        for (shift, room) in (0..=65535u16).flat_map(|shift| [(shift, 41), (shift, 40)]) {
            f[13..15].copy_from_slice(&shift.to_le_bytes());
            let number = match shift {
                0 if room == 41 => 0,
                0 => 6,
                _ => if shift as u32 >> degree == 0 { 14 } else { 4 },
            };
            let mut out = [9; 41];
            let got = calls::convert(&f, &mut out[..room]);
            wrong += u64::from(got != number || (number != 0 && out != [9; 41]));
            met.add(number);
        }
    }
    t.answers("all shifts of some files converted", wrong, &met, &[0, 4, 6, 14]);
}

/// The samples that stand in both forms, `NAME.stored` and `NAME-form2.stored`, are each other's conversion.
fn samples(t: &mut Tally) {
    let (mut wrong, mut cases) = (0, 0);
    for entry in std::fs::read_dir("samples").expect("the samples are there") {
        let path = entry.expect("the samples can be listed").path();
        let name = path.to_string_lossy().into_owned();
        if let Some(first) = name.strip_suffix("-form2.stored") {
            let [one, two] = [format!("{first}.stored"), name.clone()].map(|p| std::fs::read(p).expect("a sample can be read"));
            wrong += u64::from(file::converted(&one).as_ref() != Ok(&two) || file::converted(&two).as_ref() != Ok(&one));
            wrong += u64::from(there_and_back(&one) != Some([two, one]));
            cases += 1;
        }
    }
    t.group("samples in both forms", wrong, cases);
}

pub fn all(t: &mut Tally) {
    both_ways(t);
    known(t);
    rooms(t);
    cut(t);
    damaged(t);
    shifts(t);
    samples(t);
}
